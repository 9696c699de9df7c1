"""Tuple sketches of least and of greatest values, beside dicts of Python and the second program."""
import copy
import pickle
import random
from array import array

import model_distinct
import pytest
from kaftanclay import (
    DEFAULT_SEED,
    MAX_THETA,
    CompactTupleSums,
    FailedError,
    InvalidArgumentError,
    PolicyError,
    TupleSums,
    TupleSumsIntersection,
    TupleSumsUnion,
)

MOST = 2**64 - 1
KEEPS = {"sum": lambda first, second: first + second, "min": min, "max": max}


def stream(chance, mode, keys, count):
    """Random keys and values; of these many are equal, and with the modes min and max some are the greatest."""
    most = 2**40 if mode == "sum" else MOST
    return [(chance.choice(keys), chance.choice((0, 1, most, chance.randrange(most), chance.randrange(9)))) for _ in range(count)]


def kept_of(mode, pairs, k=4096):
    """What a sketch has of such a stream: its hashes with a value of each, and its theta; None if it is empty."""
    values = {}
    for key, value in pairs:
        hash = model_distinct.murmur(str(key).encode(), DEFAULT_SEED) >> 1
        values[hash] = KEEPS[mode](values[hash], value) if hash in values else value
    hashes, theta = model_distinct.cut(k, values, MAX_THETA)
    return ({hash: values[hash] for hash in hashes}, theta) if pairs else None


def combined(kind, mode, first, second, k=4096):
    """The union, by |, or the intersection, by &, of two of these; the hashes are those of sets."""
    parts = [part and (set(part[0]), part[1]) for part in (first, second)]
    both = model_distinct.meet(parts) if kind == "&" else model_distinct.unite(k, parts)
    one, other = (part[0] if part else {} for part in (first, second))
    values = {hash: one.get(hash, other.get(hash)) for hash in one.keys() | other.keys()}
    values.update({hash: KEEPS[mode](one[hash], other[hash]) for hash in one.keys() & other.keys()})
    return both and ({hash: values[hash] for hash in both[0]}, both[1])


def sketch_of(mode, pairs, lg_k=12):
    """A trimmed sketch, given some pairs one by one, and some as a list, an iterator or an array."""
    sketch, at = TupleSums(lg_k, mode=mode), 0
    for size in (7, 90, len(pairs)):
        keys, values = [str(key) for key, _ in pairs[at : at + size]], [value for _, value in pairs[at : at + size]]
        at += size
        if size == 7:
            for pair in zip(keys, values):
                sketch.update(*pair)
        else:
            sketch.update_many(keys, array("Q", values) if size == 90 else iter(values))
    sketch.trim()
    return sketch


def check(sketch, mode, kept):
    assert sketch.mode == mode
    assert sketch.to_bytes() == model_distinct.image_of(kept, model_distinct.seed_hash(DEFAULT_SEED), of_sums=True)
    total, theta = (sum(kept[0].values()), kept[1]) if kept else (0, MAX_THETA)
    assert sketch.total_fraction * theta == total * MAX_THETA and sketch.total_text() == str(total * MAX_THETA // theta)
    assert dict(sketch.items()) == (kept[0] if kept else {})


@pytest.mark.parametrize("mode", KEEPS)
@pytest.mark.parametrize("start", range(4))
def test_streams(mode, start):
    """Exact and estimating sketches, their copies, and what they become with more updates."""
    chance = random.Random(start)
    for count, lg_k in ((0, 12), (1, 12), (300, 12), (3000, 5), (20000, 12)):
        pairs = stream(chance, mode, range(count // 3 + 1), count)
        sketch, kept = sketch_of(mode, pairs, lg_k), kept_of(mode, pairs, 2**lg_k)
        image = bytes(sketch)
        read = TupleSums.from_bytes(image, lg_k=lg_k, mode=mode)
        for it in (sketch, sketch.compact(), copy.copy(sketch), copy.deepcopy(sketch), pickle.loads(pickle.dumps(sketch)), read,
                   pickle.loads(pickle.dumps(sketch.compact())), CompactTupleSums.from_bytes(image, mode=mode)):
            check(it, mode, kept)
        guessed = pickle.loads(pickle.dumps(CompactTupleSums.from_bytes(image, mode=mode)))
        assert guessed.mode == mode and guessed._guesses_lg_k
        more = stream(chance, mode, range(count // 3 + 9), 50)
        for it in (copy.copy(sketch), pickle.loads(pickle.dumps(sketch)), read):
            it.update_many([str(key) for key, _ in more], [value for _, value in more])
            it.trim()
            check(it, mode, kept_of(mode, pairs + more, 2**lg_k))
        sketch.reset()
        sketch.update("ann", 5)
        sketch.update("ann", 3)
        check(sketch, mode, kept_of(mode, [("ann", 5), ("ann", 3)]))


@pytest.mark.parametrize("mode", KEEPS)
@pytest.mark.parametrize("count", [0, 1, 900, 9000])
def test_operators(mode, count):
    """Unions and intersections by operators and by objects, of sketches, compact ones and images."""
    chance = random.Random(count)
    pairs = [stream(chance, mode, range(count * at // 4, count * (at + 4) // 4 + 1), count) for at in range(3)]
    pairs.append([])
    sketches, kept = [sketch_of(mode, it) for it in pairs], [kept_of(mode, it) for it in pairs]
    for at, left in enumerate(sketches):
        for to, right in enumerate(sketches):
            for first, second in ((left, right), (left.compact(), right), (left, right.compact())):
                check(first | second, mode, combined("|", mode, kept[at], kept[to]))
                check(first & second, mode, combined("&", mode, kept[at], kept[to]))
                assert (first - second).mode == mode
                assert dict((first - second).items()).items() <= dict(left.items()).items()
    union, meet = TupleSumsUnion(13, mode=mode), TupleSumsIntersection(mode=mode)
    assert union.mode == meet.mode == mode
    for _ in range(2):
        for it in sketches[:3]:
            for operator in (union, meet):
                operator.update(chance.choice((it, it.compact(), it.to_bytes(), [it])))
        united, met = None, kept[0]
        for it in kept[:3]:
            united = combined("|", mode, united, it, 8192)
        for it in kept[1:3]:
            met = combined("&", mode, met, it)
        check(union.result(), mode, united)
        check(meet.result(), mode, met)
        union.reset()
        meet = TupleSumsIntersection(mode=mode)


def test_operators_of_another_mode():
    """The mode of an operator decides, and not those of its sketches: here the sum of two minima, and the least of two sums."""
    first, second = TupleSums(mode="min"), TupleSums(mode="min")
    first.update_many(["ann", "ann", "bob"], [5, 3, 8])
    second.update_many(["ann", "cy"], [10, 1])
    union, meet = TupleSumsUnion(), TupleSumsIntersection()
    for it in (first, second):
        union.update(it)
        meet.update(it)
    assert (union.result().total, union.result().mode, meet.result().total) == (22.0, "sum", 13.0)
    for made in (union.result() | union.result(), union.result() & union.result()):
        assert made.total == 44.0
    for call in (lambda: first | union.result(), lambda: union.result() & first, lambda: first.compact() | CompactTupleSums.from_bytes(bytes(second))):
        with pytest.raises(InvalidArgumentError, match="different modes, (sum and min|min and sum); pass them to a TupleSumsUnion"):
            call()
    assert (first - union.result()).is_exact and (first - union.result()).mode == "min" and (union.result() - first).mode == "sum"
    least = TupleSumsUnion(mode="min")
    least.update([union.result(), first])
    assert sorted(value for _, value in least.result().items()) == [1, 3, 8]


def test_greatest_values_are_no_sums():
    """The greatest value, often: only a sum is refused."""
    for mode in KEEPS:
        sketch, other = TupleSums(mode=mode), TupleSums(mode=mode)
        for it in (sketch, other):
            it.update("ann", MOST)
        calls = (lambda it: it.update("ann", MOST), lambda it: it | other, lambda it: it & other, lambda it: it.update_many(["ann"] * 9, MOST))
        for call in calls:
            if mode == "sum":
                with pytest.raises(PolicyError):
                    call(sketch)
            else:
                call(sketch)
            assert sketch.total_text() == str(MOST)
        union = TupleSumsUnion(mode=mode)
        union.update(sketch)
        if mode == "sum":
            with pytest.raises(PolicyError):
                union.update(sketch)
            with pytest.raises(FailedError):
                union.result()
        else:
            union.update(sketch)
            assert union.result() == sketch.compact()


def test_refused_modes():
    image = TupleSums().to_bytes()
    makers = (
        lambda mode: TupleSums(mode=mode), lambda mode: TupleSumsUnion(mode=mode), lambda mode: TupleSumsIntersection(mode=mode),
        lambda mode: TupleSums.from_bytes(image, mode=mode), lambda mode: CompactTupleSums.from_bytes(image, mode=mode),
    )
    for make in makers:
        for mode in ("avg", "", "SUM", "summ", "minimum", "s\0m"):
            with pytest.raises(InvalidArgumentError, match="a mode is 'sum', 'min' or 'max', not "):
                make(mode)
        for mode in (0, None, b"sum"):
            with pytest.raises(TypeError, match="a mode is 'sum', 'min' or 'max', not (int|NoneType|bytes)"):
                make(mode)
        assert make("sum") is not None
    for call in (lambda: TupleSums(12, DEFAULT_SEED, "min"), lambda: TupleSumsUnion(12, DEFAULT_SEED, "min"), lambda: TupleSumsIntersection(DEFAULT_SEED, "min")):
        with pytest.raises(TypeError, match="positional"):
            call()
    sketch = TupleSums(mode="max")
    with pytest.raises(AttributeError):
        sketch.mode = "min"
    with pytest.raises(InvalidArgumentError):
        sketch.__init__(mode="avg")
    sketch.update("ann", 1)
    assert sketch.mode == "max" and "<tr><th>mode</th><td>max</td></tr>" in sketch._repr_html_()
    assert repr(sketch) == "<TupleSums of 1 keys, lg_k 12, mode max>"
    assert repr(sketch.compact() | sketch) == "<CompactTupleSums of 1 keys, lg_k 12, mode max>"
