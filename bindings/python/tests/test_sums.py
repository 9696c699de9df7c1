"""Each call on tuple sketches of sums."""
import copy
import operator
import pickle

import model_distinct
import pytest
from kaftanclay import (
    DEFAULT_SEED,
    MAX_THETA,
    CompactTupleSums,
    FailedError,
    InvalidArgumentError,
    InvalidDataError,
    PolicyError,
    SketchError,
    ThetaSketch,
    TupleSums,
    TupleSumsIntersection,
    TupleSumsUnion,
)


def hash_of(key, seed=DEFAULT_SEED):
    data = key.encode() if isinstance(key, str) else key if isinstance(key, bytes) else key.to_bytes(8, "little")
    return model_distinct.murmur(data, seed) >> 1


def sums_of(values, lg_k=12, seed=DEFAULT_SEED):
    """A trimmed sketch of a dict of keys and values."""
    sums = TupleSums(lg_k, seed)
    for key, value in values.items():
        sums.update(key, value)
    sums.trim()
    return sums


def items_of(values, k=4096):
    """The items of such a sketch, and its theta, from the pages alone."""
    hashes, theta = model_distinct.cut(k, {hash_of(key) for key in values}, MAX_THETA)
    return sorted((hash_of(key), value) for key, value in values.items() if hash_of(key) in hashes), theta


def value_of(values, seed=DEFAULT_SEED):
    """Such a sketch, from the pages alone: None if it is empty, or a dict of its hashes and their sums, and its theta."""
    sums = {hash_of(key, seed): value for key, value in values.items()}
    hashes, theta = model_distinct.cut(4096, sums, MAX_THETA)
    return ({hash: sums[hash] for hash in hashes}, theta) if values else None


def combined(kind, first, second):
    """The intersection, by &, or the difference, by -, of two such sketches, from the pages alone."""
    return model_distinct.two_sums(kind, first, second, 4096, operator.add)


def image_of(value, seed=DEFAULT_SEED):
    return model_distinct.image_of(value, model_distinct.seed_hash(seed), of_sums=True)


def test_sums():
    sums = TupleSums()
    assert sums.is_empty and sums.items() == [] and sums.total == 0.0
    for key, value in (("ann", 5), (b"bob", 7), ("ann", 10), (9, 1), ("bob", 0)):
        sums.update(key, value)
    sums.update("cy")
    assert sums.items() == items_of({"ann": 15, "bob": 7, 9: 1, "cy": 1})[0]
    assert sums.total == 24.0 and sums.estimate == 4.0 and sums.bounds() == (4, 4) and len(sums) == 4 and not sums.is_empty
    assert bytes(sums) == sums.to_bytes() and sums.to_bytes()[2] == 9
    assert repr(sums) == "<TupleSums of 4 keys, lg_k 12>"
    assert "<td>4, exact</td></tr><tr><th>total</th><td>24</td></tr><tr><th>retained hashes</th><td>4</td></tr>" in sums.compact()._repr_html_()
    sums.reset()
    assert sums.is_empty and sums.items() == []


def test_estimated_total():
    values = {key: key % 10 for key in range(5000)}
    sums = sums_of(values, 8)
    items, theta = items_of(values, 256)
    assert (sums.items(), sums.theta, len(sums)) == (items, theta, 256)
    for it in (sums, sums.compact()):
        total = sum(value for _, value in items) * MAX_THETA
        assert it.total == total / theta and it.total_text() == str(total // theta)
        assert it.total_text(19).replace(".", "") == str(total * 10**19 // theta)
        with pytest.raises(InvalidArgumentError, match="decimals"):
            it.total_text(20)
    assert 0.8 * 22500 < sums.total < 1.2 * 22500


def test_union():
    first, second = {key: key + 1 for key in range(3000)}, {key: 10 for key in range(2000, 6000)}
    both = {key: first.get(key, 0) + second.get(key, 0) for key in first | second}
    a, b = sums_of(first), sums_of(second)
    for left, right in ((a, b), (b, a), (a.compact(), b), (a, b.compact())):
        found = left | right
        assert (found.items(), found.theta) == items_of(both) and found.lg_k == 12
    union = TupleSumsUnion(13)
    for it in (a, b.compact(), TupleSums(), a.to_bytes()):
        union.update(it)
    assert union.result().items() == items_of({key: both[key] + first.get(key, 0) for key in both}, 8192)[0]
    assert union.result().total == sum(both.values()) + sum(first.values())
    with pytest.raises(InvalidDataError):
        union.update(ThetaSketch().to_bytes())
    for other in (5, "ann", None, ThetaSketch()):
        with pytest.raises(TypeError):
            union.update(other)
    union.reset()
    assert union.result().is_empty and (union.lg_k, union.seed) == (13, DEFAULT_SEED)


def test_sum_of_a_union_is_too_great():
    most = sums_of({"ann": 2**64 - 1, "bob": 1})
    with pytest.raises(PolicyError):
        most | sums_of({"ann": 1})
    union = TupleSumsUnion()
    union.update(most)
    with pytest.raises(PolicyError):
        union.update(most)
    for call in (union.result, lambda: union.update(TupleSums())):
        with pytest.raises(FailedError):
            call()
    union.reset()
    union.update(most)
    assert union.result() == most.compact() and union.result().total == 2.0**64


@pytest.mark.parametrize("seed", [DEFAULT_SEED, 7])
@pytest.mark.parametrize("count", [0, 1, 2, 4096, 4097, 20000])
def test_intersections_and_differences(count, seed):
    """Of exact and estimating sketches that overlap by half, with the empty sketch, with a small one and with themselves."""
    first = {key: key % 7 for key in range(count)}
    second = {key: key % 5 + 10 for key in range(count // 2, count + count // 2)}
    few = {key: 2**40 + key for key in range(90)}
    a, b, c, empty = sums_of(first, 12, seed), sums_of(second, 12, seed), sums_of(few, 12, seed), TupleSums(seed=seed)
    x, y, z = value_of(first, seed), value_of(second, seed), value_of(few, seed)
    pairs = [(a, b, x, y), (b, a, y, x), (a.compact(), b, x, y), (a, b.compact(), x, y), (a.compact(), b.compact(), x, y)]
    pairs += [(a, a, x, x), (a, empty, x, None), (empty, b, None, y), (a, c, x, z), (c, a, z, x), (b, c, y, z)]
    for left, right, *values in pairs:
        both, rest = left & right, left - right
        assert both.to_bytes() == image_of(combined("&", *values), seed)
        assert rest.to_bytes() == image_of(combined("-", *values), seed)
        for it in (both, rest):
            assert type(it) is CompactTupleSums and (it.lg_k, it.seed) == (12, seed)
    assert a.to_bytes() == image_of(x, seed) and c.to_bytes() == image_of(z, seed)
    if count <= 4096:
        assert (a & b).total == sum(first[key] + second[key] for key in first.keys() & second.keys())
        assert (a - b).total == sum(first[key] for key in first.keys() - second.keys())


def test_estimates_of_an_intersection_and_a_difference():
    first, second = {key: key % 10 for key in range(30000)}, {key: 3 for key in range(10000, 40000)}
    a, b = sums_of(first), sums_of(second)
    shared, total = [key for key in first if key in second], sum(first[key] + 3 for key in range(10000, 30000))
    assert 0.9 * len(shared) < (a & b).estimate < 1.1 * len(shared) and 0.9 * total < (a & b).total < 1.1 * total
    assert (a & b).theta == (a - b).theta == min(a.theta, b.theta) and not (a & b).is_exact
    assert 0.9 * 45000 < (a - b).total < 1.1 * 45000
    assert ((a & b) | (a - b)).estimate_fraction == (a & b).estimate_fraction + (a - b).estimate_fraction
    assert (sums_of({"ann": 1}, 10) & sums_of({"ann": 1}, 14)).lg_k == (sums_of({}, 14) - sums_of({}, 10)).lg_k == 14


def test_intersection():
    meet = TupleSumsIntersection()
    with pytest.raises(InvalidArgumentError, match="before its first sketch"):
        meet.result()
    parts = [{key: key for key in range(3000)}, {key: 1 for key in range(1000, 4000)}, {key: key % 9 for key in range(2000, 9000)}]
    meet.update(sums_of(parts[0]))
    assert meet.result() == sums_of(parts[0]).compact()
    meet.update(sums_of(parts[1]).to_bytes())
    meet.update(sums_of(parts[2]).compact())
    first, second, third = map(value_of, parts)
    wanted = image_of(combined("&", combined("&", first, second), third))
    assert meet.result().to_bytes() == wanted and meet.seed == DEFAULT_SEED
    truth = sum(part[key] for part in parts for key in range(2000, 3000))
    assert 0.9 * truth < meet.result().total < 1.1 * truth
    for data in (b"abc", bytes(8), ThetaSketch().to_bytes(), sums_of({"ann": 1}, seed=1).to_bytes()):
        with pytest.raises(InvalidDataError):
            meet.update(data)
    for other in (5, "ann", None, ThetaSketch(), TupleSumsUnion(), meet):
        with pytest.raises(TypeError):
            meet.update(other)
    with pytest.raises(InvalidArgumentError, match="different seeds"):
        meet.update(sums_of({"ann": 1}, seed=1))
    assert meet.result().to_bytes() == wanted
    meet.update(TupleSums())
    meet.update(sums_of(parts[0]))
    assert meet.result().is_empty and meet.result().to_bytes() == TupleSums().to_bytes()


def test_sum_of_an_intersection_is_too_great():
    most, more = sums_of({"ann": 2**64 - 1, "bob": 1}), sums_of({"ann": 1, "cy": 5})
    with pytest.raises(PolicyError, match="2\\^64"):
        most & more
    meet = TupleSumsIntersection()
    meet.update(most)
    for sketch in (more, more.compact(), more.to_bytes()):
        with pytest.raises(PolicyError):
            meet.update(sketch)
        assert meet.result() == most.compact()
    meet.update(sums_of({"ann": 0, "bob": 2, "cy": 2**64 - 1}))
    assert meet.result().to_bytes() == image_of(value_of({"ann": 2**64 - 1, "bob": 3}))
    # A difference adds up nothing, and an intersection no sum of a key that isn't shared.
    assert (most - sums_of({"bob": 2**64 - 1})).to_bytes() == image_of(value_of({"ann": 2**64 - 1}))
    assert (most & sums_of({"bob": 2})).to_bytes() == image_of(value_of({"bob": 3}))


def test_compact_sums_are_values():
    compact = sums_of({key: key for key in range(9000)}).compact()
    read = CompactTupleSums.from_bytes(compact.to_bytes())
    assert read == compact and hash(read) == hash(compact) and read != sums_of({"ann": 1}).compact()
    for other in (copy.copy(read), copy.deepcopy(read), pickle.loads(pickle.dumps(read))):
        assert other == read and other.lg_k == read.lg_k
    for data in (b"", b"abc", ThetaSketch().to_bytes(), compact.to_bytes()[:-1], compact.to_bytes() + b"more"):
        with pytest.raises(InvalidDataError):
            CompactTupleSums.from_bytes(data)
    with pytest.raises(InvalidDataError, match="another seed hash"):
        CompactTupleSums.from_bytes(compact.to_bytes(), seed=1)
    with pytest.raises(InvalidDataError, match="bytes follow the image$"):
        CompactTupleSums.from_bytes(compact.to_bytes() + b"m")
    with pytest.raises(InvalidDataError, match="another family .*found: 3"):
        CompactTupleSums.from_bytes(ThetaSketch().to_bytes())
    for call in (CompactTupleSums, lambda: CompactTupleSums.from_bytes(5)):
        with pytest.raises(TypeError):
            call()


def test_copies_take_updates():
    sums = TupleSums(5)
    for key in range(1000):
        sums.update(key, key)
    for other in (copy.copy(sums), copy.deepcopy(sums), pickle.loads(pickle.dumps(sums)), TupleSums.from_bytes(bytes(sums), lg_k=5)):
        assert other.to_bytes() == sums.to_bytes() and other.lg_k == 5
        before = len(sums)
        other.update("more than before", 7)
        other.reset()
        assert other.is_empty and other.theta == MAX_THETA and len(sums) == before
    half = TupleSums(starting_theta=2**62, resize_factor=2)
    for other in (half, copy.copy(half), pickle.loads(pickle.dumps(half))):
        for key in range(2000):
            other.update(key, 3)
        assert other.theta == 2**62 and 900 < len(other) < 1100 and other.total == 6.0 * len(other)


def test_refusals():
    sums = TupleSums()
    sums.update("ann", 2**64 - 1)
    with pytest.raises(PolicyError, match="2\\^64"):
        sums.update("ann", 1)
    assert sums.items() == [(hash_of("ann"), 2**64 - 1)]
    assert issubclass(PolicyError, SketchError) and issubclass(PolicyError, OverflowError)
    for value in (-1, 2**64):
        with pytest.raises(InvalidArgumentError):
            sums.update("bob", value)
    for key, value in ((1.5, 1), ("bob", 1.5)):
        with pytest.raises(TypeError):
            sums.update(key, value)
    assert len(sums) == 1
    for make in (TupleSums, TupleSumsUnion):
        for lg_k in (3, 27, 300):
            with pytest.raises(InvalidArgumentError, match="lg_k"):
                make(lg_k)
    for call in (operator.or_, operator.and_, operator.sub):
        with pytest.raises(InvalidArgumentError, match="different seeds"):
            call(sums, TupleSums(seed=1))
        for other in (ThetaSketch(), ThetaSketch().compact(), 5, "ann"):
            with pytest.raises(TypeError):
                call(sums, other)
            with pytest.raises(TypeError):
                call(other, sums.compact())
    # The hash of the seed 50541 is 0.
    for seed in (-1, 2**64, 50541):
        with pytest.raises(InvalidArgumentError):
            TupleSumsIntersection(seed)
    for call in (copy.copy, copy.deepcopy, pickle.dumps):
        for made in (TupleSumsUnion(), TupleSumsIntersection()):
            with pytest.raises(TypeError, match="take its result"):
                call(made)
