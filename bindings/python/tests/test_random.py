"""Random calls, compared with sets and dicts of Python: all sketches are exact."""
import copy
import pickle
import random
import struct
from array import array

import pytest
from kaftanclay import CompactThetaSketch, CompactTupleSums, InvalidArgumentError, ThetaSketch, ThetaUnion, TupleSums, TupleSumsUnion

MOST = 2**64 - 1
KEEPS = {"sum": lambda first, second: first + second, "min": min, "max": max}


def random_key(chance):
    number = chance.randrange(60)
    return chance.choice(
        (
            number, -number, number << 58, f"key {number}", f"schlüssel {number}", b"%d" % number, bytearray(b"%d" % number),
            memoryview(b"%d" % number), bool(number % 2), "x" * number, b"",
        )
    )


def hashed(key):
    """What two equal keys have in common."""
    if isinstance(key, str):
        return key.encode()
    return struct.pack("<Q", key & MOST) if isinstance(key, int) else bytes(key)


def as_some_iterable(chance, keys):
    form = chance.randrange(4)
    if form == 0 and all(type(key) is int and key >= 0 for key in keys):
        return array("Q", keys)
    return (keys, tuple(keys), iter(keys), (key for key in keys))[form]


def check_theta(sketch, keys):
    assert len(sketch) == len(keys) and sketch.estimate == len(keys) and sketch.is_empty == (not keys)
    assert sketch.is_exact and sketch.bounds(3) == (len(keys), len(keys)) and sketch.estimate_text(1) == f"{len(keys)}.0"
    wanted = ThetaSketch()
    wanted.update_many(keys)
    assert sketch.to_bytes() == wanted.to_bytes() and sketch.hashes() == wanted.hashes()


@pytest.mark.parametrize("start", range(6))
def test_theta(start):
    chance = random.Random(start)
    pool = [(ThetaSketch(chance.randrange(10, 14)), set()) for _ in range(4)]
    for _ in range(400):
        at, other = chance.randrange(len(pool)), chance.randrange(len(pool))
        sketch, keys = pool[at]
        step = chance.randrange(12)
        if step < 3:
            key = random_key(chance)
            sketch.update(key)
            keys.add(hashed(key))
        elif step < 5:
            some = [random_key(chance) for _ in range(chance.randrange(40))]
            sketch.update_many(as_some_iterable(chance, some))
            keys.update(map(hashed, some))
        elif step == 5:
            with pytest.raises((TypeError, InvalidArgumentError)):
                sketch.update(chance.choice((1.5, None, 2**64, [], object())))
        elif step == 6:
            pool[at] = chance.choice((copy.copy, copy.deepcopy, lambda it: pickle.loads(pickle.dumps(it))))(sketch), set(keys)
        elif step == 7:
            pool[at] = ThetaSketch.from_bytes(sketch.to_bytes(), lg_k=sketch.lg_k), set(keys)
        elif step == 8 and not chance.randrange(4):
            sketch.reset()
            keys.clear()
        elif step == 9:
            sketch.trim()
        elif step == 10:
            second, those = pool[other]
            parts = [it.compact() if chance.randrange(2) else it for it in (sketch, second)]
            for result, wanted in ((parts[0] | parts[1], keys | those), (parts[0] & parts[1], keys & those), (parts[0] - parts[1], keys - those)):
                assert type(result) is CompactThetaSketch and len(result) == len(wanted) == result.estimate
        else:
            union, wanted = ThetaUnion(12), set()
            for it, those in pool:
                union.update(chance.choice((it, it.compact(), it.to_bytes())))
                wanted |= those
            assert len(union.result()) == len(wanted)
        check_theta(*pool[at])


@pytest.mark.parametrize("mode", KEEPS)
@pytest.mark.parametrize("start", range(6))
def test_sums(start, mode):
    chance, keep = random.Random(100 + start), KEEPS[mode]
    most = 2**40 if mode == "sum" else MOST
    pool = [(TupleSums(chance.randrange(10, 14), mode=mode), {}) for _ in range(3)]

    def count(sums, key, value):
        sums[key] = keep(sums[key], value) if key in sums else value

    def united(parts):
        found = {}
        for part in parts:
            for key, value in part.items():
                count(found, key, value)
        return sum(found.values())

    for _ in range(400):
        at, other = chance.randrange(len(pool)), chance.randrange(len(pool))
        sketch, sums = pool[at]
        step = chance.randrange(9)
        if step < 3:
            key, value = random_key(chance), chance.choice((0, 1, chance.randrange(most)))
            sketch.update(key, value)
            count(sums, hashed(key), value)
        elif step < 5:
            some = [random_key(chance) for _ in range(chance.randrange(40))]
            values = [chance.randrange(most) for _ in some]
            sketch.update_many(as_some_iterable(chance, some), chance.choice((values, iter(values), array("Q", values))))
            for key, value in zip(some, values):
                count(sums, hashed(key), value)
        elif step == 5:
            read = lambda it: TupleSums.from_bytes(bytes(it), mode=mode)  # noqa: E731
            pool[at] = chance.choice((copy.copy, lambda it: pickle.loads(pickle.dumps(it)), read))(sketch), dict(sums)
        elif step == 6:
            second, those = pool[other]
            both, meet, rest = sketch | second, sketch & second, sketch - second
            assert type(both) is CompactTupleSums and both.total_fraction == united((sums, those))
            assert meet.total_fraction == sum(keep(sums[key], those[key]) for key in sums.keys() & those.keys())
            assert rest.total_fraction == sum(sums[key] for key in sums.keys() - those.keys())
        elif step == 7:
            union = TupleSumsUnion(12, mode=mode)
            for it, _ in pool:
                union.update(chance.choice((it, it.compact(), it.to_bytes())))
            assert union.result().total_fraction == united(those for _, those in pool)
        elif not chance.randrange(4):
            sketch.reset()
            sums.clear()
        sketch, sums = pool[at]
        assert len(sketch) == len(sums) and sketch.total_fraction == sum(sums.values()) and sketch.mode == mode
        assert sorted(value for _, value in sketch.items()) == sorted(sums.values())
