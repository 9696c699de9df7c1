"""Damaged images: what the library reads is what a second reader reads."""
import random

import pytest
from kaftanclay import (
    CompactThetaSketch, CompactTupleSums, InvalidDataError, ThetaIntersection, ThetaSketch, ThetaUnion, TupleSums, TupleSumsIntersection,
    TupleSumsUnion,
)
from read_images import damaged, length_of, sketch_line

COUNT = 10000


def line_of(kind, image):
    """What is read, in the words of checks/read_images.py, with the entries in order."""
    family = CompactThetaSketch if kind == "theta" else CompactTupleSums
    try:
        sketch = family.from_bytes(image)
    except InvalidDataError:
        return "refused data"
    assert family.from_bytes(sketch.to_bytes()) == sketch
    entries = map(str, sketch.hashes()) if kind == "theta" else (f"{hash}:{value}" for hash, value in sorted(sketch.items()))
    return " ".join(["empty" if sketch.is_empty else "filled", str(sketch.theta), "37836", "ordered", *entries])


def ordered(line):
    """The line of a sketch with its entries in order."""
    words = line.split()
    return " ".join([*words[:3], "ordered", *sorted(words[4:], key=lambda it: int(it.split(":")[0]))]) if len(words) > 2 else line


def test_damaged_images():
    """Bytes behind an image are refused, and without them the image is read."""
    chance, refused, longer, union = random.Random(20), 0, 0, ThetaUnion()
    for _ in range(COUNT):
        kind, image = damaged(chance)
        for read in ("theta", "u64"):
            wanted = ordered(sketch_line(read, image))
            if wanted != "refused data" and length_of(read, image) < len(image):
                longer += 1
                assert line_of(read, image) == "refused data", (kind, image.hex())
                image = image[: length_of(read, image)]
            assert line_of(read, image) == wanted, (kind, image.hex())
            refused += wanted == "refused data"
            if read == "theta" and wanted != "refused data":
                union.update(image)
    assert COUNT < refused < 2 * COUNT and longer > 100 and not union.result().is_empty


MERGES = {
    "theta": (ThetaSketch, (ThetaUnion, ThetaIntersection)), "sums": (TupleSums, (TupleSumsUnion, TupleSumsIntersection)),
}


@pytest.mark.parametrize("family", MERGES)
@pytest.mark.parametrize("count", (0, 1, 2, 3000))
def test_bytes_behind_an_image(family, count):
    """They are refused, of whatever length, by each call that reads, and nothing changes."""
    kind, merges = MERGES[family]
    sketch = kind()
    for key in range(count):
        sketch.update(key, *((1,) if family == "sums" else ()))
    image = sketch.to_bytes()
    compact = type(sketch.compact())
    for more in (b"\0", b"more", image, image[:-1], bytes(9000)):
        longer = image + more
        for data in (longer, bytearray(longer), memoryview(longer)):
            for call in (kind.from_bytes, compact.from_bytes):
                with pytest.raises(InvalidDataError):
                    call(data)
            for merge in merges:
                merged, before = merge(), merge()
                for it in (merged, before):
                    it.update(image)
                for some in (data, [data], [image, data]):
                    with pytest.raises(InvalidDataError, match="bytes follow the image$"):
                        merged.update(some)
                before.update(image)
                assert merged.result().to_bytes() == before.result().to_bytes()
    assert compact.from_bytes(image).to_bytes() == image and kind.from_bytes(bytearray(image)).to_bytes() == image


@pytest.mark.parametrize("family", MERGES)
def test_flaws_are_named(family):
    """By each call that reads bytes, also in a list."""
    kind, merges = MERGES[family]
    foreign = kind(seed=1)
    foreign.update("ann")
    calls = [kind.from_bytes, type(kind().compact()).from_bytes]
    for merge in merges:
        calls += [merge().update, lambda data, merge=merge: merge().update([kind(), data])]
    others = TupleSums if kind is ThetaSketch else ThetaSketch
    for data, flaw in ((foreign.to_bytes(), "another seed hash"), (others().to_bytes(), "another family .*found: "), (b"", "fewer than eight bytes")):
        for call in calls:
            with pytest.raises(InvalidDataError, match=flaw):
                call(data)


def test_random_bytes():
    chance = random.Random(21)
    for _ in range(COUNT):
        image = chance.randbytes(chance.randrange(64))
        for read in ("theta", "u64"):
            wanted = ordered(sketch_line(read, image))
            is_longer = wanted != "refused data" and length_of(read, image) < len(image)
            assert line_of(read, image) == ("refused data" if is_longer else wanted)
