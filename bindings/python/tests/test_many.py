"""Many sketches in one update of an operator, and the lines of files."""
import gzip
import io
import threading
from array import array
from pathlib import Path

import model_distinct
import pytest
from kaftanclay import (
    CompactThetaSketch,
    InvalidArgumentError,
    InvalidDataError,
    SketchWarning,
    ThetaIntersection,
    ThetaSketch,
    ThetaUnion,
    TupleSums,
    TupleSumsIntersection,
    TupleSumsUnion,
)


def sketch_of(keys, lg_k=12, seed=9001):
    sketch = ThetaSketch(lg_k, seed)
    sketch.update_many(keys)
    return sketch


def sums_of(keys, value=1):
    sketch = TupleSums(12)
    sketch.update_many(keys, value)
    return sketch


def forms_of(sketch, at):
    """A sketch as each thing that an operator takes."""
    return (sketch, sketch.compact(), sketch.to_bytes(), bytearray(sketch.to_bytes()), memoryview(bytes(sketch)))[at % 5]


def one_by_one(made, parts):
    for part in parts:
        made.update(part)
    return made.result().to_bytes()


def together(made, parts):
    made.update(parts)
    return made.result().to_bytes()


PARTS = [forms_of(sketch_of(range(90 * at, 90 * at + 100)), at) for at in range(100)]
SUMS = [forms_of(sums_of(range(90 * at, 90 * at + 100), at), at) for at in range(100)]


@pytest.mark.parametrize("form", [list, tuple, iter, lambda parts: (it for it in parts)])
def test_many_together(form):
    """They have the result of one after another: exact ones and others, of each form."""
    for lg_k in (5, 12, 14):
        assert together(ThetaUnion(lg_k), form(PARTS)) == one_by_one(ThetaUnion(lg_k), PARTS)
    assert together(TupleSumsUnion(12), form(SUMS)) == one_by_one(TupleSumsUnion(12), SUMS)


def test_many_of_an_intersection():
    parts = [forms_of(sketch_of(range(at, 3000)), at) for at in range(5)]
    assert together(ThetaIntersection(), parts) == one_by_one(ThetaIntersection(), parts)
    sums = [forms_of(sums_of(range(at, 3000)), at) for at in range(5)]
    assert together(TupleSumsIntersection(), sums) == one_by_one(TupleSumsIntersection(), sums)
    with pytest.raises(InvalidArgumentError, match="before its first sketch"):
        together(ThetaIntersection(), [])


def test_none():
    """Of no sketches there is nothing to merge."""
    for nothing in ([], (), iter([]), {}):
        assert together(ThetaUnion(), nothing) == ThetaUnion().result().to_bytes()


def test_more_than_wait_at_once():
    """Sketches are merged some thousand at a time, or once they have some megabytes."""
    small = [sketch_of([at]).to_bytes() for at in range(9000)]
    assert together(ThetaUnion(14), iter(small)) == sketch_of(range(9000), 14).to_bytes()
    large = [sketch_of(array("Q", range(at * 2**16, (at + 1) * 2**16)), 17) for at in range(20)]
    assert together(ThetaUnion(17), large) == one_by_one(ThetaUnion(17), large)


@pytest.mark.parametrize(("at_fault", "error"), [
    (b"no image", InvalidDataError),
    (sketch_of([1], 12, 123), InvalidArgumentError),
    (sketch_of([1], 12, 123).to_bytes(), InvalidDataError),
    (sums_of([1]), TypeError),
    (5, TypeError),
    ("ann", TypeError),
    ([PARTS[0]], TypeError),
    (None, TypeError),
])
@pytest.mark.parametrize("front", [0, 1, 5])
def test_what_is_refused(at_fault, error, front):
    """Exactly those before the one that is refused are merged."""
    union = ThetaUnion(12)
    with pytest.raises(error):
        union.update([*PARTS[:front], at_fault, *PARTS[front:]])
    assert union.result().to_bytes() == one_by_one(ThetaUnion(12), PARTS[:front])
    union.update(PARTS)
    assert union.result().to_bytes() == one_by_one(ThetaUnion(12), PARTS)


def test_an_iterable_that_fails():
    def parts():
        yield from PARTS[:7]
        raise KeyError("gone")

    union = ThetaUnion(12)
    with pytest.raises(KeyError, match="gone"):
        union.update(parts())
    assert union.result().to_bytes() == one_by_one(ThetaUnion(12), PARTS[:7])


@pytest.mark.parametrize("given", ["", "ann", 5, None, ThetaUnion(), 1.5])
def test_no_sketches(given):
    with pytest.raises(TypeError, match="an image is bytes"):
        ThetaUnion().update(given)


def test_an_iterable_that_uses_the_union():
    """A generator may call what it likes."""
    union = ThetaUnion(12)

    def parts():
        for part in PARTS:
            union.update(part)
            yield part

    assert together(union, parts()) == one_by_one(ThetaUnion(12), PARTS)


def test_warning():
    """A union without lg_k warns of a sketch among many as of one alone."""
    union = ThetaUnion()
    with pytest.warns(SketchWarning, match="pass lg_k"):
        union.update([*PARTS, sketch_of(range(9000), 14), sketch_of(range(9000, 20000), 14)])


def test_threads():
    """Threads share a union, each with many sketches."""
    union, groups = ThetaUnion(14), [[sketch_of(range(900 * at + n, 900 * at + n + 100)).to_bytes() for n in range(300)] for at in range(8)]
    threads = [threading.Thread(target=union.update, args=(group,)) for group in groups]
    for it in threads:
        it.start()
    for it in threads:
        it.join()
    assert union.result().to_bytes() == one_by_one(ThetaUnion(14), [part for group in groups for part in group])


# ---- Lines ----

TEXTS = {
    "nothing": b"",
    "an LF": b"\n",
    "one line": b"ann",
    "lines": b"ann\nbob\n\nann\r\n\xff\0\nlast",
    "whole lines": b"ann\nbob\n",
    "many lines": b"".join(b"user %d\n" % (at % 7000) for at in range(60000)),
    "long lines": b"\n".join(bytes([at % 10 + 33]) * (300000 + at) for at in range(5)),
}


def lines_of(text):
    found = text.split(b"\n")
    return found if found[-1] else found[:-1]


@pytest.mark.parametrize("text", list(TEXTS.values()), ids=list(TEXTS))
def test_lines(text, tmp_path):
    """The lines of a file are the keys that `update` makes of their bytes, from wherever the file is."""
    path = tmp_path / "text"
    path.write_bytes(text)
    wanted = sketch_of(lines_of(text)).to_bytes()
    sources = [path, str(path), str(path).encode(), io.BytesIO(text)]
    with open(path, "rb") as buffered, open(path, "rb", buffering=0) as raw:
        for source in (*sources, buffered, raw):
            sketch = ThetaSketch()
            sketch.update_lines(source)
            assert sketch.to_bytes() == wanted
    (tmp_path / "packed").write_bytes(gzip.compress(text))
    with gzip.open(tmp_path / "packed") as packed:
        sketch = ThetaSketch()
        sketch.update_lines(packed)
    assert sketch.to_bytes() == wanted
    rest = io.BytesIO(b"passed over" + text)
    rest.seek(11)
    sketch = ThetaSketch()
    sketch.update_lines(rest)
    assert sketch.to_bytes() == wanted


def test_lines_by_another_program():
    """The sketch of lines that checks/model_distinct.py computes."""
    text = TEXTS["many lines"]
    sketch = ThetaSketch()
    sketch.update_lines(io.BytesIO(text))
    sketch.trim()
    hashes = {model_distinct.murmur(line, 9001) >> 1 for line in lines_of(text)}
    assert sketch.to_bytes() == model_distinct.image_of(model_distinct.cut(4096, hashes, 2**63 - 1), model_distinct.seed_hash(9001))


def test_lines_of_another_seed():
    sketch, wanted = ThetaSketch(seed=5), ThetaSketch(seed=5)
    sketch.update_lines(io.BytesIO(TEXTS["lines"]))
    wanted.update_many(lines_of(TEXTS["lines"]))
    assert sketch.to_bytes() == wanted.to_bytes()


class Pieces:
    """A file whose reads give the pieces of a text, and then fail or wait."""

    def __init__(self, pieces, end=b""):
        self.left, self.end = list(pieces), end

    def readinto(self, buffer):
        piece = self.left.pop(0) if self.left else self.end
        if isinstance(piece, Exception):
            raise piece
        if piece is None:
            return None
        buffer[: len(piece)] = piece
        return len(piece)


@pytest.mark.parametrize("size", [1, 2, 3, 7, 31, 32, 33, 64])
def test_lines_in_pieces(size):
    text = TEXTS["lines"] + b"\n" + TEXTS["many lines"][:5000]
    sketch = ThetaSketch()
    sketch.update_lines(Pieces([text[at : at + size] for at in range(0, len(text), size)]))
    assert sketch.to_bytes() == sketch_of(lines_of(text)).to_bytes()


@pytest.mark.parametrize(("end", "error"), [(OSError("gone"), OSError), (None, BlockingIOError)])
def test_a_read_that_fails(end, error):
    """The lines that ended before it are there; the last one, which hasn't, is not."""
    sketch = ThetaSketch()
    with pytest.raises(error):
        sketch.update_lines(Pieces([b"ann\nbo", b"b\nci"], end))
    assert sketch.to_bytes() == sketch_of(["ann", "bob"]).to_bytes()
    sketch.update_lines(Pieces([b"d\n"]))
    assert sketch.to_bytes() == sketch_of(["ann", "bob", "d"]).to_bytes()


def test_no_file(tmp_path):
    sketch = ThetaSketch()
    with pytest.raises(FileNotFoundError):
        sketch.update_lines(tmp_path / "absent")
    for source in (5, None, ["ann"], io.StringIO("ann\n")):
        with pytest.raises(TypeError, match="binary mode"):
            sketch.update_lines(source)
    with open(Path(__file__), encoding="utf-8") as text, pytest.raises(TypeError, match="binary mode"):
        sketch.update_lines(text)
    assert sketch.is_empty


def test_other_updates_between_pieces():
    """A file may itself use the sketch that reads it."""
    sketch = ThetaSketch()

    class Updating(Pieces):
        def readinto(self, buffer):
            sketch.update("between")
            return super().readinto(buffer)

    sketch.update_lines(Updating([b"an", b"n\nbo", b"b"]))
    assert sketch.to_bytes() == sketch_of(["ann", "bob", "between"]).to_bytes()


def test_kept_result():
    """The result of many is a compact sketch like any other."""
    union = ThetaUnion(12)
    union.update(PARTS)
    assert CompactThetaSketch.from_bytes(union.result().to_bytes(), lg_k=12) == union.result()
