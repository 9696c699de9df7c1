"""Columns of Arrow's C data interface, of a producer of our own: the same keys as those of a list, and each structure released once."""
import gc
import random
import struct
import threading

import pytest
from arrow_producer import Column, Columns, Sized, all_released, bits, column, indices, made, release
from kaftanclay import InvalidArgumentError, PolicyError, ThetaSketch, TupleSums

TEXTS = ["ann", "", "é日😀", None, "x" * 12, "x" * 13, "ann", "y" * 300, None, "bob"]
INTEGERS = {"c": (-128, 127), "C": (0, 255), "s": (-(2**15), 2**15 - 1), "S": (0, 2**16 - 1), "i": (-(2**31), 2**31 - 1), "I": (0, 2**32 - 1),
            "l": (-(2**63), 2**63 - 1), "L": (0, 2**64 - 1)}


@pytest.fixture(autouse=True)
def released_at_the_end():
    yield
    gc.collect()
    assert all_released()


def image_of(keys, **options):
    sketch = ThetaSketch()
    sketch.update_many(keys, **options)
    sketch.trim()
    return sketch.to_bytes()


def sums_of(keys, values=1, **options):
    sums = TupleSums()
    sums.update_many(keys, values, **options)
    return sorted(sums.items())


def expect_keys(keys, of, **options):
    """A theta sketch and a sketch of sums of a column are those of a list."""
    assert image_of(keys, **options) == image_of(of, **options)
    if isinstance(keys, Column):
        values = [3 * at for at in range(len(of))]
        assert sums_of(keys, values, **options) == sums_of(of, values, **options)
    assert sums_of(keys, 5, **options) == sums_of(of, 5, **options)


@pytest.mark.parametrize("before, after", [(0, 0), (1, 0), (7, 3), (8, 9), (65, 1)])
@pytest.mark.parametrize("format", ["u", "U", "vu", "z", "Z", "vz"])
def test_strings(format, before, after):
    values = TEXTS if "u" in format.lower() else [it if it is None else it.encode() + b"\0\xff" for it in TEXTS]
    for keys in (values, [it for it in values if it is not None], [], [None, None], [None] * 3 + values, ["a"], [b"\0"]):
        for knows_nulls in (True, False):
            expect_keys(column(format, keys, before, after, knows_nulls), keys)


@pytest.mark.parametrize("before", [0, 3, 8])
@pytest.mark.parametrize("format", INTEGERS)
def test_integers(format, before):
    least, most = INTEGERS[format]
    for keys in ([least, most, 0, 1, 100], [None, least, None, most], [], [5]):
        expect_keys(column(format, keys, before, 2), keys)


def test_other_forms():
    for before in (0, 5, 8):
        expect_keys(column("b", [True, False, None, True], before, 1), [1, 0, None, 1])
        expect_keys(column("b", [1] * 9, before), [1] * 9)
        expect_keys(column("w:3", [b"abc", b"a\0b", None, b"\0\0\0"], before, 1), [b"abc", b"a\0b", None, b"\0\0\0"])
    expect_keys(Column("w:0", [None, None], 3), [b"", b"", b""])
    expect_keys(Column("n", [], 5), [None] * 5)
    expect_keys(Column("n", [], 5, 5), [None] * 5)
    for it in (Column("u", [None, None, None], 0), Column("l", [None, None], 0), Column("u", [None, bytes(16), None], 3)):
        expect_keys(it, [""] * it.length)


def test_missing_rows():
    for it in (column("u", ["ann", None]), column("l", [1, None]), column("b", [1, None]), column("vu", [None]), Column("n", [], 1),
               indices("c", [0, None], column("u", ["ann"])), indices("c", [0, 1], column("u", ["ann", None]))):
        for call in (image_of, sums_of, lambda it, **more: image_of(Columns(it), **more)):
            with pytest.raises(TypeError, match="a missing value is no key.*skipna=True"):
                call(it, skipna=False)
    assert image_of(column("u", ["ann", "bob"]), skipna=False) == image_of(["ann", "bob"])
    assert image_of(Column("n", [], 0), skipna=False) == image_of([])
    sums = TupleSums()
    with pytest.raises(TypeError, match="missing value") as caught:
        sums.update_many(column("u", ["ann", "bob", None]), [1, 2, 3], skipna=False)
    assert caught.value.added == 2 == len(sums)


@pytest.mark.parametrize("format", INTEGERS)
def test_dictionaries(format):
    """Only the keys that rows have are counted."""
    words = column("u", ["ann", "unused", None, "bob", "ann"], before=3, after=1)
    wanted = ["ann", "bob", "bob", None, "ann", None]
    expect_keys(indices(format, [0, 3, 3, None, 4, 2], words, before=2), wanted)
    expect_keys(indices(format, [0, 3, 3, 2, 4, 2], words), wanted)
    numbers = column("s", [5, -5, 6])
    expect_keys(indices(format, [0, 1, 1], numbers), [5, -5, -5])
    expect_keys(indices(format, [1, 1], column("vu", ["x" * 20, "y" * 30])), ["y" * 30] * 2)
    expect_keys(indices(format, [], column("u", [])), [])
    expect_keys(indices(format, [None], column("u", [])), [None])
    expect_keys(indices(format, [0, 1], Column("n", [], 2)), [None, None])
    for wrong in ([0, 5], [100], [-1] if format.islower() else [127]):
        for call in (image_of, sums_of):
            with pytest.raises(InvalidArgumentError, match="outside of its dictionary"):
                call(indices(format, wrong, words))


def test_many_rows():
    """More rows than in one call of the library, with long and with missing ones; and keys that are longer than a call takes."""
    chance = random.Random(5)
    texts = ["".join(chance.choices("aé日", k=chance.choice((0, 3, 12, 13, 60)))) for _ in range(9000)]
    texts[17], texts[4000] = "x" * 40000, "y" * 70000
    holes = [None if chance.random() < 0.3 else it for it in texts]
    for keys in (texts, holes):
        for format in ("u", "U", "vu"):
            assert image_of(column(format, keys, 5)) == image_of(keys)
            assert sums_of(column(format, keys, 5), range(9000)) == sums_of(keys, range(9000))
    numbers = [None if chance.random() < 0.3 else chance.randrange(-(2**31), 2**31) for _ in range(9000)]
    for keys in (numbers, [it or 0 for it in numbers]):
        for format in ("i", "l"):
            assert image_of(column(format, keys, 5)) == image_of(keys)
    expect_keys(indices("i", [at % 700 for at in range(9000)], column("u", texts)), [texts[at % 700] for at in range(9000)])


def test_random_columns_count_as_sets():
    chance = random.Random(6)
    for _ in range(300):
        keys = [chance.choice([None, *map(str, range(50)), "z" * 20]) for _ in range(chance.randrange(60))]
        format, before = chance.choice(["u", "U", "vu", "z"]), chance.randrange(20)
        sketch = ThetaSketch()
        sketch.update_many(column(format, keys, before, chance.randrange(5)))
        assert sketch.estimate == len(set(keys) - {None})


def test_streams():
    parts = [column("u", ["ann", None], 2), column("u", []), column("u", ["bob", "ann"]), column("u", ["cid"], 0, 1)]
    wanted = ["ann", None, "bob", "ann", "cid"]
    expect_keys(Columns(*parts), wanted)
    assert sums_of(Columns(*parts), [1, 2, 3, 4, 5]) == sums_of(wanted, [1, 2, 3, 4, 5])
    assert image_of(Columns(format=column("u", []))) == image_of([])
    words = column("u", ["ann", "bob"])
    expect_keys(Columns(indices("c", [0, 1], words), indices("c", [1], column("u", ["cid", "dan"]))), ["ann", "bob", "dan"])


def test_a_stream_that_fails():
    """What was read before is inserted; the error has the stream's own reason, and everything is released."""
    sketch, sums = ThetaSketch(), TupleSums()
    broken = Columns(column("u", ["ann", "bob"]), 5, column("u", ["cid"]))
    with pytest.raises(OSError, match="the part is broken") as caught:
        sketch.update_many(broken)
    assert caught.value.errno == 5 and sketch.to_bytes() == image_of(["ann", "bob"])
    with pytest.raises(OSError) as caught:
        sums.update_many(broken, 3)
    assert caught.value.added == 2 and sums.total == 6.0
    with pytest.raises(OSError, match="gave no reason"):
        image_of(Columns(column("u", ["ann"]), 22, text=None))
    with pytest.raises(OSError, match="the part is broken"):
        image_of(Columns(format=12))
    with pytest.raises(InvalidArgumentError, match="don't ascend"):
        sketch.update_many(Columns(column("u", ["dan"]), Column("u", [None, struct.pack("<3i", 0, 3, 1), b"abc"], 2)))
    assert sketch.to_bytes() == image_of(["ann", "bob", "dan"])


def test_streams_that_use_the_same_sketch():
    sketch = ThetaSketch()
    sketch.update_many(Columns(lambda: sketch.update("bob"), column("u", ["ann"]), lambda: sketch.update_many(["cid"] * 3000)))
    assert sketch.to_bytes() == image_of(["ann", "bob", "cid"])


def test_other_threads_run_while_a_stream_is_read():
    """A stream may wait for another thread of Python."""
    done = threading.Event()
    thread = threading.Thread(target=done.set)

    def wait():
        thread.start()
        assert done.wait(30)

    assert image_of(Columns(wait, column("u", ["ann"]))) == image_of(["ann"])
    thread.join()


OFFSETS, LONG = struct.pack("<3i", 0, 1, 2), struct.pack("<3q", 0, 1, 2)
BROKEN = [
    ("lacks a buffer", Column("l", [None, None], 2)),
    ("lacks a buffer", Column("u", [None, None, b"ab"], 2)),
    ("lacks a buffer", Column("w:3", [None, None], 2)),
    ("lacks a buffer", Column("vu", [None, None, None], 2)),
    ("lacks the buffer of its strings", Column("u", [None, OFFSETS, None], 2)),
    ("lacks the buffer of its strings", Column("U", [None, LONG, None], 2)),
    ("lacks the buffer of its strings", Column("vu", [None, struct.pack("<i4sii", 20, b"abcd", 0, 0), None, struct.pack("<q", 20)], 1)),
    ("lacks the sizes", Column("vu", [None, struct.pack("<i4sii", 20, b"abcd", 0, 0), b"x" * 20, None], 1)),
    ("lacks the bitmap", Column("u", [None, OFFSETS, b"ab"], 2, null_count=1)),
    ("too few or too many buffers", Column("u", [None, OFFSETS], 2)),
    ("too few or too many buffers", Column("l", [None, bytes(16), b"more"], 2)),
    ("too few or too many buffers", Column("vu", [None, bytes(32)], 2)),
    ("too few or too many buffers", Column("u", [], 2, n_buffers=3)),
    ("out of range", Column("u", [None, OFFSETS, b"ab"], -1)),
    ("out of range", Column("u", [None, OFFSETS, b"ab"], 2, offset=-1)),
    ("out of range", Column("u", [None, OFFSETS, b"ab"], 2, null_count=-2)),
    ("out of range", Column("u", [None, OFFSETS, b"ab"], 2**63 - 1, offset=2**63 - 1)),
    ("too long", Column("w:2147483647", [None, b""], 2**50)),
    ("don't ascend", Column("u", [None, struct.pack("<3i", 0, 3, 1), b"abc"], 2)),
    ("don't ascend", Column("u", [None, struct.pack("<3i", 2, 3, 1), b"abc"], 2)),
    ("don't ascend", Column("u", [None, struct.pack("<3i", -1, 0, 1), b"abc"], 2)),
    ("don't ascend", Column("U", [None, struct.pack("<3q", 0, 5, 2), b"abcde"], 2)),
    ("outside of its buffers", Column("vu", [None, struct.pack("<i4sii", 20, b"abcd", 0, 1), b"x" * 20, struct.pack("<q", 20)], 1)),
    ("outside of its buffers", Column("vu", [None, struct.pack("<i4sii", 20, b"abcd", 1, 0), b"x" * 20, struct.pack("<q", 20)], 1)),
    ("outside of its buffers", Column("vu", [None, struct.pack("<i4sii", 20, b"abcd", 0, -1), b"x" * 20, struct.pack("<q", 20)], 1)),
    ("outside of its buffers", Column("vu", [None, struct.pack("<i4sii", -1, b"abcd", 0, 0), b"x" * 20, struct.pack("<q", 20)], 1)),
    ("no indices", indices("u", ["a"], column("u", ["a"]))),
    ("has a dictionary", indices("c", [0], indices("c", [0], column("u", ["a"])))),
]


@pytest.mark.parametrize("text, it", BROKEN)
def test_broken_structures(text, it):
    for call in (ThetaSketch().update_many, TupleSums().update_many, lambda it: ThetaSketch().update_many(Columns(it))):
        with pytest.raises(InvalidArgumentError, match=text):
            call(it)


@pytest.mark.parametrize("format, text", [
    ("f", "cast it to whole numbers or to strings"), ("g", "'g' has no keys: choose keys"), ("e", "choose keys"), ("d:10,2", "choose keys"),
    ("tdD", "cast it to int64"), ("tsn:UTC", "cast it to int64"), ("+s", "a table; pass one of its columns"), ("+l", "items are arrays"),
    ("+r", "decode its runs first"), ("+ud:0,1", "pass an array of whole numbers"), ("+vl", "items are arrays"), ("w:x", "'w:x' has no keys"), ("w:", "has no keys"), ("w:-1", "has no keys"), ("", "has no keys"), ("q", "has no keys"),
])
def test_types_without_keys(format, text):
    for it in (Column(format, [None, bytes(16)], 1), Columns(Column(format, [None, bytes(16)], 1)),
               indices("c", [0], Column(format, [None, bytes(16)], 1))):
        for call in (ThetaSketch().update_many, TupleSums().update_many):
            with pytest.raises(TypeError, match=text):
                call(it)


def test_sums_of_columns_and_values():
    numpy = pytest.importorskip("numpy")
    keys, values = ["ann", None, "bob", "ann"], [1, 2, 3, 2**40]
    wanted = sums_of(keys, values)
    for them in (column("u", keys), column("vu", keys, 3), column("u", keys, kind=Sized), Columns(column("u", keys[:1]), column("u", keys[1:]))):
        for those in (values, tuple(values), numpy.array(values), numpy.array(values, dtype=object), column("l", values, 2),
                      Columns(column("L", values[:3]), column("L", values[3:], 1))):
            assert sums_of(them, those) == wanted
    assert sums_of(keys, column("L", values)) == wanted == sums_of(numpy.array(keys, dtype=object), Columns(column("L", values)))
    assert sums_of(column("u", keys, kind=Sized), iter(values)) == wanted
    for them, those, kind, text in (
        (keys, column("L", [1, None, 3, 4]), TypeError, "some of these are missing"),
        (keys, column("l", [1, -2, 3, 4]), InvalidArgumentError, "not below 0"),
        (keys, column("u", ["1"] * 4), TypeError, "format 'u'"),
        (keys, indices("c", [0] * 4, column("l", [1])), TypeError, "format 'c'"),
        (column("u", keys), [1, 2, 3], InvalidArgumentError, "not as many values"),
        (column("u", keys), [1, 2, 3, 4, 5], InvalidArgumentError, "not as many values"),
        (column("u", keys, kind=Sized), [1, 2, 3], InvalidArgumentError, "4 keys and 3 values"),
        (column("u", keys), iter(values), TypeError, "a list or an array"),
        (column("u", keys), ["1", "2", "3", "4"], TypeError, ""),
        (column("u", keys), numpy.array([1, 2, -3, 4]), InvalidArgumentError, "not below 0"),
        (column("u", keys), numpy.array(["a"] * 4), TypeError, ""),
    ):
        with pytest.raises(kind, match=text):
            sums_of(them, those)


def test_refused_pairs_of_streams():
    """The pairs before the refused one have been added, and no other."""
    parts = [column("u", ["ann", None, "bob"]), column("u", ["bob", "cid"])]
    for values, kind, text, added in (
        ([1, 1, 1, 1], InvalidArgumentError, "fewer values", 3),
        ([1, 1, 1], InvalidArgumentError, "fewer values", 2),
        ([1] * 6, InvalidArgumentError, "more values", 4),
        ([1, 1, 2**64 - 1, 5, 1], PolicyError, "2\\^64", 2),
    ):
        sums = TupleSums()
        with pytest.raises(kind, match=text) as caught:
            sums.update_many(Columns(*parts), values)
        assert caught.value.added == added


def test_series_of_pandas_that_pyarrow_holds():
    """A stand-in for the arrays of pandas over pyarrow, which isn't there: they are read as its columns, without a copy."""
    pandas = pytest.importorskip("pandas")

    class Dtype(pandas.api.extensions.ExtensionDtype):
        name, type, kind, storage, na_value = "stand-in", str, "O", "pyarrow", pandas.NA

        @classmethod
        def construct_array_type(cls):
            return Held

    class Held(pandas.api.extensions.ExtensionArray):
        dtype = Dtype()

        def __init__(self, keys, answer=None):
            self.held, self.answer = list(keys), answer

        def __len__(self):
            return len(self.held)

        def __getitem__(self, which):
            return self.held[which] if isinstance(which, int) else Held(pandas.array(self.held, dtype=object)[which])

        def isna(self):
            return pandas.isna(pandas.array(self.held, dtype=object))

        def copy(self):
            return Held(self.held)

        def take(self, indices, allow_fill=False, fill_value=None):
            return Held([self.held[at] for at in indices])

        def __arrow_array__(self, type=None):
            asked.append(len(self))
            return self.answer or column("u", self.held)

        def to_numpy(self, *rest, **more):
            return pandas.array(self.held, dtype=object).to_numpy()

    asked = []
    series = pandas.Series(Held(["ann", None, "bob", "ann"]))
    for keys in (series, series.array, series[1:]):
        assert image_of(keys) == image_of(["ann", "bob"])
    assert sums_of(series, [1, 2, 4, 8]) == sums_of(["ann", "bob"], [9, 4]) and asked == [4, 4, 3, 4]
    with pytest.raises(TypeError, match="missing value"):
        image_of(series, skipna=False)
    with pytest.raises(TypeError, match="a table"):
        image_of(pandas.Series(Held(["ann"], Column("+s", [None], 1))))
    # An older pyarrow has arrays without the interface.
    assert image_of(pandas.Series(Held(["ann", None], object()))) == image_of(["ann"])

    from kaftanclay.pandas import sketch_by

    frame = pandas.DataFrame({"group": list("abaa"), "key": series})
    assert [it.estimate for it in sketch_by(frame, "group", "key")] == [2.0, 0.0]


def test_what_is_no_interface():
    class Wrong:
        def __init__(self, answer):
            self.answer = answer

        def __arrow_c_array__(self, requested_schema=None):
            return self.answer

    for answer in ((), None, (1, 2), column("u", ["a"]).__arrow_c_array__()[:1], column("u", ["a"]).__arrow_c_array__()[::-1],
                   (Columns(column("u", [])).__arrow_c_stream__(),) * 2):
        with pytest.raises(TypeError, match="no capsules of Arrow"):
            ThetaSketch().update_many(Wrong(answer))

    class Failing:
        def __arrow_c_stream__(self, requested_schema=None):
            raise KeyError("gone")

    for call in (ThetaSketch().update_many, TupleSums().update_many):
        with pytest.raises(KeyError, match="gone"):
            call(Failing())
    # What was read and released already.
    capsules = column("u", ["a"]).__arrow_c_array__()
    release(capsules[0])
    stream = Columns(column("u", [])).__arrow_c_stream__()
    release(stream)
    for answer in (capsules, (stream,)):
        with pytest.raises(InvalidArgumentError, match="read already"):
            ThetaSketch().update_many(Wrong(answer))


def test_the_producer_counts():
    """The tests above can fail: a structure that isn't released is seen."""
    before = made.total()
    capsules = column("u", ["a"]).__arrow_c_array__()
    assert made.total() == before + 2 and not all_released()
    del capsules
    assert all_released() and bits([1, 0]) == b"\xfd"
