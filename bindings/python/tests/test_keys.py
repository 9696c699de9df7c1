"""Which keys are counted, of every kind of object and array: none is counted wrongly in silence."""
import ctypes
import datetime
import decimal
import itertools
import math
import mmap
import random
import struct
import sys
from array import array
from fractions import Fraction

import pytest
from kaftanclay import MAX_THETA, CompactThetaSketch, InvalidArgumentError, ThetaSketch, TupleSums, _native

NAN = float("nan")


def image_of(keys, **options):
    sketch = ThetaSketch()
    sketch.update_many(keys, **options)
    return sketch.to_bytes()


def image_one_by_one(keys):
    sketch = ThetaSketch()
    for key in keys:
        sketch.update(key)
    return sketch.to_bytes()


class Text(str):
    """A str whose methods don't say what it is."""

    def __len__(self):
        return 10**9

    def __hash__(self):
        raise ValueError

    def __eq__(self, other):
        raise ValueError

    def encode(self, *rest):
        raise ValueError

    __str__ = __iter__ = __repr__ = encode


class Data(bytes):
    def __len__(self):
        return 10**9

    def __bytes__(self):
        raise ValueError

    __iter__ = __repr__ = __getitem__ = __bytes__


class Buffer(bytearray):
    def __len__(self):
        return 10**9

    __iter__ = __repr__ = Data.__bytes__


class Whole(int):
    def __index__(self):
        raise ValueError

    __int__ = __repr__ = __and__ = __add__ = __lt__ = __format__ = __index__


class Index:
    def __init__(self, number):
        self.number = number

    def __index__(self):
        return self.number


def test_derived_classes_are_what_they_derive_from():
    plain = ["ann", b"bob", bytearray(b"cid"), 7, -1]
    derived = [Text("ann"), Data(b"bob"), Buffer(b"cid"), Whole(7), Whole(-1)]
    assert image_one_by_one(derived) == image_of(derived) == image_of(plain) == image_one_by_one(plain)
    sums = TupleSums()
    for key in derived:
        sums.update(key, Whole(3))
    sums.update_many(derived, [Whole(4)] * 5)
    assert sums.total == 35.0 and len(sums) == 5
    with pytest.raises(InvalidArgumentError, match="from -2\\^63"):
        ThetaSketch().update(1 << 64)
    with pytest.raises(InvalidArgumentError, match="not this one"):
        ThetaSketch().update(10**5000)
    with pytest.raises(ValueError):
        ThetaSketch().update(Whole(1 << 64))


def test_objects_with_an_index():
    assert image_of([Index(5), Index(2**64 - 1), True]) == image_of([5, -1, 1])
    with pytest.raises(TypeError):
        ThetaSketch().update(Index("5"))

    class Failing:
        def __index__(self):
            raise KeyError("5")

    with pytest.raises(KeyError):
        ThetaSketch().update(Failing())


def test_text_without_utf8():
    sketch = ThetaSketch()
    for call in (lambda: sketch.update("\ud800"), lambda: sketch.update_many(["\ud800"])):
        with pytest.raises(UnicodeEncodeError):
            call()
    assert sketch.is_empty


def test_memoryviews():
    """A memoryview of bytes is one key everywhere; one of greater items is an array of keys everywhere."""
    view = memoryview(b"abcdef")
    for it in (view, view[:3], view[::2], view.cast("c"), view.cast("b")):
        assert image_one_by_one([it]) == image_of([it]) == image_of([it.tobytes()])
        for call in (ThetaSketch().update_many, TupleSums().update_many):
            with pytest.raises(TypeError, match="memoryview of bytes is one key"):
                call(it)
    numbers = memoryview(array("I", [1, 2, 3]))
    assert image_of(numbers) == image_of([1, 2, 3])
    for call in (lambda: ThetaSketch().update(numbers), lambda: ThetaSketch().update_many([numbers]), lambda: TupleSums().update(numbers)):
        with pytest.raises(TypeError, match="which is an array; pass it to update_many"):
            call()
    view.release()
    with pytest.raises(ValueError):
        ThetaSketch().update(view)


@pytest.mark.parametrize("missing", [None, NAN, -NAN, decimal.Decimal("nan"), complex(NAN, 0)])
def test_missing_values(missing):
    for keys in (["ann", missing, "bob", missing], iter([missing, "ann", "bob"]), {"ann", "bob", missing}):
        assert image_of(keys) == image_of(["ann", "bob"])
    assert image_of([missing]) == ThetaSketch().to_bytes()
    with pytest.raises(TypeError, match="missing value"):
        image_of(["ann", missing], skipna=False)
    for call in (ThetaSketch().update, TupleSums().update):
        with pytest.raises(TypeError, match="a key is a str, bytes or an int, not .*skips missing values"):
            call(missing)
    sums = TupleSums()
    sums.update_many(["ann", missing, "bob"], [1, 2, 4])
    assert sums.total == 5.0
    with pytest.raises(TypeError, match="missing value"):
        sums.update_many([missing], skipna=False)


def test_what_is_no_key():
    for key, text in ((1.5, "pass a float as text"), (datetime.date(2026, 1, 1), "not date"), (object(), "not object")):
        for call in (lambda: image_of([key]), lambda: image_one_by_one([key])):
            with pytest.raises(TypeError, match=text) as caught:
                call()
            assert ("float" in str(caught.value)) == isinstance(key, float)
    with pytest.raises(TypeError, match="not iterable"):
        image_of(5)


def test_arguments_by_name():
    sketch, sums = ThetaSketch(), TupleSums()
    sketch.update(key="ann")
    sketch.update_many(keys=["bob"], skipna=True)
    sums.update(key="ann", value=3)
    sums.update(value=2, key="ann")
    sums.update_many(values=[5], keys=["ann"])
    assert len(sketch) == 2 and sums.total == 10.0 and sketch.bounds(deviations=1) == (2, 2) and sketch.estimate_text(places=1) == "2.0"
    wrong = [
        (TypeError, "misses its argument 'key'", lambda: sketch.update()),
        (TypeError, "unexpected keyword argument 'kee'", lambda: sketch.update("a", kee=1)),
        (TypeError, "multiple values for argument 'key'", lambda: sketch.update("a", key="a")),
        (TypeError, "at most 1 positional", lambda: sketch.update("a", "b")),
        (TypeError, "at most 1 positional", lambda: sketch.update_many([], False)),
    ]
    for kind, text, call in wrong:
        with pytest.raises(kind, match=text):
            call()


def test_ranges_are_named():
    for lg_k in (300, -1, 2**70):
        for call in (ThetaSketch, TupleSums):
            with pytest.raises(InvalidArgumentError, match=f"lg_k is from 4 to 26, not {lg_k}"):
                call(lg_k)
    with pytest.raises(InvalidArgumentError, match="a seed is from 0 to 2\\^64 - 1, not -1"):
        ThetaSketch(seed=-1)
    with pytest.raises(InvalidArgumentError, match="a value is from 0 to 2\\^64 - 1, not -1"):
        TupleSums().update("ann", -1)


def test_lists_that_change_while_they_are_read():
    class Changing:
        def __index__(self):
            keys.clear()
            return 1

    keys = [Changing() for _ in range(3000)]
    assert image_of(keys) == image_of([1])
    sketch = ThetaSketch()

    class Nested:
        def __index__(self):
            sketch.update_many(["ann"] * 2000)
            sketch.reset()
            return 2

    sketch.update_many([Nested(), Nested()])
    assert sketch.to_bytes() == image_of([2])


def test_many_texts_of_every_length():
    chance = random.Random(1)
    alphabet = "a\0é日😀"
    keys = ["".join(chance.choices(alphabet, k=chance.choice((0, 1, 8, 16, 200)))) for _ in range(2000)] + ["x" * 40000, "é" * 200000]
    chance.shuffle(keys)
    assert image_of(keys) == image_one_by_one(keys) == image_of([key.encode() for key in keys])


def test_dicts_and_ranges():
    assert image_of({"ann": 1, "bob": 2}) == image_of(["ann", "bob"])
    assert image_of(range(5000)) == image_of(list(range(5000)))
    assert image_of(set()) == image_of(()) == ThetaSketch().to_bytes()


def test_arrays_of_other_exporters():
    for kind in "bBhHiIlLqQ":
        numbers = array(kind, [0, 1, 2, 100])
        assert image_of(numbers) == image_of([0, 1, 2, 100])
    assert image_of(array("b", [-1, -128])) == image_of([-1, -128])
    assert image_of((ctypes.c_int16 * 3)(-5, 5, 7)) == image_of([-5, 5, 7])
    assert image_of((ctypes.c_uint32.__ctype_be__ * 2)(1, 2)) == image_of([1, 2])
    assert image_of(array("d", [NAN])) == image_of([])
    assert image_of(array("u", "ab")) == image_of(["a", "b"])
    with mmap.mmap(-1, 10) as pages, pytest.raises(TypeError, match="the bytes of one key"):
        image_of(pages)


def test_integers_of_numpy():
    numpy = pytest.importorskip("numpy")
    for kind in numpy.typecodes["AllInteger"] + "?":
        numbers = numpy.array([0, 1, 1, 0, 100]).astype(kind)
        wide = numpy.array([0, 9, 1, 9, 100, 9]).astype(kind)[::2]
        backward = numpy.array([100, 1, 0]).astype(kind)[::-1]
        wanted = image_of([0, 1] if kind == "?" else [0, 1, 100])
        for it in (numbers, wide, backward, numbers.astype(numbers.dtype.newbyteorder(">"))):
            if it is wide and kind == "?":
                continue
            assert image_of(it) == image_of(it.tolist()) == wanted, (kind, it)
    lowest = numpy.array([-1, -(2**31)], dtype="int32")
    assert image_of(lowest) == image_of([-1, -(2**31)])
    column = numpy.arange(20000, dtype="int64").reshape(4, 5000)[:, 3]
    assert image_of(column) == image_of(column.tolist())
    packed = numpy.zeros(3000, dtype=[("a", "u1"), ("b", "u4")])
    packed["b"] = numpy.arange(3000)
    assert image_of(packed["b"]) == image_of(range(3000))
    locked = numpy.arange(5000)
    locked.flags.writeable = False
    assert image_of(locked) == image_of(range(5000))
    assert image_of(numpy.array([], dtype="float64")) == image_of([])


def test_texts_of_numpy():
    numpy = pytest.importorskip("numpy")
    texts = ["", "ann", "é日😀", "x" * 30, "a\0b", "b\0"]
    keys = [text.rstrip("\0") for text in texts]
    for it in (numpy.array(texts), numpy.array(texts * 2)[::2], numpy.array(texts).astype(">U40"), numpy.array(texts, dtype=object)):
        assert image_of(it) == image_of(it.tolist())
    assert image_of(numpy.array(texts)) == image_of(keys)
    coded = numpy.array([b"", b"ann", b"a\0b", b"\xff"])
    assert image_of(coded) == image_of([b"", b"ann", b"a\0b", b"\xff"])
    many = [f"user{number:08d}" for number in range(20000)]
    assert image_of(numpy.array(many)) == image_of(many) == image_of(numpy.array([it.encode() for it in many]))
    long = ["x" * 50000, "é" * 50000, ""]
    assert image_of(numpy.array(long)) == image_of(long)
    sketch = ThetaSketch()
    with pytest.raises(UnicodeEncodeError):
        sketch.update_many(numpy.array(["ann", "\ud800"]))


def test_arrays_that_are_refused():
    numpy = pytest.importorskip("numpy")
    refused = [
        (numpy.array([1.0, 2.0]), "float64 has no keys"), (numpy.ones(2, dtype="f2"), "float16 has no keys"), (numpy.array([1j]), "complex128"),
        (numpy.zeros((2, 2), dtype=int), "one dimension, not 2"), (numpy.array(5), "one dimension, not 0"),
        (numpy.array([["a"]]), "one dimension"), (numpy.array([[1]], dtype=object), "one dimension"),
        (numpy.zeros(2, dtype=[("a", int)]), "pass one of its fields"), (numpy.ma.zeros(2, dtype=[("a", int)]), "pass one of its fields"),
        (numpy.array([1.5, "a"], dtype=object), "pass a float as text"), (numpy.array([("a",), 1], dtype=object), "not tuple"),
    ]
    for keys, text in refused:
        for call in (ThetaSketch().update_many, TupleSums().update_many):
            with pytest.raises(TypeError, match=text):
                call(keys)
    # Bytes of no type are bytes.
    assert image_of(numpy.array([b"ab\0", b"c\0\0"], dtype="V3")) == image_of([b"ab\0", b"c\0\0"])


def test_arrays_of_objects():
    """They are read without a list of them, with missing values and items that were never set, also if they change meanwhile."""
    numpy = pytest.importorskip("numpy")
    keys = ["ann", None, 7, b"bob", NAN, "é", -1, Index(5)]
    wanted = image_of(keys)
    array_of, wide = numpy.array(keys, dtype=object), numpy.empty(2 * len(keys), dtype=object)
    wide[::2] = keys
    locked = array_of.copy()
    locked.flags.writeable = False
    packed = numpy.zeros(len(keys), dtype=[("a", "u1"), ("b", object)])
    packed["b"] = keys
    for it in (array_of, wide, wide[::2], array_of[::-1], locked, packed["b"], numpy.ma.array(array_of)):
        assert image_of(it) == wanted
    assert image_of(numpy.empty(3, dtype=object)) == image_of([]) and image_of(array_of[:0]) == image_of([])
    sums = TupleSums()
    sums.update_many(array_of, numpy.array([1, None, 4, 8, None, 16, 32, 64], dtype=object))
    assert sums.total == 125.0
    with pytest.raises(InvalidArgumentError, match="fewer values"):
        sums.update_many(array_of, iter([1]))

    class Changing:
        def __index__(self):
            changed[:] = ["x" * 10000] * len(changed)
            return 1

    changed = numpy.array([Changing(), "y" * 5000, Changing()], dtype=object)
    assert image_of(changed) == image_of([1, "x" * 10000])


def test_masked_arrays():
    numpy = pytest.importorskip("numpy")
    masked = numpy.ma.array([1, 2, 3], mask=[False, True, False])
    assert image_of(masked) == image_of([1, 3])
    texts = numpy.ma.array(["a", "é", "c", "d"], mask=[True, False, False, True])
    for it in (texts, texts.astype(object), numpy.ma.array([b"a", "é".encode(), b"c", b"d"], mask=texts.mask), texts.astype(">U5")):
        assert image_of(it) == image_of(["é", "c"]) and image_of(it[::2]) == image_of(["c"])
        with pytest.raises(TypeError, match="missing value"):
            image_of(it, skipna=False)
    assert image_of(numpy.ma.array([1.5, 2.5], mask=True)) == image_of([]) and image_of(masked.astype(">i2")[::-1]) == image_of([1, 3])
    assert image_of(numpy.ma.array([1, 2, 3])) == image_of([1, 2, 3]) == image_of(numpy.ma.array([1, 2, 3]), skipna=False)
    assert image_of([1, numpy.ma.masked, 3]) == image_of([1, 3])
    with pytest.raises(TypeError, match="missing value"):
        image_of(masked, skipna=False)
    sums = TupleSums()
    sums.update_many(masked, numpy.array([5, 6, 7]))
    assert sums.total == 12.0 and len(sums) == 2
    with pytest.raises(TypeError, match="masked"):
        sums.update_many([1, 2, 3], masked)
    # Of no dimensions.
    for hidden in (numpy.ma.array(5, mask=True), numpy.ma.array(5.5, mask=True), numpy.ma.array("a", mask=True)):
        assert image_of([1, hidden, 3]) == image_of([1, 3])
        for call in (ThetaSketch().update, TupleSums().update, lambda it: image_of([it], skipna=False)):
            with pytest.raises(TypeError):
                call(hidden)
    assert image_of([numpy.ma.array(5), numpy.array(6), numpy.ma.array(7, mask=False)]) == image_of([5, 6, 7])


def test_times_of_numpy():
    """A datetime in an array is its nanoseconds since 1970, whatever the unit; NaT is skipped."""
    numpy = pytest.importorskip("numpy")
    days = numpy.array(["1970-01-02", "NaT", "1969-12-31"], dtype="datetime64[D]")
    day = 24 * 3600 * 10**9
    for unit in ("D", "s", "ms", "ns"):
        assert image_of(days.astype(f"datetime64[{unit}]")) == image_of([day, -day])
    assert image_of(numpy.array([1, "NaT"], dtype="timedelta64[s]")) == image_of([10**9])
    with pytest.raises(TypeError, match="missing value"):
        image_of(days, skipna=False)
    durations = [numpy.array([1], dtype=f"timedelta64{unit}") for unit in ("[Y]", "[M]", "[2Y]", "[12M]", "", "[ps]")]
    for times in (numpy.array(["3000-01-01"], dtype="datetime64[D]"), numpy.array([1], dtype="datetime64[ps]"), *durations):
        with pytest.raises(InvalidArgumentError, match="nanoseconds"):
            image_of(times)
    assert image_of(numpy.array(["1970", "1971"], dtype="datetime64[Y]")) == image_of([0, 365 * day])
    assert image_of(numpy.array([1], dtype="timedelta64[W]")) == image_of([7 * day])
    assert image_of([numpy.datetime64("NaT"), numpy.float32("nan"), 1]) == image_of([1])
    with pytest.raises(TypeError, match="not datetime64"):
        image_of([numpy.datetime64("2026-01-01")])


def test_series_of_pandas():
    pandas = pytest.importorskip("pandas")
    import numpy

    wanted = image_of(["ann", "bob"])
    texts = pandas.Series(["ann", None, "bob", NAN, pandas.NA, pandas.NaT, "ann"])
    for it in (texts, texts.astype("string"), texts.astype("category"), pandas.Index(texts), texts.array, pandas.Categorical(["ann", None, "bob"])):
        assert image_of(it) == wanted
        with pytest.raises(TypeError, match="missing value"):
            image_of(it, skipna=False)
    assert image_of([pandas.NA, "ann", pandas.NaT, "bob"]) == wanted
    for kind in ("int64", "Int64", "UInt8", "category"):
        assert image_of(pandas.Series([1, 2, 2, 3], dtype=kind)) == image_of([1, 2, 3])
    assert image_of(pandas.Series([1, None, 3], dtype="Int64")) == image_of([1, 3])
    assert image_of(pandas.Series([True, None, False], dtype="boolean")) == image_of([0, 1])
    assert image_of(pandas.Series([1, 2, 3])[::2]) == image_of([1, 3])
    times = pandas.Series(pandas.to_datetime(["1970-01-01 00:00:01", None]))
    assert image_of(times) == image_of([10**9])
    assert image_of(times.dt.tz_localize("UTC").dt.tz_convert("Asia/Tokyo")) == image_of([10**9])
    if int(pandas.__version__.split(".")[0]) >= 2:
        for unit in ("s", "ms", "us"):
            assert image_of(times.dt.tz_localize("Asia/Tokyo").dt.as_unit(unit)) == image_of([10**9 - 9 * 3600 * 10**9])
            with pytest.raises(InvalidArgumentError, match="nanoseconds"):
                image_of(pandas.Series(numpy.array(["3000-01-01"], dtype=f"datetime64[{unit}]")).dt.tz_localize("UTC"))
    assert image_of(pandas.Series([NAN, NAN])) == image_of([])
    for floats in (pandas.Series([1.0, NAN]), pandas.Series([1.5], dtype="Float64")):
        with pytest.raises(TypeError, match="float64"):
            image_of(floats)
    for call in (ThetaSketch().update_many, TupleSums().update_many):
        with pytest.raises(TypeError, match="a DataFrame is a table"):
            call(pandas.DataFrame({"name": ["ann"]}))
    sums = TupleSums()
    sums.update_many(texts, range(7))
    assert sums.total == 0 + 2 + 6
    sums.update_many(pandas.Series(["cid"]), pandas.Series([10]))
    sums.update_many(pandas.Series([1, None, 3], dtype="Int64"), numpy.array([20, 1000, 30]))
    assert sums.total == 68.0 and sorted(value for _, value in sums.items()) == [2, 6, 10, 20, 30]


def test_pairs():
    """Keys and values as lists, iterators and arrays, and one value for all."""
    keys, values = [f"user {at % 700}" for at in range(3000)], [at * at for at in range(3000)]
    wanted = TupleSums()
    for key, value in zip(keys, values):
        wanted.update(key, value)
    for these, those in ((keys, values), (iter(keys), iter(values)), (tuple(keys), array("Q", values)), (keys, dict.fromkeys(values))):
        sums = TupleSums()
        sums.update_many(these, those)
        assert sums.to_bytes() == wanted.to_bytes()
    numbers = array("i", [at % 700 - 300 for at in range(3000)])
    wanted = TupleSums()
    for key, value in zip(numbers, values):
        wanted.update(key, value)
    for those in (values, array("q", values), iter(values)):
        sums = TupleSums()
        sums.update_many(numbers, those)
        assert sums.to_bytes() == wanted.to_bytes()
    ones = TupleSums()
    ones.update_many(numbers)
    ones.update_many(list(numbers), 2)
    ones.update_many(numbers, Index(4))
    assert ones.total == 3000 * 7 and len(ones) == 700


def test_pairs_of_numpy():
    numpy = pytest.importorskip("numpy")
    texts, values = numpy.array(["ann", "bob", "ann", ""]), numpy.array([1, 2, 3, 4], dtype="int16")
    for these in (texts, texts.astype("S"), texts.astype(object), texts.tolist()):
        for those in (values, values.tolist(), values.astype(">u8"), values.astype(object)):
            sums = TupleSums()
            sums.update_many(these, those)
            assert sorted(value for _, value in sums.items()) == [2, 4, 4]
    with pytest.raises(UnicodeEncodeError) as caught:
        sums.update_many(numpy.array(["ann", "\ud800"]), 5)
    assert caught.value.added == 1


def test_refused_pairs():
    """The pairs before the refused one have been added, and the error says how many."""
    most = 2**64 - 1
    for keys, values, kind, added in (
        (["a", "b", "b", "c"], [1, most, 1, 1], OverflowError, 2),
        (array("Q", [1, 2, 2, 3]), array("Q", [1, most, 1, 1]), OverflowError, 2),
        (["a", 1.5], [1, 1], TypeError, 1),
        (["a", "b", "c"], [1, 2, -1], InvalidArgumentError, 2),
        (array("Q", [1, 2]), array("q", [1, -1]), InvalidArgumentError, 1),
        (["a", "b"], [1, None], TypeError, 1),
        (["a", "b"], iter([1]), InvalidArgumentError, 1),
        (["a"], iter([1, 2]), InvalidArgumentError, 1),
        (["a", "b"], [1], InvalidArgumentError, 0),
        (["a", "b"], 1 << 64, InvalidArgumentError, 0),
        (["a", "b"], 1.5, TypeError, 0),
        (["a", "b"], object(), TypeError, 0),
        (array("Q", [1, 2]), [1, 1 << 64], InvalidArgumentError, 0),
        (array("Q", [1, 2]), iter([1, 2, 3]), InvalidArgumentError, 0),
        (array("Q", [1, 2]), array("d", [1, 2]), TypeError, 0),
        (array("d", [1, 2]), [1, 1], TypeError, 0),
        ("ab", [1, 1], TypeError, 0),
        (5, [1, 1], TypeError, 0),
    ):
        sums = TupleSums()
        with pytest.raises(kind) as caught:
            sums.update_many(keys, values)
        assert caught.value.added == added == len(sums)
    for options, added in (({"skipna": False}, 1), ({"skip": False}, 0)):
        sums = TupleSums()
        with pytest.raises(TypeError) as caught:
            sums.update_many(["a", None, "b"], 1, **options)
        assert caught.value.added == added == len(sums)
    for keys, values, text in (
        (["a"], [1, 2], "1 keys and 2 values"), (array("Q", [1]), [1, 2], "1 keys and 2 values"),
        (array("Q", [1]), iter([1, 2]), "more values than the 1 keys"), (array("Q", [1, 2]), iter([1]), "2 keys and 1 values"),
        (array("Q", [1, 2]), itertools.repeat(1), "more values than the 2 keys"), ([1, 2], itertools.repeat(1), "more values"),
    ):
        with pytest.raises(InvalidArgumentError, match=text):
            TupleSums().update_many(keys, values)
    for values in ("ab", b"ab", None, 1.5, [1.5, 2], ["1", "2"]):
        with pytest.raises(TypeError):
            TupleSums().update_many(["a", "b"], values)


def test_pairs_of_which_keys_are_missing():
    """As many values as keys are needed, also from an iterator, of which those of missing keys are skipped."""
    numpy, wanted = pytest.importorskip("numpy"), TupleSums()
    wanted.update_many([1, 3], [10, 30])
    many = [numpy.ma.array([1, 2, 3], mask=[0, 1, 0]), numpy.ma.array([1, 2, 3], mask=[0, 1, 0], dtype=object), [1, None, 3]]
    if "pandas" in sys.modules:
        many.append(sys.modules["pandas"].Series([1, None, 3], dtype="Int64"))
    for keys in many:
        for values in ([10, 20, 30], numpy.array([10, 20, 30]), iter([10, 20, 30])):
            sums = TupleSums()
            sums.update_many(keys, values)
            assert sums.to_bytes() == wanted.to_bytes()
        for values in (iter([10, 20]), iter([10, 20, 30, 40]), iter([10] * 5), itertools.repeat(10), [10, 20], numpy.array([10, 20])):
            with pytest.raises(InvalidArgumentError, match="keys and 2 values|fewer values than keys|more values than"):
                TupleSums().update_many(keys, values)


@pytest.mark.parametrize("count", [1, 3, 2000, 70000])
def test_groups_of_keys(count):
    """Each key to the sketch of its number, with short keys and long ones; that of a number below 0 to none."""
    chance = random.Random(count)
    keys = [chance.choice((None, "", "ann", f"user {chance.randrange(500)}", chance.randrange(9), "x" * chance.randrange(2000))) for _ in range(9000)]
    keys[5000] = "y" * 40000
    numbers = array("q", [chance.randrange(-1, min(count, 50)) for _ in keys])
    for given in (keys, iter(keys), tuple(keys)):
        sketches, sums = tuple(ThetaSketch(4) for _ in range(count)), tuple(TupleSums(14) for _ in range(count))
        _native.add_groups(sketches, numbers, given, None, True)
        _native.add_groups(sums, numbers, keys, range(9000), True)
        for at in range(min(count, 50)):
            own = [(key, value) for value, (key, number) in enumerate(zip(keys, numbers)) if number == at]
            wanted = ThetaSketch(4)
            wanted.update_many([key for key, _ in own])
            assert sketches[at].to_bytes() == wanted.to_bytes()
            wanted = TupleSums(14)
            wanted.update_many(*zip(*own)) if own else None
            assert sums[at].to_bytes() == wanted.to_bytes()
    for arguments, kind, text in (
        (((ThetaSketch(),), array("b", [1]), ["a"], None, True), InvalidArgumentError, "fewer groups"),
        (((), array("b", [0]), ["a"], None, True), InvalidArgumentError, "fewer groups"),
        (((ThetaSketch(), TupleSums()), array("b", [0]), ["a"], None, True), TypeError, "of one kind"),
        (((ThetaSketch().compact(),), array("b", [0]), ["a"], None, True), TypeError, "that take updates"),
        (([ThetaSketch()], array("b", [0]), ["a"], None, True), TypeError, "tuple"),
        (((ThetaSketch.__new__(ThetaSketch),), array("b", [0]), ["a"], None, True), RuntimeError, "not made"),
        (((ThetaSketch(),), array("d", [0]), ["a"], None, True), TypeError, "whole numbers"),
        (((ThetaSketch(),), [0], ["a"], None, True), TypeError, ""),
        (((ThetaSketch(),), array("b", [0]), 5, None, True), TypeError, ""),
        (((ThetaSketch(),), array("b", [0]), [1.5], None, True), TypeError, "float"),
        (((ThetaSketch(),), array("b", [0]), [None], None, False), TypeError, "missing value"),
        (((TupleSums(),), array("b", [0, 0]), ["a", "b"], [1], True), InvalidArgumentError, "fewer values"),
        (((TupleSums(),), array("b", [0]), ["a"], [-1], True), InvalidArgumentError, "2\\^64"),
        (((TupleSums(),), array("b", [0]), ["a"], 5, True), TypeError, ""),
    ):
        with pytest.raises(kind, match=text):
            _native.add_groups(*arguments)


def test_nothing_is_imported():
    """The package imports neither numpy nor pandas by itself."""
    import subprocess

    code = "import kaftanclay, sys; kaftanclay.ThetaSketch().update_many([None, 'a']); assert not {'numpy', 'pandas'} & set(sys.modules)"
    subprocess.run([sys.executable, "-c", code], check=True)


def test_estimates_are_the_nearest_floats():
    for count in (5000, 12345, 100000):
        sketch = ThetaSketch(8)
        sketch.update_many(range(count))
        assert sketch.estimate == float(sketch.estimate_fraction) and math.isclose(sketch.estimate, count, rel_tol=0.3)
    # Images of chosen thetas: of the smallest, of powers of two, of what makes a tie of two floats, and of any.
    chance, head = random.Random(3), ThetaSketch(seed=1)
    head.update("ann")
    for turn in range(3000):
        count = chance.choice((0, 1, 2, 3, 7, 100))
        bits = chance.randrange(8, 64)
        theta = min(max(count + 1, chance.choice((1 << bits, (1 << bits) - 1, chance.getrandbits(bits), count + 1 + turn))), MAX_THETA)
        image = bytes([3]) + head.to_bytes()[1:8] + struct.pack("<IIQ", count, 0, theta) + struct.pack(f"<{count}Q", *range(1, count + 1))
        read = CompactThetaSketch.from_bytes(image, seed=1)
        assert read.theta == theta and read.estimate == float(Fraction(count * MAX_THETA, theta)), (count, theta)
