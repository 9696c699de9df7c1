"""Each call on theta sketches, compared with sketches that are computed from the pages alone."""
import copy
import math
import pickle
from array import array
from fractions import Fraction

import model_distinct
import pytest
from kaftanclay import (
    DEFAULT_SEED,
    MAX_THETA,
    CompactThetaSketch,
    InvalidArgumentError,
    InvalidDataError,
    SketchError,
    ThetaIntersection,
    ThetaSketch,
    ThetaUnion,
)

SEED_HASH = model_distinct.seed_hash(DEFAULT_SEED)


def bytes_of(key):
    return key.encode() if isinstance(key, str) else key if isinstance(key, bytes) else (key % 2**64).to_bytes(8, "little")


def value_of(keys, k=4096, seed=DEFAULT_SEED):
    """The trimmed sketch of keys by checks/model_distinct.py: None if it is empty, or its hashes and its theta."""
    return model_distinct.cut(k, {model_distinct.murmur(bytes_of(key), seed) >> 1 for key in keys}, MAX_THETA) if keys else None


def image_of(value):
    return model_distinct.image_of(value, SEED_HASH)


def sketch_of(keys, lg_k=12):
    """A trimmed sketch."""
    sketch = ThetaSketch(lg_k)
    sketch.update_many(keys)
    sketch.trim()
    return sketch


def test_image_of_three_lines():
    """The image of docs/use/OTHER-LIBRARIES.md."""
    wanted = "02030300001acc9303000000000000005f1032909707cc2780b8a85705094430fc08309e1c5ed36b"
    assert sketch_of(["ann", "bob", "cy"]).to_bytes().hex() == wanted


@pytest.mark.parametrize("key", ["", "ann", "日本", b"", b"\0\xff", 0, 7, -1, 2**63, 2**64 - 1, -(2**63)])
def test_key(key):
    sketch = ThetaSketch()
    sketch.update(key)
    assert bytes(sketch) == sketch.to_bytes() == image_of(value_of([key]))
    many = ThetaSketch()
    many.update_many([key, key])
    assert many.to_bytes() == sketch.to_bytes() and len(many) == 1


def test_keys_of_one_hash():
    sketch = ThetaSketch()
    sketch.update_many(["ann", b"ann", bytearray(b"ann"), memoryview(b"ann"), -1, 2**64 - 1, True, 1])
    assert len(sketch) == 3
    wanted = image_of(value_of([2**64 - 1, 1, 7]))
    for keys in ([-1, 1, 7], [1, 2**64 - 1, 7], [-1, 2**64 - 1, 1, 7, True], iter([1, -1, 7])):
        assert sketch_of(keys).to_bytes() == wanted
    assert sketch_of([1, "ann", -1]).to_bytes() == image_of(value_of([1, "ann", -1]))


@pytest.mark.parametrize("key", [1.0, None, [], ("a",), 1j])
def test_key_of_another_type(key):
    sketch = ThetaSketch()
    for call in (lambda: sketch.update(key), lambda: sketch.update_many([key], skipna=False)):
        with pytest.raises(TypeError, match="a key is a str, bytes or an int"):
            call()
    assert sketch.is_empty


@pytest.mark.parametrize("key", [2**64, -(2**63) - 1])
def test_number_out_of_range(key):
    with pytest.raises(InvalidArgumentError, match="from -2\\^63"):
        ThetaSketch().update(key)


@pytest.mark.parametrize("keys", ["ann", b"ann", bytearray(b"ann")])
def test_one_key_as_many(keys):
    with pytest.raises(TypeError, match="is one key"):
        ThetaSketch().update_many(keys)


def test_arrays_of_numbers():
    numbers = range(5000)
    wanted = sketch_of(list(numbers)).to_bytes()
    for keys in (array("Q", numbers), array("q", numbers), memoryview(array("Q", numbers)), array("i", numbers), iter(numbers)):
        assert sketch_of(keys).to_bytes() == wanted
    assert sketch_of(memoryview(array("Q", range(10000)))[::2]).to_bytes() == sketch_of(range(0, 10000, 2)).to_bytes()
    assert sketch_of(array("q", [-1, -2])).to_bytes() == image_of(value_of([-1, -2]))
    with pytest.raises(TypeError):
        sketch_of(array("d", [1.0]))


def test_arrays_of_numpy():
    numpy = pytest.importorskip("numpy")
    wanted = sketch_of(range(5000)).to_bytes()
    for kind in ("uint64", "int64", "int32", "uint16", ">u8", "<i8"):
        assert sketch_of(numpy.arange(5000).astype(kind)).to_bytes() == wanted
    assert sketch_of(numpy.arange(10000, dtype="uint64")[::2]).to_bytes() == sketch_of(range(0, 10000, 2)).to_bytes()
    read_only = numpy.arange(5000, dtype="uint64")
    read_only.flags.writeable = False
    assert sketch_of(read_only).to_bytes() == wanted
    assert sketch_of(numpy.array(["ann", "bob"])).to_bytes() == sketch_of(["ann", "bob"]).to_bytes()
    assert len(sketch_of(numpy.array([-1, 3, -7], dtype="int32"))) == 3
    one = ThetaSketch()
    one.update(numpy.int32(-1))
    assert one.to_bytes() == sketch_of([-1]).to_bytes()
    for keys in (numpy.array([1.5]), numpy.zeros((2, 2), dtype="uint64")):
        with pytest.raises(TypeError):
            sketch_of(keys)


@pytest.mark.parametrize("count", [0, 1, 2, 4096, 4097, 30000])
def test_values_and_operators(count):
    """Sketches that overlap by half, with the empty sketch and with themselves."""
    first, second = range(count), range(count // 2, count + count // 2)
    a, b, empty = sketch_of(first), sketch_of(second), ThetaSketch()
    x, y = value_of(first), value_of(second)
    assert a.to_bytes() == image_of(x)
    pairs = [(a, b, x, y), (a.compact(), b, x, y), (a, b.compact(), x, y)]
    pairs += [(a, a, x, x), (a, empty, x, None), (empty, b, None, y)]
    for first, second, *values in pairs:
        assert (first | second).to_bytes() == image_of(model_distinct.unite(4096, values))
        assert (first & second).to_bytes() == image_of(model_distinct.meet(values))
        assert (first - second).to_bytes() == image_of(model_distinct.minus(*values))


def test_operators_refuse_other_types():
    for call in (lambda a: a | 1, lambda a: a & "ann", lambda a: a - b"ann", lambda a: 1 | a):
        with pytest.raises(TypeError):
            call(ThetaSketch())


def test_seeds():
    first, second = ThetaSketch(seed=1), ThetaSketch(seed=2)
    first.update("ann")
    second.update("ann")
    assert first.hashes() == [model_distinct.murmur(b"ann", 1) >> 1] and first.seed == 1
    for call in (lambda: first | second, lambda: first & second, lambda: first - second, lambda: ThetaUnion().update(first)):
        with pytest.raises(InvalidArgumentError, match="different seeds"):
            call()
    with pytest.raises(InvalidDataError, match="under this seed: the image has another seed hash"):
        CompactThetaSketch.from_bytes(first.to_bytes())
    with pytest.raises(InvalidDataError, match="bytes follow the image$"):
        CompactThetaSketch.from_bytes(first.to_bytes() + b"m", seed=1)
    with pytest.raises(InvalidDataError, match="bytes follow the image$"):
        ThetaUnion(seed=1).update(first.to_bytes() + b"m")
    assert (first | first.compact()).seed == 1
    assert CompactThetaSketch.from_bytes(first.to_bytes(), seed=1) == first.compact()


def test_lg_k():
    """Results have the greater lg_k, and a union retains at most its own."""
    many = sketch_of(range(9000), 14)
    assert (many | sketch_of(range(9), 4)).lg_k == 14 and len(many | sketch_of(range(9), 4)) == 9000
    assert len(sketch_of(range(9), 4) | sketch_of(range(99), 4)) == 16
    read = CompactThetaSketch.from_bytes(many.to_bytes())
    assert read.lg_k == 14 and len(read | read) == 9000
    assert CompactThetaSketch.from_bytes(many.to_bytes(), lg_k=10).lg_k == 10
    assert CompactThetaSketch.from_bytes(ThetaSketch(20).to_bytes()).lg_k == 12


@pytest.mark.parametrize("lg_k", [-1, 0, 3, 27, 256, 268, 2**64])
def test_settings_out_of_range(lg_k):
    for make in (ThetaSketch, ThetaUnion):
        with pytest.raises(InvalidArgumentError, match="lg_k"):
            make(lg_k)
    with pytest.raises(InvalidArgumentError, match="lg_k"):
        CompactThetaSketch.from_bytes(ThetaSketch().to_bytes(), lg_k=lg_k)


def test_seed_out_of_range():
    without_hash = next(seed for seed in range(2**20) if model_distinct.seed_hash(seed) == 0)
    for seed in (-1, 2**64, without_hash):
        for make in (lambda: ThetaSketch(seed=seed), lambda: ThetaUnion(seed=seed), lambda: ThetaIntersection(seed=seed)):
            with pytest.raises(InvalidArgumentError):
                make()
    for settings in ({"resize_factor": 3}, {"resize_factor": 2**32 + 2}, {"starting_theta": 0}, {"starting_theta": 2**63}):
        with pytest.raises(InvalidArgumentError):
            ThetaSketch(**settings)
    with pytest.raises(TypeError):
        ThetaSketch(seed=1.5)
    with pytest.raises(TypeError):
        ThetaSketch(lg_k="12")


def test_what_a_sketch_answers():
    empty, exact, rough = ThetaSketch(), sketch_of(range(100)), sketch_of(range(100000))
    assert empty.is_empty and empty.is_exact and len(empty) == 0 and empty.estimate == 0.0 and empty.bounds() == (0, 0)
    assert not exact.is_empty and exact.is_exact and exact.estimate == 100.0 and exact.bounds(3) == (100, 100)
    assert exact.hashes() == sorted(model_distinct.murmur(n.to_bytes(8, "little"), DEFAULT_SEED) >> 1 for n in range(100))
    hashes, theta = value_of(range(100000))
    assert rough.theta == theta and len(rough) == 4096 == len(hashes) and not rough.is_exact
    assert rough.estimate_fraction == Fraction(4096 * MAX_THETA, theta) and rough.estimate == 4096 * MAX_THETA / theta
    assert rough.estimate_text() == str(4096 * MAX_THETA // theta)
    assert rough.estimate_text(3) == f"{4096 * MAX_THETA * 1000 // theta / 1000:.3f}"
    for deviations in (1, 2, 3):
        assert rough.bounds(deviations) == model_distinct.count_bounds(deviations, 4096, theta)
    assert rough.bounds() == rough.bounds(2) and rough.compact().bounds() == rough.bounds()
    assert repr(exact) == "<ThetaSketch of 100 keys, lg_k 12>" and "about" in repr(rough.compact())
    assert exact._repr_html_() == (
        "<table><caption>ThetaSketch</caption><tr><th>distinct keys</th><td>100, exact</td></tr><tr><th>retained hashes</th><td>100</td></tr>"
        "<tr><th>theta</th><td>1</td></tr><tr><th>lg_k</th><td>12</td></tr></table>"
    )
    low, high = rough.bounds()
    assert f"<td>about {rough.estimate:.0f}, from {low} to {high}</td>" in rough.compact()._repr_html_()
    for deviations in (0, 4, 2**32 + 2, -1):
        with pytest.raises(InvalidArgumentError, match="deviations"):
            rough.bounds(deviations)
    with pytest.raises(InvalidArgumentError, match="decimals"):
        rough.estimate_text(20)


def test_trim_and_reset():
    sketch = ThetaSketch(8)
    sketch.update_many(range(450))
    assert len(sketch) > 256
    sketch.trim()
    assert sketch.to_bytes() == image_of(value_of(range(450), 256))
    sketch.reset()
    assert sketch.is_empty and sketch.theta == MAX_THETA and sketch.to_bytes() == ThetaSketch().to_bytes()


def test_union():
    union, parts = ThetaUnion(), [range(n * 1000, n * 1000 + 2000) for n in range(20)]
    assert union.result().is_empty
    for at, keys in enumerate(parts):
        sketch = sketch_of(keys)
        union.update((sketch, sketch.compact(), sketch.to_bytes(), memoryview(bytes(sketch)))[at % 4])
    assert union.result().to_bytes() == image_of(value_of(range(21000))) and union.result().lg_k == union.lg_k == 12
    with pytest.raises(InvalidDataError):
        union.update(b"abc")
    for other in (5, "ann", None, ThetaUnion()):
        with pytest.raises(TypeError):
            union.update(other)
    assert union.result().to_bytes() == image_of(value_of(range(21000)))
    union.reset()
    assert union.result().is_empty


def test_intersection():
    meet = ThetaIntersection()
    with pytest.raises(InvalidArgumentError, match="before its first sketch"):
        meet.result()
    meet.update(sketch_of(range(3000)))
    meet.update(sketch_of(range(1000, 4000)).to_bytes())
    meet.update(sketch_of(range(2000, 9000)).compact())
    wanted = model_distinct.meet([value_of(range(3000)), value_of(range(1000, 4000)), value_of(range(2000, 9000))])
    assert meet.result().to_bytes() == image_of(wanted) and 900 < meet.result().estimate < 1100
    with pytest.raises(InvalidDataError):
        meet.update(bytes(8))


def test_compact_sketches_are_values():
    compact = sketch_of(range(9000)).compact()
    read = CompactThetaSketch.from_bytes(bytearray(compact.to_bytes()))
    assert read == compact and hash(read) == hash(compact) and len({read, compact}) == 1
    assert read != sketch_of(range(9999)).compact() and read != 5 and (read == 5) is False
    for other in (copy.copy(read), copy.deepcopy(read), pickle.loads(pickle.dumps(read))):
        assert other == read and other.lg_k == read.lg_k and other.seed == read.seed
    with pytest.raises(TypeError):
        CompactThetaSketch()
    with pytest.raises(AttributeError):
        compact.update("ann")


@pytest.mark.parametrize("count", [0, 1, 450, 5000])
def test_copies_take_updates(count):
    """A copy has the value of a sketch, untrimmed, and its settings, and continues by itself."""
    sketch = ThetaSketch(8, resize_factor=1)
    sketch.update_many(range(count))
    image = sketch.to_bytes()
    copies = copy.copy(sketch), copy.deepcopy(sketch), pickle.loads(pickle.dumps(sketch)), ThetaSketch.from_bytes(image, lg_k=8)
    for other in copies:
        assert other.to_bytes() == image and (other.lg_k, other.seed) == (8, DEFAULT_SEED)
        other.update_many(range(count, count + 300))
        other.trim()
        assert other.to_bytes() == image_of(value_of(range(count + 300), 256))
        other.reset()
        assert other.is_empty and other.theta == MAX_THETA and sketch.to_bytes() == image
    for protocol in range(pickle.HIGHEST_PROTOCOL + 1):
        assert pickle.loads(pickle.dumps(sketch, protocol)).to_bytes() == image


def test_starting_theta():
    """A sketch that retains nothing may be nonempty, and so are its copies; they begin at its starting theta too."""
    sketch = ThetaSketch(starting_theta=1)
    sketch.update("ann")
    for it in (sketch, copy.copy(sketch), pickle.loads(pickle.dumps(sketch)), ThetaSketch.from_bytes(sketch.to_bytes())):
        assert (len(it), it.theta, it.is_empty, it.is_exact) == (0, 1, False, False)
    for it in (sketch, copy.copy(sketch), pickle.loads(pickle.dumps(sketch))):
        it.reset()
        assert it.is_empty
        it.update("bob")
        assert it.theta == 1
    half = ThetaSketch(starting_theta=2**62)
    for it in (copy.copy(half), pickle.loads(pickle.dumps(half)), half):
        it.update_many(range(2000))
        assert 900 < len(it) < 1100 and it.theta == 2**62 and 1800 < it.estimate < 2200


def test_order_of_an_image():
    """An image whose hashes don't ascend is read as the same sketch, ordered."""
    ordered = sketch_of(["ann", "bob", "cy"]).to_bytes()
    turned = bytearray(ordered[:16] + ordered[24:] + ordered[16:24])
    turned[5] = 0x0A
    assert CompactThetaSketch.from_bytes(turned).to_bytes() == ordered


@pytest.mark.parametrize("data", [5, "ann", None, [1]])
def test_image_of_another_type(data):
    with pytest.raises(TypeError, match="an image is bytes"):
        CompactThetaSketch.from_bytes(data)


@pytest.mark.parametrize("made", [ThetaUnion(), ThetaIntersection()])
def test_operators_are_not_copied(made):
    for call in (copy.copy, copy.deepcopy, pickle.dumps):
        with pytest.raises(TypeError, match="take its result"):
            call(made)


def test_errors_have_one_base():
    for kind in (InvalidArgumentError, InvalidDataError):
        assert issubclass(kind, SketchError) and issubclass(kind, ValueError)
    assert InvalidArgumentError.status == 1 and InvalidDataError.status == 2


def test_estimates_are_near():
    for count in (10**5, 10**6):
        sketch = sketch_of(array("Q", range(count)))
        assert math.isclose(sketch.estimate, count, rel_tol=0.05)
        assert sketch.bounds(3)[0] <= count <= sketch.bounds(3)[1]
