"""Groups of a DataFrame: the sketches of each group, compared with a set of Python of each."""
import collections
import datetime
import random
from array import array

import pytest
from kaftanclay import CompactThetaSketch, CompactTupleSums, InvalidArgumentError, PolicyError, ThetaSketch, TupleSums

numpy = pytest.importorskip("numpy")
pandas = pytest.importorskip("pandas")
from kaftanclay.pandas import distinct_count, sketch_by, theta_sketch, theta_union  # noqa: E402

NAN = float("nan")


def sketch_of(keys, lg_k=12, **more):
    sketch = ThetaSketch(lg_k, **more)
    sketch.update_many(keys)
    sketch.trim()
    return sketch.compact()


def sums_of(pairs, lg_k=12):
    sums = TupleSums(lg_k)
    for key, value in pairs:
        sums.update(key, value)
    sums.trim()
    return sums.compact()


def rows(count, seed=1):
    """Rows of a group, a key (each maybe missing) and a value."""
    chance = random.Random(seed)
    groups, names = [None, *"abcdefg"], [None, *(f"user {at}" for at in range(count // 3 + 1))]
    return [(chance.choice(groups), chance.choice(names), chance.randrange(100)) for _ in range(count)]


def by_sets(found):
    """The keys of each group by a dict of lists; rows without a group are left out."""
    wanted = collections.defaultdict(list)
    for group, key, value in found:
        if group is not None:
            wanted[group].append((key, value))
    return dict(sorted(wanted.items()))


@pytest.mark.parametrize("kind", ["object", "string", "category", "Int64", "int32", "uint8", "bool", "boolean", "datetime64[ns]", "object of int"])
@pytest.mark.parametrize("count", [0, 1, 3000])
def test_each_type_of_keys(kind, count):
    """As many keys as a set has, and the sketch of their list."""
    found = rows(count)
    keys = [key for _, key, _ in found]
    numbers = [None if key is None else int(key[5:]) % (2 if "bool" in kind else 200) for key in keys]
    if kind in ("int32", "uint8", "bool"):
        keys = numbers = [it or 0 for it in numbers]
    series = pandas.Series(keys, dtype=kind) if kind in ("object", "string", "category") else None
    if series is None:
        keys = numbers
        series = pandas.Series(numbers, dtype="object" if kind == "object of int" else "Int64" if kind.startswith("date") else kind)
    if kind.startswith("date"):
        series = pandas.to_datetime(series.astype("float"), unit="s")
        keys = [None if it is None else it * 10**9 for it in keys]
    frame = pandas.DataFrame({"group": pandas.Series([it[0] for it in found], dtype=object), "key": series})
    wanted = by_sets((group, key, 0) for (group, _, _), key in zip(found, keys))
    made = sketch_by(frame, "group", "key")
    assert list(made.index) == list(wanted) and made.name == "key" and made.dtype == object and made.index.name == "group"
    for group, pairs in wanted.items():
        distinct = {key for key, _ in pairs} - {None}
        assert isinstance(made[group], CompactThetaSketch) and made[group].estimate == len(distinct)
        assert made[group] == sketch_of(list(distinct))
    if count:
        assert made.equals(frame.groupby("group")["key"].agg(theta_sketch)) or list(made) == list(frame.groupby("group")["key"].agg(theta_sketch))
        assert frame.groupby("group")["key"].agg(distinct_count).tolist() == frame.groupby("group")["key"].nunique().tolist()


@pytest.mark.parametrize("kind", ["object", "string", "category"])
def test_sums(kind):
    found = rows(3000)
    frame = pandas.DataFrame(found, columns=["group", "key", "value"]).astype({"key": kind})
    for values in (frame["value"], frame["value"].astype("Int64"), frame["value"].astype(object), frame["value"].astype("uint8")):
        frame["value"] = values
        made = sketch_by(frame, "group", "key", "value", lg_k=11)
        for group, pairs in by_sets(found).items():
            assert isinstance(made[group], CompactTupleSums) and made[group].total == sum(value for key, value in pairs if key is not None)
            assert made[group] == sums_of([it for it in pairs if it[0] is not None], 11)
    numbers = pandas.DataFrame({"group": list("aab"), "key": [1, 1, 1], "value": [5, 6, 7]})
    assert [it.total for it in sketch_by(numbers, "group", "key", "value")] == [11.0, 7.0]
    for mode, wanted in (("sum", [11.0, 7.0]), ("min", [5.0, 7.0]), ("max", [6.0, 7.0])):
        for of in ("int64", "Int64", object):
            made = sketch_by(numbers.astype({"key": of, "value": of}), "group", "key", "value", mode=mode)
            assert [(it.total, it.mode) for it in made] == [(total, mode) for total in wanted]
    for value, mode in (("value", "avg"), (None, "min")):
        with pytest.raises(InvalidArgumentError, match="mode"):
            sketch_by(numbers, "group", "key", value, mode=mode)
    numbers["value"] = [1, 2**64 - 1, 0]
    with pytest.raises(PolicyError):
        sketch_by(numbers.astype({"value": "uint64"}), "group", "key", "value")
    for wrong, error in (([1.5, 1.0, 1.0], TypeError), ([-1, 1, 1], InvalidArgumentError), ([None, 1, 1], TypeError), (["1", "1", "1"], TypeError)):
        with pytest.raises(error):
            sketch_by(numbers.assign(value=wrong), "group", "key", "value")


def test_groups_of_each_kind():
    """By columns, by a function, by a Series, by categories, by time, by levels: as pandas groups."""
    chance = random.Random(2)
    days = [datetime.datetime(2026, 1, 1) + datetime.timedelta(hours=chance.randrange(200)) for _ in range(500)]
    frame = pandas.DataFrame({
        "a": [chance.choice("xyz") for _ in days], "b": [chance.choice([1, 2, NAN]) for _ in days], "time": days,
        "key": [f"k{chance.randrange(40)}" for _ in days],
    })
    frame["c"] = pandas.Categorical(frame["a"], categories=["unused", "z", "y", "x"])
    frame["d"] = pandas.Categorical(frame["b"], categories=[2, 1, 0])
    shuffled = frame.sample(frac=1, random_state=1)
    for it in (frame, shuffled):
        for by in ("a", ["a"], ["a", "b"], ["c", "d"], "c", lambda at: at % 7, frame["b"], pandas.Grouper(key="time", freq="D"),
                   [pandas.Grouper(key="time", freq="D"), "a"], ["c", "b", "a"]):
            made = sketch_by(it, by, "key")
            wanted = it.groupby(by, observed=True)["key"].agg(lambda keys: set(keys))
            assert len(made) == len(wanted) and made.index.equals(wanted.index)
            for sketch, keys in zip(made, wanted):
                assert sketch == sketch_of(list(keys or ()))
    assert sketch_by(frame, pandas.Series(["one"] * 500), "key")["one"].estimate == 40
    many = pandas.DataFrame({"group": numpy.arange(50000) % 40000, "key": numpy.arange(50000)})
    made = sketch_by(many, "group", "key", lg_k=4)
    assert len(made) == 40000 and [len(it) for it in made] == [2] * 10000 + [1] * 30000
    assert sketch_by(many[::-1], "group", "key", lg_k=4).equals(made)
    texts = many.astype({"key": str})
    made = sketch_by(texts, "group", "key", lg_k=4)
    assert [len(it) for it in made] == [2] * 10000 + [1] * 30000 and made[7] == sketch_of(["7", "40007"], 4)


def test_settings():
    frame = pandas.DataFrame({"group": ["a"] * 9000, "key": range(9000)})
    grouped = frame.groupby("group")["key"]
    wanted = sketch_of(range(9000), 10, seed=7)
    for made in (sketch_by(frame, "group", "key", lg_k=10, seed=7), grouped.agg(theta_sketch, lg_k=10, seed=7),
                 frame.groupby("group").agg(key=("key", lambda it: theta_sketch(it, 10, 7)))["key"]):
        assert made["a"] == wanted and (made["a"].lg_k, made["a"].seed) == (10, 7) and len(made["a"]) == 1024
    assert grouped.agg(distinct_count, lg_k=14)["a"] == 9000.0 == sketch_by(frame, "group", "key", lg_k=14)["a"].estimate
    assert frame.groupby("group").agg({"key": theta_sketch})["key"]["a"] == frame.groupby("group").agg(users=("key", theta_sketch))["users"]["a"]
    assert frame["key"].agg(theta_sketch) == sketch_of(range(9000)) == theta_sketch(frame["key"]) == theta_sketch(array("Q", range(9000)))
    with pytest.raises(InvalidArgumentError, match="4 to 26"):
        sketch_by(frame, "group", "key", lg_k=300)


def test_missing_values():
    frame = pandas.DataFrame({"group": list("aabb"), "key": ["ann", None, NAN, pandas.NA]})
    for kind in (object, "string", "category"):
        made = sketch_by(frame.astype({"key": kind}), "group", "key")
        assert made["a"].estimate == 1.0 and made["b"].is_empty
        with pytest.raises(TypeError, match="missing value"):
            sketch_by(frame.astype({"key": kind}), "group", "key", skipna=False)
        with pytest.raises(TypeError, match="missing value"):
            frame.astype({"key": kind}).groupby("group")["key"].agg(theta_sketch, skipna=False)
    nothing = pandas.DataFrame({"group": ["a", None], "key": ["ann", None]})
    assert sketch_by(nothing, "group", "key", skipna=False)["a"].estimate == 1.0
    # A value beside a missing key isn't read.
    pairs = pandas.DataFrame({"group": ["a", "a"], "key": ["ann", None], "value": pandas.Series([3, None], dtype=object)})
    assert sketch_by(pairs, "group", "key", "value")["a"].total == 3.0


def test_what_is_refused():
    frame = pandas.DataFrame({"group": ["a"], "key": [1.5], "two": ["b"]})
    for call, error, text in (
        (lambda: sketch_by(frame, "group", "none"), KeyError, "none"),
        (lambda: sketch_by(frame, "none", "key"), KeyError, "none"),
        (lambda: sketch_by(frame, "group", "two", "none"), KeyError, "none"),
        (lambda: sketch_by(frame, "group", "key"), TypeError, "float64"),
        (lambda: sketch_by(frame, "group", ["key", "two"]), TypeError, "more than one column"),
        (lambda: sketch_by(frame.set_axis(["group", "key", "key"], axis=1), "group", "key"), TypeError, "more than one column"),
        (lambda: theta_sketch("ann"), TypeError, "one key"),
        (lambda: theta_sketch(frame), TypeError, "a table"),
        (lambda: theta_union([sketch_of(["a"]), 5]), TypeError, "theta sketches, not of int"),
        (lambda: theta_union([sketch_of(["a"]), sketch_of(["b"], seed=2)]), InvalidArgumentError, "different seeds"),
        (lambda: theta_union([TupleSums()]), TypeError, "not of TupleSums"),
    ):
        with pytest.raises(error, match=text):
            call()


def test_unions():
    frame = pandas.DataFrame(rows(3000), columns=["group", "key", "value"]).dropna()
    frame["half"] = frame["value"] % 2
    parts = sketch_by(frame, ["group", "half"], "key", lg_k=13)
    whole = sketch_by(frame, "group", "key", lg_k=13)
    united = parts.groupby(level="group").agg(theta_union)
    assert list(united) == list(whole) and list(united.index) == list(whole.index)
    assert theta_union(parts).estimate == frame["key"].nunique() and theta_union(parts).lg_k == 13
    assert theta_union([None, *parts, NAN], lg_k=5).lg_k == 5 and theta_union([]).is_empty and theta_union([None]).lg_k == 12
    assert theta_union([sketch_of(["a"], seed=3)]).seed == 3


def test_categories_are_read_once():
    """A category that no row has isn't counted, also in a slice."""
    keys = pandas.Series(["ann", "bob", None, "ann", "cid"], dtype="category")
    for part, wanted in ((keys, 3), (keys[:2], 2), (keys[2:3], 0), (keys.array[3:], 2), (pandas.CategoricalIndex(keys), 3), (keys[:0], 0)):
        assert theta_sketch(part).estimate == wanted
    numbers = pandas.Series([5, 7, 5], dtype="category")
    assert theta_sketch(numbers[:1]) == sketch_of([5])
    sums = TupleSums()
    sums.update_many(keys, [1, 2, 4, 8, 16])
    assert sums.total == 27.0 and len(sums) == 3
