"""Collections of Dask, by its schedulers of one process; checks/dask_cluster.py uses a cluster."""
import pytest
from kaftanclay import InvalidArgumentError, ThetaSketch

pandas = pytest.importorskip("pandas")
dask = pytest.importorskip("dask")
dataframe = pytest.importorskip("dask.dataframe")
import dask.array  # noqa: E402
import dask.bag  # noqa: E402
import numpy  # noqa: E402
from kaftanclay.dask import distinct_count, sketch, theta_sketch  # noqa: E402
from kaftanclay.pandas import sketch_by  # noqa: E402


@pytest.fixture(autouse=True, params=["sync", "threads"])
def scheduler(request):
    with dask.config.set(scheduler=request.param):
        yield


def frame_of(count=20000):
    numbers = numpy.arange(count)
    return pandas.DataFrame({
        "day": numbers % 7, "part": (numbers % 3).astype(str), "user": [f"user {it * 7919 % 6007}" for it in range(count)], "id": numbers % 5003,
    })


def sketch_of(keys, lg_k=12, seed=9001):
    made = ThetaSketch(lg_k, seed)
    made.update_many(keys)
    made.trim()
    return made.compact()


@pytest.mark.parametrize("partitions", [1, 2, 13])
def test_groups(partitions):
    """The sketches, also their bytes, are those of one pass, whatever the partitions."""
    whole = frame_of()
    frame = dataframe.from_pandas(whole, npartitions=partitions)
    for by in ("day", ["day", "part"]):
        for key in ("user", "id"):
            wanted = sketch_by(whole, by, key)
            found = frame.groupby(by)[key].agg(theta_sketch).compute().sort_index()
            assert list(found) == list(wanted) and found.index.equals(wanted.index)
            counts = frame.groupby(by)[key].agg(distinct_count, split_every=2).compute().sort_index()
            assert counts.tolist() == [it.estimate for it in wanted]
    found = frame.groupby("day").agg({"user": theta_sketch(lg_k=14), "id": [distinct_count, distinct_count(14), "count"]}).compute().sort_index()
    wanted = sketch_by(whole, "day", "user", lg_k=14)
    assert list(found["user"].iloc[:, 0]) == list(wanted) and {it.lg_k for it in wanted} == {14}
    assert found["id"].iloc[:, 0].tolist() == found["id"].iloc[:, 1].tolist() == whole.groupby("day")["id"].nunique().tolist()


def test_groups_of_missing_and_empty_parts():
    whole = pandas.DataFrame({"day": ["a", "a", None, "b", "b", "c"], "user": ["ann", None, "bob", None, None, "cid"]})
    for partitions in (1, 3, 6):
        frame = dataframe.from_pandas(whole, npartitions=partitions)
        for part in (frame, frame[frame["day"] == "a"], frame[frame["day"] == "none"]):
            wanted = sketch_by(part.compute(), "day", "user")
            found = part.groupby("day")["user"].agg(theta_sketch).compute().sort_index()
            assert list(found) == list(wanted) and list(found.index) == list(wanted.index)
    with pytest.raises(TypeError, match="missing value"):
        dataframe.from_pandas(whole, npartitions=2).groupby("day")["user"].agg(theta_sketch(skipna=False)).compute()


def test_settings():
    frame = dataframe.from_pandas(frame_of(3000), npartitions=4)
    found = frame.groupby("day")["user"].agg(theta_sketch(lg_k=5, seed=3)).compute()
    assert {(it.lg_k, it.seed, len(it)) for it in found} == {(5, 3, 32)}
    assert theta_sketch.__name__ == "theta_sketch" and theta_sketch(14).__name__ != theta_sketch(15).__name__ != theta_sketch(15, 3).__name__
    assert theta_sketch(12).__name__ == "theta_sketch"


@pytest.mark.parametrize("split_every", [2, 3, 8])
def test_whole_collections(split_every):
    whole = frame_of()
    for lg_k, seed in ((12, 9001), (14, 7)):
        wanted = sketch_of(whole["user"], lg_k, seed)
        for keys in (dataframe.from_pandas(whole, npartitions=13)["user"], dask.bag.from_sequence(whole["user"], npartitions=5),
                     dask.bag.from_sequence(whole["user"]).map(lambda it: it), dataframe.from_pandas(whole, npartitions=3).set_index("user").index):
            found = sketch(keys, lg_k, seed, split_every=split_every)
            assert found == wanted and (found.lg_k, found.seed) == (lg_k, seed)
    numbers = dask.array.from_array(numpy.arange(9000), chunks=1000)
    assert sketch(numbers, split_every=split_every) == sketch_of(range(9000))
    later = sketch(numbers, compute=False, split_every=split_every)
    assert later.compute() == sketch_of(range(9000)) and later.key == sketch(numbers, compute=False, split_every=split_every).key
    assert sketch(dask.bag.from_sequence([None, "ann", None], npartitions=3)) == sketch_of(["ann"])
    assert sketch(dask.bag.from_sequence([])).is_empty


def test_what_is_refused():
    frame = dataframe.from_pandas(frame_of(100), npartitions=2)
    for call, error, text in (
        (lambda: sketch(frame), TypeError, "a DataFrame is a table"),
        (lambda: sketch(["ann"]), TypeError, "a list is no collection of Dask"),
        (lambda: sketch(frame["user"], split_every=1), InvalidArgumentError, "at least 2"),
        (lambda: sketch(frame["user"], lg_k=3), InvalidArgumentError, "4 to 26"),
        (lambda: sketch(frame["id"] * 1.5), TypeError, "float64"),
        (lambda: sketch(dask.bag.from_sequence([None]), skipna=False), TypeError, "missing value"),
    ):
        with pytest.raises(error, match=text):
            call()
