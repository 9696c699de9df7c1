"""Sketches on a cluster of Dask: of the groups of a DataFrame, and of all keys of a collection.

    >>> import pandas
    >>> from dask import bag, dataframe
    >>> from kaftanclay.dask import distinct_count, sketch, theta_sketch
    >>> visits = pandas.DataFrame({"day": ["mon", "mon", "tue"], "user": ["ann", "bob", "ann"]})
    >>> frame = dataframe.from_pandas(visits, npartitions=2)
    >>> frame.groupby("day")["user"].agg(distinct_count).compute(scheduler="sync").to_dict()
    {'mon': 2.0, 'tue': 1.0}
    >>> frame.groupby("day")["user"].agg(theta_sketch(lg_k=14)).compute(scheduler="sync")["mon"].lg_k
    14
    >>> sketch(frame["user"]).estimate, sketch(bag.from_sequence(["ann", "bob", "ann"])).estimate
    (2.0, 2.0)

Each task makes a compact and trimmed sketch, so all values, also their bytes, depend on nothing but the set of keys, `lg_k` and the
seed: not on the partitions, the workers, and which tasks ran again after a worker was lost.
"""
from __future__ import annotations

from functools import partial
from typing import Any

from dask.dataframe.groupby import Aggregation
from dask.delayed import delayed

from . import pandas as _of_pandas
from ._native import DEFAULT_SEED
from .errors import InvalidArgumentError

__all__ = ["ThetaAggregation", "distinct_count", "sketch", "theta_sketch"]


def _chunk(grouped: Any, lg_k: int, seed: int, skipna: bool) -> Any:
    """The sketches of the groups of one partition."""
    return grouped.agg(_of_pandas.theta_sketch, lg_k=lg_k, seed=seed, skipna=skipna)


def _unite(grouped: Any, lg_k: int) -> Any:
    """The unions of the sketches of each group, of several partitions."""
    return grouped.agg(_of_pandas.theta_union, lg_k=lg_k)


def _estimates(sketches: Any) -> Any:
    return sketches.map(lambda it: it.estimate)


class ThetaAggregation(Aggregation):
    """An aggregation for `agg` of a groupby of Dask. Called with settings it returns one with these.

    The settings are those of `kaftanclay.pandas.theta_sketch`: `lg_k`, `seed` and `skipna`.
    """

    def __init__(self, name: str, estimates: bool, lg_k: int = 12, seed: int = DEFAULT_SEED, skipna: bool = True) -> None:
        self.kind, self.estimates = name, estimates
        # Dask takes two aggregations of one name for the same one.
        own = "".join(f"_{it}" for it in (lg_k, seed, skipna)) if (lg_k, seed, skipna) != (12, DEFAULT_SEED, True) else ""
        chunk, agg = partial(_chunk, lg_k=lg_k, seed=seed, skipna=skipna), partial(_unite, lg_k=lg_k)
        initialize: Any = super().__init__
        initialize(name + own, chunk, agg, _estimates if estimates else None)

    def __call__(self, lg_k: int = 12, seed: int = DEFAULT_SEED, skipna: bool = True) -> ThetaAggregation:
        return ThetaAggregation(self.kind, self.estimates, lg_k, seed, skipna)


theta_sketch = ThetaAggregation("theta_sketch", False)
distinct_count = ThetaAggregation("distinct_count", True)


def sketch(
    keys: Any, lg_k: int = 12, seed: int = DEFAULT_SEED, skipna: bool = True, split_every: int = 8, compute: bool = True
) -> Any:
    """The sketch of all keys of a Series, a bag or an array of Dask: a CompactThetaSketch, made by a tree of tasks.

    A task makes the sketch of each partition, and others unite `split_every` of them at a time, from 2 on. With compute=False it
    returns a Delayed, such as for `distributed.Client.compute`. Raises TypeError for a DataFrame and for what is no collection of
    Dask, InvalidArgumentError for a number out of range, and the tasks raise what `update_many` does.
    """
    if hasattr(keys, "columns"):
        raise TypeError("a DataFrame is a table, not keys; pass one of its columns, such as frame['name']")
    if not hasattr(keys, "to_delayed"):
        raise TypeError(f"a {type(keys).__name__} is no collection of Dask; pass a Series, a bag or an array")
    if split_every < 2:
        raise InvalidArgumentError(f"split_every is at least 2, not {split_every}")
    parts = keys.to_delayed()
    made, unite = delayed(_of_pandas.theta_sketch, pure=True), delayed(_of_pandas.theta_union, pure=True)
    nodes = [made(part, lg_k, seed, skipna) for part in getattr(parts, "flat", parts)] or [made([], lg_k, seed)]
    while len(nodes) > 1:
        nodes = [unite(nodes[at : at + split_every], lg_k) for at in range(0, len(nodes), split_every)]
    return nodes[0].compute() if compute else nodes[0]
