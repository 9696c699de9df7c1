"""Sketches of pandas: of the groups of a DataFrame, and functions for `agg`.

    >>> import pandas
    >>> from kaftanclay.pandas import distinct_count, sketch_by, theta_sketch, theta_union
    >>> visits = pandas.DataFrame({"day": ["mon", "mon", "tue"], "user": ["ann", "bob", "ann"], "pages": [3, 4, 5]})
    >>> sketches = sketch_by(visits, "day", "user")
    >>> sketches["mon"].estimate, theta_union(sketches).estimate
    (2.0, 2.0)
    >>> sketch_by(visits, "day", "user", "pages")["mon"].total
    7.0
    >>> visits.groupby("day")["user"].agg(distinct_count).to_dict()
    {'mon': 2.0, 'tue': 1.0}

All sketches are compact and trimmed: they depend on nothing but the set of keys (of sums, with their values), `lg_k` and the seed.
"""
from __future__ import annotations

from collections.abc import Iterable, Iterator
from functools import partial
from typing import Any

import numpy
import pandas  # type: ignore[import]

from . import _keys, _native
from ._keys import Mode
from ._native import DEFAULT_SEED
from ._sketch import least_lg_k, warn_of_drops
from .errors import InvalidArgumentError
from .sums import TupleSums
from .theta import CompactThetaSketch, ThetaSketch, ThetaUnion

__all__ = ["distinct_count", "sketch_by", "theta_sketch", "theta_union"]


def theta_sketch(keys: Any, lg_k: int = 12, seed: int = DEFAULT_SEED, skipna: bool = True) -> CompactThetaSketch:
    """The sketch of keys, which `ThetaSketch.update_many` describes, with its errors.

    It is a function for `agg`: `frame.groupby("day")["user"].agg(theta_sketch)`, or `.agg(theta_sketch, lg_k=14)`.
    """
    sketch = ThetaSketch(lg_k, seed)
    sketch.update_many(keys, skipna=skipna)
    sketch.trim()
    return sketch.compact()


def distinct_count(keys: Any, lg_k: int = 12, seed: int = DEFAULT_SEED, skipna: bool = True) -> float:
    """The estimated number of distinct keys: `theta_sketch(..).estimate`. It is a function for `agg`, as `nunique` is."""
    return theta_sketch(keys, lg_k, seed, skipna).estimate


def theta_union(sketches: Iterable[Any], lg_k: int | None = None) -> CompactThetaSketch:
    """The union of theta sketches of one seed; those that are missing (None, NaN) are skipped.

    If no `lg_k` is passed, it is the greatest of the sketches, and with an image that was read without its own all hashes are kept,
    up to 2^26. Without a sketch this is the empty one of `lg_k` 12. It is a function for `agg`:
    `sketches.groupby(level="day").agg(theta_union)`. Raises InvalidArgumentError if the sketches have different seeds,
    TypeError for anything but theta sketches, and OutOfMemoryError.
    """
    found = [it for it in sketches if not _keys.is_missing(it)]
    for it in found:
        if not isinstance(it, (CompactThetaSketch, ThetaSketch)):
            raise TypeError(f"a union is of theta sketches, not of {type(it).__name__}")
    keeps_all = lg_k is None and any(it._guesses_lg_k for it in found)
    if lg_k is None:
        lg_k = max((it.lg_k for it in found), default=12)
    union = ThetaUnion(least_lg_k(sum(map(len, found)), lg_k) if keeps_all else lg_k, found[0].seed if found else DEFAULT_SEED)
    union.update(found)
    result = union.result()
    if keeps_all:
        warn_of_drops(result.theta, found, 3)
    return result


def sketch_by(
    frame: Any,
    by: Any,
    key: Any,
    value: Any = None,
    lg_k: int = 12,
    seed: int = DEFAULT_SEED,
    skipna: bool = True,
    mode: Mode = "sum",
) -> Any:
    """The sketch of the keys of each group, as a Series with the groups as its index; with a `value` those of sums.

    `by` is what `groupby` takes. Rows whose group is missing are left out, and so are categories without a row. `key` and `value` are
    columns of the frame; values are whole numbers from 0, of which a key keeps what the `mode` says, as in TupleSums. A missing key is
    skipped with its value, and with skipna=False raises TypeError. The keys are read once, in the order of the rows, which is several
    times as fast as `agg` for a column of str. Raises KeyError if a column isn't there, TypeError and InvalidArgumentError as
    `update_many` does, also for a mode without a value, and OutOfMemoryError.
    """
    if value is None and mode != "sum":
        raise InvalidArgumentError("a mode combines the values of a key; name their column as value")
    make: Any = partial(ThetaSketch, lg_k, seed) if value is None else partial(TupleSums, lg_k, seed, mode=mode)
    grouped = frame.groupby(by, observed=True)
    sizes = grouped.size()
    numbers = _numbers(grouped, sizes)
    # A grouping by time has rows of its own, in the order of time.
    keys, values = _column(grouped.obj, key), None if value is None else _column(grouped.obj, value)
    if _keys.holds_objects(keys.dtype):
        made = _by_rows(numbers, len(sizes), keys, values, make, skipna)
    else:
        made = _by_runs(numbers, sizes, keys, values, make, skipna)
    return pandas.Series(made, index=sizes.index, name=key, dtype=object)


def _numbers(grouped: Any, sizes: Any) -> Any:
    """The number of the group of each row, in the order of the groups, and -1 for a row of none."""
    numbers = grouped.ngroup().to_numpy()
    if numbers.dtype.kind == "f":
        numbers = numpy.where(numpy.isnan(numbers), -1, numbers)
    # Numbers of 16 bits are sorted by counting.
    numbers = numbers.astype("int16" if len(sizes) < 1 << 15 else "int64")
    if not numpy.array_equal(numpy.bincount(numbers + 1, minlength=len(sizes) + 1)[1:], sizes.to_numpy()):
        raise ValueError("pandas numbers these groups in another order than it returns them; use groupby(..)[..].agg(theta_sketch)")
    return numbers


def _column(frame: Any, name: Any) -> Any:
    column = frame[name]
    if not isinstance(column, pandas.Series):
        raise TypeError(f"{name!r} is more than one column of the frame; name one")
    return column


def _by_rows(numbers: Any, count: int, keys: Any, values: Any, make: Any, skipna: bool) -> list[Any]:
    """Objects are read where they are: in another order it takes several times as long to reach them."""
    made: tuple[Any, ...] = tuple(make() for _ in range(count))
    if values is not None:
        values = values.to_numpy() if _keys.holds_objects(values.dtype) else values.tolist()
    _native.add_groups(made, numbers, keys.to_numpy(), values, skipna)
    for sketch in made:
        sketch.trim()
    return [sketch.compact() for sketch in made]


def _by_runs(numbers: Any, sizes: Any, keys: Any, values: Any, make: Any, skipna: bool) -> list[Any]:
    """The keys of each group one behind the other, as an array of each."""
    order = numpy.argsort(numbers, kind="stable")[len(numbers) - sizes.sum() :]
    keys, values = _taken(keys, order), None if values is None else _taken(values, order)
    made: list[Any] = []
    for run in _runs(sizes):
        sketch = make()
        sketch.update_many(keys[run], *(() if values is None else (values[run],)), skipna=skipna)
        sketch.trim()
        made.append(sketch.compact())
    return made


def _runs(sizes: Any) -> Iterator[slice]:
    """Where the rows of each group are, if they are in order."""
    ends = numpy.cumsum(sizes.to_numpy())
    for end, size in zip(ends.tolist(), sizes.tolist()):
        yield slice(end - size, end)


def _taken(column: Any, order: Any) -> Any:
    """The items of a column in an order: an array of numpy if the column holds one, else an array of pandas."""
    if isinstance(column.dtype, numpy.dtype) or _keys.holds_objects(column.dtype):
        return column.to_numpy().take(order)
    return column.array.take(order)
