"""What the compiled module asks about keys: whether one is missing, why one is refused, and how many are read.

pandas and numpy are never imported here: an object of theirs is there only if they were.
"""
from __future__ import annotations

import contextlib
import itertools
import operator
import sys
from array import array
from typing import Any, Literal, SupportsIndex, Union

from .errors import InvalidArgumentError

# A str is hashed as its UTF-8 bytes, and a number of 64 bits as its eight bytes, the lowest first.
Key = Union[str, bytes, bytearray, memoryview, SupportsIndex]

# What a tuple sketch keeps of the values of a key: their sum, the least or the greatest.
Mode = Literal["sum", "min", "max"]

# How many keys are read: as objects, as the items of an array, or as the columns of Arrow's C data interface.
OBJECTS, ITEMS, COLUMNS = range(3)

_NUMBERS = frozenset("bBhHiIlLqQnN?")


def _loaded(name: str) -> Any:
    """A module, if it was imported; None while its import goes on."""
    module = sys.modules.get(name)
    return None if getattr(getattr(module, "__spec__", None), "_initializing", False) else module


def is_missing(key: Any) -> bool:
    """Whether an object that is no key is a missing value: None, NaN, NaT, pandas.NA, or what a masked array has masked."""
    pandas, numpy, masks = map(_loaded, ("pandas", "numpy", "numpy.ma"))
    if key is None or pandas and (key is pandas.NA or key is pandas.NaT) or masks and key is masks.masked:
        return True
    if masks and isinstance(key, masks.MaskedArray) and key.ndim == 0 and key.dtype.names is None:
        return bool(masks.is_masked(key))
    if numpy and isinstance(key, (numpy.inexact, numpy.datetime64, numpy.timedelta64)):
        return bool(key != key)
    decimal = _loaded("decimal")
    is_number = isinstance(key, (float, complex)) or decimal and isinstance(key, decimal.Decimal) and not key.is_snan()
    return bool(is_number and key != key)


def refusal_of_key(key: Any) -> TypeError:
    """Why an object is refused as a key."""
    text = f"a key is a str, bytes or an int, not {type(key).__name__}"
    if isinstance(key, memoryview):
        text += f" of items of {key.itemsize} bytes, which is an array; pass it to update_many, or its tobytes()"
    elif is_missing(key):
        text += "; update_many skips missing values"
    elif isinstance(key, float):
        text += "; pass a float as text or as a whole number"
    else:
        text += "; choose its text, such as str(key), or its bytes"
    return TypeError(text)


def refusal_of_missing(key: Any = None) -> TypeError:
    """Why a missing value is refused among many keys."""
    name = "a missing value" if key is None else f"a missing value ({key!r})"
    return TypeError(f"{name} is no key; a key is a str, bytes or an int, and skipna=True skips what is missing")


def arranged(keys: Any, skipna: bool) -> tuple[int, Any, Any]:
    """How keys are read (OBJECTS, ITEMS or COLUMNS); what is then read; and which of the keys these are.

    The last is None for all, else a bool for each key. For OBJECTS this is an iterable or an array of objects of numpy; for ITEMS an
    array of one dimension, of numbers in the machine's order of bytes or of text of fixed width; for COLUMNS the capsules of Arrow.
    Missing values that are left in an iterable or in columns are for their reader to skip. Of a category that many rows have, the
    key is read once.
    """
    pandas = _loaded("pandas")
    if pandas and isinstance(getattr(keys, "dtype", None), pandas.CategoricalDtype):
        keys = _categories_in(pandas, keys, skipna)
    return _arranged(keys, skipna)


def _arranged(keys: Any, skipna: bool) -> tuple[int, Any, Any]:
    """As `arranged` says, with each row of a category."""
    refuse_one_key(keys)
    present = None
    if any(kind.__name__ == "DataFrame" for kind in type(keys).__mro__):
        raise TypeError("a DataFrame is a table, not keys; pass one of its columns, such as frame['name']")
    pandas, numpy = _loaded("pandas"), _loaded("numpy")
    if pandas and isinstance(keys, (pandas.Series, pandas.Index, pandas.api.extensions.ExtensionArray)):
        keys, present = _of_pandas(pandas, numpy, keys, skipna)
    if numpy and isinstance(keys, numpy.ndarray):
        return _of_numpy(numpy, keys, present, skipna)
    if _has_columns(keys):
        return COLUMNS, _columns(keys), None
    return ITEMS if _is_array_of_numbers(keys) else OBJECTS, keys, present


def _has_columns(keys: Any) -> bool:
    """Whether an object has Arrow's C data interface."""
    return hasattr(type(keys), "__arrow_c_array__") or hasattr(type(keys), "__arrow_c_stream__")


def _columns(keys: Any) -> Any:
    """The capsules of such an object: those of a schema and an array, or that of a stream."""
    return keys.__arrow_c_array__() if hasattr(type(keys), "__arrow_c_array__") else (keys.__arrow_c_stream__(),)


def refuse_one_key(keys: Any) -> None:
    """Refuses what is one key as many: its items would be other keys."""
    if isinstance(keys, (str, bytes, bytearray)) or isinstance(keys, memoryview) and keys.itemsize == 1:
        kind = type(keys).__name__ + (" of bytes" if isinstance(keys, memoryview) else "")
        raise TypeError(f"a {kind} is one key; pass it to update, or pass a list of keys")


def _is_array_of_numbers(keys: Any) -> bool:
    """Whether these are an array of numbers; raises TypeError for the bytes of another object, such as mmap."""
    try:
        view = memoryview(keys)
    except (TypeError, ValueError):
        return False
    with view:
        is_array = view.itemsize > 1 or isinstance(keys, array) or hasattr(keys, "_length_") or hasattr(keys, "dtype")
        if view.format == "B" and not is_array:
            raise TypeError(f"a {type(keys).__name__} has the bytes of one key; pass bytes(it) to update, or pass a list of keys")
        return view.ndim == 1 and view.format.lstrip("@=<") in _NUMBERS


def holds_objects(dtype: Any) -> bool:
    """Whether pandas holds items of this type as an array of objects of numpy: of type object, and texts that pyarrow doesn't hold."""
    return bool(dtype == object) or getattr(dtype, "storage", None) == "python"


def _held_by_pyarrow(keys: Any) -> Any:
    """The array of pyarrow that a Series, an Index or an array of pandas holds, if it is read as columns; else None."""
    kind, array = keys.dtype, getattr(keys, "array", keys)
    is_held = getattr(kind, "storage", None) == "pyarrow" or type(kind).__name__ == "ArrowDtype"
    # Times are read as nanoseconds, and floats refused, as those of numpy.
    if not is_held or kind.kind not in "OUSiub" or not hasattr(array, "__arrow_array__"):
        return None
    found = array.__arrow_array__()
    return found if _has_columns(found) else None


def _of_pandas(pandas: Any, numpy: Any, keys: Any, skipna: bool) -> tuple[Any, Any]:
    """The keys of a Series, an Index or an array of pandas as an array of numpy, or as one of pyarrow that has them already.

    Those that are missing are left out, and which ones remain is returned; but not if their reader finds them.
    """
    if holds_objects(keys.dtype):
        return keys.to_numpy(), None  # its reader finds those that are missing
    held = _held_by_pyarrow(keys)
    if held is not None:
        return held, None
    missing = numpy.asarray(keys.isna(), dtype=bool)
    present = None
    if missing.any():
        if not skipna:
            raise refusal_of_missing()
        present = ~missing
        keys = keys[present]
    kind = keys.dtype
    if isinstance(kind, pandas.DatetimeTZDtype):
        # In its own unit: as nanoseconds, numpy would wrap what is out of their range.
        return keys.to_numpy(dtype=f"datetime64[{kind.unit}]"), present
    of_numpy = getattr(kind, "numpy_dtype", None) if getattr(kind, "kind", "O") in "iubf" else None
    return keys.to_numpy(dtype=of_numpy), present


def _categories_in(pandas: Any, keys: Any, skipna: bool) -> Any:
    """The categories that the rows of a Series, an Index or an array have, each once."""
    array = getattr(keys, "array", keys)
    codes = pandas.unique(array.codes)
    if codes.size and codes.min() < 0:
        if not skipna:
            raise refusal_of_missing()
        codes = codes[codes >= 0]
    return array.categories.take(codes)


def _of_numpy(numpy: Any, keys: Any, present: Any, skipna: bool) -> tuple[int, Any, Any]:
    """How an array of numpy is read, as `arranged` says; `present` says which keys of the caller these are."""
    if keys.ndim != 1:
        raise TypeError(f"an array of keys has one dimension, not {keys.ndim}; pass its ravel()")
    if keys.dtype.names is not None:
        raise TypeError("an array of records is a table, not keys; pass one of its fields, such as records['name']")
    missing = None
    if isinstance(keys, numpy.ma.MaskedArray):
        missing, keys = numpy.ma.getmaskarray(keys), numpy.ma.getdata(keys)
    kind = keys.dtype.kind
    if kind in "fcmM":
        absent = numpy.isnan(keys) if kind in "fc" else numpy.isnat(keys)
        missing = absent if missing is None else missing | absent
    if missing is not None and missing.any():
        if not skipna:
            raise refusal_of_missing()
        keys, present = keys[~missing], ~missing if present is None else _within(present, ~missing)
    if kind in "mM":
        keys = _nanoseconds(numpy, keys)
    elif kind in "fc" and len(keys):
        raise TypeError(f"an array of {keys.dtype} has no keys; pass its text, or whole numbers, such as by astype('int64'), of pandas 'Int64'")
    if keys.dtype.kind not in "iubUS":
        return OBJECTS, keys if keys.dtype.kind == "O" else keys.tolist(), present
    return ITEMS, keys if keys.dtype.isnative else keys.astype(keys.dtype.newbyteorder("=")), present


def _within(present: Any, remaining: Any) -> Any:
    """Which keys of the caller remain, if of those that are present only some do."""
    found = present.copy()
    found[present] = remaining
    return found


def _nanoseconds(numpy: Any, times: Any) -> Any:
    """Datetimes or durations as the whole numbers of their nanoseconds, which don't depend on their unit.

    Durations of years, of months or of no unit are refused: they are no number of nanoseconds.
    """
    has_length = times.dtype.kind == "M" or numpy.datetime_data(times.dtype)[0] not in ("Y", "M", "generic")
    with contextlib.suppress(OverflowError):
        exact = times.astype(f"{times.dtype.kind}8[ns]")
        if has_length and (exact.astype(times.dtype) == times).all():
            return exact.view("int64")
    raise InvalidArgumentError(f"not all of these {times.dtype} are whole nanoseconds of 64 bits; choose keys, such as by astype(str)")


def arranged_pairs(keys: Any, values: Any, skipna: bool) -> tuple[int, Any, Any]:
    """How keys are read, as `arranged` says, and their values: one int for all, or an iterable, or an array if no objects are read."""
    form, found, present = _arranged(keys, skipna)
    if values is None or isinstance(values, (str, bytes, bytearray)):
        raise TypeError(f"a value is a whole number, not {type(values).__name__}")
    try:
        return form, found, operator.index(values)
    except TypeError:
        values = _values(values)
    if not hasattr(values, "__len__") and (form != OBJECTS or present is not None):
        if not hasattr(keys, "__len__"):
            raise TypeError("these keys have no length; their values are one number, a list or an array")
        values = list(itertools.islice(values, len(keys) + 1))
        if len(values) > len(keys):
            raise InvalidArgumentError(f"there are more values than the {len(keys)} keys")
    if hasattr(keys, "__len__") and hasattr(values, "__len__") and len(keys) != len(values):
        raise InvalidArgumentError(f"there are {len(keys)} keys and {len(values)} values")
    if present is not None:
        values = list(itertools.compress(values, present.tolist()))
    if form != OBJECTS and not _is_array_of_numbers(values):
        values = array("Q", [_value(it) for it in values])
    return form, found, values


def _values(values: Any) -> Any:
    """The values of many keys, none of which is missing."""
    masks = _loaded("numpy.ma")
    if masks and isinstance(values, masks.MaskedArray):
        if masks.is_masked(values):
            raise TypeError("a value is a whole number, and some of these are masked; fill them first")
        return masks.getdata(values)
    if any(kind.__name__ == "DataFrame" for kind in type(values).__mro__):
        raise TypeError("a DataFrame is a table, not values; pass one of its columns, such as frame['name']")
    pandas = _loaded("pandas")
    if not _has_columns(values) or pandas and isinstance(values, (pandas.Series, pandas.Index)):
        return values
    from . import _native  # which asks this module about keys

    numbers = array("Q")
    numbers.frombytes(_native.arrow_numbers(_columns(values)))
    return numbers


def _value(value: Any) -> int:
    found = operator.index(value)
    if not 0 <= found < 1 << 64:
        raise InvalidArgumentError(f"a value is from 0 to 2^64 - 1, not {found}")
    return found
