"""Objects with Arrow's C data interface, by ctypes: what their structures hold is up to the test, and releases are counted."""
import collections
import ctypes
import itertools
import os
import shutil
import struct
import subprocess
import tempfile

import pytest

released = collections.Counter()  # by schema, array and stream
made = collections.Counter()
alive = {}  # what structures point to, by their private_data
_tokens = itertools.count(1)


class Schema(ctypes.Structure):
    pass


class Array(ctypes.Structure):
    pass


class Stream(ctypes.Structure):
    pass


_VOID, _LONG, _TEXT = ctypes.c_void_p, ctypes.c_int64, ctypes.c_char_p
Schema._fields_ = [
    ("format", _TEXT), ("name", _TEXT), ("metadata", _TEXT), ("flags", _LONG), ("n_children", _LONG), ("children", _VOID),
    ("dictionary", _VOID), ("release", _VOID), ("private_data", _VOID),
]
Array._fields_ = [
    ("length", _LONG), ("null_count", _LONG), ("offset", _LONG), ("n_buffers", _LONG), ("n_children", _LONG), ("buffers", _VOID),
    ("children", _VOID), ("dictionary", _VOID), ("release", _VOID), ("private_data", _VOID),
]
Stream._fields_ = [("get_schema", _VOID), ("get_next", _VOID), ("get_last_error", _VOID), ("release", _VOID), ("private_data", _VOID)]

_RELEASE = ctypes.CFUNCTYPE(None, _VOID)
_FILL = ctypes.CFUNCTYPE(ctypes.c_int, _VOID, _VOID)
_ASK = ctypes.CFUNCTYPE(_VOID, _VOID)
_new_capsule = ctypes.PYFUNCTYPE(ctypes.py_object, _VOID, _TEXT, _VOID)(("PyCapsule_New", ctypes.pythonapi))
_pointer_of = ctypes.PYFUNCTYPE(_VOID, ctypes.py_object, _TEXT)(("PyCapsule_GetPointer", ctypes.pythonapi))
_name_of = ctypes.PYFUNCTYPE(_TEXT, ctypes.py_object)(("PyCapsule_GetName", ctypes.pythonapi))
_set_context = ctypes.PYFUNCTYPE(ctypes.c_int, ctypes.py_object, _VOID)(("PyCapsule_SetContext", ctypes.pythonapi))
NAMES = {Schema: b"arrow_schema", Array: b"arrow_array", Stream: b"arrow_array_stream"}


def _address(function):
    return ctypes.cast(function, _VOID).value


def _releaser(kind):
    @_RELEASE
    def release(at):
        it = kind.from_address(at)
        released[kind] += 1
        del alive[it.private_data]
        it.release = None

    return release


_RELEASERS = {kind: _releaser(kind) for kind in NAMES}


def _compiled():
    """The destructor of capsules, compiled: one in Python can't be called while an error is set. The tests are skipped without a
    compiler."""
    compiler = shutil.which(os.environ.get("CC", "cc")) or pytest.skip("there is no C compiler", allow_module_level=True)
    with tempfile.TemporaryDirectory() as place:
        source = os.path.join(os.path.dirname(os.path.abspath(__file__)), "arrow_capsules.c")
        subprocess.run([compiler, "-O1", "-shared", "-fPIC", source, "-o", f"{place}/capsules.so"], check=True)
        return ctypes.CDLL(f"{place}/capsules.so")


_library, _dropped = _compiled(), _RELEASE(alive.__delitem__)
_VOID.in_dll(_library, "dropped").value = _address(_dropped)


def _own(it, *kept):
    """Gives a structure its release, and keeps what it points to until then."""
    token = next(_tokens)
    made[type(it)] += 1
    alive[token] = kept
    it.private_data, it.release = token, _address(_RELEASERS[type(it)])


def capsule(it):
    at = ctypes.addressof(it)
    alive[at] = it
    found = _new_capsule(at, NAMES[type(it)], _address(_library.destroy))
    _set_context(found, at + type(it).release.offset)
    return found


def release(found):
    """Releases what a capsule holds, as another reader of it does."""
    name = _name_of(found)
    kind = next(it for it in NAMES if NAMES[it] == name)
    at = _pointer_of(found, name)
    _RELEASE(kind.from_address(at).release)(at)


class Column:
    """An object with __arrow_c_array__. A buffer is bytes, or None for a null pointer."""

    def __init__(self, format, buffers, length, null_count=0, offset=0, dictionary=None, n_buffers=None):
        self.format, self.buffers, self.length, self.null_count, self.offset = format, buffers, length, null_count, offset
        self.dictionary, self.n_buffers = dictionary, len(buffers) if n_buffers is None else n_buffers

    def fill_schema(self, it):
        """Fills a schema, and returns what it points to."""
        it.format, it.flags = self.format.encode(), 2
        if self.dictionary is None:
            return [it]
        inner = Schema()
        kept = self.dictionary.fill_schema(inner)
        it.dictionary = ctypes.addressof(inner)
        return [it, *kept]

    def fill_array(self, it):
        """Fills an array, and returns what it points to."""
        kept = [ctypes.create_string_buffer(data or bytes(8), len(data or bytes(8))) for data in self.buffers]
        pointers = (_VOID * max(1, len(kept)))(*(None if data is None else ctypes.addressof(at) for at, data in zip(kept, self.buffers)))
        it.length, it.null_count, it.offset, it.n_buffers = self.length, self.null_count, self.offset, self.n_buffers
        it.buffers = ctypes.addressof(pointers) if self.buffers else None
        kept += [it, pointers]
        if self.dictionary is not None:
            inner = Array()
            kept += self.dictionary.fill_array(inner)
            it.dictionary = ctypes.addressof(inner)
        return kept

    def __arrow_c_array__(self, requested_schema=None):
        schema, array = Schema(), Array()
        _own(schema, *self.fill_schema(schema))
        _own(array, *self.fill_array(array))
        return capsule(schema), capsule(array)


class Sized(Column):
    """A column that has a length in Python too."""

    def __len__(self):
        return self.length


class Columns:
    """An object with __arrow_c_stream__. A part may be a Column, a status to fail with, or a function to call."""

    def __init__(self, *parts, format=None, text=b"the part is broken"):
        self.parts, self.text = parts, text
        self.first = format or next(it for it in parts if isinstance(it, Column))

    def __arrow_c_stream__(self, requested_schema=None):
        parts, text = iter(self.parts), ctypes.create_string_buffer(self.text) if self.text is not None else None

        @_FILL
        def get_schema(stream, out):
            if isinstance(self.first, int):
                return self.first
            it = Schema.from_address(out)
            _own(it, *self.first.fill_schema(it))
            return 0

        @_FILL
        def get_next(stream, out):
            part = next(parts, None)
            while callable(part):
                part()
                part = next(parts, None)
            if isinstance(part, int):
                return part
            if part is not None:
                it = Array.from_address(out)
                _own(it, *part.fill_array(it))
            else:
                Array.from_address(out).release = None
            return 0

        @_ASK
        def get_last_error(stream):
            return ctypes.addressof(text) if text is not None else None

        it = Stream()
        it.get_schema, it.get_next, it.get_last_error = map(_address, (get_schema, get_next, get_last_error))
        _own(it, get_schema, get_next, get_last_error, text)
        return capsule(it)


def bits(values):
    """A bitmap, the lowest bit of a byte first; the bits behind it are set."""
    found = bytearray(b"\xff" * (len(values) // 8 + 1))
    for at, value in enumerate(values):
        if not value:
            found[at // 8] &= 255 - (1 << at % 8)
    return bytes(found)


def _encoded(value):
    return value.encode() if isinstance(value, str) else value


def _strings(values, form):
    ends, data = [0], bytearray()
    for value in values:
        data += b"junk" if value is None else _encoded(value)  # a missing row may have bytes
        ends.append(len(data))
    return [struct.pack(f"<{len(ends)}{form}", *ends), bytes(data)]


def _views(values):
    views, pieces = bytearray(), [bytearray(), bytearray(b"piece")]
    for value in values:
        data = b"" if value is None else _encoded(value)
        if len(data) <= 12:
            views += struct.pack("<i12s", len(data), data)
            continue
        piece = len(data) % 2
        views += struct.pack("<i4sii", len(data), data[:4], piece, len(pieces[piece]))
        pieces[piece] += data
    return [bytes(views), *map(bytes, pieces), struct.pack("<2q", *map(len, pieces))]


def column(format, values, before=0, after=0, knows_nulls=True, kind=Column):
    """A column of values, None for a missing row; so many more rows are in its buffers before and after them."""
    padding = [value for value in values if value is not None][:1] or [0 if format in "bcCsSiIlL" else b"x"]
    all_values = padding * before + list(values) + padding * after
    if format in ("u", "z", "U", "Z"):
        buffers = _strings(all_values, "i" if format in "uz" else "q")
    elif format in ("vu", "vz"):
        buffers = _views(all_values)
    elif format.startswith("w:"):
        buffers = [b"".join(b"\0" * int(format[2:]) if it is None else it for it in all_values)]
    elif format == "b":
        buffers = [bits([bool(it) for it in all_values])]
    else:
        letter = {"c": "b", "C": "B", "s": "h", "S": "H", "i": "i", "I": "I", "l": "q", "L": "Q"}[format]
        buffers = [struct.pack(f"<{len(all_values)}{letter}", *(7 if it is None else it for it in all_values))]
    missing = sum(it is None for it in values)
    bitmap = bits([it is not None for it in all_values]) if missing else None
    return kind(format, [bitmap, *buffers], len(values), missing if knows_nulls else -1, before)


def indices(format, numbers, dictionary, **more):
    """A column of indices of a dictionary, which is a column."""
    found = column(format, numbers, **more)
    found.dictionary = dictionary
    return found


def all_released():
    """Whether each structure was released, once."""
    return not alive and made == released
