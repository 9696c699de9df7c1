"""What the sketches of both families share, over the compiled module."""
from __future__ import annotations

import copyreg
import html
import operator
import warnings
from collections.abc import Iterable
from fractions import Fraction
from typing import TYPE_CHECKING, Any, TypeVar

from . import _native
from ._keys import Mode
from ._native import DEFAULT_SEED, MAX_THETA
from .errors import InvalidArgumentError, SketchWarning

Made = TypeVar("Made", bound="UpdatableSketch")
Kept = TypeVar("Kept", bound="CompactSketch")
State = tuple[int, int, bool]
GREATEST_LG_K = 26

# The classes below stand beside a type of the compiled module, which has the calls of the library; a checker of types sees them
# as derived from it.
if TYPE_CHECKING:
    _Sketch = _native.Sketch
    _Updatable = _native.Updatable
    _Compact = _native.Compact
else:
    _Sketch = _Updatable = _Compact = object


def image_of(data: Any) -> bytes:
    """The bytes of an image. Raises TypeError for anything but bytes."""
    if not isinstance(data, (bytes, bytearray, memoryview)):
        raise TypeError(f"an image is bytes, not {type(data).__name__}")
    return bytes(data)


def seed_of(seed: Any) -> int:
    """A seed as an int. Raises TypeError, or InvalidArgumentError if it is out of range."""
    found = operator.index(seed)
    if not 0 <= found < 1 << 64:
        raise InvalidArgumentError(f"a seed is from 0 to 2^64 - 1, not {found}")
    return found


def require_seed(sketch: _native.Sketch, seed: int) -> None:
    """Raises InvalidArgumentError if the sketch has another seed."""
    if sketch.seed != seed:
        raise InvalidArgumentError(f"the sketches have different seeds, {seed} and {sketch.seed}; make them with one seed")


def least_lg_k(retained: int, least: int = 12) -> int:
    """The least lg_k, from `least` on, with 2^lg_k at least so many hashes; at most 26."""
    return min(max(least, (retained - 1).bit_length()), GREATEST_LG_K)


def warn_of_drops(theta: int, sketches: Iterable[Sketch], level: int) -> None:
    """Warns if a union of this theta, which was to keep all, drops hashes that its sketches retain; at a level as of warnings.warn."""
    if theta < min(it.theta for it in sketches):
        text = f"a union keeps at most 2^{GREATEST_LG_K} hashes, so this one drops some that its sketches retain"
        warnings.warn(text, SketchWarning, stacklevel=level)


def unite(union: Any, result: Any, first: Sketch, second: Sketch) -> Any:
    """The union of two sketches of one mode, by a maker of unions, as a compact sketch of a type.

    Its lg_k is the greater of the two. If one of these is a guess, it keeps all hashes that both retain below the lesser theta, up to
    2^26; if they are more, it warns.
    """
    lg_k, is_guess = max(first.lg_k, second.lg_k), first._guesses_lg_k or second._guesses_lg_k
    made = union(least_lg_k(len(first) + len(second), lg_k) if is_guess else lg_k, first.seed)
    for it in (first, second):
        made.update(it)
    image, state = made._result()
    if is_guess:
        warn_of_drops(state[1], (first, second), 4)
    return result._of(image, state, first.seed, least_lg_k(state[0], lg_k) if is_guess else lg_k, is_guess, first._mode)


def guessed(kind: type[Kept], data: bytes, seed: int, lg_k: int, mode: Mode = "sum") -> Kept:
    """The sketch of an image that the library wrote, whose lg_k is a guess."""
    found = kind.from_bytes(data, seed)
    return kind._of(found.to_bytes(), found._state(), seed, lg_k, True, mode)


class Sketch(_Sketch):
    """What all sketches answer beside what their types of the compiled module do."""

    __slots__ = ()

    @property
    def estimate_fraction(self) -> Fraction:
        """The estimate: how many hashes are retained, times 2^63 - 1, over theta."""
        retained, theta, _ = self._state()
        return Fraction(_native.estimate_numerator(retained), theta)

    def __repr__(self) -> str:
        retained, theta, _ = self._state()
        estimate = f"{retained}" if theta == MAX_THETA else f"about {self.estimate:.0f}"
        return f"<{type(self).__name__} of {estimate} keys, lg_k {self.lg_k}>"


    def _rows(self) -> list[tuple[str, Any]]:
        """What a notebook shows: names and values."""
        retained, theta, _ = self._state()
        low, high = self.bounds()
        found = f"{retained}, exact" if theta == MAX_THETA else f"about {self.estimate:.0f}, from {low} to {high}"
        return [("distinct keys", found), ("retained hashes", retained), ("theta", f"{theta / MAX_THETA:.6g}"), ("lg_k", self.lg_k)]

    def _repr_html_(self) -> str:
        """A small table, for notebooks. The bounds are those by two standard deviations, and theta is its share of 2^63 - 1."""
        rows = "".join(f"<tr><th>{name}</th><td>{html.escape(str(value))}</td></tr>" for name, value in self._rows())
        return f"<table><caption>{html.escape(type(self).__name__)}</caption>{rows}</table>"


class CompactSketch(Sketch, _Compact):
    """A sketch that never changes. It is its image, in the DataSketches format.

    It has no object of the library, may be used by many threads at once, pickled, copied, compared and hashed.
    """

    __slots__ = ()

    def __init__(self) -> None:
        raise TypeError(f"a {type(self).__name__} is made by from_bytes, by compact and by the operators")

    @classmethod
    def _of(
        cls: type[Kept], image: bytes, state: State, seed: int, lg_k: int | None, is_guess: bool = False, mode: Mode = "sum"
    ) -> Kept:
        """The sketch of an image that the library wrote. Without an lg_k it is guessed."""
        made = cls.__new__(cls)
        made._keep(image, state, seed, least_lg_k(state[0]) if lg_k is None else lg_k, lg_k is None or is_guess, mode)
        return made

    @classmethod
    def from_bytes(cls, data: bytes, seed: int = DEFAULT_SEED, lg_k: int | None = None) -> Any:
        """Reads the sketch that bytes begin with."""
        raise NotImplementedError

    def __eq__(self, other: object) -> bool:
        if not isinstance(other, type(self)):
            return NotImplemented
        return self.to_bytes() == other.to_bytes() and self.seed == other.seed

    def __hash__(self) -> int:
        return hash((self.to_bytes(), self.seed))

    def __copy__(self) -> Any:
        return self

    def __deepcopy__(self, memo: Any) -> Any:
        return self

    def __reduce__(self) -> tuple[Any, ...]:
        parts = (self.to_bytes(), self.seed, self.lg_k, *(() if self._mode == "sum" else (self._mode,)))
        return (guessed, (type(self), *parts)) if self._guesses_lg_k else (type(self).from_bytes, parts)


class UpdatableSketch(Sketch, _Updatable):
    """What sketches that take updates share. ThetaSketch describes their settings."""

    __slots__ = ()

    def _fill(self, value: CompactSketch) -> None:
        """Inserts the entries of a value into a new sketch that begins at its theta."""
        raise NotImplementedError

    def compact(self) -> Any:
        """Its value as a compact sketch, untrimmed. Raises OutOfMemoryError."""
        raise NotImplementedError

    def __copy__(self: Made) -> Made:
        lg_k, seed, resize_factor, starting_theta = self._settings()
        made = type(self)(lg_k, seed, resize_factor=resize_factor, starting_theta=starting_theta)
        made._copy(self)
        return made

    def __deepcopy__(self: Made, memo: Any) -> Made:
        return self.__copy__()

    def __reduce_ex__(self, protocol: Any) -> tuple[Any, ...]:
        return getattr(copyreg, "__newobj__"), (type(self),), self.__getstate__()

    def __getstate__(self) -> Any:
        return self.compact(), *self._settings()[2:]

    def __setstate__(self, state: Any) -> None:
        value, resize_factor, starting_theta = state
        theta = starting_theta if value.is_empty else value.theta
        self._begin(value.lg_k, value.seed, resize_factor, starting_theta, value._mode, theta, value._guesses_lg_k)
        self._fill(value)

    @classmethod
    def _of(cls: type[Made], value: CompactSketch) -> Made:
        """A sketch that takes updates, begun with a value."""
        made = cls.__new__(cls)
        made.__setstate__((value, 8, MAX_THETA))
        return made


class Merge:
    """What operators on many sketches share beside what their types of the compiled module have."""

    __slots__ = ()

    def __reduce__(self) -> Any:
        raise TypeError(f"a {type(self).__name__} is neither copied nor pickled; take its result")
