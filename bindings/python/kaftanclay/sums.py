"""Tuple sketches of sums, least or greatest values: those that take updates, compact ones, unions and intersections."""
from __future__ import annotations

from fractions import Fraction
from functools import partial
from typing import TYPE_CHECKING, Any, cast

from . import _native
from ._keys import Mode
from ._native import DEFAULT_SEED, MAX_THETA
from ._sketch import CompactSketch, Merge, Sketch, UpdatableSketch, image_of, require_seed, seed_of, unite
from .errors import InvalidArgumentError

__all__ = ["CompactTupleSums", "TupleSums", "TupleSumsIntersection", "TupleSumsUnion"]


class SumsValue(Sketch):
    """What both kinds of sketches of sums share: `|` unites two, `&` intersects them, `-` is their difference.

    `|` and `&` combine the two values of a shared key by the mode, which both sketches and the result have: they add up sums, and
    raise PolicyError if that is 2^64 or more, or keep the least or the greatest. `-` keeps the values and the mode of the first
    sketch. The results are compact. Raises InvalidArgumentError if the sketches have different seeds or, for `|` and `&`, different
    modes, and OutOfMemoryError. The `lg_k` of a result is as for theta sketches.
    """

    __slots__ = ()

    @property
    def mode(self) -> Mode:
        """What it keeps of the values of a key: 'sum', 'min' or 'max'. An image doesn't record it."""
        return self._mode

    def _shared_mode(self, other: SumsValue) -> Mode:
        """The mode of both sketches. Raises InvalidArgumentError if they have two."""
        if self.mode == other.mode:
            return self.mode
        advice = "pass them to a TupleSumsUnion or a TupleSumsIntersection of a mode"
        raise InvalidArgumentError(f"the sketches have different modes, {self.mode} and {other.mode}; {advice}")

    def items(self) -> list[tuple[int, int]]:
        """The hash of each key that it retains, and the sum, the least or the greatest of its values, in the order of its image."""
        return _native.sums_entries(self.to_bytes(), self.seed)

    if TYPE_CHECKING:

        def _total(self) -> tuple[int, int]: ...

    @property
    def total(self) -> float:
        """The estimated sum of all values, or over all keys that of their least or greatest values, rounded to the nearest float."""
        return float(self.total_fraction)

    @property
    def total_fraction(self) -> Fraction:
        """The same as a fraction: what is retained of all keys together, times 2^63 - 1, over theta."""
        total, theta = self._total()
        return Fraction(total * MAX_THETA, theta)

    def total_text(self, places: int = 0) -> str:
        """The same, rounded down to so many decimals, from 0 to 19.

        Raises InvalidArgumentError for any other number of decimals.
        """
        return _native.total_text(*self._total(), places)

    def __repr__(self) -> str:
        text = super().__repr__()
        return text if self.mode == "sum" else f"{text[:-1]}, mode {self.mode}>"

    def _rows(self) -> list[tuple[str, Any]]:
        keys, *others = super()._rows()
        return [keys, ("total", self.total_text() if self.is_exact else f"about {self.total:.0f}"), *others, ("mode", self.mode)]

    def __or__(self, other: SumsValue) -> CompactTupleSums:
        if not isinstance(other, SumsValue):
            return NotImplemented
        union = partial(TupleSumsUnion, mode=self._shared_mode(other))
        return cast("CompactTupleSums", unite(union, CompactTupleSums, self, other))

    def __and__(self, other: SumsValue) -> CompactTupleSums:
        if not isinstance(other, SumsValue):
            return NotImplemented
        meet = TupleSumsIntersection(self.seed, mode=self._shared_mode(other))
        for it in (self, other):
            meet.update(cast("Any", it))
        return meet._value(max(self.lg_k, other.lg_k), self._guesses_lg_k or other._guesses_lg_k)

    def __sub__(self, other: SumsValue) -> CompactTupleSums:
        if not isinstance(other, SumsValue):
            return NotImplemented
        require_seed(other, self.seed)
        image, state = _native.sums_difference(self.to_bytes(), other.to_bytes(), self.seed)
        lg_k, is_guess = max(self.lg_k, other.lg_k), self._guesses_lg_k or other._guesses_lg_k
        return CompactTupleSums._of(image, state, self.seed, lg_k, is_guess, self.mode)


class CompactTupleSums(CompactSketch, SumsValue, _native.CompactSums):
    """A tuple sketch of sums, least or greatest values that never changes: its image in the DataSketches format.

    It is made by `from_bytes`, by `TupleSums.compact` and by the operators. It has no object of the library, may be used by
    many threads at once, pickled, copied, compared and hashed.
    """

    __slots__ = ("__weakref__",)

    @classmethod
    def from_bytes(cls, data: bytes, seed: int = DEFAULT_SEED, lg_k: int | None = None, mode: Mode = "sum") -> CompactTupleSums:
        """Reads the sketch of an image, as CompactThetaSketch.from_bytes does, with its errors.

        An image has no mode: pass that of the sketch, 'sum', 'min' or 'max'. `|` and `&` combine values by it. Raises
        InvalidArgumentError for another.
        """
        seed = seed_of(seed)
        return cls._of(*_native.sums_read(image_of(data), seed), seed, lg_k, mode=mode)

    def _total(self) -> tuple[int, int]:
        return _native.sums_total(self.to_bytes(), self.seed), self.theta


class TupleSums(UpdatableSketch, SumsValue, _native.Sums):
    """A tuple sketch that adds up a value for each key: it retains the sums of the keys whose hashes are below its theta.

    With the `mode` 'min' or 'max' it retains the least or the greatest value of each of these keys, and `total` is the sum of
    these. Its other settings, with their ranges, and its use by threads are as in ThetaSketch. Raises InvalidArgumentError for
    another mode than these and 'sum'.

        >>> sums = TupleSums()
        >>> sums.update("ann", 5)
        >>> sums.update_many(["bob", "ann"], [7, 10])
        >>> sums.total, sums.estimate
        (22.0, 2.0)
        >>> most = TupleSums(mode="max")
        >>> most.update_many(["ann", "bob", "ann"], [5, 7, 10])
        >>> most.total, (most | most).total
        (17.0, 17.0)
    """

    __slots__ = ("__weakref__",)

    @classmethod
    def from_bytes(cls, data: bytes, seed: int = DEFAULT_SEED, lg_k: int | None = None, mode: Mode = "sum") -> TupleSums:
        """Reads a sketch as CompactTupleSums.from_bytes does, for further updates."""
        return cls._of(CompactTupleSums.from_bytes(data, seed, lg_k, mode))

    def compact(self) -> CompactTupleSums:
        """Its value as a compact sketch, untrimmed. Raises OutOfMemoryError."""
        found = _native.sums_read(self.to_bytes(), self.seed)
        return CompactTupleSums._of(*found, self.seed, self.lg_k, self._guesses_lg_k, self.mode)

    def _fill(self, value: CompactSketch) -> None:
        self._insert(value.to_bytes(), value.is_empty)


class TupleSumsUnion(Merge, _native.SumsUnion):
    """A union of any number of sketches of sums, in any order. It adds up the sums of a key.

    With the `mode` 'min' or 'max' it keeps the least or the greatest of the values that a key has in its sketches, whatever their
    own modes are: the sum of minima is a union of mode 'sum'.
    It retains at most 2^lg_k sums (lg_k from 4 to 26), those of the least hashes. If no lg_k is passed it is 12, and
    `update` warns as that of ThetaUnion. After a PolicyError or an OutOfMemoryError
    of `update` it may have failed: it then raises FailedError until it is reset.
    """

    __slots__ = ("__weakref__",)

    def result(self) -> CompactTupleSums:
        """Its value as a compact sketch. Raises FailedError if it has failed, and OutOfMemoryError."""
        return CompactTupleSums._of(*self._result(), self.seed, self.lg_k, mode=self.mode)


class TupleSumsIntersection(Merge, _native.SumsIntersection):
    """An intersection of any number of sketches of sums. It adds up the sums of a key that all of them have.

    With the `mode` 'min' or 'max' it keeps the least or the greatest, as a TupleSumsUnion does.
    It has no value before its first sketch. After an error of `update` it is unchanged. `update` raises PolicyError if a
    sum would be 2^64 or more, also if a later sketch lacks the key.
    """

    __slots__ = ("__weakref__",)

    def _value(self, lg_k: int | None, is_guess: bool = False) -> CompactTupleSums:
        return CompactTupleSums._of(*self._result(), self.seed, lg_k, is_guess, self.mode)

    def result(self) -> CompactTupleSums:
        """Its value as a compact sketch. Raises InvalidArgumentError before the first sketch, and OutOfMemoryError."""
        return self._value(None)
