"""Theta sketches: those that take updates, compact ones, unions and intersections."""
from __future__ import annotations

import os
from array import array
from collections.abc import Iterator
from typing import Any, Protocol, cast

from . import _native
from ._keys import Key
from ._native import DEFAULT_SEED
from ._sketch import CompactSketch, Merge, Sketch, UpdatableSketch, image_of, require_seed, seed_of, unite

__all__ = ["CompactThetaSketch", "Key", "ThetaIntersection", "ThetaSketch", "ThetaUnion"]

# The most bytes of one read of a file.
_BLOCK = 1 << 18


class BinaryFile(Protocol):
    """A file that is open in binary mode."""

    def readinto(self, buffer: Any, /) -> int | None:
        """Reads bytes into a buffer, and returns how many; 0 at the end."""


def pieces_of(file: BinaryFile) -> Iterator[memoryview]:
    """The bytes that a file has left, in pieces. Each stays as it is until the next one is read."""
    if not hasattr(file, "readinto"):
        raise TypeError(f"lines are read from a path or a file that is open in binary mode, not from {type(file).__name__}")
    block = memoryview(bytearray(_BLOCK))
    while (count := file.readinto(block)) != 0:
        if count is None:
            raise BlockingIOError("the file has no bytes yet; open it so that reads wait")
        yield block[:count]


class ThetaValue(Sketch):
    """What both kinds of theta sketches share: `|` unites two, `&` intersects them, `-` is their difference.

    The results are compact. Raises InvalidArgumentError if the sketches have different seeds, and OutOfMemoryError. The
    `lg_k` of a result is the greater of the two, and a union retains at most 2^lg_k hashes. But a union with an image that was
    read without its `lg_k` keeps all hashes that both retain below the lesser theta, up to 2^26.
    """

    __slots__ = ()

    def hashes(self) -> list[int]:
        """The hashes that it retains, from 1 to 2^63 - 1, which ascend. Raises OutOfMemoryError."""
        return array("Q", _native.theta_hashes(self.to_bytes(), self.seed)).tolist()

    def __or__(self, other: ThetaValue) -> CompactThetaSketch:
        if not isinstance(other, ThetaValue):
            return NotImplemented
        return cast("CompactThetaSketch", unite(ThetaUnion, CompactThetaSketch, self, other))

    def __and__(self, other: ThetaValue) -> CompactThetaSketch:
        return self._combined(_native.images_intersect, other)

    def __sub__(self, other: ThetaValue) -> CompactThetaSketch:
        return self._combined(_native.images_difference, other)

    def _combined(self, call: Any, other: Any) -> CompactThetaSketch:
        if not isinstance(other, ThetaValue):
            return NotImplemented
        require_seed(other, self.seed)
        image, is_guess = call(self.to_bytes(), other.to_bytes(), self.seed), self._guesses_lg_k or other._guesses_lg_k
        return CompactThetaSketch._of_image(image, self.seed, max(self.lg_k, other.lg_k), is_guess)


class CompactThetaSketch(CompactSketch, ThetaValue, _native.CompactTheta):
    """A theta sketch that never changes: its image, ordered, in the DataSketches format.

    It is made by `from_bytes`, by `ThetaSketch.compact` and by the operators. It has no object of the library, may be used
    by many threads at once, pickled, copied, compared and hashed.

        >>> sketch = ThetaSketch()
        >>> sketch.update_many(["ann", "bob"])
        >>> read = CompactThetaSketch.from_bytes(sketch.to_bytes())
        >>> read == sketch.compact(), read.estimate, len(read)
        (True, 2.0, 2)
    """

    __slots__ = ("__weakref__",)

    @classmethod
    def _of_image(cls, image: bytes, seed: int, lg_k: int | None, is_guess: bool = False) -> CompactThetaSketch:
        """The sketch of an image that the library wrote."""
        return cls._of(image, _native.image_state(image, seed), seed, lg_k, is_guess)

    @classmethod
    def from_bytes(cls, data: bytes, seed: int = DEFAULT_SEED, lg_k: int | None = None) -> CompactThetaSketch:
        """Reads the sketch of an image under this seed.

        An image has no `lg_k`: pass that of the sketch, if you know it. It limits only what unions with this sketch retain. If
        none is passed, it is guessed as the least from 12 on with 2^lg_k at least the retained hashes, and `|` keeps all. Raises
        InvalidDataError if the bytes aren't the image of one sketch of this seed, also if bytes follow an image,
        InvalidArgumentError if lg_k isn't from 4 to 26 or the seed from 0 to 2^64 - 1, TypeError for anything but bytes, and
        OutOfMemoryError.
        """
        seed = seed_of(seed)
        return cls._of(*_native.theta_read(image_of(data), seed), seed, lg_k)


class ThetaSketch(UpdatableSketch, ThetaValue, _native.Theta):
    """A theta sketch that takes updates.

    `lg_k` is the binary logarithm of its nominal entries, from 4 to 26; the usual error of an estimate is about
    1 / sqrt(2^lg_k). Sketches are combined only if they have the same seed, from 0 to 2^64 - 1. Its theta is
    `starting_theta`, from 1 to 2^63 - 1, at first and after a reset, and its slots grow by the factor `resize_factor`, 1, 2,
    4 or 8. Threads may share it. Raises InvalidArgumentError if a setting is out of range, and OutOfMemoryError.

        >>> sketch = ThetaSketch(lg_k=14)
        >>> sketch.update("ann")
        >>> sketch.update_many(["bob", None, "ann"])
        >>> sketch.estimate, sketch.bounds(), sketch.is_exact
        (2.0, (2, 2), True)
    """

    __slots__ = ("__weakref__",)

    @classmethod
    def from_bytes(cls, data: bytes, seed: int = DEFAULT_SEED, lg_k: int | None = None) -> ThetaSketch:
        """Reads a sketch as CompactThetaSketch.from_bytes does, for further updates."""
        return cls._of(CompactThetaSketch.from_bytes(data, seed, lg_k))

    def compact(self) -> CompactThetaSketch:
        """Its value as a compact sketch, untrimmed. Raises OutOfMemoryError."""
        return CompactThetaSketch._of_image(self.to_bytes(), self.seed, self.lg_k, self._guesses_lg_k)

    def update_lines(self, source: str | bytes | os.PathLike[Any] | BinaryFile) -> None:
        """Updates it with each line of a file: a path, or a file that is open in binary mode, from where it is.

        A line is the bytes before an LF, without it, and what is behind the last one if that isn't empty: the lines of the
        program `distinct`, and the keys that `update` makes of these bytes. The file is read in pieces, without an object for
        each line, and other threads may run meanwhile. Raises TypeError for anything else, what opening or reading the file
        raises, and OutOfMemoryError. Then some first lines may have been inserted, and inserting them again changes nothing.
        """
        if isinstance(source, (str, bytes, os.PathLike)):
            with open(source, "rb", buffering=0) as file:
                self._update_pieces(pieces_of(file))
        else:
            self._update_pieces(pieces_of(source))

    def _fill(self, value: CompactSketch) -> None:
        self._insert(_native.theta_hashes(value.to_bytes(), value.seed), value.is_empty)


class ThetaUnion(Merge, _native.Union):
    """A union of any number of theta sketches, in any order.

    It retains at most 2^lg_k hashes (lg_k from 4 to 26), the least of all that its sketches retain below their least theta.
    Pass `update` a list of sketches or images to merge them together.
    If no lg_k is passed it is 12, and `update` warns (SketchWarning) of a sketch that retains more, unless that has an `lg_k` of 12
    itself. After an OutOfMemoryError of `update` it may have failed: it then raises FailedError until it is reset.

        >>> union = ThetaUnion(lg_k=14)
        >>> for keys in (["ann", "bob"], ["bob", "cid"]):
        ...     day = ThetaSketch(lg_k=14)
        ...     day.update_many(keys)
        ...     union.update(day)
        >>> union.result().estimate
        3.0
    """

    __slots__ = ("__weakref__",)

    def result(self) -> CompactThetaSketch:
        """Its value as a compact sketch. Raises FailedError if it has failed, and OutOfMemoryError."""
        return CompactThetaSketch._of(*self._result(), self.seed, self.lg_k)


class ThetaIntersection(Merge, _native.Intersection):
    """An intersection of any number of theta sketches, in any order. It has no value before its first sketch.

    Raises InvalidArgumentError if the seed isn't from 0 to 2^64 - 1 or its hash is 0.
    """

    __slots__ = ("__weakref__",)

    def result(self) -> CompactThetaSketch:
        """Its value as a compact sketch. Raises InvalidArgumentError before the first sketch, and OutOfMemoryError."""
        return CompactThetaSketch._of(*self._result(), self.seed, None)
