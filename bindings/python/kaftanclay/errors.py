"""The errors of sketches: one class for each status of the C library, all below SketchError."""
from __future__ import annotations


class SketchError(Exception):
    """A call was refused. `status` is the status of the C library.

    An error of `TupleSums.update_many`, of whatever class, has an attribute `added`: how many pairs were added before it.
    """

    status = 0
    added: int


class InvalidArgumentError(SketchError, ValueError):
    """A number is out of range, or sketches have different seeds."""

    status = 1


class InvalidDataError(SketchError, ValueError):
    """The bytes are no image of a sketch of this seed, or more than one image."""

    status = 2


class OutOfMemoryError(SketchError, MemoryError):
    """The memory that the call requested was refused."""

    status = 3


class PolicyError(SketchError, OverflowError):
    """A sum would be 2^64 or more."""

    status = 4


class FailedError(SketchError, RuntimeError):
    """Memory or a sum was refused in an earlier merge; the union refuses `update` and `result` until it is reset.

    In a child process, also: another thread was in a call on the object when the process forked.
    """

    status = 5


class SketchWarning(UserWarning):
    """A union drops hashes that a sketch retains, and nobody has chosen so: its `lg_k`, or that of an image, was not passed."""


_REASONS: dict[int, tuple[type[SketchError], str]] = {
    1: (InvalidArgumentError, "an argument is out of range"),
    2: (InvalidDataError, "the bytes are not one image of such a sketch under this seed"),
    3: (OutOfMemoryError, "the memory that the call requested was refused"),
    4: (PolicyError, "a sum would be 2^64 or more"),
    5: (FailedError, "memory or a sum was refused in an earlier merge; reset the union"),
}


def error_of_status(status: int, reason: str | None) -> SketchError:
    """The error of a status that isn't 0. A reason is that of an argument, of a failure, or the flaw of an image."""
    kind, text = _REASONS[status]
    if reason and status == 2:
        return kind(f"{text}: {reason}")
    return kind(reason if reason and status in (1, 5) else text)
