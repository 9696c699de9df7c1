"""Theta sketches, and tuple sketches of sums: how many distinct keys a stream has, without the keys.

    >>> from kaftanclay import ThetaSketch
    >>> monday, tuesday = ThetaSketch(lg_k=14), ThetaSketch(lg_k=14)
    >>> monday.update_many(["ann", "bob", "ann"])
    >>> tuesday.update_many(["bob", "cid"])
    >>> (monday | tuesday).estimate, (monday & tuesday).estimate, (monday - tuesday).estimate
    (3.0, 1.0, 1.0)

Images are in the DataSketches format. The sketches are those of a library in C, each call of which is proved; the compiled
module of this package only passes arguments to it.
"""
from ._native import DEFAULT_SEED, MAX_THETA
from .errors import FailedError, InvalidArgumentError, InvalidDataError, OutOfMemoryError, PolicyError, SketchError, SketchWarning
from .sums import CompactTupleSums, TupleSums, TupleSumsIntersection, TupleSumsUnion
from .theta import CompactThetaSketch, ThetaIntersection, ThetaSketch, ThetaUnion

__version__ = "0.2.0"

__all__ = [
    "DEFAULT_SEED",
    "MAX_THETA",
    "CompactThetaSketch",
    "CompactTupleSums",
    "FailedError",
    "InvalidArgumentError",
    "InvalidDataError",
    "OutOfMemoryError",
    "PolicyError",
    "SketchError",
    "SketchWarning",
    "ThetaIntersection",
    "ThetaSketch",
    "ThetaUnion",
    "TupleSums",
    "TupleSumsIntersection",
    "TupleSumsUnion",
]
