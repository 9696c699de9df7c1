"""Refuses each request for memory of many calls in turn, those of Python's objects too: MemoryError, and the object is as it was.

test_memory.py runs it, with refusing.c loaded and Python's objects allocated by malloc.
"""
import copy
import ctypes
import io
import os
import pickle
import signal
import sys
import threading
import traceback
from array import array

from arrow_producer import column, indices
from kaftanclay import (
    CompactThetaSketch,
    CompactTupleSums,
    FailedError,
    OutOfMemoryError,
    ThetaIntersection,
    ThetaSketch,
    ThetaUnion,
    TupleSums,
    TupleSumsIntersection,
    TupleSumsUnion,
    _native,
)

refuse = ctypes.CDLL(os.environ["LD_PRELOAD"]).refuse
refuse.argtypes, refuse.restype = [ctypes.c_long], ctypes.c_long

KEYS = [f"user {number}" for number in range(300)]
NUMBERS = array("Q", range(3000))
GROUPS = array("b", [at % 3 - 1 for at in range(300)])


def theta(keys=NUMBERS, lg_k=10):
    sketch = ThetaSketch(lg_k, resize_factor=2)
    sketch.update_many(keys)
    return sketch


def sums(keys=NUMBERS, lg_k=10):
    made = TupleSums(lg_k, resize_factor=2)
    made.update_many(keys, 3)
    return made


def least(keys=NUMBERS, lg_k=10):
    made = TupleSums(lg_k, resize_factor=2, mode="min")
    made.update_many(keys, 3)
    return made


def union(kind, part):
    made = kind(10)
    made.update(part)
    return made


OTHER, OTHER_SUMS = theta(NUMBERS[1000:]).compact(), sums(NUMBERS[1000:]).compact()
IMAGE, IMAGE_OF_SUMS = OTHER.to_bytes(), OTHER_SUMS.to_bytes()
PICKLE = pickle.dumps(theta())
TEXT = "\n".join(KEYS).encode()


class Ready:
    """A column of Arrow whose capsules are there already."""

    def __init__(self, of):
        self.capsules = of.__arrow_c_array__()

    def __arrow_c_array__(self):
        return self.capsules


COLUMN, HOLES = Ready(column("u", KEYS)), Ready(column("i", [None, *range(100), None], 3))
WORDS = Ready(indices("c", [at % 100 for at in range(300)], column("vu", KEYS)))
VALUES = Ready(column("L", list(range(300))))

# What is made, and the call; the last says whether the call may have done a part of its work.
CASES = {
    "new": (lambda: None, lambda it: ThetaSketch(12), False),
    "new union": (lambda: None, lambda it: ThetaUnion(12), False),
    "update str": (lambda: theta([]), lambda it: it.update("ann"), False),
    "update wide str": (lambda: theta([]), lambda it: it.update("日本"[:] + str(len(IMAGE))), False),
    "update bytearray": (lambda: theta([]), lambda it: it.update(bytearray(b"ann")), False),
    "update int": (lambda: theta(range(31)), lambda it: it.update(31), False),
    "update_many list": (lambda: theta([]), lambda it: it.update_many(KEYS), True),
    "update_many iterator": (lambda: theta([]), lambda it: it.update_many(iter(range(100))), True),
    "update_many array": (lambda: theta([]), lambda it: it.update_many(NUMBERS), True),
    "update_many missing": (lambda: theta([]), lambda it: it.update_many([None, float("nan"), "a"]), True),
    "update_many column": (lambda: theta([]), lambda it: it.update_many(COLUMN), True),
    "update_many column with missing rows": (lambda: theta([]), lambda it: it.update_many(HOLES), True),
    "update_many dictionary": (lambda: theta([]), lambda it: it.update_many(WORDS), True),
    "update_lines": (lambda: theta([]), lambda it: it.update_lines(io.BytesIO(TEXT)), True),
    "groups": (lambda: theta([]), lambda it: _native.add_groups((it, theta([])), GROUPS, KEYS, None, True), True),
    "estimate": (theta, lambda it: it.estimate, False),
    "bounds": (theta, lambda it: it.bounds(), False),
    "estimate_text": (theta, lambda it: it.estimate_text(3), False),
    "estimate_fraction": (theta, lambda it: it.estimate_fraction, False),
    "to_bytes": (theta, lambda it: it.to_bytes(), False),
    "compact": (theta, lambda it: it.compact(), False),
    "trim": (theta, lambda it: it.trim(), False),
    "reset": (lambda: theta([]), lambda it: it.reset(), False),
    "copy": (theta, copy.copy, False),
    "pickle": (theta, pickle.dumps, False),
    "unpickle": (lambda: None, lambda it: pickle.loads(PICKLE), False),
    "from_bytes": (lambda: None, lambda it: (CompactThetaSketch.from_bytes(IMAGE), ThetaSketch.from_bytes(IMAGE)), False),
    "hashes": (theta, lambda it: it.hashes(), False),
    "or": (theta, lambda it: it | OTHER, False),
    "and": (theta, lambda it: it & OTHER, False),
    "sub": (theta, lambda it: it - OTHER, False),
    "union update": (lambda: union(ThetaUnion, theta()), lambda it: it.update(OTHER), True),
    "union update sketch": (lambda: union(ThetaUnion, theta()), lambda it: it.update(SKETCH), True),
    "union update list": (lambda: union(ThetaUnion, theta()), lambda it: it.update([SKETCH, OTHER, IMAGE, bytearray(IMAGE)]), True),
    "union result": (lambda: union(ThetaUnion, theta()), lambda it: it.result(), False),
    "union reset": (lambda: ThetaUnion(10), lambda it: it.reset(), False),
    "meet update": (lambda: union(lambda lg_k: ThetaIntersection(), theta()), lambda it: it.update(IMAGE), False),
    "meet result": (lambda: union(lambda lg_k: ThetaIntersection(), theta()), lambda it: it.result(), False),
    "sums update": (lambda: sums(range(31)), lambda it: it.update("ann", 7), False),
    "sums update_many": (lambda: sums([]), lambda it: it.update_many(KEYS, 3), True),
    "sums update_many lists": (lambda: sums([]), lambda it: it.update_many(KEYS, list(range(300))), True),
    "sums update_many arrays": (lambda: sums([]), lambda it: it.update_many(NUMBERS, NUMBERS), True),
    "sums update_many columns": (lambda: sums([]), lambda it: (it.update_many(COLUMN, VALUES), it.update_many(WORDS, 3)), True),
    "sums total": (sums, lambda it: (it.total, it.total_text(2), it.items()), False),
    "sums compact": (sums, lambda it: it.compact(), False),
    "sums copy": (sums, copy.copy, False),
    "sums from_bytes": (lambda: None, lambda it: (CompactTupleSums.from_bytes(IMAGE_OF_SUMS), TupleSums.from_bytes(IMAGE_OF_SUMS)), False),
    "sums or": (sums, lambda it: it | OTHER_SUMS, False),
    "sums and": (sums, lambda it: it & OTHER_SUMS, False),
    "sums sub": (sums, lambda it: it - OTHER_SUMS, False),
    "sums union": (lambda: union(TupleSumsUnion, sums()), lambda it: it.update(OTHER_SUMS), True),
    "sums union list": (lambda: union(TupleSumsUnion, sums()), lambda it: it.update([OTHER_SUMS, IMAGE_OF_SUMS]), True),
    "sums meet": (lambda: union(lambda lg_k: TupleSumsIntersection(), sums()), lambda it: (it.update(OTHER_SUMS), it.result()), True),
    "modes": (lambda: None, lambda it: (TupleSums(mode="min"), TupleSumsUnion(mode="max"), TupleSumsIntersection(mode="min")), False),
    "least or, and, copies": (least, lambda it: (it | it, it & it, copy.copy(it), pickle.loads(pickle.dumps(it))), False),
    "least union": (lambda: union(lambda lg_k: TupleSumsUnion(lg_k, mode="min"), least()), lambda it: it.update(OTHER_SUMS), True),
}
SKETCH = theta(NUMBERS[500:])


def value(it):
    return it if it is None else it.to_bytes() if hasattr(it, "to_bytes") else it.result().to_bytes()


def end_of_refusal():
    """Refuses nothing more; returns whether a request was refused. The call itself may be what is refused."""
    while True:
        try:
            return refuse(0)
        except (MemoryError, ctypes.ArgumentError):
            pass


def refused_each(name, make, call, may_do_a_part):
    """Refuses the requests of a call in turn; returns how many were refused with a MemoryError."""
    call(make())
    errors, passes = 0, 0
    for nth in range(1, 20000):
        it = make()
        before, failed = value(it), True
        try:
            refuse(nth)
            call(it)
            failed = False
        except (MemoryError, pickle.PicklingError):
            pass  # pickle makes an error of its own of some refusals
        was_refused = end_of_refusal()
        # A few requests are those of this loop, and some requests of Python may be refused without an error.
        passes = 0 if was_refused else passes + 1
        if passes > 3:
            return errors
        errors += failed
        if failed and not may_do_a_part:
            assert value(it) == before, (name, nth)
        if failed and may_do_a_part:
            try:
                value(it)
            except FailedError:
                it.reset()
        if failed and it is not None:
            # The same call has the whole answer of one that wasn't refused.
            if may_do_a_part and hasattr(it, "reset"):
                it.reset()
            call(it)
    raise AssertionError(f"{name} has no end")


NOT_IN_USE = 1


def is_refused(it, use):
    """Whether a call on an object is refused since another thread was using it at the fork."""
    try:
        use(it)
    except FailedError as error:
        return "when the process forked" in str(error)
    return False


def reset_in_child(it, use):
    """Resets an object that was in use at the fork. As long as memory is refused it stays what it was, and can be reset."""
    if not is_refused(it, use):
        return NOT_IN_USE
    errors, nth, failed = 0, 0, True
    while failed:
        nth += 1
        try:
            refuse(nth)
            it.reset()
            failed = False
        except MemoryError as error:
            errors += isinstance(error, OutOfMemoryError)
        end_of_refusal()
        assert is_refused(it, use) == failed
    assert errors > 0
    return 0


def refused_resets_after_a_fork(shared, call, use):
    stops = threading.Event()

    def work():
        while not stops.is_set():
            call(shared)

    thread = threading.Thread(target=work)
    thread.start()
    status = NOT_IN_USE
    while status == NOT_IN_USE:
        child = os.fork()
        if child == 0:
            signal.alarm(60)
            try:
                status = 2
                status = reset_in_child(shared, use)
            except BaseException:
                traceback.print_exc()
            os._exit(status)
        status = os.waitstatus_to_exitcode(os.waitpid(child, 0)[1])
    stops.set()
    thread.join()
    assert status == 0, f"{type(shared).__name__}: the child ended with {status}"


def main():
    many, part, part_of_sums = array("Q", range(1000000)), ThetaSketch(20), TupleSums(20)
    part.update_many(many)
    part_of_sums.update_many(many)
    for shared, call, use in (
        (ThetaSketch(20), lambda it: it.update_many(many), lambda it: it.update("ann")),
        (TupleSums(20), lambda it: it.update_many(many, 0), lambda it: it.update("ann")),
        (ThetaUnion(20), lambda it: it.update(part), lambda it: it.update(IMAGE)),
        (TupleSumsUnion(20), lambda it: (it.reset(), it.update(part_of_sums)), lambda it: it.update(IMAGE_OF_SUMS)),
    ):
        refused_resets_after_a_fork(shared, call, use)
    found = {name: refused_each(name, *case) for name, case in CASES.items()}
    print(f"{sum(found.values())} requests refused in {sum(map(bool, found.values()))} of {len(found)} cases")


if __name__ == "__main__":
    sys.exit(main())
