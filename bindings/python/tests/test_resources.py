"""Memory and threads: what is dropped is freed, refused memory is an error, and threads may share a sketch."""
import copy
import subprocess
import sys
import threading

import pytest
from kaftanclay import (
    CompactThetaSketch,
    SketchError,
    ThetaIntersection,
    ThetaSketch,
    ThetaUnion,
    TupleSums,
    TupleSumsIntersection,
    TupleSumsUnion,
)


def pages():
    """How many pages of memory the process has in use."""
    with open("/proc/self/statm", encoding="ascii") as file:
        return int(file.read().split()[1])


def use_some():
    """Makes one of each kind, and drops it."""
    sketch, union, meet, sums = ThetaSketch(8), ThetaUnion(8), ThetaIntersection(), TupleSums(8)
    sketch.update_many(range(100))
    union.update(sketch)
    meet.update(sketch)
    sums.update("ann", 5)
    sums_union, sums_meet = TupleSumsUnion(8), TupleSumsIntersection()
    sums_union.update(copy.copy(sums))
    sums_meet.update(sums)
    assert sums_union.result() == sums_meet.result() == sums.compact() == sums | TupleSums(8) and len(copy.copy(sketch)) == 100
    assert sums - TupleSums(8) == sums.compact() and len(sums & sums) == 1 and (sums - sums).is_empty
    assert union.result() == meet.result() == CompactThetaSketch.from_bytes(sketch.to_bytes())
    for refused in (lambda: CompactThetaSketch.from_bytes(b"abc"), lambda: ThetaSketch(3), lambda: union.update(b"abc")):
        with pytest.raises(SketchError):
            refused()


def test_memory_is_freed():
    for _ in range(2000):
        use_some()
    for _ in range(10000):
        ThetaSketch().update("ann")
    before = pages()
    for _ in range(100000):
        ThetaSketch().update("ann")
    for _ in range(2000):
        use_some()
    assert pages() - before < 256


REFUSED = """
import resource
from kaftanclay import FailedError, OutOfMemoryError, SketchError, ThetaSketch, ThetaUnion

def limit(more):
    with open("/proc/self/statm", encoding="ascii") as file:
        used = int(file.read().split()[0]) * resource.getpagesize()
    resource.setrlimit(resource.RLIMIT_AS, (used + more, resource.RLIM_INFINITY))

source = ThetaSketch(26)
source.update_many(range(2000000))
union = ThetaUnion(26)
limit(8 << 20)
try:
    union.update(source)
except OutOfMemoryError as error:
    assert error.status == 3 and isinstance(error, MemoryError) and isinstance(error, SketchError)
else:
    raise SystemExit("the memory of a union was not refused")
for call in (union.result, lambda: union.update(ThetaSketch())):
    try:
        call()
    except FailedError as error:
        assert error.status == 5
    else:
        raise SystemExit("the union has not failed")
union.reset()
assert union.result().is_empty
sketch = ThetaSketch(26)
try:
    for start in range(0, 10**8, 1000):
        before = len(sketch)
        sketch.update_many(range(start, start + 1000))
except OutOfMemoryError:
    after = len(sketch)
    assert before <= after < before + 1000
else:
    raise SystemExit("the memory of a sketch was not refused")
resource.setrlimit(resource.RLIMIT_AS, (resource.RLIM_INFINITY, resource.RLIM_INFINITY))
sketch.update_many(range(start, start + 1000))
assert len(sketch) == start + 1000
"""


def test_refused_memory():
    run = subprocess.run([sys.executable, "-c", REFUSED], capture_output=True, text=True, timeout=300)
    assert run.returncode == 0, run.stderr


def test_threads_share_a_sketch():
    shared, union, sums = ThetaSketch(20), ThetaUnion(20), TupleSums(16)
    failures = []

    def work(own):
        try:
            for start in range(0, 20000, 2000):
                shared.update_many(range(own * 20000 + start, own * 20000 + start + 2000))
                shared.update(own * 20000)
                assert len(shared.compact()) > 0
            part = ThetaSketch(20)
            part.update_many(range(own * 5000, own * 5000 + 10000))
            union.update(part)
            union.update(shared)
            for key in range(2000):
                sums.update(key, 1)
        except BaseException as error:
            failures.append(error)

    threads = [threading.Thread(target=work, args=(own,)) for own in range(8)]
    for thread in threads:
        thread.start()
    for thread in threads:
        thread.join()
    assert not failures and len(shared) == 160000 and len(union.result()) == 160000
    assert len(sums) == 2000 and all(value == 8 for _, value in sums.items())
