"""Each request for memory refused in turn, of the library and of Python's objects."""
import os
import shutil
import subprocess
import sys

import pytest

HERE = os.path.dirname(os.path.abspath(__file__))


def test_each_request_for_memory_is_refused_in_turn(tmp_path):
    compiler = shutil.which(os.environ.get("CC", "cc")) or pytest.skip("there is no C compiler")
    library = tmp_path / "refusing.so"
    subprocess.run([compiler, "-O1", "-shared", "-fPIC", os.path.join(HERE, "refusing.c"), "-o", library], check=True)
    # Python 3.12 and 3.13 crash by themselves if the memory of a new function is refused, so there only great requests are refused,
    # and those of the library.
    allocator = "malloc" if sys.version_info < (3, 12) else "pymalloc"
    environment = {**os.environ, "LD_PRELOAD": str(library), "PYTHONMALLOC": allocator}
    words = [sys.executable, "-B", os.path.join(HERE, "refused_memory.py")]
    run = subprocess.run(words, env=environment, capture_output=True, text=True, timeout=600, check=False)
    assert run.returncode == 0, run.stderr[-4000:]
    assert int(run.stdout.split()[0]) > (500 if allocator == "malloc" else 100)


IN_PYTHON = """
import _testcapi
from kaftanclay import ThetaSketch, TupleSums

def each(make, call):
    refused = 0
    for nth in range(60):
        it = make()
        before = it.to_bytes()
        _testcapi.set_nomemory(nth, nth + 1)
        try:
            call(it)
            failed = False
        except MemoryError:
            failed = True
        finally:
            _testcapi.remove_mem_hooks()
        refused += failed
        if failed:
            assert it.to_bytes() == before
        call(it)
    return refused

keys = ["ann", "bob"]
assert each(ThetaSketch, lambda it: it.update_many(keys)) > 0
assert each(ThetaSketch, lambda it: it.update(bytearray(b"ann"))) > 0
assert each(TupleSums, lambda it: it.update("ann", 5)) >= 0
assert each(ThetaSketch, lambda it: it.estimate) >= 0
assert each(ThetaSketch, lambda it: it.to_bytes()) > 0
"""


def test_requests_of_python():
    pytest.importorskip("_testcapi")
    run = subprocess.run([sys.executable, "-B", "-c", IN_PYTHON], capture_output=True, text=True, timeout=100, check=False)
    assert run.returncode == 0, run.stderr
