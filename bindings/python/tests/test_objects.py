"""Objects as Python sees them: classes derived from them, weak references, garbage, threads, interpreters, and types."""
import gc
import importlib.util
import inspect
import io
import os
import pickle
import subprocess
import sys
import threading
import time
import weakref
from array import array

import kaftanclay
import pytest
from kaftanclay import (
    CompactThetaSketch,
    CompactTupleSums,
    ThetaIntersection,
    ThetaSketch,
    ThetaUnion,
    TupleSums,
    TupleSumsIntersection,
    TupleSumsUnion,
    _native,
)

ALL = [ThetaSketch, TupleSums, ThetaUnion, ThetaIntersection, TupleSumsUnion, TupleSumsIntersection]


class Named(ThetaSketch):
    """A class of a user's, with attributes of its own."""

    def __init__(self, name="one", **settings):
        super().__init__(**settings)
        self.name = name


def test_derived_classes():
    sketch = Named("two", lg_k=10)
    sketch.update("ann")
    assert (sketch.name, sketch.lg_k, sketch.estimate) == ("two", 10, 1.0)
    union = ThetaUnion()
    union.update(sketch)
    assert union.result().estimate == (sketch | sketch).estimate == 1.0 and repr(sketch).startswith("<Named of 1 keys")


@pytest.mark.parametrize(
    "bases", [(TupleSums, ThetaSketch), (ThetaSketch, CompactTupleSums), (CompactThetaSketch, ThetaSketch), (_native.Theta, _native.Sums)]
)
def test_classes_of_two_kinds_have_no_objects(bases):
    """Else the calls of one kind would get the object of another one."""
    two = type("Two", bases, {"__init__": bases[0].__init__})
    for call in (two, lambda: two.__new__(two)):
        with pytest.raises(TypeError, match="one kind of object only"):
            call()


@pytest.mark.parametrize("kind", ALL)
def test_objects_that_were_not_made(kind):
    """__new__ without __init__ gives an object whose calls are refused."""
    it = kind.__new__(kind)
    for name in dir(it):
        if name.startswith("_") or name == "from_bytes":
            continue
        arguments = {"update": [b"ann"], "update_many": [["ann"]], "update_lines": [io.BytesIO(b"ann\n")]}.get(name, [])
        with pytest.raises(RuntimeError, match="was not made"):
            found = getattr(it, name)
            found(*arguments)
    if hasattr(it, "_insert"):
        with pytest.raises((RuntimeError, kaftanclay.SketchError)):
            it._insert(b"", True)
    for call in (lambda: kind().update(it) if hasattr(kind(), "_result") else len(it),):
        with pytest.raises((RuntimeError, TypeError)):
            call()
    it.__init__()
    if hasattr(it, "reset"):
        it.reset()


def test_unmade_sketches_are_refused_by_others():
    for merge, kind in ((ThetaUnion, ThetaSketch), (ThetaIntersection, CompactThetaSketch), (TupleSumsUnion, TupleSums)):
        with pytest.raises(RuntimeError, match="was not made"):
            merge().update(kind.__new__(kind))
    with pytest.raises(RuntimeError, match="was not made"):
        ThetaSketch()._copy(ThetaSketch.__new__(ThetaSketch))
    with pytest.raises(TypeError):
        ThetaSketch()._copy(TupleSums())
    for kind in (_native.Sketch,):
        with pytest.raises(TypeError):
            kind()


@pytest.mark.parametrize("kind", ALL)
def test_made_twice(kind):
    it = kind()
    it.__init__()
    assert it.seed == kaftanclay.DEFAULT_SEED


@pytest.mark.parametrize("kind", ALL)
def test_weak_references_and_garbage(kind):
    it = kind()
    reference = weakref.ref(it)
    assert reference() is it
    del it
    assert reference() is None

    class Derived(kind):
        pass

    it = Derived()
    it.itself = it
    reference = weakref.ref(it)
    del it
    gc.collect()
    assert reference() is None
    classes = weakref.ref(Derived)
    del Derived
    gc.collect()
    assert classes() is None


@pytest.mark.parametrize("kind", ALL)
def test_no_attributes_but_those_of_the_class(kind):
    with pytest.raises(AttributeError):
        kind().other = 1


def test_references_are_dropped():
    """No call keeps a reference to its arguments, or drops one too many."""
    sketch, sums, union = ThetaSketch(), TupleSums(), ThetaUnion()
    key, data, number, keys, value = "".join(["a", "日"]), b"".join([b"a", b"b"]), 10**15, ["a", "b", 10**14], 10**16
    objects = (key, data, number, keys, value, sketch, None, True)
    before = [sys.getrefcount(it) for it in objects]

    def use():
        for it in (key, data, number):
            sketch.update(it)
            sums.update(it, value)
        sketch.update_many(keys)
        sketch.update_many(keys, skipna=True)
        sketch.update_many(iter(keys))
        sums.update_many(keys, [value] * 3)
        sums.update_many(keys, value)
        union.update(sketch)
        union.update(sketch.compact())
        sketch.bounds(2), sketch.estimate, sketch.estimate_text(3), sums.total, sums.items(), sketch._state(), sums.total_text(5)
        for bad in (1.5, None, 2**64, [key]):
            for call in (sketch.update, lambda it: sketch.update_many([key, it], skipna=False), lambda it: sums.update_many(keys, [value, it, value])):
                try:
                    call(bad)
                except (TypeError, ValueError):
                    pass

    for _ in range(100):
        use()
    after = [sys.getrefcount(it) for it in objects]
    for old, new in zip(before, after):
        assert abs(new - old) < 20


def test_long_calls_let_other_threads_run():
    """While one thread is in long calls, another one counts on."""
    sketch, numbers, count = ThetaSketch(20), array("Q", range(4000000)), [0]

    def work():
        for _ in range(3):
            sketch.update_many(numbers)

    thread = threading.Thread(target=work)
    thread.start()
    while thread.is_alive():
        count[0] += 1
        time.sleep(0.0005)
    assert count[0] > 20


def test_threads_use_one_object_by_every_call():
    """Six threads, all calls at once: nothing crashes, and no key is lost."""
    shared, sums, union, failures = ThetaSketch(16), TupleSums(16), ThetaUnion(16), []
    numbers = array("Q", range(3000))

    def work(own):
        try:
            for turn in range(40):
                shared.update_many(numbers)
                shared.update_many([f"{own} {turn}", own])
                shared.update(own)
                sums.update_many(numbers, 1)
                union.update(shared)
                assert len(union.result()) in (0, *range(3000, 3241)) and len(shared.to_bytes()) >= 24000
                assert shared.estimate >= 3000 and sums.total >= 3000 and (shared & shared).estimate >= 3000
                pickle.loads(pickle.dumps(shared)).update("a")
                shared.trim()
                if turn % 10 == 0:
                    union.reset()
                    union.update(shared)
        except BaseException as error:
            failures.append(error)

    threads = [threading.Thread(target=work, args=(own,)) for own in range(6)]
    for thread in threads:
        thread.start()
    for thread in threads:
        thread.join()
    assert not failures and len(shared) == 3000 + 240 and sums.total == 3000 * 240


FINALIZERS = """
import gc, pickle
from array import array
from kaftanclay import ThetaIntersection, ThetaSketch, ThetaUnion, TupleSums, TupleSumsUnion

sketch, sums, union, meet, both, numbers = ThetaSketch(), TupleSums(), ThetaUnion(), ThetaIntersection(), TupleSumsUnion(), array("Q", range(5000))
sketch.update_many(numbers)
sums.update_many(numbers)
meet.update(sketch)
runs = 0

class Garbage:
    def __init__(self):
        self.itself = self

    def __del__(self):
        global runs
        runs += 1
        sketch.update(runs), sums.update(runs), sketch.estimate, union.update(sketch), both.update(sums), meet.result()

gc.set_threshold(1, 1, 1)
for turn in range(30):
    for call in (
        sketch.to_bytes, sketch.compact, sketch.trim, sketch._state, union.result, meet.result, both.result, sums.items, sums.compact,
        lambda: sums.total, lambda: union.update(sketch), lambda: both.update(sums), lambda: sketch | sketch, lambda: sums & sums,
        lambda: sums.update_many(numbers, numbers), lambda: sketch.update_many(numbers), lambda: sketch.update_many(list(range(3000))),
        lambda: pickle.loads(pickle.dumps(sketch)), lambda: sketch.bounds(3), lambda: ThetaSketch.from_bytes(sketch.to_bytes()),
    ):
        Garbage()
        call()
    for wrong in (lambda: union.update(b"abc"), lambda: sums.update("a", 2**64), lambda: sketch.update(2**64)):
        Garbage()
        try:
            wrong()
        except ValueError:
            pass
assert runs > 500
"""


def test_finalizers_that_use_the_same_objects():
    """The garbage collector may run within a call: no call waits for itself."""
    subprocess.run([sys.executable, "-c", FINALIZERS], check=True, timeout=120)


def test_interrupted_update_many():
    """A signal's handler runs while a list without an end is read, also one of missing values."""
    code = """
import itertools, signal
from kaftanclay import ThetaSketch, TupleSums
signal.signal(signal.SIGALRM, lambda *rest: 1 / 0)
for call in (ThetaSketch(20).update_many, TupleSums(20).update_many):
    for keys in (itertools.count(), itertools.repeat(None), itertools.repeat(float("nan"))):
        signal.setitimer(signal.ITIMER_REAL, 0.2)
        try:
            call(keys)
        except ZeroDivisionError:
            continue
        raise SystemExit("not interrupted")
"""
    subprocess.run([sys.executable, "-c", code], check=True, timeout=60)


def test_other_interpreters_are_refused():
    interpreters = pytest.importorskip("_xxsubinterpreters")
    own = interpreters.create()
    code = f"import sys; sys.path[:] = {sys.path!r}\ntry:\n    import kaftanclay\nexcept ImportError:\n    pass\nelse:\n    raise SystemError"
    interpreters.run_string(own, code)
    interpreters.destroy(own)


def test_the_module_is_imported_again():
    """Objects of an earlier import stay of their types."""
    code = """
import sys, kaftanclay
old = kaftanclay.ThetaSketch()
for name in [it for it in sys.modules if it.startswith("kaftanclay")]:
    del sys.modules[name]
import kaftanclay
union = kaftanclay.ThetaUnion()
union.update(old)
old.update("ann")
assert union.result().is_empty and old.estimate == 1.0
"""
    subprocess.run([sys.executable, "-c", code], check=True)


def test_pickles_of_earlier_versions():
    """The parts of a pickle: a value, the resize factor and the starting theta."""
    sketch = ThetaSketch(10, seed=7, resize_factor=2)
    sketch.update_many(range(100))
    parts = sketch.__reduce_ex__(2)
    assert parts[1] == (ThetaSketch,) and parts[2] == (sketch.compact(), 2, kaftanclay.MAX_THETA)
    made = ThetaSketch.__new__(ThetaSketch)
    made.__setstate__(parts[2])
    assert made.to_bytes() == sketch.to_bytes() and (made.lg_k, made.seed) == (10, 7)


RIGHT = """
from kaftanclay import CompactThetaSketch, ThetaSketch, ThetaUnion, TupleSums, TupleSumsUnion

sketch = ThetaSketch(lg_k=14, seed=1, resize_factor=2)
sketch.update("a")
sketch.update_many(["a", None], skipna=True)
union = ThetaUnion()
union.update(sketch.compact())
union.update(b"")
result: CompactThetaSketch = union.result() | sketch
bounds: tuple[int, int] = sketch.bounds()
sums = TupleSums()
sums.update_many(["a"], [1])
items: list[tuple[int, int]] = sums.items()
least = TupleSumsUnion(mode="min").result() | TupleSums.from_bytes(b"", mode="min")
read: ThetaSketch = ThetaSketch.from_bytes(sketch.to_bytes())
"""
WRONG = (
    "ThetaSketch().update(1.5)", "ThetaUnion().update(TupleSums())", "ThetaSketch(lg=3)", "sketch.estimate = 1.0", "TupleSums().update('a', 'b')",
    "TupleSums(mode='avg')", "TupleSumsUnion(12, 9001, 'min')",
)


def test_types(tmp_path):
    """mypy finds no mistake in the package and in a right use of it, and each mistake in wrong ones."""
    pytest.importorskip("mypy")
    folder = os.path.dirname(os.path.abspath(inspect.getfile(kaftanclay)))

    def mypy(*paths):
        words = [sys.executable, "-m", "mypy", "--strict", "--cache-dir", os.devnull, "--python-executable", sys.executable, *paths]
        return subprocess.run(words, cwd=tmp_path, capture_output=True, text=True, check=False)

    (tmp_path / "right.py").write_text(RIGHT, encoding="utf-8")
    (tmp_path / "wrong.py").write_text(RIGHT + "\n".join(WRONG) + "\n", encoding="utf-8")
    # pandas has no types of its own.
    needs = {"pandas.py": "numpy", "dask.py": "dask"}
    files = [it for it in sorted(os.listdir(folder)) if it.endswith((".py", ".pyi")) and (it not in needs or importlib.util.find_spec(needs[it]))]
    for run in (mypy(*(os.path.join(folder, it) for it in files)), mypy("right.py")):
        assert run.returncode == 0, run.stdout
    lines = {line.split(":")[1] for line in mypy("wrong.py").stdout.splitlines() if ": error:" in line}
    assert lines == {str(RIGHT.count("\n") + at) for at in range(1, len(WRONG) + 1)}
