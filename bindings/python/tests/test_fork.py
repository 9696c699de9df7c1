"""After a fork: a child never waits for a thread that it doesn't have, and what was in use is refused until it is reset."""
import os
import signal
import subprocess
import sys
import threading
from array import array

import pytest
from kaftanclay import FailedError, ThetaSketch, ThetaUnion, TupleSums, TupleSumsUnion

SECONDS = 60
NUMBERS = array("Q", range(3000000))


class Busy(threading.Thread):
    """A thread that is in long calls until it is stopped."""

    def __init__(self, call):
        super().__init__(daemon=True)
        self.call, self.stops, self.failure = call, False, None
        self.start()

    def run(self):
        try:
            while not self.stops:
                self.call()
        except BaseException as error:
            self.failure = error

    def end(self):
        self.stops = True
        self.join()
        assert self.failure is None


def in_child(work):
    """Forks, runs `work` in the child, and returns the number that it returns."""
    child = os.fork()
    if child == 0:
        signal.signal(signal.SIGALRM, signal.SIG_DFL)
        signal.alarm(SECONDS)
        status = 99
        try:
            status = work()
        finally:
            os._exit(status)
    _, status = os.waitpid(child, 0)
    assert os.WIFEXITED(status), f"the child ended by signal {os.WTERMSIG(status)}: it hung"
    return os.WEXITSTATUS(status)


def check_in_child(shared, use):
    """1 if the object was in use at the fork, 0 if it wasn't; any other number is a mistake."""
    found = 0
    try:
        use(shared)
    except FailedError as error:
        found = 1
        if "when the process forked" not in str(error):
            return 2
        for _ in range(2):
            try:
                use(shared)
                return 3
            except FailedError:
                pass
        shared.reset()
    use(shared)
    other = type(shared)()
    use(other)
    return found if type(other) is type(shared) else 4


def updates_theta(sketch):
    sketch.update("ann")
    sketch.update_many(["bob"])
    sketch.update_many(NUMBERS[:5000])
    assert len(sketch) > 2 and sketch.estimate > 2 and len(sketch.to_bytes()) > 24 and (sketch | ThetaSketch()).estimate > 2


def updates_sums(sums):
    sums.update("ann", 1)
    sums.update_many(["bob"], 1)
    sums.update_many(NUMBERS[:5000], 1)
    assert sums.total > 2 and len(sums.compact()) > 2


PART, PART_OF_SUMS = ThetaSketch(20), TupleSums(20)
PART.update_many(NUMBERS)
PART_OF_SUMS.update_many(NUMBERS[:1000000])


def merges_theta(union):
    small = ThetaSketch()
    small.update("ann")
    union.update(small)
    union.update(small.to_bytes())
    assert len(union.result()) > 0


def merges_sums(union):
    small = TupleSums()
    small.update("ann")
    union.update(small)
    assert len(union.result()) > 0


@pytest.mark.skipif(not hasattr(os, "fork"), reason="there is no fork")
@pytest.mark.parametrize(
    "shared, call, use",
    [
        (ThetaSketch(20), lambda it: it.update_many(NUMBERS), updates_theta),
        (TupleSums(20), lambda it: it.update_many(NUMBERS, 0), updates_sums),
        (ThetaUnion(20), lambda it: it.update(PART), merges_theta),
        (TupleSumsUnion(20), lambda it: (it.reset(), it.update(PART_OF_SUMS)), merges_sums),
    ],
    ids=["theta", "sums", "union", "sums union"],
)
def test_fork_while_another_thread_is_in_a_call(shared, call, use):
    busy = Busy(lambda: call(shared))
    try:
        found = [in_child(lambda: check_in_child(shared, use)) for _ in range(20)]
    finally:
        busy.end()
    assert set(found) <= {0, 1} and 1 in found
    if shared.__class__ in (ThetaUnion, TupleSumsUnion):
        shared.reset()
    use(shared)


@pytest.mark.skipif(not hasattr(os, "fork"), reason="there is no fork")
def test_fork_while_threads_wait():
    """A lock that a waiting thread had for a moment isn't waited for either; what nobody used has its value."""
    shared, quiet = ThetaSketch(20), ThetaSketch()
    quiet.update_many(["ann", "bob"])
    threads = [Busy(lambda: shared.update_many(NUMBERS)) for _ in range(4)] + [Busy(shared.to_bytes)]

    def work():
        if quiet.estimate != 2.0 or check_in_child(quiet, updates_theta) != 0:
            return 5
        return check_in_child(shared, updates_theta)

    try:
        found = [in_child(work) for _ in range(20)]
    finally:
        for it in threads:
            it.end()
    assert set(found) <= {0, 1}


MULTIPROCESSING = """
import multiprocessing, threading
from array import array
from kaftanclay import FailedError, ThetaSketch
shared, numbers = ThetaSketch(20), array("Q", range(2000000))
threading.Thread(target=lambda: [shared.update_many(numbers) for _ in range(200)], daemon=True).start()

def work(at):
    own = ThetaSketch()
    own.update_many(numbers[: 1000 * (at + 1)])
    try:
        shared.update(at)
    except FailedError:
        pass
    return own

if __name__ == "__main__":
    with multiprocessing.get_context("fork").Pool(4) as pool:
        found = pool.map_async(work, range(8)).get(60)
    assert [len(it) for it in found[:3]] == [1000, 2000, 3000]
"""


def test_multiprocessing():
    run = subprocess.run([sys.executable, "-c", MULTIPROCESSING], capture_output=True, text=True, timeout=120, check=False)
    assert run.returncode == 0, run.stderr
