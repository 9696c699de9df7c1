#!/usr/bin/env python3
"""Runs examples/dask on clusters on this machine, with Dask as Debian has it.

merge.py, on a scheduler and two workers:

- Of a file of 170 MB, one more, and an empty one it writes the bytes of one `distinct sketch --hex`. The sketch is exact,
  and nearly every line is there once, so a line that is lost, or torn at a cut, changes the bytes.
- A second run writes the bytes of one run too, though a worker is killed while it has made one image and makes the next.
- With a `distinct` that fails at its third call, with a file that is missing, and with no file, it writes no image; its
  message names the fault, and its status is 1, 1 and 2.

sketch.py, and a table of days and users with the aggregations of kaftanclay.dask, on a scheduler and three workers that have the
Python package, compiled for this:

- sketch.py writes the same bytes as merge.py, and refuses the same files.
- The sketches of each day and of all users are those of `distinct sketch`, also if a worker is killed while it has read one part of
  the table and reads the next.

The environment may name the program in DISTINCT_PROGRAM; else it is proved and built, as ./install does. The C library of the
package has to be built (make -C bindings/c proved), in crates/c_library/out or the folder KAFTANCLAY_LIB. Packages that are missing
are installed by checks/install_packages.py. If they can't be installed the check fails, or, if the environment has
DISTINCT_SKIP_DASK=1, is skipped, as a whole or without the Python package. Apart from installing and building it takes a minute,
and each cluster is ended after two.
"""
import contextlib
import glob
import json
import os
import shutil
import signal
import subprocess
import sys
import tempfile
import time

TOP = os.path.dirname(os.path.dirname(os.path.abspath(__file__)))
PYTHON = "/usr/bin/python3"
LIMIT = 120
KEYS = 1000000
USERS = 60000

# What the workers run as distinct: it notes the worker and the command. If the file mode says so, it is late, or fails at
# the third call.
WRAPPER = """#!/bin/sh
echo "$PPID $1" >> '{place}/calls'
case $(cat '{place}/mode') in
    late) sleep 0.5 ;;
    failing) [ "$(wc -l < '{place}/calls')" -lt 3 ] || {{ echo 'distinct: the third call fails' >&2; exit 3; }} ;;
esac
exec '{program}' "$@"
"""

# The sketches of the users of each day, and that of all users; each part of the table is read late, and noted.
TABLE = r"""
import os, sys, time
import dask, pandas
from dask import dataframe
from distributed import Client
from kaftanclay.dask import distinct_count, sketch, theta_sketch

address, place = sys.argv[1:]


def noted(part, calls):
    with open(calls, "a") as file:
        file.write(f"{os.getpid()} part\n")
    time.sleep(0.2)
    return part


table = pandas.read_csv(f"{place}/table", dtype=str)
with Client(address):
    frame = dataframe.from_pandas(table, npartitions=24).map_partitions(noted, f"{place}/calls", meta=table[:0])
    users = frame.groupby("day")["user"]
    days, counts = dask.compute(users.agg(theta_sketch(lg_k=11)), users.agg(distinct_count(lg_k=11)))
    if any(counts[day] != it.estimate for day, it in days.items()):
        sys.exit("an estimate is not that of its sketch")
    for day, found in days.sort_index().items():
        print(day, found.to_bytes().hex())
    print("all", sketch(frame["user"]).to_bytes().hex())
"""


def fail(text):
    """Ends the script with status 1."""
    sys.exit(f"dask_cluster: {text}")


def say(text):
    print(f"dask_cluster: {text}", file=sys.stderr, flush=True)


def has_packages():
    words = [PYTHON, "-c", "import dask.bytes, dask.dataframe, distributed, fsspec"]
    return os.path.exists(PYTHON) and subprocess.run(words, capture_output=True, check=False).returncode == 0


def install():
    """Installs the packages; returns why it couldn't, or None."""
    run = subprocess.run([f"{TOP}/checks/install_packages.py", "dask"], stderr=subprocess.PIPE, text=True, check=False)
    if run.returncode:
        return run.stderr.strip()
    return None if has_packages() else f"{PYTHON} can't import Dask although its packages are installed"


def built_program():
    """The path of the program distinct, proved and built."""
    tool = shutil.which("rt") or fail("the toolchain's command rt is not on the path")
    folder = f"{TOP}/crates/distinct"
    say("proving and building distinct; 20 to 40 minutes the first time, and at once if nothing has changed")
    # Without arguments distinct fails, so it is run to print its version.
    streams = {"stdin": subprocess.DEVNULL, "stdout": subprocess.PIPE, "stderr": subprocess.STDOUT}
    with subprocess.Popen([tool, "run", "--", "--version"], cwd=folder, **streams) as run:
        try:
            printed, _ = run.communicate()
        except BaseException:
            run.terminate()
            raise
    if run.returncode:
        say(printed.decode(errors="replace")[-2000:].strip())
        fail("distinct was not proved and built; above is what rt printed last")
    return f"{folder}/out/distinct"


class Cluster:
    """A scheduler and its workers, and runs of programs on them, all in one folder."""

    def __init__(self, place, program, python=PYTHON, count=2):
        self.place, self.python, self.count = place, python, count
        self.processes = []
        os.mkdir(f"{place}/bin")
        self.write("bin/distinct", WRAPPER.format(place=place, program=program))
        os.chmod(f"{place}/bin/distinct", 0o755)
        self.environment = {**os.environ, "PATH": f"{place}/bin:{os.environ['PATH']}", "DASK_CONFIG": place}

    def start(self):
        """Starts them on free ports of the loopback address."""
        own = ["--host", "127.0.0.1", "--dashboard-address", "127.0.0.1:0", "--no-dashboard"]
        own += ["--scheduler-file", f"{self.place}/scheduler"]
        # If this script is killed, the scheduler ends after that time without a task, and then the workers.
        self.begin(["-m", "dask", "scheduler", *own, "--port", "0", "--idle-timeout", f"{2 * LIMIT} s"])
        self.wait(lambda: self.address() is not None)
        own += ["--no-nanny", "--nthreads", "1", "--death-timeout", "60", "--local-directory", self.place]
        self.workers = [self.begin(["-m", "dask", "worker", *own]) for _ in range(self.count)]
        self.wait(lambda: self.log().count("Registered to:") == self.count)

    def begin(self, words):
        """Starts Python with these arguments; it prints to the files NUMBER.out and NUMBER.log."""
        name = f"{self.place}/{time.monotonic_ns()}"
        with open(f"{name}.out", "wb") as output, open(f"{name}.log", "wb") as log:
            streams = {"stdin": subprocess.DEVNULL, "stdout": output, "stderr": log}
            process = subprocess.Popen(
                [self.python, *words], cwd=self.place, env=self.environment, start_new_session=True, **streams
            )
        process.name = name
        self.processes.append(process)
        return process

    def run(self, program, *arguments, meanwhile=lambda: None):
        """Runs a program; returns its status, its output and its messages."""
        process = self.begin([program, *arguments])
        meanwhile()
        status = process.wait()
        self.processes.remove(process)
        return status, self.read(f"{process.name}.out"), self.read(f"{process.name}.log")

    def merge(self, *arguments, **more):
        return self.run(f"{TOP}/examples/dask/merge.py", *arguments, **more)

    def lose_worker(self):
        """Kills a worker while it has done one task and does the next."""
        worker = self.workers.pop()
        self.wait(lambda: sum(number == str(worker.pid) for number in self.calls()) >= 2)
        self.kill(worker)

    def wait(self, is_met):
        """Waits until this is so; the alarm ends what takes too long."""
        while not is_met():
            if any(it.poll() is not None for it in self.processes):
                fail("the scheduler, a worker or a program has ended too early")
            time.sleep(0.02)

    def kill(self, process):
        """Kills a process, and all that it has started."""
        os.killpg(process.pid, signal.SIGKILL)
        process.wait()
        self.processes.remove(process)

    def end(self):
        for process in list(self.processes):
            self.kill(process)

    def write(self, name, text):
        with open(f"{self.place}/{name}", "w", encoding="utf-8") as file:
            file.write(text)

    def read(self, name):
        with open(os.path.join(self.place, name), encoding="utf-8", errors="replace") as file:
            return file.read()

    def address(self):
        """The scheduler's address, once it has written it."""
        with contextlib.suppress(FileNotFoundError, json.JSONDecodeError):
            return json.loads(self.read("scheduler"))["address"]
        return None

    def log(self):
        return "".join(self.read(name) for name in sorted(glob.glob(f"{self.place}/*.log")))

    def set_mode(self, mode):
        """From now on the workers' distinct is plain, late or failing, and its calls are counted anew."""
        self.write("calls", "")
        self.write("mode", mode)

    def calls(self):
        """The worker's process number of each call of distinct."""
        return [line.split()[0] for line in self.read("calls").splitlines()]


def write_files(place):
    """Writes 170 MB of lines, a twentieth of them twice, the last without an LF; a file of one more line; an empty one."""
    lines = [f"{at:07} {'x' * (at * 7919 % 301)}\n" for at in range(KEYS)]
    with open(f"{place}/keys", "w", encoding="ascii") as file:
        file.writelines(lines)
        file.writelines(lines[: KEYS // 20])
        file.write("the last")
    for name, text in (("more [2]", "line of another file\n"), ("empty", "")):
        with open(f"{place}/{name}", "w", encoding="ascii") as file:
            file.write(text)
    return [f"{place}/{name}" for name in ("keys", "more [2]", "empty")]


def of_distinct(program, *arguments, **more):
    """What `distinct sketch --hex` writes."""
    return subprocess.run([program, "sketch", "--hex", *arguments], capture_output=True, check=True, **more).stdout.decode()


def expect_text(what, found, wanted):
    status, text, _ = found
    if status or text != wanted:
        fail(f"{what}: status {status} and {len(text)} bytes, which are not the {len(wanted)} of one run")


def expect_fault(what, found, wanted, text):
    status, image, messages = found
    if status != wanted or image or text not in messages or "Traceback" in messages:
        fail(f"{what}: status {status} and {len(image)} bytes, and not status {wanted} with the message '{text}'")


def compare(cluster, program):
    """Compares what merge.py writes with one run of distinct, and then what it does with faults."""

    def expect_image(what, found, *arguments):
        wanted = of_distinct(program, *arguments)
        expect_text(what, found, wanted)
        return len(wanted)

    files = write_files(cluster.place)
    cluster.start()
    address = cluster.address()
    cluster.set_mode("plain")
    size = expect_image("a run", cluster.merge(address, "--lg-k", "20", *files), "--lg-k", "20", *files)
    if size < 16 * KEYS:
        fail("the sketch is not exact")
    calls = len(cluster.calls())
    cluster.set_mode("late")
    expect_image("a run that loses a worker", cluster.merge(address, *files, meanwhile=cluster.lose_worker), *files)
    if len(cluster.calls()) <= calls:
        fail("no task of the lost worker was run again")
    cluster.set_mode("failing")
    expect_fault("a distinct that fails", cluster.merge(address, *files), 1, "status 3: distinct: the third call fails")
    missing = f"{cluster.place}/missing"
    expect_fault("a missing file", cluster.merge(address, files[1], missing), 1, f"merge.py: {missing}: ")
    expect_fault("no file", cluster.merge(address), 2, "FILE")
    return calls


def write_table(place, program):
    """Writes a table of users by days; returns what TABLE prints of it."""
    rows = [(f"day {at % 7}", f"user {at * 7919 % (USERS // 2)}") for at in range(USERS)]
    with open(f"{place}/table", "w", encoding="ascii") as file:
        file.write("day,user\n")
        file.writelines(f"{day},{user}\n" for day, user in rows)
    lines = {}
    for day, user in rows:
        lines.setdefault(day, []).append(f"{user}\n")
    wanted = "".join(f"{day} {of_distinct(program, '--lg-k', '11', input=''.join(lines[day]).encode())}" for day in sorted(lines))
    return f"{wanted}all {of_distinct(program, input=''.join(it for day in lines.values() for it in day).encode())}"


def compare_package(cluster, program):
    """Compares what sketch.py and TABLE print with runs of distinct, and then what sketch.py does with faults."""

    def sketch(*arguments):
        return cluster.run(f"{TOP}/examples/dask/sketch.py", *arguments)

    files, wanted = write_files(cluster.place), write_table(cluster.place, program)
    cluster.write("table.py", TABLE)
    cluster.start()
    address, place = cluster.address(), cluster.place
    expect_text("sketch.py", sketch(address, "--lg-k", "20", *files), of_distinct(program, "--lg-k", "20", *files))
    expect_text("sketch.py of no line", sketch(address, files[2]), of_distinct(program, files[2]))
    expect_fault("sketch.py of a missing file", sketch(address, f"{place}/missing"), 1, f"sketch.py: {place}/missing: ")
    expect_fault("sketch.py of no file", sketch(address), 2, "FILE")
    cluster.write("calls", "")
    expect_text("a table", cluster.run(f"{place}/table.py", address, place), wanted)
    calls = len(cluster.calls())
    cluster.write("calls", "")
    found = cluster.run(f"{place}/table.py", address, place, meanwhile=cluster.lose_worker)
    expect_text("a table of which a worker is lost", found, wanted)
    if len(cluster.calls()) <= calls:
        fail("no part that the lost worker had read was read again")


def compiled_package(place):
    """The Python with the package, compiled into a folder; or None, if it can't be and that may be skipped."""
    library = os.path.abspath(os.environ.get("KAFTANCLAY_LIB") or f"{TOP}/crates/c_library/out")
    reason = None if os.path.isfile(f"{library}/libc_library.a") else f"{library}/libc_library.a is not there: run make -C bindings/c proved"
    if reason is None:
        words = [f"{TOP}/bindings/python/install_in", place]
        run = subprocess.run(words, env={**os.environ, "PYTHON": PYTHON}, stderr=subprocess.PIPE, text=True, check=False)
        python = f"{place}/venv/bin/python"
        reason = run.stderr.strip()[-500:] if run.returncode else None
        if reason is None and subprocess.run([python, "-c", "import kaftanclay.dask"], check=False).returncode == 0:
            return python
        reason = reason or f"{PYTHON} lacks pandas or a part of Dask: run checks/install_packages.py python dask"
    if os.environ.get("DISTINCT_SKIP_DASK") != "1":
        fail(reason)
    print(f"dask_cluster: skipped: the Python package: {reason}")
    return None


def on_cluster(cluster, call, *arguments):
    """Calls with a cluster, and ends that."""
    signal.alarm(LIMIT)
    try:
        return call(cluster, *arguments)
    except SystemExit:
        sys.stderr.write(cluster.log()[-4000:])
        raise
    finally:
        signal.alarm(0)
        cluster.end()


def main():
    if not has_packages():
        reason = install()
        if reason and os.environ.get("DISTINCT_SKIP_DASK") == "1":
            print(f"dask_cluster: skipped: {reason}")
            return
        if reason:
            fail(reason)
    for number in (signal.SIGINT, signal.SIGTERM, signal.SIGHUP):
        signal.signal(number, lambda number, _: fail(f"ended by signal {number}"))
    program = os.path.abspath(os.environ.get("DISTINCT_PROGRAM") or built_program())
    if not os.path.isfile(program) or not os.access(program, os.X_OK):
        fail(f"{program}: not a program")
    signal.signal(signal.SIGALRM, lambda *_: fail(f"not done within {LIMIT} s"))
    with tempfile.TemporaryDirectory() as place:
        calls = on_cluster(Cluster(place, program), compare, program)
    with tempfile.TemporaryDirectory() as place, tempfile.TemporaryDirectory() as package:
        python = compiled_package(package)
        if python is not None:
            on_cluster(Cluster(place, program, python, 3), compare_package, program)
            print("dask_cluster: the Python package on three workers makes the bytes of one run, also if a worker is lost")
    print(f"dask_cluster: {calls} calls of distinct on two workers write the bytes of one run, also if a worker is lost")


main()
