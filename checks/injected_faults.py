#!/usr/bin/env python3
"""Runs the built programs sketchtool and distinct while memory is refused, and reads, writes and calls on files fail.

    checks/injected_faults.py           for the programs that rt ci builds, or rt run in their folders
    checks/injected_faults.py PART..    these parts alone: memory, images, sketchtool, distinct, files, long, peak

SKETCHTOOL_PROGRAM and DISTINCT_PROGRAM may name other builds. checks/injected_faults.c, which the compiler cc compiles here, is
loaded before a program; it refuses, fails, shortens or interrupts what its settings name, and counts what was called. The
programs themselves are as they are. It prints how many requests were refused and how many reads and writes failed.
"""
import collections
import concurrent.futures
import errno
import glob
import itertools
import os
import shutil
import struct
import subprocess
import sys
import tempfile
import threading

sys.dont_write_bytecode = True
import distinct_cases
from built_programs import PROGRAMS, ROOT, check, failed, require_programs

CASES = distinct_cases.read()
# The most reads that sketchtool makes, and the fewest bytes that each requests.
READS = 1 << 24
READ_BYTES = 4096
MAX_THETA = 2**63 - 1

# The kinds of calls that fail.
KINDS = ("read", "write", "open", "rename", "mkdir", "fchmod")
# How long a run may take.
SECONDS = 600
totals = collections.Counter()
lock = threading.Lock()
Outcome = collections.namedtuple("Outcome", "status out err log trace")


class Faults:
    """The compiled library, and a folder for what the runs need."""

    def __init__(self, place):
        self.place = place
        self.library = os.path.join(place, "faults.so")
        source = os.path.join(ROOT, "checks", "injected_faults.c")
        if not shutil.which("cc") and subprocess.run([os.path.join(ROOT, "checks", "install_packages.py"), "c"]).returncode != 0:
            sys.exit("injected_faults: there is no compiler cc: install gcc and libc6-dev, or call checks/install_packages.py c as root")
        subprocess.run(["cc", "-O1", "-Wall", "-Wextra", "-shared", "-fPIC", "-o", self.library, source], check=True)
        self.numbers = itertools.count()

    def name(self, suffix=""):
        """The name of a file or folder that isn't there yet."""
        return os.path.join(self.place, f"{next(self.numbers)}{suffix}")

    def file(self, data):
        """The name of a new file of these bytes."""
        name = self.name()
        with open(name, "wb") as file:
            file.write(data)
        return name

    def run(self, program, *arguments, data=b"", folder=None, **faults):
        """A run of a program on this input, in this folder, with faults: `refuse=3` is FAULTS_REFUSE=3."""
        log = self.name(".log")
        settings = {f"FAULTS_{name.upper()}": str(number) for name, number in faults.items()}
        loaded = {**os.environ, **settings, "LD_PRELOAD": self.library, "FAULTS_LOG": log}
        how = {"stdout": subprocess.PIPE, "stderr": subprocess.PIPE, "cwd": folder or self.place, "env": loaded, "timeout": SECONDS}
        command = [PROGRAMS[program], *arguments]
        told = f"{program} {' '.join(arguments)} with {faults}"
        try:
            if len(data) <= 4096:
                done = subprocess.run(command, input=data, **how)
            else:
                # A read of a pipe may return fewer bytes than there will be.
                with open(self.file(data), "rb") as file:
                    done = subprocess.run(command, stdin=file, **how)
                os.remove(file.name)
        except subprocess.TimeoutExpired:
            sys.exit(f"injected_faults: {told} didn't end within {SECONDS} seconds")
        if not os.path.exists(log):
            sys.exit(f"injected_faults: {told} ended with status {done.returncode} and counted nothing: a signal ended it, or checks/injected_faults.c wasn't loaded")
        with open(log, encoding="ascii") as file:
            words, trace = file.read().split("\n")
        os.remove(log)
        words = words.split()
        counts = {name: int(number) for name, number in zip(words[::2], words[1::2])}
        check(f"{program} {' '.join(arguments)}: calls that move bytes past checks/injected_faults.c", counts["others"], 0)
        kinds = [kind for kind in KINDS if kind in faults]
        with lock:
            totals.update({"runs": 1, "refused": counts["refused"], **{kind: counts["failed"] for kind in kinds}})
        pairs = [tuple(map(int, pair.split("/"))) for pair in trace.split()]
        return Outcome(done.returncode, done.stdout, done.stderr, counts, pairs)


def answer_of(outcome):
    """The status and the output of a run."""
    return outcome.status, outcome.out


def some_of(count):
    """Numbers from 1 to a count: all, or 24 of them if there are more, the first and the last among them."""
    return range(1, count + 1) if count <= 24 else [1 + (count - 1) * step // 23 for step in range(24)]


def side_by_side(function, jobs):
    """Calls a function for each job, several at a time."""
    with concurrent.futures.ThreadPoolExecutor(os.cpu_count()) as pool:
        list(pool.map(lambda job: function(*job), jobs))


# Memory


def refuse_in_turn(faults, name, program, arguments, data, folder):
    """With each request for memory refused, alone and with all after it, a run reports that memory was refused and writes
    nothing else, or answers as with memory at hand. Of more than 300 requests only some are refused."""
    whole = faults.run(program, *arguments, data=data, folder=folder)
    requests = whole.log["requests"]
    chosen = range(1, requests + 1) if requests <= 300 else some_of(requests)
    for request, onward in itertools.product(chosen, (0, 1)):
        found = faults.run(program, *arguments, data=data, folder=folder, refuse=request, onward=onward)
        if answer_of(found) == answer_of(whole) and found.err == whole.err:
            continue
        what = f"{program}, {name}, request {request} of {requests} refused{' and all after it' if onward else ''}"
        if program == "sketchtool":
            check(what, (*answer_of(found), found.err), (1, b"error memory\n", b""))
        else:
            # A name may stand before the message, and advice behind it.
            said = found.err.rpartition(b": ")[2].rstrip(b"\n").partition(b";")[0]
            check(what, (*answer_of(found), said), (1, b"", b"out of memory"))
    after = faults.run(program, *arguments, data=data, folder=folder, refuse=requests + 1, onward=1)
    check(f"{program}, {name}, no request refused", answer_of(after), answer_of(whole))
    with lock:
        totals.update(texts=1)


def plans():
    """Plan texts: those with an answer beside them in examples/ and tests/plans/, and some of each command."""
    answers = [*glob.glob(os.path.join(ROOT, "examples", "*.answer")), *glob.glob(os.path.join(ROOT, "tests", "plans", "*.answer"))]
    for path in sorted(answers, key=os.path.basename):
        with open(path.removesuffix(".answer") + ".txt", "rb") as file:
            yield os.path.basename(path).removesuffix(".answer") + ".txt", file.read()
    grown = [n * 2654435761 % 1000003 for n in range(1, 90)]
    for family, value in (("theta", ""), ("tuple", " 3")):
        leaf = f"leaf 5 max {len(grown)}\n" + "".join(f"add {hash}{value}\n" for hash in grown)
        few = f"leaf 5 max 3\nadd 7{value}\nadd 9{value}\ntrim\n"
        for form in ("show", "image"):
            for shape in ("{0}", "union 5 max 4\n{0}lower 4\n{1}lower 4\n", "meet 2\n{0}{1}", "minus\n{0}{1}", "minus\nvia unordered\nunion 5 max 1\n{0}via ordered\n{1}"):
                yield f"{family} {form} {shape!r}", f"{family} {form}\n{shape.format(leaf, few)}".encode()
    for text in ("", "theta show\nleaf 5 max 1\nadd x\n", 65 * "meet 1\n", "theta show\n" + 65 * "meet 1\n", "theta show\nleaf 3 max 0\n"):
        yield f"the fault of {text[:30]!r}", text.encode()


def case(name):
    """The arguments and the standard input of a case of tests/distinct."""
    return CASES[name].arguments, CASES[name].input


def answered_cases():
    """The names of the cases of tests/distinct that end with status 0 and name no file to be written."""
    for name, it in CASES.items():
        if it.status == 0 and not any(word.startswith("@") or "=@" in word for word in it.arguments):
            yield name


def data_folder(faults):
    """A copy of the files of tests/distinct, with those of odd names."""
    folder = faults.name("data")
    shutil.copytree(os.path.join(distinct_cases.FOLDER, "data"), folder)
    with open(os.path.join(folder, "odd.list"), "rb") as file:
        for name in file.read().split(b"\0")[:-1]:
            shutil.copy(os.path.join(folder, "keys.theta"), os.path.join(os.fsencode(folder), name))
    return folder


def check_memory(faults):
    """Each request for memory is refused in turn."""
    jobs = [(faults, name, "sketchtool", (), text, None) for name, text in plans()]
    folder = data_folder(faults)
    for name in answered_cases():
        arguments, data = case(name)
        jobs.append((faults, name, "distinct", arguments, data, folder))
    side_by_side(refuse_in_turn, jobs)


# Images of an evaluation


def usable(size):
    """The bytes that a block of so many takes, as the C library counts them."""
    return max(24, (size + 8 + 15) // 16 * 16 - 8)


HASHES = (701, 9, 3, 43, 404, 50, 61, 72, 87, 908, 1009)


def images_in(trace, width):
    """How many images of sketches of HASHES a run wrote and read back, and for how many of them it compared the hashes.
    The requests are: room for the image, at most 24 bytes and an entry's width for each; then, when the sketch that was written
    is dropped, room for the entries that are read; then, if they needn't ascend, room for their hashes."""
    image, entries, hashes = 24 + width * len(HASHES), width * len(HASHES), 8 * len(HASHES)
    written = compared = 0
    for (size, used), (next_size, next_used), (last_size, last_used) in zip(trace, trace[1:], trace[2:]):
        if size == image and (next_size, next_used) == (entries, used + usable(image) - usable(entries)):
            written += 1
            compared += (last_size, last_used) == (hashes, next_used + usable(entries))
    return written, compared


def check_images(faults):
    """An evaluation writes and reads an image for each `via`: at the root, below each operator, and below another `via`. The
    number of its requests for memory shows it: one more for the node of the plan, for the image, and for the entries that are
    read; one for the compact form of a leaf, if an operator would have taken the leaf as it is; and one for the hashes of an
    unordered image. Where an intersection or a difference requests less for an ordered part, only the images are counted."""
    for family, value, width in (("theta", "", 8), ("tuple", " 5", 16)):
        leaf = f"leaf 5 max {len(HASHES)}\n" + "".join(f"add {hash}{value}\n" for hash in HASHES)
        other = f"leaf 5 max 2\nadd 1{value}\nadd 43{value}\n"
        shapes = {
            "the root": "{0}",
            "the first part of a union": "union 5 max 2\n{0}{1}",
            "the second part of a union": "union 5 max 2\n{1}{0}",
            "the first part of an intersection": "meet 2\n{0}{1}",
            "the second part of an intersection": "meet 2\n{1}{0}",
            "the first part of a difference": "minus\n{0}{1}",
            "the second part of a difference": "minus\n{1}{0}",
            "a part two levels down": "union 5 max 2\nmeet 2\n{1}minus\n{0}{1}{1}",
        }
        for (place, shape), is_leaf, marks in itertools.product(shapes.items(), (True, False), itertools.product(("ordered", "unordered"), repeat=2)):
            part = leaf if is_leaf else "union 5 max 1\n" + leaf
            text = f"{family} show\n{shape.format('{}' + part, other)}"
            once, twice = f"via {marks[0]}\n", f"via {marks[0]}\nvia {marks[1]}\n"
            runs = [faults.run("sketchtool", data=text.format(via).encode()) for via in ("", once, twice)]
            name = f"{family}, via {', via '.join(marks)} of {'a leaf' if is_leaf else 'a union'} at {place}"
            # An image is written ordered at the root, and of a sketch that is ordered.
            first, both = (place != "the root" and set(some) == {"unordered"} for some in (marks[:1], marks))
            check(f"{name}: images", [images_in(run.trace, width)[0] for run in runs], [0, 1, 2])
            check(f"{name}: answers", len({run.out for run in runs}), 1)
            if "union" in place or place == "the root" or first:
                compact = is_leaf and place != "the root"
                check(f"{name}: requests of one via", runs[1].log["requests"] - runs[0].log["requests"], 3 + compact + first)
            check(f"{name}: images whose hashes are compared", [images_in(run.trace, width)[1] for run in runs], [0, first, 2 * both])


# Reads and writes

# Errors of a read or a write that are no interruption.
ERRORS = (errno.EIO, errno.EPIPE, errno.EAGAIN)


def check_sketchtool(faults):
    """Reads and writes of sketchtool that fail, move few bytes or are interrupted, and an input without an end."""
    text = b"theta show\nleaf 12 max 2000\n" + b"".join(b"add %d\n" % (n * n) for n in range(1, 2001))
    whole = faults.run("sketchtool", data=text)
    check("sketchtool, a plan of many reads", (whole.status, whole.log["reads"] > 5, whole.log["least"] >= READ_BYTES), (0, True, True))
    for error, read in itertools.product(ERRORS, range(1, whole.log["reads"] + 1)):
        found = faults.run("sketchtool", data=text, read=read, error=error)
        name = f"sketchtool, read {read} fails with {errno.errorcode[error]}"
        check(name, (*answer_of(found), found.log["writes"], found.log["after"]), (2, b"", 0, 0))
    for piece, interrupt in itertools.product((1, 7, 4095, 4096), (0, 2, 3)):
        found = faults.run("sketchtool", data=text, piece=piece, interrupt=interrupt)
        check(f"sketchtool, {piece} bytes at a time, interruption {interrupt}", answer_of(found), answer_of(whole))
    writes = faults.run("sketchtool", data=text, piece=1000).log["writes"]
    check("sketchtool, an answer in pieces", writes > 5, True)
    for error, write in itertools.product((errno.EIO, errno.EPIPE, errno.ENOSPC), range(1, writes + 1)):
        found = faults.run("sketchtool", data=text, piece=1000, write=write, error=error)
        wanted = (2, whole.out[: 1000 * (write - 1)], write)
        check(f"sketchtool, write {write} fails with {errno.errorcode[error]}", (*answer_of(found), found.log["writes"]), wanted)


def endless(faults, name, settings):
    """An input that doesn't end is given up after 2^24 reads."""
    found = faults.run("sketchtool", **settings)
    counts = found.log["reads"], found.log["least"] >= READ_BYTES
    check(f"sketchtool, {name}", (*answer_of(found), *counts), (2, b"", READS, True))


def long_plan(size):
    """A plan of so many bytes, which adds one hash many times in lines of 6 to 25 bytes."""
    head = b"theta show\nleaf 5 max %020d\n"
    left = size - len(head % 0)
    lengths = [25] * (left // 25 - 1)
    left -= 25 * len(lengths)
    lengths += [left // 2, left - left // 2]
    return head % len(lengths) + b"".join(b"add " + (length - 6) * b"0" + b"7\n" for length in lengths)


def read_to_end(faults, size, piece, wanted):
    """A plan of so many bytes, so many at each read."""
    text = long_plan(size)
    check("injected_faults: the length of a plan", len(text), size)
    found = faults.run("sketchtool", data=text, piece=piece)
    check(f"sketchtool, a plan of {size} bytes, {piece} at a time", (*answer_of(found), found.log["reads"]), wanted)
def check_long_inputs(faults):
    """The limit on the number of reads, and inputs above 16 MiB that arrive in pieces."""
    one = (0, b"empty no\ntheta 9223372036854775807\ncount 1\n7\n")
    large = (1 << 24) + 100_000
    plans = [
        (read_to_end, faults, READS - 1, 1, (*one, READS)),
        (read_to_end, faults, READS, 1, (2, b"", READS)),
        (read_to_end, faults, large, 7, (*one, -(-large // 7) + 1)),
        (endless, faults, "an input without an end, a byte at each read", {"endless": 1, "piece": 1}),
        (endless, faults, "an input of which each read is interrupted", {"interrupt": 1}),
    ]
    lines = b"".join(b"%07d\n" % (n % 1000) for n in range(1, 2_200_001))
    hashes = (1 << 20) + 1
    image = faults.file(image_of([n << 30 for n in range(1, 2 * hashes)]))
    digits = image_of([n << 30 for n in range(1, hashes)]).hex().encode() + b"\n"
    total = sum(n % 1000 for n in range(1, 2_200_001))
    ranges = b"".join(b"%d to %d: 0\n" % (2**n + 1, 2 ** (n + 1)) for n in range(1, 11))
    ranges = b"1: 0\n2: 0\n" + ranges + b"2049 to 4096: 1000\n"
    inputs = [
        (("count", "--lg-k", "10"), lines, b"1000\n"),
        (("sum", "--value", "1", "--lg-k", "10"), lines, b"%d\n" % total),
        (("visits", "--lg-k", "10"), lines, ranges),
        (("union", "--lg-k", "26", "--hex", "-"), digits, digits),
        (("eval", "--keys", "--lg-k", "10", '"-"'), lines, b'"-": 1000 exact, retained 1000, theta 9223372036854775807\n'),
    ]
    jobs = [(large_input, faults, arguments, data, piece, out) for arguments, data, out in inputs for piece in (7, 4096, 1 << 22)]
    name = f"{image}: {2 * hashes - 1} exact, retained {2 * hashes - 1}, theta {MAX_THETA}\n".encode()
    jobs += [(large_input, faults, ("show", image), b"", piece, name) for piece in (7, 4096, 1 << 22)]
    side_by_side(lambda function, *rest: function(*rest), plans + jobs)


def large_input(faults, arguments, data, piece, out):
    """An input of distinct above 16 MiB, so many bytes at each read."""
    found = faults.run("distinct", *arguments, data=data, piece=piece)
    check(f"distinct {arguments[0]} of more than 16 MiB, {piece} bytes at a time", answer_of(found), (0, out))


# Commands of distinct whose reads fail: cases of tests/distinct, of each command and each kind of input.
READING = (
    "count_of_standard_input",
    "count_of_files",
    "count_of_listed_files",
    "count_of_files_listed_by_standard_input",
    "count_of_records",
    "count_of_named_fields_of_records",
    "count_of_lines_that_end_in_cr_lf",
    "count_per_file",
    "count_by_a_field",
    "count_by_a_field_the_greatest_first",
    "sketch_in_hexadecimal",
    "sketch_of_listed_files",
    "sketch_of_sums_of_two_files",
    "sketch_of_visits",
    "sketch_by_a_field",
    "sketch_under_the_seed_of_a_file",
    "sketch_under_the_seed_of_standard_input",
    "visits_estimated",
    "visits_of_images",
    "visits_of_images_in_hexadecimal",
    "sum_of_a_field",
    "sum_of_listed_files",
    "sum_by_a_field_the_greatest_first",
    "sum_without_invalid_lines_in_silence",
    "union_of_images",
    "union_of_lines",
    "union_of_sums",
    "union_by_groups",
    "union_of_listed_images",
    "meet_of_three_images",
    "meet_of_lines",
    "meet_by_groups",
    "minus_of_images",
    "minus_of_lines",
    "minus_by_groups",
    "similarity_of_estimates",
    "similarity_of_hexadecimal_lines",
    "matrix_of_estimates",
    "matrix_of_hexadecimal_lines",
    "show_of_images",
    "show_of_lines",
    "show_by_groups",
    "show_of_listed_images",
    "eval_of_images",
    "eval_of_lines",
    "eval_of_sums",
    "eval_of_hexadecimal",
    "eval_by_groups",
    "eval_of_standard_input",
)


def without_a_file(shown):
    """What `show` may print if one of its files can't be read: the lines of the others, and the first ones of that file, or all
    of them if its end can't be read; or nothing, if the file is the list of names."""
    lines = shown.splitlines(True)
    names = [line.partition(b": ")[0] for line in lines]
    answers = {b""}
    for file in names:
        for kept in range(names.count(file) + 1):
            own = [at for at, name in enumerate(names) if name == file][kept:]
            answers.add(b"".join(line for at, line in enumerate(lines) if at not in own))
    return answers


def fail_reads(faults, name, folder):
    """Reads and writes of a command that fail, move few bytes or are interrupted. After a failed one nothing is read, and
    nothing is written but what was written before it; `show` passes over a file that can't be read."""
    arguments, data = case(name)
    whole = faults.run("distinct", *arguments, data=data, folder=folder)
    check(f"distinct, {name}", whole.status, 0)
    for piece, interrupt in ((1, 0), (7, 0), (7, 2), (0, 2), (100, 3)):
        found = faults.run("distinct", *arguments, data=data, folder=folder, piece=piece, interrupt=interrupt)
        check(f"distinct, {name}, {piece} bytes at a time, interruption {interrupt}", answer_of(found), answer_of(whole))
    pieces = faults.run("distinct", *arguments, data=data, folder=folder, piece=40).log
    for error, read in itertools.product(ERRORS, some_of(pieces["reads"])):
        found = faults.run("distinct", *arguments, data=data, folder=folder, piece=40, read=read, error=error)
        what = f"distinct, {name}, read {read} fails with {errno.errorcode[error]}"
        if arguments[0] == "show":
            check(what, (found.status, found.out in without_a_file(whole.out)), (1, True))
        else:
            check(what, (*answer_of(found), found.log["writes"], found.log["after"]), (1, b"", 0, 0))
        check(f"{what}, its message", said_of(found.err), os.strerror(error))
    for number in range(1, pieces["opens"] + 1):
        found = faults.run("distinct", *arguments, data=data, folder=folder, open=number)
        printed = found.out if arguments[0] == "show" and found.out in without_a_file(whole.out) else b""
        check(f"distinct, {name}, file {number} can't be opened", (answer_of(found), said_of(found.err)), ((1, printed), os.strerror(errno.EIO)))
    for error, write in itertools.product((errno.EIO, errno.ENOSPC), some_of(pieces["writes"])):
        found = faults.run("distinct", *arguments, data=data, folder=folder, piece=40, write=write, error=error)
        what = f"distinct, {name}, write {write} fails with {errno.errorcode[error]}"
        check(what, (*answer_of(found), found.log["writes"]), (1, whole.out[: 40 * (write - 1)], write))
        check(f"{what}, its message", said_of(found.err), os.strerror(error))


def said_of(message):
    """What the last line of a message says of a file."""
    lines = message.decode().splitlines()
    return lines[-1].partition(": ")[2].rpartition(": ")[2] if lines else ""


def check_distinct(faults):
    """Reads and writes of each command fail."""
    folder = data_folder(faults)
    side_by_side(fail_reads, [(faults, name, folder) for name in READING])


# Files that are written


def files_in(folder):
    """All files below a folder, with their bytes and permissions."""
    found = {}
    for place, _, names in os.walk(folder):
        for name in names:
            path = os.path.join(place, name)
            with open(path, "rb") as file:
                found[os.path.relpath(path, folder)] = (file.read(), os.stat(path).st_mode & 0o777)
    return found


def happened(name, fault, found):
    """Checks that a fault of a read, a write or a call on files happened, once."""
    if fault.keys() & set(KINDS):
        check(f"{name} with {fault}: faults that happened", found.log["failed"], 1)


def fail_output(faults, command, old, fault, whole=None):
    """A command with --output that fails leaves the files of its folder as they were, and no other file. If only memory was
    refused it may also have written its whole answer."""
    folder, data = faults.name("out"), os.path.join(distinct_cases.FOLDER, "data")
    os.mkdir(folder)
    if old:
        with open(os.path.join(folder, "answer"), "wb") as file:
            file.write(b"old")
        os.chmod(file.name, 0o640)
    before = files_in(folder)
    words = [word.format(data=data) for word in command]
    found = faults.run("distinct", words[0], "--output", "answer", *words[1:], folder=folder, **fault)
    happened(f"distinct {command} --output", fault, found)
    left = files_in(folder)
    shutil.rmtree(folder)
    if not whole or (found.log["failed"] == 0 and found.status == 0):
        whole = whole or left
        wanted = (0, b"", whole)
    else:
        wanted = (1, b"", before)
        check(f"distinct {command} --output with {fault}: its message", found.err.splitlines()[-1][:10], b"distinct: ")
    check(f"distinct {command} --output with {fault}{' over a file' if old else ''}", (*answer_of(found), left), wanted)
    return found.log, whole


def fail_outputs(faults, command):
    """The same with each fault in turn."""
    for old in (False, True):
        most, whole = fail_output(faults, command, old, {})
        check(f"distinct {command} --output: its files", sorted(whole), ["answer"])
        log, _ = fail_output(faults, command, old, {"piece": 10}, whole)
        chosen = [{"refuse": number} for number in range(1, most["requests"] + 1)]
        chosen += [{"piece": 10, "write": number, "error": errno.ENOSPC} for number in some_of(log["writes"])]
        counts = {"read": most["reads"], "write": most["writes"], "open": most["opens"], "rename": 1, "fchmod": int(old)}
        chosen += [{kind: number} for kind, count in counts.items() for number in range(1, count + 1)]
        for fault in chosen:
            fail_output(faults, command, old, fault, whole)


def fail_folder(faults, options, fault, whole=None):
    """A command with --output-dir that fails leaves whole files of some of the groups, the first ones, and no other file. If
    only memory was refused it may also have written all of them."""
    folder = faults.name("out")
    os.mkdir(folder)
    text = b"".join(b"%s\t%d\n" % (name, n) for n in range(5) for name in (b"a", b"b", b"c"))
    words = ["sketch", "--by", "1", "--field", "2", *options, "--output-dir", "parts/all"]
    found = faults.run("distinct", *words, data=text, folder=folder, **fault)
    happened(f"distinct {' '.join(words)}", fault, found)
    left = sorted((path, whole) for path, (whole, _) in files_in(folder).items())
    shutil.rmtree(folder)
    name = f"distinct {' '.join(words)} with {fault}"
    if not whole or (found.log["failed"] == 0 and found.status == 0):
        whole = whole or left
        check(name, (*answer_of(found), left), (0, b"", whole))
    else:
        check(name, (*answer_of(found), left), (1, b"", whole[: len(left)]))
        check(f"{name}: its message", found.err.splitlines()[-1][:10], b"distinct: ")
    return found.log, whole


def fail_folders(faults, options):
    """The same with each fault in turn."""
    most, whole = fail_folder(faults, options, {})
    image = faults.run("distinct", "sketch", *options, data=b"".join(b"%d\n" % n for n in range(5))).out
    check("distinct sketch --output-dir: its files", whole, [(f"parts/all/{name}.theta", image) for name in "abc"])
    log, _ = fail_folder(faults, options, {"piece": 10}, whole)
    chosen = [{"refuse": number} for number in range(1, most["requests"] + 1)]
    chosen += [{"piece": 10, "write": number, "error": errno.ENOSPC} for number in some_of(log["writes"])]
    counts = {kind: most[f"{kind}s"] for kind in ("read", "write", "open", "rename", "mkdir")}
    chosen += [{kind: number} for kind, count in counts.items() for number in range(1, count + 1)]
    for fault in chosen:
        fail_folder(faults, options, fault, whole)


def check_files(faults):
    """The files that --output and --output-dir name."""
    commands = [
        ("sketch", "{data}/many.txt"),
        ("sketch", "--value", "3", "--field", "2", "{data}/spent.txt"),
        ("union", "--hex", "{data}/both.hex"),
        ("union", "--sums", "{data}/spent.sums", "{data}/spent_late.sums"),
        ("union", "--hex", "--groups", "{data}/first.groups", "{data}/second.groups"),
        ("meet", "{data}/many.theta", "{data}/late.theta"),
        ("minus", "{data}/many.theta", "{data}/late.theta"),
        ("eval", "{data}/many.theta + {data}/late.theta"),
        ("eval", "--sums", "{data}/spent.sums - {data}/spent_late.sums"),
    ]
    side_by_side(fail_outputs, [(faults, command) for command in commands])
    side_by_side(fail_folders, [(faults, options) for options in ([], ["--hex"])])


# Memory that is in use


def check_peak(faults):
    """Sketches that wait for their union take little memory, however small they are: 50,000 images of one hash."""
    text = b"".join(struct.pack("<8BQ", 1, 3, 3, 0, 0, 0x1A, 0xCC, 0x93, n << 40).hex().encode() + b"\n" for n in range(1, 50_001))
    found = faults.run("distinct", "union", "--hex", "--lg-k", "4", "-", data=text)
    check("distinct union of 50,000 images of one hash", (found.status, len(found.out), found.log["peak"] < 1 << 18), (0, 2 * (24 + 8 * 16) + 1, True))


def image_of(hashes):
    """The image of an exact sketch of these ascending hashes, under the default seed."""
    return struct.pack("<8BQ", 2, 3, 3, 0, 0, 0x1A, 0xCC, 0x93, len(hashes)) + struct.pack(f"<{len(hashes)}Q", *hashes)


PARTS = {
    "memory": check_memory,
    "images": check_images,
    "sketchtool": check_sketchtool,
    "distinct": check_distinct,
    "files": check_files,
    "long": check_long_inputs,
    "peak": check_peak,
}


def main():
    if unknown := [word for word in sys.argv[1:] if word not in PARTS]:
        sys.exit(f"injected_faults: no part has the name {' '.join(unknown)}: {', '.join(PARTS)}")
    require_programs("injected_faults")
    with tempfile.TemporaryDirectory() as place:
        faults = Faults(place)
        for name in sys.argv[1:] or PARTS:
            PARTS[name](faults)
    if not sys.argv[1:]:
        for kind in ("refused", *KINDS):
            check(f"whether faults of the kind {kind} happened", totals[kind] > 0, True)
    for line in failed[:40]:
        print(f"injected_faults: {line}")
    if failed:
        sys.exit(f"injected_faults: {len(failed)} checks failed")
    print(f"injected_faults: sketchtool and distinct end as they should in {totals['runs']} runs")
    print(f"injected_faults: {totals['refused']} requests for memory were refused, those of {totals['texts']} plans and commands in turn")
    calls = sum(totals[kind] for kind in ("open", "rename", "mkdir", "fchmod"))
    print(f"injected_faults: {totals['read']} reads, {totals['write']} writes and {calls} other calls on files failed")


main()
