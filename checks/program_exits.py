#!/usr/bin/env python3
"""Runs the built programs sketchtool and distinct with inputs that arrive in pieces, can't be read, are long or are cut in
parts, with outputs that can't be written, on a terminal, with little memory, and with images whose hashes were chosen. rt ci
builds them, or rt run in their folders; DISTINCT_PROGRAM and SKETCHTOOL_PROGRAM name others.

checks/program_exits.py PART.. runs these parts alone: sketchtool, distinct, paths, order, waiting, long, large, terminal, output,
progress, words, chosen. Answers that aren't stated here are those of checks/model_distinct.py. The last part prints what inputs
cost that somebody has chosen, beside random ones, and fails if they cost more than is stated here.
"""
import os
import pty
import random
import resource
import select
import shutil
import signal
import struct
import subprocess
import sys
import tempfile
import time

sys.dont_write_bytecode = True
import model_distinct
import model_hash
from built_programs import PROGRAMS, check, failed, require_programs


def run(program, *arguments, data=b"", seconds=None, folder=None):
    """The status of a program, and what it wrote. With `seconds`, it has to end within these. It runs in a folder, if one is
    named."""
    done = subprocess.run([PROGRAMS[program], *arguments], input=data, capture_output=True, timeout=seconds, cwd=folder)
    return done.returncode, done.stdout


def run_in_pieces(program, *arguments, data, size):
    """The same, if its input arrives in pieces of this size, each after the last one was read if the system lets it."""
    with subprocess.Popen([PROGRAMS[program], *arguments], stdin=subprocess.PIPE, stdout=subprocess.PIPE) as child:
        for at in range(0, len(data), size):
            child.stdin.write(data[at : at + size])
            child.stdin.flush()
            os.sched_yield()
        child.stdin.close()
        out = child.stdout.read()
        return child.wait(), out


def with_memory(program, *arguments, data, size):
    """The same, with so many bytes of memory for all of its segments; None if that is too little to begin or for its stack."""
    command = ["prlimit", f"--as={size}", PROGRAMS[program], *arguments]
    done = subprocess.run(command, input=data, capture_output=True)
    return None if done.returncode < 0 or done.returncode > 2 else (done.returncode, done.stdout)


def status_unread(program, *arguments, path):
    """The status and the output of a program whose standard input is this file or folder."""
    descriptor = os.open(path, os.O_RDONLY)
    try:
        done = subprocess.run([PROGRAMS[program], *arguments], stdin=descriptor, capture_output=True)
    finally:
        os.close(descriptor)
    return done.returncode, done.stdout


def status_unwritten(program, *arguments, data):
    """The status of a program that can't write to its standard output."""
    with open("/dev/full", "wb") as full:
        return subprocess.run([PROGRAMS[program], *arguments], input=data, stdout=full, stderr=subprocess.PIPE).returncode


def check_sketchtool():
    """What it reads in pieces, a failed read and a failed write, and requests for memory that are refused."""
    long = b"theta show\nleaf 5 max 1000\n" + 999 * b"add 18446744073709551615\n" + b"add x"
    for size in (1, 7, 4095, 4096, 1 << 20):
        check(f"sketchtool in pieces of {size}", run_in_pieces("sketchtool", data=long, size=size), (1, b"error 1002 syntax\n"))
    check("sketchtool of a folder", status_unread("sketchtool", path="/"), (2, b""))
    check("sketchtool with a full device", status_unwritten("sketchtool", data=b""), 2)
    plan = b"theta image\nvia ordered\nunion 16 max 1\nleaf 16 max 60000\n" + b"".join(b"add %d\n" % n for n in range(1, 60001))
    check_memory("sketchtool", data=plan, answer=run("sketchtool", data=plan), refused=(1, b"error memory\n"))


def check_distinct(place):
    """The same of distinct, and images of parts that are united in either order."""
    texts = [b"line %d\n" % (n % 200) for n in range(300)]
    text = b"".join(texts) + b"the last"
    sketch = ("sketch", "--lg-k", "5")
    whole = run("distinct", *sketch, data=text)
    check("distinct, its status", whole[0], 0)
    check("distinct, its length", len(whole[1]), 24 + 8 * 32)
    for size in (1, 7, 1000):
        check(f"distinct in pieces of {size}", run_in_pieces("distinct", *sketch, data=text, size=size), whole)
    check("distinct of a file that fails", run("distinct", *sketch, "/proc/self/mem"), (1, b""))
    check("distinct with a full device", status_unwritten("distinct", *sketch, data=text), 1)
    for every in (1, 7, 100, 150, 299):
        parts = [b"".join(texts[at : at + every]) for at in range(0, len(texts), every)] + [b"the last"]
        names = []
        for number, part in enumerate(parts):
            names.append(os.path.join(place, str(number)))
            with open(names[-1], "wb") as file:
                file.write(run("distinct", *sketch, data=part)[1])
        for order in (names, names[::-1]):
            check(f"distinct, parts of {every} lines", run("distinct", "union", "--lg-k", "5", *order), whole)
    many = b"".join(b"%d\n" % n for n in range(60000))
    check_memory("distinct", "sketch", "--lg-k", "16", data=many, answer=run("distinct", "sketch", "--lg-k", "16", data=many), refused=(1, b""))


def image_of(hashes, ordered):
    """The image of an exact sketch of these hashes, under the default seed."""
    flags = 0x1A if ordered else 0x0A
    return struct.pack("<8BQ", 2, 3, 3, 0, 0, flags, 0xCC, 0x93, len(hashes)) + struct.pack(f"<{len(hashes)}Q", *hashes)


def check_shared_paths(place):
    """Unions of images whose hashes share paths in a table of 2^21 slots. Searched one after another, each would look at all
    of those before it, and a union would take minutes."""
    count = 300_000
    one_path = [(n << 40) | 0xABCDEF for n in range(1, count + 1)]
    # Four hashes for each slot on a path of the greatest stride.
    parts_of_one = [(n << 40) | 127 << 21 | (n // 4 * 255 & (1 << 21) - 1) for n in range(1, count + 1)]
    for name, hashes in (("one path", one_path), ("parts of a path", parts_of_one)):
        files = []
        for number, (part, ordered) in enumerate([(hashes[: count // 3 * 2], True), (hashes[: count // 3 : -1], False)]):
            files.append(os.path.join(place, f"shared{number}"))
            with open(files[-1], "wb") as file:
                file.write(image_of(part, ordered))
        for order in (files, files[::-1]):
            try:
                found = run("distinct", "union", "--lg-k", "20", *order, seconds=40)
                check(f"distinct, images of hashes on {name}", (found[0], found[1] == image_of(hashes, True)), (0, True))
            except subprocess.TimeoutExpired:
                check(f"distinct, images of hashes on {name}", "no answer in 40 seconds", "one in a second")


def check_chosen_order(place):
    """Twenty unions of images of 131,072 hashes, all but one of which have the same leading bits, and descend in the slots of a
    table. Sorted by exchanges of neighbors, without a limit on these, each would take some seconds."""
    count = 1 << 17
    # The slot of a hash is that of its low bits, and the next bits ascend while these descend. The last has all bits.
    hashes = [(n << 20) | (count - n) for n in range(1, count)] + [model_distinct.MAX_THETA - 1]
    name = os.path.join(place, "order")
    with open(name, "wb") as file:
        file.write(image_of(hashes, True))
    text = " + ".join(["order"] * 21)
    wanted = f"{text}: {count} exact, retained {count}, theta {model_distinct.MAX_THETA}\n".encode()
    try:
        found = run("distinct", "eval", "--lg-k", "18", text, seconds=30, folder=place)
        check("distinct, hashes that descend in a table", found, (0, wanted))
    except subprocess.TimeoutExpired:
        check("distinct, hashes that descend in a table", "no answer in 30 seconds", "one in a second")


def processor_time(arguments, folder):
    """The seconds of processor time that distinct takes, the least of three runs; it has to succeed."""
    least = float("inf")
    for _ in range(3):
        before = resource.getrusage(resource.RUSAGE_CHILDREN)
        check(f"distinct {' '.join(arguments)[:60]}, its status", run("distinct", *arguments, seconds=60, folder=folder)[0], 0)
        after = resource.getrusage(resource.RUSAGE_CHILDREN)
        least = min(least, after.ru_utime + after.ru_stime - before.ru_utime - before.ru_stime)
    return least


def on_one_path(count):
    """Hashes that share a path in every table, and descend, so that none of them is above the theta of those before it."""
    return [(n << 40) | 0xABCDEF for n in range(count, 0, -1)]


def at_random(count):
    chance = random.Random(1)
    return [chance.randrange(1, model_distinct.MAX_THETA) for _ in range(count)]


def keys_with(hashes, seed):
    """A key of 16 bytes for each hash, without a tab or a newline."""
    chance = random.Random(2)
    for wanted in hashes:
        key = b"\n"
        while {9, 10} & set(key):
            key = model_hash.bytes_with(wanted, seed, chance.getrandbits(64))
        yield key


def chosen_inputs(folder):
    """Kinds of inputs whose hashes, keys or names are chosen: a text, the arguments for the chosen input and for a random one of the
    same size, and at most how many times as long the chosen one takes, or None and at most how many seconds."""

    def file(name, data):
        with open(os.path.join(folder, name), "wb") as out:
            out.write(data)
        return name

    def both(name, make, count):
        """The files that are made of chosen and of random hashes."""
        made = [make(hashes) for hashes in (on_one_path(count), at_random(count))]
        return [[file(f"{name}.{kind}.{at}", data) for at, data in enumerate(files)] for kind, files in zip("cr", made)]

    def images(count, parts):
        """Unordered images that share out these hashes."""
        return lambda hashes: [image_of(hashes[at::parts], False) for at in range(parts)]

    kinds = []

    def add(text, words, files, times, seconds=None):
        kinds.append((text, [*words, *files[0]], [*words, *files[1]], times, seconds))

    def lines(hashes):
        return [b"".join(key + b"\n" for key in keys_with(hashes, model_distinct.DEFAULT_SEED))]

    def groups(hashes):
        """A line for each name, whose hash has the seed 0."""
        return b"".join(b"%b\t%d\n" % (name, number) for number, name in enumerate(keys_with(hashes, 0)))

    keys = both("keys", lines, 30_000)
    for lg_k, seconds in ((12, 0.5), (16, 3), (20, 3)):
        add(f"`count --lg-k {lg_k}` of 30,000 keys", ["count", "--lg-k", str(lg_k)], keys, None, seconds)
    two = both("two", images(200_000, 2), 200_000)
    for lg_k, seconds in ((12, 0.5), (20, 2)):
        add(f"`union --lg-k {lg_k}` of two images of 100,000 hashes", ["union", "--lg-k", str(lg_k)], two, None, seconds)
    many = both("many", images(100_000, 1000), 100_000)
    for lg_k, seconds in ((12, 1), (20, 2)):
        add(f"`union --lg-k {lg_k}` of 1000 images of 100 hashes", ["union", "--lg-k", str(lg_k)], many, None, seconds)
    half = both("half", lambda hashes: [image_of(hashes[: 2 * len(hashes) // 3], False), image_of(hashes[len(hashes) // 3 :], False)], 300_000)
    for command in ("meet", "minus"):
        add(f"`{command}` of two images of 200,000 hashes", [command], half, 5)
    names = [[file("names.c", groups([1] * 30_000))], [file("names.r", groups(at_random(30_000)))]]
    add("`count --by 1` of 30,000 names", ["count", "--by", "1", "--field", "2"], names, 5)
    return kinds


def check_chosen_inputs(place):
    """Inputs whose hashes, keys or names are chosen cost at most so many times the processor time of random ones, or so much."""
    folder = os.path.join(place, "chosen")
    os.mkdir(folder)
    for text, chosen, others, times, seconds in chosen_inputs(folder):
        found, usual = processor_time(chosen, folder), processor_time(others, folder)
        print(f"program_exits: {text}: {found:.3f} s if they are chosen, {usual:.3f} s if random, ratio {found / usual:.1f}")
        # A run takes a millisecond or two before it reads a line.
        allowed = seconds or times * max(usual, 0.005)
        check(f"distinct, {text}, chosen: {found:.3f} s, at most {allowed:.3f}", found <= allowed, True)


def check_waiting(place):
    """Unions of 60 images of 2^17 entries. At most two of them wait in memory at a time; all take 60 MiB, or 120 with sums."""
    count = 1 << 17
    hashes = range(1, count + 1)
    table = dict.fromkeys(hashes, 1), model_distinct.MAX_THETA
    answers = {"hashes": image_of(hashes, True), "sums": model_distinct.image_of((dict.fromkeys(hashes, 60), table[1]), 0x93CC, True)}
    images = {"hashes": answers["hashes"], "sums": model_distinct.image_of(table, 0x93CC, True)}
    for kind, size in (("hashes", 40_000_000), ("sums", 80_000_000)):
        name = os.path.join(place, kind)
        with open(name, "wb") as file:
            file.write(images[kind])
        words = ["union", "--lg-k", "17", *(["--sums"] if kind == "sums" else []), *[name] * 60]
        if not shutil.which("prlimit"):
            print("program_exits: images that wait: skipped, since there is no prlimit")
            return
        found = with_memory("distinct", *words, data=b"", size=size)
        check(f"distinct, 60 images of {kind} in {size} bytes", found and (found[0], found[1] == answers[kind]), (0, True))


def check_long_texts():
    """Texts of 1,000,001 lines, each of more than 16 MiB: of lines, of images, and of groups with their images."""
    count, keys = 1_000_001, 100
    rows = [b"%d\t%020d\n" % (n % keys, n) for n in range(count)]
    text, few = b"".join(rows), b"".join(b"%d\n" % n for n in range(keys))
    ranges = ["1: 0", "2: 0"] + [f"{2**n // 2 + 1} to {2**n}: 0" for n in range(2, 14)] + ["8193 to 16384: 100"]
    sums = {model_distinct.murmur(b"%d" % n, 9001) >> 1: sum(range(n, count, keys)) for n in range(keys)}
    sum_image = model_distinct.image_of((sums, model_distinct.MAX_THETA), model_distinct.seed_hash(9001), True)
    by_lines = lambda *words: model_distinct.run(list(words), {"-": few}, [])
    commands = [
        (["count"], b"100\n"),
        (["sketch"], by_lines("sketch", "-")),
        (["count", "--by", "1"], by_lines("count", "--by", "1", "-")),
        (["sketch", "--hex", "--by", "1"], by_lines("sketch", "--hex", "--by", "1", "-")),
        (["visits"], "\n".join([*ranges, ""]).encode()),
        (["sum", "--value", "2"], b"%d\n" % sum(range(count))),
        (["sketch", "--value", "2"], sum_image),
        (["eval", "--keys"], b'"-": 100 exact, retained 100, theta %d\n' % model_distinct.MAX_THETA),
    ]
    for words, wanted in commands:
        name = " ".join(words)
        words = words + ["--field", "1"] + (['"-"'] if words[0] == "eval" else [])
        check(f"distinct {name} of 1,000,001 lines", run("distinct", *words, data=text) == (0, wanted), True)
    images = [model_distinct.image_of(({n}, model_distinct.MAX_THETA), model_distinct.seed_hash(9001)).hex().encode() + b"\n" for n in range(1, 101)]
    all_images = model_distinct.image_of((set(range(1, 101)), model_distinct.MAX_THETA), model_distinct.seed_hash(9001)).hex().encode() + b"\n"
    data = b"".join(images[n % keys] for n in range(count))
    words = ["union", "--hex", "--expect", str(count), "-"]
    check("distinct union of 1,000,001 images", run("distinct", *words, data=data) == (0, all_images), True)
    groups = [b"%d\t" % n + images[n] for n in range(keys)]
    data = b"".join(groups[n % keys] for n in range(count))
    found = run("distinct", "union", "--hex", "--groups", "-", data=data)
    check("distinct union --groups of 1,000,001 images", found == (0, b"".join(sorted(groups))), True)


def check_large_inputs(place):
    """Single inputs of more than 16 MiB, in the pieces of a pipe: a plan, an image of each family, a seed, a list."""
    plan = b"theta show\nleaf 5 max 3000000\n" + 3_000_000 * b"add 7\n"
    answer = b"empty no\ntheta %d\ncount 1\n7\n" % model_distinct.MAX_THETA
    check("sketchtool of 18 MB", run("sketchtool", data=plan), (0, answer))
    image = image_of(range(1, 2_200_001), True)
    check("distinct of an image of 17 MB", run("distinct", "union", "--lg-k", "22", "-", data=image) == (0, image), True)
    image = model_distinct.image_of((dict.fromkeys(range(1, 1_100_001), 3), model_distinct.MAX_THETA), model_distinct.seed_hash(9001), True)
    found = run("distinct", "union", "--sums", "--lg-k", "21", "-", data=image)
    check("distinct of an image of sums of 17 MB", found == (0, image), True)
    keys = os.path.join(place, "keys")
    with open(keys, "wb") as file:
        file.write(b"ann\nbob\n")
    wanted = model_distinct.run(["sketch", "--hex", "--seed", "7", "k"], {"k": b"ann\nbob\n"}, [])
    found = run("distinct", "sketch", "--hex", "--seed-file", "-", keys, data=b" " * 17_000_000 + b"7\n")
    check("distinct with a seed behind 17 MB of blanks", found, (0, wanted))
    name = place.encode() + b"/" + b"./" * ((200 - len(place)) // 2) + b"keys\0"
    found = run("distinct", "count", "--files0-from", "-", data=name * (17_000_000 // len(name) + 1))
    check("distinct of a list of 17 MB", found, (0, b"2\n"))


def on_terminal(*arguments, typed=b""):
    """The status of distinct on a terminal, what it wrote to it, and its messages, which go to a pipe."""
    master, slave = pty.openpty()
    try:
        with subprocess.Popen([PROGRAMS["distinct"], *arguments], stdin=slave, stdout=slave, stderr=subprocess.PIPE) as child:
            os.write(master, typed)
            said = child.stderr.read()
            status = child.wait()
        shown = b""
        while select.select([master], [], [], 0)[0]:
            shown += os.read(master, 1 << 16)
        return status, shown.replace(b"\r\n", b"\n"), said
    finally:
        os.close(master)
        os.close(slave)


def with_messages_on_terminal(*arguments):
    """What distinct writes to a pipe, and its messages, which go to a terminal."""
    master, slave = pty.openpty()
    try:
        done = subprocess.run([PROGRAMS["distinct"], *arguments], stdin=subprocess.DEVNULL, stdout=subprocess.PIPE, stderr=slave, check=False)
        shown = b""
        while select.select([master], [], [], 0)[0]:
            shown += os.read(master, 1 << 16)
        return done.stdout, shown.replace(b"\r\n", b"\n")
    finally:
        os.close(master)
        os.close(slave)


def check_rough(place):
    """A count that is an estimate says so on a terminal, unless its bounds are printed anyway; to a pipe it is a number alone."""
    many = os.path.join(place, "many")
    with open(many, "wb") as file:
        file.write(b"".join(b"%d\n" % n for n in range(1000)))
    number, lower, upper = model_distinct.run(["count", "--bounds", "--lg-k", "5", many], model_distinct.OpenFiles(), []).split()
    rough = b"distinct: about %s lines, from %s to %s\n" % (number, lower, upper)
    check("distinct count, an estimate", with_messages_on_terminal("count", "--lg-k", "5", many), (number + b"\n", rough))
    check("distinct count, an estimate, to a pipe", on_terminal("count", "--lg-k", "5", many), (0, number + b"\n", b""))
    check("distinct count, exact", with_messages_on_terminal("count", many), (b"1000\n", b""))
    for option in ("--quiet", "--json", "--tsv", "--human", "--bounds"):
        check(f"distinct count {option}, an estimate", with_messages_on_terminal("count", "--lg-k", "5", option, many)[1], b"")


def check_terminal(place):
    """No image is written to a terminal; what is text is, and a command that waits for lines says so."""
    check_rough(place)
    names = {kind: os.path.join(place, kind) for kind in ("text", "theta", "sums")}
    contents = {"text": b"ann\t1\n", "theta": image_of([5], True), "sums": model_distinct.image_of(({5: 1}, model_distinct.MAX_THETA), 0x93CC, True)}
    for kind, data in contents.items():
        with open(names[kind], "wb") as file:
            file.write(data)
    text, theta, sums = names.values()
    said = b"distinct: standard output is a terminal, and an image is not text: pass --output FILE, or --hex\n"
    writing = (["sketch", text], ["sketch", "--visits", text], ["sketch", "--value", "2", text], ["union", theta], ["union", "--sums", sums])
    for words in (*writing, ["meet", theta, theta], ["minus", theta, theta]):
        check(f"distinct {words[0]} to a terminal", on_terminal(*words), (2, b"", said))
    hexadecimal = model_distinct.image_of(({5}, model_distinct.MAX_THETA), 0x93CC).hex().encode() + b"\n"
    name = os.path.join(place, "lines")
    with open(name, "wb") as file:
        file.write(hexadecimal)
    check("distinct union --hex to a terminal", on_terminal("union", "--hex", name), (0, hexadecimal, b""))
    output = os.path.join(place, "output")
    check("distinct union --output on a terminal", on_terminal("union", f"--output={output}", theta), (0, b"", b""))
    check("distinct count to a terminal", on_terminal("count", text), (0, b"1\n", b""))
    check("distinct similarity to a terminal", on_terminal("similarity", theta, theta), (0, b"1.000000\n", b""))
    waits = b"distinct: reading from the terminal; press Ctrl-D to finish\n"
    status, shown, found = on_terminal("count", typed=b"ann\nbob\n\4")
    check("distinct count of a terminal", (status, shown.endswith(b"2\n"), found), (0, True, waits))


def refuse_long_files():
    """Of each file only the first 100 bytes can be written; a longer write fails."""
    signal.signal(signal.SIGXFSZ, signal.SIG_IGN)
    resource.setrlimit(resource.RLIMIT_FSIZE, (100, 100))


def check_failed_output(place):
    """A file that can't be written whole: it stays as it was, and nothing is left beside it."""
    data = b"".join(b"%d\tone\n" % n for n in range(40))
    for words, target in ((["--output", "old"], "old"), (["--output", "new"], "new"), (["--by", "2", "--output-dir", "."], "./one.theta")):
        folder = os.path.join(place, f"output_{len(words)}_{target[0]}")
        os.mkdir(folder)
        with open(os.path.join(folder, "old"), "wb") as file:
            file.write(b"kept\n")
        command = [PROGRAMS["distinct"], "sketch", "--field", "1", *words]
        done = subprocess.run(command, input=data, capture_output=True, cwd=folder, preexec_fn=refuse_long_files)
        said = f"distinct: {target}: File too large\n".encode()
        check(f"distinct {words[0]} {target}, of which 100 bytes can be written", (done.returncode, done.stdout, done.stderr), (1, b"", said))
        check(f"distinct {words[0]} {target}, what is left", {it: open(os.path.join(folder, it), "rb").read() for it in os.listdir(folder)}, {"old": b"kept\n"})


def progress_of(*arguments):
    """What distinct says of two lines, the second of which arrives two seconds after the first."""
    with subprocess.Popen([PROGRAMS["distinct"], *arguments], stdin=subprocess.PIPE, stdout=subprocess.PIPE, stderr=subprocess.PIPE) as child:
        for line in (b"ann\n", b"bob\n"):
            child.stdin.write(line)
            child.stdin.flush()
            time.sleep(2)
        child.stdin.close()
        return child.stdout.read(), child.stderr.read()


def check_progress():
    """With --progress, what was read is reported about once a second; without it nothing is."""
    check("distinct count", progress_of("count"), (b"2\n", b""))
    check("distinct count --progress", progress_of("count", "--progress"), (b"2\n", b"distinct: 2 lines, 8 bytes, about 2 distinct\n"))
    by = progress_of("count", "--by", "1", "--progress")
    check("distinct count --by --progress", by, (b"ann\t1\nbob\t1\n", b"distinct: 2 lines, 8 bytes, 2 groups\n"))
    check("distinct visits --progress", progress_of("visits", "--progress"), (b"1: 2\n", b"distinct: 2 lines, 8 bytes\n"))


def check_words():
    """Arguments that aren't text."""
    said = rb"distinct: argument 2, a\xff\'b, is not UTF-8 text: rename the file, or read it from standard input (distinct .. < FILE)"
    done = subprocess.run([PROGRAMS["distinct"], b"count", b"a\xff'b", b"\xfe"], capture_output=True)
    check("distinct of an argument that is no text", (done.returncode, done.stdout, done.stderr), (2, b"", said + b"\n"))


def check_memory(program, *arguments, data, answer, refused):
    """With each of some amounts of memory, from 1 MiB to 100, it answers or reports that memory was refused. Both happen."""
    check(f"{program}, its status", answer[0], 0)
    if not shutil.which("prlimit"):
        print("program_exits: little memory: skipped, since there is no prlimit")
        return
    outcomes = set()
    for step in range(49):
        size = int((1 << 20) * 1.1**step)
        found = with_memory(program, *arguments, data=data, size=size)
        if found in (answer, refused):
            outcomes.add(found == answer)
        elif found:
            check(f"{program} with {size} bytes", (found[0], found[1][:40]), refused)
    check(f"{program}, whether it answered with some amounts of memory and reported others", sorted(outcomes), [False, True])


def main():
    require_programs("program_exits")
    with tempfile.TemporaryDirectory() as place:
        parts = {
            "sketchtool": check_sketchtool,
            "distinct": lambda: check_distinct(place),
            "paths": lambda: check_shared_paths(place),
            "order": lambda: check_chosen_order(place),
            "waiting": lambda: check_waiting(place),
            "long": check_long_texts,
            "large": lambda: check_large_inputs(place),
            "terminal": lambda: check_terminal(place),
            "output": lambda: check_failed_output(place),
            "progress": check_progress,
            "words": check_words,
            "chosen": lambda: check_chosen_inputs(place),
        }
        if unknown := [word for word in sys.argv[1:] if word not in parts]:
            sys.exit(f"program_exits: no part has the name {' '.join(unknown)}: {', '.join(parts)}")
        for part in sys.argv[1:] or parts:
            parts[part]()
    for line in failed:
        print(f"program_exits: {line}")
    if failed:
        sys.exit(1)
    print("program_exits: sketchtool and distinct end as they should")


main()
