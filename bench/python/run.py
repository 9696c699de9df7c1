#!/usr/bin/env python3
"""Times updates from Python, and sets of Python and loops in C (loops.c) beside them: nanoseconds of processor time for each key, line
or image, the least of five rounds in turns. Prints a table.

    bench/python/run.py [KEYS]    1,000,000 different keys by default

The rows in C are there if bindings/c has built its library.

Then it times the groups of a DataFrame, as many rows in 24 groups, beside `nunique` of pandas, if pandas is there.

If this Python has no kaftanclay, the package is compiled into a folder of its own (bindings/python/install_in says what that
needs), and its Python runs this again. Rows of numpy are there if numpy is. The columns of Arrow are those of the tests' own producer. Run by hand, on a quiet machine. It takes a minute.
"""
import functools
import os
import subprocess
import sys
import tempfile
import time
from array import array

HERE = os.path.dirname(os.path.abspath(__file__))
ROUNDS = 5
GROUPS = 24
SIZES = (12, 20)
IMAGES = 1000


def one_by_one(call, keys):
    for key in keys:
        call(key)


def one_by_one_with_value(call, keys):
    for key in keys:
        call(key, 1)


def estimates(sketch, keys):
    for _ in keys:
        sketch.estimate


def nothing(lg_k):
    return set()


def add_each_line(file, found):
    with open(file, "rb") as lines:
        for line in lines:
            found.add(line)


def images(keys):
    """Images of so many keys each, no two of which share one."""
    from kaftanclay import ThetaSketch

    made = []
    for at in range(IMAGES):
        sketch = ThetaSketch(12)
        sketch.update_many(array("Q", range(at * keys, (at + 1) * keys)))
        sketch.trim()
        made.append(sketch.to_bytes())
    return made


def fill_by_capsules(capsules, sketch):
    """Updates a sketch with a column whose capsules are there already."""
    class Column:
        def __arrow_c_array__(self):
            return capsules

    sketch.update_many(Column())


def cases(count, file):
    """The name of each case, what is made at its start, and what is timed."""
    from kaftanclay import ThetaSketch, TupleSums

    numbers = list(range(count))
    texts, coded = [f"user{number:08d}" for number in numbers], [b"user%08d" % number for number in numbers]
    ones, whole = [1] * count, array("Q", numbers)
    yield "`update` of a `str`", ThetaSketch, lambda it: one_by_one(it.update, texts)
    yield "`update` of `bytes`", ThetaSketch, lambda it: one_by_one(it.update, coded)
    yield "`update` of an `int`", ThetaSketch, lambda it: one_by_one(it.update, numbers)
    yield "`add` of a `str` to a `set`, in a loop", nothing, lambda it: one_by_one(it.add, texts)
    yield "`add` of an `int` to a `set`, in a loop", nothing, lambda it: one_by_one(it.add, numbers)
    yield "`update_many` of a list of `str`", ThetaSketch, lambda it: it.update_many(texts)
    yield "`update_many` of a list of `int`", ThetaSketch, lambda it: it.update_many(numbers)
    yield "`update` of a `set` by a list of `str`", nothing, lambda it: it.update(texts)
    yield "`update` of a `set` by a list of `int`", nothing, lambda it: it.update(numbers)
    yield "`update_many` of an array of numbers", ThetaSketch, lambda it: it.update_many(whole)
    yield "`update_lines` of a file of these keys, a line", ThetaSketch, lambda it: it.update_lines(file)
    yield "`add` of each line of the file to a `set`", nothing, functools.partial(add_each_line, file)
    yield "`TupleSums.update` of a `str` and a value", TupleSums, lambda it: one_by_one_with_value(it.update, texts)
    yield "`TupleSums.update_many` of lists of `str` and values", TupleSums, lambda it: it.update_many(texts, ones)
    yield "`TupleSums.update_many` of two arrays", TupleSums, lambda it: it.update_many(whole, whole)
    sys.path.insert(0, os.path.join(HERE, "..", "..", "bindings", "python", "tests"))
    from arrow_producer import column

    for format, name in (("u", "strings"), ("vu", "views of strings"), ("l", "numbers")):
        it = column(format, numbers if format == "l" else texts)
        yield f"`update_many` of a column of Arrow, {name}", ThetaSketch, functools.partial(fill_by_capsules, it.__arrow_c_array__())
    try:
        import numpy
    except ImportError:
        return
    small, fixed = numpy.arange(2 * count, dtype="int32")[::2], numpy.array(texts)
    yield "`update_many` of a strided array of 32-bit numbers of numpy", ThetaSketch, lambda it: it.update_many(small)
    yield "`update_many` of an array of text of numpy", ThetaSketch, lambda it: it.update_many(fixed)


def unions():
    """The calls on unions of images, by what is said of them."""
    from kaftanclay import CompactThetaSketch, ThetaUnion

    for keys, hashes in ((100, 100), (10000, 4096)):
        parts = images(keys)
        sketches = [CompactThetaSketch.from_bytes(part, lg_k=12) for part in parts]
        yield f"`ThetaUnion.update` of an image of {hashes} hashes, in a loop", lambda it, parts=parts: one_by_one(it.update, parts)
        yield f"`ThetaUnion.update` of a list of {IMAGES} of them, an image", lambda it, parts=parts: it.update(parts)
        yield f"`ThetaUnion.update` of a list of {IMAGES} such compact sketches, a sketch", lambda it, sketches=sketches: it.update(sketches)


def time_of_union(fill, lg_k):
    from kaftanclay import ThetaUnion

    union = ThetaUnion(lg_k)
    start = time.process_time_ns()
    fill(union)
    return (time.process_time_ns() - start) / IMAGES


def loops(count, file):
    """The names and times of the loops in C, by name and lg_k; none if the library isn't built."""
    folder = os.path.join(HERE, "..", "..", "bindings", "c", "build")
    library, program = os.path.join(folder, "libkaftanclay.a"), os.path.join(folder, "loops")
    if not os.path.exists(library):
        return {}
    words = ["-std=c11", "-D_POSIX_C_SOURCE=200809L", "-O2", "-I", os.path.join(HERE, "..", "..", "include"), os.path.join(HERE, "loops.c")]
    subprocess.run([os.environ.get("CC", "cc"), *words, library, "-o", program], check=True)
    out = subprocess.run([program, str(count), str(ROUNDS), file], check=True, stdout=subprocess.PIPE, text=True).stdout
    rows = [line.split("\t") for line in out.splitlines()]
    return {(name, int(lg_k)): float(spent) for name, lg_k, spent in rows}


def time_of(make, fill, lg_k, count, name):
    sketch = make(lg_k)
    start = time.process_time_ns()
    fill(sketch)
    spent = time.process_time_ns() - start
    found = len(sketch) if isinstance(sketch, set) else sketch.estimate
    if not 0.9 * count < found < 1.1 * count:
        sys.exit(f"run: {name}: {found} keys were counted, not {count}")
    return spent / count


def time_of_estimate(lg_k):
    from kaftanclay import ThetaSketch

    sketch = ThetaSketch(lg_k)
    sketch.update_many(array("Q", range(100000)))
    start = time.process_time_ns()
    estimates(sketch, range(20000))
    return (time.process_time_ns() - start) / 20000


def groups(count):
    """The calls on the groups of a DataFrame, by what is said of them."""
    import numpy
    import pandas
    from kaftanclay.pandas import distinct_count, sketch_by

    numbers = numpy.arange(count)
    texts = pandas.Series([f"user{it:08d}" for it in (numbers * 7919 % count).tolist()])
    hours = pandas.Series(numbers * 31 % GROUPS)
    for kind in ("object", "string", "category", "int64"):
        keys = pandas.Series(numbers * 7919 % count) if kind == "int64" else texts.astype(kind)
        for by, of in (("numbers", hours), ("texts", hours.astype(str))):
            frame = pandas.DataFrame({"hour": of, "user": keys})
            name = f"keys of type {kind}, groups by {by}"
            yield name, "`sketch_by`", lambda frame=frame: sketch_by(frame, "hour", "user")
            yield name, "`agg(distinct_count)`", lambda frame=frame: frame.groupby("hour")["user"].agg(distinct_count)
            yield name, "`nunique`", lambda frame=frame: frame.groupby("hour")["user"].nunique()


def measure_groups(count):
    """Prints the milliseconds of processor time for a DataFrame of so many rows, the least of the rounds."""
    least = {}
    for _ in range(ROUNDS):
        for name, call, run in groups(count):
            start = time.process_time_ns()
            run()
            spent = (time.process_time_ns() - start) / 1e6
            least.setdefault(name, {})
            least[name][call] = min(least[name].get(call, spent), spent)
    calls = list(dict.fromkeys(call for found in least.values() for call in found))
    print(f"\n{count} rows in {GROUPS} groups\n\n| milliseconds | " + " | ".join(calls) + " |\n|" + "---|" * (1 + len(calls)))
    for name, found in least.items():
        print(f"| {name} | " + " | ".join(f"{found[call]:.0f}" for call in calls) + " |")


def measure(count, file):
    least, names = {}, []
    with open(file, "wb") as lines:
        lines.writelines(b"user%08d\n" % number for number in range(count))
    for _ in range(ROUNDS):
        for name, make, fill in cases(count, file):
            names.append(name)
            for lg_k in SIZES:
                spent = time_of(make, fill, lg_k, count, name)
                least[name, lg_k] = min(least.get((name, lg_k), spent), spent)
        names.append("`estimate`")
        for lg_k in SIZES:
            spent = time_of_estimate(lg_k)
            least["`estimate`", lg_k] = min(least.get(("`estimate`", lg_k), spent), spent)
        for name, fill in unions():
            names.append(name)
            for lg_k in SIZES:
                spent = time_of_union(fill, lg_k)
                least[name, lg_k] = min(least.get((name, lg_k), spent), spent)
    of_loops = loops(count, file)
    least.update(of_loops)
    names += [name for name, _ in of_loops]
    print(f"Python {sys.version.split()[0]}, {count} keys\n")
    print("| call | " + " | ".join(f"`lg_k` {lg_k}" for lg_k in SIZES) + " |\n|" + "---|" * (1 + len(SIZES)))
    for name in dict.fromkeys(names):
        print(f"| {name} | " + " | ".join(f"{least[name, lg_k]:.0f}" for lg_k in SIZES) + " |")


def main():
    try:
        import kaftanclay  # noqa: F401
    except ImportError:
        install = os.path.join(HERE, "..", "..", "bindings", "python", "install_in")
        with tempfile.TemporaryDirectory() as place:
            subprocess.run([install, place], check=True)
            sys.exit(subprocess.run([f"{place}/venv/bin/python", "-B", os.path.abspath(__file__), *sys.argv[1:]], check=False).returncode)
    count = int(sys.argv[1].replace(",", "")) if len(sys.argv) > 1 else 1000000
    with tempfile.TemporaryDirectory() as place:
        measure(count, os.path.join(place, "lines"))
    try:
        measure_groups(count)
    except ImportError:
        print("\nno pandas, so no groups of a DataFrame")


main()
