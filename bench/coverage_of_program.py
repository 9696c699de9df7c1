#!/usr/bin/env python3
"""How often the true count is within the bounds that `distinct count` prints, by the built program over random keys.

    bench/coverage_of_program.py [FILES]   1,000 files for each true count and each --lg-k, or as many as the argument says

Each file has that many different random keys of eight bytes in hexadecimal digits, one per line. The keys are drawn
under a fixed seed, so each run prints the same shares. It needs the built program (crates/distinct/out/distinct) and a
processor for some minutes. bench/coverage_of_estimates.py draws sketches from their distribution instead, also of large counts and
of images below a fixed theta.
"""
import os
import random
import subprocess
import sys
import tempfile

TOP = os.path.dirname(os.path.dirname(os.path.abspath(__file__)))
PROGRAM = os.path.join(TOP, "crates", "distinct", "out", "distinct")
CASES = ((4, 20), (4, 100), (4, 1000), (5, 1000), (8, 1000), (8, 10000), (12, 10000))


def counted(path, lg_k, deviations):
    """The lower and the upper bound that the program prints of a file."""
    command = [PROGRAM, "count", "--lg-k", str(lg_k), f"--bounds={deviations}", "--tsv", path]
    head, row = subprocess.run(command, check=True, capture_output=True, text=True).stdout.splitlines()
    values = dict(zip(head.split("\t"), row.split("\t")))
    return int(values["lower"]), int(values["upper"])


def keys(draw, count):
    """So many different keys, one per line."""
    found = set()
    while len(found) < count:
        found.add(draw.getrandbits(64))
    return "".join(f"{key:016x}\n" for key in found)


def main():
    files = int(sys.argv[1]) if len(sys.argv) > 1 else 1000
    if not os.access(PROGRAM, os.X_OK):
        sys.exit("coverage: crates/distinct/out/distinct is not built: cd crates/distinct && rt run")
    draw = random.Random(2026)
    print(f"Share of {files} files whose true count is within the bounds, in percent:\n")
    print("| `--lg-k` | true count | 1 | 2 | 3 |\n|---|---|---|---|---|")
    with tempfile.TemporaryDirectory() as folder:
        path = os.path.join(folder, "keys")
        for lg_k, count in CASES:
            within = [0, 0, 0]
            for _ in range(files):
                with open(path, "w", encoding="ascii") as file:
                    file.write(keys(draw, count))
                for deviations in (1, 2, 3):
                    lower, upper = counted(path, lg_k, deviations)
                    within[deviations - 1] += lower <= count <= upper
            shares = " | ".join(f"{100 * number / files:.1f}" for number in within)
            print(f"| {lg_k} | {count:,} | {shares} |", flush=True)


main()
