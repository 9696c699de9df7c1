#!/usr/bin/env python3
"""The crate of bindings/rust beside the original, and what its border to C costs, in one run: bench/rust/run.py [ROUNDS] [WORD].

Each row has nanoseconds of processor time an item of the original crate, of this one, of the proved crates below the border to C on
the same input, what the border costs, and the ratio of this crate to the original; bindings/rust/beside/speed.rs describes them.

It needs the sources of the original in ORIGINAL_DIR (by default ~/.cache/original-sketches), cargo, rt, and the libraries that rt ci
has just built. In a copy it proves and builds bench/plans/sketch_bench.rt.txt as bench/plans/run.py does, for any x86-64 processor
as the C library is; BENCH_PLACE=DIR keeps the copy. The C library is that of KAFTANCLAY_LIB_DIR, else what make builds in
bindings/c. Run it by hand, on a quiet machine.
"""
import os
import shutil
import subprocess
import sys
import tempfile

TOP = os.path.dirname(os.path.dirname(os.path.dirname(os.path.abspath(__file__))))
sys.dont_write_bytecode = True
sys.path[:0] = [os.path.join(TOP, "bench", "plans"), os.path.join(TOP, "checks")]
import building  # noqa: E402
import run as plans  # noqa: E402

CRATE = "sketch_bench"


def proved_program(place):
    """The program of the proved crates, built in a copy."""
    plans.copied(place)
    os.chdir(place)
    made = os.path.join(place, CRATE)
    reason = building.build(CRATE, "src/main.rt", f"{made}.o")
    if reason:
        sys.exit(f"bench: {CRATE} isn't built: {reason}")
    kit = building.toolchain()
    words = [f"{kit}/bin/rattle-link", "--target", "x86_64-unknown-linux-gnu", "--toolchain", f"{kit}/toolchain", "-o", made, f"{made}.o"]
    subprocess.run([*words, f"{kit}/c/libos_c.a", f"{kit}/c/liblibc_c.a"], check=True)
    os.chdir(TOP)
    return made


def main():
    place = os.path.abspath(os.environ.get("BENCH_PLACE") or tempfile.mkdtemp())
    try:
        os.environ["SKETCH_BENCH"] = proved_program(place)
        if "KAFTANCLAY_LIB_DIR" not in os.environ:
            subprocess.run(["make", "-s", "-C", f"{TOP}/bindings/c", "build/libkaftanclay.a"], check=True)
            os.environ["KAFTANCLAY_LIB_DIR"] = f"{TOP}/bindings/c/build"
        built = subprocess.run([f"{TOP}/bindings/rust/beside/build"], stdout=subprocess.PIPE, text=True, check=True).stdout.strip()
        os.sched_setaffinity(0, {max(os.sched_getaffinity(0))})
        sys.exit(subprocess.run([f"{built}/speed", *sys.argv[1:]], check=False).returncode)
    finally:
        if not os.environ.get("BENCH_PLACE"):
            shutil.rmtree(place)


main()
