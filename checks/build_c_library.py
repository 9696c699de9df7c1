#!/usr/bin/env python3
"""Builds the static library of c_library for any x86-64 processor over the libraries that rt ci has just built (building.py).

rt lib, which make proved in bindings/c calls, would prove all of them once more. It is called only if the libraries aren't there,
as after a run of rt ci that kept all its results, or don't belong together.
"""
import os
import subprocess
import sys

sys.dont_write_bytecode = True
import building  # noqa: E402

CRATE = "c_library"


def main():
    os.chdir(building.TOP)
    made = f"crates/{CRATE}/out/lib{CRATE}.a"
    reason = building.build(CRATE, "src/lib.rt", os.path.abspath(made), "--crate-type", "staticlib")
    if reason:
        print(f"build_c_library: {reason}, so rt lib proves and builds it", flush=True)
        if subprocess.run(["rt", "lib", *building.PROCESSOR], cwd=f"crates/{CRATE}").returncode != 0:
            sys.exit(f"build_c_library: rt lib in crates/{CRATE} failed (above)")
    print(f"build_c_library: {made} is built, for any x86-64 processor")


main()
