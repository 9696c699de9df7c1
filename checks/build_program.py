#!/usr/bin/env python3
"""Makes build/distinct, the program that ./release packs: it runs on any x86-64 processor, and with the C library of Debian 11.

Its object file is built over the libraries that rt ci has just built (building.py), or by rt run if they aren't there. The program
of rt ci itself, crates/distinct/out/distinct, is for x86-64-v2, and linked with the toolchain's C library, which is newer: what
that links needs version 2.34 of the GNU C library or later. So the object is linked by the toolchain's rattle-link with the C
library of Debian 11 (2.31), which apt has from the archive that it is set up for. The folder build/debian11 keeps its files;
checks/release_packages runs the program with them. If they can't be had, a line says why, and the toolchain's C library is taken.
"""
import os
import shutil
import subprocess
import sys
import tempfile

sys.dont_write_bytecode = True
import building  # noqa: E402

CRATE = "distinct"
MADE = "build/distinct"
OLDER = "build/debian11"
# What rattle-link looks for in the folder lib of a toolchain: of Debian 11, in two folders there, and of the toolchain itself.
DEVELOPMENT = ["Scrt1.o", "crti.o", "crtn.o", "libc_nonshared.a"]
RUNNING = ["libc.so.6", "libm.so.6", "ld-linux-x86-64.so.2", "libgcc_s.so.1"]
OF_TOOLCHAIN = ["crtbeginS.o", "crtendS.o", "libgcc.a"]
# What apt has to know of the network, there as here.
NETWORK = ("Acquire::http", "Acquire::Check-", "Acquire::Retries", "Acquire::ForceIPv")


def output_of(*words):
    return subprocess.run(words, capture_output=True, text=True, check=True).stdout


def object_file():
    """The path of the built object file of the program."""
    made = os.path.abspath(f"{MADE}.o")
    reason = building.build(CRATE, "src/main.rt", made)
    if reason:
        print(f"build_program: {reason}, so rt run proves and builds it", flush=True)
        if subprocess.run(["rt", "run", *building.PROCESSOR, "--", "--version"], cwd=f"crates/{CRATE}").returncode != 0:
            sys.exit(f"build_program: rt run in crates/{CRATE} failed (above)")
        shutil.copy(f"crates/{CRATE}/out/{CRATE}.o", made)
    return made


def older_library(kit):
    """Fills the folder OLDER; returns why it couldn't, or None."""
    shutil.rmtree(OLDER, ignore_errors=True)
    if subprocess.run(["checks/install_packages.py", "program"]).returncode != 0:
        return "packages are missing (above)"
    archives = output_of("apt-get", "indextargets", "--format", "$(REPO_URI)", "Release: bookworm", "Component: main", "Created-By: Packages").split()
    if not archives:
        return "apt has no archive of Debian here"
    with tempfile.TemporaryDirectory() as place:
        tree, options = f"{place}/tree", f"{place}/apt.conf"
        with open(options, "w", encoding="utf-8") as file:
            file.writelines(f"{line}\n" for line in output_of("apt-config", "dump").splitlines() if line.startswith(NETWORK))
        words = ["timeout", "300", "mmdebstrap", "--variant=extract", "--include=libc6-dev", f"--aptopt={options}", "bullseye", tree]
        tried = subprocess.run([*words, f"deb {archives[0]} bullseye main"], stdin=subprocess.DEVNULL, capture_output=True, text=True)
        if tried.returncode != 0:
            return f"mmdebstrap: {' '.join(tried.stderr.split())[-300:]}"
        os.makedirs(OLDER)
        for folder, names in ((f"{tree}/usr/lib/x86_64-linux-gnu", DEVELOPMENT), (f"{tree}/lib/x86_64-linux-gnu", RUNNING), (f"{kit}/toolchain/lib", OF_TOOLCHAIN)):
            for name in names:
                shutil.copy(f"{folder}/{name}", OLDER)
    return None


def link(kit, made, library):
    """Links the program with the C library of a folder."""
    with tempfile.TemporaryDirectory() as place:
        os.symlink(f"{kit}/toolchain/bin", f"{place}/bin")
        os.symlink(os.path.abspath(library), f"{place}/lib")
        words = [f"{kit}/bin/rattle-link", "--target", "x86_64-unknown-linux-gnu", "--toolchain", place, "-o", MADE, made]
        subprocess.run([*words, f"{kit}/c/libos_c.a", f"{kit}/c/liblibc_c.a"], check=True)


def main():
    os.chdir(building.TOP)
    kit = building.toolchain()
    made = object_file()
    reason = older_library(kit)
    if reason:
        print(f"build_program: skipped: the C library of Debian 11, so {MADE} needs version 2.34: {reason}")
    link(kit, made, f"{kit}/toolchain/lib" if reason else OLDER)
    print(f"build_program: {output_of(MADE, '--version').strip()} is {MADE}, for any x86-64 processor")


main()
