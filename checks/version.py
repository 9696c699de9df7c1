#!/usr/bin/env python3
"""Compares every place that has the version with the file VERSION, and says which differs.

VERSION is the version of the program, the libraries and the packages. It is written by hand in the places below, since each is
compiled, proved or read where the file isn't there. The Makefiles and ./release read the file.
"""
import glob
import os
import re
import sys

# A file, and the pattern of the version in it.
PLACES = [
    ("crates/distinct_arguments/src/help.rt", r'VERSION: &str = "distinct ([^\\"]+)\\n"'),
    ("tests/distinct/help.cases", r"\n== version\n.*\n> distinct (\S+)\n"),
    ("tests/distinct/help.cases", r"\n== version_in_short\n.*\n> distinct (\S+)\n"),
    ("bindings/python/kaftanclay/__init__.py", r'(?m)^__version__ = "([^"]+)"'),
    ("bindings/python/pyproject.toml", r'(?m)^version = "([^"]+)"'),
    ("bindings/rust/Cargo.toml", r'(?m)^version = "([^"]+)"'),
    ("bindings/postgresql/theta_sketch.control", r"(?m)^default_version = '([^']+)'"),
    ("include/kaftanclay.h", r'(?m)^#define KC_VERSION "([^"]+)"'),
    ("CHANGELOG.md", r"(?m)^## ([0-9.]+[0-9])"),
]
SYMBOLS = "packaging/debian/libkaftanclay0.symbols"
SCRIPTS = "bindings/postgresql/theta_sketch--*.sql"


def text_of(path):
    with open(path, encoding="utf-8") as file:
        return file.read()


def numbers(version):
    return tuple(map(int, version.split(".")))


def versions_of_scripts():
    """The versions that PostgreSQL can create: those of a whole script, and what updates make of these."""
    words = [it.removesuffix(".sql").split("--")[1:] for it in glob.glob(SCRIPTS)]
    reached = {it[0] for it in words if len(it) == 1}
    while more := {new for old, new in (it for it in words if len(it) == 2) if old in reached} - reached:
        reached |= more
    return reached


def main():
    os.chdir(os.path.join(os.path.dirname(os.path.abspath(__file__)), ".."))
    version = text_of("VERSION").strip()
    if not re.fullmatch(r"\d+\.\d+\.\d+", version):
        sys.exit(f"version: VERSION has {version!r}; it must be three numbers, such as 1.2.3")
    wrong = []
    for path, pattern in PLACES:
        found = re.search(pattern, text_of(path))
        if found is None or found[1] != version:
            wrong.append(f"{path} has {found[1] if found else 'no version'}, and VERSION {version}")
    if version not in versions_of_scripts():
        wrong.append(f"{SCRIPTS}: no scripts make the extension of PostgreSQL in {version}; add an update from the version before")
    symbols = text_of(SYMBOLS)
    wrong.extend(f"{SYMBOLS}: {name} came in {since}, after {version}" for name, since in re.findall(r"(?m)^ (\w+)@Base (\S+)$", symbols) if numbers(since) > numbers(version))
    for it in wrong:
        print(f"version: {it}")
    if wrong:
        sys.exit(1)
    print(f"version: {version}, and so in {len(PLACES) + 1} other places")


main()
