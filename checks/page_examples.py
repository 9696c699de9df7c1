#!/usr/bin/env python3
"""Runs the examples of the pages with the built program distinct, and compares what it writes with what the pages show.

An example is a block of a page that begins with a line `$ COMMAND`; behind each command stands what it writes, on either output. The
commands of a page run in turn by bash, each block at the top of a copy of this repository's examples and data, so that a later block may
use files of an earlier one. rt ci builds the program, or rt run in its folder; DISTINCT_PROGRAM names another. `checks/page_examples.py
PAGE..` runs these pages alone. A block that calls gnuplot is skipped if it is missing and can't be installed.
"""
import os
import shlex
import shutil
import subprocess
import sys
import tempfile

sys.dont_write_bytecode = True
from built_programs import PROGRAMS, ROOT

PAGES = ("README.md", "docs/use/DISTINCT.md", "docs/use/MANY-MACHINES.md", "docs/use/OTHER-LIBRARIES.md", "docs/use/SECURITY.md")
# What the shell prints between the answers of two commands.
PART = "-- the next command --"


def blocks_of(page):
    """The examples of a page: of each block the number of its first line, its commands, and what each writes."""
    with open(os.path.join(ROOT, page), encoding="utf-8") as file:
        lines = file.read().split("\n")
    at = 0
    while at < len(lines):
        if not lines[at].startswith("```"):
            at += 1
            continue
        first, at = at + 1, at + 1
        while lines[at] != "```":
            at += 1
        block = lines[first:at]
        at += 1
        if not block or not block[0].startswith("$ "):
            continue
        commands = []
        for line in block:
            if line.startswith("$ "):
                commands.append((line[2:], []))
            else:
                commands[-1][1].append(line)
        yield first + 1, commands


def has_gnuplot():
    """Whether gnuplot is there, perhaps after it was installed."""
    return shutil.which("gnuplot") or subprocess.run([os.path.join(ROOT, "checks", "install_packages.py"), "pictures"], check=False).returncode == 0


def run_page(page, place):
    """Runs a page's examples in a folder. Returns how many commands ran, and what differs."""
    differs, count = [], 0
    for first, commands in blocks_of(page):
        commands = [(command, wanted) for command, wanted in commands if "./plan " not in command]
        if not commands:
            continue
        if any(command.startswith("gnuplot ") for command, _ in commands) and not has_gnuplot():
            print(f"page_examples: {page}:{first}: skipped, since gnuplot is missing")
            continue
        script = "".join(f"{command}\necho '{PART}'\n" for command, _ in commands)
        done = subprocess.run(["bash"], input=script.encode(), stdout=subprocess.PIPE, stderr=subprocess.STDOUT, cwd=place, check=False)
        answers = done.stdout.decode("utf-8", "replace").split(f"{PART}\n")
        for (command, wanted), found in zip(commands, answers):
            count += 1
            text = "".join(f"{line}\n" for line in wanted)
            if found != text:
                differs.append(f"{page}:{first}: {command}\n  writes: {found!r}\n  page:   {text!r}")
    return count, differs


def main():
    if not os.access(PROGRAMS["distinct"], os.X_OK):
        sys.exit("page_examples: distinct isn't built: call rt run in crates/distinct")
    pages = sys.argv[1:] or [page for page in PAGES if os.path.exists(os.path.join(ROOT, page))]
    count, differs = 0, []
    for page in pages:
        with tempfile.TemporaryDirectory() as place:
            shutil.copytree(os.path.join(ROOT, "examples"), os.path.join(place, "examples"))
            shutil.copytree(os.path.join(ROOT, "tests", "distinct", "data"), os.path.join(place, "tests", "distinct", "data"))
            with open(os.path.join(place, "distinct"), "w", encoding="utf-8") as file:
                file.write(f"#!/bin/sh\nexec {shlex.quote(PROGRAMS['distinct'])} \"$@\"\n")
            os.chmod(os.path.join(place, "distinct"), 0o755)
            here, wrong = run_page(page, place)
            count += here
            differs += wrong
    if differs:
        print("\n".join(differs))
        sys.exit(f"page_examples: {len(differs)} of {count} commands write otherwise than the pages say")
    print(f"page_examples: {count} commands of {len(pages)} pages write what the pages say")


main()
