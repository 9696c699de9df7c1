#!/usr/bin/env python3
"""Reads the cases of the program `distinct`: tests/distinct/README.md has their form.

checks/distinct_cases.py FOLDER [NAME..] writes them into a new folder as `rt try --cases` and checks/distinct want them, each as
some files NAME.args, .stdin, .stdout, .stderr and .status and the folders NAME.before and NAME.after, and copies data/ beside
them. It prints their number. Names limit it to these cases.
"""
import glob
import os
import re
import shlex
import shutil
import sys

TOP = os.path.dirname(os.path.dirname(os.path.abspath(__file__)))
FOLDER = os.path.join(TOP, "tests", "distinct")
ESCAPE = re.compile(rb"\\(x[0-9a-f]{2}|.|$)", re.S)
ESCAPED = {b"\\": b"\\", b"t": b"\t", b"r": b"\r", b"": b""}


class Wrong(Exception):
    """What is wrong with a line."""


class Case:
    """A case: its arguments, standard input and output, what it says on standard error (None if that isn't compared), its
    status, and its files before and after by their names (None if it has no folder)."""

    def __init__(self):
        self.arguments, self.input, self.output, self.messages, self.status = None, b"", b"", None, 0
        self.before = self.after = None


def unescaped(text):
    """The bytes that a text means."""
    def meant(it):
        if it[1].startswith(b"x") and len(it[1]) == 3:
            return bytes.fromhex(it[1][1:].decode())
        if it[1] not in ESCAPED:
            raise Wrong(f"\\{it[1].decode(errors='replace')} means nothing; a backslash is \\\\")
        return ESCAPED[it[1]]

    return ESCAPE.sub(meant, text)


def is_ended(text):
    """Whether a line end follows a text: not if its last backslash stands alone."""
    return (len(text) - len(text.rstrip(b"\\"))) % 2 == 0


def contents(folder, form, text):
    """The bytes that a line means behind its mark."""
    if form == b" ":
        return unescaped(text) + (b"\n" if is_ended(text) else b"")
    if form == b"x":
        return bytes.fromhex(text.decode())
    with open(os.path.join(folder, text.decode()), "rb") as file:
        found = file.read()
    return found if form == b"@" else found.hex().encode() + b"\n"


def words_of(text):
    """The arguments of a command line: words, in quotes if they have blanks."""
    reader = shlex.shlex(text.decode(), posix=True, punctuation_chars=False)
    reader.whitespace_split, reader.commenters, reader.escape = True, "", ""
    program, *words = reader
    if program != "distinct":
        raise Wrong("a command begins with distinct")
    return [unescaped(it.encode()).decode() for it in words]


def read_line(case, folder, line, name):
    """Adds what a line says to a case. Answers the name of the file that the lines below it are of."""
    mark, form, text = line[:1], line[1:2] or b" ", line[2:]
    word, _, value = line.partition(b" ")
    if case is None:
        raise Wrong("there is no case yet: it begins with == NAME")
    if mark == b"$":
        case.arguments = words_of(text)
    elif word == b"status":
        case.status = int(value)
    elif word == b"file":
        case.before, case.after = case.before or {}, case.after or {}
        return unescaped(value).decode()
    elif mark not in b"<>!-+=" or form not in b" x@h" or (form != b" " and line[2:3] != b" "):
        raise Wrong("a line that is none")
    elif mark in b"-+=" and name is None:
        raise Wrong("there is no file yet: file NAME")
    else:
        found = contents(folder, form, text if form == b" " else line[3:])
        if mark == b"<":
            case.input += found
        elif mark == b">":
            case.output += found
        elif mark == b"!":
            case.messages = (case.messages or b"") + found
        if mark in b"-=":
            case.before[name] = case.before.get(name, b"") + found
        if mark in b"+=":
            case.after[name] = case.after.get(name, b"") + found
    return name


def read(folder=FOLDER):
    """The cases of a folder by their names, in the order of these."""
    found = {}
    for path in sorted(glob.glob(os.path.join(folder, "*.cases"))):
        case = name = None
        with open(path, "rb") as file:
            lines = file.read().split(b"\n")
        for number, line in enumerate(lines, 1):
            try:
                if line.startswith(b"== "):
                    word, case, name = line[3:].decode(), Case(), None
                    if not re.fullmatch(r"\w+", word) or word in found:
                        raise Wrong("a name is a word, and only one case has it")
                    found[word] = case
                elif line and not line.startswith(b"#"):
                    name = read_line(case, folder, line, name)
            except (Wrong, ValueError, OSError) as flaw:
                sys.exit(f"distinct_cases: {os.path.relpath(path)}, line {number}: {flaw}: {line.decode(errors='replace')[:100]}")
    lacking = [name for name, case in found.items() if case.arguments is None]
    if lacking:
        sys.exit(f"distinct_cases: these have no line $ distinct ..: {' '.join(lacking)}")
    return dict(sorted(found.items()))


def write(path, data):
    os.makedirs(os.path.dirname(path), exist_ok=True)
    with open(path, "wb") as file:
        file.write(data)


def unpack(place, cases):
    """Writes cases into a folder."""
    for name, case in cases.items():
        path = os.path.join(place, name)
        write(f"{path}.args", "".join(f"{it}\n" for it in case.arguments).encode())
        write(f"{path}.stdin", case.input)
        write(f"{path}.stdout", case.output)
        write(f"{path}.status", b"%d\n" % case.status)
        if case.messages is not None:
            write(f"{path}.stderr", case.messages)
        if case.before is not None:
            for suffix, files in (("before", case.before), ("after", case.after)):
                os.makedirs(f"{path}.{suffix}")
                for it, data in files.items():
                    write(os.path.join(f"{path}.{suffix}", it), data)
    shutil.copytree(os.path.join(FOLDER, "data"), os.path.join(place, "data"))


def main():
    if not sys.argv[1:]:
        sys.exit("distinct_cases: pass the folder to write into")
    cases = read()
    unknown = [name for name in sys.argv[2:] if name not in cases]
    if unknown:
        sys.exit(f"distinct_cases: tests/distinct has no case {' '.join(unknown)}")
    wanted = {name: cases[name] for name in sys.argv[2:] or cases}
    unpack(sys.argv[1], wanted)
    print(len(wanted))


if __name__ == "__main__":
    main()
