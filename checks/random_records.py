#!/usr/bin/env python3
"""Runs the built program distinct on random texts of CSV that Python's csv module writes: checks/random_records.py [SEED].

`distinct count --csv --field N` has to print how many different values the field has, or to refuse the text if one of them has a
line end or the byte 31. Half of the texts have a header; the last record of some has no line end. rt ci builds the program, or rt
run in its folder; DISTINCT_PROGRAM names another.
"""
import csv
import io
import os
import random
import subprocess
import sys

ROOT = os.path.dirname(os.path.dirname(os.path.abspath(__file__)))
PROGRAM = os.environ.get("DISTINCT_PROGRAM", os.path.join(ROOT, "crates", "distinct", "out", "distinct"))
TEXTS = 1500
COLUMNS = 3


def value(chance):
    """A short value, of few bytes that mean something in a record."""
    letters = 'a,"\n\r x;\x1f' if chance.random() < 0.2 else 'ab" ,'
    return "".join(chance.choice(letters) for _ in range(chance.randrange(6)))


def spelled(chance, rows):
    """The rows as a text. A CR is plain for the module, but not for RFC 4180, so rows with one are quoted."""
    has_return = any("\r" in it for row in rows for it in row)
    quoting = csv.QUOTE_ALL if has_return or chance.random() < 0.2 else csv.QUOTE_MINIMAL
    out = io.StringIO(newline="")
    csv.writer(out, lineterminator=chance.choice(["\n", "\r\n"]), quoting=quoting).writerows(rows)
    text = out.getvalue()
    return text[:-1].removesuffix("\r") if rows and chance.random() < 0.3 else text


def main():
    if not os.access(PROGRAM, os.X_OK):
        sys.exit("random_records: distinct isn't built: call rt run in crates/distinct")
    chance, refused = random.Random(int(sys.argv[1]) if sys.argv[1:] else 2026), 0
    for _ in range(TEXTS):
        rows = [[value(chance) for _ in range(COLUMNS)] for _ in range(chance.randrange(9))]
        field, has_header = chance.randrange(COLUMNS), chance.random() < 0.5
        text = spelled(chance, rows)
        words = [PROGRAM, "count", "--csv", f"--field={field + 1}", *["--header"] * has_header]
        run = subprocess.run(words, input=text.encode(), capture_output=True, check=False)
        values = {row[field] for row in rows[has_header:]}
        is_refused = any("\n" in it or "\x1f" in it for it in values)
        refused += is_refused
        wanted = (1, b"") if is_refused else (0, b"%d\n" % len(values))
        if (run.returncode, run.stdout) != wanted:
            sys.exit(f"random_records: {words[1:]} on {text!r} ends with {run.returncode}, {run.stdout} and {run.stderr}, not {wanted}")
    print(f"random_records: {TEXTS} texts are read as the csv module writes them, {refused} of them refused for a line end in a field")


main()
