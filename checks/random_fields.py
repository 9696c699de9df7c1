#!/usr/bin/env python3
"""Runs the built program distinct on random lines of which random fields are chosen: checks/random_fields.py [SEED].

`distinct count --by` with names, lists of fields, fronts of fields, --blanks, --crlf, --csv and --header has to print how many
different keys each group has, as computed here from the rows of which the text was made. rt ci builds the program, or rt run in
its folder; DISTINCT_PROGRAM names another.
"""
import csv
import io
import os
import random
import subprocess
import sys

ROOT = os.path.dirname(os.path.dirname(os.path.abspath(__file__)))
PROGRAM = os.environ.get("DISTINCT_PROGRAM", os.path.join(ROOT, "crates", "distinct", "out", "distinct"))
TEXTS = 1500
NAMES = ["user", "page", "amount", "day"]


def text_of(chance, form, rows):
    """The rows as a text of a form, and the options that read it."""
    end = "\r\n" if form == "crlf" or form == "csv" and chance.random() < 0.5 else "\n"
    if form == "csv":
        out = io.StringIO(newline="")
        csv.writer(out, lineterminator=end).writerows(rows)
        text, options = out.getvalue(), ["--csv"]
    elif form == "blanks":
        blanks = lambda least: "".join(chance.choice(" \t") for _ in range(chance.randrange(least, 3)))  # noqa: E731
        text, options = "".join(blanks(0) + "".join(it + blanks(1) for it in row).rstrip(" \t") + blanks(0) + end for row in rows), ["--blanks"]
    else:
        text, options = "".join("\t".join(row) + end for row in rows), ["--crlf"] * (form == "crlf")
    return (text[: -len(end)] if rows and chance.random() < 0.3 else text), options


def chosen(chance, names, most):
    """Random fields: what an option says, and their places and the number of bytes of what they are joined to."""
    places = [chance.randrange(len(names) + (chance.random() < 0.1)) for _ in range(chance.randrange(1, most + 1))]
    words = [names[it] if it < len(names) and chance.random() < 0.5 else str(it + 1) for it in places]
    front = chance.randrange(1, 4) if chance.random() < 0.3 else None
    return ",".join(words) + (f":{front}" if front else ""), places, front


def part_of(row, places, front):
    return "\x1f".join(row[it] if it < len(row) else "" for it in places)[:front]


def main():
    if not os.access(PROGRAM, os.X_OK):
        sys.exit("random_fields: distinct isn't built: call rt run in crates/distinct")
    chance = random.Random(int(sys.argv[1]) if sys.argv[1:] else 2026)
    for _ in range(TEXTS):
        form = chance.choice(["csv", "blanks", "crlf", "lines"])
        letters = 'ab ,"x' if form == "csv" else "abx:."
        value = lambda: "".join(chance.choice(letters) for _ in range(chance.randrange(form == "blanks", 4)))  # noqa: E731
        names = chance.sample(NAMES, len(NAMES))
        rows = [[value() for _ in range(chance.choice([4, 4, 4, 3]))] for _ in range(chance.randrange(12))]
        text, options = text_of(chance, form, [names] + rows)
        (field, places, front), (by, group, group_front) = chosen(chance, names, 3), chosen(chance, names, 2)
        has_names = any(it in NAMES for word in (field, by) for it in word.partition(":")[0].split(","))
        is_text = not (field.isdigit() and by.isdigit())
        options += [f"--field={field}", f"--by={by}"] + ["--header"] * (not has_names or chance.random() < 0.3)
        if form == "csv" and not is_text and rows and min(map(len, rows)) < 2 or form != "csv" and not is_text and any(len(it) < 2 for it in rows):
            continue
        counts = {}
        for row in rows:
            row = row if "".join(row) or len(row) > 1 or form == "csv" else [""]
            counts.setdefault(part_of(row, group, group_front), set()).add(part_of(row, places, front))
        wanted = "".join(f"{name}\t{len(keys)}\n" for name, keys in sorted(counts.items(), key=lambda it: it[0].encode()))
        run = subprocess.run([PROGRAM, "count", "--tsv", *options], input=text.encode(), capture_output=True, check=False)
        lines = [line.split(b"\t") for line in run.stdout.splitlines()[1:]]
        got = "".join(f"{line[0].decode()}\t{line[1].decode()}\n" for line in lines)
        escaped = wanted.replace("\x1f", "\\x1f")
        if run.returncode or got != escaped:
            sys.exit(f"random_fields: count --tsv {options} on {text!r} ends with {run.returncode}, {run.stdout} and {run.stderr}, not {escaped!r}")
    print(f"random_fields: fields of {TEXTS} random texts are chosen as they are computed here")


main()
