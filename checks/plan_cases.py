#!/usr/bin/env python3
"""Unpacks the cases of tests/plans/*.cases: checks/plan_cases.py FOLDER writes each as FOLDER/FILE_NAME, its plan, and FOLDER/FILE_NAME.stdout,
its answer.

A case is a line NAME | PLAN | ANSWER. In both texts:
- a comma ends a line, and a text without words has no lines;
- a line with (A to B) or (A to B by S) means one line with each number from A up or down to B, S apart or 1;
- a line with (N times) behind it means N of it;
- a word that an earlier line WORD = TEXT defines means its text, and \\r a carriage return.

A case whose name ends in _in_any_order means six cases, one for each order of the words a, b and c in its plan.
"""
import itertools
import os
import re
import sys

ORDERS = "_in_any_order"
LEAVES = "abc"


def lines_of(text, words):
    """The lines that a text means."""
    found = []
    for line in text.split(",") if text else []:
        line = line.strip().replace("\\r", "\r")
        times = re.fullmatch(r"(.*) \((\d+) times\)", line)
        numbers = re.fullmatch(r"(.*)\((\d+) to (\d+)(?: by (\d+))?\)(.*)", line)
        if line in words:
            found += words[line]
        elif times:
            found += [times[1]] * int(times[2])
        elif numbers:
            first, last, step = int(numbers[2]), int(numbers[3]), int(numbers[4] or 1)
            ascending = range(first, last + 1, step)
            found += [f"{numbers[1]}{n}{numbers[5]}" for n in ascending or range(first, last - 1, -step)]
        else:
            found.append(line)
    return found


def cases_of(text):
    """Each case of a file: its name, and the lines of its plan and of its answer."""
    words = {}
    for line in text.splitlines():
        if not line or line.startswith("#"):
            continue
        if "|" not in line:
            word, told = line.split("=")
            words[word.strip()] = lines_of(told.strip(), words)
            continue
        name, plan, answer = (part.strip() for part in line.split("|"))
        if not name.endswith(ORDERS):
            yield name, lines_of(plan, words), lines_of(answer, words)
            continue
        for order in itertools.permutations(LEAVES):
            told = {leaf: words[other] for leaf, other in zip(LEAVES, order)}
            ordered = name.removesuffix(ORDERS) + "_" + "".join(order)
            yield ordered, lines_of(plan, {**words, **told}), lines_of(answer, words)


def write(path, lines):
    if os.path.exists(path):
        sys.exit(f"plan_cases: two cases are called {os.path.basename(path)}")
    with open(path, "w", encoding="ascii", newline="") as file:
        file.writelines(f"{line}\n" for line in lines)


def main():
    folder = sys.argv[1]
    plans = os.path.join(os.path.dirname(os.path.abspath(__file__)), "..", "tests", "plans")
    for entry in sorted(os.listdir(plans)):
        subject, ending = os.path.splitext(entry)
        if ending != ".cases":
            continue
        with open(os.path.join(plans, entry), encoding="ascii") as file:
            for name, plan, answer in cases_of(file.read()):
                write(f"{folder}/{subject}_{name}", plan)
                write(f"{folder}/{subject}_{name}.stdout", answer)


main()
