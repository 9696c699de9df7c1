#!/usr/bin/env python3
"""Answers by docs/verify/SPECIFICATION.md and docs/use/FORMATS.md alone: a second implementation, which shares no code with the crates.

checks/expected_answers.py < PLAN                   the program's answer to the text of a plan; status 1 for a fault
checks/expected_answers.py calls < LINES            the answer to each line of calls (tests/calls/README.md)
checks/expected_answers.py random [COUNT [SEED [OBJECT..]]]   random lines of calls, of these objects alone if any are named
checks/expected_answers.py compare LINES ANSWERS    whether a program's answers to lines are those of the model
checks/expected_answers.py --self-test              whether the model gives the answers of calls_rows.py

In an answer `~` is what the specification leaves open, `/+` at least one request for memory, `/~` any number of requests.
"""
import sys

sys.dont_write_bytecode = True
import calls_language
import calls_random
import calls_rows
from calls_words import agree
from model_plans import run_text

COUNT, SEED = 20000, 2026


def lines_of(path):
    """The lines of a file."""
    with open(path, encoding="utf-8") as file:
        return file.read().splitlines()


def compare(lines, answers):
    """Shows the shortest line that a program answers otherwise than the model."""
    if len(lines) != len(answers):
        sys.exit(f"expected_answers: {len(lines)} lines have {len(answers)} answers")
    wanted = [calls_language.answer(line) for line in lines]
    wrong = [at for at, line in enumerate(lines) if not agree(wanted[at], answers[at])]
    if wrong:
        at = min(wrong, key=lambda at: len(lines[at]))
        print(f"{lines[at]}\nis answered  {answers[at]}\nin place of  {wanted[at]}")
        sys.exit(f"expected_answers: {len(wrong)} of {len(lines)} lines are answered otherwise than by the specification")
    print(f"{len(lines)} lines are answered as by the specification")


def main():
    command, *words = sys.argv[1:] or ["plan"]
    if command == "plan":
        status, answer = run_text(sys.stdin.buffer.read())
        print(answer, end="")
        sys.exit(status)
    if command == "calls":
        for line in sys.stdin:
            print(calls_language.answer(line.rstrip("\n")))
    elif command == "random":
        count = int(words[0]) if words else COUNT
        seed = int(words[1]) if words[1:] else SEED
        for line, _ in calls_random.lines(count, seed, tuple(words[2:]) or tuple(calls_random.MAKERS)):
            print(line)
    elif command == "compare":
        compare(*(lines_of(path) for path in words))
    elif command == "--self-test":
        calls_rows.check()
    else:
        sys.exit(__doc__)


main()
