#!/usr/bin/env python3
"""Public calls against a second implementation: the lines of tests/calls with their answers, and 20000 random lines of a fixed seed.

The program crates/calls makes the calls of a line and prints what each answers (tests/calls/README.md). It is built once, before any
proof, and run on some hundred lines at a time. Each stored line is run plainly and with each request for memory refused in turn, but for
lines of `room=` and with more than 200 equal answers one after another, which are run plainly alone. Its
answers must be the stored ones; the second implementation, which follows the specification alone, must give them too, and those of the
random lines. `checks/public_calls.py SEED [COUNT]` makes other random lines, and `checks/public_calls.py stored` none. At the end it prints how many lines,
requests and public functions there were; tests/calls/functions has the call of each public function.
"""
import os
import re
import shutil
import subprocess
import sys
import tempfile

sys.dont_write_bytecode = True
import calls_random
import calls_rows
import calls_language
from calls_words import agree
from model_table import Unspecified

COUNT = 20000
SEED = 2026
BATCH = 250
# How many lines that are answered otherwise are shown.
SHOWN = 5
# The program sees all of an object before each call that it refuses memory, so that long series take long.
LONGEST_REFUSED = 200
TOP = os.path.dirname(os.path.dirname(os.path.abspath(__file__)))
FOLDER = f"{TOP}/tests/calls"
REFUSING = "refusing "


def fail(text):
    """Ends the script."""
    sys.exit(f"public_calls: {text}")


def stored_rows():
    """The rows of the files of cases: a name, a line and its answer."""
    rows = []
    for name in sorted(os.listdir(FOLDER)):
        if name.endswith(".cases"):
            with open(f"{FOLDER}/{name}", encoding="utf-8") as file:
                lines = [line.strip() for line in file if line.strip() and not line.startswith("#")]
            rows += [tuple(part.strip() for part in line.split(" | ")) for line in lines]
    for row in rows:
        if len(row) != 3:
            fail(f"no name, line and answer: {row}")
    names = [row[0] for row in rows]
    for name in names:
        if names.count(name) > 1:
            fail(f"two rows have the name {name}")
    return rows


def batches(lines):
    """The lines in files of some thousand, in a folder."""
    place = tempfile.mkdtemp()
    for start in range(0, len(lines), BATCH):
        with open(f"{place}/{start:08}", "w", encoding="utf-8") as file:
            file.writelines(f"{line}\n" for line in lines[start : start + BATCH])
    return place


def program_answers(lines):
    """What the program answers to each of some lines."""
    tool = shutil.which("rt") or fail("the toolchain's command rt is not on the path")
    place = batches(lines)
    # The interpreter could not end within its steps; the compiled run checks each access and sum too.
    run = subprocess.run([tool, "try", "--steps", "1", "--seconds", "300", "--cases", place], cwd=f"{TOP}/crates/calls", capture_output=True, check=False)
    shutil.rmtree(place)
    output = run.stdout.decode("utf-8", "replace").split("\n")
    found = [line for line in output[:-1] if not line.startswith("== ")]
    if len(found) != len(lines):
        sys.stderr.write(run.stdout.decode("utf-8", "replace")[-500:] + run.stderr.decode("utf-8", "replace")[-3000:])
        fail(f"{len(lines)} lines have {len(found)} answers")
    return found


def without_counts(text):
    """An answer in the mode `refusing` without its numbers of requests."""
    return "; ".join(re.sub(r"/(\d+|\+|~)$", "", part) for part in text.split("; "))


def plain(line):
    """The same line without its mode."""
    return line.removeprefix(REFUSING)


def compare(inputs, found):
    """Shows the shortest lines that are answered otherwise than one of the texts wanted of them."""
    wrong = []
    for (line, texts), text in zip(inputs, found):
        wrong += [(line, wanted, text) for wanted in texts if wanted != text and not agree(wanted, text)]
    for line, wanted, text in sorted(wrong, key=lambda it: len(it[0]))[:SHOWN]:
        print(f"{line}\nis answered  {text}\nin place of  {wanted}")
    if wrong:
        fail(f"{len(wrong)} of {len(inputs)} lines are answered otherwise")


def answer(line):
    """The second implementation's answer to a line, in a list, which is empty if the specification leaves it open."""
    try:
        return [calls_language.answer(line)]
    except Unspecified:
        return []


def both_modes(rows):
    """The stored lines in both modes, or twice plainly if only that can be compared, with the texts that are wanted of each."""
    inputs = []
    for _, line, wanted in rows:
        refusing = REFUSING + plain(line)
        texts = [wanted, *answer(line)]
        if line.startswith(REFUSING):
            inputs += [(line, texts), (plain(line), [without_counts(wanted), *answer(plain(line))])]
        elif " room=" in line or max((int(run) for run in re.findall(r"\*(\d+)", wanted)), default=0) > LONGEST_REFUSED:
            inputs += [(line, texts), (line, texts)]
        else:
            inputs += [(line, texts), (refusing, answer(refusing))]
    return inputs


def compare_modes(inputs, found):
    """Compares the answers of each stored line's two modes."""
    for place in range(0, len(inputs), 2):
        first, second = (without_counts(text) if line.startswith(REFUSING) else text
                         for (line, _), text in zip(inputs[place : place + 2], found[place : place + 2]))  # fmt: skip
        if first != second:
            print(f"{inputs[place][0]}\nis answered  {first}\nand else     {second}")
            fail("a line has two answers")


def refused_requests(inputs, found):
    """How many requests were refused."""
    lines = (text for (line, _), text in zip(inputs, found) if line.startswith(REFUSING))
    return sum(int(number) for text in lines for number in re.findall(r"/(\d+)(?:;|$)", text))


def public_functions():
    """The public functions of all libraries, as checks/api_page.py prints them; laws have none that can be called."""
    functions, crate, owner = set(), "", ""
    page = subprocess.run([sys.executable, f"{TOP}/checks/api_page.py", "--all"], capture_output=True, text=True, check=True).stdout
    for line in page.splitlines():
        if line.startswith("## "):
            crate = line[3:].strip()
        elif line.startswith("### "):
            # A type, or the functions and constants that no type has.
            found = re.match(r"### `(?:struct|enum|trait) (\w+)", line)
            owner = f"{found[1]}::" if found else ""
        elif found := re.match(r"- `([\w:]+)[(<]", line):
            if not found[1].startswith("laws::"):
                functions.add((crate, owner + found[1]))
        elif line.startswith("- As of `"):
            functions |= {(crate, owner + it) for it in re.findall(r"`(\w+)`", line.partition(":")[2])}
    return functions


def called_functions(rows):
    """Checks that a stored line makes the call of each public function, itself or through a function of the libraries, and returns
    how many there are. A call that wasn't made, by its answer, doesn't count."""
    calls = set()
    for _, line, wanted in rows:
        head, _, rest = plain(line).partition(": ")
        name, *settings = head.rstrip(":").split(" ")
        calls |= {(name, "make")} | {(name, word.split("=")[0]) for word in settings}
        for call, text in zip(rest.split(";"), without_counts(wanted).split("; ")[1:]):
            if text not in ("unknown", "condition") and not text.startswith("operand "):
                calls |= {(name, call.strip().split(" ")[0]), (name, call.strip())}
    with open(f"{FOLDER}/functions", encoding="utf-8") as file:
        rows = [line.strip() for line in file if line.strip() and not line.startswith("#")]
    crates = {crate for row in rows if row.startswith("all ") for crate in row.split(" ")[1:]}
    named = set()
    for function, call in (row.split(" | ") for row in rows if not row.startswith("all ")):
        named.add(tuple(function.split(" ")))
        if tuple(call.split(" ", 1)) not in calls:
            fail(f"no stored line calls {function} by `{call}`")
    public = public_functions()
    lacking = {it for it in public - named if it[0] in crates}
    if lacking or named - public:
        fail(f"tests/calls/functions lacks {sorted(lacking)}, and names {sorted(named - public)}, which checks/api_page.py --all lacks")
    return len(named)


def main():
    words = sys.argv[1:]
    count = 0 if words == ["stored"] else int(words[1]) if words[1:] else COUNT
    seed = int(words[0]) if count and words else SEED
    # Whether the model gives the answers that were written by hand.
    calls_rows.check()
    rows = stored_rows()
    functions = called_functions(rows)
    stored = both_modes(rows)
    random_lines = [(line, [wanted]) for line, wanted in calls_random.lines(count, seed)] if count else []
    inputs = stored + random_lines
    found = program_answers([line for line, _ in inputs])
    compare(inputs, found)
    compare_modes(stored, found[: len(stored)])
    refused = refused_requests(stored, found[: len(stored)])
    both = sum(first[0] != second[0] for first, second in zip(stored[::2], stored[1::2]))
    print(f"stored lines: {len(rows)}, {both} of them in both modes, {refused} requests refused in turn; {functions} public functions called")
    refused = refused_requests(random_lines, found[len(stored) :])
    print(f"random lines: {len(random_lines)} answered as by the second implementation, {refused} requests refused in turn")


if __name__ == "__main__":
    main()
