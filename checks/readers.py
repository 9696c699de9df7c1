#!/usr/bin/env python3
"""Inputs of the readers: those of tests/readers, with their answers; and hostile input by chance, 100000 damaged images
and 25000 damaged plan texts, of a fixed seed.

The program crates/tests_readers prints what the project's readers answer to each. It is built once, before any proof, and run on
some thousand inputs at a time. Its lines must be the stored ones, and those of the second readers, which follow the pages of
docs/: read_images.py, model_distinct.py for preambles and expressions, and read_plans.py. It takes two minutes. `checks/readers.py SEED` makes inputs
of another seed.
"""
import os
import random
import re
import shutil
import subprocess
import sys
import tempfile

sys.dont_write_bytecode = True
import model_distinct
import read_images
import read_plans

IMAGES = 100000
PREAMBLES = 10000
TEXTS = 25000
SEED = 2026
BATCH = 4000
TOP = os.path.dirname(os.path.dirname(os.path.abspath(__file__)))


def fail(text):
    """Ends the script."""
    sys.exit(f"readers: {text}")


# What is spelled with a backslash in a text.
ESCAPES = (("\\t", "\t"), ("\\n", "\n"), ("\\p", "|"))


def spelled(column):
    """The bytes of a column: a text in quotes, or hexadecimal digits."""
    if not column.startswith('"'):
        return bytes.fromhex(column)
    text = column[1:-1]
    for escape, letter in ESCAPES:
        text = text.replace(escape, letter)
    return text.encode()


def rows_of(name):
    """The rows of a file of tests/readers."""
    with open(f"{TOP}/tests/readers/{name}.cases", encoding="utf-8") as file:
        return [line.rstrip("\n") for line in file if line.strip() and not line.startswith("#")]


def stored_cases():
    """The rows of images, preambles and expressions: pairs of a reader's name and bytes, and the answer to each."""
    inputs, wanted = [], []
    rows = [row for name in ("images", "preambles", "expressions") for row in rows_of(name)]
    for name, reader, digits, *answer in ([part.strip() for part in row.split("|")] for row in rows):
        data = spelled(digits)
        image = [] if not answer[1:] else ["image", digits if answer[1] == "same" else answer[1]]
        inputs.append((reader, data))
        wanted.append((" ".join([answer[0], *image]),))
        if name.endswith("_and_beginnings"):
            inputs += [(reader, data[:size]) for size in range(len(data))]
            wanted += [("refused data",)] * len(data)
    return inputs, wanted


def stored_arguments():
    """The rows of arguments: pairs of a reader's name and the arguments, and the answer to each."""
    inputs, wanted = [], []
    for row in rows_of("arguments"):
        words, arrow, answer = re.fullmatch(r"(.*?) ?(=>|->) (.*)", row).groups()
        data = re.sub(r"\\(?:[ntr]|x[0-9a-f]{2})", lambda it: it[0].encode().decode("unicode_escape"), words).encode()
        inputs.append(("arguments" if arrow == "=>" else "message", data))
        wanted.append((answer if arrow == "=>" else f"2 {answer}",))
    return inputs, wanted


# Words of a flaw's message, and the flaw.
FLAWS = (
    ("is hexadecimal", "hexadecimal"),
    ("is of version", "version {1}"),
    ("is in big-endian", "big-endian"),
    ("was made with another seed", "seed"),
    ("is damaged (its preamble", "malformed"),
    ("is damaged (its theta", "theta"),
    ("is damaged", "damaged"),
    ("is cut short", "cut"),
    ("has bytes after its image", "longer"),
    ("is not the image of a theta sketch (", "family {2}"),
    ("is not the image", "short"),
)


def preamble(image):
    """What an image's first bytes say, as the page has it."""
    length = model_distinct.image_length(image)
    if length is None:
        count = 0
    elif model_distinct.is_flagged_empty(image):
        count = 0
    else:
        count = (length - (8 if image[1] == 3 and image[0] == 1 else model_distinct.preamble_length(image))) // 8
    message = model_distinct.flaw_of(image, read_images.SEED_HASH)
    flaw = next(word for begin, word in FLAWS if message.startswith(begin)).format(*image[:3])
    return f"{'unknown' if length is None else length} {count} {flaw}"


def expression(text):
    """The steps of an expression, as the page has them; only the beginning of the answer if it has a fault."""
    try:
        steps = model_distinct.steps_of(text.decode())
    except model_distinct.Fault:
        return "fault"
    spelled_steps = "".join(f"<{name}>" if kind == "name" else kind.replace("|", "+") for kind, name in steps)
    return f"{len(model_distinct.names_of(steps))} {spelled_steps}"


def second_answer(name, data):
    """The answer by the second reader of this name."""
    if name == "preamble":
        return preamble(bytes(data))
    if name == "expression":
        return expression(data)
    return read_images.answer(name, data)


def answers(inputs):
    """What the project answers to each of some pairs of a reader's name and bytes: one line each."""
    tool = shutil.which("rt") or fail("the toolchain's command rt is not on the path")
    with tempfile.TemporaryDirectory() as place:
        for start in range(0, len(inputs), BATCH):
            with open(f"{place}/{start:08}", "w", encoding="ascii") as file:
                file.writelines(f"{name} {data.hex()}\n" for name, data in inputs[start : start + BATCH])
        # The interpreter could not end within its steps; the compiled run checks each access and sum too.
        command = [tool, "try", "--steps", "1", "--cases", place]
        run = subprocess.run(command, cwd=f"{TOP}/crates/tests_readers", capture_output=True, check=False)
    lines = run.stdout.decode("utf-8", "replace").split("\n")
    found = [line for line in lines[:-1] if not line.startswith("== ")]
    if len(found) != len(inputs):
        sys.stderr.write(run.stderr.decode("utf-8", "replace")[-3000:])
        fail(f"{len(inputs)} inputs have {len(found)} answers")
    return found


def shorter(name, data):
    """An input as it is shown."""
    return data.decode("utf-8", "backslashreplace") if name == "plan" else data.hex()


def compare(inputs, found, wanted):
    """Shows the smallest input of those that are read otherwise than the pages say."""
    wrong = [at for at, line in enumerate(found) if line not in wanted[at]]
    if wrong:
        at = min(wrong, key=lambda at: len(inputs[at][1]))
        name, data = inputs[at]
        print(f"{name} {shorter(name, data)}\nis read as {found[at]}\nin place of {' or '.join(wanted[at])}")
        fail(f"{len(wrong)} of {len(inputs)} are read otherwise than the pages say")


def main():
    chance = random.Random(int(sys.argv[1]) if sys.argv[1:] else SEED)
    stored, wanted_stored = stored_cases()
    second = [second_answer(*it) for it in stored]
    begun = [(it[0].split(" ")[0] if by == "fault" else it[0],) for it, by in zip(wanted_stored, second)]
    compare(stored, second, begun)
    arguments, wanted_arguments = stored_arguments()
    stored, wanted_stored = stored + arguments, wanted_stored + wanted_arguments
    inputs = [read_images.damaged(chance) for _ in range(IMAGES)]
    inputs += [("preamble", image) for kind, image in inputs if kind == "theta"][:PREAMBLES]
    images = len(inputs)
    wanted = [(second_answer(*it),) for it in inputs]
    texts = [read_plans.damaged(chance) for _ in range(TEXTS)]
    inputs += [("plan", text) for text in texts]
    wanted += [read_plans.answers(text) for text in texts]
    found = answers(stored + inputs)
    compare(stored, found[: len(stored)], wanted_stored)
    print(f"stored inputs: {len(stored)} read as stored, with beginnings of images, {len(arguments)} of them arguments")
    found = found[len(stored) :]
    compare(inputs, found, wanted)
    accepted = sum(not line.startswith("refused") for line in found[:IMAGES])
    print(f"damaged images: {IMAGES} read as the page says, {accepted} accepted; {images - IMAGES} preambles")
    plans = sum(line.startswith(("show", "image")) for line in found[images:])
    values = sum(line.split(" ")[1] != "refused" for line in found[images:] if line.startswith(("show", "image")))
    print(f"damaged texts: {TEXTS} read as the pages say, {plans} plans, {values} with a value")


main()
