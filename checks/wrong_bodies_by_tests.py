#!/usr/bin/env python3
"""Applies wrong bodies to copies of the committed files, and demands that a check without proofs fails on each.

    checks/wrong_bodies_by_tests.py             the edits that checks/public_calls.py must refuse, and a body that always
                                                answers want of memory for each public function that may be refused
                                                memory and returns `Error`
    checks/wrong_bodies_by_tests.py --all       all edits: those too that checks/distinct and built programs must refuse
    checks/wrong_bodies_by_tests.py NAME..      the edits of these names alone; `refusals` for want of memory

An edit is a file of tests/wrong_bodies: what is wrong; `check:`, the command that must fail, of `checks/public_calls.py` the names of
rows of tests/calls that must be answered otherwise; and `file:`, `old:` and `new:` as in the edits of must-fail. Edits with the
same word behind `copy:` are built together: none of them is seen by the rows of another.

That the sources as they are answer all rows as tests/calls says is shown by checks/public_calls.py. It prints how many wrong bodies were
tried, and fails if one passes a check, or can't be built.
"""
import concurrent.futures
import os
import re
import shutil
import subprocess
import sys
import tempfile

sys.dont_write_bytecode = True
import api_page
import public_calls
from calls_words import agree

ROOT = os.path.dirname(os.path.dirname(os.path.abspath(__file__)))
EDITS = os.path.join(ROOT, "tests", "wrong_bodies")
REFUSAL = "if 0 < 1 {{ return Err({0}::Error::new({0}::ErrorKind::OutOfMemory)); }}"
SIDE_BY_SIDE = 3
# How many lines the program reads in one run.
BATCH = 25


class Wrong(Exception):
    """What keeps a wrong body from being tried."""


class Edit:
    """A wrong body: its name, what it does, the check that must fail, and the texts that take the place of others in files."""

    def __init__(self, name):
        self.name, self.check, self.copy, self.pairs = name, [], name, []
        with open(os.path.join(EDITS, f"{name}.edit"), encoding="utf-8") as file:
            lines = file.read().splitlines()
        self.told, path, old = lines[0].lstrip("# "), "", None
        for line in lines[1:]:
            word, _, text = line.partition(": ")
            if word == "check":
                self.check = text.split()
            elif word == "copy":
                self.copy = text
            elif word == "file":
                path = text.strip()
            elif word == "old":
                old = text
            elif word == "new":
                self.pairs.append((path, old, text))
            elif line.strip():
                raise Wrong(f"{name}: a line that is none: {line}")
        if not self.check or not self.pairs:
            raise Wrong(f"{name}: no check, or no new text")

    def apply(self, copy):
        """Applies it to a copy of the sources."""
        for path, old, new in self.pairs:
            with open(os.path.join(copy, path), encoding="utf-8") as file:
                text = file.read()
            if text.count(old) != 1:
                raise Wrong(f"{self.name}: {path} has the old text {text.count(old)} times: {old}")
            with open(os.path.join(copy, path), "w", encoding="utf-8") as file:
                file.write(text.replace(old, new))


def copied(place, name):
    """A copy of the committed files."""
    copy = os.path.join(place, re.sub(r"\W", "_", name))
    os.mkdir(copy)
    archive = subprocess.Popen(["git", "-C", ROOT, "archive", "HEAD"], stdout=subprocess.PIPE)
    subprocess.run(["tar", "-x", "-C", copy], stdin=archive.stdout, check=True)
    if archive.wait():
        raise Wrong("git archive failed")
    return copy


# Lines of calls


def batches(lines):
    """Lines in batches. The program may end early at bytes whose write was refused, and then answers no line of its batch, so each
    such line is alone."""
    parts = [[]]
    for line in lines:
        is_alone = plain(line).startswith("bytes")
        if is_alone or len(parts[-1]) == BATCH:
            parts.append([])
        parts[-1].append(line)
        if is_alone:
            parts.append([])
    return [part for part in parts if part]


def plain(line):
    """A line without its mode."""
    return line.removeprefix("refusing ")


def program_answers(copy, lines):
    """What the program crates/calls of a copy, built before any proof, answers to each of some lines: `stopped` to one at which it
    ended early, and None if it ended at an unknown one of several."""
    place, parts = f"{copy}.lines", batches(lines)
    os.mkdir(place)
    for number, part in enumerate(parts):
        with open(os.path.join(place, f"{number:08}"), "w", encoding="utf-8") as file:
            file.writelines(f"{line}\n" for line in part)
    # The interpreter could not end within its steps. The time is that of a batch, on a busy machine.
    command = ["rt", "try", "--steps", "1", "--seconds", "300", "--cases", place]
    run = subprocess.run(command, cwd=f"{copy}/crates/calls", capture_output=True, text=True, errors="replace")
    shutil.rmtree(place)
    found, batch = {}, []
    for line in run.stdout.split("\n")[:-1]:
        if line.startswith("== "):
            batch = found.setdefault(line[len("== ") :], [])
        else:
            batch.append(line)
    if not any(found.values()):
        raise Wrong(f"there are no answers: {run.stderr[-2000:]}")
    answers = []
    for number, part in enumerate(parts):
        batch = found.get(f"{number:08}", [])
        answers += batch if len(batch) == len(part) else ["stopped"] if len(part) == 1 else [None] * len(part)
    return answers


def answers_of(copy, rows):
    """The answers of a copy to the lines of rows, by the rows' names. The copy is removed."""
    answers = program_answers(copy, [row[1] for row in rows])
    shutil.rmtree(copy)
    return dict(zip([row[0] for row in rows], answers))


def edited(place, edits, rows):
    """The answers of a copy to which edits were applied."""
    copy = copied(place, edits[0].copy)
    for edit in edits:
        edit.apply(copy)
    return answers_of(copy, rows)


def passing_rows(rows, edit, answers):
    """The rows that an edit names and that are answered as they should be."""
    wanted = {row[0]: row[2] for row in rows}
    unknown = [name for name in edit.check[1:] if name not in wanted]
    if unknown:
        raise Wrong(f"{edit.name}: tests/calls has no rows {' '.join(unknown)}")
    return [name for name in edit.check[1:] if answers[name] is None or agree(wanted[name], answers[name])]


# Want of memory for each allocating public function


class Function:
    """A public function that may be refused memory: its name, which of the functions of that name it is in the order of the
    sources, the line of its body's brace in a file, and the call that makes it in lines: an object and a word, or `make`."""

    def __init__(self, crate, item, number, call):
        self.crate, self.item, self.number, self.call = crate, item, number, call
        self.path, self.line = None, None

    def find(self, api):
        """Looks for its body; returns whether it has one and returns the error of sketches."""
        owner, _, name = self.item.rpartition("::")
        found = []
        for crate in [self.crate, *api.LIBRARIES[self.crate]]:
            folder = f"crates/{crate}/src"
            for file in sorted(os.listdir(os.path.join(ROOT, folder))):
                items = [it for it in api.items_of(os.path.join(ROOT, folder, file)) if it.kind == "fn" and it.name == name]
                items = [it for it in items if it.owner == owner or (not it.owner and owner in ("", file[: -len(".rt")]))]
                # A type's methods of one name stand in several of its impls.
                found += [(f"{folder}/{file}", item, at) for at, item in enumerate(items)]
        if self.number >= len(found):
            raise Wrong(f"{self.item} of {self.crate} stands {self.number + 1} times in tests/calls/functions, and {len(found)} times in the sources")
        self.path, item, at = found[self.number]
        self.line = body_line(os.path.join(ROOT, self.path), item, at)
        return self.line is not None and re.search(r"-> Result<.*\bError>$", api.signature(item)) is not None


def body_line(path, item, at):
    """The number of the line that ends in the brace of a function's body, or None if it has no body. The function is the `at`th
    of its name and type in a file, from 0."""
    with open(path, encoding="utf-8") as file:
        lines = file.read().split("\n")
    owner = ""
    for number, line in enumerate(lines):
        if re.match(r"(impl|trait|pub trait)\b", line):
            owner = line if line.endswith("{") else " ".join(lines[number : number + 12])
        depth = len(line) - len(line.lstrip())
        is_owner = not item.owner or re.search(rf"\b{item.owner}\b", owner)
        if not (is_owner and re.match(rf"\s*(pub )?(const )?fn {item.name}\b", line)):
            continue
        if at > 0:
            at -= 1
            continue
        in_clauses, braces = False, 0
        for after, text in enumerate(lines[number:], number):
            in_clauses = in_clauses or re.match(r"\s*(requires|ensures)\b", text) is not None
            braces += text.count("{") - text.count("}")
            if text == " " * depth + "{" or (text.endswith("{") and not in_clauses):
                return after
            if text.endswith(";") and braces == 0:
                return None
    return None


def allocating(api):
    """The functions that tests/calls/functions names, if they return the error of sketches. A name that stands there several times
    is that of as many functions, in their order."""
    functions, times = [], {}
    with open(os.path.join(ROOT, "tests", "calls", "functions"), encoding="utf-8") as file:
        for line in file:
            parts = line.strip().split(" | ")
            if len(parts) == 2 and not line.startswith("#"):
                number = times.setdefault(parts[0], 0)
                times[parts[0]] += 1
                function = Function(*parts[0].split(" "), number, tuple(parts[1].split(" ", 1)))
                if function.find(api):
                    functions.append(function)
    return functions


def refuse(copy, functions):
    """Makes the bodies of functions answer want of memory at once."""
    for path in sorted({it.path for it in functions}):
        with open(os.path.join(copy, path), encoding="utf-8") as file:
            lines = file.read().split("\n")
        refusal = REFUSAL.format("crate" if path.startswith("crates/sketch_base/") else "sketch_base")
        for number in {it.line for it in functions if it.path == path}:
            lines[number] += " " + refusal
        with open(os.path.join(copy, path), "w", encoding="utf-8") as file:
            file.write("\n".join(lines))


def refused_calls(rows, found, known):
    """The calls, an object and a word, that are the first of some row to be answered otherwise, and by want of memory. What makes
    the object of a row is the call of one of its settings, if that is one of the calls that are known."""
    calls = set()
    for name, line, wanted in rows:
        if found[name] is None:
            continue
        head, _, rest = plain(line).partition(": ")
        words = head.rstrip(":").split(" ")
        before, after = wanted.split("; "), found[name].split("; ")
        at = next((at for at, pair in enumerate(zip(before, after)) if not agree(*pair)), None)
        if at is None or not re.match(r"memory\b", after[at]):
            continue
        if at > 0:
            calls.add((words[0], rest.split("; ")[at - 1].split(" ")[0]))
        elif not any(word.startswith(("sketch:", "compact:", "unordered:")) for word in words):
            # An operand of a line is made by other calls.
            settings = {(words[0], word.split("=")[0]) for word in words[1:]}
            calls |= settings & known or {(words[0], "make")}
    return calls


def refusing(place, name, functions, rows):
    """The answers of a copy in which some functions answer want of memory, no two of one call, and these functions."""
    first = {}
    for function in functions:
        first.setdefault(function.call, function)
    copy = copied(place, f"refusals {name}")
    refuse(copy, first.values())
    return list(first.values()), answers_of(copy, rows)


def unseen(rows, functions, tried, answers):
    """The functions whose call is not the first of any row to be answered otherwise: another one failed before it, or no row
    has the call."""
    found = refused_calls(rows, answers, {it.call for it in functions})
    seen = [it for it in tried if it.call in found]
    return [it for it in functions if it not in seen]


# What is tried


def try_lines(edits, with_refusals):
    """Tries the edits that lines of calls must refuse, and want of memory. Prints what was tried, and returns what passed."""
    rows = public_calls.stored_rows()
    functions = allocating(api_page) if with_refusals else []
    makers = [it for it in functions if it.call[1] in ("make", "seed")]
    # The word `read` writes an image first, by a call that is among the others.
    readers = [it for it in functions if it.call[1] == "read"]
    others = [it for it in functions if it not in makers and it not in readers]
    groups = {}
    for edit in edits:
        groups.setdefault(edit.copy, []).append(edit)
    with tempfile.TemporaryDirectory() as place, concurrent.futures.ThreadPoolExecutor(SIDE_BY_SIDE) as pool:
        jobs = [pool.submit(edited, place, group, rows) for group in groups.values()]
        parts = [part for part in (makers, others, readers) if part]
        refusals = [pool.submit(refusing, place, f"first {at}", part, rows) for at, part in enumerate(parts)]
        wrong = []
        for group, job in zip(groups.values(), jobs):
            answers = job.result()
            for edit in group:
                wrong += [f"{edit.name} ({edit.told}) passes {name}" for name in passing_rows(rows, edit, answers)]
        left = functions
        for job in refusals:
            left = unseen(rows, left, *job.result())
        # Of two with one call only the first was tried, and what is behind a refused call in each row wasn't seen. The fewer
        # functions a copy has, the more of them are seen.
        for turn in range(4):
            parts = [part for part in (left[at::SIDE_BY_SIDE] for at in range(SIDE_BY_SIDE)) if part]
            refusals = [pool.submit(refusing, place, f"{turn} {at}", part, rows) for at, part in enumerate(parts)]
            for job in refusals:
                left = unseen(rows, left, *job.result())
    wrong += [f"{it.item} of {it.crate} may always answer want of memory: no row of {' '.join(it.call)} fails" for it in left]
    print(f"wrong_bodies_by_tests: {len(edits)} wrong bodies and {len(functions)} functions that answer want of memory, by {len(rows)} lines of calls")
    return wrong


def try_script(edit):
    """Tries an edit by a script that runs programs: `checks/distinct` builds its own, before any proof, and others run those that
    are proved and built in the copy. Returns what passed."""
    with tempfile.TemporaryDirectory() as place:
        copy = copied(place, edit.name)
        edit.apply(copy)
        environment = dict(os.environ)
        if edit.check[0] != "checks/distinct":
            for name in ("sketchtool", "distinct"):
                built = subprocess.run(["rt", "run", "--", "--version"], cwd=f"{copy}/crates/{name}", stdin=subprocess.DEVNULL, capture_output=True, text=True)
                program = f"{copy}/crates/{name}/out/{name}"
                if not os.access(program, os.X_OK):
                    raise Wrong(f"{edit.name}: {name} can't be built: {built.stdout[-1000:]}{built.stderr[-1000:]}")
                environment[f"{name.upper()}_PROGRAM"] = program
        done = subprocess.run(edit.check, cwd=copy, env=environment, capture_output=True, text=True, errors="replace")
        script = os.path.basename(edit.check[0]).removesuffix(".py")
        # What a check finds is a line that begins with its name.
        if done.returncode == 0:
            return [f"{edit.name} ({edit.told}) passes {' '.join(edit.check)}"]
        if not re.search(rf"^{script}: ", done.stdout + done.stderr, re.M) or "error[" in done.stdout + done.stderr:
            raise Wrong(f"{edit.name}: {' '.join(edit.check)} didn't come to an end: {(done.stdout + done.stderr)[-1000:]}")
        print(f"wrong_bodies_by_tests: {edit.name} is refused by {' '.join(edit.check)}", flush=True)
        return []


def main():
    words = sys.argv[1:]
    changed = subprocess.run(["git", "-C", ROOT, "status", "--porcelain"], capture_output=True, text=True)
    if changed.returncode != 0 or changed.stdout:
        sys.exit(f"wrong_bodies_by_tests: commit first, since the copies are of what is committed: {(changed.stdout or changed.stderr)[:500]}")
    names = sorted(name[: -len(".edit")] for name in os.listdir(EDITS) if name.endswith(".edit"))
    try:
        edits = [Edit(name) for name in names if not words or words == ["--all"] or name in words]
        with_refusals = not words or words == ["--all"] or "refusals" in words
        unknown = [word for word in words if word not in (*names, "refusals", "--all")]
        if unknown:
            sys.exit(f"wrong_bodies_by_tests: no edit has the name {' '.join(unknown)}")
        by_lines = [edit for edit in edits if edit.check[0] == "checks/public_calls.py"]
        by_scripts = [edit for edit in edits if edit not in by_lines] if words else []
        wrong = try_lines(by_lines, with_refusals) if by_lines or with_refusals else []
        for edit in by_scripts:
            wrong += try_script(edit)
    except Wrong as reason:
        sys.exit(f"wrong_bodies_by_tests: {reason}")
    for line in wrong:
        print(f"wrong_bodies_by_tests: {line}")
    if wrong:
        sys.exit(f"wrong_bodies_by_tests: {len(wrong)} checks passed that must fail")
    if by_scripts:
        print(f"wrong_bodies_by_tests: {len(by_scripts)} wrong bodies, by checks of programs")
    print("wrong_bodies_by_tests: no wrong body passed unnoticed")


if __name__ == "__main__":
    main()
