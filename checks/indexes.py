"""What is listed of the crates: their files of definitions and lemmas by their first comments, wrong bodies, and counts.

`checks/pages.py --write FOLDER` writes these lists and the public items of all libraries as pages into a folder, which isn't committed.
"""
import os
import re
import subprocess
import sys

# Proofs that belong to one function, and so have no words of their own.
OF_ONE_FUNCTION = ("Answers.antt", "Invariants.antt", "Proof.antt")
WRONG = ("must-fail", "must-fail-on-demand")
FUNCTION = re.compile(r'^\s*(?:pub(?:\([^)]*\))? )?(?:const |unsafe |extern "C" )*fn \w+', re.M)


def text_of(path):
    with open(path, encoding="utf-8") as file:
        return file.read()


def crates():
    return sorted(os.listdir("crates"))


def files_of(crate, ending):
    """The paths of a crate's files with this ending, what is built left out."""
    for folder, folders, files in os.walk(f"crates/{crate}"):
        folders[:] = sorted(it for it in folders if it != "out")
        yield from (f"{folder}/{file}" for file in sorted(files) if file.endswith(ending))


def without_comments(text):
    return re.sub(r"^\s*(//|--).*$", "", text, flags=re.M)


def only_names_files(text):
    """Whether a file has only lines that name other files, as Lib.antt has."""
    lines = [line.split("--")[0].strip() for line in text.splitlines()]
    return all(re.fullmatch(r"(pub )?mod [\w«»]+|\s*", line) for line in lines)


def files_in(part):
    """The files of each crate's folder specs or proofs that have words of their own: their crate, name and text."""
    for crate in crates():
        top = f"crates/{crate}/{part}/"
        for path in files_of(crate, ".antt"):
            is_own = path.startswith(top) and "/formers/" not in path and (part == "specs" or os.path.basename(path) not in OF_ONE_FUNCTION)
            if is_own and not only_names_files(text_of(path)):
                yield crate, path[len(top) : -len(".antt")], text_of(path)


def first_comment(text):
    """The comment that a file begins with, in one line; empty without one."""
    lines = re.match(r"(?:--.*\n)*", text)[0].splitlines()
    return " ".join(it[2:].strip() for it in lines)


def wrong_bodies(crate):
    """The wrong bodies of a crate: the folder of each, the file and function that it changes, and its plain name."""
    for folder in WRONG:
        place = f"crates/{crate}/{folder}"
        for file in sorted(os.listdir(place)) if os.path.isdir(place) else []:
            changed, _, name = file.removesuffix(".edit").rpartition(".")
            yield folder, changed, name


def counts(crate):
    """How many functions, tests and wrong bodies of each folder a crate has."""
    sources = [without_comments(text_of(path)) for path in files_of(crate, ".rt")]
    found = [folder for folder, _, _ in wrong_bodies(crate)]
    functions = sum(len(FUNCTION.findall(it)) for it in sources)
    tests = sum(len(re.findall(r"^\s*#\[test\]", it, re.M)) for it in sources)
    return [functions, tests, *(found.count(it) for it in WRONG)]


def table(title, head, rows):
    lines = [f"# {title}", "", f"| {' | '.join(head)} |", "|---" * len(head) + "|"]
    return "\n".join(lines + [f"| {' | '.join(map(str, row))} |" for row in rows]) + "\n"


def write(place):
    """Writes each list into a folder, and returns the names of its pages."""
    bodies = [(crate, *it) for crate in crates() for it in wrong_bodies(crate)]
    pages = {
        f"{name}.md": table(title, ("crate", "file", "what it has"), [(crate, file, first_comment(text)) for crate, file, text in files_in(part)])
        for name, title, part in (("definitions", "Definitions", "specs"), ("lemmas", "Lemmas", "proofs"))
    }
    pages["wrong-bodies.md"] = table("Wrong bodies", ("crate", "folder", "file and function", "wrong body"), bodies)
    rows = [(crate, *counts(crate)) for crate in crates()]
    rows.append(("all", *(sum(row[at] for row in rows) for at in range(1, 5))))
    pages["counts.md"] = table("Counts", ("crate", "functions", "tests", *WRONG), rows)
    pages["API.md"] = subprocess.run([sys.executable, "checks/api_page.py", "--all"], capture_output=True, text=True, check=True).stdout
    os.makedirs(place, exist_ok=True)
    for name, text in pages.items():
        with open(os.path.join(place, name), "w", encoding="utf-8") as file:
            file.write(text)
    return list(pages)
