#!/usr/bin/env python3
"""Compares pages and comments with the sources: checks/pages.py prints what differs, and fails if anything does.

- Each file of specs/, and each of lemmas in proofs/, begins with a comment of sentences; each public item has a doc comment.
- docs/use/API.md is what checks/api_page.py makes of the sources.
- Each page of docs/ is named in docs/README.md. Each link of a page, and each name of a page in another file, leads to a file, and
  to its section if one is named behind it. Each name that stands alone in backquotes (a path, or a word with an underscore or a
  capital inside) is that of something in the repository.
- Each clause that a row of docs/verify/PROMISES.md names is one of the functions that are named before it.
- The table of options in docs/use/DISTINCT.md is what checks/options_table.py makes of the help of `distinct`.
- crates.txt has each crate, with just the libraries that it names, and docs/develop/ARCHITECTURE.md (its picture too) names it.
- theta_core exports each law of the crates that it shows: by its name in its module laws, or the whole module as `image::laws`.
- The program of README.md is that of crates/example_readme, which the gate proves and runs, and README.md has at most nine kilobytes.
- CONTRIBUTING.md names each script of checks/ and bench/.

checks/pages.py --write FOLDER writes the lists that no page has (checks/indexes.py), such as into build/pages.
"""
import fnmatch
import glob
import os
import re
import subprocess
import sys

sys.dont_write_bytecode = True
import api_page
import indexes
import options_table
from indexes import text_of

ARCHITECTURE = "docs/develop/ARCHITECTURE.md"
PROMISES = "docs/verify/PROMISES.md"
FUNCTION_OR_CLAUSE = re.compile(r"\bfn (\w+)|^\s*(?:requires|ensures)\*?\s+(\w+)\s*\{", re.M)
# Pages that name functions of other libraries.
OF_OTHERS = ("docs/use/DIFFERENCES.md", "docs/use/OTHER-LIBRARIES.md")
LINK = r"\]\(([^)#:]+)\)"
PAGE = r"\b(docs/[\w/-]+\.md)"
TOP_FOLDERS = r"(?:\.ci|bench|bindings|checks|crates|docs|examples|include|packaging|tests)/"
# Parts of a path that stand for others, and folders that are built.
PLACEHOLDER = re.compile(r"[A-Z]{3,}(?!\w*\.md)|/out/|/out$|/build/")


def comments(files):
    """The files of specs/ and proofs/ without a first comment of sentences."""
    for part in files:
        for crate, name, text in files[part]:
            if not re.fullmatch(r"[A-Z0-9`«].*\.", indexes.first_comment(text)):
                yield f"crates/{crate}/{part}/{name}.antt does not begin with a comment of sentences: -- What it has."


def public_items(api):
    """Public items without a doc comment, and whether docs/use/API.md differs from the sources."""
    for crate in indexes.crates():
        for path in indexes.files_of(crate, ".rt"):
            for item in api.items_of(path):
                # `default()` is described by its trait.
                if item.kind != "impl" and not item.doc and item.name != "default":
                    yield f"{path} has no doc comment for {item.name}"
    if text_of("docs/use/API.md") != api.page(api.USED):
        yield "docs/use/API.md is not what the sources have: checks/api_page.py --write makes it"


def committed():
    """The committed files outside docs/, as pairs of a path and its text."""
    listed = subprocess.run(["git", "ls-files", "--cached", "--others", "--exclude-standard"], capture_output=True, text=True, check=True)
    for path in listed.stdout.splitlines():
        if not path.startswith("docs/") and os.path.exists(path):
            with open(path, encoding="utf-8", errors="replace") as file:
                yield path, file.read()


def missing_names(page, text, words):
    """The names that stand alone in backquotes on a page, and of which the repository has nothing."""
    for span in sorted(set(re.findall(r"`([^`\n]+)`", text))):
        path = re.match(rf"{TOP_FOLDERS}[\w./*-]+", span)
        if path and not PLACEHOLDER.search(path[0]) and not glob.glob(path[0].rstrip("./")):
            yield path[0]
        if page not in OF_OTHERS and re.fullmatch(r"[\w:.]+", span):
            yield from (it for it in re.findall(r"\w+", span) if re.search(r"\w_\w|[a-z][A-Z]", it) and it not in words)


def missing_places(folder, link, text):
    """The places that a text names and that aren't there: a link in a folder, and the section that is named behind it."""
    for path, title, number in sorted(set(re.findall(link + r'(?:, "([^"]+)"|, section (\d+))?', text))):
        target = os.path.join(folder, path)
        if not os.path.exists(target):
            yield path
        elif (title or number) and not re.search(rf"^#+ {re.escape(title or number + '.')}", text_of(target), re.M | re.I):
            yield f"{path}, {title or 'section ' + number}"


def pages():
    """What pages name that isn't there, pages that the index doesn't name, and pages that other files name wrongly."""
    words, index = set(), text_of("docs/README.md")
    for path, text in committed():
        words.update(re.findall(r"\w+", path), re.findall(r"\w+", text))
        if path != "CHANGELOG.md":
            yield from (f"{path} names {it}, which is not there" for it in missing_places(".", PAGE, text))
    for page in sorted(glob.glob("docs/**/*.md", recursive=True)):
        if page != "docs/README.md" and f"]({os.path.relpath(page, 'docs')})" not in index:
            yield f"docs/README.md does not name {page}"
        text = re.sub(r"^```.*?^```$", "", text_of(page), flags=re.M | re.S)
        yield from (f"{page} links to {it}, which is not there" for it in missing_places(os.path.dirname(page), LINK, text))
        yield from (f"{page} names {it}, which is not there" for it in missing_places(".", PAGE, text))
        if page != "docs/use/API.md":
            yield from (f"{page} names {it}, which is not there" for it in missing_names(page, text, words))


def clauses():
    """The labels of the clauses of each function, by its name."""
    found, name = {}, ""
    for crate in indexes.crates():
        for path in indexes.files_of(crate, ".rt"):
            for function, label in FUNCTION_OR_CLAUSE.findall(indexes.without_comments(text_of(path))):
                name = function or name
                found.setdefault(name, set()).update({label} - {""})
    return found


def fields():
    """The names of the fields of all records of definitions."""
    paths = (it for crate in indexes.crates() for it in glob.glob(f"crates/{crate}/specs/**/*.antt", recursive=True))
    return {it for path in paths for it in re.findall(r"^  pub (\w+) :", text_of(path), re.M)}


def unknown_clauses(part, labels, known_fields):
    """The clauses of 'F, G clauses A, B' that none of its functions has, with these. In 'F clause A, G clause B' the functions of
    the second list are behind the clauses of the first. `A.B` is the field B of the record that clause A is."""
    names, *lists = (re.findall(r"`(?:\w+::)*([\w*]+(?:\.\w+)*)`", it) for it in re.split(r"\bclauses?\b", part))
    for behind, words in zip(reversed(range(len(lists))), lists):
        known = [labels[it] for name in names for it in fnmatch.filter(labels, name)]
        have = set().union(*known, labels if behind else ())
        for word in words:
            clause, *inner = word.split(".")
            if known and not (clause in have and known_fields.issuperset(inner)):
                yield word, names
        names = [it for it in words if it in labels]


def promises():
    """The clauses that a row of PROMISES names and none of its functions has."""
    labels, known_fields = clauses(), fields()
    for row in re.findall(r"^\|.*\| (.*) \|$", text_of(PROMISES), re.M):
        for part in re.sub(r"\([^)]*\)", "", row).split(";"):
            for word, names in unknown_clauses(part, labels, known_fields):
                yield f"{PROMISES}: no function of {', '.join(names)} has a clause {word}"


def options():
    """Whether the table of options in docs/use/DISTINCT.md differs from the help of distinct."""
    if options_table.of_page(text_of(options_table.PAGE))[1] != options_table.table():
        yield "docs/use/DISTINCT.md does not have the options of the help: checks/options_table.py --write makes their table"


def forgotten_laws():
    """The laws of the crates below theta_core that it does not export."""
    names, whole = text_of("crates/theta_core/src/laws.rt"), text_of("crates/theta_core/src/lib.rt")
    for crate in sorted(set(re.findall(r"pub use (core_\w+)::", names + whole))):
        path = f"crates/{crate}/src/laws.rt"
        if not os.path.exists(path) or re.search(rf"pub use {crate}::\{{[^}}]*\blaws\b", whole):
            continue
        listed = re.search(rf"pub use {crate}::laws::(?:\{{([^}}]*)\}}|(\w+));", names)
        exported = set(re.findall(r"\w+", (listed[1] or listed[2]) if listed else ""))
        for law in sorted(set(re.findall(r"^pub fn (\w+)", text_of(path), re.M)) - exported):
            yield f"crates/theta_core/src/laws.rt does not export the law {law} of {crate}"


def crates():
    """What crates.txt and the page of crates say wrongly."""
    lines = [line for line in text_of("crates.txt").splitlines() if line and not line.startswith("#")]
    # A static library has the word `staticlib` before the colon.
    listed = {line.partition(":")[0].split()[0]: line.partition(":")[2].split() for line in lines}
    there = indexes.crates()
    pages = {ARCHITECTURE: text_of(ARCHITECTURE)}
    pages[f"the picture of {ARCHITECTURE}"] = pages[ARCHITECTURE].split("```")[1]
    for crate in there:
        if crate not in listed:
            yield f"crates.txt has no line for {crate}"
            continue
        sources = [*indexes.files_of(crate, ".rt"), *indexes.files_of(crate, ".antt")]
        text = indexes.without_comments("\n".join(map(text_of, sources)))
        own = set(re.findall(r"^\s*(?:pub )?mod (\w+)", text, re.M))
        named = {*re.findall(r"(\w+)::", text), *re.findall(r"\bRattle\.(\w+)\.", text)} & {*there} - own - {crate}
        if named != set(listed[crate]):
            yield f"crates.txt: {crate} names {' '.join(sorted(named))}"
        yield from (f"{page} does not name the crate {crate}" for page, content in pages.items() if not re.search(rf"\b{crate}\b", content))


def readme():
    """What is wrong with README.md."""
    text = text_of("README.md")
    if text_of("crates/example_readme/src/main.rt") not in text.split("```rust\n")[-1]:
        yield "the program of README.md is not that of crates/example_readme/src/main.rt"
    if text_of("crates/example_readme/stdout").strip() not in text:
        yield "README.md does not say what crates/example_readme prints"
    if len(text.encode()) > 9216:
        yield f"README.md has {len(text.encode())} bytes, more than nine kilobytes"


def scripts():
    """The scripts of checks/ and bench/ that CONTRIBUTING.md doesn't name."""
    text = text_of("CONTRIBUTING.md")
    for path in sorted(glob.glob("checks/*") + glob.glob("bench/**", recursive=True)):
        if os.path.isfile(path) and os.access(path, os.X_OK) and f"`{path}`" not in text:
            yield f"CONTRIBUTING.md does not name {path}"


def main():
    os.chdir(os.path.join(os.path.dirname(os.path.abspath(__file__)), ".."))
    if sys.argv[1:2] == ["--write"] and len(sys.argv) == 3:
        print(f"pages: {', '.join(indexes.write(sys.argv[2]))} in {sys.argv[2]}")
        return
    if sys.argv[1:]:
        sys.exit("pages: no argument, or --write FOLDER")
    files = {part: list(indexes.files_in(part)) for part in ("specs", "proofs")}
    wrong = [*comments(files), *public_items(api_page), *pages(), *promises(), *options(), *crates(), *forgotten_laws(), *readme(), *scripts()]
    for it in wrong:
        print(f"pages: {it}")
    if wrong:
        sys.exit(1)
    print(f"pages: {len(files['specs'])} definition files and {len(files['proofs'])} lemma files begin with a comment, and pages name what is there")


main()
