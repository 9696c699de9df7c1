#!/usr/bin/env python3
"""Makes docs/use/API.md from the sources: each public item of the crates that users name, with its signature, what it does, its
errors, and the names of its conditions and promises.

checks/api_page.py prints the page, checks/api_page.py --write writes it, and checks/pages.py compares it with the sources. checks/api_page.py --all prints
one of all libraries, which isn't committed.
"""
import os
import re
import sys

TOP = os.path.join(os.path.dirname(os.path.abspath(__file__)), "..")

# The crates that users name, in the order of the page, with the crates whose items each shows under its own name.
USED = {
    "theta_sketches": ["core_laws", "core_slots", "core_state", "core_table"],
    "tuple_sketches": ["core_slots", "core_policies", "core_images"],
    "estimates": [],
    "sketch_base": [],
}
# All libraries, likewise.
LIBRARIES = {
    "theta_sketches": [],
    "tuple_sketches": [],
    "plan_text": [],
    "plan_evaluation": [],
    "plan_runs": [],
    "keys_lines": [],
    "keys_sketches": [],
    "keys_sums": [],
    "keys_groups": [],
    "expression_text": [],
    "expression_evaluation": [],
    "estimates": [],
    "totals": [],
    "keys_reports": [],
    "theta_core": ["core_laws", "core_slots", "core_compact", "core_table", "core_policies", "core_operators",
                   "core_images", "core_state"],
    "theta_tables": [],
    "sketch_base": [],
}

ITEM = re.compile(r"pub (?:const )?(fn|struct|enum|trait|const|type) (\w+)")
CLAUSE = re.compile(r"(requires|ensures)\*?\s+(\w+)?\s*\{")
REFUSES = re.compile(r"\b(fails?|[Rr]efuse[sd]?|(A|after a) refusal)\b")
# What a sentence on errors says under the word Errors already, and what stands in its place.
UNDER_ERRORS = (
    (r"^Refused with (?=`)", ""), (r"^Refused, in this order, with (?=`)", "In this order "), (r"^Refused as (`\w+`) is\.", r"As of \1."),
    (r"^Never refused: ", "None: "), (r"\b(and|or) with (?=`)", r"\1 "), (r", with (?=`)", ", "),
)
# A sentence that is read only with the one before it.
LEANS = re.compile(r"^Each\b|\bonly then\b")
DERIVES = re.compile(r"#\[derive\(([^)]*)\)\]")
# The parameters of a type or a trait, with those of its parameters.
PARAMETERS = r"(?:<(?:[^<>]|<(?:[^<>]|<[^<>]*>)*>)*>)"
OF_TRAIT = re.compile(rf"impl{PARAMETERS}? ([\w:]+{PARAMETERS}?) for (\w+)")
# The traits of std that a user of a type calls. Those of the prover, and the libraries' own, are not among them.
TRAITS = {"Clone", "Copy", "Debug", "Default", "Display", "Eq", "Error", "From", "Hash", "Hasher", "Iterator", "Ord", "PartialEq", "PartialOrd"}


def text_of(path):
    with open(path, encoding="utf-8") as file:
        return file.read()


def exported(crate):
    """The names that a crate's root exports, and its public modules."""
    root = text_of(f"{TOP}/crates/{crate}/src/lib.rt")
    names = set()
    for group, single in re.findall(r"pub use [\w:]+::(?:\{([^}]*)\}|(\w+));", root):
        names |= {it.strip() for it in (group or single).split(",") if it.strip()}
    for name in re.findall(r"^pub const (\w+)", root, re.M):
        names.add(name)
    for path, single in re.findall(r"pub use ([\w:]+)::(\w+);", root):
        names.add(single)
    modules = set(re.findall(r"^pub mod (\w+)", root, re.M)) | {it for it in names if it.islower()}
    return names, modules


def sentences(doc):
    return re.split(r"(?<=\.)\s+(?=[A-Z`])|(?<=:)\s+(?=[A-Z])", " ".join(doc).strip())


def plain(text):
    return re.sub(r"\s+", " ", text).strip()


class Item:
    """A public item: its owner, what kind it is, its name, its signature, its doc comment, its clauses, and the traits that a
    type derives."""

    def __init__(self, owner, kind, name, doc, traits=()):
        self.owner, self.kind, self.name, self.doc, self.traits = owner, kind, name, doc, list(traits)
        self.signature, self.requires, self.ensures = "", [], []


def std_trait(name):
    """The name of a trait of std without its module, if a user of the type calls it."""
    short = re.sub(r"^(\w+::)+", "", name)
    return short if re.match(r"\w+", short)[0] in TRAITS else None


def items_of(path):
    """The public items of a file, in its order; an `impl` of a trait of std is one of its type, of kind impl."""
    owner, in_trait, of_default, doc, derived, item, found = "", False, False, [], [], None, []
    # The head of an impl may have several lines.
    source = re.sub(r"^impl<\n(?: +.*\n)*?>", lambda it: plain(it[0]), text_of(path), flags=re.M)
    for line in source.splitlines():
        text, depth = line.strip(), len(line) - len(line.lstrip())
        if text.startswith("///"):
            doc.append(text[3:].strip())
            continue
        if text.startswith(("#[", "//")):
            derived += [it.strip() for group in DERIVES.findall(text) for it in group.split(",")]
            continue
        if item is not None:
            clause = CLAUSE.match(text)
            if clause:
                (item.requires if clause[1] == "requires" else item.ensures).append(clause[2])
            elif not text.startswith("{") and not item.requires and not item.ensures:
                item.signature += " " + text
            if text.startswith("{") or (not clause and text.endswith(("{", "{}"))) or text.endswith(";"):
                item = None
            continue
        if depth == 0 and re.match(r"(impl|pub trait|trait)\b", text):
            named = re.search(r"\bfor ([\w:]+)", text) or re.search(r"(?:impl(?:<.*?>)? |trait )([\w:]+)", re.sub(r"<[^<>]*(<[^<>]*>[^<>]*)*>", "", text))
            owner = named[1].rstrip(":") if named else ""
            in_trait = "trait " in text and not text.startswith("impl")
            is_of_trait = text.startswith("impl") and " for " in text
            of_std = OF_TRAIT.match(text)
            trait = std_trait(of_std[1]) if of_std else None
            if trait:
                found.append(Item(of_std[2], "impl", trait, []))
            of_default = trait == "Default"
            if in_trait and text.startswith("pub"):
                found.append(Item("", "trait", owner, doc))
                found[-1].signature = plain(text.rstrip("{"))
            doc = []
            if is_of_trait and not of_default:
                owner = ""
            continue
        if depth == 0 and text == "}":
            owner, in_trait, of_default = "", False, False
        match = ITEM.match(text)
        member = (in_trait or of_default) and depth == 4 and re.match(r"(fn) (\w+)", text)
        if (match and (depth == 0 or (depth == 4 and owner))) or member:
            kind, name = (match or member)[1], (match or member)[2]
            if kind == "trait":
                continue
            new = Item(owner if depth else "", kind, name, doc, filter(std_trait, derived))
            derived = []
            new.signature = text
            found.append(new)
            if kind == "fn" and not text.endswith((";", "{}")):
                item = new
                if text.endswith("{"):
                    item = None
            doc = []
            continue
        if text:
            doc, derived = [], []
    return found


def signature(item):
    text = plain(re.sub(r"^pub ", "", item.signature))
    text = re.sub(r"\s*(\{\}?|;|\bwhere\b.*)$", "", text)
    text = re.sub(r"\(\s+", "(", text)
    text = re.sub(r",\s*\)", ")", text)
    text = re.sub(r",\s*>", ">", text)
    text = re.sub(r"<\s+", "<", text)
    if item.kind in ("struct", "enum"):
        text = re.split(r"\s*[{(;]", text)[0]
    return text


def short_signature(item):
    """The signature as the page shows it, without what its first paragraph says once."""
    text = re.sub(r"^(?:const )?fn ", "", signature(item))
    return text.replace("<'_>", "").replace("<'_, ", "<").replace(", Error>", ">")


def described(item):
    said = sentences(item.doc)
    first = said[0] if said and said[0] else ""
    errors = []
    for before, it in zip(said, said[1:]):
        if REFUSES.search(it):
            errors += [before, it] if LEANS.search(it) and before is not first else [it]
    return first, errors


def under_errors(sentence):
    """A sentence on errors, without the words that the heading says."""
    for words, instead in UNDER_ERRORS:
        sentence = re.sub(words, instead, sentence)
    return sentence


def names(clauses):
    shown = [it for it in clauses if it]
    if any(it is None for it in clauses):
        shown.append("(unnamed)")
    return ", ".join(shown)


def parts_of(item, traits=()):
    """What a row says of an item behind its signature, by what it is about."""
    first, errors = described(item)
    parts = {}
    if first:
        parts["does"] = first if first.endswith((".", ":")) else first + "."
    if errors:
        # What a type says of refusals is about its calls.
        parts["errors"] = "*Errors:* " + " ".join(map(under_errors, errors)) if item.kind == "fn" else " ".join(errors)
    if traits:
        parts["traits"] = "*Traits:* " + ", ".join(sorted(set(traits))) + "."
    # A clause without a name says what the function returns.
    if any(item.requires):
        parts["requires"] = "*Requires:* " + names(item.requires) + "."
    if any(item.ensures):
        parts["ensures"] = "*Ensures:* " + names(item.ensures) + "."
    return parts


def lines_of(item, mark, traits=()):
    return " ".join([f"{mark}`{short_signature(item)}`", *parts_of(item, traits).values()])


def row_beside(item, earlier):
    """The row of a member: that in full, or, if it is shorter by more than 40 characters, one without the parts that an earlier type
    has in its row of the same name. The earlier ones are pairs of a type and its parts."""
    parts, full = parts_of(item), lines_of(item, "- ")
    rows = []
    for name, others in earlier:
        # What leans on another member leans on the type's own.
        own = [it for key, it in parts.items() if others.get(key) != it or "As of `" in it]
        if others.keys() <= parts.keys():
            rows.append(" ".join([f"- `{short_signature(item)}`", *own, f"Else as of `{name}`." if own else f"As of `{name}`."]))
    return min((it for it in rows if len(it) + 40 < len(full)), key=len, default=full)


def rows_of(name, members, first_types, earlier):
    """The rows of a type's members. Those that an earlier type has word for word are only named; the first type of each row is
    kept in a table, and in another the parts of each member whose row is full, with its type."""
    out, same = [], {}
    for it in members:
        full = lines_of(it, "- ")
        first = first_types.setdefault(full, name)
        if first == name:
            of_name = earlier.setdefault(it.name, [])
            out.append(row_beside(it, of_name))
            if out[-1] == full:
                of_name.append((name, parts_of(it)))
        else:
            same.setdefault(first, []).append(f"`{it.name}`")
    return out + [f"- As of `{first}`: {', '.join(them)}." for first, them in same.items()]


def page(libraries):
    """The page of libraries with the crates that each shows."""
    out = [
        "# Public items",
        "",
        "Made from the sources by `checks/api_page.py --write`. A row has the signature (without `fn` and `<'_>`, and `Result<T>` is"
        " `Result<T, Error>`), what the item does, its errors, and the names of its conditions on the caller (*Requires*) and of its"
        " promises (*Ensures*), whose text is in the source; clauses without a name are not listed. *Traits* are those of std. \"As of\" a"
        " type means as its member of the same name; \"else\", in all that the row doesn't have.",
        "",
    ]
    if libraries is USED:
        out[2] += (" What both families re-export is under theta_sketches, errors and hashers are under sketch_base. Laws are only named:"
                   " `checks/pages.py --write build/pages` lists them.")
    first_types, earlier = {}, {}
    for library, shown in libraries.items():
        wanted, modules = exported(library)
        others, laws = [], []
        out += [f"## {library}", ""]
        head = re.match(r"((?://!.*\n)+)", text_of(f"{TOP}/crates/{library}/src/lib.rt"))
        if head:
            out += [sentences([re.sub(r"^//! ?", "", it) for it in head[1].splitlines()])[0], ""]
        facade = "".join(re.findall(r"pub use [^;]*;", "".join(text_of(f"{TOP}/crates/{library}/src/{it}") for it in ("lib.rt", "laws.rt") if os.path.exists(f"{TOP}/crates/{library}/src/{it}"))))
        for crate in [library] + shown:
            folder = f"{TOP}/crates/{crate}/src"
            items = {file: items_of(f"{folder}/{file}") for file in sorted(os.listdir(folder))}
            for file, found in items.items():
                module = file[: -len(".rt")]
                # Members may be in other files than their type, such as those of images.
                elsewhere = [it for other in items for it in items[other] if other != file]
                # Of a module of another crate: all of it, if the library re-exports it whole, else what the library names.
                whole = crate == library or re.search(rf"\b{crate}::\{{[^}}]*\b{module}\b", facade)
                member = [it for it in found if module in modules and it.kind == "fn" and (whole or re.search(rf"\b{it.name}\b", facade))]
                free = [it for it in found if not it.owner and (it.name in wanted or it in member)]
                for item in free:
                    where = f"{module}::" if module in modules and item.name not in wanted else ""
                    owned = [it for it in found + elsewhere if it.owner == item.name]
                    members = [it for it in owned if it.kind != "impl"]
                    if item.kind in ("struct", "enum", "trait"):
                        traits = item.traits + [it.name for it in owned if it.kind == "impl"]
                        out += [f"### `{signature(item)}`", "", lines_of(item, "", traits=traits).partition("` ")[2], ""]
                        rows = rows_of(item.name, members, first_types, earlier)
                        out += rows + ([""] if rows else [])
                    elif module == "laws" and where and libraries is USED:
                        laws.append(f"`{item.name}`")
                    else:
                        row = lines_of(item, "- ")
                        others.append(row.replace(f"`{item.name}", f"`{where}{item.name}", 1) if where else row)
        if laws:
            others.append(f"- In `laws`: {', '.join(laws)}.")
        out += ["### Functions, constants and other names", "", *others, ""] if others else []
    return "\n".join(out).rstrip() + "\n"


def main():
    if sys.argv[1:] == ["--write"]:
        with open(f"{TOP}/docs/use/API.md", "w", encoding="utf-8") as file:
            file.write(page(USED))
    elif sys.argv[1:] in ([], ["--all"]):
        sys.stdout.write(page(LIBRARIES if sys.argv[1:] else USED))
    else:
        sys.exit("api_page: no argument, --write or --all")


if __name__ == "__main__":
    main()
