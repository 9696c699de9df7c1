"""The header of the C library, read: its words, its numbers, its types, and its calls with what each promises."""
import re
import sys
from dataclasses import dataclass

# What a declaration has in front of the name of its call.
RESULT = r"(?:kc_status |const char \*|static inline \w+ )"


@dataclass
class Call:
    """A declaration and its comment."""

    meaning: str
    declaration: str


@dataclass
class Header:
    """The paragraphs of the first comment; the constants; the statuses and the types, as pairs of name and meaning; and the
    sections, each a name with its calls."""

    paragraphs: list
    constants: list
    statuses: list
    types: list
    sections: list


def words_of(comment):
    """The text of a comment, without its signs; a blank line ends a paragraph."""
    lines = [re.sub(r"^\s*\*? ?", "", it) for it in comment.strip()[2:-2].split("\n")]
    return [" ".join(it.split()) for it in re.split(r"\n\s*\n", "\n".join(lines)) if it.strip()]


def read(text):
    """Reads the header, and refuses one that it doesn't understand."""
    first = re.match(r"/\*.*?\*/", text, re.S)
    if first is None:
        sys.exit("manual: the header doesn't begin with a comment")
    constants = re.findall(r"(?m)^#define (KC_\w+) (?:UINT64_C\()?(\d+|\"[^\"]*\")\)?$", text)
    statuses = [(name, number, " ".join(words_of(it))) for name, number, it in re.findall(r"(KC_\w+) = (\d+),?\s*(/\*.*?\*/)", text, re.S)]
    types = [(name, " ".join(words_of(it))) for name, it in re.findall(r"(?m)^typedef struct \{ void \*object; \} (\w+);\s*(/\*.*?\*/)", text)]
    for comment, fields, name in re.findall(r"(?ms)^(/\*[^/]*?\*/)\ntypedef struct \{\n([^}]*)\} (\w+);", text):
        types.append((name, " ".join(words_of(comment)) + fields_of(fields)))
    parts = re.split(r"(?m)^/\* ---- (.*?) ---- \*/$", text)
    sections = [(parts[i], calls_of(parts[i + 1])) for i in range(1, len(parts), 2)]
    found = sum(len(calls) for _, calls in sections)
    wanted = len(re.findall(rf"(?m)^{RESULT}kc_\w+\(", text))
    if found != wanted or len(statuses) != len(re.findall(r"(?m)^    KC_\w+ = ", text)):
        sys.exit(f"manual: the header declares {wanted} calls, and {found} with a comment were read; or not all statuses have a comment")
    return Header(words_of(first[0]), constants, statuses, types, sections)


def fields_of(text):
    """The fields of a struct with what each is, as one sentence."""
    rows = re.findall(r"(?m)^\s*\w+ (\w+);(?:\s*(/\*.*?\*/))?", text)
    named = [f"{name}, {' '.join(words_of(comment))}" if comment else name for name, comment in rows]
    return " Its fields are: " + "; ".join(named) + "." if any(comment for _, comment in rows) else ""


def calls_of(text):
    """The calls of a section, each with the comment above it."""
    found = re.findall(rf"(/\*(?:(?!\*/).)*\*/)\n({RESULT}kc_\w+\(.*?\))(?:;| \{{)", text, re.S)
    return [Call(" ".join(words_of(comment)), " ".join(declaration.split())) for comment, declaration in found]
