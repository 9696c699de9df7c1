#!/usr/bin/env python3
"""Makes the C part of the library from the exports of crates/c_library: include/kaftanclay.h, bindings/c/proved.h and
bindings/c/calls.c, and the list of names in packaging/debian/libkaftanclay0.symbols.

    make_calls.py --check    compares the four files with the sources, and fails if one differs
    make_calls.py --write    writes those that differ

All that is read of the exports: their signatures and their doc comments. CONTRIBUTING.md has the few rules that these
follow ("Add a call of the C library"). What a source breaks of them is an error, which names the file.
"""
import os
import re
import sys
import textwrap
from dataclasses import dataclass, field

TOP = os.path.join(os.path.dirname(os.path.abspath(__file__)), "..", "..")
EXPORTS = "crates/c_library/src"
STATUSES = "crates/c_objects/src/status.rt"
FLAWS = "crates/c_objects/src/flaws.rt"
MODES = "crates/c_objects/src/settings.rt"
STRUCTS = ("crates/c_handles/src/handles.rt", "crates/c_objects/src/state.rt", "crates/c_objects/src/bounds.rt", FLAWS)
READERS = "crates/c_handles/src/readers.rt"
# The numbers that C has by name, each with the file of its constant and the constant's name there.
NUMBERS = {"DEFAULT_SEED": ("crates/sketch_base/src/seed.rt", "DEFAULT_UPDATE_SEED"), "MAX_THETA": ("crates/core_laws/src/lib.rt", "MAX_THETA")}
HEADER, PROVED, CALLS = "include/kaftanclay.h", "bindings/c/proved.h", "bindings/c/calls.c"
SYMBOLS = "packaging/debian/libkaftanclay0.symbols"
WIDTH = 120

SCALARS = {"u8": "uint8_t", "u32": "uint32_t", "u64": "uint64_t"}
SIZES = {"uint8_t": 1, "uint32_t": 4, "uint64_t": 8, "void *": 8}
RESULTS = {"": "void", "u32": "kc_status", "u64": "uint64_t"}
# Names of parameters that C or C++ reserves, and what C calls them.
RENAMED = {"union": "u"}
RESERVED = set("and asm auto bool break case catch char class const continue default delete do double else enum explicit extern false float for "
               "friend goto if inline int long mutable namespace new not operator or private protected public register restrict return short "
               "signed sizeof static struct switch template this throw true try typedef typename union unsigned using virtual void volatile while xor".split())

# What C alone has: no export stands behind it.
OF_C = """\
/* ---- The library ---- */

/* Returns what a status means, as a text with a final 0 byte, which is never freed. Any number may be passed. */
const char *kc_status_text(kc_status status);
/* Returns what a flaw of an image means, likewise. */
const char *kc_flaw_text(uint32_t flaw);
/* Returns the version of the library that the program is linked with, as such a text; that of this header is KC_VERSION. */
const char *kc_version(void);

/* ---- Estimates in floating point ---- */

/* Returns the estimate of a state: retained, divided by theta as a fraction of its greatest value, each as a double, which are
 * the bits of the crate datasketches. Pass a state that a call has written. */
static inline double kc_estimate(const kc_state *state) {
    return (double)state->retained / ((double)state->theta / (double)KC_MAX_THETA);
}

/* Returns the estimate of the total of all values; theta isn't 0. */
static inline double kc_total(const kc_wide *total, uint64_t theta) {
    return ((double)total->low + 18446744073709551616.0 * (double)total->high) / ((double)theta / (double)KC_MAX_THETA);
}
"""
CALLS_OF_C = ("kc_status_text", "kc_flaw_text", "kc_version")


def stop(place, reason):
    sys.exit(f"make_calls: {place}: {reason}")


def text_of(path):
    with open(os.path.join(TOP, path), encoding="utf-8") as file:
        return file.read()


# ---- Comments


@dataclass
class Comments:
    """How names of Rattle are written in comments of C."""

    statuses: set = field(default_factory=set)

    def of_c(self, place, text, parameters=()):
        """A text in which each name in backquotes is that of C. Names that no prose could be, as lg_k, lose their backquotes."""
        def named(found):
            span = found[1]
            if re.fullmatch(r"[A-Z][A-Z0-9_]+", span):
                if span not in self.statuses | set(NUMBERS):
                    stop(place, f"its comment names `{span}`, which is no status and no constant of the header")
                return "KC_" + span
            if span in parameters:
                return RENAMED[span] if span in RENAMED else span if "_" in span else f"`{span}`"
            return span.replace("kcp_", "kc_") if re.search(r"[^a-z]", span) else f"`{span}`"
        return re.sub(r"`([^`\n]+)`", named, text)


def lines_above(text, at):
    """The lines of the doc comment that ends just above a place, without their signs."""
    lines = []
    for line in reversed(text[:at].rstrip("\n").split("\n")):
        if not line.strip().startswith("///"):
            if not line.strip().startswith("#["):
                break
            continue
        lines.insert(0, line.strip()[3:].strip())
    return lines


def joined(lines):
    return " ".join(it for it in lines if it)


def wrapped(text, first, more, width=WIDTH):
    """The lines of a text; a product and the end of a comment stay on their lines."""
    kept = re.sub(r" \*(/| )", lambda it: "\0*" + it[1].replace(" ", "\0"), text)
    lines = textwrap.wrap(kept, width, initial_indent=first, subsequent_indent=more, break_long_words=False, break_on_hyphens=False)
    return [it.replace("\0", " ") for it in lines]


def block(text):
    """A comment of C of one or more lines."""
    return "\n".join(wrapped(text + " */", "/* ", " * "))


# ---- What the sources have


@dataclass
class Struct:
    name: str
    comment: str
    fields: list  # each its type, its name, and its comment
    is_handle: bool


@dataclass
class Parameter:
    name: str
    type: str


@dataclass
class Export:
    name: str
    place: str
    comment: str
    parameters: list
    result: str


def snake(name):
    return re.sub(r"(?<!^)(?=[A-Z])", "_", name).lower()


def named_numbers(path):
    """The numbers of a file that have names, statuses, flaws or modes: each its name, its number and its meaning."""
    text = text_of(path)
    found = []
    for it in re.finditer(r"(?m)^pub const (\w+): u32 = (\d+);$", text):
        meaning = joined(lines_above(text, it.start()))
        if not meaning.endswith("."):
            stop(path, f"{it[1]} has no doc comment of a sentence")
        found.append((it[1], int(it[2]), meaning[:1].lower() + meaning[1:-1]))
    return found


def number(path, name):
    found = re.search(rf"(?m)^pub const {name}: u64 = ([0-9_]+);$", text_of(path))
    if not found:
        stop(path, f"it has no constant {name} of type u64")
    return int(found[1].replace("_", ""))


def structs(comments):
    """The structs that cross to C, by their names in Rattle."""
    found = {}
    for path in STRUCTS:
        text = text_of(path)
        for it in re.finditer(r"(?ms)^pub struct (\w+) \{\n(.*?)^\}", text):
            if "#[repr(C)]" not in text[:it.start()].rpartition("\n\n")[2]:
                continue
            is_handle = it[1].endswith("Handle")
            comment = comments.of_c(path, joined(lines_above(text, it.start())))
            if is_handle:
                words = re.fullmatch(r"A handle of C: (.*), or none\.", comment)
                if not words:
                    stop(path, f"the comment of {it[1]} is not of the form: A handle of C: KIND, or none.")
                comment = words[1]
            fields = []
            for part in re.finditer(r"(?m)^    (?:pub )?(\w+): ([^{}\n]+),$", it[2]):
                kind = "void *" if is_handle and part[2] == "*mut Opaque" else SCALARS.get(part[2])
                if kind is None:
                    stop(path, f"the field {part[1]} of {it[1]} has a type that C has no name for: {part[2]}")
                words = comments.of_c(path, joined(lines_above(it[2], part.start())))
                fields.append((kind, "object" if is_handle else part[1], words[:1].lower() + words[1:].rstrip(".")))
            if is_handle and fields != [("void *", "object", "")]:
                stop(path, f"{it[1]} is not one pointer to an Opaque")
            found[it[1]] = Struct("kc_" + snake(it[1].removesuffix("Handle")), comment, fields, is_handle)
    return found


def readers(known):
    """The handles of readers, by the names of the readers in Rattle."""
    found = {}
    for it in re.finditer(r"(?ms)^pub struct (\w+)Reader \{\n(.*?)^\}", text_of(READERS)):
        if it[1] + "Handle" not in known or not re.match(r"    at: \*const Opaque,\n(    (pub )?ghost [^\n]*\n)*\Z", it[2]):
            stop(READERS, f"{it[1]}Reader is not one pointer to an Opaque, as {it[1]}Handle is")
        found[it[1] + "Reader"] = known[it[1] + "Handle"]
    return found


def modules():
    """The modules of the exports in the order of lib.rt, each with the heading in front of it: a comment of a line above `mod`, up
    to a colon, behind which it says which of these calls the module has."""
    heading, found = None, []
    for line in text_of(EXPORTS + "/lib.rt").split("\n"):
        comment, module = re.match(r"// ([^:]*)", line), re.match(r"(?:pub )?mod (\w+);", line)
        heading = comment[1].rstrip(".") if comment else heading
        if module:
            found.append((heading, module[1]))
    if not found or found[0][0] is None:
        stop(EXPORTS + "/lib.rt", "no heading, a comment of a line, is above its first module")
    return found


def library_comment(comments):
    """The paragraphs of the comment of the library up to a heading of `//!`, if it has one."""
    lines = []
    for line in text_of(EXPORTS + "/lib.rt").split("\n"):
        if not line.startswith("//!") or line.startswith("//! # "):
            break
        lines.append(line[3:].strip())
    return [comments.of_c(EXPORTS + "/lib.rt", " ".join(it.split())) for it in "\n".join(lines).split("\n\n") if it.strip()]


SIGNATURE = re.compile(r'pub extern "C" fn (\w+)\(([^{}]*?)\)(?: -> (\w+))?\n((?:    (?:requires|ensures|where|  )[^\n]*\n)*)\{', re.S)


def exports(module, comments):
    """The exports of a module, in their order."""
    path = f"{EXPORTS}/{module}.rt"
    text = text_of(path)
    found = []
    for it in SIGNATURE.finditer(text):
        place = f"{path}: {it[1]}"
        if not it[1].startswith("kcp_"):
            stop(place, "its name doesn't begin with kcp_")
        parameters = []
        for part in filter(None, (it.strip() for it in it[2].replace("\n", " ").split(","))):
            name, _, kind = (word.strip() for word in part.partition(":"))
            if name in RESERVED - set(RENAMED):
                stop(place, f"C or C++ reserves the word {name}: give the parameter another name")
            parameters.append(Parameter(name, kind))
        comment = comments.of_c(place, joined(lines_above(text, it.start())), [p.name for p in parameters])
        if not re.fullmatch(r"[A-Z].*\.", comment):
            stop(place, "it has no doc comment of sentences, which is what the header says of the call")
        found.append(Export(it[1], place, comment, parameters, it[3] or ""))
    if len(found) != len(re.findall(r"extern\b|no_mangle\b", text)) / 2:
        stop(path, f"{len(found)} exports were read, and it has others: write each as the others are")
    return found


# ---- Calls of C


@dataclass
class Call:
    """An export as C sees it: the parameters of both headers, the tests of its pointers, and the arguments of the export."""

    name: str
    comment: str
    place: str
    result: str
    declared: list = field(default_factory=list)
    proved: list = field(default_factory=list)
    tests: list = field(default_factory=list)
    arguments: list = field(default_factory=list)
    outputs: list = field(default_factory=list)   # buffers, as pairs of name and type
    pointers: list = field(default_factory=list)  # the others: their names, their types, and whether they are written
    readers: list = field(default_factory=list)   # handles that are read, as pairs of name and type
    written: str = ""                             # the output that has the result of an export that returns no status

    def add_number(self, kind, name):
        self.declared.append(f"{kind} {name}")
        self.proved.append(f"{kind} {name}")
        self.arguments.append(name)

    def add_input(self, kind, name, count):
        is_bytes = kind == "uint8_t"
        self.declared += [f"const {'void' if is_bytes else kind} *{name}", f"size_t {count}"]
        self.proved += [f"const {kind} *{name}", f"size_t {count}"]
        self.tests.append(f"IS_BUFFER({name}, {count})")
        self.arguments += [f"INPUT({name})" if is_bytes else f"NUMBERS({name}, 0)", count]

    def add_output(self, kind, name, is_last):
        """A buffer of output. Those that follow one another have one room, behind the last."""
        is_bytes = kind == "uint8_t"
        self.declared.append(f"{('char' if name == 'text' else 'void') if is_bytes else kind} *{name}")
        self.proved += [f"{kind} *{name}", f"size_t {name}_room"]
        self.tests.append(f"IS_BUFFER({name}, room)")
        self.tests += [f"(room == 0 || {other} != {name})" for other, other_kind in self.outputs if other_kind == kind]
        self.arguments += [f"{'OUTPUT' if is_bytes else 'NUMBERS'}({name}, {len(self.outputs)})", "room"]
        self.outputs.append((name, kind))
        if is_last and "size_t room" in self.declared:
            stop(self.place, "its buffers of output are apart: C has one room, behind the last of them")
        if is_last:
            self.declared.append("size_t room")

    def add_pointer(self, kind, name, is_mutable):
        """A pointer to a number, a struct or a handle; C may pass a const one if nothing behind it is written."""
        self.declared.append(f"{'' if is_mutable else 'const '}{kind} *{name}")
        self.proved.append(f"{'' if is_mutable else 'const '}{kind} *{name}")
        self.test_pointer(kind, name, is_mutable)
        self.arguments.append(name)

    def add_reader(self, kind, name):
        """A handle that is read: the export gets a copy of its pointer, which no other call has."""
        self.declared.append(f"const {kind} *{name}")
        self.proved.append(f"{kind} *{name}")
        self.test_pointer(kind, name, False)
        self.readers.append((name, kind))
        self.arguments.append(f"&{name}_reader")

    def test_pointer(self, kind, name, is_mutable):
        self.tests.append(f"{name} != NULL")
        self.tests += [f"{other} != {name}" for other, other_kind, was_mutable in self.pointers if other_kind == kind and (was_mutable or is_mutable)]
        self.pointers.append((name, kind, is_mutable))

    def add_result(self, name):
        self.written = name
        self.declared.append(f"uint64_t *{name}")
        self.tests.append(f"{name} != NULL")


def call_of(export, known, reading):
    """The call of an export; it ends with an error if the export has a type that C has no name for."""
    if export.result not in RESULTS:
        stop(export.place, f"it returns {export.result}; an export returns nothing, u32 for a status, or u64")
    call = Call("kc_" + export.name[4:], export.comment, export.place, RESULTS[export.result])
    inputs = [it for it in export.parameters if re.fullmatch(r"&\[\w+\]", it.type)]
    for it, after in zip(export.parameters, [*export.parameters[1:], None]):
        name = RENAMED.get(it.name, it.name)
        buffer = re.fullmatch(r"&(mut )?\[(u8|u64)\]", it.type)
        pointer = re.fullmatch(r"&(mut )?(\w+)", it.type)
        struct = known.get(pointer[2]) if pointer else None
        if it.type == "Global":
            continue
        if it.type in SCALARS:
            call.add_number(SCALARS[it.type], name)
        elif buffer and buffer[1]:
            call.add_output(SCALARS[buffer[2]], name, after is None or after.type != it.type)
        elif buffer:
            call.add_input(SCALARS[buffer[2]], name, "count" if len(inputs) == 1 else f"{name}_count")
        elif pointer and not pointer[1] and (pointer[2] in reading or struct and struct.is_handle):
            stop(export.place, f"it takes {it.name} by &; a handle is taken by &mut, and one that is read as a Reader, by &mut")
        elif pointer and pointer[2] in reading:
            call.add_reader(reading[pointer[2]].name, name)
        elif struct:
            call.add_pointer(struct.name, name, bool(pointer[1]))
        elif pointer and pointer[2] in SCALARS:
            call.add_pointer(SCALARS[pointer[2]], name, bool(pointer[1]))
        else:
            stop(export.place, f"its parameter {it.name} has a type that C has no name for: {it.type}")
    if export.result == "u64":
        call.add_result(export.name.split("_")[1])
    names = [re.search(r"\w+$", it)[0] for it in call.declared]
    if len(set(names)) != len(names):
        stop(export.place, f"two parameters of C would have one name: {', '.join(names)}")
    return call


def declaration(result, name, parameters):
    """A declaration without its end; a longer one goes on below its first parameter."""
    first = f"{result} {name}("
    if len(first) + len(", ".join(parameters)) + 2 <= WIDTH:
        return first + ", ".join(parameters) + ")"
    lines, line = [], first
    for at, it in enumerate(parameters):
        it += "," if at + 1 < len(parameters) else ")"
        if line.strip() and len(line) + len(it) + 1 > WIDTH:
            lines.append(line.rstrip())
            line = " " * len(first)
        line += it + " "
    return "\n".join([*lines, line.rstrip()])


# ---- The files


def enumeration(numbers):
    """An enum of C with a comment for each name."""
    room = max(len(f"KC_{name} = {value},") for name, value, _ in numbers)
    out = ["enum {"]
    for at, (name, value, meaning) in enumerate(numbers):
        row = f"KC_{name} = {value}" + ("," if at + 1 < len(numbers) else "")
        comment = wrapped(meaning + " */", "", "", WIDTH - room - 8)
        out.append(f"    {row:{room}} /* " + f"\n    {'':{room}}  * ".join(comment))
    return [*out, "};"]


def text_call(declared, argument, numbers, other):
    """A call of C that returns the meaning of a number."""
    out = [f"const char *{declared} {{\n    switch ({argument}) {{"]
    out += [f'    case KC_{name}: return "{meaning}";' for name, _, meaning in numbers]
    return "\n".join([*out, f'    default: return "{other}";\n    }}\n}}\n'])


def header(paragraphs, all_statuses, flaws, modes, known, sections, version):
    out = []
    for at, it in enumerate(paragraphs):
        first = "/* " if at == 0 else " * "
        out += ([" *"] if at else []) + wrapped(it, first, " * ")
    out += [" */", "/* Made by bindings/c/make_calls.py from the exports of crates/c_library: change those. */"]
    out += ["#ifndef KAFTANCLAY_H", "#define KAFTANCLAY_H", "#include <stddef.h>", "#include <stdint.h>", "#ifdef __cplusplus", 'extern "C" {', "#endif", ""]
    out += [f'#define KC_VERSION "{version}"']
    out += [f"#define KC_{name} UINT64_C({number(*place)})" for name, place in NUMBERS.items()]
    out += ["", "typedef uint32_t kc_status;"]
    out += enumeration(all_statuses)
    out += ["", "/* Why bytes are not one image. */"]
    out += enumeration(flaws)
    out += ["", "/* What a tuple sketch keeps of the values of a key. */"]
    out += enumeration(modes)
    out.append("")
    handles = [it for it in known.values() if it.is_handle]
    room = max(len(it.name) for it in handles)
    out += [f"typedef struct {{ void *object; }} {it.name + ';':{room + 1}} /* {it.comment} */" for it in handles]
    for it in known.values():
        if it.is_handle:
            continue
        room = max(len(f"{kind} {name};") for kind, name, _ in it.fields)
        out += ["", block(it.comment), "typedef struct {"]
        out += [f"    {f'{kind} {name};':{room}} /* {words} */" for kind, name, words in it.fields]
        out.append(f"}} {it.name};")
    for heading, calls in sections:
        out += ["", f"/* ---- {heading} ---- */", ""]
        for it in calls:
            out += [block(it.comment), declaration("kc_status", it.name, it.declared) + ";"]
    out += ["", OF_C.rstrip("\n"), "", "#ifdef __cplusplus", "}", "#endif", "#endif", ""]
    return "\n".join(out)


def proved(sections):
    out = ["/* The exports of the proved library: what calls.c calls. No pointer is null, no two handles are one variable. A slice of",
           " * Rattle is a pointer and a count; a Global takes no argument. A handle that is read is a copy of the caller's, which no",
           " * other call has. Made by make_calls.py. */",
           "#ifndef KAFTANCLAY_PROVED_H", "#define KAFTANCLAY_PROVED_H", '#include "kaftanclay.h"']
    for _, calls in sections:
        out.append("")
        out += [declaration(it.result, it.name.replace("kc_", "kcp_", 1), it.proved or ["void"]) + ";" for it in calls]
    return "\n".join([*out, "", "#endif", ""])


CALLS_HEAD = """\
/* The calls of kaftanclay.h. Each tests its pointers for null, and that two that may not be one variable are two, and then calls
 * the proved export of its name with the prefix kcp_. Nothing else is done here. Made by make_calls.py from the exports of
 * crates/c_library: change those.
 *
 * A handle is const if the export only reads its object. The export gets a reader, a copy of the handle that this call alone has;
 * by its contract the object is lent to as many readers as there are, so calls at once may read one handle. */
#include "proved.h"

"""
CALLS_WORDS = """
#define REFUSE_UNLESS(condition) \\
    do { if (!(condition)) return KC_INVALID_ARGUMENT; } while (0)

/* A buffer may be null if its count is 0; the proved calls get another pointer then, each buffer of output its own. */
static uint64_t nothing[4];
#define IS_BUFFER(at, count) ((at) != NULL || (count) == 0)
#define INPUT(at) ((at) != NULL ? (const uint8_t *)(at) : (const uint8_t *)nothing)
#define OUTPUT(at, number) ((at) != NULL ? (uint8_t *)(at) : (uint8_t *)(nothing + (number)))
#define NUMBERS(at, number) ((at) != NULL ? (at) : nothing + (number))
"""


def layout(known):
    """What the proved library has for sizes and places of members."""
    facts = [f"sizeof({it.name}) == {sum(SIZES[kind] for kind, _, _ in it.fields)}" for it in known.values()]
    for it in known.values():
        place = 0
        for kind, name, _ in it.fields if len(it.fields) > 1 else []:
            place = -(-place // SIZES[kind]) * SIZES[kind]
            facts.append(f"offsetof({it.name}, {name}) == {place}")
            place += SIZES[kind]
    facts.append("sizeof(size_t) == 8")
    return "\n".join(f'_Static_assert({it}, "the layout of the proved library");' for it in facts)


def body(call):
    export = call.name.replace("kc_", "kcp_", 1)
    out = [declaration("kc_status", call.name, call.declared) + " {"]
    if call.tests:
        out += wrapped(f"REFUSE_UNLESS({' && '.join(call.tests)});", "    ", " " * 18)
    out += [f"    {kind} {name}_reader = *{name};" for name, kind in call.readers]
    made = f"{export}({', '.join(call.arguments)});"
    if call.result == "kc_status":
        out.append(f"    return {made}")
    else:
        out += [f"    *{call.written} = {made}" if call.written else f"    {made}", "    return KC_OK;"]
    return "\n".join([*out, "}"])


def calls(all_statuses, flaws, known, sections):
    out = [CALLS_HEAD + layout(known) + "\n" + CALLS_WORDS]
    for heading, found in sections:
        out += [f"/* ---- {heading} ---- */\n", "\n\n".join(map(body, found)) + "\n"]
    out.append("/* ---- The library ---- */\n")
    out.append(text_call("kc_status_text(kc_status status)", "status", all_statuses, "a number that is no status of this library"))
    out.append(text_call("kc_flaw_text(uint32_t flaw)", "flaw", flaws, "a number that is no flaw of an image"))
    out.append("const char *kc_version(void) { return KC_VERSION; }\n")
    return "\n".join(out)


def symbols(names, version, old):
    """The list of names with the version that each came in; a new name came in this version."""
    since = dict(re.findall(r"(?m)^ (\w+)@Base (\S+)$", old))
    if gone := sorted(set(since) - set(names)):
        stop(SYMBOLS, f"no export has {', '.join(gone)}; a call that programs use stays, or the soname changes with it")
    head = re.match(r"(?:[^ ].*\n)+", old)
    return head[0] + "".join(f" {it}@Base {since.get(it, version)}\n" for it in sorted(names))


def made():
    """Each file that is made, by its path, and a line on what was read."""
    comments = Comments()
    all_statuses, flaws, modes = named_numbers(STATUSES), named_numbers(FLAWS), named_numbers(MODES)
    comments.statuses = {name for name, _, _ in all_statuses + flaws + modes}
    all_statuses = [(name, value, comments.of_c(STATUSES, meaning)) for name, value, meaning in all_statuses]
    flaws = [(name, value, comments.of_c(FLAWS, meaning)) for name, value, meaning in flaws]
    known = structs(comments)
    reading = readers(known)
    version = text_of("VERSION").strip()
    sections = []
    for heading, module in modules():
        found = [call_of(it, known, reading) for it in exports(module, comments)]
        if not sections or sections[-1][0] != heading:
            sections.append((heading, []))
        sections[-1][1].extend(found)
    sections = [it for it in sections if it[1]]
    names = [it.name for _, found in sections for it in found]
    twice = {it for it in names if names.count(it) > 1}
    unread = {it[:-3] for it in os.listdir(os.path.join(TOP, EXPORTS)) if it.endswith(".rt")} - {"lib"} - {it for _, it in modules()}
    if twice or unread:
        stop(EXPORTS, f"{', '.join(sorted(twice))} is exported twice" if twice else f"lib.rt names no module {', '.join(sorted(unread))}")
    files = {
        HEADER: header(library_comment(comments), all_statuses, flaws, modes, known, sections, version),
        PROVED: proved(sections),
        CALLS: calls(all_statuses, flaws, known, sections),
        SYMBOLS: symbols([*names, *CALLS_OF_C], version, text_of(SYMBOLS)),
    }
    return files, f"{len(all_statuses)} statuses, {len(flaws)} flaws, {len(names)} exports, {len(known)} structs"


def main():
    if sys.argv[1:] not in (["--check"], ["--write"]):
        sys.exit("make_calls: pass --check or --write")
    files, count = made()
    differ = [path for path, text in files.items() if not os.path.exists(os.path.join(TOP, path)) or text_of(path) != text]
    if sys.argv[1] == "--write":
        for path in differ:
            with open(os.path.join(TOP, path), "w", encoding="utf-8") as file:
                file.write(files[path])
        print(f"make_calls: {count}; {'wrote ' + ', '.join(differ) if differ else 'nothing to write'}")
        return
    for path in differ:
        print(f"make_calls: {path} is not what the sources have: bindings/c/make_calls.py --write makes it")
    if differ:
        sys.exit(1)
    print(f"make_calls: {count}, and {len(files)} files made of them")


if __name__ == "__main__":
    main()
