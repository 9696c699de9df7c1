"""The help of the program distinct, read: its commands, and the options of each with their values."""
import re
import subprocess
import sys
from dataclasses import dataclass, field


@dataclass
class Option:
    """An option, its short name or ''. Its value is `needed` (the next word, or behind =), `behind` = alone, `optional` behind =, or none, ''."""

    short: str
    flag: str
    form: str
    value: str
    meaning: str

    @property
    def choices(self):
        """The values that the help names one by one."""
        if self.value == "ORDER":
            found = re.search(r"\b(\w+), the default, or (\w+)", self.meaning)
            return self._all(found)
        if self.value == "MODE":
            return self._all(re.search(r"MODE is (\w+), the default, (\w+) or (\w+)", self.meaning))
        if self.value == "Z":
            return self._all(re.search(r"Z is (\d), (\d) or (\d)", self.meaning))
        span = re.search(r"\bN from (\d+) to (\d+)(?![\d^])", self.meaning)
        return [str(it) for it in range(int(span[1]), int(span[2]) + 1)] if span else []

    def _all(self, found):
        if found is None:
            sys.exit(f"manual: the help of {self.flag} doesn't name the values of {self.value}: {self.meaning}")
        return list(found.groups())


@dataclass
class Command:
    """A command: how it is called, what it does in a line and in whole, what else the help says, its options and its examples."""

    name: str
    synopsis: str
    line: str
    summary: str
    paragraphs: list = field(default_factory=list)
    options: list = field(default_factory=list)
    examples: list = field(default_factory=list)


@dataclass
class Help:
    """The help of the program."""

    version: str
    summary: str
    rows: list
    paragraphs: list
    status: str
    commands: list


def of_program(program):
    """What a built program prints."""
    def said(*words):
        return subprocess.run([program, *words], capture_output=True, text=True, check=True).stdout
    return read(said("--version"), said("--help"), lambda name: said(name, "--help"))


def read(version, text, text_of):
    """The help, from the version's line, the text of the whole, and a function from a command to its text."""
    blocks = text.rstrip("\n").split("\n\n")
    others = [joined(it) for it in blocks[2:] if not it.startswith("Status: ")]
    status = [joined(it)[8:] for it in blocks[2:] if it.startswith("Status: ")]
    names = re.match(r"Commands: ([a-z, ]+)\. ", others[0])
    if len(status) != 1 or not names:
        sys.exit("manual: the help has no paragraph that begins with 'Commands: ', or none with 'Status: '")
    commands = [command(it, text_of(it)) for it in names[1].split(", ")]
    others[0] = others[0][len(names[0]) :]
    return Help(version.split()[1], joined(blocks[0]).partition(": ")[2], examples(blocks[1].split("\n")), others, status[0], commands)


def examples(lines):
    """Calls, and what each does."""
    found = [re.fullmatch(r"  (.*?\bdistinct \S.*?)  +(\S.*)", line) for line in lines]
    if not all(found):
        sys.exit(f"manual: a line of the help is no call and its meaning: {lines[found.index(None)]}")
    return [it.groups() for it in found]


def command(name, text):
    """A command, from its own help."""
    head, _, rest = text.partition("\n\n")
    synopsis, _, summary = joined(head).partition(": ")
    found = Command(name, synopsis, re.split(r"\. |: ", summary)[0], summary)
    for block in rest.rstrip("\n").split("\n\n"):
        heading, *rows = block.split("\n")
        if heading == "Examples:":
            found.examples = examples(rows)
        elif heading.startswith(" "):
            found.paragraphs.append(joined(block))
        else:
            for row in rows:
                if re.match(r" {2,6}-", row):
                    head, _, meaning = row.strip().partition("  ")
                    found.options.append(option(head, meaning.strip()))
                else:
                    found.options[-1].meaning += " " + row.strip()
    if not synopsis.startswith(f"distinct {name}") or not found.options or not found.examples:
        sys.exit(f"manual: the help of {name} doesn't begin with its call, or has no options or examples")
    return found


def option(head, meaning):
    found = re.fullmatch(r"(?:(-[a-z]), )?(-[A-Z]|--[a-z0-9-]+)(?:(\[=| |=)([A-Z/]+)\]?)?", head)
    if found is None:
        sys.exit(f"manual: the help has an option that can't be read: {head}")
    form = {None: "", " ": "needed", "=": "behind", "[=": "optional"}[found[3]]
    return Option(found[1] or "", found[2], form, found[4] or "", meaning)


def joined(block):
    return " ".join(block.split())
