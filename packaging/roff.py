"""Text, and parts of Markdown, as manual pages have them (the macros man of troff)."""
import re
import textwrap

# What troff would read as a sign of its own, or print as another character than a reader can copy.
SIGNS = {
    "\\": "\\e", "-": "\\-", "^": "\\(ha", "~": "\\(ti", "'": "\\(aq", "`": "\\(ga", '"': "\\(dq",
}


def plain(text):
    """Text that is printed as it is: each hyphen can be copied."""
    return "".join(SIGNS.get(it, it if ord(it) < 128 else f"\\[u{ord(it):04X}]") for it in text)


def guarded(line):
    """A line that isn't read as a request."""
    return "\\&" + line if line.startswith(".") else line


def filled(text):
    """A paragraph of escaped text, in lines of 76 characters."""
    lines = textwrap.wrap(text, 76, break_long_words=False, break_on_hyphens=False)
    return "".join(f"{guarded(it)}\n" for it in lines)


def head(text):
    """Escaped text as one line of input, which ends where no backslash precedes the line's end."""
    return filled(text).rstrip("\n").replace("\n", " \\\n") + "\n"


def paragraph(text):
    """A paragraph of plain text."""
    return filled(plain(" ".join(text.split())))


def marked(text):
    """Markdown of one paragraph, escaped: code and bold words are bold, and of a link its words are left."""
    text, found = re.sub(r"\[([^]]+)\]\([^)]+\)", r"\1", text), ""
    for part in re.split(r"(`[^`]+`|\*\*.+?\*\*)", " ".join(text.split())):
        if part.startswith("`"):
            found += f"\\fB{plain(part[1:-1])}\\fR"
        elif part.startswith("**"):
            found += f"\\fB{plain(part[2:-2].replace('`', ''))}\\fR"
        else:
            found += plain(part)
    return found


def example(text):
    """Lines that are printed as they are, indented."""
    lines = "".join(f"{guarded(plain(it))}\n" for it in text.rstrip("\n").split("\n"))
    return f".RS 4\n.nf\n{lines}.fi\n.RE\n"


def title(name, section, date, version, manual):
    """The first lines of a page: words are neither hyphenated nor spread."""
    return f'.TH {name.upper()} {section} {date} "kaftanclay {version}" "{manual}"\n.nh\n.ad l\n'


def name_line(name, meaning):
    return ".SH NAME\n" + filled(f"{plain(name)} \\- {plain(meaning)}")


def see_also(pages):
    """The last section: other pages, as pairs of a name and a section."""
    return ".SH SEE ALSO\n" + ",\n".join(f".BR {plain(name)} ({section})" for name, section in pages) + "\n"
