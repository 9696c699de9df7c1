#!/usr/bin/env python3
"""Makes the table of options in docs/use/DISTINCT.md from the help of `distinct`: a row for each option and meaning, with its commands.
A meaning is the first sentence of the help, or what sentences of several commands begin with.

checks/options_table.py prints the table, checks/options_table.py --write puts it into the page, and checks/pages.py compares both. The help is that of
tests/distinct, which checks/distinct compares with the program's.
"""
import os
import sys

sys.dont_write_bytecode = True
TOP = os.path.dirname(os.path.dirname(os.path.abspath(__file__)))
sys.path[:0] = [os.path.join(TOP, "packaging"), os.path.join(TOP, "checks")]
import distinct_cases  # noqa: E402
import helps  # noqa: E402

PAGE = os.path.join(TOP, "docs", "use", "DISTINCT.md")
HEAD = "| option | of | meaning |\n|---|---|---|\n"
FORMS = {"": "{0}", "needed": "{0} {1}", "behind": "{0}={1}", "optional": "{0}[={1}]"}


def text_of(path):
    with open(path, encoding="utf-8") as file:
        return file.read()


def table():
    cases = distinct_cases.read()

    def said(name):
        return cases[name].output.decode()

    commands = helps.read(said("version"), said("help"), lambda name: said(f"help_on_{name}")).commands
    options = [(command.name, ", ".join(filter(None, [it.short, FORMS[it.form].format(it.flag, it.value)])), it.flag,
                it.meaning.partition(". ")[0].replace("|", "\\|")) for command in commands for it in command.options]
    found = {}
    for command, call, flag, meaning in options:
        # The shortest sentence of this call with which its own begins.
        shared = min((it for _, other, _, it in options if other == call and meaning.startswith(it)), key=len)
        found.setdefault(flag, {}).setdefault((call, shared), []).append(f"`{command}`")
    rows = [(call, names, meaning) for rows in found.values() for (call, meaning), names in rows.items()]
    shown = [f"| `{call}` | {'all' if len(names) == len(commands) else ', '.join(names)} | {meaning} |\n" for call, names, meaning in rows]
    return HEAD + "".join(shown)


def of_page(page):
    """The table of a page, with the text before it and behind it."""
    before, head, rest = page.partition(HEAD)
    if not head:
        sys.exit("options_table: docs/use/DISTINCT.md has no table of options")
    rows, end, behind = rest.partition("\n\n")
    return before, head + rows + "\n", end[1:] + behind


def main():
    if sys.argv[1:] == ["--write"]:
        before, _, behind = of_page(text_of(PAGE))
        with open(PAGE, "w", encoding="utf-8") as file:
            file.write(before + table() + behind)
    elif not sys.argv[1:]:
        sys.stdout.write(table())
    else:
        sys.exit("options_table: no argument, or --write")


if __name__ == "__main__":
    main()
