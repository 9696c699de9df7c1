"""Completions of the program distinct for bash, zsh and fish, from its help (helps.py)."""
import re

HEAD = "completion for distinct, made from its help"


def short(meaning):
    """The first sentence of a meaning, or what is before its semicolon."""
    return re.split(r"[.;] ", meaning)[0]


def bash(help_text):
    """For bash. A value may be the next word, or follow =, which bash makes a word of its own."""
    cases, values, found = "", {}, {}
    for command in help_text.commands:
        flags = [it for option in command.options for it in (option.short, option.flag + ("=" if option.form == "behind" else "")) if it]
        cases += f"        {command.name}) options='{' '.join([*flags, '--help'])}' ;;\n"
        for it in command.options:
            if it.value:
                mark = "=" if it.form in ("behind", "optional") else "*"
                for flag in (it.short, it.flag):
                    found.setdefault((flag, mark), []).append(it)
    for (flag, mark), options in found.items():
        if flag:
            values.setdefault((bash_answer(options), mark), set()).add(flag)
    rows = ""
    for (answer, mark), flags in sorted(values.items()):
        patterns = " | ".join(f"{flag}:{mark}" for flag in sorted(flags))
        rows += f"        {patterns})\n            {answer}\n            return\n            ;;\n"
    names = " ".join([*(it.name for it in help_text.commands), "--help", "--version"])
    return f"""# bash {HEAD}                                -*- shell-script -*-

_distinct() {{
    local cur=${{COMP_WORDS[COMP_CWORD]}} prev=${{COMP_WORDS[COMP_CWORD - 1]}} command=${{COMP_WORDS[1]}} mark='' options=''
    COMPREPLY=()
    if [ "$COMP_CWORD" -eq 1 ]; then
        COMPREPLY=($(compgen -W '{names}' -- "$cur"))
        return
    fi
    if [ "$cur" = '=' ]; then
        cur='' mark='='
    elif [ "$prev" = '=' ]; then
        prev=${{COMP_WORDS[COMP_CWORD - 2]}} mark='='
    fi
    case $prev:$mark in
{rows}    esac
    case $command in
{cases}    esac
    if [[ $cur == -* ]]; then
        COMPREPLY=($(compgen -W "$options" -- "$cur"))
        [[ ${{COMPREPLY-}} != *= ]] || compopt -o nospace
    else
        compopt -o filenames
        COMPREPLY=($(compgen -f -- "$cur"))
    fi
}}
complete -F _distinct distinct
"""


def bash_answer(options):
    """The line that answers with the values of an option, those of all commands that have it."""
    if options[0].value in ("FILE", "DIR"):
        return f'compopt -o filenames; COMPREPLY=($(compgen -{"f" if options[0].value == "FILE" else "d"} -- "$cur"))'
    choices = list(dict.fromkeys(choice for option in options for choice in option.choices))
    return f"COMPREPLY=($(compgen -W '{' '.join(choices)}' -- \"$cur\"))" if choices else ":"


def fish(help_text):
    """For fish."""
    def quoted(text):
        return "'" + text.replace("\\", "\\\\").replace("'", "\\'") + "'"
    first = "complete -c distinct -n __fish_use_subcommand"
    lines = [f"# fish {HEAD}", "complete -c distinct -l help -d 'print the help'", f"{first} -f -l version -d 'print the version'"]
    for command in help_text.commands:
        lines.append(f"{first} -f -a {command.name} -d {quoted(command.line)}")
        for it in command.options:
            if it.value == "FILE":
                kind = "-r -F"
            elif it.value == "DIR":
                kind = "-x -a '(__fish_complete_directories)'"
            elif it.form == "optional":
                kind = "-f"
            else:
                kind = f"-x -a '{' '.join(it.choices)}'" if it.choices else "-x" if it.value else "-f"
            flag = f"-l {it.flag[2:]}" if it.flag.startswith("--") else f"-s {it.flag[1:]}"
            flag = f"-s {it.short[1:]} {flag}" if it.short else flag
            lines.append(f"complete -c distinct -n '__fish_seen_subcommand_from {command.name}' {flag} {kind} -d {quoted(short(it.meaning))}")
    return "\n".join(lines) + "\n"


def zsh(help_text):
    """For zsh."""
    def plain(text):
        return re.sub(r"([\[\]:\\])", r"\\\1", text).replace("'", "'\\''")
    commands = "\n".join(f"        '{it.name}:{plain(it.line)}'" for it in help_text.commands)
    cases = ""
    for command in help_text.commands:
        rows = []
        for it in command.options:
            values = {"FILE": "_files", "DIR": "_files -/"}.get(it.value, f"({' '.join(it.choices)})" if it.choices else " ")
            form = {"": "", "needed": "=" if it.flag.startswith("--") else "", "behind": "=-", "optional": "=-"}[it.form]
            message = {"": "", "needed": f":{it.value}:{values}", "behind": f":{it.value}:{values}", "optional": f"::{it.value}:{values}"}[it.form]
            rows.append(f"                '{it.flag}{form}[{plain(short(it.meaning))}]{message}' \\\n")
            if it.short:
                rows.append(f"                '{it.short}{'+' if it.value else ''}[{plain(short(it.meaning))}]{message}' \\\n")
        cases += f"        {command.name})\n            _arguments \\\n{''.join(rows)}                '--help[print the options]' \\\n                '*:file:_files'\n            ;;\n"
    return f"""#compdef distinct
# zsh {HEAD}

_distinct() {{
    local -a commands
    commands=(
{commands}
    )
    if (( CURRENT == 2 )); then
        _describe command commands
        return
    fi
    shift words
    (( CURRENT-- ))
    case $words[1] in
{cases}    esac
}}

_distinct "$@"
"""
