#!/usr/bin/env python3
"""Makes the completion of bash and of zsh from the help of the programs: commands, options with what they mean, and files by kind.

usage: packaging/completion.py FOLDER      writes v7.bash and _v7
"""
import os
import re
import sys
from shlex import quote

sys.path.insert(1, os.path.dirname(os.path.dirname(os.path.abspath(__file__))))
from tests.lib.files import TOP, read, write  # noqa: E402

# the source of the help of each program but v7
HELP = {"v7-explain": "v7_explain/src/help.rt", "v7-from-gnu": "v7_from_gnu/src/help.rt",
        "v7-object": "v7_object/src/help.rt", "v7-origin": "v7_origin/src/help.rt"}
SHOWN = {"--help": (None, "Shows how to call it"), "--version": (None, "Shows the version")}
# the files that a program takes, and what the values of options are; anything else is a file
TAKES = {"v7 ld": "*.o", "v7-object": "*.lst", "v7-origin": "*.o", "v7 session": "none", "v7 help": "none"}
VALUES = {None: "-", "NAME": "none", "STEP": "none", "FOLDER": "folder", "LISTING": "*.lst"}


def strings(path):
    """The constants of a source that are texts, by name."""
    found = re.findall(r'const (\w+): &str =\s*"((?:[^"\\]|\\.)*)";', read(f"{TOP}/crates/{path}"))
    return {name: text.replace("\\n", "\n") for name, text in found}


def options_of(page):
    """The options of a page of help, each with its value and its meaning."""
    return {option: (value or None, meaning) for option, value, meaning in re.findall(r"^  (-\w)(?: ([A-Z]+))?  +(.*)", page, re.M)}


def tables():
    """For each command its options, each with its value and its meaning."""
    pages = strings("v7/src/terminal/pages.rt")
    tools = dict(re.findall(r"^  (\w+)  +(\w.*)", pages.pop("ALL"), re.M))
    found = {"v7": {**{tool: (None, meaning) for tool, meaning in tools.items()}, "help": (None, "shows the help of a command"), **SHOWN},
             "v7 help": {tool: (None, meaning) for tool, meaning in tools.items()}}
    for tool in tools:
        found[f"v7 {tool}"] = options_of(pages[tool.upper()])
    found["v7 session"] = {option: row for option, row in found["v7 ld"].items() if option != "-o"}
    for program, path in HELP.items():
        found[program] = {**options_of(strings(path)["HELP"]), **SHOWN}
    for tool in tools:
        found[f"v7 {tool}"]["--help"] = SHOWN["--help"]
    return found


BASH = """# completion of v7 and the programs beside it in bash, made of their help by packaging/completion.py
_v7_table() {
    case $1 in
%s    esac
}

# of each row: the option or command, the kind of its value, and what it means, which is shown where the choices are listed
_v7() {
    local word=${COMP_WORDS[COMP_CWORD]} before=${COMP_WORDS[COMP_CWORD - 1]} of=${COMP_WORDS[0]##*/} option kind meaning files= value=
    local -a found=()
    COMPREPLY=()
    [[ $of != v7 ]] || ((COMP_CWORD == 1)) || of="v7 ${COMP_WORDS[1]}"
    while read -r option kind meaning; do
        case $option in
        files) files=$kind ;;
        "$before") [[ $kind == - ]] || value=$kind ;;&
        "$word"*) found+=("$option  ($meaning)") ;;
        esac
    done < <(_v7_table "$of")
    if [[ -z $value && ($word == -* || $of == v7 || $of == 'v7 help') ]]; then
        ((${#found[@]} > 1 && COMP_TYPE == 63)) || found=("${found[@]%%%%  (*}")
        COMPREPLY=("${found[@]}")
        return
    fi
    compopt -o filenames 2>/dev/null
    case ${value:-$files} in
    none) ;;
    folder) mapfile -t COMPREPLY < <(compgen -d -- "$word") ;;
    file) mapfile -t COMPREPLY < <(compgen -f -- "$word") ;;
    *) mapfile -t COMPREPLY < <(compgen -f -X "!${value:-$files}" -- "$word"; compgen -d -- "$word") ;;
    esac
}
complete -F _v7 %s
"""
ZSH = """#compdef %s
# completion of v7 and the programs beside it in zsh, made of their help by packaging/completion.py
local of=$service
if [[ $of == v7 ]]; then
    if (( CURRENT == 2 )); then
        local -a choices=(%s)
        _describe command choices
        return
    fi
    of="v7 $words[2]"
    shift words
    (( CURRENT-- ))
fi
case $of in
%sesac
"""


def kind_of(value):
    return VALUES.get(value, "file")


def bash(found):
    """The completion of bash."""
    cases = []
    for command, options in found.items():
        rows = [f"{option} {kind_of(value)} {meaning}" for option, (value, meaning) in options.items()]
        rows.append(f"files {TAKES.get(command, 'file')}")
        cases.append(f"    {quote(command)}) cat <<'END' ;;\n" + "\n".join(rows) + "\nEND\n")
    return BASH % ("".join(cases), " ".join(["v7", *HELP]))


def files_of(kind):
    return {"none": " ", "folder": "_files -/", "file": "_files"}.get(kind, f'_files -g "{kind}"')


def zsh(found):
    """The completion of zsh."""
    cases = []
    for command, options in found.items():
        rows = []
        for option, (value, meaning) in options.items():
            said = meaning.replace("]", "\\]").replace(":", "\\:")
            rows.append(f"{'*' if value == 'NAME' else ''}{option}[{said}]" + (f":{value}:{files_of(kind_of(value))}" if value else ""))
        if command == "v7 help":
            rows = [f"1:command:({' '.join(options)})"]
        elif TAKES.get(command) != "none":
            rows.append(f"*:FILE:{files_of(TAKES.get(command, 'file'))}")
        if command != "v7":
            cases.append(f"{quote(command)}) _arguments -s {' '.join(map(quote, rows))} ;;\n")
    choices = " ".join(quote(f"{name}:{meaning}") for name, (_, meaning) in found["v7"].items())
    return ZSH % (" ".join(["v7", *HELP]), choices, "".join(cases))


def texts():
    """The completion of bash, and that of zsh."""
    found = tables()
    return bash(found), zsh(found)


def main(folder):
    for name, text in zip(("v7.bash", "_v7"), texts()):
        write(f"{folder}/{name}", text)


if __name__ == "__main__":
    if len(sys.argv) != 2:
        sys.exit(__doc__)
    main(sys.argv[1])
