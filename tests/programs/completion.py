"""Tries the completion in bash, and in zsh if it is installed: commands, options with their meaning, and files by kind.

usage: python3 -m tests.programs.completion [FOLDER]      of the completion in this folder, or made now by packaging/completion.py

What is wanted is written by hand, or read of the manual: its options.

tier: check, 15 seconds; for: packaging/completion.py man crates/command_words; needs: zsh
"""
import os
import pty
import re
import select
import shutil
import sys
import time

from tests.lib.compare import notices, same
from tests.lib.files import TOP, new_folder, read
from tests.lib.programs import ran
from tests.programs import terminal

# zsh loads its completion, which takes a while on a machine with other work
SECONDS = 60
# what is typed, and what bash offers; ? before it asks for the list, as two tabs do
WANTED = [
    ("v7 ", ["ld", "nm", "session", "size", "strip", "help", "--help", "--version"]),
    ("v7 s", ["session", "size", "strip"]),
    ("v7 help st", ["strip"]),
    ("?v7 --", ["--help  (Shows how to call it)", "--version  (Shows the version)"]),
    ("v7 ld --", ["--help"]),
    ("v7 ld ma", ["main.o"]),
    ("v7 ld -o pri", ["print.lst", "print.o", "print.s"]),
    ("v7 ld -e ma", []),
    ("v7 session ma", []),
    ("v7 session -", "--help -X -d -e -i -n -r -s -u -x".split()),
    ("v7 nm squ", ["squares.gnu", "squares.s"]),
    ("v7 size -x to", ["total"]),
    ("v7-explain -o main", ["main.lst"]),
    ("v7-explain REA", ["README.md"]),
    ("v7-object main", ["main.lst"]),
    ("v7-from-gnu -o t", ["total"]),
    ("v7-origin -R ", ["c", "menu", "python", "total"]),
    ("v7-origin ma", ["main.o"]),
]
ASK = r"""
. "$1"; shift
COMP_TYPE=$1; shift
COMP_WORDS=("$@") COMP_CWORD=$(($# - 1))
_v7
printf '%s\n' "${COMPREPLY[@]}"
"""


def bash(file, typed):
    """What bash offers after what is typed."""
    words = typed.lstrip("?").split(" ")
    kind = "63" if typed.startswith("?") else "9"
    status, out, err = ran("bash", "-c", ASK, "bash", file, kind, *words).texts("utf-8")
    same(f"{typed}: status and errors", (status, err), (0, ""))
    return [line for line in out.split("\n") if line]


def options_of(page):
    """The options in the lists of a page of the manual."""
    heads = re.findall(r"^\.It (Fl \w\b.*)$", read(f"{TOP}/man/{page}.1"), re.M)
    return {f"-{letter}" for head in heads for letter in re.findall(r"Fl (\w)\b", head)}


def check_bash(file):
    count = 0
    for typed, wanted in WANTED:
        same(f"bash: {typed}", sorted(bash(file, typed)), sorted(wanted))
    for command in ("v7 ld", "v7 nm", "v7-explain", "v7-from-gnu", "v7-origin"):
        offered = bash(file, f"?{command} -")
        shown = {line.split(" ")[0] for line in offered if not line.startswith("--")}
        same(f"bash: {command}", shown, options_of(command.replace(" ", "-")))
        terminal.holds(f"bash: {command}: a meaning for each", all(re.fullmatch(r"\S+  \(\w.{8,}\)", line) for line in offered))
        same(f"bash: {command}: without the list", bash(file, f"{command} -"), [line.split(" ")[0] for line in offered])
        count += len(offered)
    return count


def zsh(folder, typed, wanted):
    """Which of the patterns that are wanted zsh does not show after what is typed and two tabs."""
    process, master = pty.fork()
    if process == 0:
        os.environ.update(TERM="dumb", PS1="> ", COLUMNS="200")
        os.execvp("zsh", ["zsh", "-f", "-i"])
    os.write(master, f"stty cols 200; fpath=({folder} $fpath); autoload -U compinit; compinit -D -u; print READ''Y\n".encode())
    came, is_sent, left, until = b"", False, wanted, time.monotonic() + SECONDS
    while left and time.monotonic() < until and select.select([master], [], [], 1 + until - time.monotonic())[0]:
        came += os.read(master, 65536)
        if not is_sent and b"READY" in came:
            came, is_sent = b"", True
            os.write(master, typed.encode() + b"\t\t")
        shown = re.sub(r"\x1b\[[0-9;?]*\w", "", came.decode("utf-8", "replace"))
        left = [pattern for pattern in left if not re.search(pattern, shown, re.M)]
    os.write(master, b"\3exit\n")
    os.close(master)
    os.waitpid(process, 0)
    return left


def check_zsh(folder):
    def explained(names):
        return [rf"^(-. +)?{name} +(-. +)?-- \w" for name in sorted(names)]

    for typed, wanted in (("v7 ld -", explained(options_of("v7-ld"))), ("v7 ", explained(terminal.TOOLS)), ("v7 ld ma", ["v7 ld main.o"]),
                          ("v7-explain -", explained(options_of("v7-explain")))):
        same(f"zsh: {typed}: not shown", zsh(folder, typed, wanted), [])


def main(words):
    made = os.path.abspath(words[0]) if words else "../made"
    with new_folder("examples"):
        if not words:
            ran(sys.executable, f"{TOP}/packaging/completion.py", made)
        file, made = f"{made}/v7.bash", os.path.abspath(made)
        notices(same, "v7 help st", bash(file, "v7 help st"), ["strip", "planted"])
        count = check_bash(file)
        if shutil.which("zsh"):
            check_zsh(made)
    print(f"completion in bash{' and zsh' if shutil.which('zsh') else ''}: {len(WANTED)} lines, and {count} options with their meaning")


if __name__ == "__main__":
    if len(sys.argv) > 2:
        sys.exit(__doc__)
    main(sys.argv[1:])
