"""Types the pages that a new user reads at a terminal: all their commands, in one shell, in this order. The screen has to be what the
pages show, with prompts and what is typed.

The shell begins at the top of a folder that is like a clone after `make quick`, with PATH, HOME and LANG alone, and the first lines of
README make the copy of the examples. What a page shows are its blocks that begin with "$ "; tests/programs/manual.sh runs all pages
through pipes.

tier: check, 2 seconds; programs: v7 v7-explain v7-object v7-from-gnu; for: crates/v7 docs examples README.md; needs: pdp11
"""
import os
import pty
import re
import select
import shutil
import sys

from tests.lib.compare import notices, same
from tests.lib.files import TOP, new_folder, read
from tests.lib.programs import BUILD

PAGES = ["README.md", "docs/TUTORIAL.md", "docs/RESTORING.md", "docs/FAQ.md", "examples/README.md", "docs/OBJECTS.md", "docs/TRUST.md",
         "docs/teaching/BLACKBOARD.md"]
# the shell marks its prompt, since a program could write the same
PROMPTS = b"\x1e$ ", b"v7> "
SECONDS = 60


def blocks(page):
    """The blocks of a page that are indented by four blanks or more, as lists of lines."""
    for block in re.findall(r"(?:^    .*\n)+", read(f"{TOP}/{page}"), re.M):
        indent = re.match(" *", block).end()
        yield [line[indent:] for line in block.splitlines()]


def started(folder):
    """The terminal of an interactive shell."""
    process, terminal = pty.fork()
    if not process:
        os.chdir(folder)
        environment = {"PATH": os.environ["PATH"], "HOME": f"{folder}/home", "LANG": "C.UTF-8", "PS1": PROMPTS[0].decode()}
        os.execvpe("bash", ["bash", "--norc", "--noprofile", "--noediting", "-i"], environment)
    return terminal


def shown(terminal):
    """What the terminal shows up to the next prompt, with that."""
    came = b""
    while not came.endswith(PROMPTS):
        if not select.select([terminal], [], [], SECONDS)[0]:
            sys.exit(f"no prompt came after {came[-400:]}")
        came += os.read(terminal, 65536)
    return came.decode().replace("\r\n", "\n").replace("\x1e", "")


def screen(terminal, lines):
    """What the terminal shows of these lines, which are typed one by one after their prompts, and the last prompt."""
    came = "$ "
    for line in lines:
        os.write(terminal, line.encode() + b"\n")
        came += shown(terminal)
    return came.splitlines()


def main():
    if not shutil.which("pdp11"):
        print("skipped: pdp11 is not there")
        return
    notices(same, "a block", ["$ true", "came", "$ "], ["$ true", "$ "])
    count = 0
    with new_folder() as folder:
        os.makedirs("build")
        os.makedirs("home")
        os.symlink(os.path.join(TOP, BUILD), "build/quick")
        shutil.copytree(f"{TOP}/examples", "examples", ignore=shutil.ignore_patterns("__pycache__"))
        terminal = started(folder)
        shown(terminal)
        for page in PAGES:
            for block in blocks(page):
                if block[0] == "make quick":
                    block = ["$ " + line for line in block[1:]]
                if block[0].startswith("$ "):
                    typed = [line.partition(" ")[2] for line in block if line.startswith(("$ ", "v7> "))]
                    same(f"{page}: {block[0]}", screen(terminal, typed), [*block, "$ "])
                    count += len(typed)
    print(f"{count} lines were typed at a terminal, of {len(PAGES)} pages")


if __name__ == "__main__":
    main()
