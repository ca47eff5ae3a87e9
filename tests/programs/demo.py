"""Shows what v7 is: a session, line by line with its answers, and a link of two objects.

tier: check, 2 seconds; programs: v7; for: examples

The session is examples/session.txt, whose answers have to be those of examples/README.md; the program has to be examples/ab.out.
"""
import subprocess
import sys
import textwrap

from tests.lib.files import new_folder, read, read_bytes
from tests.lib.programs import program, ran


def session():
    """Plays the session, and returns its answers. The answer to a line is what the session prints more than without this line."""
    print("$ v7 session", flush=True)
    lines, answers = read("session.txt").splitlines(keepends=True), ""
    for count, line in enumerate(lines, 1):
        said = ran(program("v7"), "session", given="".join(lines[:count]).encode()).said()
        print(f"v7> {line}{said[len(answers):]}", end="", flush=True)
        answers = said
    print()
    return answers


def shell(*words):
    """Runs a command as it is typed."""
    print("$ v7 " + " ".join(words), flush=True)
    return subprocess.run([program("v7"), *words], check=False).returncode


def main():
    with new_folder("examples"):

        if textwrap.indent(session(), "    ") not in read("README.md"):
            sys.exit("the answers are not those of examples/README.md")
        status = shell("ld", "-s", "-o", "program", "a.o", "b.o") or shell("size", "program")
        linked = read_bytes("program")
        if status or linked != read_bytes("ab.out"):
            sys.exit("the program is not examples/ab.out")


if __name__ == "__main__":
    main()
