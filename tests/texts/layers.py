"""Draws the crates by the sections of crates.txt, each with its layer: a crate uses only crates of lower layers. Compares the picture with
that of docs/ARCHITECTURE.md.

usage: python3 -m tests.texts.layers            compares; status 1 if they differ
       python3 -m tests.texts.layers -p         prints the picture
tier: text, 1 seconds; for: crates.txt docs/ARCHITECTURE.md
"""
import os
import re
import sys

from tests.lib.compare import same
from tests.lib.files import TOP, read
from tests.lib.rattle import crates_in

PAGE = "docs/ARCHITECTURE.md"
WIDTH = 100


def sections():
    """The crates of each section, whose heading is a comment."""
    parts = re.findall(r"^# ([\w ]+): .*\n((?:\w.*\n)+)", read("crates.txt"), re.M)
    return {name: re.findall(r"^\w+", lines, re.M) for name, lines in parts}


def layer(name, uses):
    return 1 + max((layer(used, uses) for used in uses[name] if used in uses), default=0)


def picture(parts):
    """A line or more for each section: its crates, each after its layer, and programs in brackets."""
    uses, lines = crates_in(TOP), []
    for section, names in parts.items():
        line = f"{section:14}"
        for name in sorted(names, key=lambda name: (layer(name, uses), name)):
            shown = f" {layer(name, uses)} " + (f"[{name}]" if os.path.exists(f"crates/{name}/src/main.rt") else name)
            if len(line) + len(shown) > WIDTH:
                lines.append(line)
                line = " " * 14
            line += shown + " "
        lines.append(line.rstrip())
    return ["    " + line.rstrip() for line in lines]


def main():
    parts = sections()
    if sys.argv[1:] == ["-p"]:
        return print("\n".join(picture(parts)))
    same("crates of the sections", sorted(name for names in parts.values() for name in names), sorted(crates_in(TOP)))
    shown = re.findall(r"\n\n((?:    \w[\w ]* \d .*\n(?:    .*\n)*)+)\n", read(PAGE))
    same(f"{PAGE}: the picture; -p prints it", "".join(shown).split("\n")[:-1], picture(parts))
    print(f"{PAGE}: the picture has {len(crates_in(TOP))} crates in {len(parts)} sections")


if __name__ == "__main__":
    main()
