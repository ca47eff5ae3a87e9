"""Checks that each wrong body still fits the code: each text that it takes out is in its file exactly once.

A wrong body has a line 'file: PATH', with a path in the crate, and pairs of lines 'old: TEXT' and 'new: TEXT'. Each pair changes what the
earlier ones left. The gate has the prover refuse the files *.edit in must-fail/ of each crate. The file wrong-bodies of a crate has more,
as records with a blank line between two. Each begins with the lines 'name: NAME' and 'does: SENTENCE', which is what it would do to a
user. `make check-wrong-bodies` has the prover refuse all.

tier: text, 1 seconds; for: crates
"""
import glob
import os
import re
import sys
from dataclasses import dataclass

from tests.lib.compare import notices, same
from tests.lib.files import read


class Misfit(Exception):
    """Why an edit cannot be made."""


@dataclass
class WrongBody:
    """A wrong body: its crate, its name, the file that has it, and its lines, from 'file:' on."""
    crate: str
    name: str
    path: str
    text: str


def records(crate):
    """The wrong bodies in the file wrong-bodies of a crate, if there is one."""
    path = f"crates/{crate}/wrong-bodies"
    for record in re.split(r"\n\n+", read(path).strip("\n")) if os.path.exists(path) else []:
        found = re.match(r"name: (\w+)\ndoes: \S.*\n(?=file: )", record)
        if not found:
            raise Misfit(f"{path}: not a name, a sentence and a file: {record[:60]!r}")
        yield WrongBody(crate, found[1], path, record[found.end():])


def edits_of(crate):
    """The wrong bodies of a crate, by name."""
    paths = glob.glob(f"crates/{crate}/must-fail/*.edit")
    found = [WrongBody(crate, os.path.splitext(os.path.basename(path))[0], path, read(path)) for path in paths]
    return sorted([*found, *records(crate)], key=lambda it: it.name)


def pairs(text):
    """The changes of an edit, in order: the file in the crate, the old text, and the new one."""
    file, old, found = "", None, []
    for line in text.split("\n"):
        word, _, rest = line.partition(":")
        said = rest[1:] if rest.startswith(" ") else rest
        if word == "file":
            file = said.strip()
        elif word == "old":
            old = said
        elif word == "new":
            if not file or not old:
                raise Misfit("a line 'new:' without a file or an old text")
            found.append((file, old, said))
            old = None
    if not found:
        raise Misfit("no old and new text")
    return found


def changed(changes, folder, texts=None):
    """The texts of the files after the changes, by path in the crate's folder. Texts that are given are changed further."""
    texts = dict(texts or {})
    for file, old, new in changes:
        if file not in texts:
            if not os.path.exists(f"{folder}/{file}"):
                raise Misfit(f"there is no {file}")
            texts[file] = read(f"{folder}/{file}")
        if texts[file].count(old) != 1:
            raise Misfit(f"not exactly once in {file}: {old}")
        texts[file] = texts[file].replace(old, new)
    return texts


def faults(bodies):
    """What is wrong with wrong bodies: those that do not fit their crate, and those of one crate and name."""
    names = [(it.crate, it.name) for it in bodies]
    for body, name in zip(bodies, names):
        try:
            changed(pairs(body.text), f"crates/{body.crate}")
        except Misfit as fault:
            yield f"{body.path}: {body.name}: {fault}"
        if names.count(name) > 1:
            yield f"{body.path}: {body.name}: there is another of this name"


def main():
    try:
        bodies = [it for crate in sorted(os.listdir("crates")) for it in edits_of(crate)]
    except Misfit as fault:
        print(fault)
        return 1
    stranger = WrongBody(bodies[0].crate, "planted", "planted", "file: src/lib.rt\nold: planted\nnew: not there")
    notices(lambda: same("planted", list(faults([stranger])), []))
    found = list(faults(bodies))
    for fault in found:
        print(fault)
    print(f"{len(bodies)} wrong bodies fit the code" if not found else f"{len(found)} faults")
    return 1 if found else 0


if __name__ == "__main__":
    sys.exit(main())
