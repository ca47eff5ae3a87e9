"""Reads sources in Rattle (`.rt`), definitions (`.antt`), and the list of crates, for all scripts."""
import os
import re
from typing import NamedTuple

from tests.lib.files import read

# the head of a function: what is before it, whether it is public, and its name
FUNCTION = re.compile(r'^( *)(pub(?:\(\w+\))? )?(?:const |unsafe |extern "C" )*fn (\w+)', re.M)
CLAUSE = re.compile(r"\s*(?:ensures|requires|invariant)\b")
TEXT = re.compile(r'"(?:\\.|[^"\\])*"|\'(?:\\.[^\']*|[^\'\\])\'')
# a definition: its kind, its name, and what follows; and a constructor or a field
STATED = re.compile(r"^((?:(?:abbrev|unfoldable|record|data|def|rec|pub) +)*)([^\s({:]+)(.*)$")
MEMBER = re.compile(r"^ +(?:pub )?([^\s:(){}=]+) :", re.M)


class Function(NamedTuple):
    """A function: what it is given (`pub `, or nothing), and the lines of its head, and of each clause of its contract."""
    name: str
    given: str
    signature: list
    clauses: list

    def head(self):
        """Its head and its contract."""
        return "\n".join(line for part in (self.signature, *self.clauses) for line in part)


class Definition(NamedTuple):
    """A definition: its name, whether it is public, what follows the name, the names that it gives, and its lines."""
    name: str
    is_public: bool
    rest: str
    names: set
    lines: list


def depth(lines):
    """How many brackets are open after some lines, past those in texts and characters."""
    plain = TEXT.sub("", "\n".join(lines))
    return sum(map(plain.count, "({[")) - sum(map(plain.count, ")}]"))


def items(text):
    """The items of a source that begin at the left margin, each as its lines, without tests, attributes and comments."""
    item = []
    for line in re.sub(r"#\[cfg\(test\)\].*", "", text, flags=re.S).split("\n"):
        if item or line and not line.startswith(("#", "//", " ", "}")):
            item.append(line)
        if item and (line in ("}", "{}") or not line.startswith((" ", ")", "{")) and line.endswith((";", "}"))):
            yield item
            item = []
    if item:
        yield item


def clauses(lines):
    """The clauses with which some lines begin, each as its lines."""
    while lines and CLAUSE.match(lines[0]):
        length = next((at for at in range(1, len(lines)) if depth(lines[:at]) <= 0), len(lines))
        yield lines[:length]
        lines = lines[length:]


def functions(lines):
    """The functions of some lines."""
    for at, line in enumerate(lines):
        found = FUNCTION.match(line)
        if found:
            end = at + 1
            while depth(lines[at:end]) > 0 and not lines[end - 1].endswith("{") and end < len(lines):
                end += 1
            yield Function(found[3], found[2] or "", lines[at:end], [*clauses(lines[end:])])


def definitions(text):
    """The definitions of a file. Imports, comments and empty lines belong to none; an empty line ends one."""
    lines = []
    for line in text.split("\n") + [""]:
        if line.strip() and not re.match(r" *--|(?:pub )?(?:use|mod) |module ", line):
            lines.append(line)
        elif lines and not line.strip():
            words, name, rest = STATED.match(lines[0].strip()).groups()
            names = {name, *MEMBER.findall("\n".join(lines))} if "data" in words.split() else {name}
            yield Definition(name, "pub" in words.split(), rest.strip(), names, lines)
            lines = []


def crates_in(top):
    """Each crate of crates.txt, with the libraries that it uses."""
    return {name: uses.split() for name, uses in re.findall(r"^(\w+)[^:#\n]*:(.*)$", read(os.path.join(top, "crates.txt")), re.M)}


def below(crate, uses):
    """A crate, and those of the repository that it uses."""
    return {crate}.union(*(below(other, uses) for other in uses[crate] if other in uses))
