"""Finds what documents, manual pages, code and scripts name and what is not there: a file, a page of the manual, a heading, a target of
make, a test. A link has to lead to something, and docs/README.md has to have a link to each document.

usage: python3 -m tests.texts.links [FILE ..]     all texts of the repository, or these
tier: text, 4 seconds; for: docs README.md CONTRIBUTING.md CHANGES.md man examples crates include packaging tests tools Makefile
"""
import functools
import glob
import os
import re
import sys

from installed import anchor
from tests.lib.compare import same
from tests.lib.files import read

INDEX = "docs/README.md"
LINK = re.compile(r"\]\(([^)\s]+)\)(?:, \"([^\"]+)\")?")
PATH = re.compile(r"(?<![\w./-])((?:docs|tests|tools|examples|crates|man|include|page|packaging|\.ci)/[\w./-]*\w)")
PAGE = re.compile(r"\b(v7(?:-[a-z-]+)?)\((\d)\)")
HEADING = re.compile(r"((?:docs/[\w/]+|README|CONTRIBUTING)\.md), \"([^\"]+)\"")
# what stands for a name in a path, and what a build makes
ANY = re.compile(r"NAME|CRATE|FILE|/out\b")
# what `python3 -m tests` takes besides names of tests
WORDS = "which list needs parts text test check all".split()


def documents():
    return sorted({"README.md", "CHANGES.md", "CONTRIBUTING.md", "packaging/README.md", *glob.glob("docs/**/*.md", recursive=True),
                   *glob.glob("examples/*.md"), *glob.glob("crates/*/*.md"), *glob.glob("t*s/**/README.md", recursive=True)})


def others():
    """The manual, code and scripts."""
    patterns = ("man/*.[1-9]", "include/*.h", "crates/*/src/**/*.rt", "crates/*/specs/**/*.antt", "t*s/**/*.py", "t*s/**/*.sh",
                "packaging/*.py")
    return sorted({path for pattern in patterns for path in glob.glob(pattern, recursive=True)} - {"tests/texts/links.py"})


@functools.lru_cache(None)
def headings(path):
    """The headings of a document, and the names by which links know them."""
    names = re.findall(r"^#+ (.*)$", read(path), re.M)
    return {*names, *map(anchor, names)}


def links_in(path, text):
    """The files that the links of a text lead to, each with the headings that are named."""
    for place, quoted in LINK.findall(text):
        target, _, heading = place.partition("#")
        if "://" not in place:
            yield os.path.normpath(os.path.join(os.path.dirname(path), target)) if target else path, {heading, quoted} - {""}


def dead_in(path, text):
    """What a text names that is not there."""
    for target in PATH.findall(text):
        place = re.sub(r"::\w+$", "", target)
        if not ANY.search(place) and not glob.glob(place + "*") and not os.path.exists(os.path.join(os.path.dirname(path), place)):
            yield f"no file {place}"
    yield from (f"no page {name}({section})" for name, section in PAGE.findall(text) if not os.path.exists(f"man/{name}.{section}"))
    cited = [(target, name) for target, name in HEADING.findall(text) if os.path.exists(target)]
    yield from (f"{target} has no heading {name}" for target, name in cited if name not in headings(target))


def dead_links(path, text):
    for target, named in links_in(path, text):
        if not os.path.exists(target):
            yield f"no file {target}"
        elif named - headings(target) if target.endswith(".md") else named:
            yield f"{target} has no heading {' or '.join(sorted(named))}"


def dead_commands(text, targets):
    """The targets of make and the tests that the commands of a document name and that are not there."""
    for command in re.findall(r"`([^`]+)`|^ {4,}(?:\$ )?((?:make|python3 -m) .*)", text, re.M):
        command = "".join(command)
        for words in re.findall(r"^make((?: [\w./=$-]+)+)", command):
            # those of GNU begin with all-
            yield from (f"no target {name} of make" for name in words.split() if name not in targets and not re.search("=|^all-", name))
        for module in re.findall(r"python3 -m ((?:tests|tools)\.[\w.]+)", command):
            yield from [f"no script {module}"] * (not os.path.exists(module.replace(".", "/") + ".py"))
        for words in re.findall(r"^python3 -m tests ([a-z0-9_ ]+)", command):
            names = [name for name in words.split() if name not in WORDS]
            yield from (f"no test {name}" for name in names if not glob.glob(f"tests/{name}") + glob.glob(f"tests/*/{name}.*"))


def faults_of(path, text, targets):
    """The faults of a text. Code and scripts have paths and examples of their own: there a document or a page can be missing."""
    is_shown = path.endswith((".md", ".1", ".3", ".5", ".7"))
    found = [fault for fault in dead_in(path, text) if is_shown or fault.endswith(".md") or not fault.startswith("no file")]
    return sorted({*found, *([*dead_links(path, text), *dead_commands(text, targets)] if path.endswith(".md") else [])})


def check_itself():
    """What is not there is found."""
    text = ('See [this](docs/missing.md), v7-none(1), docs/PROOFS.md, "No such heading", [one](LINK.md#missing), and '
            "`python3 -m tests none`.\n\n    make nothing\n")
    same("what is planted", len(faults_of("docs/A.md", text, {"all"})), 7)


def main(chosen):
    check_itself()
    targets = {*re.findall(r"^([\w-]+):(?!=)", read("Makefile"), re.M)}
    paths = chosen or documents() + others()
    faults = [f"{path}: {fault}" for path in paths for fault in faults_of(path, read(path), targets)]
    known = {INDEX, "packaging/README.md", *(target for target, _ in links_in(INDEX, read(INDEX)))}
    faults += [f"{INDEX}: no link to {path}" for path in documents() if path not in known]
    print(*faults, f"{len(paths)} texts: {len(faults)} faults", sep="\n")
    return 1 if faults else 0


if __name__ == "__main__":
    sys.exit(main(sys.argv[1:]))
