"""Compares what documents quote with the files: PROOFS quotes the code, and LIBRARY the examples. A block that is indented by four
blanks quotes the file whose path, in backquotes, is the last one before it. Its comments are the page's own, and a clause that the file
has on several lines may be on one. A block of commands is not a quotation. TRUST has the theorem as README states it, word for word.

tier: text, 2 seconds; for: docs/PROOFS.md docs/TRUST.md docs/LIBRARY.md
"""
import re

from tests.lib.compare import notices, same
from tests.lib.files import read

COMMANDS = ("cc ", "python3 ", "cargo ")


def quotes(text):
    """Each quoted line, with its number and the file that it is from."""
    path, before, typed = None, "", False
    for number, line in enumerate(text.splitlines(), 1):
        named = re.findall(r"`((?:crates|examples)/[\w/]+\.\w+)`", line)
        path = named[-1] if named else path
        quoted = re.match(r"    +(?!//|--)(\S.*)", line)
        typed = typed if before.startswith("    ") else line.strip().startswith(COMMANDS)
        if quoted and not typed:
            yield number, path, quoted.group(1)
        before = line


def statements(text):
    """The lines of a text, and each clause that has several lines as one."""
    clauses = re.findall(r"^( +)((?:ensures|requires).*(?:\n\1 .*)+)", text, re.M)
    return {*(line.strip() for line in text.splitlines()), *(" ".join(clause.split()) for _, clause in clauses)}


def compare_quotes(page, text):
    found = [*quotes(text)]
    same(f"{page}: lines that the quoted file does not have", [row for row in found if row[2] not in statements(read(row[1]))], [])
    same(f"{page} quotes something", bool(found), True)


def claim(text):
    """The first quotation under "The claim", as one line."""
    quoted = re.search(r"(?:^>.*\n)+", text.split("\n## The claim\n")[1], re.M)[0]
    return " ".join(re.sub("^>", "", quoted, flags=re.M).split())


def main():
    notices(compare_quotes, "docs/PROOFS.md", read("docs/PROOFS.md").replace("self.old.entries ≡ []", "self.old.entries ≡ planted"))
    for page in ("docs/PROOFS.md", "docs/LIBRARY.md"):
        compare_quotes(page, read(page))
    same("the theorem in TRUST", claim(read("docs/TRUST.md")), claim(read("README.md")))
    print("what PROOFS, LIBRARY and TRUST quote is there")


if __name__ == "__main__":
    main()
