"""Counts by valgrind the bytes that the program requests, and fails if they are more than it needs.

tier: all, 20 seconds; programs: v7; for: crates/link_session crates/link_out; needs: valgrind

No contract can say that a list has no more room than it needs if it grows by `reserve`. So objects of more and more words and names are
listed and linked, and what one more word and one more name cost is compared with the sizes of what is kept of them. The lists of one
object have their room at once, so a list that has twice its room is seen.
"""
import re
import sys

from tests.costs.counting import valgrind
from tests.lib.files import new_folder, write
from tests.lib.objects import pack
from tests.lib.programs import program

# a word and its relocation word as they are read
READ = 2 + 2
# its cell, the link of its chain, and the word that is written
LINKED = 8 + 4 + 2
# a symbol as it is read
SYMBOL = 12
# what is kept of a name while it is linked, at most: its symbol, and its place among the externals while its object is added. Then
# its entry with name, state and hash, its place in the table of hashes, its head, a mark, its place among the multiply
# defined, what becomes of it, and its name in the report
NAME = 100
# numbers of names that fill a table of hashes, which has room for 7 eighths of a power of two
FEW, MANY = 1792, 3584
# what a link of nothing asks for beside a list of sizes of nothing, at most
FRAME = 10000


def write_object(path, words, names):
    """Writes an object with this number of words of text, which are numbers, and of undefined names."""
    write(path, pack([(0, 0)] * words, symbols=[(b"n%06d" % n, 0o40, 0) for n in range(names)]))


def asked(words, path):
    """How many bytes the program asks for, all together. It may report names, but not be refused what it asks for."""
    done = valgrind([program("v7"), *words, path])
    found = re.search(r"([\d,]+) bytes allocated", done.said())
    if done.status > 1 or not found:
        sys.exit(f"fault: {' '.join(words)} {path}: {done.said()}")
    return int(found[1].replace(",", ""))


def main():
    size, ld = {}, {}
    with new_folder():
        for words, names in ((0, 0), (1000, 0), (3000, 0), (0, FEW), (0, MANY)):
            path = f"{words}-{names}.o"
            write_object(path, words, names)
            size[words, names], ld[words, names] = asked(["size"], path), asked(["ld", "-s", "-o", "/dev/null"], path)
    # what is measured, how many bytes that is, and how many it has to be, or at most
    rows = [
        ("bytes for 2,000 words that are read", size[3000, 0] - size[1000, 0], "as", 2000 * READ),
        ("for 2,000 words that are linked", ld[3000, 0] - ld[1000, 0], "as", 2000 * (READ + LINKED)),
        ("for 1,792 symbols that are read", size[0, MANY] - size[0, FEW], "as", (MANY - FEW) * SYMBOL),
        ("for 1,792 names that are linked", ld[0, MANY] - ld[0, FEW], "at most", (MANY - FEW) * NAME),
        ("for a link of nothing, beside a list of it", ld[0, 0] - size[0, 0], "at most", FRAME),
    ]
    faults = 0
    for what, found, how, wanted in rows:
        is_wrong = found > wanted or how == "as" and found != wanted
        print(f"{what}: {found}, {how} {wanted}{': this is a fault' * is_wrong}")
        faults += is_wrong
    return 1 if faults else 0


if __name__ == "__main__":
    sys.exit(main())
