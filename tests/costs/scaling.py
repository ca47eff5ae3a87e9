"""Counts by valgrind how the instructions of the programs grow with what they are given, and prints an exponent for each. One that is
larger by more than 0.02 than docs/internals/COSTS.md states is a fault.

A kind of work is done at four sizes, the largest at least 16 times the smallest. What the same command takes without that
work, its start and the files before it, is subtracted. The exponent is the slope, by least squares, of the logarithm of the
instructions over that of the size: 1.00 if twice as much takes twice as long, 2.00 if it takes four times as long.

tests/costs/counting.py says how instructions are counted.

usage: python3 -m tests.costs.scaling [KIND ..]

tier: all, 120 seconds; programs: v7 v7-explain; for: docs/internals/COSTS.md; needs: valgrind
"""
import functools
import math
import os
import re
import sys
import tempfile
from concurrent.futures import ThreadPoolExecutor

from tests.costs.counting import counted, is_installed
from tests.lib.compare import notices
from tests.lib.files import TOP, read, write
from tests.lib.objects import pack
from tests.lib.programs import program

MOST_SYMBOLS = 5461
DEFINED, WANTED = 0o42, 0o40
PLAIN = [(7, 0)] * 100
MOST_WORDS = 32767
# of the hasher of names
SEED, MULTIPLIER = 0x243F6A8885A308D3, 0x9E3779B97F4A7C15 ^ 16
# instructions as compilers write them: moves, calls, tests, branches and arithmetic
CODE = [
    [0o016500, 4], [0o012746, 0o1000], [0o004767, 0o2000], [0o005726], [0o005700], [0o001403], [0o060401], [0o016567, 6, 0o300],
    [0o110211], [0o000766], [0o020027, 0o177], [0o103402], [0o005204], [0o072027, 2], [0o000207], [0o010446],
]


def names(first, count, kind=DEFINED):
    """Symbols with names of their own, and this number as the first."""
    return [(f"n{number:05d}", kind, 0) for number in range(first, first + count)]


@functools.cache
def colliding():
    """4,800 names whose hashes have ten bits in common, found by trying."""
    def bits(name):
        product = (SEED ^ int.from_bytes(name.encode(), "little")) * MULTIPLIER
        return ((product ^ product >> 64) ^ (product ^ product >> 64) >> 32) % 1024
    return [name for name in map("{:08x}".format, range(4800 * 1088)) if bits(name) == 0][:4800]


def reference(number):
    """A word that refers to the symbol with this number."""
    return 0, 0o10 + 16 * number


def text(count):
    """Words of instructions without relocation, in an order that is the same each time."""
    words, number = [], 1
    while len(words) < count:
        number = (number * 1103515245 + 12345) % 2**31
        words += CODE[(number >> 8) % len(CODE)]
    return [(word, 0) for word in words[:count]]


class Work:
    """What a command does, in a folder of its own."""

    def __init__(self, programs, folder):
        self.v7, self.explain = programs
        self.folder = folder

    def object(self, name, words=(), symbols=()):
        """Writes an object: its text, each word with its relocation word, and its symbols, each with type word and value."""
        write(f"{self.folder}/{name}", pack(words, symbols=[(symbol.encode(), kind, value) for symbol, kind, value in symbols]))
        return name

    def of_names(self, count, most):
        """Objects that together define this number of names."""
        return [self.object(f"n{first}.o", [], names(first, min(most, count - first))) for first in range(0, count, most)]

    def of_words(self, count):
        """One object more, each of 100 words and 10 names."""
        return [self.object(f"o{number}.o", PLAIN, names(10 * number, 10)) for number in range(count + 1)]

    def link(self, *files):
        return [self.v7, "ld", "-s", "-o", "out", *files], ""

    def session(self, lines):
        return [self.v7, "session"], "".join(f"{line}\n" for line in lines)

    # Each of these answers the command for a size, and the script that it reads; at size 0 the command without the work.

    def objects(self, size):
        """Links `size` objects of 100 words and 10 names."""
        return self.link(*self.of_words(size))

    def names(self, size):
        """Links objects with `size` names, 3,840 in each."""
        return self.link(self.object("first.o"), *self.of_names(size, 3840))

    def collisions(self, size):
        """Links an object with `size` names, whose look-ups all begin at the same place of the table."""
        return self.link(self.object("first.o"), self.object("collide.o", [], [(name, DEFINED, 0) for name in colliding()[:size]]))

    def references(self, size):
        """Links `size` words that refer to 100 names defined before."""
        words = [reference(number % 100) for number in range(size)]
        return self.link(self.object("defines.o", [], names(0, 100)), self.object("refers.o", words, names(0, 100, WANTED)))

    def chains(self, size):
        """Links `size` words that wait for one name, which a later object defines."""
        waits = self.object("waits.o", [reference(0)] * size, names(0, 1, WANTED))
        return self.link(waits, self.object("defines.o", [], names(0, 1)))

    def scripts(self, size):
        """Adds an object to a session and withdraws it, `size` times."""
        path = self.object("added.o", [reference(0), (2, 2)], names(0, 1, WANTED))
        return self.session([f"add {path}", "withdraw"] * size)

    def nm(self, size):
        """Lists `size` symbols by name."""
        return [self.v7, "nm", self.object("table.o", [], names(0, size)[::-1])], ""

    def listings(self, size):
        """Lists `size` words that refer to half as many names."""
        words = [reference(number // 2) for number in range(size)]
        return [self.explain, self.object("listed.o", words, names(0, size // 2, WANTED))], ""

    def texts(self, size):
        """Lists `size` words of instructions."""
        return [self.explain, self.object("text.o", text(size))], ""

    def maps(self, size):
        """Maps the link of `size` objects of 100 words and 10 names."""
        return [self.explain, "-m", *self.of_words(size)], ""

    def mapped(self, size):
        """Maps the link of one object of `size` symbols, every other one a label, and of six words for each. A word leads to a label by
        its address, and the next one to another symbol by its number, which has 12 bits in a relocation word."""
        labels, most = (size + 1) // 2, min(size, 4096) // 2
        words = [reference(2 * (7 * number % most) + 1) if number % 2 else (4 * (7 * number % labels), 2) for number in range(6 * size)]
        symbols = [(name, *((WANTED, 0) if number % 2 else (DEFINED, 2 * number))) for number, (name, _, _) in enumerate(names(0, size))]
        return [self.explain, "-m", self.object("mapped.o", words, symbols)], ""


KINDS = {
    "objects": [20, 80, 160, 320],
    "names": [3840, 15360, 30720, 61440],
    "collisions": [300, 1200, 2400, 4800],
    "references": [2000, 8000, 16000, 32000],
    "chains": [2000, 8000, 16000, 32000],
    "scripts": [200, 800, 1600, 3200],
    "nm": [341, 1365, 2730, 5456],
    "listings": [512, 2048, 4096, 8192],
    "texts": [2047, 8191, 16383, MOST_WORDS],
    "maps": [20, 80, 160, 320],
    "mapped": [341, 1365, 2730, MOST_SYMBOLS],
}
# its status is 1, as names stay undefined
REPORTS = ("mapped",)


def count(programs, kind, size):
    """How many instructions a command takes."""
    with tempfile.TemporaryDirectory() as folder:
        command, script = getattr(Work(programs, folder), kind)(size)
        return counted(command, folder, script, status=int(kind in REPORTS and size > 0))


def slope(points):
    """The slope of the line nearest to these points."""
    across, up = (sum(axis) / len(points) for axis in zip(*points))
    return sum((x - across) * (y - up) for x, y in points) / sum((x - across) ** 2 for x, _ in points)


def line(programs, kind):
    """A kind of work: its exponent, and the line with its instructions at each size."""
    start, *totals = (count(programs, kind, size) for size in (0, *KINDS[kind]))
    costs = [(size, total - start) for size, total in zip(KINDS[kind], totals)]
    exponent = slope([(math.log(size), math.log(cost)) for size, cost in costs])
    return exponent, f"{kind:10} {exponent:5.2f}   " + ", ".join(f"{size:,}: {cost:,}" for size, cost in costs)


def check(stated, kind, exponent):
    """Ends with a fault if an exponent is larger than is stated."""
    if exponent > stated[kind] + 0.02:
        sys.exit(f"{kind}: the exponent is {exponent:.2f}, and docs/internals/COSTS.md states {stated[kind]:.2f}")


def main(*kinds):
    if not is_installed():
        return
    programs = [program(name) for name in ("v7", "v7-explain")]
    text = read(f"{TOP}/docs/internals/COSTS.md")
    stated = dict.fromkeys(KINDS, float(re.search(r"exponents of [\d.]+ to ([\d.]+),", text)[1]))
    stated |= {kind: float(most) for kind, most in re.findall(r"`([a-z]+)`[^`.]*?\shas (\d\.\d\d)", text)}
    notices(check, stated, "nm", stated["nm"] + 0.03)
    print("how instructions grow: the exponent, and the instructions at four sizes")
    kinds, found = kinds or [*KINDS], []
    with ThreadPoolExecutor(os.cpu_count()) as pool:
        for exponent, row in pool.map(lambda kind: line(programs, kind), kinds):
            print(row, flush=True)
            found.append(exponent)
    for kind, exponent in zip(kinds, found):
        check(stated, kind, exponent)


if __name__ == "__main__":
    main(*sys.argv[1:])
