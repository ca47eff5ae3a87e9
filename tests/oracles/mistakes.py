"""Plants mistakes of assemblers in right objects, and compares what v7-explain says of them with tests/oracles/suspicions.py.

tier: check, 120 seconds; programs: v7-explain; for: crates/checks

The right objects are those of examples/ and of the page, and 300 that are made here. `-c` may say nothing sure of any of them, and no line
at all of one that a compiler wrote, with `-t` too; idioms.py has more of them.

Each kind of mistake has a row. It says in how many objects the mistake was planted. For `-c`, and then for `-c -t`, it counts the objects
in which the mistake is found, those with only lines that say "if", and those with no line. The last number is that of the objects in whose
listing there is no line either. A kind with ? may be meant, as a number in place of an address: no check of one object is sure of it. Of
any other kind `-c -t` has to have a line in each object.

Without `-t` only functions are sure that begin with `jsr r5,csv`, as half of the objects do. All other text may be data, so `-c` finds at
most half of the mistakes in instructions.
"""
import copy
import glob
import os
import re
import struct

from tests.lib.compare import notices
from tests.lib.files import TOP, new_folder, read_bytes, write
from tests.oracles.disassembly import File, decoded
from tests.oracles.notes import DOUBT, checked, explained
from tests.oracles.planting import MISTAKES, dice
from tests.oracles.suspicions import BSS, DATA, EXTERNAL, KINDS, surely_wrong

# the most lines that `-c` prints of a file
MOST_LINES = 16
# the most objects of each kind in which mistakes are planted
MOST_PLANTED = 100
# the one whose fault a lesson asks about: its symbol counts from the beginning of data
WRONG = "examples/total/low.o"
# its text is a word of data, so `-t` would be a false promise
DATA_IN_TEXT = "examples/k.o"


# objects that are right


class Maker:
    """A right object: instructions that refer to text, data, bss and externals. Some begin as C functions do, by `jsr r5,csv`."""

    def __init__(self, number):
        self.words, self.relocation, self.later = [], [], []
        self.data, self.bss = dice.randrange(2, 9), 2 * dice.randrange(1, 5)
        self.symbols = []
        is_function = number % 2
        if is_function:
            self.put(0o004567)
            self.put_from_pc(self.external(b"csv"), 0)
        for _ in range(dice.randrange(3, 20)):
            self.put_instruction(dice.randrange(9))
        if is_function:
            self.put(0o000167)
            self.put_from_pc(self.external(b"cret"), 0)
        else:
            self.put(0o000207)
        size = 2 * len(self.words)
        for at, target in self.later:
            self.words[at] = (self.words[at] + size) % 65536
        self.symbols += [(b"_data", 0o43, size), (b"_bss", 0o44, size + 2 * self.data)]
        if number % 3:
            self.symbols.append((b"_main", 0o42, 0))

    def put(self, word, low=0):
        self.words.append(word % 65536)
        self.relocation.append(low)

    def put_address(self, low, target):
        """Data and bss are counted from the beginning of data until the size of the text is known."""
        if low & 0o16 in (DATA, BSS):
            self.later.append((len(self.words), target))
        self.put(target, low)

    def put_from_pc(self, low, target):
        """An operand word of mode 67 or 77."""
        self.put_address(low + 1, target - 2 * len(self.words) - 2)

    def external(self, name, value=0):
        """The relocation word of an undefined name or of a common, which is in the table once it is used."""
        if (name, 0o40, value) not in self.symbols:
            self.symbols.append((name, 0o40, value))
        return EXTERNAL + 16 * self.symbols.index((name, 0o40, value))

    def place(self):
        """A kind of relocation, and a number that it may have."""
        kind = dice.randrange(300)
        if kind == 0:
            return self.external(b"_far"), 2 * dice.randrange(2)
        if kind == 1:
            return self.external(b"_common", 4), 2 * dice.randrange(2)
        return (DATA, 2 * dice.randrange(self.data)) if kind == 2 else (BSS, 2 * self.data + 2 * dice.randrange(self.bss // 2))

    def put_instruction(self, kind):
        """An instruction of one of nine forms. The last one is a branch to the first instruction."""
        near, far = self.put_from_pc, self.put_address
        forms = [(0o016700, near), (0o012700, far), (0o004767,), (0o026767, near, near), (0o016001, far), (0,), (0o104404, far),
                 (0o017702, near), (0o001000 + (-len(self.words) - 1) % 256,)]
        word, *operands = forms[kind]
        if kind == 5:
            word = dice.choice([0o010100, 0o005726, 0o060201, 0o000240])
        self.put(word + (dice.randrange(6) if kind < 2 else 0))
        for put in operands:
            put(*self.place())
        if kind == 2:
            self.put_from_pc(self.external(dice.choice([b"_a", b"_b", b"_c"])), 0)
        if kind == 6:
            self.put(0o12)

    def file(self):
        data = [dice.randrange(65536) for _ in range(self.data - 1)] + [2 * len(self.words)]
        return File(self.words, self.relocation, self.symbols, 0o407, data, [0] * (self.data - 1) + [DATA], self.bss)


def objects_of(*patterns):
    paths = [path for pattern in patterns for path in sorted(glob.glob(pattern, root_dir=TOP)) if path not in (WRONG, DATA_IN_TEXT)]
    files = [decoded(read_bytes(os.path.join(TOP, path))) for path in paths]
    return [file for file in files if file.magic == 0o407 and file.relocation is not None]


# what is said


def stored(files):
    paths = []
    for number, file in enumerate(files):
        data = file.encoded()
        header = getattr(file, "header", None)
        paths.append(f"f{number}.o")
        write(paths[-1], (struct.pack("<8H", *header) if header else data[:16]) + data[16:])
    return paths


def judged(paths, *options):
    """The lines of `-c` about each file."""
    return [*map(set, checked(paths, *options).values())]


def listed(paths):
    """What the listing of each file says is wrong or odd."""
    return [{note for note in notes if note.startswith(("wrong:", "odd:"))} for notes in explained(paths)]


def sure(lines):
    return {line for line in lines if DOUBT not in line}


def remarks(lines):
    """The remarks of these lines on instructions, as tests/oracles/suspicions.py has them."""
    return {(int(found[1], 8), kind) for line in lines for kind, text in KINDS.items() if (found := re.search(text, line))}


def compare(what, file, promise, lines):
    """What is said as sure of an object's instructions has to be sure, and what is surely wrong has to be said."""
    wanted, allowed = surely_wrong(file, promise)
    said = remarks(sure(lines))
    assert said <= allowed, (what, "is said, and not sure", said - allowed)
    assert wanted <= said or len(lines) >= MOST_LINES, (what, "is sure, and not said", wanted - said)


def check_right(kinds):
    """Nothing sure is said of a right object, and nothing at all of one that a compiler wrote."""
    for kind, (files, is_compiled) in kinds.items():
        paths = stored(files)
        for options in ((), ("-t",)):
            for number, lines in enumerate(judged(paths, *options)):
                assert not (lines if is_compiled else sure(lines)), (kind, number, options, lines)
        print(f"{len(files)} right objects, {kind}: nothing sure" + (", and no line" if is_compiled else ""))


def check_mistake(name, plant, files, before):
    """Plants one kind of mistake; the numbers of its row."""
    wrong = copy.deepcopy(files)
    planted = [number for number, file in enumerate(wrong) if plant(file)]
    paths = stored([wrong[number] for number in planted])
    after = {options: judged(paths, *options) for options in ((), ("-t",))}
    after["listing"] = listed(paths)
    row = [len(planted)] + [0] * 7
    for place, number in enumerate(planted):
        fresh = {options: lines[place] - before[options][number] for options, lines in after.items()}
        if not hasattr(wrong[number], "header") and not any("wrong" in line for line in fresh["listing"]):
            for options in ((), ("-t",)):
                compare((name, number, options), wrong[number], bool(options), after[options][place])
        found, promised = bool(sure(fresh[()])), bool(sure(fresh[("-t",)]))
        assert promised or not found, (name, number, "is found by -c, and not by -c -t")
        for at, is_found, lines in ((1, found, fresh[()]), (4, promised, fresh[("-t",)])):
            row[at if is_found else at + 1 if lines else at + 2] += 1
        row[7] += not (fresh[()] or fresh[("-t",)] or fresh["listing"])
    assert name.endswith("?") or row[6] == 0, (name, "has no line in", row[6], "objects")
    return row


def main():
    kinds = {
        "examples": (objects_of("examples/*.o", "examples/total/*.o"), False),
        "of the page": (objects_of("tests/page/data/*.o"), True),
        "made": ([Maker(number).file() for number in range(300)], False),
    }
    symbols = [(b"csv", 0o40, 0), (b"_f", 0o42, 0)]
    notices(compare, "a word that is no instruction", File([0o004567, 0o177774, 0o10], [0, 9, 0], symbols), False, set())
    check_right(kinds)
    files = [file for some, _ in kinds.values() for file in some[:MOST_PLANTED]]
    paths = stored(files)
    before = {(): judged(paths), ("-t",): judged(paths, "-t"), "listing": listed(paths)}
    print(f"{len(MISTAKES)} kinds of mistakes, in {len(files)} objects")
    print("        |       -c        |      -c -t      |")
    print("planted | found    if  no | found    if  no | silent")
    for name, plant in MISTAKES.items():
        print("%7d | %5d %5d %3d | %5d %5d %3d | %6d  %s" % (*check_mistake(name, plant, files, before), name))


with new_folder():
    main()
