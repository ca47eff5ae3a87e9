"""Finds the objects of links again with v7-origin, among all the objects that were made, and runs the command that it gives.

usage: python3 -m tests.oracles.origin [LISTS]      45 lists, and programs that take long; or only so many lists
tier: check, 60 seconds; programs: v7 v7-origin; for: crates/origins crates/v7_origin

The lists are made, the same in each run: objects that call each other and refer to data, bss and commons, in each layout, stripped and not.
Then one word of an object is another, and has to be shown alone; and one object is missing, and each other that is placed has to fit there
by the definition. At last 65,534 bytes of text are found among 1,000 objects, and such programs are searched for objects that fit nearly
everywhere: the memory has a bound, and the seconds of a processor are printed. `fits` is that definition, written again: a link moves each segment of an
object, and gives each name an address. To a word the move or the address is added that its relocation word asks for, and a word relative to
the pc loses the move of its own segment.
"""
import os
import random
import re
import struct
import sys

from tests.lib.compare import notices, same
from tests.lib.files import new_folder, read, read_bytes, write
from tests.lib.objects import pack, unpack
from tests.lib.programs import program, ran

LISTS = 45
LAYOUTS = {"": 0o407, "-n": 0o410, "-i": 0o411}
# first words, some with an operand that is relocated, relative to the pc or not
ROWS = [[0o000207], [0o010546], [0o005003], [0o012700], [7], [0o060001], [0o001403], [0o110102], [0o005266], [4], [0o016504], [6],
        [0o000240], [0o004767, "pc"], [0o004767, "pc"], [0o016700, "pc"], [0o010067, "pc"], [0o012701, "at"], [0o012746, "at"],
        [0o005237, "at"]]


def relocated(dice, way, place, sizes, wanted):
    """A word and its relocation word: an address of a segment of the object, or of a name that it leaves undefined."""
    text, data, bss = sizes
    if isinstance(way, int):
        return -(2 * place + 2) % 65536, 0o11 + 16 * way
    kinds = [0o10] * bool(wanted) + [2] + [4] * bool(data) + [6] * bool(bss)
    kind, pc = dice.choice(kinds), way == "pc"
    first, count = {2: (0, text), 4: (text, data), 6: (text + data, bss)}.get(kind, (0, 1))
    value = 2 * (first + dice.randrange(count)) - pc * (2 * place + 2)
    return value % 65536, kind + pc + (16 * dice.randrange(wanted) if kind == 0o10 else 0)


def made(dice, own, wanted):
    """An object that defines names of its own, and refers to others."""
    rows = [dice.choice(ROWS) for _ in range(dice.randrange(3, 40))] if len(wanted) > 3 or dice.randrange(8) else []
    rows += [[0o004767, name] for name in range(len(wanted)) if rows]
    words = [word if at == 0 else (word,) for row in rows for at, word in enumerate(row)]
    sizes = (len(words), dice.choice([0, 0, 1, 3, 9]), dice.choice([0, 0, 0, 2, 6]))
    if not sum(sizes):
        sizes = (0, 0, 3)
    text = [relocated(dice, word[0], at, sizes, len(wanted)) if isinstance(word, tuple) else (word, 0) for at, word in enumerate(words)]
    data = [relocated(dice, "at", 0, (max(sizes[0], 1), *sizes[1:]), len(wanted)) if dice.randrange(3) == 0 else (dice.randrange(65536), 0)
            for _ in range(sizes[1])]
    starts = {2: 0, 3: sizes[0], 4: sizes[0] + sizes[1]}
    segments = [segment for segment, size in zip(starts, sizes) if size]
    symbols = [(name, 0o40, 0) for name in wanted]
    for name in own:
        segment = dice.choice(segments)
        symbols.append((name, 0o40 + segment, 2 * (starts[segment] + dice.randrange(sizes[segment - 2]))))
    symbols.append((b"L1", 2 if sizes[0] else 1, 0))
    return pack(text, data, 2 * sizes[2], symbols)


def made_list(dice, number):
    """The objects of a program, by their paths. The first refers to all others."""
    count = dice.randrange(2, 13)
    names = [[b"_%d_%d%s" % (number, at, letter) for letter in (b"", b"x")] for at in range(count)]
    others = [dice.choice(own) for own in names[1:]]
    wanted = [others] + [dice.sample(others, min(len(others), dice.randrange(4))) for _ in others]
    return {f"l{number}_{at}.o": made(dice, own, wanted[at]) for at, own in enumerate(names)}


def fits(program, stored, text, place):
    """Whether an object fits a program there; `place` is a byte of data, or None if its words have to tell it."""
    whole, parts = unpack(program), unpack(stored)
    magic, text_size = whole.header[:2]
    start = {0o407: text_size, 0o410: -(-text_size // 8192) * 8192, 0o411: 0}[magic]
    known = {2: text}
    if place is not None:
        known[4] = (start + place - parts.header[1]) % 65536

    def agree(words, relocations, there, own):
        for word, relocation, found in zip(words, relocations, there):
            value = (found - word + (own if relocation & 1 else 0)) % 65536
            kind = relocation & 0o16
            key = parts.symbols[relocation >> 4][0] if kind == 0o10 else kind
            if (value if kind == 0 else known.setdefault(key, value) - value):
                return False
        return len(there) == len(words)

    count = len(parts.text)
    if not agree(parts.text, parts.relocation[:count], whole.text[text // 2:text // 2 + count], text):
        return False
    if not parts.data:
        return True
    at = (known[4] + parts.header[1] - start) % 65536 // 2 if 4 in known else None
    places = range(len(whole.data) + 1) if at is None else [at]
    return any(agree(parts.data, parts.relocation[count:], whole.data[at:at + len(parts.data)], (start + 2 * at - parts.header[1]) % 65536)
               for at in places)


def rows_of(text):
    """The rows of objects: where the text begins, where it ends, where the data begins or None, and the path."""
    rows = re.findall(r"^(\d{6})-(\d{6})  (\d{6}|-|\?) +(\S+)", text, re.M)
    return [(int(one, 8), int(other, 8), int(data, 8) if data.isdigit() else None, path) for one, other, data, path in rows]


def find_whole(what, paths, options, every):
    """Links a list, and finds it among all objects: the command makes the program again."""
    made = ran(V7, "ld", *options, "-o", "program", *paths).texts()
    stored = read_bytes("program")
    came = ran(ORIGIN, "program", *every).texts()
    same(what, (came[0], came[2]), (0, ""))
    os.rename("program", "first")
    command = re.search(r"^all of it: (.*)$", came[1], re.M)[1]
    again = ran("sh", "-c", command, env={**os.environ, "PATH": f"{os.path.dirname(V7)}:/bin:/usr/bin"})
    if "-s" not in options:
        ran(V7, "strip", "first", "program")
    same(what, (again.texts(), read_bytes("program")), (made, read_bytes("first")))
    return stored


def find_part(what, stored, objects, paths, missing, every):
    """Without one object, each object that is placed fits there; how many are where they were linked, and how many are not."""
    came = ran(ORIGIN, "first", *(path for path in every if objects[path] != objects[missing])).texts()
    same(what, (came[0], came[2]), (1, ""))
    start = {path: sum(unpack(objects[other]).header[1] for other in paths[:at]) for at, path in enumerate(paths)}
    rows = rows_of(came[1])
    for text, _, _, path in rows:
        same(f"{what} {path}", fits(stored, objects[path], text, None), True)
    right = sum(start.get(path) == text for text, _, _, path in rows)
    return right, len(rows) - right


def find_changed(what, stored, objects, paths, dice, every):
    """With another word in the text of an object, its row shows that word alone."""
    path = max(paths, key=lambda path: len(unpack(objects[path]).text))
    parts = unpack(objects[path])
    still = [at for at, relocation in enumerate(parts.relocation[:len(parts.text)]) if relocation == 0]
    at = dice.choice(still)
    bad = bytearray(objects[path])
    struct.pack_into("<H", bad, 16 + 2 * at, parts.text[at] ^ 0o1000)
    write("changed.o", bytes(bad))
    came = ran(ORIGIN, "first", *(other for other in every if objects[other] != objects[path]), "changed.o").texts()
    same(what, (came[0], came[2]), (1, ""))
    found = re.search(r"near changed.o, at (\d{6})-\d{6}: 1 word differs\n +(\d{6})", came[1])
    start = sum(unpack(objects[other]).header[1] for other in paths[:paths.index(path)])
    same(what, found and int(found[1], 8), start)


def measured(what, words, seconds, megabytes):
    """The status for these arguments; it may take so much memory, and should take so many seconds of a processor."""
    out = [(os.POSIX_SPAWN_OPEN, 1, "said", os.O_WRONLY | os.O_CREAT | os.O_TRUNC, 0o600)]
    _, status, used = os.wait4(os.posix_spawn(ORIGIN, [ORIGIN, *words], os.environ, file_actions=out), 0)
    took, kept = used.ru_utime + used.ru_stime, used.ru_maxrss // 1024
    print(f"{what}: {took:.1f} of {seconds} seconds, {kept} of {megabytes} MB")
    same(f"{what}: {kept} of {megabytes} MB", kept < megabytes, True)
    return os.waitstatus_to_exitcode(status)


def store_each(folder, texts, count):
    """The paths of objects with these texts. Each refers to one of so many names, and defines one, if it is longer than that word."""
    os.mkdir(folder)
    paths = [f"{folder}/{number}.o" for number in range(len(texts))]
    for number, (path, text) in enumerate(zip(paths, texts)):
        symbols = [(b"_%d" % ((number + 1) % count), 0o40, 0), (b"_%d" % number, 0o42, 0)]
        write(path, pack(text, symbols=symbols[:len(text)]))
    return paths


def find_large(dice):
    """The most text, among the most objects."""
    texts = [[*((dice.randrange(65536), 0) for _ in range(199)), (0, 0o10)] for _ in range(1000)]
    paths = store_each("large", texts, 150)
    same("a large link", ran(V7, "ld", "-i", "-s", "-o", "first", *paths[:163]).texts(), (0, "", ""))
    same("a large program", measured("a large program", ["-R", "large", "first"], 2, 50), 0)


def search_long(dice):
    """Objects that fit at most places, and lead to many orders."""
    zeros, few = [(0, 0)] * 32767, [(dice.randrange(4), 0) for _ in range(32767)]
    one = [[(0, 0o10)]] * 1000
    short = [[*few[number:number + 1 + number % 6], (1, 0o10)] for number in range(1000)]
    for folder, text, texts, count in (("one", zeros, one, 1000), ("short", few, short, 40)):
        write("first", pack(text, magic=0o411, flag=1))
        same(folder, measured(folder, ["first", *store_each(folder, texts, count)], 10, 50), 1)
        lines = read("said").splitlines()
        same(f"{folder}: the last line", lines[-1], "the search was stopped: it takes too long")
        if folder == "one":
            same("one word 0", {line.partition(": ")[2] for line in lines[2:-1]},
                 {"fits at 32767 places", "not tried at all places, which would take too long"})


if __name__ == "__main__":
    ORIGIN, V7 = program("v7-origin"), program("v7")
    DICE = random.Random(5)
    ALL = [made_list(DICE, number) for number in range(int(sys.argv[1]) if len(sys.argv) > 1 else LISTS)]
    OBJECTS = {path: stored for objects in ALL for path, stored in objects.items()}
    RIGHT = WRONG = 0
    with new_folder():
        for PATH, STORED in OBJECTS.items():
            write(PATH, STORED)
        for NUMBER, LIST in enumerate(ALL):
            PATHS, EVERY = [*LIST], DICE.sample([*OBJECTS], len(OBJECTS))
            for OPTIONS in (["-s"], ["-n", "-s"], ["-i", "-s"], [[], ["-n"], ["-i"]][NUMBER % 3]):
                PROGRAM = find_whole(f"list {NUMBER} {OPTIONS}", PATHS, OPTIONS, EVERY)
            find_changed(f"list {NUMBER}, changed", PROGRAM, OBJECTS, PATHS, DICE, EVERY)
            COUNTS = find_part(f"list {NUMBER}, a part", PROGRAM, OBJECTS, PATHS, DICE.choice(PATHS), EVERY)
            RIGHT, WRONG = RIGHT + COUNTS[0], WRONG + COUNTS[1]
        if len(sys.argv) == 1:
            find_large(DICE)
            search_long(DICE)
    notices(same, "a planted difference", (1, ""), (0, ""))
    print(f"{len(ALL)} lists are found in each layout; of parts {RIGHT} objects are placed where they were linked, and {WRONG} elsewhere")
