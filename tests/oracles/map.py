"""Compares the maps of links with those of map_model.py: each record that libv7 gives, and all of the text of `v7-explain -m`.

usage: python3 -m tests.oracles.map [LINKS]       all of 300 links; or only the records of this number of links
tier: check, 60 seconds; programs: v7-explain libv7.so; for: crates/link_maps crates/v7_explain crates/libv7

The links are made, the same in each run: objects of some words that lead to names and to places of their own, or those of agree.py. In
every fifth link there is one object too many, and in every tenth one is damaged. With -y each map is asked for some names, of which some
are too long or absent, for one of its objects, and for each of its addresses.
"""
import random
import sys

from tests.lib.compare import notices, same
from tests.lib.files import new_folder, write
from tests.lib.objects import pack
from tests.lib.programs import program, ran, v7
from tests.oracles import agree, map_model, model

LINKS = 300
OPTIONS = ["", "n", "i", "r", "rd", "x", "X", "s", "d"]
NAMES = [b"_a", b"_b", b"_c", b"_main", b"_long_na", b"long_nax", b"a", b"x", b"_forced", b"_end", b"_etext", b"Lx"]
# first words of one to three words, one that begins no instruction, and words like those of operands
WORDS = [0o000207, 0o005200, 0o004767, 0o004737, 0o012700, 0o016167, 0o016767, 0o012737, 0o013737, 0o170006, 2, 0o177772, 0o177776,
         0o000401, 0o001376, 0o077002, 0o005077, 0o104404]
# an object each that a link has no place for: as it does not fit, as text, data or bss is full, and as the table has too many symbols
TOO_MUCH = [pack(symbols=[(b"_huge", 0o40, 65534)]), pack([(0, 0)] * 32767), pack(data=[(0, 0)] * 32767), pack(bss=65534),
            pack(symbols=[(b"L%d" % number, 1, 0) for number in range(5461)])]


def random_object(dice):
    """An object of few words, many of which lead to a name or to a place that has one."""
    sizes = {2: dice.randrange(9), 3: dice.randrange(4), 4: dice.randrange(4)}
    starts = {2: 0, 3: sizes[2], 4: sizes[2] + sizes[3]}
    symbols, pairs = [], []
    for name in dice.sample(NAMES, dice.randrange(7)) + dice.sample(NAMES, dice.randrange(20) == 0):
        kind = dice.choice([0o40, 0o40, 0o40, 0o40, 0o41, 0o42, 0o43, 0o44, 2, 1])
        values, segment = {0: [0, 0, 2, 3, 6], 1: [0, 0o777, 65535]}, kind & 0o37
        values.update((of, range(2 * start, 2 * (start + sizes[of]) + 1, 2)) for of, start in starts.items())
        symbols.append((name, kind, dice.choice(values[segment])))
    wanted = [number for number, (_, kind, _) in enumerate(symbols) if kind == 0o40]
    placed = [(kind & 0o37, value) for _, kind, value in symbols if kind & 0o37 > 1]
    for place in range(sizes[2] + sizes[3]):
        word, relocation, pc, way = dice.choice(WORDS) if place < sizes[2] else 0, 0, dice.randrange(2), dice.randrange(4)
        if wanted and way < 2:
            relocation = 0o10 + 16 * dice.choice(wanted) + pc
        elif placed and way == 2:
            kind, value = dice.choice(placed)
            beyond = dice.choice([0, 0, 2, 4])
            word = (value + beyond - pc * (2 * place + 2)) % 65536
            relocation = dice.choice([2 * (kind - 1), 2 * (kind - 1), 0]) + pc
        pairs.append((word, relocation))
    return pack(pairs[:sizes[2]], pairs[sizes[2]:], 2 * sizes[4], symbols)


def compare(what, status, lines, *words):
    """The text of a map has these lines, and the program this status."""
    came = ran(EXPLAIN, "-m", *words).texts()
    same(what, (came[0], came[2]), (status, ""))
    same(what, came[1].split("\n"), [*lines, ""])


def link_of(number):
    """The chance, the arguments and the objects of a link."""
    dice = random.Random(number)
    names = dice.sample(agree.NAMES, 6)
    count = dice.randrange(1, 7) + 9 * (number % 55 == 0)
    objects = [agree.object_of(dice, names) if number % 3 == 0 else random_object(dice) for _ in range(count)]
    if number % 10 == 1:
        objects[0] = agree.bad_object_of(dice, names)
    if number % 5 == 0:
        more = TOO_MUCH[number // 5 % len(TOO_MUCH)]
        objects[dice.randrange(len(objects)):0] = [more] * dice.choice([1, 1, 2])
    entry = dice.choice([None, None, None, b"_a"])
    return dice, model.Arguments({*dice.choice(OPTIONS)}, {}, [], entry, dice.choice([(), (), (b"_forced",)])), objects


def check_records(number):
    """Compares what libv7 gives. Returns what the second linker gives."""
    _, arguments, objects = link_of(number)
    found = map_model.map_of(objects, arguments)
    [came] = agree.each_call(lambda: v7.link_map(objects, agree.options_of(arguments), **agree.asked_of(arguments)))
    same(f"link {number}: link_map", came, found)
    return found


def check(number):
    """Compares a map, and parts of it. Whether the link is refused, and how many words and odd things are shown."""
    found = check_records(number)
    dice, arguments, objects = link_of(number)
    # some have a path that is too long for the line of its object
    paths = [write(f"{place:0{1 + 33 * (number % 9 == place)}}.o", data) for place, data in enumerate(objects)]
    if not isinstance(found, v7.Map):
        fault, place = found
        same(f"link {number}", ran(EXPLAIN, "-m", *paths).texts(), (1, "", f"v7-explain: {paths[place]}: {fault}\n"))
        return True, 0, 0
    made = map_model.Mapped([*map(model.read_object, objects)], arguments, paths)
    words = [*(f"-{letter}" for letter in arguments.letters), *(f"-u{name.decode()}" for name in arguments.forced)]
    words += ["-e", arguments.entry.decode(), *paths] if arguments.entry else paths
    compare(f"link {number}: {words}", found.status, made.whole(), *words)
    addresses = {address for at in (0, *found.segments) for address in range(at, at + 60)}
    names = dice.sample(["_a", "_main", "_forced", "_none", "_long_name", "_absent_name", "Lx", "x"], 4)
    for wanted in names, [dice.choice(paths)], [f"{address:o}" for address in sorted(addresses)]:
        lines, is_there = made.asked(wanted)
        asked = [it for word in wanted for it in ("-y", word)]
        compare(f"link {number}: {asked} {words}", found.status if is_there else 1, lines, *asked, *words)
    return bool(found.fault), sum(use.kind >= v7.TEXT_WORD for use in found.uses), len(made.odd()[2:])


def planted(old, new):
    """Compares a map in whose text something is another."""
    data = pack([(0o004767, 0), (0, 0o11)], symbols=[(b"_f", 0o40, 0), (b"_main", 0o42, 0), (b"_end2", 0o42, 4)])
    made = map_model.Mapped([model.read_object(data)], model.Arguments(set(), {}, []), [write("planted.o", data)])
    compare("planted", 1, [line.replace(old, new) for line in made.whole()], "planted.o")


def main(links=None):
    if links:
        return [check_records(number) for number in range(int(links))]
    for old, new in ("jsr pc,_f", "jsr pc,_g"), ("000002  _main: ", "000002  000002: "), ("Unused", "Undefined"):
        notices(planted, old, new)
    planted("", "")
    refused, words, odd = map(sum, zip(*map(check, range(LINKS))))
    print(f"{LINKS} maps, {refused} of them of refused links, agree with the second linker: {words} words, and {odd} lines of what is odd")
    return None


if __name__ == "__main__":
    EXPLAIN = program("v7-explain")
    with new_folder():
        main(*sys.argv[1:])
