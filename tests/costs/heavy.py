"""Makes the objects of a heavy link, and counts by valgrind the instructions of linking them, plain and with -i; with the least time
of a processor in 60 runs, the calls by which the program reads and writes, and its page faults. Then counts the instructions of one
object more that is added to a session and withdrawn, in a session without objects and in one of all these. tests/costs/counting.py
says how.

There are 200 objects with 65,000 bytes of text. Each defines 20 names, and 12,869 words refer to names of other objects,
taken by a sequence of numbers that is the same each time. With -i each object has its text again as its data, relocated in the same way.
"""
import glob

from tests.costs.counting import counted, ended, is_installed, milliseconds
from tests.lib.files import new_folder, write
from tests.lib.objects import pack
from tests.lib.programs import program

OBJECTS = 200
NAMES = 20
WORDS = 32500
REFERENCES = 12869


def numbers():
    """A sequence of numbers below the number of names of all other objects."""
    number = 1
    while True:
        number = (number * 1103515245 + 12345) % 2**31
        yield (number >> 8) % ((OBJECTS - 1) * NAMES)


def share(total, index):
    """How much of a total one object has."""
    return total * (index + 1) // OBJECTS - total * index // OBJECTS


def write_object(index, others, has_data):
    """Writes one object: words that refer to names, words of its own text, and numbers."""
    first = index * NAMES
    places = {first + name: name for name in range(NAMES)}
    symbols = [(name, 0o42, 2 * place) for name, place in places.items()]
    text = []
    for _ in range(share(REFERENCES, index)):
        name = (first + NAMES + next(others)) % (OBJECTS * NAMES)
        if name not in places:
            places[name] = len(symbols)
            symbols.append((name, 0o40, 0))
        text.append((0, 0o10 + 0o20 * places[name]))
    for word in range(len(text), share(WORDS, index)):
        text.append((2 * (word % 100), 2) if word % 3 == 0 else (word, 0))
    write_parts(f"{index:03d}.o", text, text if has_data else [], symbols)


def write_parts(path, text, data, symbols):
    """Writes an object, by its words with their relocation words."""
    write(path, pack(text, data, symbols=[(b"n%05d" % name, kind, value) for name, kind, value in symbols]))


def measure(v7, options, has_data):
    """Links the objects in this folder, and answers what it took."""
    others = numbers()
    for index in range(OBJECTS):
        write_object(index, others, has_data)
    command = [v7, "ld", *options, "-o", "out", *sorted(glob.glob("*.o"))]
    instructions, (used, (reads, writes)) = counted(command), ended(command)
    return f"{instructions} instructions, {milliseconds(command):.2f} ms, {reads} reads, {writes} writes, {used.ru_minflt} page faults"


def edited(v7, path, objects):
    """The instructions of adding an object to a session of these and withdrawing it: its two lines are repeated 100 and 1,100 times."""
    counts = []
    for times in 100, 1100:
        lines = [*(f"add {name}" for name in objects), *[f"add {path}", "withdraw"] * times]
        counts.append(counted([v7, "session"], script="".join(f"{line}\n" for line in lines)))
    return (counts[1] - counts[0]) // 1000


def main():
    v7 = program("v7")
    if not is_installed():
        return
    with new_folder():
        print(f"a link of {OBJECTS} objects with {2 * WORDS} bytes of text and {OBJECTS * NAMES} names:")
        print(f"plain: {measure(v7, [], False)}")
        print(f"with -i, and {2 * WORDS} bytes of data more: {measure(v7, ['-i'], True)}")
        objects, first = sorted(glob.glob("*.o")), OBJECTS * NAMES
        waiting = [(0, 0o10 + 0o20 * (word % 25)) for word in range(100)] + [(0, 0)] * 62
        write_parts("waiting", waiting, [], [(first + name, 0o40, 0) for name in range(25)])
        write_parts("defining", [], [], [(first, 0o41, 7)])
        for path, what in ("waiting", "162 words, 100 of which wait for 25 names"), ("defining", "one name"):
            counts = [edited(v7, path, session) for session in ([], objects)]
            print(f"an object of {what}, added and withdrawn: {counts[0]} instructions, and {counts[1]} after these objects")


if __name__ == "__main__":
    main()
