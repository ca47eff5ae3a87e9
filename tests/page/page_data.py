"""Compares the states that the page computes, which no browser has to show, with others: the words, names and marks with the model of a
state (page_state.py) and with libv7 in Python, and links with what `v7 ld` writes and `v7 nm` prints. Then come the places that words mean,
what it has of each object, and the answers of its lessons. Wrong files of lessons have to be refused.

tier: check, 60 seconds; programs: v7 libv7.so;
 for: page packaging/page.py examples/lessons.txt tests/page; needs: node wasm-opt
"""
import os
import re
import struct
import sys
import tempfile
from itertools import permutations

import asm  # of examples
from tests.lib.compare import notices
from tests.lib.files import TOP, read, read_bytes, write
from tests.lib.objects import unpack
from tests.lib.programs import v7
from tests.oracles.disassembly import decoded
from tests.page.page_lessons import bad_lessons, lesson_answers, lessons_of_all_kinds, remarks
from tests.page.page_state import Given, Session, Step, place_in_link
from tests.page.page_tools import (
    CLASS, FIVE, IN_C, LAYOUTS, OPEN, PARTS, SEGMENTS, SIXTEEN, TABLES, WORD, Tools, known_as, lessons_of, object_of, planted, report, same,
)

# a state as the page has it: each word with its value, the pc bit, what it refers to and which place that is, in the image and in each
# link, and its sum in each link; names, multiples, marks; and each link
STATE = """(list) => {
    const state = stateOf(list);
    const words = state.list.flatMap((number, place) => PARTS.flatMap((part) => DATA.objects[number][part].map((_, index) => {
        const word = imageWord(state, place, part, index), { offset, value, pc, kind, name, to } = word;
        return [part, offset, value, pc, kind < 0 ? name : SEGMENTS[kind], to,
            LAYOUTS.map((_, layout) => placeOf(state, part, offset, layout)),
            LAYOUTS.map((_, layout) => (linkIn(state, layout).refused ? null : sumOf(state, word, layout).final))];
    })));
    const marks = state.marks.map((mark) => (mark.part
        ? [mark.part, mark.offset, mark.value, mark.name, mark.bound, mark.now] : [mark.name, mark.kind, mark.number]));
    return { words, names: state.names.map(({ name, kind, number }) => [name, kind, number]), multiples: state.multiples, marks,
        bss: state.sizes.bss, links: LAYOUTS.map((_, layout) => linkIn(state, layout)).map(({ bases, report, refused, symbols }) =>
            ({ bases, report, refused, table: symbols.map(lineOfSymbol).join("\\n") })) };
}"""
OBJECTS = """() => DATA.objects.map((one) => ({ text: one.text, data: one.data, bss: one.bss, symbols: one.symbols, texts: [...one.strings],
    operands: one.units.text.flatMap((start, index) => (start === index ? [] : [index])),
    labels: PARTS.flatMap((part) => one.labels[part].map(({ index, isExternal, name }) => [part, index, isExternal, name])),
    branches: one.branches, instructions: one.instructions,
    relocs: Object.fromEntries(PARTS.map((part) => [part, one.references[part].map((index) => [index, one.relocs[part][index]])])) }))"""


# ---- states
def compare_image(shown, objects, what):
    """The words, the names and the marks, with the model and with libv7 in Python."""
    step, session = Step(objects), Session(objects)
    wanted = [[part, offset, word.value, bool(word.pc), word.name if word.kind is None else word.kind or "a number", session.place_id(word)]
              for (part, offset), word in session.in_order()]
    same(f"{what}: words", sorted(one[:6] for one in shown["words"]), sorted(wanted))
    same(f"{what}: names", {name: known_as(kind, number) for name, kind, number in shown["names"]},
         {name: known_as(*known) for name, known in session.names.items()})
    same(f"{what}: marks of words", sorted(mark[:4] for mark in shown["marks"] if len(mark) > 3),
         sorted([*key, step.before.words[key].value, step.before.words[key].name] for key in step.changed))
    for part, offset, value, name, bound, now in (mark for mark in shown["marks"] if len(mark) > 3):
        same(f"{what}: {part} {offset:o} is bound", (bound, now, (value + bound) % WORD),
             (session.names[name][1], session.words[part, offset].value, now))
    same(f"{what}: marks of names", sorted(mark for mark in shown["marks"] if len(mark) == 3),
         sorted([name, *step.before.names[name]] for name in step.renamed))
    with v7.Session([read_bytes(one.path) for one in objects]) as other:
        state = other.state()
    same(f"{what}: libv7", (sorted(one[:3] for one in shown["words"]), shown["names"], shown["multiples"], shown["bss"]),
         (sorted([part, one["offset"], one["value"]] for part in PARTS for one in state[part]),
          [[one["name"], one["state"], one["value"]] for one in state["externals"]],
          state["multiples"], state["bss"]))


def compare_link(shown, layout, name, linked, session, what):
    """The words of a link, its table and report, and the places that its words mean."""
    link = shown["links"][layout]
    if "refused" in linked:
        return same(f"{what}: refused", link.get("refused"), linked["refused"])
    header, base, bases = linked["header"], linked["base"], link["bases"]
    same(f"{what}: table", link["table"] + "\n" * bool(link["table"]), linked["table"])
    same(f"{what}: report", (link["report"] or "nothing to report").rstrip("\n") + "\n", linked["report"])
    same(f"{what}: where segments begin and end", [*bases[:3], bases[4]], [header[1], base, base + header[2], base + header[2] + header[3]])
    laid = sum(size + size % 2 for kind, size in session.names.values() if kind == "common")
    same(f"{what}: bytes of commons", bases[3] - bases[2], 0 if name == "-r" else laid)
    bounds = {"text": (0, bases[0]), "data": bases[1:3], "commons": bases[2:4], "bss": bases[3:]}
    letters = {line[9:]: line[7] for line in linked["table"].splitlines() if line[7].isupper()}
    for part, offset, _, pc, referent, _, places, finals in shown["words"]:
        final, word = linked["segments"][part][offset // 2], session.words[part, offset]
        same(f"{what}: {part} {offset:o}", finals[layout], final)
        own = {"T": "text", "D": "data", "B": "bss"}.get(letters.get(word.name)) if word.kind is None else word.kind or ("" if pc else None)
        meant = (final + offset + (base if part == "data" else 0) + 2) % WORD if pc else final
        if word.reloc & 0o17:
            same(f"{what}: {part} {offset:o}, which refers to {referent}, means", places[layout], "" if own is None
                 else place_in_link(bounds, header[0] == 0o411, own, meant))
    return None


def compare_states(tools, scripts, files, what):
    """All states of up to five objects, or those in the order of the files; the links of at most two objects, and in that order."""
    count = 0
    orders = [order for n in range(1, len(files) + 1) for order in (permutations(range(len(files)), n) if len(files) <= 5 else [range(n)])]
    for order in orders:
        shown = scripts.run(STATE, [*order])
        here, where = [files[number] for number in order], f"{what}, {[*order]}"
        objects = [Given(path) for path in here]
        compare_image(shown, objects, where)
        for layout, (name, options) in enumerate(LAYOUTS.items() if len(order) <= 2 or list(order) == sorted(order) else ()):
            compare_link(shown, layout, name, tools.link(options, here), Session(objects), f"{where}, {name}")
        count += 1
    return count


# ---- objects
def texts_of(words, relocs):
    """The texts of data, as the page has them: the index of each, and its bytes."""
    is_byte = lambda byte: byte in (0, 9, 10) or 32 <= byte < 127
    found, length = [], 0
    for index, (word, reloc) in enumerate(zip([*words, 0], [*relocs, 0])):
        if index < len(words) and reloc & 0o17 == 0 and word % 256 >= 9 and is_byte(word % 256) and is_byte(word // 256):
            length += 1
            continue
        if length >= 2:
            found.append([index - length, struct.pack(f"<{length}H", *words[index - length:index]).decode("latin-1")])
        length = 0
    return found


def operands_of(text):
    """The words of text that belong to the instruction before them, by the PDP-11 alone."""
    text.knows_calls = False
    return [place for place in range(len(text.words)) if text.owner(place) is not None]


def labels_of(file):
    """The part, the word and the name of each symbol of text and data, and whether it is an external."""
    starts = {2: 0, 3: 2 * len(file.text)}
    return [[SEGMENTS[kind % 32 - 1], (value - starts[kind % 32]) % WORD // 2, kind & 0o40 > 0, name.rstrip(b"\0").decode("latin-1")]
            for name, kind, value in file.symbols if kind % 32 in starts]


def compare_objects(tools, scripts, files):
    """What the page has of each object is what its file has."""
    for path, one in zip(files, scripts.run(OBJECTS)):
        file, given = unpack(read_bytes(path)), Given(path)
        relocs = {"text": file.relocation[:len(file.text)], "data": file.relocation[len(file.text):]}
        same(f"{path}: words", (one["text"], one["data"], one["bss"]), ([*file.text], [*file.data], file.header[3]))
        same(f"{path}: symbols", one["symbols"], tools.nm(path).splitlines())
        same(f"{path}: texts", one["texts"], texts_of(file.data, relocs["data"]))
        same(f"{path}: operands", one["operands"], operands_of(decoded(read_bytes(path))))
        same(f"{path}: labels", sorted(one["labels"]), sorted(labels_of(file)))
        same(f"{path}: relocation words", one["relocs"],
             {part: [[i, reloc] for i, reloc in enumerate(relocs[part]) if reloc & 0o17] for part in PARTS})
        same(f"{path}: instructions", one["instructions"], {str(index): text for index, text in given.instructions.items()})
        branches = {str(index): given.branch(index) for index in given.instructions if given.branch(index) is not None}
        same(f"{path}: branches", one["branches"], branches)


# ---- files that are refused
def refusals(tools, files):
    """A damaged object is refused with the fault's own text; so is one that the session has no room for, after the first."""
    for data, fault in ((read_bytes(files[0])[:-5], "truncated"), (b"", "short header"), (read_bytes(tools.v7), "bad magic number")):
        with tools.scripts([write(f"{tools.folder}/bad.o", data)])[0] as scripts:
            same(f"an object that is {fault}", scripts.run(OPEN), {"fault": fault})
    full = write(f"{tools.folder}/full.o", object_of([(0, 0)] * 32_767, []))
    with tools.scripts([full, files[0]])[0] as scripts:
        same("refused", [scripts.run("(list, object) => refusalOf(list, object)", [one], 1 - one) for one in (0, 1)],
             ["text full", "text full"])


# what the oldest browsers lack that a script could call: they have no roles and labels as properties
NEW = r"\.(?:toSorted|toReversed|toSpliced|with|findLast\w*|groupBy|fromAsync|checkVisibility|union|withResolvers|aria[A-Z]\w+|role)\b"


def scripts_of(folder):
    """The scripts are short, and so are their functions, and they run in old browsers."""
    for name in sorted(name for name in os.listdir(folder) if name.endswith(".js")):
        functions = re.findall(r"^(?:async )?function (?:.*\n)*?}$", text := read(f"{folder}/{name}"), re.M)
        same(f"long functions of {name}", ([one.split("(")[0] for one in functions if one.count("\n") >= 39], len(functions) > 0,
                                           text.count("\n") <= 300), ([], True, True))
        same(f"what old browsers lack, {name}", re.findall(NEW, text), [])


# ---- all of it
def same_objects(folder):
    """The objects of a folder are what the assembler makes of the compiler's files beside them."""
    names = [name[:-2] for name in sorted(os.listdir(folder)) if name.endswith(".s")]
    for name in names:
        same(f"{folder}/{name}.o", read_bytes(f"{folder}/{name}.o") == asm.assembled(read(f"{folder}/{name}.s")), True)
    same(f"objects of {folder}", len(names) > 0, True)


def check_data(tools):
    """All that needs no browser."""
    scripts_of(f"{TOP}/page")
    for check in (refusals, bad_lessons, lessons_of_all_kinds):
        check(tools, CLASS)
    for files in (IN_C, TABLES):
        same_objects(os.path.dirname(files[0]))
    same("pair.o is the output of ld -r", read_bytes(TABLES[4]), tools.bytes_of_link(["-r"], TABLES[:2]))
    for what, files, lessons, answers in (("the class example", CLASS, 10, 12), ("a program in C", IN_C, 2, 5),
                                          ("tables and bss", TABLES, 3, 10), ("a program", FIVE, 0, 0), ("sixteen objects", SIXTEEN, 0, 0)):
        scripts, fault = tools.scripts(files, lessons_of(files) if lessons else "")
        with scripts:
            same(f"{what}: a fault of the lessons", fault, "")
            compare_objects(tools, scripts, files)
            count = compare_states(tools, scripts, files, what)
            if lessons:
                lesson_answers(tools, scripts, files, lessons, answers)
            if files == IN_C:
                remarks(tools, scripts, files)
        print(f"{what}: {count} states", flush=True)
    same("bytes of the page", os.path.getsize(tools.page_of(SIXTEEN)) <= 500_000, True)


def main():
    notices(planted)
    with tempfile.TemporaryDirectory() as folder:
        check_data(Tools(folder))
    return report("without a browser")


if __name__ == "__main__":
    sys.exit(main())
