"""Calls each program, and each call of libv7, with the largest input of each kind, and expects an answer.

A contract cannot say that memory is found, so a body that answers `no memory` from some size on is proved. Here it fails. What the five
tools and libv7 give is that of tests/oracles/model.py, instructions are those of tests/oracles/disassembly.py, remarks those of
tests/oracles/notes.py; of rows and maps the words and the names are counted.

usage: python3 -m tests.programs.largest [ROW ..]      all rows of the table, or these: 'v7-explain -m, objects'
tier: check, 120 seconds; programs: v7 v7-explain v7-object v7-from-gnu libv7.so;
 for: crates/checks crates/link_maps crates/libv7
"""
import dataclasses
import multiprocessing
import os
import re
import sys

from tests.lib.compare import notices, same
from tests.lib.files import new_folder, read_bytes, write
from tests.lib.objects import gnu_named, pack
from tests.lib.programs import program, ran, v7
from tests.oracles import agree, model, notes
from tests.oracles.disassembly import NOP, File, in_listing, without_notes

WORDS = model.SEGMENT_LIMIT // 2
SYMBOLS, NAMES, NUMBERS = model.SYMBOLS_LIMIT, model.NAMES_LIMIT, model.NUMBER_LIMIT + 1
OBJECTS = 1000
WANTED, NUMBER, LABEL, LOCAL = 0o40, 0o41, 0o42, 0o2
FORCED = [f"-u_f{number}" for number in range(model.FORCED_LIMIT)]
RETURN = 0o207
BAD_KIND, BAD_NUMBER = 0o12, 0o10 + 16 * 4000
SECONDS = 300
# the line of a name in a map
NAME = re.compile(r"^(?:[0-7]{6}|      ) [A-Z] (.*)$", re.M)


# --- inputs

def named(count, kind=WANTED, value=0, first=0):
    """This number of symbols, each with a name of its own."""
    return [(b"n%05d\0\0" % number, kind, value) for number in range(first, first + count)]


def file_of(text=0, data=0, symbols=(), relocs=(0,), word=NOP, bss=0, magic=0o407, flag=0):
    """A file of equal words, whose relocation words take turns. Text of instructions ends with a return."""
    def relocated(count):
        return None if flag else [relocs[place % len(relocs)] for place in range(count)]
    words = [word] * (text - 1) + [RETURN] if text and word == NOP else [word] * text
    return File(words, relocated(text), list(symbols), magic, [word] * data, relocated(data), bss)


def referring():
    """A file of references to as many names as a relocation word can number."""
    return file_of(WORDS, WORDS, named(NUMBERS), [0o10 + 16 * number for number in range(NUMBERS)], 0)


def split(kind):
    """Files that have all names of a session together."""
    firsts = range(0, NAMES, SYMBOLS)
    return [file_of(symbols=named(min(SYMBOLS, NAMES - first), kind, 0, first)) for first in firsts]


def chained():
    """Files of two words: the first refers to a name of the file before, the second to a common of all. Each defines one more name anew."""
    def symbols(place):
        last = *named(1, WANTED, 4, OBJECTS), *named(1, NUMBER, place, OBJECTS + 1)
        return [*named(1, LABEL, 0, place), *named(1, first=(place - 1) % OBJECTS), *last]
    return [file_of(2, 0, symbols(place), [0o30, 0o50], 0) for place in range(OBJECTS)]


KINDS = {
    "text": [file_of(WORDS)],
    "data": [file_of(0, WORDS)],
    "text and data": [file_of(WORDS, WORDS)],
    "bss": [file_of(bss=model.SEGMENT_LIMIT)],
    "undefined names": [file_of(symbols=named(SYMBOLS))],
    "numbers": [file_of(symbols=named(SYMBOLS, NUMBER, 8))],
    "labels": [file_of(1, 0, named(SYMBOLS, LABEL))],
    "locals": [file_of(1, 0, named(SYMBOLS, LOCAL))],
    "commons": [file_of(symbols=named(SYMBOLS, WANTED, 2))],
    "equal names": [file_of(symbols=named(1, NUMBER, 8) + named(1, NUMBER, 9) * (SYMBOLS - 1))],
    "references": [referring()],
    "references, then definitions": [referring(), file_of(symbols=named(NUMBERS, NUMBER, 8))],
    "symbol numbers over 4,095": [file_of(symbols=named(NUMBERS)), file_of(1, 1, named(1, first=NUMBERS), [0o10], 0)],
    "odd words": [file_of(WORDS, WORDS, (), [0o22], 0o177776)],
    "odd symbols": [file_of(symbols=[(b"a b\1\0\0\0\0", 0o377, 1)] * SYMBOLS)],
    "bad relocation": [file_of(9, WORDS, (), [BAD_KIND])],
    "bad symbol numbers": [file_of(9, WORDS, named(9), [BAD_NUMBER])],
    "undefined names of a session": split(WANTED),
    "definitions of a session": split(NUMBER),
    "objects": chained(),
}
for magic in model.NORMAL, model.PURE, model.SPLIT, model.OVERLAY:
    for flag in 0, 1:
        KINDS[f"magic 0{magic:o}, flag {flag}"] = [file_of(WORDS, WORDS, named(SYMBOLS, NUMBER), magic=magic, flag=flag)]
ALONE = [kind for kind, files in KINDS.items() if len(files) == 1]
# what the last addition overwrites: words that are bound, and names that are defined
MARKS = {"references, then definitions": 2 * WORDS + NUMBERS, "objects": 1 + 1}
GOOD = [kind for kind in KINDS if not kind.startswith(("bad", "magic"))] + ["magic 0407, flag 0"]


def encoded(kind):
    """The bytes of each file, by its path."""
    return {f"{place}.o": file.encoded() for place, file in enumerate(KINDS[kind])}


def merged(kind):
    """The files as the model has them."""
    return agree.merged_of(encoded(kind).values(), ())[0]


# --- what is found

def answer(name, *words):
    """The status of a program, and its outputs."""
    return ran(program(name), *words, seconds=SECONDS).texts()


def written(files):
    for path, data in files.items():
        write(path, data)
    return list(files)


# --- v7

def commands(paths):
    """What v7 does with files; the last command changes them."""
    script = [*(f"add {path}" for path in paths), "externals", "undefined", "link out", *["withdraw"] * (len(paths) + 1)]
    # the model merges all objects again for each addition
    yield ["session", "-s"], "\n".join(script).encode()
    for options in ([], ["-r"], ["-i"], ["-s"], ["-x"], ["-n"], FORCED):
        yield ["ld", *options, "-o", "out", *paths], b""
    for options in ([], ["-g"], ["-no"], ["-p"], ["-r"], ["-u"]) if len(paths) < 3 else ([], ["-no"]):
        yield ["nm", *options, *paths], b""
    yield ["size", *paths], b""
    yield ["strip", *paths], b""


def by_v7(kind):
    """Each command does what the model does."""
    files = encoded(kind)
    agree.compare(agree.Case(files, list(commands(list(files)))), os.getcwd())


def longest_lines(kind):
    """Lines of the most bytes, with empty names between slashes."""
    lines = ["add 0.o", "withdraw", "add 0.o", "link out"]
    script = [line.replace(" ", " ." + (model.LINE_LIMIT - len(line) - 1) * "/") for line in lines]
    agree.compare(agree.Case(encoded(kind), [(["session"], "\n".join(script).encode())]), os.getcwd())


# --- v7-explain and v7-object

def check_notes(data, status, text):
    """The notes of a listing, and the status that they lead to."""
    wanted, _ = notes.notes_of(data)
    found = re.findall(r"^/ ((?:wrong: |odd: |an? |\d{3}  ).*)$", text, re.M)
    same("notes", found, wanted)
    same("status", status, int(any(note.startswith("wrong") for note in wanted)))


def listed(kind):
    """The listing has all notes and all lines of text and data, and makes the file again."""
    (file,), (data,) = KINDS[kind], encoded(kind).values()
    paths = written(encoded(kind))
    status, text, errors = answer("v7-explain", *paths)
    same("errors", errors, "")
    check_notes(data, status, text)
    lines = [line for line in text.split("\n") if not line.startswith("/")]
    end = next(at for at, line in enumerate(lines) if line.startswith("bss "))
    same("text and data", lines[lines.index("text") + 1:end], file.listing())
    write("listing", text)
    same("v7-object", answer("v7-object", "listing", "again"), (0, "", ""))
    same("the file again", read_bytes("again"), data)
    if status == 0:
        same("-o", answer("v7-explain", "-o", "stored", *paths), (0, "", ""))
        same("the listing that is stored", read_bytes("stored").decode("ascii"), text)


def listed_together(kind):
    """Each file has its listing."""
    status, text, errors = answer("v7-explain", *written(encoded(kind)))
    same("status", (status, errors), (0, ""))
    same("titles", re.findall(r"^/ (\d+\.o): 0", text, re.M), list(encoded(kind)))
    words = sum(len(file.words) for file in KINDS[kind])
    same("words", len(re.findall(r"^[0-7]{6}  [0-7]{6}  ", text, re.M)), words)
    symbols = sum(len(file.symbols) for file in KINDS[kind])
    same("symbols", len(re.findall(r"^[0-7]+ +\S+ +[0-7]+  [0-7]{6}  [A-Za-z]$", text, re.M)), symbols)


# what is not an a.out file, and what its note has
OTHER_FILES = {
    "text": (b"a line of text\n" * 100000, "this is text"),
    "archive": (b"!<arch>\n" + bytes(1000000), "this is an archive"),
    "ELF file": (b"\x7fELF" + bytes(1000000), "this is an ELF file"),
    "object of GNU's assembler": (gnu_named([NOP] * WORDS, [0] * WORDS, [(b"n", WANTED, 0)] * 8191), "v7-from-gnu"),
}


def recognized(kind):
    """A file that is damaged as an a.out file, and what it is."""
    data, note = OTHER_FILES[kind]
    status, text, errors = answer("v7-explain", *written({"file": data}))
    same("answer", (status, errors, "\n/ wrong: " in text, note in text), (1, "", True, True))


def remarks(data):
    """What `-c` says of a file, and how many more things are odd than it shows; and whether one of all is sure."""
    said, odd = notes.notes_of(data)[1], [note for note in notes.odd_said(data) if not note.endswith("rounded up to even")]
    more = len(odd) - len(said) if said == odd[:notes.MOST] else 0
    return said + [f"and {more} more that are odd"] * (more > 0), any(notes.DOUBT not in note for note in said + odd)


def checked(kind):
    """What v7 ld says of each file, or nothing."""
    files = encoded(kind)
    found = {path: remarks(data) for path, data in files.items()}
    refused = [f"v7-explain: {path}: {text}\n" for path, (texts, _) in found.items() for text in texts]
    same("answer", answer("v7-explain", "-c", *written(files)), (int(any(sure for _, sure in found.values())), "", "".join(refused)))


def shown(kind):
    """The instructions of each file, without arguments of system calls and with them."""
    files = written(encoded(kind))
    for option, knows_calls in (("-p", False), ("-d", True)):
        status, text, errors = answer("v7-explain", option, *files)
        same("errors", errors, "")
        lines = without_notes(text)
        for file in KINDS[kind]:
            file.knows_calls = knows_calls
        same("instructions", lines, [line for file in KINDS[kind] for line in file.disassembly()])
        same("status", status, int(kind.startswith("bad")))


def shown_in_rows(kind):
    """Text and data of each file in rows have all words, those of rows that are alike too, and all labels."""
    labels = sum(of & 0o37 in (2, 3, 4) for file in KINDS[kind] for _, of, _ in file.symbols)
    words = sum(len(file.words) + len(file.data) for file in KINDS[kind])
    status, text, errors = answer("v7-explain", "-s", *written(encoded(kind)))
    same("-s", (status, errors), (int(kind.startswith("bad")), ""))
    rows = re.findall(r"^[0-7]{6}  .*$", text, re.M)
    alike = re.findall(r"^/ .*: the row before, (?:once|(\d+) times)$", text, re.M)
    same("words", sum(len(row[6:63].split()) for row in rows) + sum(8 * int(times or 1) for times in alike), words)
    same("labels", len(re.findall(r"^n\d+:$", text, re.M)), labels)


def inventoried(kind):
    """A line for each file."""
    files = encoded(kind)
    lines = [notes.inventory_of(path, data, len(notes.odd_notes(data))) + "\n" for path, data in files.items()]
    same("answer", answer("v7-explain", "-l", *written(files)), (0, "".join(lines), ""))


def mapped(kind):
    """The map has each object, each external, and each word that refers to one; with -y, each external that is asked for."""
    together, paths = merged(kind), written(encoded(kind))
    places = sum(reloc & 0o16 == 0o10 for file in KINDS[kind] for reloc in file.relocation + file.data_relocation)
    for letters in "", "r", "i", "s":
        status, text, errors = answer("v7-explain", "-m", *(f"-{letter}" for letter in letters), *paths)
        lines, *_ = agree.by_model(together, model.Arguments(set(letters), {}, []))
        fault = lines[0] if isinstance(lines[0], str) else ""
        same(f"-m {letters}", (status, errors), (1 if fault else lines[0], ""))
        same(f"-m {letters}", fault in text.split("\n")[0], True)
        same(f"-m {letters}, objects", re.findall(r"^(?:  [0-7]+ +\d+){3}  (\d+\.o)$", text, re.M), paths)
        externals = text.partition("\nExternals\n")[2]
        same(f"-m {letters}, externals", NAME.findall(externals), [*map(in_listing, sorted(together.externals))])
        same(f"-m {letters}, words", len(re.findall(r"^ {16}(?:text|data) ", externals, re.M)), places)
    asked = sorted(name for name in together.externals if name.isascii())[::4]
    status, text, errors = answer("v7-explain", "-m", *(word for name in [b"_absent", *asked] for word in ("-y", name)), *paths)
    same("-m -y", (status, errors, text.endswith("\n  _absent: not mentioned\n")), (1, "", True))
    same("-m -y, externals", NAME.findall(text), [*map(in_listing, asked)])


# --- v7-from-gnu

def long_named(count, kind, first=0):
    """Names that are cut at eight bytes. The last of 5,461 begins before the place 65,536, and so it has a number."""
    return [(name.rstrip(b"\0") + b"xx_lo", of, value) for name, of, value in named(count, kind, 0, first)]


def cut(rows):
    return [(name[:8], kind, value) for name, kind, value in rows]


GNU_FILES = {
    "text": ([0o240] * WORDS, [0] * WORDS, []),
    "references": ([0] * WORDS, [0o10 + 16 * (place % NUMBERS) for place in range(WORDS)], named(NUMBERS)),
    "long names": ([], [], long_named(SYMBOLS, WANTED)),
    "locals": ([], [], named(SYMBOLS, NUMBER) + named(8191 - SYMBOLS, LOCAL)),
    "symbols for a debugger": ([], [], [(b"x", 0o144, 0)] * (8191 - SYMBOLS) + named(SYMBOLS)),
}


def to_convert(kind):
    """A file in GNU's form, the lines of names that are cut, and the object that it becomes without locals and symbols for a debugger."""
    words, relocs, rows = GNU_FILES[kind]
    data = gnu_named(words, relocs, [(name.rstrip(b"\0"), of, value) for name, of, value in rows])
    kept = [row for row in rows if row[1] not in (LOCAL, 0o144)]
    told = [f"v7-from-gnu: in: {name.decode()} is cut to {name[:8].decode()}\n" for name, _, _ in kept if len(name) > 8]
    return data, "".join(told), pack(list(zip(words, relocs)), symbols=cut(kept))


def converted(kind):
    """The object of GNU's form becomes that of the Seventh Edition."""
    data, told, made = to_convert(kind)
    written({"in": data})
    same("answer", answer("v7-from-gnu", "-SX", "in", "out"), (0, "", told))
    same("the object", read_bytes("out"), made)


# files that are converted together: many, and those that have the names of a session
GNU_LISTS = {
    "objects": [long_named(1, LABEL, place + 1) + long_named(1, WANTED, place) for place in range(OBJECTS)],
    "names of a session": [long_named(SYMBOLS, NUMBER, first) for first in range(0, NAMES - SYMBOLS, SYMBOLS)],
}


def converted_together(kind):
    """All files are converted to a folder."""
    files = {f"{place}.o": rows for place, rows in enumerate(GNU_LISTS[kind])}
    written({path: gnu_named([NOP], [0], rows) for path, rows in files.items()})
    os.mkdir("out")
    same("answer", answer("v7-from-gnu", "-q", "-o", "out", *files), (0, "", ""))
    for path, rows in files.items():
        same(path, read_bytes(f"out/{path}"), pack([(NOP, 0)], symbols=cut(rows)))


# --- libv7

def pairs(words, relocs):
    return list(zip(words, relocs or [0] * len(words)))


def parts_of(file):
    """The parts of a file as libv7 gives them."""
    symbols = [(name.rstrip(b"\0").decode(), kind, value) for name, kind, value in file.symbols]
    return v7.Parts(pairs(file.words, file.relocation), pairs(file.data, file.data_relocation), file.bss, symbols)


def texts(kind):
    """Size, the lists of symbols, the stripped file and the instructions."""
    (file,), (path, data), = KINDS[kind], *encoded(kind).items()
    written({path: data})
    options = dict(zip("gnpru", (v7.NM_EXTERNAL, v7.NM_BY_VALUE, v7.NM_TABLE_ORDER, v7.NM_REVERSE, v7.NM_UNDEFINED)), **{"": 0})
    for letter, option in options.items():
        lines = []
        model.nm([f"-{letter}", path] if letter else [path], lines, None)
        same(f"nm {letter}", v7.nm(data, option).split("\n"), [line.decode() for line in lines] + [""])
    lines = []
    model.size([path], lines, None)
    same("size", v7.size(data), lines[0].decode() + "\n")
    same("strip", v7.strip(data), model.write_file(dataclasses.replace(model.read_file(data), symbols=[], flag=1)))
    same("disassemble", v7.disassemble(data).split("\n"), [*file.disassembly(), ""])
    same("from_listing", v7.from_listing(v7.listing(data)), data)


def remarked(kind):
    """All that is wrong and odd in a file."""
    data = OTHER_FILES[kind][0] if kind in OTHER_FILES else next(iter(encoded(kind).values()))
    wanted = [note for note in notes.notes_of(data)[0] if note.startswith("wrong: ")] + [f"odd: {note}" for note in notes.odd_notes(data)]
    words = {True: "odd", False: "wrong"}
    found = [f"{words[row.kind > v7.REMARK_MORE_BAD_WORDS]}: byte 0{row.byte:o} ({row.byte}): {row.text}" for row in v7.remarks(data)]
    same("remarks", found, wanted)


def converted_by_call(kind):
    """The object that one in GNU's form becomes."""
    data, _, made = to_convert(kind)
    same("from_gnu", v7.from_gnu(data, v7.DROP_DEBUGGER | v7.DROP_UNUSED), made)


def taken_apart(kind):
    """The header and the parts; an object is checked, taken apart and made."""
    (file,), (data,) = KINDS[kind], encoded(kind).values()
    flag = int(file.relocation is None)
    sizes = 2 * len(file.words), 2 * len(file.data), file.bss, 12 * len(file.symbols)
    parts = parts_of(file)
    same("read", v7.read(data), (v7.Header(file.magic, *sizes, 0, 0, flag), parts))
    if kind in GOOD:
        same("check", v7.check(data), len(data))
        same("take_apart", v7.take_apart(data), parts)
        same("make", v7.make(*parts), data)


def bad(kind):
    """The fault of the first word."""
    (data,) = encoded(kind).values()
    wanted = "bad relocation" if kind == "bad relocation" else "bad symbol number"
    faults = agree.each_call(lambda: v7.check(data), lambda: v7.take_apart(data), lambda: v7.link([data]), lambda: v7.Session([data]))
    same("the faults", faults, [(f"{wanted} at word 0", 0)] * 4)


def linked_by_call(kind):
    """The links of each call are those of the model."""
    objects, together = list(encoded(kind).values()), merged(kind)
    for letters in "", "r", "i", "s":
        arguments = model.Arguments(set(letters), {}, [])
        options, wanted = agree.options_of(arguments), agree.by_model(together, arguments)
        same(f"-{letters}", agree.by_library(v7, objects, options), wanted)
        found = v7.link_map(objects, options)
        status = v7.FAULTS[found.fault] if found.fault else found.status
        same(f"link_map -{letters}", (status, len(found.objects)), (wanted[0][0], len(objects)))
    if len(together.externals) < NAMES:
        forced = tuple(f"_f{number}".encode() for number in range(model.FORCED_LIMIT))
        arguments = model.Arguments(set(), {}, [], None, forced)
        wanted = agree.by_model(model.Merged(together.objects, forced), arguments)
        same("forced names", agree.by_library(v7, objects, 0, **agree.asked_of(arguments)), wanted)


def edited(kind):
    """All objects are added, and then withdrawn until there is nothing to withdraw."""
    objects, arguments = list(encoded(kind).values()), model.Arguments(set(), {}, [])
    with v7.Session(objects) as session:
        same("what is there", agree.by_library(session), agree.by_model(merged(kind), arguments))
        for _ in objects:
            session.withdraw()
        same("what is left", agree.by_library(session), agree.by_model(model.Merged([], ()), arguments))
        same("nothing to withdraw", agree.each_call(session.withdraw), [(v7.FAULTS[35], 0)])


def known(kind):
    """What a session has of the objects, and its link."""
    together, session = merged(kind), v7.Session(list(encoded(kind).values()))
    state = session.state()
    same("objects", state["objects"], len(KINDS[kind]))
    same("text", [word["offset"] for word in state["text"]], list(range(0, together.sizes[model.TEXT], 2)))
    same("data", [word["offset"] for word in state["data"]], list(range(0, together.sizes[model.DATA], 2)))
    same("names", [row["name"] for row in state["externals"]], [name.decode() for name in together.externals])
    same("multiples", state["multiples"], [name.decode() for name in together.multiples])
    same("marks", len(state["marks"]), MARKS.get(kind, 0))
    same("bss", state["bss"], together.sizes[model.BSS])
    same("the link", agree.by_library(session, v7.STRIP | v7.SPLIT), agree.by_model(together, model.Arguments({"s", "i"}, {}, [])))


def words_shown(count):
    """More words than a file has, and addresses that begin again at 0."""
    lines = [f"{2 * place % 65536:06o}  000240                nop" for place in range(count)]
    same("disassemble_words", v7.disassemble_words([NOP] * count).split("\n"), [*lines, ""])


# --- the table

TABLE = [
    ("v7", by_v7, [*KINDS]),
    ("v7 session", longest_lines, ["references"]),
    ("v7-explain", listed, ALONE),
    ("v7-explain of many", listed_together, ["objects", "definitions of a session"]),
    ("v7-explain of other files", recognized, [*OTHER_FILES]),
    ("v7-explain -c", checked, [*KINDS]),
    ("v7-explain -d", shown, [*KINDS]),
    ("v7-explain -l", inventoried, [*KINDS]),
    ("v7-explain -s", shown_in_rows, [*KINDS]),
    ("v7-explain -m", mapped, GOOD),
    ("v7-from-gnu", converted, [*GNU_FILES]),
    ("v7-from-gnu -o", converted_together, [*GNU_LISTS]),
]
# the calls of libv7
CALLS = [
    ("v7_nm, v7_size, v7_strip, v7_disassemble, v7_list, v7_from_listing", texts, ALONE),
    ("v7_remarks", remarked, [*ALONE, *OTHER_FILES]),
    ("v7_from_gnu", converted_by_call, [*GNU_FILES]),
    ("v7_read, v7_check, v7_take_apart, v7_make", taken_apart, ALONE),
    ("v7_check, v7_take_apart, v7_run", bad, [kind for kind in KINDS if kind.startswith("bad")]),
    ("v7_run", linked_by_call, GOOD),
    ("a session of edits", edited, GOOD),
    ("v7_session_state, v7_session_link", known, GOOD),
    ("v7_disassemble_words", words_shown, [WORDS, 100000]),
]


def fault_of(row):
    """What is wrong with the answer to a kind of input, in a folder of its own."""
    name, call, kind = row
    with new_folder():
        try:
            call(kind)
        except (Exception, SystemExit) as unlike:  # also what a script cannot read of a wrong answer
            return f"{name}, {kind}: {str(unlike) or repr(unlike)}"
    return None


def main(*wanted):
    """Tries all rows, or those that are wanted, and prints what is wrong; whether there is something."""
    notices(lambda: same("planted", fault_of(("planted", lambda kind: same(kind, [kind], []), "nothing")), None))
    rows = [(name, call, kind) for name, call, kinds in TABLE + CALLS for kind in kinds if not wanted or f"{name}, {kind}" in wanted]
    with multiprocessing.Pool() as pool:
        faults = [fault for fault in pool.imap(fault_of, rows, chunksize=1) if fault]
    print(*faults, f"{len(rows) - len(faults)} of {len(rows)} answers to the largest inputs of {len(KINDS)} kinds as computed", sep="\n")
    return int(bool(faults))


if __name__ == "__main__":
    sys.exit(main(*sys.argv[1:]))
