"""Compares the notes of v7-explain, with all their numbers, and its inventory with those computed here by docs/FORMAT.md and
v7-explain(1). What is odd of instructions is left to mistakes.py; here `-c` has to say of it what the listing says. A session of v7
has to add what is called an object, and to answer what is noted of another file.

tier: check, 100 seconds; programs: v7-explain v7 v7-object;
 for: crates/checks crates/disassemblies crates/v7_explain docs/FORMAT.md man/v7-explain.1

The files are made, the same in each run: objects whose numbers are at the edges of their ranges and beside them, and one file cut
at each byte. There are objects with 15 to 18 bad relocation words, and with 26, files with other magic numbers, flags and sizes, files of
other forms, objects of instructions, those of examples/ and of agree.py, and these with bytes changed, cut or put in. Of 200 files that
are cut, a listing has to have all words and symbols before the cut.
"""
import collections
import glob
import os
import random
import re
import struct

from tests.lib.compare import notices, same
from tests.lib.files import TOP, new_folder, read_bytes, write
from tests.lib.objects import pack
from tests.lib.programs import program, ran
from tests.oracles import agree
from tests.oracles.disassembly import FOUND, SYS, File as Text, decoded, has_word
from tests.oracles.disassembly import in_listing as shown

PROGRAMS = {0o405: "an overlay", 0o407: "a program", 0o410: "a program, pure text", 0o411: "a program, separate text and data"}
MAGICS = {0o405: "overlay", 0o407: "normal, data after text", 0o410: "text can be shared, data at a multiple of 020000",
          0o411: "text and data in spaces of their own"}
KINDS = {0o405: "overlay", 0o407: "program 0407", 0o410: "program 0410", 0o411: "program 0411"}
# the first bytes of other files, what is said of them, and their kinds in an inventory
MEMBERS = "take its members out with the ar of its system"
FORMS = [(b"\x7fELF", "this is an ELF file, of another system", "ELF"),
         (b"\x65\xff", f"this is an archive (0177545); {MEMBERS}", "archive"),
         (b"\x6d\xff", f"this is an old archive (0177555); {MEMBERS}", "archive"),
         (b"!<arch>", "this is an archive; take its members out with ar", "archive"),
         *((begin, "this is a program with overlays (0430, 0431), of 2BSD", "overlaid") for begin in (b"\x18\1", b"\x19\1"))]
# a header of tar(5): a name of 100 bytes, mode, user, group, size, time and sum, each in octal before a blank or a NUL
TAPE = re.compile(rb"(?s).{100}(?:[ 0-7]{6}..){3}(?:[ 0-7]{11}.){2}[ 0-7]{6}")
SEGMENTS = {2: "text", 3: "data", 4: "bss"}
# types of symbols, without the external bit
TYPES = (0, 1, 2, 3, 4, 0o24, 0o37)
# the most bad relocation words, and the most odd things, that are shown one by one
MOST = 16
# the most words of one kind that refer outside of its segment and have a line each; more have one together
MOST_ALIKE = 4
OUTSIDE = re.compile(r"the word( at \d+ is of kind (\w+) and refers to \d+; .*)")
# what is odd of instructions; and what is said if more is odd than is shown
SUSPICIOUS = re.compile(r"the first word of the|the pc bit of|an instruction leads to|is cut by the end of|the branch at|"
                        r"the word at \d+ (?:counts|is of a call|adds|leads to|jumps|calls csv)|is of the last instruction of text")
DOUBT = ", if this is"
# what right objects may have too
MEANT = ": a mistake, if this is not meant"
COMMON = "rounded up to even"
# what a session answers to a whole file that is not an object
PROGRAMS_SAID = ("not an object", "no relocation")
# how many files are cut
CUTS = 200
MORE = re.compile(r"and (\d+) more that are odd$")
dice = random.Random(42)


class File:
    """What the bytes of a file say, by its header."""

    def __init__(self, data):
        self.data = data
        self.magic, self.text, self.data_size, self.bss, *more = struct.unpack("<8H", data[:16])
        self.table, self.entry, self.unused, self.flag = more
        segments = self.text + self.data_size
        self.data_at = 16 + self.text
        self.relocation_at = 16 + segments
        self.symbols_at = self.relocation_at + (segments if self.flag == 0 else 0)
        self.end = self.symbols_at + self.table

    def word(self, at):
        return struct.unpack_from("<H", self.data, at)[0]

    def words(self):
        """Address, value and relocation word of each word that is relocated."""
        for at in range(0, self.text + self.data_size if self.flag == 0 else 0, 2):
            yield at, self.word(16 + at), self.word(self.relocation_at + at)

    def symbols(self):
        """Name, bytes of the name, type word and value of each symbol."""
        fields = struct.iter_unpack("<8sHH", self.data[self.symbols_at:self.end])
        return [(field.split(b"\0")[0], field, kind, value) for field, kind, value in fields]

    def ranges(self):
        """The address at which each segment begins, and that at which it ends, which counts as inside."""
        data = {0o410: -(-self.text // 8192) * 8192, 0o411: 0}.get(self.magic, self.text)
        bss = data + self.data_size
        return {"text": (0, self.text), "data": (data, bss), "bss": (bss, bss + self.bss)}


def labelled(file, address):
    """An address of text, with the nearest symbol of text at it or before it."""
    labels = [(value, kind & 0o40, name) for name, _, kind, value in file.symbols() if kind & 0o37 == 2 and value <= address]
    if not labels:
        return f"{address:06o}"
    value, _, name = max(labels, key=lambda label: label[:2])
    return f"{address:06o} ({shown(name)}{f'+{address - value:o}' if value < address else ''})"


def owner_said(file, text, place):
    """The instruction that has a word as an operand word, if it is one of text."""
    first = text.owner(place) if place < len(text.words) else None
    return "" if first is None else f"; the instruction at {labelled(file, 2 * first)} is {text.line(first)[1]}"


def is_undefined(kind):
    return kind & 0o77 == 0o40


def bad_sizes(file):
    for at, part, size in ((2, "text", file.text), (4, "data", file.data_size), (6, "bss", file.bss)):
        if size % 2:
            yield at, f"odd size: {part} has 0{size:o} ({size}) bytes, which are no whole words"
    if file.table % 12:
        yield 8, f"odd size: the symbol table has 0{file.table:o} ({file.table}) bytes, and a symbol 12"


def cut_off(file):
    size = len(file.data)
    ends = (file.data_at, file.relocation_at, file.symbols_at, file.end)
    for end, part in zip(ends, ("text", "data", "the relocation", "the symbol table")):
        if size < end:
            yield size, f"truncated: the file ends here, in {part}; by its header it has 0{file.end:o} ({file.end}) bytes"
            return


def bad_words(file):
    symbols, text = file.symbols(), decoded(file.data)
    for at, _, reloc in file.words():
        number = reloc >> 4
        if reloc & 0o16 > 0o10:
            said = f"bad relocation at word {at // 2}: {reloc:o} has none of the kinds 0, 2, 4, 6 and 10"
        elif reloc & 0o16 < 0o10 or number < len(symbols) and is_undefined(symbols[number][2]):
            continue
        else:
            named = f"symbol {number}, and the table has {len(symbols)}, counted from 0"
            if number < len(symbols):
                name, _, kind, _ = symbols[number]
                named = f"symbol {number} of {len(symbols)}, {shown(name)} of type {kind:o}, and not an undefined external, 40"
            said = f"bad symbol number at word {at // 2}: {reloc:o} refers to {named}"
        yield file.relocation_at + at, said + owner_said(file, text, at // 2)


def wrong(data):
    """What is wrong with a file, each with its byte; and the file, if it is one."""
    if len(data) < 16:
        return [(len(data), "short header: the file ends here, and a header has 16 bytes")], None
    file = File(data)
    if file.magic not in PROGRAMS:
        return [(0, f"bad magic number: {file.magic:06o}, and not 000405, 000407, 000410 or 000411")], None
    notes = list(bad_sizes(file)) or list(cut_off(file))
    if notes:
        return notes, None
    if file.magic != 0o407 or file.flag:
        return [], file
    notes = list(bad_words(file))
    more = len(notes) - MOST
    if more > 0:
        notes[MOST:] = [(file.relocation_at, f"and {more} more such relocation words")]
    return notes, file


def kind(file, is_damaged):
    """What a file is, or None if it is damaged."""
    if file.magic == 0o407 and file.flag == 0:
        return None if is_damaged else "an object"
    table = "" if file.table else ", no symbols"
    refused = "relocation removed, so ld cannot link it again" if file.flag else "not of magic number 407, so ld cannot link it"
    return f"{PROGRAMS[file.magic]}{table}; {refused}"


def form(data):
    """What a file is that has no magic number of ours, and its kind in an inventory, if that is known."""
    if not data:
        return "the file is empty", "empty"
    for begin, said, kind_said in FORMS:
        if data.startswith(begin):
            return said, kind_said
    if re.fullmatch(rb"[\b\t\n\f\r -~\x80-\xff]*", data):
        return "this is text", "text"
    if len(data) > 1 and 256 * data[0] + data[1] in PROGRAMS:
        return "a magic number with its bytes swapped: each word has its low byte first", "swapped"
    if len(data) >= 512 and TAPE.match(data):
        return "this is an archive of tar; take its files out with tar", "tar"
    if is_core(data):
        return "this is a core file, of a process that has ended", "core"
    return None, "other"


def is_core(data):
    """Whether 1,024 bytes of the system are followed by data and stack, whose sizes in 64 bytes are the words at 0412 and 0414."""
    sizes = struct.unpack_from("<2H", data, 0o412) if len(data) >= 1024 else (0, 0)
    return sizes[1] > 0 and len(data) == 1024 + 64 * sum(sizes)


def has_no_magic(data):
    return len(data) < 16 or File(data).magic not in PROGRAMS


def header_said(data):
    """What a listing says of the words of a header, unless the file is known to have another form."""
    if len(data) < 16 or has_no_magic(data) and form(data)[0]:
        return []
    file = File(data)
    sizes = f"{file.text} bytes of text, {file.data_size} of data, {file.bss} of bss, {file.table} of symbols"
    words = (10, file.entry, "entry point"), (12, file.unused, "unused"), (14, file.flag, "flag: no relocation")
    return [f"000  {file.magic:06o}  magic: {MAGICS.get(file.magic, 'none that a file begins with')}; {sizes}",
            *(f"{at:03o}  {word:06o}  {said}" for at, word, said in words if word)]


def odd_header(file):
    if file.entry and file.flag == 0:
        yield 10, f"the entry point of an object, {file.entry:06o}, is ignored"
    if file.unused:
        yield 12, f"the unused word, {file.unused:06o}, is ignored"
    more = file.data[file.end:]
    if more:
        yield file.end, f"0{len(more):o} ({len(more)}) bytes after the symbol table are not read" + unless(any(more))
    end = file.ranges()["bss"][1]
    if end > 65535:
        yield 2, f"text, data and bss end at {end:06o}, and have no room in memory" + unless(file.data_size + file.bss > 65535)


def unless(sure):
    """What follows on a remark that a right object may have."""
    return "" if sure else MEANT


def is_moved(file):
    """Whether a symbol of text lies outside of it, as in text for another address."""
    return any(kind & 0o37 == 2 and value > file.text for _, _, kind, value in file.symbols())


def is_far(file, segment, to):
    """Whether an address is more than 0400 bytes outside, on either side, in memory that wraps around."""
    begin, end = file.ranges()[segment]
    return begin - to > 0o400 if to < begin else to - end > 0o400 and begin + 65536 - to > 0o400


def places(file):
    """Each word, its address and its relocation word; what it refers to, and the segment for which that is."""
    for at, word, reloc in file.words():
        address = at if at < file.text else (file.ranges()["data"][0] + at - file.text) % 65536
        to = (word + address + 2) % 65536 if reloc & 1 else word
        yield at, address, reloc, to, {2: "text", 4: "data", 6: "bss"}.get(reloc & 0o16)


def direct(file):
    """The bytes of text at which lines begin, by the sweep, and those at which the words of operands of modes 37, 67 and 77 are."""
    text, place, starts, found = decoded(file.data), 0, set(), set()
    while file.flag == 0 and place < len(text.words):
        length, word = text.line(place)[0], text.words[place]
        starts.add(2 * place)
        if length > 1 and word not in SYS:
            fields = [value for letter, value in FOUND[word][1] if has_word(letter, value)]
            found |= {2 * at for at, value in enumerate(fields, place + 1) if value in (0o37, 0o67, 0o77)}
        place += length
    return starts, found


def named(file, segment, to):
    """Whether a symbol of a segment has an address."""
    return any(SEGMENTS.get(kind & 0o37) == segment and value == to for _, _, kind, value in file.symbols())


def is_misplaced(file, at, segment, to, starts):
    """Whether something shows that a word which refers far outside of its segment is a mistake: its address counts from the start of the
    segment, and is 0 or that of a symbol, its line begins with it, or the next word of data has the address and no relocation word."""
    if to == 0 or named(file, segment, to + file.ranges()[segment][0]) or at in starts:
        return True
    after = [(word, reloc) for place, word, reloc in file.words() if place == at + 2 and at >= file.text]
    return any(reloc & 0o17 == 0 and named(file, segment, word) for word, reloc in after)


def is_base(file, segment, to):
    """Whether words count from an address outside of its segment, and a symbol of the segment is inside."""
    begin, end = file.ranges()[segment]
    inside = [value for _, _, kind, value in file.symbols() if SEGMENTS.get(kind & 0o37) == segment and begin <= value <= end]
    return bool(inside) and any(kind == segment and number == to and not reloc & 1 for _, _, reloc, number, kind in places(file))


def lies(file, segment, to):
    """Where a segment is that an address is outside of, and what to add if the address counts from its start."""
    begin, end = file.ranges()[segment]
    hint = f" (perhaps counted from the start of {segment}: add {begin:06o})" if begin and to + begin <= end else ""
    return f"{segment} lies from {begin:06o} to {end:06o}{hint}"


def odd_words(file):
    moved, (starts, sure_words) = is_moved(file), direct(file)
    for at, address, reloc, to, segment in places(file):
        if reloc > 0o17 and reloc & 0o16 < 0o10:
            yield file.relocation_at + at, f"relocation word {reloc:06o} of the word at {address:06o}: bits above 17 are ignored"
        if segment:
            begin, end = file.ranges()[segment]
            if not begin <= to <= end:
                misplaced = is_far(file, segment, to) and is_misplaced(file, at, segment, to, starts)
                sure = reloc & 1 or not moved and (at in sure_words or misplaced)
                yield file.relocation_at + at, (f"the word at {address:06o} is of kind {segment} and refers to {to:06o}; "
                                                f"{lies(file, segment, to)}" + unless(sure))


def likeness(symbols):
    """A function for the number of the symbol of text, data or bss that an undefined name was probably meant to be: the first local of this
    name or, if the name has a capital, the first symbol with another name of the same letters. None if there is none."""
    placed = [(number, name, kind) for number, (name, _, kind, _) in enumerate(symbols) if SEGMENTS.get(kind & 0o37)]
    local, letters = {}, collections.defaultdict(list)
    for number, name, kind in placed:
        if not kind & 0o40:
            local.setdefault(name, number)
        letters[name.lower()].append((number, name))
    return lambda name: local.get(name, next(
        (number for number, other in letters[name.lower()] if name != name.lower() and other != name), None))


def odd_symbol(file, number, symbol, first, used, like):
    """What is odd of a symbol, if the first external of its name has this number, and words refer to those of the numbers `used`."""
    name, field, kind, value = symbol
    if not name:
        yield 0, "has an empty name"
    elif not all(32 < c < 127 for c in name):
        yield 0, "has bytes in its name that do not print"
    if field.rstrip(b"\0") != name:
        yield 0, "has bytes after the NUL of its name, which are ignored"
    if kind & 0o40 and first < number:
        yield 0, f"has the name of symbol {first}; names are equal in eight bytes"
    if kind > 0o77:
        yield 8, f"has type {kind:06o}, of which the bits above 77 are ignored"
    if kind & 0o37 not in TYPES:
        yield 8, f"has type {kind:06o}, which the format does not have; it is taken as absolute"
    if is_undefined(kind) and value % 2:
        yield 10, f"is undefined with value {value:06o}: a common of {value} bytes, rounded up to even"
    if is_undefined(kind) and value > 0o157777:
        yield 10, f"is a common of {value} bytes, which have no room in memory"
    segment = SEGMENTS.get(kind & 0o37)
    if segment:
        begin, end = file.ranges()[segment]
        if not begin <= value <= end:
            excused = is_moved(file) or is_base(file, segment, value)
            sure = segment != "text" and not excused and (kind & 0o40 or is_far(file, segment, value))
            yield 10, f"of {segment} has value {value:06o}, and {lies(file, segment, value)}" + unless(sure)
    if is_undefined(kind) and not value and file.flag == 0 and number not in used:
        yield 0, "is undefined, and no word refers to it" + MEANT
    if is_undefined(kind) and not value and file.flag == 0 and like(name) is not None:
        yield 0, f"is undefined, and symbol {like(name)} of the same letters is not" + MEANT


def odd_of(file):
    """What is odd of a file, each with its byte, but for what is odd of its instructions, which comes last."""
    odd, firsts = [*odd_header(file), *odd_words(file)], {}
    used, like = {reloc >> 4 for _, _, reloc in file.words() if reloc & 0o16 == 0o10}, likeness(file.symbols())
    for number, symbol in enumerate(file.symbols()):
        at, title = file.symbols_at + 12 * number, f"symbol {number} {shown(symbol[0])}"
        first = firsts.setdefault(symbol[0], number) if symbol[2] & 0o40 else number
        odd += [(at + place, f"{title} {text}") for place, text in odd_symbol(file, number, symbol, first, used, like)]
    return odd


def by_cause(found):
    """What is odd, with one line for all words of a kind that refer outside of its segment, if there are more than a few."""
    matches = [OUTSIDE.fullmatch(text) for _, text in found]
    counts, told = collections.Counter((match[2], match[0].endswith(MEANT)) for match in matches if match), set()
    for (at, text), match in zip(found, matches):
        cause = match and (match[2], text.endswith(MEANT))
        if counts[cause] <= MOST_ALIKE:
            yield at, text
        elif cause not in told:
            told.add(cause)
            yield at, f"{counts[cause]} words of kind {cause[0]} lie outside, the first{match[1]}"


def at_byte(found):
    return [f"byte 0{at:o} ({at}): {text}" for at, text in found]


def notes_of(data):
    """What a file is, and all that is wrong or odd, in the order of a listing; and what `-c` says of it: what is wrong, or odd but for
    commons of odd sizes."""
    found, file = wrong(data)
    if file is None:
        said = [text for text in (form(data)[0],) if text and has_no_magic(data)]
        return header_said(data) + [f"wrong: {note}" for note in at_byte(found)] + said, at_byte(found) + said
    what, odd = kind(file, found), odd_said(data)
    refused = at_byte(found) or ([what] if what != "an object" else [note for note in odd if not note.endswith(COMMON)][:MOST])
    notes = ([what] if what else []) + header_said(data)
    return notes + [f"wrong: {note}" for note in at_byte(found)] + [f"odd: {note}" for note in odd[:MOST]], refused


def odd_notes(data):
    """All that is odd in a file but for its instructions."""
    file = wrong(data)[1]
    return at_byte(odd_of(file)) if file else []


def odd_said(data):
    """The same with one line for one cause."""
    file = wrong(data)[1]
    return at_byte(by_cause(odd_of(file))) if file else []


def without_suspicious(notes):
    """Notes without those on instructions, and without how many more things are odd."""
    return [note for note in notes if not SUSPICIOUS.search(note) and not MORE.match(note)]


def odd_count(notes):
    """How many lines the odd things have by the notes of a listing, with those that are not shown."""
    return sum(note.startswith("odd") for note in notes) + sum(int(more[1]) for more in map(MORE.match, notes) if more)


def lines_of(path, data):
    """The notes of a listing: the path with the size, what the file is, its header, and what is wrong or odd."""
    return [f"{path}: 0{len(data):o} ({len(data)}) bytes", *notes_of(data)[0]]


def inventory_of(path, data, odd):
    """The line of a file in an inventory, unless it has the form of GNU's assembler. `odd` says how many things are odd in it."""
    kind_said, numbers, said = form(data)[1], ["-"] * 5, "-"
    if not has_no_magic(data):
        file = File(data)
        is_object = file.magic == 0o407 and file.flag == 0
        damaged = [int(note.split()[2], 8) for note in notes_of(data)[0] if note.startswith("wrong")]
        kind_said = "object" if is_object else KINDS[file.magic]
        said = f"damaged at {min(damaged):06o}" if damaged else f"{odd} odd" if odd else "ok"
        numbers[:3] = [file.text, file.data_size, file.bss]
        if wrong(data)[1]:
            symbols = list(file.symbols())
            numbers[3:] = [len(symbols), sum(kind & 0o77 == 0o40 and not value for _, _, kind, value in symbols)]
    return f"{kind_said:12}" + "".join(f"{number:>7}" for number in numbers) + f"  {said:17}  {path}"


def remains(data):
    """The rows of the listing of a file that ends early, as far as they do not follow from other rows, and its last line."""
    file, size = File(data), len(data)
    segments, starts = file.text + file.data_size, {"text": 0, "data": file.ranges()["data"][0]}
    there = max(0, min(segments, size - 16) // 2)
    relocs = max(0, min(file.symbols_at, size) - file.relocation_at) // 2
    symbols = max(0, size - file.symbols_at) // 12
    rows = []
    for number in range(there):
        part, at = ("text", 2 * number) if 2 * number < file.text else ("data", 2 * number - file.text)
        row = [part, f"{(starts[part] + at) % 65536:06o}", f"{file.word(16 + 2 * number):06o}"]
        rows.append(row + ([f"{file.word(file.relocation_at + 2 * number):o}"] if number < relocs else []))
    for number in range(symbols):
        name, kind, value = struct.unpack_from("<8sHH", data, file.symbols_at + 12 * number)
        rows.append(["symbols", f"{number:o}", shown(name.split(b"\0")[0]), f"{kind:o}", f"{value:06o}"])
    text = min(there, file.text // 2)
    missing = (file.text // 2 - text, (file.data_size // 2) - (there - text), (file.symbols_at - file.relocation_at) // 2 - relocs)
    return rows, (f"the file ends at byte 0{size:o} ({size}); missing words: %d of text, %d of data, %d of relocation; " % missing
                  + f"missing symbols: {file.table // 12 - symbols}")


def compare_remains(path, data, listing):
    """The rows and the last line of a listing are those of `remains`. After the columns of a row comes a remark, which does not begin with
    a number."""
    rows, last = remains(data)
    lines, part, found = listing.splitlines(), "", []
    for line in lines[:-1]:
        columns = line.split()
        if columns[0] in ("text", "data", "symbols"):
            part = columns[0]
        elif columns[0].isdigit():
            wanted = rows[len(found)] if len(found) < len(rows) else []
            more = columns[len(wanted) - 1:][:1]
            found.append([part, *columns[:len(wanted) - 1], *(column for column in more if column.isdigit())])
    compare(path, data, [*found, lines[-1]], [*rows, last])


def cuts():
    """Files, each cut at a place after its header."""
    whole = [read_bytes(path) for path in sorted(glob.glob(f"{TOP}/examples/*.o"))] + [of_any_names() for _ in range(50)]
    whole += [random_file(dice.randrange(1, 9), dice.randrange(5), magic, flag) for magic in PROGRAMS for flag in (0, 1)]
    whole = [data for data in whole if (file := wrong(data)[1]) and file.end > 16]
    for number in range(CUTS):
        data = whole[number % len(whole)]
        yield data[:dice.randrange(16, min(len(data), File(data).end))]


def compare_cuts():
    """The listing of a file that ends early has all that is there, v7-object refuses it, and other views end with the same line."""
    for number, data in enumerate(cuts()):
        path = f"cut{number}.o"
        write(path, data)
        listing = answered(1, path)[0]
        compare_remains(path, data, listing)
        if number == 0:
            without = "\n".join(line for line in listing.splitlines() if not line.startswith("000000  "))
            notices(compare_remains, path, data, without)
        for option in ("-d", "-p", "-s"):
            compare(f"{option} {path}", data, answered(1, option, path)[0].splitlines()[-1:], [remains(data)[1]])
        write("cut.lst", listing.encode())
        compare(f"v7-object of {path}", data, [ran(OBJECT, "cut.lst", "made.o").status, os.path.exists("made.o")], [1, False])


def near(edges):
    return max(0, dice.choice(edges) + dice.choice([-2, -1, 0, 1, 2])) % 65536


def random_symbol(edges):
    name = dice.choice([b"_a", b"_b", b"Lc", b"", b"eight_by", b"a\\b", b"\x7f", b" x", b"~", b"_a\0z", b"!"])
    kind = dice.choice([0o40, 0o40, 0o40, 0, 1, 2, 3, 4, 0o41, 0o42, 0o43, 0o44, 0o24, 0o37, 0o77, 0o100, 0o101, 0o140])
    kind = dice.choice([kind, kind, kind, dice.randrange(65536)])
    return name, kind, dice.choice([0, 1, 2, near(edges)])


def random_reloc(count):
    number = dice.choice([0, 1, count - 1, count, 4095]) % 4096
    external = 16 * number + 0o10
    return dice.choice([0, 1, 2, 3, 4, 5, 6, 7, 0o10, 0o11, 0o12, 0o20, 0o26, external, external + 1, dice.randrange(65536)])


def random_file(text, data, magic=0o407, flag=0):
    """A file of this number of words; most of its numbers are at the ends of segments."""
    bss = 2 * dice.randrange(5)
    edges = [0, 2 * text, 2 * (text + data), 2 * (text + data) + bss]
    count = dice.randrange(6)
    words = [near(edges) for _ in range(text + data)]
    # a word that is relative to the pc has the distance
    words = [(word - 2 * at - 2) % 65536 if dice.randrange(2) else word for at, word in enumerate(words)]
    pairs = [(word, 0 if flag else random_reloc(count)) for word in words]
    more = {"entry": dice.choice([0, 0, 2]), "unused": dice.choice([0, 0, 1])}
    symbols = [random_symbol(edges) for _ in range(count)]
    return pack(pairs[:text], pairs[text:], bss, symbols, magic, flag, **more, tail=bytes(dice.choice([0, 0, 0, 1, 9])))


# first words, and how many operand words or arguments they have
CODE = [(0o016700, 1), (0o004767, 1), (0o026767, 2), (0o005077, 1), (0o012700, 1), (0o010100, 0), (0o005200, 0), (0o000207, 0)]
CODE += [(0o000012, 0), (0o104404, 2), (0o104401, 0), (0o104001, 0), (0o000167, 1), (0o000137, 1), (0o000004, 0)]


def random_code():
    """An object of instructions: many branches, operand words that are relocated or not, and text symbols or none."""
    words, relocation = [], []
    for _ in range(dice.randrange(1, 16)):
        offset = dice.choice([dice.randrange(-8, 9), dice.randrange(-8, 9), dice.randrange(-128, 128)]) % 256
        branch = (dice.choice([0o000400, 0o001000, 0o001400, 0o100000]) + offset, 0)
        first, more = dice.choice([branch, branch, (0o077000 + dice.randrange(12), 0), *CODE])
        words += [first] + [near([0, 2 * len(words)]) for _ in range(more)]
        relocation += [dice.choice([0] * 30 + [2, 9])] + [dice.choice([9, 9, 9, 0, 2, 3, 5, 8]) for _ in range(more)]
    count = len(words) - dice.choice([0, 0, 0, 1, 2])
    places = [2 * dice.randrange(len(words)) for _ in range(dice.randrange(3))]
    symbols = [(b"_x", 0o40, 0), *((b"L%d" % place, dice.choice([2, 0o42]), place) for place in places)]
    return Text(words[:count], relocation[:count], symbols).encoded()


def files():
    whole = random_file(3, 2)
    yield from (whole[:size] for size in range(len(whole) + 1))
    for bad in (15, 16, 17, 18, 26):
        yield pack([(0, 0o12)] * bad, [(0, 0)] * 2)
        yield pack([(0, 0o12)] * 2, [(0, 0o12)] * bad)
    for at in range(2, 10, 2):
        for size in (1, 3, 13, 255):
            yield whole[:at] + struct.pack("<H", size) + whole[at + 2:]
    for magic in (*PROGRAMS, 0o404, 0o406, 0o412, 0, 65535):
        yield from (random_file(text, 1, magic, flag) for text in (0, 1, 2) for flag in (0, 1, 65535))
    texts = (b"text\r\n\t", b"text\x1b", b"text\x7f", b"\ftext\b_\xe9", b"text\x0b")
    for begin in (*(begin for begin, _, _ in FORMS), *texts, b"\1\7", b"\1\4", b"\1\6"):
        yield from (begin, begin + bytes(12) + b"and more", begin + b" and more of it, all of them text")
    header = b"name" + bytes(96) + 3 * b"   644 \0" + 2 * b"          5 " + b"  4567\0 " + bytes(356)
    yield from (header, header[:-1], header + bytes(512))
    yield from (header[:at] + b"8" + header[at + 1:] for at in (99, 100, 105, 106, 124, 134, 135, 146, 153, 154))
    for sizes in ((1, 2), (0, 1), (1, 0), (0, 0), (300, 7)):
        core = bytes(0o412) + struct.pack("<2H", *sizes) + bytes(1024 - 0o416 + 64 * sum(sizes))
        yield from (core, core[:-1], core + b"\0")
    # text and data of more than 65,536 bytes, the last words of which have relocation words of text and of data
    yield pack([(0, 0)] * 20000, [(0, 0)] * 19998 + [(0, 0o42), (0, 5)])
    yield from (random_file(dice.randrange(9), dice.randrange(5)) for _ in range(1000))
    yield from (random_code() for _ in range(1000))
    whole = [read_bytes(path) for path in sorted(glob.glob(f"{TOP}/examples/*.o"))] + [of_any_names() for _ in range(500)]
    yield from whole
    yield from (damaged(dice.choice(whole)) for _ in range(500))


def of_any_names():
    """An object, mostly one that v7 takes, with names of any bytes."""
    names = [*dice.sample(agree.NAMES, 4), *(bytes(dice.randrange(256) for _ in range(8)) for _ in range(4))]
    return dice.choice([agree.object_of] * 4 + [agree.bad_object_of])(dice, names)


def damaged(data):
    """A file, cut, with bytes changed, or with sizes changed, some of them several times."""
    for _ in range(dice.randrange(1, 4)):
        data = agree.damage(dice, data)
    return data


def answered(status, *words):
    """What v7-explain writes, which has to end with this status."""
    came = ran(EXPLAIN, *words).texts()
    same(" ".join(words[:2]), came[0], status)
    return came[1:]


def explained(paths):
    """The notes of each file, in order. The status is 1 if something is wrong."""
    status, out, _ = ran(program("v7-explain"), *paths).texts()
    notes = []
    for line in re.findall(r"^/ (.*)$", out, re.M):
        if re.match(r"f\d+\.o: ", line):
            notes.append([])
        notes[-1].append(line)
    same("the status of listings", status, int(any(note.startswith("wrong: ") for those in notes for note in those)))
    return notes


def checked(paths, *options):
    """What `-c` says of each file. The status is 1 if one line of all is sure."""
    status, _, said = ran(program("v7-explain"), "-c", *options, *paths).texts()
    lines = {path: [] for path in paths}
    for line in said.splitlines():
        path, _, text = line.removeprefix("v7-explain: ").partition(": ")
        lines[path].append(text)
    same(f"the status of -c {options}", status, int(any(DOUBT not in text for texts in lines.values() for text in texts)))
    return lines


def inventoried(paths):
    """The line of each file in an inventory."""
    return answered(0, "-l", *paths)[0].splitlines()


def sessions(paths):
    """What a session answers to each file: nothing if it is added."""
    script = "".join(f"add {path}\nwithdraw\n" for path in paths)
    lines = ran(V7, "session", given=script.encode()).out.decode().splitlines()[::2]
    return {path: "" if line == f"added {path}" else line.removeprefix(f"{path}: ") for path, line in zip(paths, lines)}


def compare(path, data, found, expected):
    same(f"{path}, {data.hex()}", found, expected)


def compare_session(path, data, notes, answer):
    """A file is called an object if a session adds it; another one has the answer in its notes, or is called a program."""
    compare(f"{path} called an object", data, "an object" in notes, not answer)
    said = "so ld cannot link it" if answer in PROGRAMS_SAID else answer
    compare(f"{path}, {answer} in its notes", data, any(said in note for note in notes), True)


def main():
    datas = list(files())
    paths = [f"f{number}.o" for number in range(len(datas))]
    for path, data in zip(paths, datas):
        write(path, data)
    found, refused, inventory = explained(paths), checked(paths), inventoried(paths)
    assert len(found) == len(inventory) == len(datas), (len(found), len(inventory), len(datas))
    notices(compare, paths[0], datas[0], found[0], [*found[0], ""])
    added = sessions(paths)
    notices(compare_session, paths[0], datas[0], found[0], added[paths[0]] + " planted")
    count, doubted = 0, []
    for path, data, notes, line in zip(paths, datas, found, inventory):
        expected, why = lines_of(path, data), notes_of(data)[1]
        count += len(expected)
        compare(path, data, without_suspicious(notes), expected)
        compare(f"-c {path}", data, without_suspicious(refused[path]), why)
        compare_session(path, data, notes, added[path])
        odd = [note.removeprefix("odd: ") for note in notes if note.startswith("odd: ") and not note.endswith(COMMON)]
        if not added[path] and odd_count(notes) <= MOST:
            compare(f"-c {path} and its listing", data, refused[path], odd)
        # one that is sure may not be shown
        if all(DOUBT in note for note in refused[path]) and len(refused[path]) <= MOST:
            doubted.append(path)
        alike = len(odd_notes(data)) - len(odd_said(data))
        compare(f"-l {path}", data, [line], [inventory_of(path, data, odd_count(notes) + alike)])
    answered(0, "-c", *doubted)
    compare_cuts()
    print(f"{count} notes and {len(datas)} lines of an inventory compared, and what is there of {CUTS} files that end early")


if __name__ == "__main__":
    EXPLAIN, V7, OBJECT = program("v7-explain"), program("v7"), program("v7-object")
    with new_folder():
        main()
