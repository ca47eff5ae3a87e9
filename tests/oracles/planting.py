"""Mistakes of assemblers, which tests/oracles/mistakes.py plants in right objects. Each changes a copy of an object, or returns False if
the object has no place for it."""
import random

from tests.oracles.disassembly import FOUND, SYS
from tests.oracles.suspicions import BSS, DATA, EXTERNAL, TEXT, lines, operand_words

# types of externals that are defined, and words that begin no instruction
DEFINED = (0o42, 0o43, 0o44)
NO_INSTRUCTIONS = [0o10, 0o77, 0o210, 0o007100, 0o170003, 0o170010]
dice = random.Random(63)


# where things are in a right object


def from_pc(file, low=None):
    """The relocated operand words of modes 67 and 77, of one kind or of all."""
    places = [at for at, mode, register, _ in operand_words(file) if register == 7 and mode >= 6 and file.is_relocated(at)]
    return [at for at in places if low in (None, file.relocation[at] & 0o16)]


def addresses(file, *modes):
    """The relocated operand words of other modes."""
    places = [at for at, mode, register, _ in operand_words(file) if mode in modes and (register == 7) == (mode < 6)]
    return [at for at in places if file.is_relocated(at)]


def second_operands(file):
    second = {at for at, _, _, number in operand_words(file) if number == 1}
    return [at for at in from_pc(file) if at in second]


def arguments(file):
    """The relocated words after system calls."""
    places = [at for place, length in lines(file) if file.words[place] in SYS for at in range(place + 1, place + length)]
    return [at for at in places if file.is_relocated(at)]


def branches(file):
    return [place for place, _ in lines(file) if any(letter == "B" for letter, _ in FOUND[file.words[place]][1])]


def calls(file, *lows):
    """The calls by mode 67, with these relocation words or with any."""
    places = [place for place, length in lines(file) if file.words[place] == 0o004767 and length == 2]
    return [place for place in places if not lows or file.relocation[place + 1] & 0o17 in lows]


def going_on(file):
    ends = ("br", "jmp", "rts", "rti", "rtt", "halt", "mark")
    return [place for place, length in lines(file) if length == 1 and FOUND[file.words[place]][0] not in ends]


def two_operands(file):
    return [place for place, _ in lines(file) if [letter for letter, _ in FOUND[file.words[place]][1]] == ["S", "D"]]


def strings(file):
    """The words of data that are two characters."""
    printed = range(0o40, 0o177)
    return [at for at, word in enumerate(file.data) if not file.data_relocation[at] and word >> 8 in printed and word & 0o377 in printed]


def words_of(file, numbers):
    """The words of text that refer to the symbols of these numbers."""
    return [at for at, low in enumerate(file.relocation) if low & 0o16 == EXTERNAL and low >> 4 in numbers]


def symbols(file, *kinds):
    return [at for at, (_, kind, _) in enumerate(file.symbols) if kind in kinds]


def typed(*kinds):
    """The symbols of these types, as places for a mistake."""
    return lambda file: symbols(file, *kinds)


def undefined(file, is_common=False):
    return [at for at, (_, kind, value) in enumerate(file.symbols) if kind == 0o40 and bool(value) == is_common]


def text_size(file):
    return 2 * len(file.words)


def data_size(file):
    return 2 * len(file.data)


# forms of mistakes


def at_one(places, change):
    """A mistake at one of the places that an object has for it."""
    def plant(file):
        found = list(places(file))
        return bool(found) and change(file, dice.choice(found)) is not False
    return plant


def at_all(places, change):
    """A mistake at all of them."""
    def plant(file):
        found = list(places(file))
        for at in found:
            change(file, at)
        return bool(found)
    return plant


def number(column, change):
    """A word of text or data, or a relocation word, is another one."""
    def changed(file, at):
        numbers = getattr(file, column)
        before, numbers[at] = numbers[at], change(numbers[at]) % 65536
        return numbers[at] != before
    return changed


def all_of(column, change):
    """So are all of them."""
    def plant(file):
        before = getattr(file, column)
        setattr(file, column, change(before))
        return getattr(file, column) != before
    return plant


def word_plus(count):
    return number("words", lambda word: word + count)


def low_bits(bits):
    """The relocation word is this one."""
    return number("relocation", lambda low: low if low & 0o17 == bits else bits)


def with_symbol(change):
    """A symbol of a table has another name, type or value."""
    def changed(file, at):
        after = change(*file.symbols[at])
        if after is None or after == file.symbols[at]:
            return False
        file.symbols[at] = after
        return True
    return changed


def of_type(kind):
    return with_symbol(lambda name, _, value: (name, kind, value))


def value_plus(count):
    return with_symbol(lambda name, kind, value: (name, kind, (value + count) % 65536))


without_040 = with_symbol(lambda name, kind, value: (name, kind - 0o40, value))


def lose(file, at):
    """A word of text is not put out, though all addresses were counted with it."""
    for column in (file.words, file.relocation):
        del column[at]
        column.append(0)


def insert(file, at):
    for column, more in ((file.words, 0o240), (file.relocation, 0)):
        column.insert(at, more)
        del column[-1]


def exchanged(word):
    """A word with its bytes exchanged."""
    return word >> 8 | (word & 0o377) << 8


# segments


def segment_words(file, *kinds):
    """The words that refer to these segments: each list, its relocation words, and the place."""
    for words, relocation in ((file.words, file.relocation), (file.data, file.data_relocation)):
        for at, low in enumerate(relocation):
            if low & 0o16 in kinds:
                yield words, relocation, at


def counted_from(size, kinds, types):
    """Words of these kinds and symbols of these types are counted from a place that is so far on."""
    def plant(file):
        places, numbers = list(segment_words(file, *kinds)), symbols(file, *types)
        for words, _, at in places:
            words[at] = (words[at] - size(file)) % 65536
        for at in numbers:
            value_plus(-size(file))(file, at)
        return bool(places or numbers) and size(file) > 0
    return plant


def kind_of_words(before, after):
    """All words that refer to a segment have the kind of another one."""
    def plant(file):
        places = list(segment_words(file, before))
        for _, relocation, at in places:
            relocation[at] += after - before
        return bool(places)
    return plant


# symbols


def name_the_next(file, at):
    """A word refers to another undefined name than was meant."""
    names = symbols(file, 0o40)
    after = names[(names.index(file.relocation[at] >> 4) + 1) % len(names)]
    file.relocation[at] = file.relocation[at] & 0o17 | after << 4
    return len(names) > 1


def name_a_local(file, at):
    """A word refers by number to a name that the object defines."""
    defined = symbols(file, 2, 3, 4, 0o42, 0o43, 0o44)
    if defined:
        file.relocation[at] = file.relocation[at] & 1 | EXTERNAL | defined[0] << 4
    return bool(defined)


def add_common(file, at):
    """The value of a common, its size, is added to a word that refers to it."""
    file.words[at] = (file.words[at] + file.symbols[file.relocation[at] >> 4][2]) % 65536


def named_after_a_local(change):
    """An undefined name that words refer to was meant to be a local, whose .globl or whose capitals are forgotten."""
    def changed(file, at):
        defined = symbols(file, *DEFINED)
        if defined:
            without_040(file, defined[0])
            file.symbols[at] = (change(file.symbols[defined[0]][0]), 0o40, 0)
        return bool(defined)
    return changed


def garbage_after_name(name, kind, value):
    end = name.find(b"\0")
    return (name[:end + 1] + b"x" * (7 - end), kind, value) if 0 < end < 7 else None


# instructions


def branch(change):
    """A branch has another offset."""
    return number("words", lambda word: word & 0o177400 | change(word & 0o377) & 0o377)


def branch_too_far(file, at):
    outside = [offset for offset in range(128) if at + 1 + offset > len(file.words)]
    return bool(outside) and branch(lambda _: dice.choice(outside))(file, at)


def leave_out_the_last(file):
    """The last word is that of an instruction of two words."""
    if file.words:
        file.words[-1], file.relocation[-1] = 0o005067, 0
    return bool(file.words)


def exchange_operands(file, at):
    word, length = file.words[at], file.whole_line(at)[0]
    if word >> 6 & 0o77 == word & 0o77:
        return False
    file.words[at] = word & 0o170000 | (word & 0o77) << 6 | word >> 6 & 0o77
    if length == 3:
        for column in (file.words, file.relocation):
            column[at + 1], column[at + 2] = column[at + 2], column[at + 1]
    return True


def call_data(file, at):
    if file.data:
        file.words[at + 1], file.relocation[at + 1] = (text_size(file) - 2 * at - 4) % 65536, DATA + 1
    return bool(file.data)


def call_a_common(file, at):
    found = undefined(file, True)
    if found:
        file.relocation[at + 1] = EXTERNAL + 1 + (found[0] << 4)
    return bool(found)


def index_by_pc(file, at):
    """An index has the number of a register that is the pc."""
    place = max(place for place, _ in lines(file) if place < at)
    mask = 0o7 if (file.words[place] >> 3 & 7) >= 6 else 0o700
    return number("words", lambda word: word | mask)(file, place)


# the header, which is made of the file: what is wrong with it is put on top of its bytes


def header(**changes):
    """Some words of the header are others than those that are right."""
    def plant(file):
        right = {"magic": file.magic, "text": text_size(file), "data": data_size(file), "bss": file.bss, "table": 12 * len(file.symbols),
                 "entry": 0, "unused": 0, "flag": 0}
        wrong = {**right, **{name: change(right[name]) for name, change in changes.items()}}
        file.header = list(wrong.values())
        return wrong != right
    return plant


def half(size):
    return size // 2


# a kind with ? may be meant too, so it is not found in each object
MISTAKES = {
    "the pc bit forgotten": at_one(from_pc, number("relocation", lambda low: low - 1)),
    "the pc bit set at an address ?": at_one(lambda file: addresses(file, 3, 6, 7), number("relocation", lambda low: low | 1)),
    "relocation words one word early ?": all_of("relocation", lambda before: before[1:] + [0]),
    "relocation words one word late ?": all_of("relocation", lambda before: [0] + before[:-1]),
    "relocation words with exchanged bytes": all_of("relocation", lambda before: [*map(exchanged, before)]),
    "an addend of -2 in place of -4 ?": at_one(lambda file: from_pc(file, EXTERNAL), word_plus(2)),
    "an addend of 0 in place of -4 ?": at_one(lambda file: from_pc(file, EXTERNAL), word_plus(4)),
    "the second operand counted from the first ?": at_one(second_operands, word_plus(2)),
    "data from the pc without relocation": at_one(lambda file: from_pc(file, DATA) + from_pc(file, BSS), low_bits(0)),
    "data from the pc with kind absolute ?": at_one(lambda file: from_pc(file, DATA) + from_pc(file, BSS), low_bits(1)),
    "an external from the pc without relocation ?": at_one(lambda file: from_pc(file, EXTERNAL), low_bits(0)),
    "an external from the pc with kind absolute ?": at_one(lambda file: from_pc(file, EXTERNAL), low_bits(1)),
    "no relocation on $N ?": at_one(lambda file: addresses(file, 2, 3), low_bits(0)),
    "no relocation on N(r) ?": at_one(lambda file: addresses(file, 6, 7), low_bits(0)),
    "no relocation on an argument of sys ?": at_one(arguments, low_bits(0)),
    "no relocation in data ?": at_one(lambda file: [at for at, low in enumerate(file.data_relocation) if low],
                                      number("data_relocation", lambda low: 0)),
    "relocation of data one word early ?": all_of("data_relocation", lambda before: before[1:] + [0]),
    "data counted from 0": counted_from(text_size, (DATA, BSS), (3, 4, 0o43, 0o44)),
    "symbols of data counted from 0": counted_from(text_size, (), (3, 4, 0o43, 0o44)),
    "words that refer to data counted from 0": counted_from(text_size, (DATA, BSS), ()),
    "bss taken to begin where data does ?": counted_from(data_size, (BSS,), (4, 0o44)),
    "data words with the kind of text": kind_of_words(DATA, TEXT),
    "data words with the kind of bss": kind_of_words(DATA, BSS),
    "bss words with the kind of data ?": kind_of_words(BSS, DATA),
    "text words with the kind of data": kind_of_words(TEXT, DATA),
    "a data symbol as text": at_one(typed(0o43), of_type(0o42)),
    "a data symbol as bss": at_one(typed(0o43), of_type(0o44)),
    "a bss symbol as data ?": at_one(typed(0o44), of_type(0o43)),
    "a text symbol as data": at_one(typed(0o42), of_type(0o43)),
    "text symbols as absolute ?": at_all(typed(2, 0o42), with_symbol(lambda name, kind, value: (name, kind - 1, value))),
    "externals without 040 ?": at_all(typed(*DEFINED), without_040),
    "one external without 040 ?": at_one(typed(*DEFINED), without_040),
    "a symbol of type 5": at_one(typed(0o42, 0o43), of_type(0o45)),
    "the next undefined name's number ?": at_one(lambda file: words_of(file, symbols(file, 0o40)), name_the_next),
    "symbol numbers from 1": at_all(lambda file: words_of(file, range(4096)), number("relocation", lambda low: low + 0o20)),
    "the number of a defined name": at_one(lambda file: [at for at, low in enumerate(file.relocation) if low & 0o16 in (TEXT, DATA, BSS)],
                                           name_a_local),
    "a common's value added to the word ?": at_one(lambda file: words_of(file, undefined(file, True)), add_common),
    "a value left in an undefined symbol ?": at_one(undefined, value_plus(4)),
    "a common without its size ?": at_one(lambda file: undefined(file, True), with_symbol(lambda name, kind, value: (name, kind, 0))),
    "_ forgotten ?": at_one(undefined, with_symbol(lambda name, kind, value: (name.removeprefix(b"_"), kind, value))),
    "garbage after a short name": at_one(lambda file: range(len(file.symbols)), with_symbol(garbage_after_name)),
    "a defined name once more, undefined": at_one(typed(*DEFINED), lambda file, at: file.symbols.append((file.symbols[at][0], 0o40, 0))),
    "an odd value of a text symbol": at_one(typed(2, 0o42), value_plus(1)),
    "a text symbol one word on ?": at_one(typed(2, 0o42), value_plus(2)),
    "values of text symbols in words ?": at_all(lambda file: [at for at in symbols(file, 2, 0o42) if file.symbols[at][2]],
                                                with_symbol(lambda name, kind, value: (name, kind, value // 2))),
    "a word lost at the start of text ?": at_one(lambda file: [0] if len(file.words) > 1 else [], lose),
    "a word too many at the start of text ?": at_one(lambda file: [0] if len(file.words) > 1 else [], insert),
    "an operand word lost ?": at_one(lambda file: [at for at, *_ in operand_words(file) if at < len(file.words) - 1], lose),
    "the last operand word left out": leave_out_the_last,
    "a word that is no instruction": at_one(going_on, number("words", lambda _: dice.choice(NO_INSTRUCTIONS))),
    "operands exchanged ?": at_one(two_operands, exchange_operands),
    "text with its high bytes first": all_of("words", lambda before: [*map(exchanged, before)]),
    "strings with their bytes exchanged ?": at_all(strings, number("data", exchanged)),
    "a branch that counts from itself ?": at_one(branches, branch(lambda offset: offset + 1)),
    "a branch one word short ?": at_one(branches, branch(lambda offset: offset - 1)),
    "a branch counted in bytes ?": at_one(branches, branch(lambda offset: 2 * offset)),
    "a branch that is too far": at_one(branches, branch_too_far),
    "a call by r5 ?": at_one(calls, word_plus(-0o200)),
    "a call of data": at_one(lambda file: calls(file, EXTERNAL + 1), call_data),
    "a call of a common": at_one(lambda file: calls(file, EXTERNAL + 1), call_a_common),
    "a call of an odd place": at_one(lambda file: [at + 1 for at in calls(file, 0, TEXT + 1)], word_plus(1)),
    "an index by the pc": at_one(lambda file: addresses(file, 6, 7), index_by_pc),
    "sizes in words": header(text=half, data=half, bss=half),
    "the size of the table in symbols": header(table=lambda size: size // 12),
    "the flag 1 with relocation": header(flag=lambda flag: 1),
    "bss without its size ?": header(bss=lambda size: 0),
    "an odd size of bss": header(bss=lambda size: size + 1),
    "an entry point in an object": header(entry=lambda entry: 2),
    "an undefined name of a local ?": at_one(undefined, named_after_a_local(bytes)),
    "an undefined name in capitals ?": at_one(undefined, named_after_a_local(bytes.upper)),
    "csv called by r4 ?": at_one(lambda file: [0] if file.words[:1] == [0o004567] else [], word_plus(-0o100)),
}
