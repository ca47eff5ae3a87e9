"""What is surely wrong with the instructions of an object, from the PDP-11 processor handbook, v7-explain(1) and OBJECTS, for the scripts
that compare it with what v7-explain says.

Nothing here comes from the program or from its definitions. A place is sure if an instruction begins there whatever the rest of the text
is. A remark that is sure makes the status of `v7-explain -c` 1, so none may be said of a right object.
"""
from tests.oracles.disassembly import FOUND, SYS, has_word

TEXT, DATA, BSS, EXTERNAL = 2, 4, 6, 0o10
# the link register is the pc, so the subroutine comes back to the next line by rts pc
PC = 7
# those of the commercial set: operands may follow them
COMMERCIAL = range(0o076000, 0o077000)
# these do not write their destination
READ_ONLY = ("tst", "tstb", "cmp", "cmpb", "bit", "bitb", "jmp", "jsr", "mfpi", "mfpd", "tstf", "ldfps", "movie", "movif", "csm", "mtps")
# the remarks that are judged here
KINDS = {
    "relocated": r"the first word of the instruction at (\d+)(?: \(\S+\))? is relocated",
    "none begins": r"an instruction leads to (\d+)(?: \(\S+\))?, where none begins",
    "cut": r"the instruction at (\d+)(?: \(\S+\))? is cut by the end of the text",
    "pc bit": r"the pc bit of the word at (\d+) is not set",
    "branch": r"the branch at (\d+) leads to \d+, and text lies from",
    "within": r"the branch at (\d+) leads to \d+, within",
    "call of data": r"the word at (\d+) is of a call or a jump, and refers to (?:a common|\d+, which is in data or bss)",
    "reference": r"the word at (\d+) (?:counts from the pc to|is of a call or a jump, and (?:adds|refers to the odd)|adds \d+ to a common)",
    "text touched": r"the word at (\d+) has its operand in memory at \d+, which is in text",
    "symbol": r"of text has value (\d+), (?:which is odd|where text ends|within)",
    "text word": r"the word at (\d+) is of kind text and refers to \d+, (?:which is odd|where text ends|within)",
    "no place": r"the word at (\d+) jumps or calls, and leads to no place of memory",
    "odd operand": r"the word at (\d+) leads to a word of memory at an odd address",
    "absolute": r"is absolute with value (\d+), which is in text, and no symbol is of text",
}
# these are sure by the promise alone: one of two lines that overlap may be data, a program may put code into data when it runs, and text may
# have tables
PROMISED = ("within", "call of data", "text touched")
# addresses below this one may be vectors
VECTORS = 0o1000
# nothing comes after these, or not for sure: a trap's handler may skip words, and a processor that halts may be started elsewhere
ENDS = ("br", "jmp", "rts", "rti", "rtt", "halt", "mark", "emt", "bpt", "iot", "csm")
# system calls, by their names: those that do not come back, and those that come back twice
EXIT, FORK = "exit", "fork"


def instruction(file, place):
    """The name and the fields of the instruction at a place, without regard to what follows; None if it is a word of another kind."""
    return FOUND.get(file.words[place])


def operands(file, place):
    """The operands of the instruction at a place: for each the place of its word, or None, its letter, its mode and its register."""
    at = place + 1
    for letter, value in instruction(file, place)[1]:
        if letter in "SDF" and not (letter == "F" and value < 8):
            yield (at if has_word(letter, value) else None), letter, value >> 3, value & 7
            at += has_word(letter, value)


def length(file, place):
    """How many words the instruction at a place has, with the arguments of a system call."""
    word = file.words[place]
    if word in SYS:
        return 1 + SYS[word][1]
    return 1 + sum(at is not None for at, _, _, _ in operands(file, place))


def lines(file):
    """The places at which lines begin, and their lengths, but for words that begin no instruction."""
    place = 0
    while place < len(file.words):
        words = file.whole_line(place)[0]
        if not file.is_relocated(place) and file.words[place] in FOUND and place + words <= len(file.words):
            yield place, words
        place += words


def operand_words(file):
    """The operand words of these: the place of each, its mode and register, and its number in the instruction."""
    for place, words in lines(file):
        if file.words[place] not in SYS and words > 1:
            found = [row for row in operands(file, place) if row[0] is not None]
            yield from ((at, mode, register, number) for number, (at, _, mode, register) in enumerate(found))


def writes_pc(file, place):
    """Whether an instruction writes the pc, or may: by its destination, by its register, or by counting the pc down."""
    name, fields = instruction(file, place)
    if name not in READ_ONLY and fields and fields[-1] in (("D", PC), ("R", PC)):
        return True
    if any(mode in (4, 5) and register == PC for _, _, mode, register in operands(file, place)):
        return True
    # a quotient, a product or a shift goes into the register, and a counter of sob is one
    return name in ("mul", "div", "ash", "ashc", "sob") and any(letter == "R" and value | (name != "ash") == PC for letter, value in fields)


def writes_ahead(file, place):
    """Whether an instruction writes the word after it: what is executed there is not what the file has."""
    name = instruction(file, place)[0]
    return name not in READ_ONLY and ("D", 1, PC) in [row[1:] for row in operands(file, place)]


def address(file, at):
    """The place in text that the operand word at a place leads to, by mode 67, if it leads there: an even place, or one and a half."""
    low = file.relocation[at] & 0o17
    return (file.words[at] + 2 * at + 2) % 65536 / 2 if low in (0, TEXT + 1) else None


def absolute(file, at):
    """The same by mode 37: the word is an address."""
    return file.words[at] / 2 if file.relocation[at] & 0o17 == TEXT else None


def branch_target(file, place):
    """Where the branch or sob at a place leads, in words; None for any other instruction."""
    for letter, value in instruction(file, place)[1]:
        if letter == "B":
            return place + 1 + (value if value < 128 else value - 256)
        if letter == "O":
            return place + 1 - value
    return None


def call_target(file, place):
    """Where jsr or jmp leads by mode 37 or 67, in words, if it is in this text."""
    if instruction(file, place)[0] not in ("jsr", "jmp"):
        return None
    for at, _, mode, register in operands(file, place):
        if register == PC and at is not None and at < len(file.words) and mode in (3, 6):
            return (address if mode == 6 else absolute)(file, at)
    return None


def named(file, place, own):
    """The name of the external that jsr calls by mode 37 or 67, or None. If `own` is true, that of the symbol of text there too, or of an
    external to which a number is added."""
    for at, _, mode, register in operands(file, place):
        if register != PC or at is None or at >= len(file.words) or mode not in (3, 6):
            continue
        low, number = file.relocation[at], (file.words[at] + (2 * at + 2 if mode == 6 else 0)) % 65536
        if low & 0o16 == EXTERNAL and low & 1 == (mode == 6) and (own or number == 0) and low >> 4 < len(file.symbols):
            return file.symbols[low >> 4][0].rstrip(b"\0")
        target = call_target(file, place)
        for name, kind, value in file.symbols if own and target is not None else ():
            if kind & 0o37 == 2 and value == 2 * target:
                return name.rstrip(b"\0")
    return None


def is_jsr(file, place, link):
    name, fields = instruction(file, place)
    return name == "jsr" and fields[0] == ("R", link)


def calls_csv(file, place, own):
    """Whether `jsr r5,csv` is at a place, with which each function of the Seventh Edition's C compiler begins. Its csv is in a library: one
    of the object's own is open to choice."""
    return is_line(file, place) and is_jsr(file, int(place), 5) and named(file, int(place), own) == b"csv"


def next_lines(file, place, widely, promise):
    """Where the instruction at a place goes on, in words: what is surely executed next, or, `widely`, what may be. Without the promise
    nothing is sure after a branch, a call and a system call."""
    name, after = instruction(file, place)[0], place + length(file, place)
    target = branch_target(file, place)
    if target is None and (name == "jmp" or is_jsr(file, place, PC) or widely):
        target = call_target(file, place)
    if target is not None:
        yield target
    if name in ENDS or writes_pc(file, place) and not is_jsr(file, place, PC) or (writes_ahead(file, place) and not widely):
        return
    call = SYS.get(file.words[place], ("",))[0]
    if name == "jsr" and not is_jsr(file, place, PC) and not calls_csv(file, place, widely):
        return
    if call == EXIT or name == "sys" and not widely and call in ("", "indir", "exec", "exece"):
        return
    if promise or not (branch_target(file, place) is not None or is_jsr(file, place, PC) or file.words[place] in SYS):
        yield after
    if call == FORK:
        yield after + 1


def is_line(file, place):
    """Whether an instruction is at this place, whole, as it is in the file."""
    return place == int(place) and 0 <= place < len(file.words) and not file.is_relocated(int(place)) and file.words[int(place)] in FOUND \
        and place + length(file, int(place)) <= len(file.words)


def text_symbols(file):
    return sorted({value / 2 for _, kind, value in file.symbols if kind & 0o37 == 2 and value < 2 * len(file.words)})


def roots(file, promise, widely):
    """Where an instruction is, whatever else the text has: where a C function begins; by the promise that text has only instructions,
    at its beginning and at each symbol of text."""
    return [0] * promise + [at for at in text_symbols(file) if at == int(at) and (promise or calls_csv(file, at, widely))]


def follow(file, promise, widely, begins, without=()):
    """The places that are reached from those at which it begins, but not through those in `without`, in words."""
    reached, symbols, waiting = set(), text_symbols(file), list(begins)
    while waiting:
        place = waiting.pop()
        if place in reached:
            continue
        reached.add(place)
        if not is_line(file, place) or place in without:
            continue
        place = int(place)
        if file.words[place] in COMMERCIAL:
            continue
        if promise:
            # what follows from one symbol to the next, whatever the instruction is
            after = place + length(file, place)
            if after < len(file.words) and not any(place < symbol < after for symbol in symbols):
                waiting.append(after)
        waiting += next_lines(file, place, widely, promise)
    return reached


def likely(file):
    """Where an instruction may be, by a name, or by a distance that is relocated as an operand of mode 67 or 77 is."""
    for place in range(len(file.words)):
        if is_line(file, place) and file.words[place] not in SYS:
            if any(at is not None and register == PC and mode >= 6 and file.relocation[at] & 0o17 > 1 and file.relocation[at] & 1
                   for at, _, mode, register in operands(file, place)):
                yield place
    yield from text_symbols(file)


def overlapping(file, reached):
    """The places of lines that share a word with another one. A word that begins no instruction is a line of its own."""
    owners, both = {}, set()
    for place in reached:
        words = length(file, int(place)) if is_line(file, place) else 1
        for at in range(int(place), int(place) + words):
            if at in owners:
                both |= {place, owners[at]}
            owners.setdefault(at, place)
    return both


def sure(file, promise=False):
    """The places that are sure, and those that may be called so. Open to choice are lines that overlap another one that is reached, or
    that may be an instruction, and what is reached through them."""
    possible = roots(file, promise, True)
    both = overlapping(file, follow(file, promise, True, [*possible, *likely(file)]))
    return follow(file, promise, False, roots(file, promise, False), both) - both, follow(file, promise, True, possible)


def wrong_at(file, place):
    """What is wrong at a place at which an instruction surely begins: for each the address, and the kind of the remark."""
    if place < 0 or place >= len(file.words) or place != int(place):
        return
    place = int(place)
    if file.is_relocated(place):
        yield 2 * place, "relocated"
        return
    if file.words[place] not in FOUND:
        yield 2 * place, "none begins"
        return
    if place + length(file, place) > len(file.words):
        yield 2 * place, "cut"
        return
    if file.words[place] not in SYS:
        for at, _, mode, register in operands(file, place):
            if at is not None and file.relocation[at] & 0o17 and register == PC and mode >= 6 and not file.relocation[at] & 1:
                yield 2 * at, "pc bit"
            goes = instruction(file, place)[0] in ("jmp", "jsr") and mode in (3, 6)
            if at is not None and register == PC and mode in (3, 6, 7) and (kind := wrong_reference(file, at, goes, mode >= 6)):
                yield 2 * at, kind
    yield from wrong_uses(file, place)
    target = branch_target(file, place)
    if target is not None:
        yield 2 * place, "within" if 0 <= target <= len(file.words) else "branch"


def wrong_uses(file, place):
    """A jump that leads to no memory, and words of memory at odd addresses; an external may have an odd one itself."""
    name = instruction(file, place)[0]
    goes, is_byte = name in ("jmp", "jsr"), file.words[place] >> 15 and file.words[place] >> 12 != 0o16
    for at, letter, mode, register in operands(file, place):
        if goes and letter in "SD" and (mode == 0 or mode == 2 and register == PC):
            yield 2 * place, "no place"
        if goes or is_byte or at is None or file.words[at] % 2 == 0:
            continue
        low = file.relocation[at]
        if register == PC and mode in (3, 6) and low & 0o16 != EXTERNAL or register in (5, 6) and mode >= 6 and not low & 0o17:
            yield 2 * at, "odd operand"


def wrong_external(file, at, goes, beyond):
    """What is wrong with an operand word that refers to a number of bytes beyond an external. What is called begins at its name; the value
    of a common, which is undefined, is the number of its bytes."""
    number = file.relocation[at] >> 4
    _, kind, value = file.symbols[number] if number < len(file.symbols) else (b"", 0o40, 0)
    size = value if kind & 0o77 == 0o40 else 0
    if goes:
        # a function may have a second entry
        return "call of data" if size else "reference" if beyond % 2 else None
    return "reference" if size and beyond >= size else None


def wrong_reference(file, at, goes, from_pc):
    """What is wrong with what the operand word at a place refers to, whose instruction goes there, or has memory there."""
    low, text, data = file.relocation[at] & 0o17, 2 * len(file.words), 2 * len(file.data) + file.bss
    number = (file.words[at] + (2 * at + 2) * from_pc) % 65536
    if low and low % 2 != from_pc:
        return None
    if low & 0o16 == EXTERNAL:
        return wrong_external(file, at, goes, number)
    if low & 0o16 in (DATA, BSS):
        return "call of data" if goes else None
    if low == 1:
        # of kind absolute: a link moves data and bss, so the number is not that of theirs
        return "reference" if text <= number < text + data and number >= VECTORS else None
    if low == 0 and from_pc and (number > text or number == text and data and not goes):
        # not relocated, so it stays at the same distance; but other segments move
        return "reference"
    if not goes and number < text and (low & 0o16 == TEXT or low == 0 and from_pc):
        return "text touched"
    return "reference" if goes and number % 2 and (from_pc or low) else None


def wrong_addresses(file, reached):
    """What is wrong with addresses in text by the promise that all of it is instructions, of which some are at these places: no instruction
    begins there. For each what is at fault: the value of a symbol, or the address of a word."""
    size, data = 2 * len(file.words), 2 * len(file.data) + file.bss
    inner = {2 * at for place in reached if is_line(file, place) for at in range(int(place) + 1, int(place) + length(file, int(place)))}

    def begins_none(number):
        return number < size and (number % 2 or number in inner) or number == size and data

    for words, relocation, start in ((file.words, file.relocation, 0), (file.data, file.data_relocation, size)):
        for at, low in enumerate(relocation):
            if low & 0o17 == TEXT and begins_none(words[at]):
                yield start + 2 * at, "text word"
    is_named = any(kind & 0o37 == 2 for _, kind, _ in file.symbols)
    for _, kind, value in file.symbols:
        if kind & 0o37 == 2 and begins_none(value):
            yield value, "symbol"
        if kind & 0o77 == 0o41 and value < size and not is_named:
            yield value, "absolute"


def exchanged(file):
    """The remarks on words after `jsr r5` with its bytes exchanged that refer to csv: they are sure whatever else the text has."""
    return {(2 * at, "relocated") for at, low in enumerate(file.relocation)
            if at and file.words[at - 1] == 0o073411 and low & 0o17 == EXTERNAL + 1 and low >> 4 < len(file.symbols)
            and file.symbols[low >> 4][0].rstrip(b"\0") == b"csv"}


def surely_wrong(file, promise=False):
    """The remarks that have to be said as sure, and those that may be."""
    certain, possible = sure(file, promise)
    excluded = () if promise else PROMISED
    wanted = {remark for place in certain for remark in wrong_at(file, place) if remark[1] not in ("within", *excluded)}
    allowed = {remark for place in possible for remark in wrong_at(file, place) if remark[1] not in excluded} | exchanged(file)
    if promise:
        wanted |= set(wrong_addresses(file, certain))
        allowed |= set(wrong_addresses(file, possible))
    return wanted, allowed
