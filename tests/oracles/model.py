"""A second linker: ld, nm, size, strip and session again, as short as they can be.

It was written from docs/LINK.md, docs/FORMAT.md, docs/teaching/BLACKBOARD.md and the manual pages, and shares no code with v7. Where
these left something open, the program was tried, and the page was mended. tests/oracles/agree.py compares the two on random files.

    python3 -m tests.oracles.model ld -o program main.o twice.o

does what `v7 ld -o program main.o twice.o` does. Nothing is incremental here: each addition of a session merges all objects again.
"""
import os
import struct
import sys
from contextlib import contextmanager
from dataclasses import dataclass, replace

from tests.lib.objects import pack
from tests.lib.programs import FAULTS

# The types of symbols. Those of a segment, and ABSOLUTE, also name what a word refers to.
UNDEFINED, ABSOLUTE, TEXT, DATA, BSS = range(5)
REGISTER, FILE_NAME, EXTERNAL = 0o24, 0o37, 0o40
SEGMENTS = {TEXT: 'text', DATA: 'data', BSS: 'bss'}
RESERVED = {b'_etext': TEXT, b'_edata': DATA, b'_end': BSS}

# A relocation word: the pc bit, what the word refers to, the number of a symbol.
PC, KIND, NAMED, NUMBER = 1, 0o16, 0o10, 16
REFERS = {0: ABSOLUTE, 2: TEXT, 4: DATA, 6: BSS}

NORMAL, PURE, SPLIT, OVERLAY = 0o407, 0o410, 0o411, 0o405
HEADER_SIZE, SYMBOL_SIZE, NAME_SIZE, WORD, PAGE = 16, 12, 8, 0o200000, 0o20000
SEGMENT_LIMIT, NAMES_LIMIT, END_LIMIT, SYMBOLS_LIMIT = 65534, 65535, 65535, 5461
NUMBER_LIMIT, FORCED_LIMIT, LINE_LIMIT, LINES_LIMIT = 4095, 64, 4096, 1000000


class Refused(Exception):
    """Why something is refused."""


@dataclass(frozen=True)
class Symbol:
    name: bytes
    type: int
    value: int

    @property
    def kind(self):
        return self.type & 0o37

    @property
    def segment(self):
        """What the value is counted in; a type that names no segment counts as absolute."""
        return self.kind if self.kind in SEGMENTS else ABSOLUTE

    @property
    def is_undefined(self):
        """Neither a definition nor a common, whose value is its size."""
        return self.kind == UNDEFINED and self.value == 0


@dataclass(frozen=True)
class File:
    """An a.out file. The words of TEXT and of DATA are pairs of a word and its relocation."""
    magic: int
    words: dict
    bss: int
    symbols: list
    entry: int
    unused: int
    flag: int

    def size(self, segment):
        return self.bss if segment == BSS else 2 * len(self.words[segment])

    def start(self, segment):
        """Where the segment begins if the file is an object."""
        return sum(self.size(before) for before in SEGMENTS if before < segment)


def read_file(contents):
    """The file that the bytes begin with."""
    if len(contents) < HEADER_SIZE:
        raise Refused('short header')
    magic, text, data, bss, table, entry, unused, flag = struct.unpack_from('<8H', contents)
    if magic not in (NORMAL, PURE, SPLIT, OVERLAY):
        raise Refused('bad magic number')
    if text % 2 or data % 2 or bss % 2 or table % SYMBOL_SIZE:
        raise Refused('odd size')
    count = (text + data) // 2
    end = HEADER_SIZE + (2 if flag else 4) * count
    if len(contents) < end + table:
        raise Refused('truncated')
    words = struct.unpack_from(f'<{count if flag else 2 * count}H', contents, HEADER_SIZE)
    pairs = list(zip(words, (0,) * count if flag else words[count:]))
    symbols = [Symbol(name.split(b'\0')[0], kind, value) for name, kind, value in struct.iter_unpack('<8sHH', contents[end:end + table])]
    return File(magic, {TEXT: pairs[:text // 2], DATA: pairs[text // 2:]}, bss, symbols, entry, unused, flag)


def write_file(file):
    """The bytes of the file."""
    symbols = [(symbol.name, symbol.type, symbol.value) for symbol in file.symbols]
    return pack(file.words[TEXT], file.words[DATA], file.bss, symbols, file.magic, file.flag, file.entry, file.unused)


def read_object(contents):
    """The object that the bytes begin with."""
    file = read_file(contents)
    if file.magic != NORMAL:
        raise Refused('not an object')
    if file.flag != 0:
        raise Refused('no relocation')
    named = {number for number, symbol in enumerate(file.symbols) if symbol.type & EXTERNAL and symbol.kind == UNDEFINED}
    for place, (_, relocation) in enumerate(file.words[TEXT] + file.words[DATA]):
        if relocation & KIND not in (*REFERS, NAMED):
            raise Refused(f'bad relocation at word {place}')
        if relocation & KIND == NAMED and relocation // NUMBER not in named:
            raise Refused(f'bad symbol number at word {place}')
    return file


class Merged:
    """Objects one after another, before anything has an address.

    It has the sizes before each object and of all, and the externals by first mention.
    The value of an external is its offset in the merged segment, its number if it is absolute,
    or the largest size that is wanted if it is a common.
    """

    def __init__(self, objects, forced):
        self.objects, self.forced, self.before, self.multiples = [], forced, [], []
        # for each of these the number of the object
        self.further = []
        self.sizes = dict.fromkeys(SEGMENTS, 0)
        self.externals = {name: Symbol(name, EXTERNAL, 0) for name in forced}
        for file in objects:
            self.append(file)

    def append(self, file):
        """One object more. If it is refused nothing can follow."""
        self.objects.append(file)
        self.before.append(dict(self.sizes))
        for symbol in file.symbols:
            if symbol.type & EXTERNAL:
                self.mention(file, symbol)
        for segment, name in SEGMENTS.items():
            self.sizes[segment] += file.size(segment)
            if self.sizes[segment] > SEGMENT_LIMIT:
                raise Refused(f'{name} full')
        if len(self.externals) > NAMES_LIMIT:
            raise Refused('names full')

    def mention(self, file, symbol):
        """An external symbol of the last object: a mention, a common or a definition."""
        name, segment, value = symbol.name, symbol.segment, symbol.value
        known = self.externals.setdefault(name, Symbol(name, EXTERNAL, 0))
        if symbol.kind == UNDEFINED:
            if known.kind == UNDEFINED and known.value < value:
                self.externals[name] = Symbol(name, EXTERNAL, value)
            return
        if segment in SEGMENTS:
            value = (value - file.start(segment) + self.sizes[segment]) % WORD
        definition = Symbol(name, EXTERNAL + segment, value)
        if known.kind == UNDEFINED:
            self.externals[name] = definition
        elif known != definition:
            self.multiples.append(name)
            self.further.append(len(self.before) - 1)

    def undefined(self):
        """The names that nothing defines; the linker itself defines the reserved ones."""
        return [symbol.name for symbol in self.externals.values() if symbol.is_undefined and symbol.name not in RESERVED]


class Link:
    """The link of objects, as `file`, and the lines of its report, as `report`."""

    def __init__(self, merged, arguments):
        self.merged, self.letters, self.entry = merged, arguments.letters, arguments.entry
        self.lay_out()
        self.symbols = {name: self.symbol(known) for name, known in merged.externals.items()}
        table = [] if self.letters & set('sx') else self.kept_locals()
        self.numbers = {name: len(table) + place for place, name in enumerate(self.symbols)}
        if 's' not in self.letters:
            table += self.symbols.values()
        if len(table) > SYMBOLS_LIMIT:
            raise Refused('too many symbols')
        words = {segment: self.linked_words(segment) for segment in (TEXT, DATA)}
        entry = self.symbols.get(self.entry)
        self.has_entry = entry is not None and entry.type == EXTERNAL + TEXT
        entry_point = entry.value if self.has_entry else 0
        self.file = File(self.magic, words, self.bss, table, entry_point, unused=0, flag=0 if 'r' in self.letters else 1)
        self.report = self.reported()

    def lay_out(self):
        """The magic number, where segments and commons begin, and commons with bss as one."""
        sizes, common_size, self.commons = self.merged.sizes, 0, {}
        if 'r' not in self.letters or 'd' in self.letters:
            for name, external in self.merged.externals.items():
                if external.kind == UNDEFINED and external.value > 0:
                    self.commons[name] = common_size
                    common_size += external.value + external.value % 2
        self.magic, data = NORMAL, sizes[TEXT]
        if 'n' in self.letters:
            self.magic, data = PURE, (data + PAGE - 1) // PAGE * PAGE
        if 'i' in self.letters:
            self.magic, data = SPLIT, 0
        self.common_start = data + sizes[DATA]
        self.start = {ABSOLUTE: 0, TEXT: 0, DATA: data, BSS: self.common_start + common_size}
        self.bss = common_size + sizes[BSS]
        if self.common_start + self.bss > END_LIMIT:
            raise Refused('does not fit')

    def symbol(self, external):
        """The symbol of an external in the table of the output."""
        name, segment, value = external.name, external.kind, external.value
        if segment != UNDEFINED:
            value = (self.start[segment] + value) % WORD
        elif name in self.commons:
            segment, value = BSS, self.common_start + self.commons[name]
        elif external.is_undefined and name in RESERVED and 'r' not in self.letters:
            segment = RESERVED[name]
            value = self.start[segment] + self.merged.sizes[segment]
        return Symbol(name, EXTERNAL + segment, value)

    def moves(self):
        """Each object, with how far each of its segments moves; absolute numbers do not."""
        for file, before in zip(self.merged.objects, self.merged.before):
            move = {segment: self.start[segment] + before[segment] - file.start(segment) for segment in SEGMENTS}
            yield file, {ABSOLUTE: 0, **move}

    def kept_locals(self):
        return [Symbol(symbol.name, symbol.type, (symbol.value + move[symbol.segment]) % WORD)
                for file, move in self.moves() for symbol in file.symbols
                if not symbol.type & EXTERNAL
                and not ('X' in self.letters and symbol.name.startswith(b'L'))]

    def linked_words(self, segment):
        """All words of text or of data, with their relocation words."""
        pairs = []
        for file, move in self.moves():
            for word, relocation in file.words[segment]:
                pc, kind = relocation & PC, relocation & KIND
                if kind == NAMED:
                    added, kind = self.named(file.symbols[relocation // NUMBER].name)
                else:
                    added = move[REFERS[kind]]
                pairs.append(((word + added - pc * move[segment]) % WORD, kind + pc))
        return pairs

    def named(self, name):
        """What is added to a word that refers to the name, and what it refers to from now on."""
        symbol = self.symbols[name]
        if symbol.kind != UNDEFINED:
            return symbol.value, 2 * (symbol.kind - ABSOLUTE)
        if 'r' in self.letters and self.numbers[name] > NUMBER_LIMIT:
            raise Refused('symbol number too large')
        return 0, NAMED + NUMBER * self.numbers[name]

    def reported(self):
        """The lines of the report."""
        externals, undefined = self.merged.externals, self.merged.undefined()
        multiples = self.merged.multiples + [name for name in RESERVED if name in externals and not externals[name].is_undefined]
        lines = [name + b': Multiply defined' for name in multiples]
        if self.entry is not None and not self.has_entry:
            lines.append(self.entry + b': Entry point not in text')
        if undefined and 'r' not in self.letters:
            lines += [b'Undefined:', *undefined]
        return lines


# Arguments and paths

@contextmanager
def refusing(text):
    """What fails inside is refused with the text."""
    try:
        yield
    except (OSError, ValueError, LookupError):
        raise Refused(text) from None


def load(path, read):
    """What the function reads from the bytes at the path."""
    try:
        with refusing(FAULTS['open']):
            os.close(os.open(path, os.O_RDONLY))
        with refusing(FAULTS['read']), open(path, 'rb') as file:
            contents = file.read()
        return read(contents)
    except Refused as refusal:
        raise Refused(f'{path}: {refusal}') from None


def add_object(merged, path):
    """Adds the object at the path."""
    load(path, lambda contents: merged.append(read_object(contents)))


def store(path, file, write_error=FAULTS['write']):
    with refusing(f"{path}: {FAULTS['create']}"):
        output = open(path, 'wb', buffering=0)
    with refusing(write_error), output:
        output.write(write_file(file))


@dataclass
class Arguments:
    letters: set
    values: dict                        # of each letter that has values
    paths: list
    entry: bytes = None                 # the name after -e
    forced: tuple = ()                  # the different names after -u


def read_arguments(given, letters, valued=''):
    arguments, given = Arguments(set(), {letter: [] for letter in valued}, []), list(given)
    while given:
        argument = given.pop(0)
        if argument == '--':
            arguments.paths += given
            break
        if not argument.startswith('-') or argument == '-':
            arguments.paths.append(argument)
            continue
        for after, letter in enumerate(argument[1:], 2):
            if letter in letters:
                arguments.letters.add(letter)
                continue
            rest, has_next = argument[after:], given and not given[0].startswith('-')
            if letter not in valued or not rest and not has_next:
                raise Refused('usage')
            arguments.values[letter].append(rest.removeprefix('=') if rest else given.pop(0))
            break
    return arguments


def link_arguments(given, valued):
    """The arguments of ld or of session."""
    arguments = read_arguments(given, 'dinrsxX', valued)
    letters, values = arguments.letters, arguments.values
    names = {letter: [name.encode()[:NAME_SIZE] for name in values[letter]] for letter in 'eu'}
    arguments.entry = names['e'][0] if names['e'] else None
    arguments.forced = tuple(dict.fromkeys(names['u']))
    if (len(arguments.forced) > FORCED_LIMIT or any(len(values.get(one, ())) > 1 for one in 'eo')
            or 'r' in letters and letters & set('sni') or {'n', 'i'} <= letters):
        raise Refused('usage')
    return arguments


# The tools. Each appends the lines that it writes to standard output, and returns the status

def ld(given, lines, _script):
    arguments = link_arguments(given, 'euo')
    if not arguments.paths:
        raise Refused('usage')
    for path in arguments.paths:        # all are opened before the first is read
        with refusing(f"{path}: {FAULTS['open']}"):
            os.close(os.open(path, os.O_RDONLY))
    merged = Merged([], arguments.forced)
    for path in arguments.paths:
        add_object(merged, path)
    link = Link(merged, arguments)
    store((arguments.values['o'] or ['a.out'])[0], link.file)
    lines += link.report
    return 1 if link.report else 0


def symbol_line(symbol):
    """A line of nm."""
    letters = {UNDEFINED: 'u', TEXT: 't', DATA: 'd', BSS: 'b', REGISTER: 'r', FILE_NAME: 'f'}
    letter = 'c' if symbol.value and symbol.kind == UNDEFINED else letters.get(symbol.kind, 'a')
    letter = letter.upper() if symbol.type & EXTERNAL else letter
    value = ' ' * 6 if symbol.is_undefined else '%06o' % symbol.value
    return f'{value} {letter} '.encode() + symbol.name


def nm(given, lines, _script):
    """All files are read before the first line is written; size and strip do the same."""
    arguments = read_arguments(given, 'gnopru')
    letters, paths = arguments.letters, arguments.paths or ['a.out']
    for path, file in zip(paths, [load(path, read_file) for path in paths]):
        symbols = [symbol for symbol in file.symbols
                   if ('g' not in letters or symbol.type & EXTERNAL)
                   and ('u' not in letters or symbol.is_undefined)]
        if 'p' not in letters:
            symbols.sort(key=lambda symbol: (symbol.value if 'n' in letters else 0, symbol.name))
            if 'r' in letters:
                symbols.reverse()
        prefix = path.encode() + b':'
        if len(paths) > 1 and 'o' not in letters:
            lines.append(prefix)
        lines += [(prefix if 'o' in letters else b'') + symbol_line(symbol) for symbol in symbols]
    return 0


def size(given, lines, _script):
    paths = read_arguments(given, '').paths or ['a.out']
    for path, file in zip(paths, [load(path, read_file) for path in paths]):
        text, data, bss = (file.size(segment) for segment in SEGMENTS)
        total = text + data + bss
        prefix = f'{path}: ' if len(paths) > 1 else ''
        lines.append(f'{prefix}{text}+{data}+{bss} = {total}b = 0{total:o}b'.encode())
    return 0


def strip(given, _lines, _script):
    paths = read_arguments(given, '').paths
    if not paths:
        raise Refused('usage')
    for path, file in zip(paths, [load(path, read_file) for path in paths]):
        store(path, replace(file, symbols=[], flag=1))
    return 0


class Session:
    """The commands of a session. Each returns the lines of its answer."""

    def __init__(self, arguments):
        self.arguments, self.paths, self.status = arguments, [], 0
        self.states = [Merged([], arguments.forced)]

    def answer(self, line):
        try:
            with refusing('bad command'):
                words = line.decode().split(' ', 1)
                command = self.COMMANDS[words[0], len(words) if all(words) else None]
            return command(self, *words[1:])
        except Refused as refusal:
            self.status = 1
            return [str(refusal).encode()]

    def add(self, path):
        merged = Merged(self.states[-1].objects, self.arguments.forced)
        add_object(merged, path)
        self.states.append(merged)
        self.paths.append(path)
        return [f'added {path}'.encode()]

    def withdraw(self):
        if not self.paths:
            raise Refused('nothing to withdraw')
        self.states.pop()
        return [f'withdrew {self.paths.pop()}'.encode()]

    def externals(self):
        return [symbol_line(symbol) for symbol in self.states[-1].externals.values()]

    def undefined(self):
        return self.states[-1].undefined()

    def link(self, path):
        link = Link(self.states[-1], self.arguments)
        store(path, link.file, f"{path}: {FAULTS['write']}")
        status = 1 if link.report else 0
        self.status |= status
        return link.report + [f'linked {path} {status}'.encode()]

    COMMANDS = {('add', 2): add, ('withdraw', 1): withdraw, ('externals', 1): externals, ('undefined', 1): undefined, ('link', 2): link}


def session(given, lines, script):
    arguments = link_arguments(given, 'eu')
    if arguments.paths:
        raise Refused('usage')
    state = Session(arguments)
    for number, line in enumerate(script):
        if number == LINES_LIMIT:
            raise Refused('too many lines')
        command = line.removesuffix(b'\n')
        if len(command) > LINE_LIMIT:
            raise Refused('line too long')
        lines += state.answer(command)
    return state.status


TOOLS = {'ld': ld, 'nm': nm, 'size': size, 'strip': strip, 'session': session}


def run(given, script):
    """The status, standard output and standard error of a command; `script` is its input."""
    lines, error = [], b''
    try:
        with refusing('usage'):
            words = [os.fsencode(argument).decode() for argument in given]
            tool = TOOLS[words[0]]
        status = tool(words[1:], lines, script)
    except Refused as refusal:
        status, error = 2, f'v7: {refusal}\n'.encode()
    return status, b''.join(line + b'\n' for line in lines), error


if __name__ == '__main__':
    exit_status, answers, fault = run(sys.argv[1:], sys.stdin.buffer)
    sys.stdout.buffer.write(answers)
    sys.stderr.buffer.write(fault)
    sys.exit(exit_status)
