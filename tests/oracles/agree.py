"""Compares v7, and libv7, with the second linker, tests/oracles/model.py, on random files.

usage: python3 -m tests.oracles.agree [KIND NUMBER]       all cases, or one, as `link 17`, which leaves its files in build/differs
       python3 -m tests.oracles.agree -l LINKS SESSIONS
tier: check, 60 seconds; programs: v7;
 for: crates/aout_core crates/link_session crates/link_out crates/symtools crates/command_words crates/v7tools docs/LINK.md
tier: check, 20 seconds; programs: libv7.so; words: -l 500 1000; for: crates/libv7

A case is some files and some commands, which both run in a folder of their own. After each command the status, standard output,
standard error and every byte of every file are compared. The number of a case gives its files and commands, so each run is the same.

With -l it compares what libv7 gives. For a link that is the status, every byte of the file, and the report as lines, as a list, and as a
list with objects, or the fault, its object and its word. For a session it is also what each edit gives and the names that are shown.
map.py compares maps.
"""
import io
import itertools
import multiprocessing
import os
import random
import re
import shlex
import shutil
import struct
import sys
from collections import Counter
from dataclasses import dataclass
from unittest import mock

from tests.lib.compare import Differs, notices, same
from tests.lib.files import TOP, new_folder, read_bytes, write
from tests.lib.objects import pack
from tests.lib.programs import FAULTS, program, ran
from tests.lib.programs import v7 as library
from tests.oracles import model

RESERVED = [b'_etext', b'_edata', b'_end']
NAMES = RESERVED + [b'_main', b'_a', b'_b', b'_c', b'_d', b'_longname', b'_longname2', b'L1',
                    b'Lx', b'L', b'l1', b'a', b'x.o', b'', b'_a b', b'\xff_a', b'_\x01']
MENTION, ABSOLUTE, TEXT, DATA, BSS, EXTERNAL = 0, 1, 2, 3, 4, 0o40
KINDS = (0, 0, 0, 2, 4, 6)
NUMBERS = (0, 1, 2, 5, 0o20000, 0o77776, 0o100000, 0o177776, 0o177777)

COUNTS = {'link': 2000, 'session': 500, 'damaged': 500}
# What has to occur at least once in a whole run
LOADS = [FAULTS['open'], FAULTS['read'], 'short header', 'bad magic number', 'odd size', 'truncated']
OBJECTS = ['not an object', 'no relocation', 'bad relocation at word N', 'bad symbol number at word N']
LIMITS = ['text full', 'data full', 'bss full', 'does not fit', 'too many symbols', 'symbol number too large']
REPORTS = ['Multiply defined', 'Entry point not in text', 'Undefined:']
ANSWERS = ['added', 'withdrew', 'linked 0', 'linked 1', 'bad command', 'nothing to withdraw',
           FAULTS['create'], FAULTS['write'], 'line too long', 'usage']
EXPECTED = {
    'link': [*REPORTS, *LOADS, *OBJECTS, *LIMITS, 'usage', FAULTS['create'], FAULTS['write']],
    'session': [*ANSWERS, *REPORTS, *LOADS, *OBJECTS, *LIMITS],
    'damaged': [*LOADS[2:], *OBJECTS],
}


@dataclass
class Case:
    files: dict                         # bytes by path; None for a folder
    commands: list                      # pairs of arguments and standard input


# Objects

def symbol_of(rng, names, starts):
    """A random symbol of an object whose text, data, bss and end are at the starts."""
    name = rng.choice(names)
    kind = rng.choices([MENTION, ABSOLUTE, TEXT, DATA, BSS, 0o24, 0o37, rng.randrange(32)], [8, 2, 4, 3, 2, 1, 1, 1])[0]
    if kind == MENTION:
        value = rng.choice([0, 0, 0, 1, 2, 3, 4, 10, rng.randrange(200)])
    elif kind in (TEXT, DATA, BSS):
        begin, end = starts[kind - TEXT], starts[kind - TEXT + 1]
        value = rng.choice([begin, begin, end, rng.randint(begin, end), rng.choice(NUMBERS)])
    else:
        value = rng.choice(NUMBERS)
    external = EXTERNAL if rng.random() < 0.65 else 0
    high = rng.choice([0o100, 0o1000, 0o100000]) if rng.random() < 0.05 else 0
    if rng.random() < 0.05:
        name = name[:7] + b'\0' + b'junk'[:max(0, 7 - len(name))]
    return name, kind | external | high, value


def word_of(rng, named):
    """A random word and its relocation word; `named` are the numbers that it may name."""
    word = rng.choice([rng.choice(NUMBERS), rng.randrange(0x10000)])
    pc = rng.random() < 0.35
    if named and rng.random() < 0.4:
        return word, rng.choice(named) * 16 + 0o10 + pc
    high = rng.randrange(0x1000) * 16 if rng.random() < 0.1 else 0
    return word, high + rng.choice(KINDS) + pc


def object_of(rng, names, **header):
    """A random object that is whole."""
    counts = [rng.choice([0, 1, 2, 3, rng.randrange(12)]) for _ in range(2)]
    bss = 2 * rng.choice([0, 0, 1, 2, rng.randrange(20)])
    starts = [0, 2 * counts[0], 2 * sum(counts), 2 * sum(counts) + bss]
    symbols = [symbol_of(rng, names, starts) for _ in range(rng.choice([0, 1, 2, 4, 6, 9]))]
    named = [number for number, symbol in enumerate(symbols) if symbol[1] & 0o77 == EXTERNAL]
    text, data = ([word_of(rng, named) for _ in range(count)] for count in counts)
    if rng.random() < 0.1:
        header = {'entry': rng.choice(NUMBERS), 'unused': rng.choice(NUMBERS), **header}
    tail = b'more' if rng.random() < 0.1 else b''
    return pack(text, data, bss, symbols, tail=tail, **header)


def program_of(rng, names):
    """A file that is whole, and perhaps no object."""
    return object_of(rng, names, magic=rng.choice([0o405, 0o407, 0o407, 0o410, 0o411]), flag=rng.choice([0, 0, 1, 1, 2, 0o177777]))


def bad_object_of(rng, names):
    """An object with a bad relocation word."""
    symbols = [symbol_of(rng, names, [0, 4, 6, 8]) for _ in range(rng.randrange(4))]
    pairs = [word_of(rng, []) for _ in range(3)]
    bad = rng.choice([0o12, 0o14, 0o16, 0o10 + 16 * rng.randrange(5), 0o10 + 16 * len(symbols)])
    pairs[rng.randrange(3)] = (0, bad + rng.randrange(2))
    if rng.random() < 0.3:
        pairs[rng.randrange(3)] = (0, rng.choice([0o12, 0o10 + 16 * rng.randrange(100)]))
    return pack(pairs[:2], pairs[2:], 2, symbols)


def damage(rng, contents):
    """Cut, or with other bytes, or with another word in its header."""
    contents = bytearray(contents)
    if len(contents) < 16:
        return bytes(contents)
    way = rng.choice(['cut', 'bytes', 'header', 'header', 'relocation', 'none'])
    if way == 'cut':
        ends = [16, len(contents) - 1, len(contents) - 2, len(contents) - 12]
        del contents[max(0, rng.choice([rng.randrange(17), rng.randrange(len(contents) + 1), rng.choice(ends)])):]
    elif way == 'bytes':
        for _ in range(rng.randint(1, 3)):
            contents[rng.choice([rng.randrange(16), rng.randrange(len(contents))])] = (rng.choice([0, 1, 7, 8, 255, rng.randrange(256)]))
    elif way == 'header':
        old = struct.unpack_from('<8H', contents)
        place = rng.choice([0, 1, 2, 3, 4, 0, 4, rng.randrange(8)])
        new = rng.choice([0, 1, 2, 12, old[place] + 1, old[place] + 2, old[place] - 2,
                          old[place] + 12, old[place] - 12, 0o405, 0o407, 0o410, 0o411, 0o177545,
                          0xffff, 0xfffe])
        struct.pack_into('<H', contents, 2 * place, new % 0x10000)
    elif way == 'relocation' and len(contents) > 20:
        _, text, data = struct.unpack_from('<3H', contents)
        place = 16 + text + data + 2 * rng.randrange(max(1, (text + data) // 2))
        if place + 2 <= len(contents):
            new = rng.choice([rng.randrange(16), 0o10 + 16 * rng.randrange(10), 0o12, 0xffff])
            struct.pack_into('<H', contents, place, new)
    return bytes(contents)


# Arguments

def link_options(rng, names):
    """Options of ld and session, as lists of arguments that may come in any order."""
    letters = rng.choice(['', '', 'r', 'r', 'rd', 'n', 'i', 's'])
    letters += rng.choice(['', '', 'x', 'X', 'xX', 'X']) + rng.choice(['', '', '', 'd'])
    if 'r' not in letters and rng.random() < 0.1:
        letters += 's'
    options = [['-' + letters]] if letters else []
    if letters and rng.random() < 0.5:
        options = [['-' + letter] for letter in letters]
    plain = [name for name in names if b'\xff' not in name and not name.startswith(b'-')]
    plain += [b'_missing', '_\xe9\xe9\xe9\xe9'.encode(), b'=']
    if rng.random() < 0.35:
        options.append(valued(rng, 'e', rng.choice(plain + [b'_etext', b'_main'])))
    for _ in range(rng.choice([0, 0, 0, 1, 1, 2, 3])):
        options.append(valued(rng, 'u', rng.choice(plain + RESERVED)))
    if rng.random() < 0.03:
        count, form = rng.choice([63, 64, 65, 66]), rng.choice([b'_f%d', b'_f%d', b'_forced%d'])
        options += [valued(rng, 'u', form % number) for number in range(count)]
    if rng.random() < 0.02:
        wrong = [['-z'], ['-u'], ['-e', '-s'], ['-rn'], ['-rs'], ['-ni'], ['-ri'], ['-l'], ['--x'],
                 ['-s='], ['-e='], ['-ea', '-ea'], ['-oother'], [b'-u\xff']]
        options.append(rng.choice(wrong))
    return options


def valued(rng, letter, value):
    """An option with a value, in one of its forms."""
    option = b'-' + letter.encode()
    form = rng.randrange(4)
    if not value or value.startswith(b'='):
        form = 2
    if form == 0:
        return [option + value]
    return [option + b'=' + value] if form == 1 else [option, value]


def arguments_of(rng, options, paths):
    """Options and paths, mixed; the paths stay in order."""
    words = [list(option) for option in options]
    rng.shuffle(words)
    if rng.random() < 0.2:
        ended = ['--'] if rng.random() < 0.5 else []
        return [word for option in words for word in option] + ended + paths
    places = sorted(rng.randint(0, len(words)) for _ in paths)
    for place, path in reversed(list(zip(places, paths))):
        words.insert(place, [path])
    return [word for option in words for word in option]


def nm_options(rng):
    return ['-' + letter for letter in 'gnopru' if rng.random() < 0.25]


# Cases

def link_case(rng, number):
    if number % 8 == 0:
        return limit_case(rng, number // 8)
    names = rng.sample(NAMES, rng.choice([2, 3, 5, 8]))
    files = {f'{place}.o': object_of(rng, names) for place in range(rng.choice([1, 2, 2, 3, 3, 4, 5]))}
    paths = list(files)
    if rng.random() < 0.1:
        paths.append(rng.choice(paths))
    if rng.random() < 0.15:
        files.update(bad=bad_file_of(rng, names), folder=None)
        for _ in range(rng.choice([1, 1, 2])):
            bad = rng.choice(['bad', 'bad', 'bad', 'missing', 'folder'])
            paths.insert(rng.randint(0, len(paths)), bad)
    options = link_options(rng, names)
    output = rng.choices(['out', 'a.out', 'nowhere/out', rng.choice(list(files)), '', '/dev/full'], [80, 10, 2, 6, 1, 1])[0]
    if output != 'a.out':
        options.append(valued(rng, 'o', output.encode()))
    linked = output if output != '/dev/full' else 'out'
    listed = rng.choice([[linked], paths])
    commands = [['ld', *arguments_of(rng, options, paths)],
                ['nm', *arguments_of(rng, [[option] for option in nm_options(rng)], listed)],
                ['size', *rng.choice([listed, listed if linked != 'a.out' else []])]]
    if rng.random() < 0.5:
        commands.append(['ld', *arguments_of(rng, link_options(rng, names), [linked, *paths[:1]])])
    if rng.random() < 0.3:
        commands += [['strip', *listed], ['size', linked]]
    return Case(files, [(command, b'') for command in commands])


def bad_file_of(rng, names):
    """A file that is often no object."""
    return rng.choice([bad_object_of, program_of, lambda *given: damage(rng, object_of(*given))])(rng, names)


def zeros(size):
    return [(0, 0)] * (size // 2)


def many(prefix, count, kind=EXTERNAL, value=0):
    return [(prefix + b'%d' % number, kind, value) for number in range(count)]


def near(rng, number):
    """An even number near this one, within one word."""
    return min(0xfffe, max(0, number + rng.choice([-2, 0, 0, 2])))


def limit_case(rng, number):
    """Objects that come near a limit, or pass one or two."""
    objects, options = [full_case, fit_case, fit_case, symbols_case, numbers_case][number % 5](rng)
    files = {f'{place}.o': contents for place, contents in enumerate(objects)}
    if rng.random() < 0.15:
        files[f'{len(files)}.o'] = rng.choice([b'short', bad_file_of(rng, NAMES)])
    return Case(files, [(['ld', *options, '-o', 'out', *files], b''), (['size', 'out'], b'')])


def full_case(rng):
    """Segments of two or three objects that together come near 65,534 bytes."""
    sizes = {'text': [0, 0, 0], 'data': [0, 0, 0], 'bss': [0, 0, 0]}
    for name in rng.sample(list(sizes), rng.choice([1, 1, 2, 3])):
        first = 2 * rng.randrange(0x8000)
        sizes[name] = [first, near(rng, 0xfffe - first), rng.choice([0, 0, 2])]
        rng.shuffle(sizes[name])
    objects = [pack(zeros(text), zeros(data), bss) for text, data, bss in zip(*sizes.values())]
    return objects, rng.choice([[], ['-i'], ['-i'], ['-n'], ['-r']])


def fit_case(rng):
    """A program that ends near 65,536; some have too many symbols too."""
    option = rng.choice(['-n', '-i', '-r', '-rd', '-s', '-X'])
    text = rng.choice([0, 2, 0o20000, 0o20002, 0o17776, 0o160000, 0o157776, 0o160002, 2 * rng.randrange(0x4000)])
    start = {'-n': (text + 0o17777) // 0o20000 * 0o20000, '-i': 0}.get(option, text)
    common = rng.choice([0, 0, 1, 2, 3, 2 * rng.randrange(0x1000) + 1, 0xffff])
    common_size = 0 if option == '-r' else (common + 1) // 2 * 2
    data = 2 * rng.randrange(max(1, 0x10000 - start - common_size) // 2 + 1) % 0x8000
    bss = near(rng, max(0, 0xfffe - start - common_size - data))
    symbols = [(b'_c', EXTERNAL, common), (b'_t', EXTERNAL | TEXT, 0), (b'_d', EXTERNAL | DATA, text)]
    more = []
    if rng.random() < 0.15:
        more = many(b'L', 5461 - len(symbols) + rng.randrange(2), kind=ABSOLUTE)
    words = [(0, 0o10)] + zeros(data)[1:] if data else []
    return [pack(zeros(text), words, bss, symbols), pack(symbols=more)], [option]


def symbols_case(rng):
    """A table of nearly 5,461 symbols; with -r a word may name one whose number is too large."""
    local, hidden = rng.randrange(2000), rng.randrange(2000)
    external = 5461 - local - hidden + rng.choice([-1, 0, 0, 1, 1, 2, hidden, local + hidden])
    symbols = many(b'l', local, ABSOLUTE) + many(b'_', external)
    first, second = symbols[:4500], symbols[4500:] + many(b'L', hidden, ABSOLUTE)
    named = [number for number, symbol in enumerate(first[:4096]) if symbol[1] == EXTERNAL]
    words = [(0, 0o10 + 16 * rng.choice([named[0], named[-1]]))] * rng.randrange(2)
    options = ['-r', '-r', '-rX', '-X', '-x', '-s', '-rx', '-n']
    return [pack([], words, 0, first), pack(symbols=second)], [rng.choice(options)]


def numbers_case(rng):
    """With -r, words that refer to symbols with numbers near 4,095."""
    local = rng.choice([0, 1, 2, 100, 3000])
    first = many(b'L', local, ABSOLUTE) + many(b'_', 4095 - local + rng.choice([-1, 0, 1]))
    second = [(b'_x', EXTERNAL, 0), (b'_y', EXTERNAL, rng.choice([0, 3])), (b'_z', EXTERNAL, 0)]
    words = [word_of(rng, [0, 1, 2]) for _ in range(rng.randrange(3))]
    third = [(b'_y', EXTERNAL | DATA, 0)] if rng.random() < 0.3 else []
    objects = [pack(symbols=first), pack(words[:1], words[1:], 0, second), pack(symbols=third)]
    return objects, [rng.choice(['-r', '-r', '-rd', '-rx', '-rX'])]


def session_case(rng, _number):
    names = rng.sample(NAMES, rng.choice([3, 5, 8]))
    files = {f'{place}.o': object_of(rng, names) for place in range(rng.randint(2, 6))}
    good = list(files)
    files.update(bad=bad_file_of(rng, names), worse=bad_file_of(rng, names), folder=None)
    if rng.random() < 0.25:
        for place, name in enumerate(['big', 'large']):
            files[name] = large_object(rng, place)
            good.append(name)
    options = link_options(rng, names)
    lines = [session_line(rng, good) for _ in range(rng.choice([1, 5, 10, 20, 40]))]
    if rng.random() < 0.02:
        lines.insert(rng.randrange(len(lines)), b'add ' + b'x' * rng.choice([4092, 4093]))
    script = b'\n'.join(lines) + rng.choice([b'\n', b'\n', b'\n', b''])
    paths = ['1.o'] if rng.random() < 0.01 else []
    return Case(files, [(['session', *arguments_of(rng, options, paths)], script)])


def large_object(rng, place):
    """An object that nearly fills a segment, or a table."""
    way = rng.choice([0, 1, 2, 3, 3, 3, 4, 4])
    size = rng.choice([65534, 65532])
    if way < 3:
        return [pack(zeros(size)), pack(data=zeros(size)), pack(bss=size)][way]
    if way == 3:
        return pack([(0, 0o10 + 16 * 4095)], symbols=many(b'_%d' % place, 4096))
    return pack(bss=2, symbols=many(b'_%d' % place, 5461, rng.choice([EXTERNAL, ABSOLUTE])))


def session_line(rng, good):
    way = rng.choices(['add', 'withdraw', 'externals', 'undefined', 'link', 'refused', 'bad'], [10, 4, 2, 2, 4, 2, 1])[0]
    if way == 'add':
        return b'add ' + rng.choice(good).encode()
    if way == 'link':
        return b'link ' + rng.choices([b'out', b'other', rng.choice(good).encode()], [8, 4, 1])[0]
    if way == 'refused':
        return rng.choice([b'add bad', b'add bad', b'add worse', b'add missing', b'add folder',
                           b'link nowhere/out', b'link folder', b'link /dev/full', b'add ',
                           b'link ', b'add  0.o'])
    if way == 'bad':
        return rng.choice([b'', b' ', b'add', b'link', b'withdraw ', b'withdraw\r', b'Externals',
                           b'undefined x', b'add\t0.o', b'\xff', b'add \xff', b'# a', b'quit',
                           b'add 0.o\r', b'adds 0.o', b'add a\0b', b'link a\0b'])
    return way.encode()


def damaged_case(rng, number):
    names = rng.sample(NAMES, rng.choice([3, 6]))
    base = object_of(rng, names) if number % 2 else program_of(rng, names)
    files = {'d.o': damage(rng, base), 'good.o': object_of(rng, names)}
    if rng.random() < 0.5:
        files['d.o'] = damage(rng, files['d.o'])
    paths = rng.choice([['d.o'], ['d.o', 'good.o'], ['good.o', 'd.o']])
    option = rng.choice([[], ['-r'], ['-s'], ['-n'], ['-i'], ['-x']])
    commands = [['ld', *option, '-o', 'out', *paths], ['nm', *nm_options(rng), *paths],
                ['size', *paths], ['strip', *paths], ['nm', '-p', *paths], ['size', *paths]]
    script = b'add good.o\nadd d.o\nexternals\nundefined\nlink linked\n'
    return Case(files, [(['session', *option], script)] + [(command, b'') for command in commands])


CASES = {'link': link_case, 'session': session_case, 'damaged': damaged_case}


def case_of(kind, number):
    return CASES[kind](random.Random(f'{kind} {number}'), number)


# Comparison

def texts_of(tool, output, error):
    """The texts of EXPECTED that a command wrote."""
    for line in (error + (output if tool in ('ld', 'session') else b'')).splitlines():
        line = re.sub(r'word \d+$', 'word N', line.decode(errors='replace'))
        answer = re.match(r'(added|withdrew|linked) .*?( [01])?$', line)
        if answer:
            yield answer[1] + (answer[2] or '' if answer[1] == 'linked' else '')
        else:
            yield line.rpartition(': ')[2]


def contents(folder):
    return {name: read_bytes(f'{folder}/{name}') if os.path.isfile(f'{folder}/{name}') else None for name in sorted(os.listdir(folder))}


def compare(case, top):
    """Plays a case by v7 and by the model, each in its folder below this one. The texts of EXPECTED that come."""
    folders, texts = (f'{top}/v7', f'{top}/model'), set()
    for folder in folders:
        os.makedirs(folder)
        for name, data in case.files.items():
            os.mkdir(f'{folder}/{name}') if data is None else write(f'{folder}/{name}', data)
    for words, script in case.commands:
        done = ran(program('v7'), *words, given=script, seconds=100, cwd=folders[0])
        os.chdir(folders[1])
        status, out, err = model.run(words, io.BytesIO(script))
        what = shlex.join(map(os.fsdecode, words))
        same(f'{what}: status and errors', (done.status, done.err), (status, err))
        same(f'{what}: output', done.out.split(b'\n'), out.split(b'\n'))
        files, wanted = map(contents, folders)
        same(f'{what}: files', [*files], [*wanted])
        for name, data in files.items():
            same(f'{what}: {name}', data, wanted[name])
        texts.update(texts_of(words[0], done.out, done.err))
    return texts


def planted():
    """The model writes what v7 does not write."""
    with new_folder() as folder, mock.patch.object(model, 'run', lambda words, script: (2, b'planted', b'v7: usage\n')):
        compare(Case({}, [([], b'')]), folder)


def work(job):
    """The texts of a case, or what differs."""
    with new_folder() as folder:
        try:
            return job, compare(case_of(*job), folder), None
        except Differs as difference:
            return job, set(), difference


# libv7

def request_of(rng, names):
    """Options that may be given together, a name of the entry point or none, and forced names."""
    letters = set(rng.choice(["", "", "r", "rd", "n", "i", "s"]) + rng.choice(["", "x", "X", "xX"]) + rng.choice(["", "", "d"]))
    entry = rng.choice(names) or b"_" if rng.random() < 0.3 else None
    forced = tuple(dict.fromkeys(rng.choice(names)[:8] for _ in range(rng.choice([0, 0, 1, 3]))))
    return model.Arguments(letters, {}, [], entry and entry[:8], forced)


def list_of(rng, names, is_damaged):
    objects = [object_of(rng, names) for _ in range(rng.choice([0, 1, 2, 3, 5]))]
    if rng.random() < 0.05:
        objects.insert(rng.randint(0, len(objects)), pack([(0, 0)] * 32767, bss=rng.choice([0, 65534])))
    if is_damaged and objects:
        place = rng.randrange(len(objects))
        objects[place] = damage(rng, rng.choice([objects[place], bad_object_of(rng, names)]))
    return objects


def text(data):
    return data.decode("latin-1")


def placed(merged, link):
    """The findings of a link with their objects, by the model."""
    mentions, definitions, externals = {}, {}, merged.externals
    for place, file in enumerate(merged.objects):
        for symbol in file.symbols:
            if symbol.type & model.EXTERNAL:
                mentions.setdefault(symbol.name, place)
                if symbol.kind != model.UNDEFINED:
                    definitions.setdefault(symbol.name, place)
    rows = [(name, library.MULTIPLY_DEFINED, place) for name, place in zip(merged.multiples, merged.further)]
    rows += [(name, library.RESERVED_NAME, None) for name in model.RESERVED if name in externals and not externals[name].is_undefined]
    rows += [] if link.entry is None or link.has_entry else [(link.entry, library.ENTRY_NOT_IN_TEXT, None)]
    rows += [] if "r" in link.letters else [(name, library.UNDEFINED_NAME, None) for name in merged.undefined()]
    return [library.Finding(text(name), kind, definitions.get(name, mentions.get(name)), further) for name, kind, further in rows]


def merged_of(objects, forced):
    """Objects as the model merges them; or why one is refused, and its number."""
    merged = model.Merged([], forced)
    for place, data in enumerate(objects):
        try:
            merged.append(model.read_object(data))
        except model.Refused as refused:
            return None, (str(refused), place)
    return merged, None


def by_model(merged, arguments):
    """What the calls of `by_library` have to give for a link."""
    try:
        link = model.Link(merged, arguments)
    except model.Refused as refused:
        return [(str(refused), 0)] * 3
    lines = 1 if link.report else 0, model.write_file(link.file), text(b"".join(line + b"\n" for line in link.report))
    return [lines, lines, placed(merged, link)]


def fault_of(fault):
    """The text of a fault as the model has it, and the number of the object."""
    where = f" at word {fault.word}" if fault.fault in (23, 24) else ""
    return library.FAULTS[fault.fault] + where, fault.place


def asked_of(arguments):
    return {"entry": text(arguments.entry or b""), "forced": [text(name) for name in arguments.forced]}


def options_of(arguments):
    bits = dict(zip("rsxXnid", (library.RELOCATABLE, library.STRIP, library.EXTERNALS, library.NOT_L, library.PURE, library.SPLIT,
                                library.FORCE_COMMONS)))
    return sum(bits[letter] for letter in arguments.letters)


def found_lines(found):
    """The same of a link whose report is names: the status, the file, and the report's lines."""
    multiples, reserved, entry, undefined = found.findings
    lines = [f"{name}: Multiply defined" for name in multiples + reserved] + [f"{entry}: Entry point not in text"] * (entry is not None)
    return found.status, found.file, "".join(line + "\n" for line in lines + ["Undefined:"] * bool(undefined) + undefined)


def each_call(*calls):
    """What each call gives, or its fault."""
    given = []
    for call in calls:
        try:
            given.append(call())
        except library.Fault as fault:
            given.append(fault_of(fault))
    return given


def by_library(by, *given, **asked):
    """What the library, or a session of it, gives for a link by three calls: the status, the file and the report's lines; the same, made of
    the names of the report; and these names with their objects."""
    return each_call(
        lambda: by.link(*given, **asked),
        lambda: found_lines(by.link_findings(*given, **asked)),
        lambda: by.link_places(*given, **asked),
    )


def given_of(kind, number):
    """The chance, the names, the options and the objects of a case; in half of these, objects are damaged."""
    rng = random.Random(f"{kind} {number}")
    names = rng.sample(NAMES, rng.choice([2, 3, 5, 8]))
    return rng, names, request_of(rng, names), list_of(rng, names, number % 2 == 1)


def library_link(number):
    """What model and library give for a link."""
    _, _, arguments, objects = given_of("link", number)
    merged, refused = merged_of(objects, arguments.forced)
    expected = [refused] * 3 if refused else by_model(merged, arguments)
    return expected, by_library(library, objects, options_of(arguments), **asked_of(arguments))


def model_edit(states, forced, edit):
    """What the model gives for an edit of a session, which has a list of objects for each state: nothing, or why it is not made."""
    if edit is None:
        if len(states) == 1:
            return "nothing to withdraw"
        states.pop()
        return None
    _, refused = merged_of([*states[-1], edit], forced)
    if not refused:
        states.append([*states[-1], edit])
    return refused and refused[0]


def library_session(number):
    """What model and library give for a session: the edits, the externals, and the link."""
    rng, names, arguments, objects = given_of("session", number)
    objects = objects or [object_of(rng, names)]
    edits = [rng.choice([None, *objects]) for _ in range(rng.randrange(12))]
    states, session = [[]], library.Session(**asked_of(arguments))
    given = [each_call(session.withdraw if edit is None else lambda: session.add(edit))[0] for edit in edits]
    ours = [fault and fault[0] for fault in given]
    theirs = [model_edit(states, arguments.forced, edit) for edit in edits]
    merged, _ = merged_of(states[-1], arguments.forced)
    shown = [external["name"] for external in session.state()["externals"]]
    return ((theirs, [text(name) for name in merged.externals], by_model(merged, arguments)),
            (ours, shown, by_library(session, options_of(arguments))))


def compare_calls(case, number, change=lambda came: came):
    """Compares a case of libv7, in which what came is changed for a trial."""
    expected, came = case(number)
    same(f"{case.__name__} {number}", change(came), expected)


def by_calls(links, sessions):
    """Compares libv7. Another place of a finding is noticed, and another external of a session."""
    found = next(number for number in itertools.count() if isinstance(library_link(number)[1][2], list) and library_link(number)[1][2])
    notices(compare_calls, library_link, found, lambda came: [*came[:2], [came[2][0]._replace(first=-1), *came[2][1:]]])
    notices(compare_calls, library_session, 0, lambda came: (came[0], [*came[1], "planted"], came[2]))
    for case, count in ((library_link, links), (library_session, sessions)):
        for number in range(count):
            compare_calls(case, number)
    print(f"libv7: {links} links and {sessions} sessions as the model")


def main():
    if sys.argv[1:2] == ['-l']:
        return by_calls(*map(int, sys.argv[2:]))
    if len(sys.argv) == 3:
        shutil.rmtree('build/differs', ignore_errors=True)
        return print(*compare(case_of(sys.argv[1], int(sys.argv[2])), f'{TOP}/build/differs'), sep='\n')
    notices(planted)
    seen = {kind: Counter() for kind in COUNTS}
    jobs = [(kind, number) for kind, count in COUNTS.items() for number in range(count)]
    jobs.sort(key=lambda job: job[1] / COUNTS[job[0]])        # the kinds take turns
    with multiprocessing.Pool() as pool:
        for (kind, number), texts, difference in pool.imap(work, jobs, chunksize=4):
            if difference:
                again = f'python3 -m tests.oracles.agree {kind} {number}'
                sys.exit(f'{kind} {number} differs: {again} leaves its files in build/differs\n{difference}')
            seen[kind].update(texts)
    for kind, count in COUNTS.items():
        print(f'{count} {kind} cases agree:', ', '.join(f'{text} {seen[kind][text]}' for text in EXPECTED[kind]))
    missing = [f'{kind}: {text}' for kind in COUNTS for text in EXPECTED[kind] if not seen[kind][text]]
    if missing:
        sys.exit(f'never seen: {", ".join(missing)}')
    return None


if __name__ == '__main__':
    sys.exit(main())
