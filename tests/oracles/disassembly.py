"""Compares what `v7-explain -d`, `-p` and listings show of instructions with what this script computes from v7-explain(1).

tier: check, 60 seconds; programs: v7-explain; for: crates/instructions crates/disassemblies docs/OBJECTS.md

Each of the 65,536 words is the first word of a line four times, each time with two other words after it: 262,144 lines. Then 400 made
files are compared, objects and linked ones, with names, labels, relocated words, remarks and strings, and the text of their listings.
The table of instructions and the rules of names are written here anew. If GNU's assembler for the PDP-11 is installed, it assembles the
text back to the same words, the floating instructions aside.
"""
import functools
import os
import random
import re
import shutil
import struct
import subprocess
import sys
import tempfile

from tests.lib.compare import notices, same
from tests.lib.files import read_bytes, write
from tests.lib.objects import pack, unpack
from tests.lib.programs import program, ran

FOUR_PAIRS = [(0o000005, 0o177774), (0o177777, 0o000000), (0o100000, 0o077776), (0o012345, 0o165432)]
NOP = 0o000240
REGISTERS = "r0 r1 r2 r3 r4 r5 sp pc".split()

# operands, then names: an asterisk is for the letter b of the instruction on bytes, at 0100000 more. Those that clear and set condition
# codes follow from their bits
TABLE = """
-   000000 halt 000001 wait 000002 rti 000003 bpt 000004 iot 000005 reset 000006 rtt 000240 nop 000257 ccc 000260 sec&sev 000277 scc
-   170000 cfcc 170001 setf 170002 seti 170011 setd 170012 setl
D   000100 jmp 000300 swab 005000 clr* 005100 com* 005200 inc* 005300 dec* 005400 neg* 005500 adc* 005600 sbc* 005700 tst*
D   006000 ror* 006100 rol* 006200 asr* 006300 asl* 006700 sxt 006500 mfpi 006600 mtpi 106500 mfpd 106600 mtpd
D   170100 ldfps 170200 stfps 170300 stst
SD  010000 mov* 020000 cmp* 030000 bit* 040000 bic* 050000 bis* 060000 add 160000 sub
RD  004000 jsr 074000 xor
DR  070000 mul 071000 div 072000 ash 073000 ashc
L   000200 rts
B   000400 br 001000 bne 001400 beq 002000 bge 002400 blt 003000 bgt 003400 ble 100000 bpl 100400 bmi 101000 bhi
B   101400 blos 102000 bvc 102400 bvs 103000 bcc 103400 bcs
RO  077000 sob
X   104400 sys 104000 emt
M   006400 mark
P   000230 spl
F   170400 clrf 170500 tstf 170600 absf 170700 negf
FA  171000 mulf 171400 modf 172000 addf 172400 movf 173000 subf 173400 cmpf 174400 divf 177400 movof
AF  174000 movf 176000 movfo
AD  175000 movei 175400 movfi
DA  176400 movie 177000 movif
-   000007 mfpt
D   007000 csm 007200 tstset 007300 wrtlck 106400 mtps 106700 mfps
L   075000 fadd 075010 fsub 075020 fmul 075030 fdiv 076020 l2dr 076060 l3dr
"""
# the commercial set, from each number on. Those of 0100 more, named with an i, have their operands in words after them
COMMERCIAL = """
030 movc movrc movtc
040 locc skpc scanc spanc cmpc matc
050 addn subn cmpn cvtnl cvtpn cvtnp ashn cvtln
070 addp subp cmpp cvtpl mulp divp ashp cvtlp
"""
# how many words follow, then numbers and names of system calls
CALLS = """
0  1 exit 2 fork 6 close 7 wait 15 time 24 getpid 27 setuid 30 getuid 31 stime 33 alarm 35 pause 42 nice
0  44 sync 51 dup 52 pipe 56 setgid 57 getgid
1  0 indir 12 unlink 14 chdir 21 break 26 umount 34 fstat 37 stty 40 gtty 43 ftime 45 kill 53 times 63 acct
1  65 lock 74 umask 75 chroot
2  3 read 4 write 5 open 10 creat 11 link 13 exec 17 chmod 22 stat 36 utime 41 access 60 signal
3  16 mknod 20 chown 23 lseek 25 mount 32 ptrace 64 phys 66 ioctl 73 exece
4  54 profil 70 mpx
"""
# how many bits each letter has
BITS = {"S": 6, "D": 6, "F": 6, "R": 3, "L": 3, "A": 2, "B": 8, "O": 6, "X": 8, "M": 6, "P": 3}
# and the lowest of them, the others begin at bit 0
SHIFT = {"S": 6, "R": 6, "A": 6}


def table():
    """For each first word its name, and for each operand its letter and the value in the field."""
    found = {}
    for base, verb in ((0o240, "cl"), (0o260, "se")):
        for bits in range(1, 15):
            found[base + bits] = "|".join(f"{verb}{flag}" for place, flag in enumerate("cvzn") if bits >> place & 1), []
    for letters, *pairs in map(str.split, TABLE.split("\n")[1:-1]):
        letters = letters.strip("-")
        for base, name in zip(pairs[::2], pairs[1::2]):
            both = [(int(base, 8), name.strip("*")), (0o100000 + int(base, 8), name.replace("*", "b"))]
            for first, called in both[:1 + name.endswith("*")]:
                for word in range(first, first + (1 << sum(BITS[letter] for letter in letters))):
                    assert word not in found, oct(word)
                    fields = [(letter, word >> SHIFT.get(letter, 0) & (1 << BITS[letter]) - 1) for letter in letters]
                    if ("F", 6) not in fields and ("F", 7) not in fields:
                        found[word] = called, fields
    for start, *names in map(str.split, COMMERCIAL.split("\n")[1:-1]):
        for word, name in enumerate(names, 0o76000 + int(start, 8)):
            found[word], found[word + 0o100] = (name, []), (name + "i", [])
    return {**{word: ("cis %o" % (word - 0o76000), []) for word in range(0o76000, 0o77000)}, **found}


FOUND = table()


def has_word(letter, value):
    """Whether an operand is followed by a word of its own."""
    if letter not in "SDF" or (letter == "F" and value < 8):
        return False
    mode, register = value >> 3, value & 7
    return mode >= 6 or (mode in (2, 3) and register == 7)


def calls():
    """For each first word of a system call its name, and how many words are its arguments."""
    lines = map(str.split, CALLS.split("\n")[1:-1])
    return {0o104400 + int(number, 8): (name, int(count)) for count, *pairs in lines for number, name in zip(pairs[::2], pairs[1::2])}


SYS = calls()


def octal(number):
    return "%o" % number


def signed(number):
    return octal(number) if number < 0o100000 else "-" + octal(0o200000 - number)


class File:
    """A file of text words, with relocation words or without, and symbols as (name, type word, value). Without `knows_calls` it is shown
    as by `-p` and libv7, which know no arguments of system calls."""

    knows_calls = True

    def __init__(self, words, relocation=None, symbols=(), magic=0o407, data=(), data_relocation=(), bss=0):
        self.words, self.relocation, self.symbols, self.magic = words, relocation, symbols, magic
        self.data, self.data_relocation, self.bss = data, data_relocation, bss
        self.lines = {}

    def encoded(self):
        text, data = zip(self.words, self.relocation or self.words), zip(self.data, self.data_relocation or self.data)
        return pack(text, data, self.bss, self.symbols, self.magic, int(self.relocation is None))

    # names

    def exact(self, kind, value):
        """The name of a value of a segment: an external one first."""
        named = [symbol for symbol in self.symbols if symbol[1] & 0o37 == kind and symbol[2] == value]
        named.sort(key=lambda symbol: symbol[1] & 0o40 == 0)
        return shown(named[0][0]) if named else None

    def referred(self, relocation, number):
        """What a number refers to by the kind of its relocation word."""
        kind = relocation >> 1 & 7
        if kind < 4:
            return self.exact(kind + 1, number)
        index = relocation >> 4
        if kind == 4 and index < len(self.symbols):
            name, of, _ = self.symbols[index]
            if of & 0o40 and of & 0o37 == 0:
                return shown(name) + ("" if number == 0 else "+" + octal(number) if number < 0o100000 else "-" + octal(0o200000 - number))
        return None

    @property
    def data_start(self):
        return {0o410: -(-2 * len(self.words) // 0o20000) * 0o20000, 0o411: 0}.get(self.magic, 2 * len(self.words))

    def segment(self, address, fetches):
        """The segment of an address in a linked file, by its type."""
        split = self.magic == 0o411
        if address < 2 * len(self.words) and (fetches or not split):
            return 2
        if self.magic == 0o405 or (split and fetches):
            return None
        end = self.data_start + 2 * len(self.data)
        if self.data_start <= address < end:
            return 3
        return 4 if end <= address < end + self.bss else None

    def located(self, address, fetches):
        """The name of an address in a linked file."""
        segment = self.segment(address, fetches)
        return segment and self.exact(segment, address)

    def reference(self, name, mode, register, word, after, place):
        """The name in place of an operand word, which has this place in the text."""
        address = (word + after) & 0o177777
        if self.relocation is None:
            jumps = name in ("jmp", "jsr")
            if register == 7 and mode >= 6:
                return self.located(address, jumps and mode == 6)
            return self.located(word, jumps) if register == 7 and mode == 3 else None
        relocation = self.relocation[place]
        if register == 7 and mode >= 6:
            if relocation & 1:
                return self.referred(relocation, address)
            return self.exact(2, address) if relocation & 0o16 == 0 else None
        is_plain = relocation & 1 or relocation & 0o16 == 0 and (register, mode) != (7, 3)
        return None if is_plain else self.referred(relocation, word)

    def target(self, address):
        name = self.exact(2, address) if self.relocation is not None else self.located(address, True)
        return name or octal(address)

    # lines

    def operand(self, name, letter, value, word, after, address, place):
        if letter in "XMP":
            return octal(value)
        if letter in "RL":
            return REGISTERS[value]
        if letter == "A" or (letter == "F" and value < 8):
            return "fr%d" % value
        if letter == "B":
            return self.target((address + 2 + 2 * (value if value < 128 else value - 256)) & 0o177777)
        if letter == "O":
            return self.target((address + 2 - 2 * value) & 0o177777)
        mode, number = value >> 3, value & 7
        register = REGISTERS[number]
        star = "*" if mode & 1 and mode > 1 else ""
        if mode == 0:
            return register
        if mode in (1, 4, 5):
            return star + ("-" if mode > 1 else "") + "(%s)" % register
        if not has_word(letter, value):
            return star + "(%s)+" % register
        named = self.reference(name, mode, number, word, after, place)
        if mode < 6:
            return star + "$" + (named or octal(word))
        if number == 7:
            return star + (named or octal((word + after) & 0o177777))
        return star + (named or signed(word)) + "(%s)" % register

    def plain(self, place):
        """A word that begins no instruction; a relocated one with what it refers to."""
        word = self.words[place]
        if not self.is_relocated(place):
            return "%06o" % word
        relocation, number = self.relocation[place], self.number_of(place)
        return "%06o / %s" % (word, self.meaning(relocation, number, self.referred(relocation, number)))

    def number_of(self, place):
        """What the word at a place refers to by its relocation word: an address, or a number."""
        return (self.words[place] + (2 * place + 2 if self.relocation[place] & 1 else 0)) & 0o177777

    @staticmethod
    def meaning(relocation, number, named):
        """What a number refers to by a relocation word, by this name if there is one."""
        of = {1: "text", 2: "data", 3: "bss"}.get(relocation >> 1 & 7, "the number")
        return (named or "%s %06o" % (of, number)) + (", from the pc" if relocation & 1 else "")

    def is_relocated(self, place):
        return self.relocation is not None and self.relocation[place] & 0o17 != 0

    def line(self, place):
        """The length and the text of the line at a place, which is computed once."""
        key = place, self.knows_calls
        if key not in self.lines:
            self.lines[key] = self.cut_line(place)
        return self.lines[key]

    def cut_line(self, place):
        """The line at a place: its first word, if a symbol of text names a later one."""
        length, text = self.whole_line(place)
        if any(2 * place < value < 2 * (place + length) and value % 2 == 0 for _, value in self.values[2]):
            return 1, "%06o / cut by a label" % self.words[place]
        return length, text

    def whole_line(self, place):
        """The length and the text of the line that the words at a place begin."""
        if self.is_relocated(place) or self.words[place] not in FOUND:
            return 1, self.plain(place)
        if self.knows_calls and self.words[place] in SYS:
            return self.call(place, *SYS[self.words[place]])
        name, fields = FOUND[self.words[place]]
        length = 1 + sum(has_word(*field) for field in fields)
        if place + length > len(self.words):
            return 1, self.plain(place)
        if self.words[place] >> 8 == 0o172400 >> 8 and fields[0][1] < 8:
            name = "ldf"
        texts, next_place = [], place + 1
        for letter, value in fields:
            word = self.words[next_place] if has_word(letter, value) else None
            texts.append(self.operand(name, letter, value, word, 2 * next_place + 2, 2 * place, next_place))
            next_place += has_word(letter, value)
        return length, name + (" " if texts else "") + ",".join(texts)

    @functools.cached_property
    def values(self):
        """For text, data and bss each symbol, as it is shown, with its value."""
        return {of: [(shown(name), value) for name, kind, value in self.symbols if kind & 0o37 == of] for of in (2, 3, 4)}

    def call(self, place, name, count):
        """The length and the text of a system call at a place. An argument is named as an immediate number is."""
        end = place + 1 + count
        if end > len(self.words):
            return 1, self.plain(place)
        named = [(self.reference("sys", 2, 7, self.words[at], 0, at), self.words[at]) for at in range(place + 1, end)]
        return 1 + count, "; ".join(["sys " + name] + [text or "%06o" % word for text, word in named])

    def labels(self, address, length, of=2):
        symbols = self.values[of]
        return [name + ":" for name, value in symbols if value == address] + [
            "%s = .+%o" % (name, value - address) for name, value in symbols if address < value < address + 2 * length
        ]

    def operand_words(self, place):
        """The places of the operand words of the line at a place, or of its arguments, each with its name in the line, if it has one, and
        what it perhaps is in a linked file."""
        length = self.line(place)[0]
        if self.knows_calls and self.words[place] in SYS:
            for at in range(place + 1, place + length):
                yield at, self.reference("sys", 2, 7, self.words[at], 0, at), self.perhaps(self.words[at])
        elif length > 1:
            name, fields = FOUND[self.words[place]]
            at = place + 1
            for letter, value in fields:
                if has_word(letter, value):
                    number, said = self.words[at], None
                    if value == 0o27:
                        said = self.perhaps(number)
                    elif value in (0o37, 0o67, 0o77):
                        address = (number + (2 * at + 2) * (value > 0o37)) & 0o177777
                        said = self.before(address, name in ("jmp", "jsr") and value != 0o77)
                    yield at, self.reference(name, value >> 3, value & 7, number, 2 * at + 2, at), said
                    at += 1

    def nearest(self, kind, address):
        """The label of a segment at an address or less than 256 bytes before it."""
        for back in range(min(256, address + 1)):
            name = self.exact(kind, address - back)
            if name:
                return name + ("+" + octal(back) if back else "")
        return None

    def string(self, address):
        """The string at an address of data, as a remark shows it."""
        start = self.data_start
        following = struct.pack("<%dH" % len(self.data), *self.data)[address - start :] if start <= address else b""
        found = re.match(rb"[\t\n -~]*", following).group()
        if len(found) <= 40 and (len(found) < 2 or following[len(found) : len(found) + 1] != b"\0"):
            return None
        escapes = {9: "\\t", 10: "\\n", 34: '\\"', 92: "\\\\"}
        return '"%s"%s' % ("".join(escapes.get(byte, chr(byte)) for byte in found[:40]), ".." if len(found) > 40 else "")

    def before(self, address, fetches):
        """The nearest label at an address of a linked file or before it."""
        segment = self.segment(address, fetches)
        values = [value for _, value in self.values[segment] if value <= address] if segment else []
        if not values:
            return None
        back = address - max(values)
        return "perhaps " + self.exact(segment, max(values)) + ("+" + octal(back) if back else "")

    def perhaps(self, number):
        """What a number of a linked file points to, if it is an address: a string, or a label."""
        segment = self.segment(number, False)
        string = self.string(number) if segment == 3 else None
        label = self.exact(2, number) if segment == 2 else segment and self.nearest(segment, number)
        return string or label and "perhaps " + label

    def pointed(self, relocation, number):
        """What a number refers to by a relocation word, with the near label, and the string there."""
        kind = relocation >> 1 & 7
        label = self.nearest(kind + 1, number) if 0 < kind < 4 else self.referred(relocation, number)
        return [self.meaning(relocation, number, label), self.string(number) if kind == 2 else None]

    def remarks(self, place):
        """What is said after the instruction at a place: of a relocated operand word without a name, and of a string; without relocation
        of a number that may be an address."""
        texts = []
        for at, named, said in self.operand_words(place):
            if self.is_relocated(at):
                texts += self.pointed(self.relocation[at], self.number_of(at))[1 if named else 0 :]
            elif self.relocation is None and not named:
                texts.append(said)
        return "".join(" / " + text for text in texts if text)

    def disassembly(self):
        place, lines = 0, []
        while place < len(self.words):
            length, text = self.line(place)
            words = ["%06o" % word for word in self.words[place : place + length]]
            zeros = self.zeros(place)
            shown = zeros if zeros > 8 else length
            lines += self.labels(2 * place, shown)
            lines.append("%06o  %-20s  %s%s" % (2 * place, " ".join(words[:3]), text, self.remarks(place)))
            if length > 3:
                lines.append("%06o  %s" % (2 * place + 6, " ".join(words[3:])))
            if zeros > 8:
                lines.append("/ %06o to %06o: the row before, %d times" % (2 * place + 2, 2 * (place + zeros - 1), zeros - 1))
            place += shown
        return lines + self.labels(2 * place, 0)

    def with_functions(self):
        """A program that has no symbols of text, with an external for each function that its calls show, as `-d` shows it."""
        if self.relocation is not None or self.values[2]:
            return self
        found, place = set(), 0
        while place < len(self.words):
            word, operand = [*self.words[place : place + 2], 0][:2]
            target = operand if word == 0o004737 else (operand + 2 * place + 4) & 0o177777
            begun = self.words[target // 2 : target // 2 + 2] if target % 2 == 0 and place + 1 < len(self.words) else []
            if word == 0o004567 and begun == [0o010500, 0o010605]:
                found |= {2 * place, target}
            if word in (0o004737, 0o004767) and begun:
                found.add(target)
            place += self.line(place)[0]
        symbols = [*self.symbols, *((b"f_%06o" % at, 0o42, at) for at in sorted(found))]
        return File(self.words, None, symbols, self.magic, self.data, (), self.bss) if len(symbols) <= 5461 else self

    def zeros(self, place):
        """How many words 0 follow each other from a place on, before the next label or a word that a link changes."""
        labels, end = {value for _, value in self.values[2]}, place
        while end < len(self.words) and self.words[end] == 0 and not self.is_relocated(end) and (end == place or 2 * end not in labels):
            end += 1
        return end - place

    def owner(self, place):
        """The place of the instruction that has the word at a place as an operand word, or None if a line begins there."""
        first = 0
        while True:
            length = self.line(first)[0]
            if place < first + length:
                return first if first < place else None
            first += length

    def is_damaged(self):
        """Whether it is an object, but for a relocation word of no kind, or one that refers to no undefined external."""
        undefined = {number for number, symbol in enumerate(self.symbols) if symbol[1] & 0o77 == 0o40}
        relocs = [] if self.relocation is None or self.magic != 0o407 else [*self.relocation, *self.data_relocation]
        return any(reloc & 0o16 > 0o10 or reloc & 0o16 == 0o10 and reloc >> 4 not in undefined for reloc in relocs)

    def said(self, address, word, relocation):
        """What a listing says of a word of data by its relocation word."""
        number, kind = (word + (address + 2 if relocation & 1 else 0)) & 0o177777, relocation >> 1 & 7
        if kind > 4:
            return "no kind of relocation"
        if kind == 4:
            index = relocation >> 4
            if index >= len(self.symbols):
                return "no symbol %d" % index
            name, of, _ = self.symbols[index]
            if of & 0o77 != 0o40:
                return "not wanted: symbol %d %s" % (index, in_listing(name))
        if relocation & 0o17 == 0:
            return ""
        return " / ".join(text for text in self.pointed(relocation, number) if text)

    def begun(self, place):
        """The string that begins in a word of data, at a byte that follows no byte of text."""
        data = b"." + struct.pack("<%dH" % len(self.data), *self.data)
        starts = [at for at in (2 * place, 2 * place + 1) if at == 0 or not re.match(rb"[\t\n -~]", data[at : at + 1])]
        return "".join(self.string(self.data_start + at) or "" for at in starts)

    def row(self, address, word, relocation, said):
        relocated = "" if relocation is None else "  %4o" % relocation
        return "%06o  %06o%s%s" % (address, word, relocated, "  " + said if said else "")

    def listing(self):
        """The lines of text and data in a listing, with the labels of each, those of bss after data."""
        place, lines = 0, []
        while place < len(self.words):
            length, text = self.line(place)
            lines += self.labels(2 * place, length)
            for number in range(place, place + length):
                relocation, word = self.relocation and self.relocation[number], self.words[number]
                # without the digits of a word that begins no instruction
                said = re.sub("^[0-7]{6}(?: |$)", "", text + self.remarks(place)) if number == place else ""
                lines.append(self.row(2 * number, word, relocation, said))
            place += length
        lines += self.labels(2 * place, 0) + ["data"]
        for place, word in enumerate(self.data):
            address = (self.data_start + 2 * place) % 0o200000
            relocation = None if self.relocation is None else self.data_relocation[place]
            relocated = relocation is not None and relocation & 0o17 != 0
            said = self.said(address, word, relocation) if relocated else self.begun(place)
            lines += self.labels(address, 1, 3) + [self.row(address, word, relocation, said)]
        end = self.data_start + 2 * len(self.data)
        return lines + self.labels(end, 0, 3) + self.labels(end, 32768, 4)


def decoded(data):
    """The file that these bytes are, which are whole."""
    found = unpack(data)
    relocation, count = list(found.relocation), len(found.text)
    relocs = (None, None) if found.header[7] else (relocation[:count], relocation[count:])
    return File(list(found.text), relocs[0], found.symbols, found.header[0], list(found.data), relocs[1], found.header[3])


def shown(padded):
    """A name: no number, no register."""
    name = padded.split(b"\0")[0].decode("latin-1")
    if not name:
        return "\\000"
    registers = REGISTERS + ["fr%d" % number for number in range(6)]
    usual = "ABCDEFGHIJKLMNOPQRSTUVWXYZabcdefghijklmnopqrstuvwxyz0123456789_.~"
    texts = [byte if byte in usual else "\\%03o" % ord(byte) for byte in name]
    if name[0] in "0123456789" or name in registers:
        texts[0] = "\\%03o" % ord(name[0])
    return "".join(texts)


def in_listing(padded):
    """A name as a listing has it in its remarks."""
    name = padded.split(b"\0")[0]
    return "".join(chr(byte) if 32 < byte < 127 and byte != 92 else "\\%03o" % byte for byte in name) or "\\000"


def without_notes(text):
    """The lines of a text without the notes. These begin with a slash, as does the row that counts repetitions of the row before it."""
    return [line for line in text.split("\n")[:-1] if not line.startswith("/") or " the row before, " in line]


def shown_by(words, made, folder, what):
    """The lines of a file but for the notes."""
    path = os.path.join(folder, "file")
    write(path, made.encoded())
    status, out, err = ran(*words, path).texts()
    same(f"{what}: status and errors", (status, err), (made.is_damaged(), ""))
    return without_notes(out)


def compare(made, folder, what):
    """Compares the lines of a file, without arguments of system calls and with them, and returns how many there are."""
    for option, made.knows_calls in (("-p", False), ("-d", True)):
        wanted = made.with_functions() if made.knows_calls else made
        same(f"{what} by {option}", shown_by([EXPLAIN, option], made, folder, what), wanted.disassembly())
    return len(made.disassembly())


def compare_listing(made, folder, what):
    """Compares text and data of the listing, and returns how many lines they have."""
    lines = shown_by([EXPLAIN], made, folder, what)
    same(what, lines[lines.index("text") + 1 : lines.index("bss " + octal(made.bss))], made.listing())
    return len(made.listing())


def each_first_word(folder):
    """All first words with each of four pairs. Two words `nop` end what the pair begins, or are arguments. Returns the texts' words."""
    texts, words, firsts = [], [], 0
    for pair in FOUR_PAIRS:
        for first in range(0o200000):
            words += [first, *pair, NOP, NOP]
            if len(words) > 32767 - 5:
                texts.append(words)
                words = []
    texts.append(words)
    for number, text in enumerate(texts):
        file = File(text)
        places, place = set(), 0
        while place < len(text):
            places.add(place)
            place += file.line(place)[0]
        firsts += sum(place in places for place in range(0, len(text), 5))
        compare(file, folder, "first words, text %d" % number)
    assert firsts == 4 * 0o200000, firsts
    return texts


def random_name(dice):
    of = dice.choice([b"ab_.~9", bytes(range(1, 256)), b"_"])
    name = bytes(dice.choice(of) for _ in range(dice.randrange(9)))
    return dice.choice([name, name, b"r0", b"sp", b"fr5", b"fr6", b"_main", b"7up"]).ljust(8, b"\0")


def random_data(dice):
    """Words of data: few, or bytes of text with a NUL here and there."""
    if dice.randrange(2):
        return [0] * dice.randrange(9)
    parts = [b"a", b"xy", b"~ ", b'"', b"\\", b"\t", b"\n", b"\0", b"\0", b"\x7f", b"z" * 37]
    text = b"".join(dice.choice(parts) for _ in range(dice.randrange(40)))
    return list(struct.unpack("<%dH" % (len(text) // 2), text[: len(text) // 2 * 2]))


def random_file(dice):
    """A file of a few words of text, whose symbols and operands often meet."""
    magic, relocated = dice.choice([(0o407, 1), (0o407, 1), (0o407, 0), (0o410, 0), (0o411, 0), (0o405, 0)])
    count, bss = dice.randrange(1, 40), 2 * dice.randrange(9)
    data = random_data(dice)
    frequent = [0o016700, 0o012700, 0o004767, 0o000137, 0o000167, 0o013737, 0o017777, 0o016160, 0o000401, 0o077002, 0o172467, 0o005067,
                0o067077, 0o104400, 0o104404, 0o104423, 0o104454, 0o104455]
    near = lambda: dice.choice([dice.randrange(0, 2 * count + 40), -dice.randrange(0, 2 * count + 8) & 0o177777, dice.randrange(65536)])
    words = [dice.choice([dice.choice(frequent), near(), near()]) for _ in range(count)]
    if dice.randrange(4) == 0:
        at = dice.randrange(count + 1)
        words[at:at] = [0] * dice.randrange(30)
        count = len(words)
    kinds = [2, 2, 0o42, 0o42, 3, 0o43, 4, 0o44, 1, 0o41, 0o40, 0o40, 0, 0o37, 0o24]
    start = {0o410: 0o20000, 0o411: 0}.get(magic, 2 * count)
    value = lambda: dice.choice([dice.randrange(0, 2 * count + 2), start + dice.randrange(0, 2 * len(data) + bss + 2), near()])
    symbols = [(random_name(dice), dice.choice(kinds), value()) for _ in range(dice.randrange(60))]
    relocation = None
    if relocated:
        usual = [0, 0, 0, 1, 2, 3, 4, 5, 6, 7]
        some = lambda: dice.choice([0, 0, 0, dice.choice(usual), dice.randrange(8, 10) + 16 * dice.randrange(64), dice.randrange(65536)])
        relocation = [some() for _ in words]
    return File(words, relocation, symbols, magic, data, [some() if relocated and dice.randrange(2) else 0 for _ in data], bss)


def assembled(text, assembler, folder):
    """Whether GNU's assembler makes these words of a text, the floating instructions aside: these are given to it as words."""
    file, lines, place = File(text), [], 0
    while place < len(text):
        length, line = file.line(place)
        name = line.split(" ")[0]
        if name[0] in "01" or name == "cis" or text[place] >= 0o170000 or text[place] in SYS:
            lines += [".word 0%o" % word for word in text[place : place + length]]
        else:
            lines.append(for_gnu(line, 2 * place))
        place += length
    source, output = (os.path.join(folder, name) for name in ("source.s", "source.o"))
    write(source, "\n".join(lines) + "\n")
    subprocess.run([assembler, "-o", output, source], check=True)
    # the text follows a header of 16 bytes
    return read_bytes(output)[16 : 16 + 2 * len(text)] == struct.pack("<%dH" % len(text), *text)


def for_gnu(line, address):
    """A line as GNU's assembler reads it: octal numbers begin with 0, an address is written from the instruction on."""
    name, _, operands = line.partition(" ")
    name = {"sys": "trap"}.get(name, name)
    texts = []
    for operand in operands.split(",") if operands else []:
        star, rest = ("*", operand[1:]) if operand.startswith("*") else ("", operand)
        if rest.startswith("$"):
            rest = "$0" + rest[1:]
        elif rest[0] in "0123456789" and "(" in rest:
            rest = "0" + rest
        elif rest[0] == "-" and rest[1] != "(":
            rest = "-0" + rest[1:]
        elif rest[0] in "0123456789":
            number = int(rest, 8)
            is_address = name not in ("trap", "emt", "mark", "spl")
            rest = ".+%d" % (number - address) if is_address else "0" + rest
        texts.append(star + rest)
    return name + (" " + ",".join(texts) if texts else "")


def main():
    with tempfile.TemporaryDirectory() as folder:
        texts = each_first_word(folder)
        print("262,144 first words with two words after each are shown as computed")
        notices(same, "planted", shown_by([EXPLAIN, "-p"], File([NOP]), folder, "planted"), File([NOP + 1]).disassembly())
        dice, count, listed = random.Random(47), 0, 0
        for number in range(400):
            made = random_file(dice)
            count += compare(made, folder, "made file %d" % number)
            listed += compare_listing(made, folder, "listing of made file %d" % number)
        print("400 made files are shown as computed, %d lines with their labels, and %d of their listings" % (count, listed))
        assembler = next((name for name in ("pdp11-aout-as", "pdp11-dec-aout-as") if shutil.which(name)), None)
        if assembler is None:
            print("not assembled back, as GNU's assembler for the PDP-11 is not installed")
            return
        for text in texts:
            if not assembled(text, assembler, folder):
                sys.exit("%s makes other words" % assembler)
        print("%s makes the same words of the text" % assembler)


if __name__ == "__main__":
    EXPLAIN = program("v7-explain")
    main()
