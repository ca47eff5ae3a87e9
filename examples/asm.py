#!/usr/bin/env python3
"""A small assembler for teaching: it makes FILE.o of FILE.s, as docs/OBJECTS.md explains. It is no part of v7, and nothing of it is
proved: it is an example of how an assembler writes objects. `v7-explain` judges what it makes.

usage: asm.py FILE.s...

A line has labels, each with a colon, an instruction or one of the directives below, and a comment after / or #:

    .text .data .bss            what follows belongs to this segment
    .globl NAME, ..             other objects see these names
    .comm NAME, SIZE            a common
    .word, .byte X, ..          words and bytes; .even begins at an even offset, .space N and .=.+N leave N bytes
    .ascii, .asciz "TEXT"       a text, with a NUL after it; <TEXT> is one too, with \\n, \\r, \\t, \\0 and \\\\
    NAME = X                    a number with a name

An expression X is a name, a number, or a name with a number added or subtracted. Numbers are octal, or decimal with a point at their
end; 'c is a character. 1f and 1b are the next and the last label 1. Operands are r0, (r0), (r0)+, -(r0), X(r0), X, $X, and these after *
or @. A name that begins with L or ~ is not put into the symbol table. That has eight bytes of a name, so two names that are equal in these are refused. jbr, jeq and the like are branches, or longer where that is too
far."""
import re
import struct
import sys

TEXT, DATA, BSS, ABSOLUTE, EXTERNAL = "text", "data", "bss", "absolute", "external"
# the relocation word of a word that refers to a segment, and the type of a symbol in it
RELOCATION = {ABSOLUTE: 0, TEXT: 0o2, DATA: 0o4, BSS: 0o6, EXTERNAL: 0o10}
TYPE = {ABSOLUTE: 0o1, TEXT: 0o2, DATA: 0o3, BSS: 0o4, EXTERNAL: 0o0}
PC, GLOBAL, MAGIC = 0o1, 0o40, 0o407

REGISTERS = {**{f"r{number}": number for number in range(8)}, "sp": 6, "pc": 7}


def with_bytes(table):
    """Instructions, and those for bytes."""
    return {**table, **{f"{name}b": word + 0o100000 for name, word in table.items()}}


DOUBLE = {**with_bytes({"mov": 0o010000, "cmp": 0o020000, "bit": 0o030000, "bic": 0o040000, "bis": 0o050000}), "add": 0o060000, "sub": 0o160000}
SINGLE = with_bytes({name: 0o005000 + 0o100 * i for i, name in enumerate("clr com inc dec neg adc sbc tst ror rol asr asl".split())})
SINGLE = {**SINGLE, "sxt": 0o006700, "swab": 0o000300, "jmp": 0o000100}
# the first operand goes into the register that is the second; jsr has them in the other order
TO_REGISTER = {"mul": 0o070000, "div": 0o071000, "ash": 0o072000, "ashc": 0o073000}
BRANCHES = {"br": 0o000400, "bne": 0o001000, "beq": 0o001400, "bge": 0o002000, "blt": 0o002400, "bgt": 0o003000, "ble": 0o003400, "bpl": 0o100000,
            "bmi": 0o100400, "bhi": 0o101000, "blos": 0o101400, "bvc": 0o102000, "bvs": 0o102400, "bhis": 0o103000, "bcc": 0o103000,
            "blo": 0o103400, "bcs": 0o103400}
JUMPS = {"jbr": "br", **{f"j{name[1:]}": name for name in BRANCHES if name != "br"}}
ALONE = {"halt": 0, "wait": 1, "rti": 2, "bpt": 3, "iot": 4, "reset": 5, "nop": 0o240, "clc": 0o241, "clv": 0o242, "clz": 0o244, "cln": 0o250, "sec": 0o261}
OPERANDS = {**dict.fromkeys(DOUBLE, 2), **dict.fromkeys(SINGLE, 1), **dict.fromkeys(TO_REGISTER, 2), "jsr": 2, "sob": 2, "rts": 1,
            **dict.fromkeys([*BRANCHES, *JUMPS], 1), **dict.fromkeys(ALONE, 0)}
ESCAPES = {"n": "\n", "r": "\r", "t": "\t", "0": "\0", "e": "\x04"}
NAME = r"[A-Za-z_~.][\w~.]*|\d+[fb]\b"
EXPRESSION = re.compile(rf"(?P<name>{NAME})?\s*(?P<sign>[+-])?\s*(?P<number>\d+\.?|'.)?$")


class Mistake(Exception):
    """What is wrong with a source, and where: the line and the column, from 1."""

    def __init__(self, line, column, text):
        super().__init__(f"{line}:{column}: {text}")


class Part:
    """A piece of a line: its text, and where it begins."""

    def __init__(self, text, line, column):
        self.text, self.line, self.column = text.rstrip(), line, column + len(text) - len(text.lstrip())
        self.text = self.text.lstrip()

    def mistake(self, text):
        return Mistake(self.line, self.column, text)


def without_comment(text):
    """A line up to its comment, which is in no text and is no character."""
    found = re.match(r"""(?:[^/#<"']|'.|"(?:\\.|[^"\\])*"|<(?:\\.|[^>\\])*>)*""", text)
    rest = text[found.end():]
    return text if rest and rest[0] not in "/#" else found[0]


def split(text, line, column):
    """The operands of a line, between commas that are in no text."""
    parts, start = [], 0
    for comma in re.finditer(r"""'.|"(?:\\.|[^"\\])*"|<(?:\\.|[^>\\])*>|(,)|$""", text):
        if comma[1] or comma.end() == len(text):
            parts.append(Part(text[start:comma.start(1) if comma[1] else len(text)], line, column + start))
            start = comma.end()
        if comma.end() == len(text) and not comma[1]:
            break
    return [] if len(parts) == 1 and not parts[0].text else parts


class Statement:
    """An instruction or a directive with its operands, a label, or a number with a name."""

    def __init__(self, name, operands):
        self.name, self.operands = name, operands


def statements(source):
    """The statements of a source."""
    for number, text in enumerate(source.split("\n"), 1):
        text, at = without_comment(text), 1
        while label := re.match(r"\s*([A-Za-z_~.][\w~.]*|\d+)\s*:", text):
            yield Statement(":", [Part(label[1], number, at + label.start(1))])
            text, at = text[label.end():], at + label.end()
        if text.strip().startswith("~") or not text.strip():
            continue
        if given := re.match(r"\s*(\.|[A-Za-z_~][\w~.]*)\s*=(.*)", text):
            names = Part(given[1], number, at + given.start(1)), Part(given[2], number, at + given.start(2))
            yield Statement("=", names)
            continue
        word = re.match(r"\s*([.A-Za-z]\w*)(?=\s|$)", text)
        if word and (word[1] in OPERANDS or word[1].startswith(".")):
            yield Statement(Part(word[1], number, at + word.start(1)), split(text[word.end():], number, at + word.end()))
        else:  # words alone, as Unix's assembler has them
            operands = split(text, number, at)
            if word and len(text.split(None, 1)) > 1 and not text.strip().startswith("<"):
                raise operands[0].mistake(f"there is no instruction {word[1]}")
            yield Statement(Part("<" if text.strip().startswith("<") else ".word", number, at), operands)


def number_of(part, text):
    """A number: octal, decimal with a point at its end, or a character."""
    if text.startswith("'"):
        return ord(text[1])
    if text.endswith("."):
        return int(text[:-1])
    if re.search("[89]", text):
        raise part.mistake(f"{text} is no octal number: a decimal one has a point at its end")
    return int(text, 8)


def text_of(part):
    """The bytes of a text in quotes or in angle brackets."""
    found = re.fullmatch(r"""(["<])((?:\\.|[^\\])*)([">])""", part.text)
    if not found or found[1] + found[3] not in ('""', "<>"):
        raise part.mistake('a text is expected, as "text" or <text>')
    return re.sub(r"\\(.)", lambda escape: ESCAPES.get(escape[1], escape[1]), found[2]).encode("latin-1")


class Assembly:
    """The words, relocation words and symbols of one source."""

    def __init__(self, source):
        self.statements = list(statements(source))
        # names in the order in which they are mentioned, each with its first mention; where each is; and jumps that are too far for a branch
        self.mentioned, self.places, self.globals, self.commons, self.far = {}, {}, set(), {}, set()
        self.sizes = {TEXT: 0, DATA: 0, BSS: 0}
        self.count_labels()
        while self.place():
            pass
        self.bytes = {TEXT: bytearray(), DATA: bytearray()}
        self.relocations = {TEXT: {}, DATA: {}}
        self.walk(self.put)

    def count_labels(self):
        """Gives each label that is a number, and each mention of one, a name of its own."""
        counts = {}
        for one in self.statements:
            for part in one.operands:
                if one.name == ":" and part.text.isdigit():
                    counts[part.text] = counts.get(part.text, 0) + 1
                    part.text = f"{part.text}:{counts[part.text]}"
                elif one.name != ":" and (found := re.fullmatch(r"([*@$]*)(\d+)([fb])(.*)", part.text)):
                    part.text = f"{found[1]}{found[2]}:{counts.get(found[2], 0) + (found[3] == 'f')}{found[4]}"

    def walk(self, act):
        """Does something with each statement, where it is: its segment, and its offset there."""
        part, at = TEXT, {TEXT: 0, DATA: 0, BSS: 0}
        for one in self.statements:
            name = one.name if isinstance(one.name, str) else one.name.text
            if name in (".text", ".data", ".bss"):
                part = name[1:]
                continue
            size = self.size(name, one, part, at[part])
            act(name, one, part, at[part])
            at[part] += size
        self.sizes = {part: size + size % 2 for part, size in at.items()}

    def place(self):
        """Gives each label its place. Whether a jump turned out to be too far for a branch, so that all has to be placed again."""
        jumps = []
        self.places = {}
        self.walk(lambda name, one, part, at: self.place_one(name, one, part, at, jumps))
        far = {id(one) for one, at in jumps if not -256 <= self.target(one)[1] - at - 2 <= 254} - self.far
        self.far |= far
        return bool(far)

    def place_one(self, name, one, part, at, jumps):
        if name == ":":
            label = one.operands[0]
            if label.text in self.places:
                raise label.mistake(f"{label.text} is defined twice")
            self.places[label.text] = (part, at)
            self.mentioned.setdefault(label.text, label)
        elif name == "=" and one.operands[0].text != ".":
            self.places[one.operands[0].text] = (ABSOLUTE, self.number(one.operands[1]))
            self.mentioned.setdefault(one.operands[0].text, one.operands[0])
        elif name == ".globl":
            for operand in one.operands:
                self.mentioned.setdefault(operand.text, operand)
                self.globals.add(operand.text)
        elif name == ".comm":
            self.need(one, 2)
            self.mentioned.setdefault(one.operands[0].text, one.operands[0])
            self.commons[one.operands[0].text] = self.number(one.operands[1])
        elif name in JUMPS:
            jumps.append((one, at))
        for operand in one.operands if name in OPERANDS or name == ".word" else []:
            found = re.search(rf"(?<![\w~.'])(?:{NAME})", operand.text)
            if found and found[0] not in REGISTERS and not found[0][0].isdigit():
                self.mentioned.setdefault(found[0], operand)

    def need(self, one, count):
        if len(one.operands) != count:
            raise one.name.mistake(f"{one.name.text} has {count} operand{'s' if count != 1 else ''}")

    def size(self, name, one, part, at):
        """How many bytes a statement takes at an offset."""
        if name in (":", ".globl", ".comm") or (name == "=" and one.operands[0].text != "."):
            return 0
        if name == "=" or name == ".space":
            return self.room(one)
        if name == ".even":
            return at % 2
        if name == ".byte":
            return len(one.operands)
        if name in (".ascii", ".asciz", "<"):
            return sum(len(text_of(operand)) + (name == ".asciz") for operand in one.operands)
        if name == ".word":
            return 2 * len(one.operands)
        if name not in OPERANDS:
            raise one.name.mistake(f"there is no instruction or directive {name}")
        self.need(one, OPERANDS[name])
        if part == BSS:
            raise one.name.mistake("bss has no instructions")
        if name in JUMPS:
            return 2 if id(one) not in self.far else 4 if name == "jbr" else 6
        words = [self.operand(operand) for operand in one.operands] if name not in BRANCHES and name != "sob" else []
        return 2 + 2 * sum(len(word) > 1 for word in words)

    def room(self, one):
        """The bytes that `.space N` or `.=.+N` leaves."""
        if one.name != "=":
            self.need(one, 1)
            return self.number(one.operands[0])
        found = re.fullmatch(r"\.\s*\+\s*(\d+\.?)", one.operands[1].text)
        if not found:
            raise one.operands[1].mistake("a place is moved by .=.+N")
        return number_of(one.operands[1], found[1])

    def number(self, part):
        """An expression that is a number."""
        name, added = self.expression(part, part.text)
        if name and self.places.get(name, ("", 0))[0] != ABSOLUTE:
            raise part.mistake(f"{part.text} is not a number")
        return added + (self.places[name][1] if name else 0)

    def expression(self, part, text):
        """An expression as its name, or "", and what is added to it."""
        if found := re.match(r"\d+:\d+", text):
            text, kept = text[found.end():], found[0]
        else:
            kept = ""
        found = EXPRESSION.match(text.strip())
        if not found or not (kept or found["name"] or found["number"]) or (found["name"] and found["number"] and not found["sign"]):
            raise part.mistake(f"{text or 'nothing'} is no expression")
        if found["sign"] and not found["number"]:
            raise part.mistake(f"a number is expected after {found['sign']}")
        added = number_of(part, found["number"]) if found["number"] else 0
        return kept or found["name"] or "", -added if found["sign"] == "-" else added

    def operand(self, part):
        """The six bits of an operand, and the expression of its word, if it has one."""
        deferred = part.text[:1] in ("*", "@")
        text, indirect = part.text[deferred:].strip(), 0o10 if deferred else 0
        if text in REGISTERS:
            return (indirect + REGISTERS[text],)
        if text.startswith("$"):
            return (0o27 + indirect, text[1:])
        found = re.fullmatch(r"(-?)\((\w+)\)(\+?)", text)
        if found and not (found[1] and found[3]):
            if not found[1] and not found[3] and deferred:
                return (0o70 + self.register(part, found[2]), "0")
            return ((0o40 if found[1] else 0o20 if found[3] else 0o10) + indirect + self.register(part, found[2]),)
        if found := re.fullmatch(r"(.+)\((\w+)\)", text):
            return (0o60 + indirect + self.register(part, found[2]), found[1])
        return (0o67 + indirect, text)

    def register(self, part, name):
        if name not in REGISTERS:
            raise part.mistake(f"{name} is no register")
        return REGISTERS[name]

    def target(self, one):
        """Where the last operand of a branch is: it has to be a label of this file."""
        part = one.operands[-1]
        name, added = self.expression(part, part.text)
        if name not in self.places:
            raise part.mistake(f"{part.text} is no label of this file")
        return self.places[name][0], self.places[name][1] + added

    def put(self, name, one, part, at):
        """Adds the bytes of a statement."""
        if part == BSS:
            return
        out = self.bytes[part]
        if name in (".byte", ".ascii", ".asciz", "<"):
            for operand in one.operands:
                out.extend(bytes([self.number(operand) % 256]) if name == ".byte" else text_of(operand) + b"\0" * (name == ".asciz"))
        elif name == ".word":
            for operand in one.operands:
                self.put_value(part, operand, operand.text, False)
        elif name in OPERANDS:
            if at % 2:
                raise one.name.mistake("an instruction begins at an odd offset: .even is missing")
            self.put_instruction(part, name, one)
        else:
            out.extend(bytes(self.size(name, one, part, at)))

    def put_instruction(self, part, name, one):
        out = self.bytes[part]
        if name in JUMPS and id(one) in self.far:
            if name != "jbr":
                out.extend(struct.pack("<H", (BRANCHES[JUMPS[name]] ^ 0o400) + 2))
            name = "jmp"
        elif name in BRANCHES or name in JUMPS or name == "sob":
            kind, to = self.target(one)
            distance = (to - len(out) - 2) // 2
            if kind != part or not -128 <= distance <= 127 or (name == "sob" and not -63 <= distance <= 0):
                raise one.operands[-1].mistake("it is too far for a branch")
            word = 0o077000 + 0o100 * self.register(one.operands[0], one.operands[0].text) - distance if name == "sob" else BRANCHES[JUMPS.get(name, name)] + distance % 256
            out.extend(struct.pack("<H", word))
            return
        modes = [self.operand(operand) for operand in one.operands]
        if name in DOUBLE:
            word = DOUBLE[name] + 0o100 * modes[0][0] + modes[1][0]
        elif name in TO_REGISTER or name in ("jsr", "rts"):
            register = 1 if name in TO_REGISTER else 0
            self.register(one.operands[register], one.operands[register].text)
            word = {**TO_REGISTER, "jsr": 0o004000, "rts": 0o000200}[name] + (modes[0][0] if name == "rts" else 0o100 * modes[register][0] + modes[1 - register][0])
        else:
            word = ALONE[name] if name in ALONE else SINGLE[name] + modes[0][0]
        out.extend(struct.pack("<H", word))
        for operand, mode in zip(one.operands, modes):
            if len(mode) > 1:
                self.put_value(part, operand, mode[1], mode[0] & 0o67 == 0o67)

    def put_value(self, part, operand, text, is_pc):
        """Adds the word of an expression, with its relocation word."""
        name, value = self.expression(operand, text)
        out, kind = self.bytes[part], ABSOLUTE
        offset = len(out)
        if offset % 2:
            raise operand.mistake("a word begins at an odd offset: .even is missing")
        if name in self.places:
            kind, at = self.places[name]
            value += at + (self.base(kind) if kind != ABSOLUTE else 0)
        elif name:
            if name[0].isdigit():
                raise operand.mistake(f"there is no such label {name.partition(':')[0]}")
            kind = EXTERNAL
        if is_pc:
            value -= self.base(part) + offset + 2
            if kind == part:
                kind, is_pc = ABSOLUTE, False  # the distance stays the same
        out.extend(struct.pack("<H", value % 65536))
        if kind != ABSOLUTE or is_pc:
            self.relocations[part][offset] = (kind, name, is_pc)

    def base(self, part):
        """Where a segment begins in the object."""
        return {TEXT: 0, DATA: self.sizes[TEXT], BSS: self.sizes[TEXT] + self.sizes[DATA]}[part]

    def symbols(self):
        """The symbol table, in the order in which the names are mentioned: name, type and value. It has eight bytes of each name."""
        cut = {}
        for name in self.mentioned:
            is_local = name in self.places and name not in self.globals
            other = name if is_local and name.startswith(("L", "~", *"0123456789")) else cut.setdefault(name.encode()[:8], name)
            if other != name:
                raise self.mentioned[name].mistake(f"{name} and {other} are equal in eight bytes")
            if name in self.places:
                kind, at = self.places[name]
                if name in self.globals or not name.startswith(("L", "~", *"0123456789")):
                    yield name, TYPE[kind] + (GLOBAL if name in self.globals else 0), at + (self.base(kind) if kind != ABSOLUTE else 0)
            else:
                yield name, GLOBAL, self.commons.get(name, 0)

    def file(self):
        """The object: a header, the words, their relocation words, and the symbols."""
        table = list(self.symbols())
        numbers = {name: i for i, (name, _, _) in enumerate(table)}
        words = relocations = b""
        for part in (TEXT, DATA):
            words += bytes(self.bytes[part]).ljust(self.sizes[part], b"\0")
            for offset in range(0, self.sizes[part], 2):
                kind, name, is_pc = self.relocations[part].get(offset, (ABSOLUTE, "", False))
                bits = RELOCATION[kind] + (PC if is_pc else 0) + (16 * numbers[name] if kind == EXTERNAL else 0)
                relocations += struct.pack("<H", bits)
        head = struct.pack("<8H", MAGIC, self.sizes[TEXT], self.sizes[DATA], self.sizes[BSS], 12 * len(table), 0, 0, 0)
        return head + words + relocations + b"".join(struct.pack("<8sHH", name.encode()[:8], kind, value % 65536) for name, kind, value in table)


def assembled(source):
    """The object of a source."""
    return Assembly(source).file()


def main(paths):
    if not paths or any(not path.endswith(".s") for path in paths):
        sys.exit("usage: asm.py FILE.s...")
    for path in paths:
        try:
            with open(path, encoding="latin-1") as source:
                made = assembled(source.read())
            with open(f"{path[:-2]}.o", "wb") as out:
                out.write(made)
        except (Mistake, OSError) as mistake:
            sys.exit(f"{path}:{mistake}" if isinstance(mistake, Mistake) else f"{path}: {mistake.strerror}")


if __name__ == "__main__":
    main(sys.argv[1:])
