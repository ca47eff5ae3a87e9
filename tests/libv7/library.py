"""The Python module of libv7: an input for each fault, numbers and types that do not fit, edits of a session, the examples of its
docstrings, and beside the programs the listings, conversions and remarks of examples. What is wanted follows from v7.h and docs/FORMAT.md.

usage: LIBV7=build/libv7.so python3 -m tests.libv7.library
"""
import copy
import doctest
import glob
import re
import signal
import struct
import typing
import unittest
import unittest.mock
from concurrent.futures import ProcessPoolExecutor

import v7
from tests.lib.files import TOP, new_folder, read, read_bytes, write
from tests.lib.objects import gnu_named, gnu_object, symbol
from tests.lib.programs import program, ran

# an object of 56 bytes: its relocation words begin at 24, its symbols at 32. And one in GNU's form: two symbols at 32, the strings at 48
OBJECT = v7.make([(0o4767, v7.NUMBER), (0o177774, v7.refers_to(0) + v7.FROM_PC), (0o207, v7.NUMBER)], [(7, v7.NUMBER)], 4,
                 [("_f", v7.EXTERNAL, 0), ("L1", v7.TEXT, 0)])
GNU = struct.pack("<16H", 0o407, 6, 2, 4, 16, 0, 0, 0, 0o4767, 0o177774, 0o207, 7, 0, 0o11, 0, 0) + struct.pack(
    "<2HBBH2HBBH2H", 0, 7, 0o40, 0, 0, 0, 4, 2, 0, 0, 0, 10) + b"L1\0_f\0"
# those that the module cannot have: calls.c has them
IN_C = {4, 7, 9, 10, 36, 50, 60}
seen = set()


def fault_of(call, *words, **named):
    """The text of the fault that a call has, its word and its place, or nothing."""
    try:
        call(*words, **named)
    except v7.Fault as fault:
        seen.add(fault.fault)
        return v7.FAULTS[fault.fault], fault.word, fault.place
    return None


def poked(data, *changes):
    """Bytes with others at some places."""
    data = bytearray(data)
    for at, byte in changes:
        data[at] = byte
    return bytes(data)


# files: the fault, the word, and the bytes. The last ones are files, but not objects
DAMAGED = [
    ("short header", 0, OBJECT[:15]),
    ("bad magic number", 0, poked(OBJECT, (0, 6))),
    ("odd size", 0, poked(OBJECT, (2, 5))),
    ("odd size", 0, poked(OBJECT, (4, 1))),
    ("odd size", 0, poked(OBJECT, (6, 3))),
    ("odd size", 0, poked(OBJECT, (8, 23))),
    ("truncated", 0, OBJECT[:-1]),
    ("not an object", 0, poked(OBJECT, (0, 8))),
    ("no relocation", 0, poked(OBJECT, (14, 1))),
    ("bad relocation", 0, poked(OBJECT, (24, 0o12))),
    ("bad relocation", 2, poked(OBJECT, (28, 0o14))),
    ("bad relocation", 3, poked(OBJECT, (30, 0o16))),
    ("bad symbol number", 0, poked(OBJECT, (24, 0o31))),  # number 1 is local
    ("bad symbol number", 1, poked(OBJECT, (40, 0o42))),  # number 0 is defined now
    ("bad symbol number", 3, poked(OBJECT, (30, 0o50))),  # there is no number 2
]
# the kinds of remarks on them
REMARKED = {"short header": v7.REMARK_SHORT_HEADER, "bad magic number": v7.REMARK_BAD_MAGIC, "odd size": v7.REMARK_ODD_SIZE,
            "truncated": v7.REMARK_TRUNCATED, "bad relocation": v7.REMARK_BAD_RELOCATION, "bad symbol number": v7.REMARK_BAD_SYMBOL_NUMBER}
# listings: the fault, the line and the column
MISTAKES = [
    ("a column is missing", 2, 7, "text\n000000\nx\n"),
    ("not an octal number", 3, 9, "text\n000000 0 0\n000002  9 0\n"),
    ("over 177777", 1, 5, "bss 200000"),
    ("bad byte in a name", 2, 3, "symbols\n0 a\\8 42 0\n"),
    ("the address does not follow", 2, 1, "data\n000002 0 0\n"),
    ("the number does not follow", 2, 2, "symbols\n 1 a 42 0\n"),
    ("more than 32767 words", 32769, 1, "text\n" + "".join(f"{2 * n % 65536:o} 0 0\n" for n in range(32768))),
    ("more than 5461 symbols", 5463, 1, "symbols\n" + "".join(f"{n:o} a 0 0\n" for n in range(5462))),
    ("text, data or symbols is missing", 1, 1, "000000 0 0\n"),
    ("unknown word", 1, 1, "words 0\ntext\n"),
    ("text, data and symbols are not in this order", 2, 1, "data\ntext\n"),
    ("magic and flag come before text, data and symbols", 2, 1, "text\nmagic 407\n"),
    ("only symbols can follow symbols", 2, 1, "symbols\nbss 0\n"),
    ("no such magic number", 1, 7, "magic 406\n"),
    ("odd size of bss", 3, 7, "/ a note\n\n  bss 1\n"),
    ("more than 8 bytes in a name", 2, 3, "symbols\n0 _ninebyte 42 0\n"),
    ("one number too many", 3, 7, "flag 1\ntext\n0 207 0\n"),
    ("a control character", 2, 2, "text\n0\033 207 0\n"),
    ("only comments can follow end", 2, 1, "end\ntext\n"),
    ("the line end is missing: the listing was cut", 3, 1, "/ 000  000407  magic: normal\ntext\n"),
]
ALIKE = gnu_named([], [], [(b"_2345678a", 0o40, 0), (b"_2345678b", 0o40, 0)])
MANY = gnu_object([], [], [symbol(0, 0o40, 0)] * 5462, b"")
# objects in GNU's form: the fault, its word and its byte, and the options
CONVERTED = [
    ("no such option", 0, 0, 8, GNU),
    ("short header", 0, 15, 0, GNU[:15]),
    ("bad magic number", 0o410, 0, 0, poked(GNU, (0, 8))),
    ("odd size", v7.TEXT_PART, 2, 0, poked(GNU, (2, 5))),
    ("odd size", v7.DATA_PART, 4, 0, poked(GNU, (4, 3))),
    ("odd size", v7.BSS_PART, 6, 0, poked(GNU, (6, 3))),
    ("odd size", v7.SYMBOLS_PART, 8, 0, poked(GNU, (8, 12))),
    ("truncated", 0, 47, 0, GNU[:47]),
    ("truncated", 0, 57, 0, GNU[:57]),
    ("the strings have a length under 4", 0, 48, 0, poked(GNU, (50, 3))),
    ("a symbol belongs to an overlay", 1, 40, 0, poked(GNU, (45, 1))),
    ("a symbol has its name at no place of the strings", 0, 32, 0, poked(GNU, (34, 10))),
    ("a symbol is for a debugger", 1, 40, 0, poked(GNU, (44, 0o45))),
    ("a symbol has a description, and is not for a debugger", 0, 32, 0, poked(GNU, (32, 1))),
    ("a linked program", 2, 10, 0, poked(GNU[:24], (8, 0), (10, 2), (14, 1))),
    ("two names are equal in eight bytes", 0, 24, 0, ALIKE),
    ("too many symbols", 5462, 8, 0, MANY),
    ("a word refers to a symbol for a debugger", 1, 26, v7.DROP_DEBUGGER, poked(GNU, (36, 0o100))),
    ("a word refers to a local that is dropped", 0, 24, v7.DROP_LOCALS, poked(GNU, (24, 0o30))),
    ("bad symbol number", 0, 24, v7.DROP_UNUSED, poked(GNU, (24, 0o30))),
    ("bad relocation", 0, 24, 0, poked(GNU, (24, 0o12))),
]
LONG = "too many words, bytes of bss or symbols"
WORD, WORDS, NAMES = (0, v7.NUMBER), [(0, v7.NUMBER)] * 32768, [("_f", 0, 0)] * 5462
# parts: the fault, its word, and the parts
PARTS = [
    (LONG, v7.TEXT_PART, (WORDS,)),
    (LONG, v7.DATA_PART, ((), WORDS)),
    (LONG, v7.BSS_PART, ((), (), 65536)),
    (LONG, v7.SYMBOLS_PART, ((), (), 0, NAMES)),
    ("odd size", 0, ((), (), 65535)),
    ("bad relocation", 2, ([WORD, WORD], [(0, 0o14)])),
    ("bad symbol number", 1, ([WORD, (0, v7.refers_to(0))],)),
]
OPTIONS = "options exclude each other"
# what is asked of a link: the fault, the place, and the call
ASKED = [
    ("no such option", 0, {"options": 128}),
    (OPTIONS, 0, {"options": v7.RELOCATABLE | v7.STRIP}),
    (OPTIONS, 0, {"options": v7.RELOCATABLE | v7.PURE}),
    (OPTIONS, 0, {"options": v7.RELOCATABLE | v7.SPLIT}),
    (OPTIONS, 0, {"options": v7.PURE | v7.SPLIT}),
    ("the name of the entry point has more than 8 bytes", 0, {"entry": "_entry_pt"}),
    ("more than 64 names are forced", 65, {"forced": ["_1", "_1", *(f"_{n}" for n in range(2, 66))]}),
]


def named(count, kind, start=0, **parts):
    """An object with this number of names, which begin at another number."""
    return v7.make(symbols=[(f"{n:08}", kind, 0) for n in range(start, start + count)], **parts)


LOCAL, DEFINED = v7.ABSOLUTE, v7.ABSOLUTE + v7.EXTERNAL
# limits: the fault, the number of the object, the objects, and the options
LIMITS = [
    ("text full", 1, [v7.make(WORDS[1:]), v7.make([WORD])], 0),
    ("data full", 1, [v7.make((), WORDS[1:]), v7.make((), [WORD])], 0),
    ("bss full", 1, [v7.make(bss=65534), v7.make(bss=2)], 0),
    ("names full", 13, [*(named(5461, DEFINED, 5461 * n) for n in range(12)), named(3, DEFINED, 65532), named(1, DEFINED, 65535)], 0),
    ("does not fit", 0, [v7.make([WORD], bss=65534)], 0),
    ("too many symbols", 0, [named(5461, LOCAL), named(1, LOCAL)], 0),
    ("symbol number too large", 0, [named(1, LOCAL), named(4096, v7.EXTERNAL, text=[(0, v7.refers_to(4095))])], v7.RELOCATABLE),
]


class Faults(unittest.TestCase):
    def test_files(self):
        """Each call of a file, and of lists of them, blames the one that is damaged."""
        for fault, word, data in DAMAGED:
            is_file = fault not in ("short header", "bad magic number", "odd size", "truncated")
            for call in (v7.check, v7.take_apart):
                self.assertEqual(fault_of(call, data), (fault, word, 0))
            for call in (v7.strip, v7.nm, v7.size, v7.disassemble, v7.listing, v7.read):
                self.assertEqual(fault_of(call, data), None if is_file else (fault, word, 0))
            for call in (v7.link, v7.link_findings, v7.link_places, v7.link_map, v7.Session):
                self.assertEqual(fault_of(call, [OBJECT + b"more", data, OBJECT]), (fault, word, 1))
            self.assertEqual(fault_of(v7.places, data, OBJECT), None if is_file else (fault, word, 0))
            self.assertEqual(fault_of(v7.places, OBJECT, data), (fault, word, 1))
            if fault in REMARKED:
                first = v7.remarks(data)[0]
                self.assertEqual(first.kind, REMARKED[fault])
                self.assertTrue(not is_file or (first.byte, first.word) == (24 + 2 * word, word))

    def test_listings(self):
        for fault, line, column, listing in MISTAKES:
            self.assertEqual(fault_of(v7.from_listing, listing), (fault, column, line))
            with self.assertRaisesRegex(v7.Fault, f"^{re.escape(fault)}, line {line}, column {column}$"):
                v7.from_listing(listing)

    def test_conversions(self):
        for fault, word, place, options, data in CONVERTED:
            self.assertEqual(fault_of(v7.from_gnu, data, options), (fault, word, place))
        self.assertEqual(v7.from_gnu(GNU, v7.DROP_DEBUGGER), OBJECT)

    def test_parts(self):
        for fault, word, parts in PARTS:
            self.assertEqual(fault_of(v7.make, *parts), (fault, word, 0))
        self.assertEqual(len(v7.make(WORDS[1:], WORDS[1:], 65534, NAMES[1:])), 16 + 4 * 2 * 32767 + 12 * 5461)

    def test_asked(self):
        self.assertEqual(fault_of(v7.nm, OBJECT, 32), ("no such option", 0, 0))
        for fault, place, asked in ASKED:
            for call in (v7.link, v7.link_findings, v7.link_map):
                self.assertEqual(fault_of(call, [OBJECT], **asked), (fault, 0, place))

    def test_limits(self):
        for fault, place, objects, options in LIMITS:
            self.assertEqual(fault_of(v7.link, objects, options), (fault, 0, place))
            self.assertEqual(v7.link_map(objects, options).fault, next(n for n, text in v7.FAULTS.items() if text == fault))
            self.assertEqual(fault_of(lambda: v7.Session(objects).link(options)), (fault, 0, place))

    def test_sessions(self):
        """A refused edit changes nothing, nothing of what was withdrawn is kept, and a session that is closed does nothing."""
        session = v7.Session([OBJECT])
        self.assertEqual(fault_of(session.add, OBJECT[:-1]), ("truncated", 0, 1))
        self.assertEqual(fault_of(session.add, v7.strip(OBJECT)), ("no relocation", 0, 1))
        self.assertEqual(session.link(), v7.link([OBJECT]))
        found = session.map()
        self.assertEqual((found.program, found.findings), (session.link(), session.link_places()))
        for _ in range(100):
            session.add(OBJECT)
            session.withdraw()
        session.withdraw()
        self.assertEqual(fault_of(session.withdraw), ("nothing to withdraw", 0, 0))
        self.assertEqual((session.link(), session._kept, session.state()["objects"]), (v7.link([]), [], 0))
        session.close()
        for call in session.withdraw, session.link, session.link_places, session.map, session.state, lambda: session.add(OBJECT):
            self.assertEqual(fault_of(call), ("no session", 0, 0))

    def test_interrupts(self):
        """Edits that Ctrl-C ends before the library makes them, or after that: the module knows which."""
        # a shell has its background ignore the signal
        signal.signal(signal.SIGINT, signal.default_int_handler)
        for is_made in (False, True):
            session = v7.Session([OBJECT])
            for name, *words in ("add", OBJECT), ("add", v7.make([WORD])), ("withdraw",):
                call = getattr(v7._KEEPING, f"v7_session_{name}")
                cut = lambda *given: (is_made and call(*given), signal.raise_signal(signal.SIGINT))
                with unittest.mock.patch.object(v7._KEEPING, call.__name__, cut), self.assertRaises(KeyboardInterrupt):
                    getattr(session, name)(*words)
            self.assertEqual((session.map().program, len(session.map().objects)), (session.link(), 1 + is_made))

    def test_copies(self):
        """A fault that comes from another process, or is copied, is the same."""
        with ProcessPoolExecutor(1) as pool:
            for text, call, data in (("short header, object 0", v7.check, b""), ("short header, byte 5", v7.from_gnu, b"short"),
                                     ("unknown word, line 1, column 1", v7.from_listing, "x")):
                fault = pool.submit(call, data).exception()
                for again in fault, copy.copy(fault), copy.deepcopy(fault):
                    self.assertEqual((str(again), vars(again)), (text, vars(fault)))

    @classmethod
    def tearDownClass(cls):
        if set(v7.FAULTS) - IN_C != seen:
            raise AssertionError(f"no input has these faults: {sorted(set(v7.FAULTS) - IN_C - seen)}")


class Module(unittest.TestCase):
    def test_numbers(self):
        """Numbers that do not fit their places."""
        parts = ([(65536, 0)],), ([(-1, 0)],), ((), [(0, 65536)]), ((), (), 1 << 32), ((), (), -2)
        symbols = ("_f", 65536, 0), ("_f", 0, 65536), ("_too_long", 0, 0)
        for call, *words in (*((v7.make, *them) for them in parts), *((v7.make, (), (), 0, [it]) for it in symbols),
                             (v7.link, (), 1 << 32), (v7.link, (), -1), (v7.nm, OBJECT, 1 << 32), (v7.disassemble_words, [65536]),
                             (v7.disassemble_words, [0], -1), (v7.refers_to, 4096), (v7.refers_to, -1)):
            with self.subTest(call=call, words=words), self.assertRaises(ValueError):
                call(*words)

    def test_types(self):
        for call in re.findall("^v7.*", read(f"{TOP}/tests/libv7/wrong_types.py"), re.M):
            with self.subTest(call), self.assertRaises(TypeError):
                eval(call)

    def test_itself(self):
        """The version, texts of faults, type hints, and the options of nm."""
        self.assertEqual(len({*v7.FAULTS.values()}), len(v7.FAULTS))
        self.assertIn(f'#define V7_VERSION "{v7.version()}"', read(f"{TOP}/include/v7.h").split("\n"))
        self.assertEqual(v7.version(), v7.__version__)
        self.assertTrue(all(typing.get_type_hints(getattr(v7, name)) for name in ("link", "make", "read", "remarks", "from_gnu")))
        data = v7.make([WORD] * 2, symbols=[("_u", v7.EXTERNAL, 0), ("_t", v7.TEXT + v7.EXTERNAL, 2), ("b", v7.TEXT, 0)])
        undefined, defined, local = "       U _u\n", "000002 T _t\n", "000000 t b\n"
        for options, wanted in ((0, defined + undefined + local), (v7.NM_EXTERNAL, defined + undefined), (v7.NM_UNDEFINED, undefined),
                                (v7.NM_BY_VALUE, undefined + local + defined), (v7.NM_TABLE_ORDER, undefined + defined + local),
                                (v7.NM_REVERSE, local + undefined + defined)):
            self.assertEqual(v7.nm(data, options), wanted)

    def test_words(self):
        """Relocation words and types, as an object has them."""
        symbols = [("a", v7.ABSOLUTE, 0), ("d", v7.DATA, 0), ("b", v7.BSS, 0)]
        data = v7.make([(0, v7.IN_TEXT), (0, v7.IN_DATA), (0, v7.IN_BSS)], symbols=symbols)
        self.assertEqual(struct.unpack_from("<3H", data, 22), (2, 4, 6))
        self.assertEqual([kind for _, kind, _ in struct.iter_unpack("<8sHH", data[28:])], [1, 3, 4])

    def test_places(self):
        """Objects are where a link puts them, in each layout and also in a stripped program, and one that is not linked is nowhere."""
        other = v7.make([(0o240, v7.NUMBER), (0o207, v7.NUMBER)], [(0, v7.IN_TEXT), (9, v7.NUMBER)], 0, [("_f", v7.TEXT + v7.EXTERNAL, 2)])
        changed = v7.make([(0o240, v7.NUMBER), (0o206, v7.NUMBER)])
        for options, start in ((0, 10), (v7.RELOCATABLE, 10), (v7.PURE, 8192), (v7.SPLIT, 0)):
            program = v7.link([OBJECT, other], options).file
            for data in program, program + b"more", v7.strip(program):
                self.assertEqual(v7.places(data, OBJECT), [v7.Place(0, start)])
                self.assertEqual(v7.places(data, other), [v7.Place(6, start + 2)])
                self.assertEqual(v7.places(data, changed), [])
        # the address of _f is another in each word, so they fit alone, and not together
        words = [v7.make([(at, v7.refers_to(0))], symbols=[("_f", v7.EXTERNAL, 0)]) for at in (0, 4)]
        both = v7.make([(0, v7.refers_to(0)), (4, v7.refers_to(1))], symbols=[("_f", v7.EXTERNAL, 0)] * 2)
        program = v7.link([*words, v7.make([(0o207, v7.NUMBER)], symbols=[("_f", v7.TEXT + v7.EXTERNAL, 0)])]).file
        self.assertEqual(v7.places(program, words[0]), [v7.Place(at, None) for at in (0, 2, 4)])
        self.assertEqual(v7.places(program, both), [v7.Place(0, None)])
        self.assertEqual(v7.places(poked(program, (18, 9)), both), [])
        # data that may be at two addresses, without text at one or at none, and neither text nor data
        data = v7.make(data=[(7, v7.NUMBER)])
        program = v7.link([v7.make([(0o207, v7.NUMBER)]), data, v7.make(data=[(9, v7.NUMBER)]), data]).file
        self.assertEqual(v7.places(program, v7.make([(0o207, v7.NUMBER)], [(7, v7.NUMBER)])), [v7.Place(0, None)])
        for words, wanted in (((7,), [v7.Place(0, None)]), ((9,), [v7.Place(0, 4)]), ((8,), []), ((7, 9, 7), [v7.Place(0, 2)]), ((), [v7.Place(0, None)])):
            self.assertEqual(v7.places(program, v7.make(data=[(word, v7.NUMBER) for word in words])), wanted)

    def test_programs(self):
        """Listings, conversions and remarks are those of the programs."""
        with new_folder():
            for path in sorted(glob.glob(f"{TOP}/examples/*.o")):
                data = read_bytes(path)
                said = ran(program("v7-explain"), path).texts()[1]
                listing = v7.listing(data)
                self.assertEqual(listing.split("\n"), [line for line in said.split("\n") if not line.startswith("/")])
                remarks = re.findall(r"^/ (?:wrong|odd): byte 0[0-7]+ \((\d+)\): (.*)", said, re.M)
                self.assertEqual([(str(it.byte), it.text) for it in v7.remarks(data)], remarks)
                self.assertEqual(ran(program("v7-object"), write("x.lst", listing), "x.o").status, 0)
                self.assertEqual(v7.from_listing(listing), read_bytes("x.o"))
            for path in sorted(glob.glob(f"{TOP}/examples/*.gnu")):
                self.assertEqual(ran(program("v7-from-gnu"), "-q", path, "x.o").status, 0)
                self.assertEqual(v7.from_gnu(read_bytes(path)), read_bytes("x.o"))


def load_tests(_loader, tests, _pattern):
    tests.addTests(doctest.DocTestSuite(v7))
    return tests


if __name__ == "__main__":
    unittest.main()
