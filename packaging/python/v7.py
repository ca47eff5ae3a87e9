"""The linker of v7 from Python, by libv7. v7(3) and v7.h say what each call is for.

    >>> import v7
    >>> # mov $_count,r0: a number, and a word that refers to symbol 0
    >>> main_o = v7.make(text=[(0o012700, v7.NUMBER), (0, v7.refers_to(0))],
    ...                  symbols=[("_count", v7.UNDEFINED | v7.EXTERNAL, 0)])
    >>> count_o = v7.make(data=[(21, v7.NUMBER)], symbols=[("_count", v7.DATA | v7.EXTERNAL, 0)])
    >>> program = v7.link([main_o, count_o])
    >>> program.status, program.report
    (0, '')
    >>> print(v7.nm(program.file), end="")
    000004 D _count

    >>> session = v7.Session([main_o])
    >>> session.add(count_o)
    >>> session.withdraw()
    >>> print(session.link().report, end="")
    Undefined:
    _count
    >>> session.state()["externals"]
    [{'name': '_count', 'state': 'undefined', 'value': 0}]

Objects and files are bytes; an address in data or bss counts from the front of text. A fault is raised as `Fault`. A number that does
not fit its place, as 65,536 for a word, is a ValueError, and a wrong type a TypeError that names the argument. The library is the file
that the environment variable LIBV7 names, or else the one beside this module, as in the wheel, or else the one that the system's loader
finds.
"""
from __future__ import annotations

import ctypes
import functools
import json
import os
import struct
from typing import Any, Dict, Iterable, List, NamedTuple, NoReturn, Optional, Sequence, Tuple

_BESIDE = os.path.join(os.path.dirname(os.path.abspath(__file__)), "libv7.so.0")
__version__ = "0.4.0"

_PATH = os.environ.get("LIBV7") or (_BESIDE if os.path.exists(_BESIDE) else "libv7.so.0")
_LIBRARY = ctypes.CDLL(_PATH)
# calls on a session that is kept: no other thread of Python runs during one
_KEEPING = ctypes.PyDLL(_PATH)
# the number that means no object
_NO_OBJECT = ctypes.c_size_t(-1).value


def _struct(*fields: Tuple[Any, str]) -> Any:
    """A struct of C: types, each with the names of its fields. The fields of a struct `map` are its own too."""
    named = [(name, kind) for kind, names in fields for name in names.split()]
    return type("Struct", (ctypes.Structure,), {"_anonymous_": [name for name, _ in named if name == "map"], "_fields_": named})


_U16, _U32, _U64, _SIZE, _NAME = ctypes.c_uint16, ctypes.c_uint32, ctypes.c_uint64, ctypes.c_size_t, ctypes.c_ubyte * 8

# from include/v7.h, by tools/faces.py
# enum v7_part
TEXT_PART, DATA_PART, BSS_PART, SYMBOLS_PART = 1, 2, 3, 4
# enum v7_nm_option
NM_EXTERNAL, NM_BY_VALUE, NM_TABLE_ORDER, NM_REVERSE, NM_UNDEFINED = 1, 2, 4, 8, 16
# enum v7_link_option
RELOCATABLE, STRIP, EXTERNALS, NOT_L, PURE, SPLIT, FORCE_COMMONS = 1, 2, 4, 8, 16, 32, 64
# enum v7_relocation
NUMBER, IN_TEXT, IN_DATA, IN_BSS, FROM_PC = 0, 2, 4, 6, 1
# enum v7_segment
UNDEFINED, ABSOLUTE, TEXT, DATA, BSS, EXTERNAL = 0, 1, 2, 3, 4, 32
# enum v7_gnu_option
DROP_DEBUGGER, DROP_UNUSED, DROP_LOCALS = 1, 2, 4
# enum v7_remark_kind
REMARK_SHORT_HEADER, REMARK_BAD_MAGIC, REMARK_ODD_SIZE, REMARK_TRUNCATED, REMARK_BAD_RELOCATION, REMARK_BAD_SYMBOL_NUMBER = 1, 2, 3, 4, 5, 6
REMARK_MORE_BAD_WORDS, REMARK_IGNORED_ENTRY, REMARK_IGNORED_WORD, REMARK_BYTES_AFTER_TABLE, REMARK_IGNORED_RELOCATION_BITS = 7, 8, 9, 10, 11
REMARK_OUTSIDE_REFERENCE, REMARK_EMPTY_NAME, REMARK_UNPRINTABLE_NAME, REMARK_BYTES_AFTER_NAME, REMARK_REPEATED_NAME = 12, 13, 14, 15, 16
REMARK_IGNORED_TYPE_BITS, REMARK_UNKNOWN_TYPE, REMARK_ODD_COMMON, REMARK_OUTSIDE_VALUE, REMARK_RELOCATED_FIRST_WORD = 17, 18, 19, 20, 21
REMARK_UNSUITABLE_PC_BIT, REMARK_CUT_INSTRUCTION, REMARK_NO_INSTRUCTION, REMARK_BRANCH_OUTSIDE, REMARK_BRANCH_WITHIN = 22, 23, 24, 25, 26
REMARK_UNSUITABLE_REFERENCE, REMARK_UNSUITABLE_ADDRESS, REMARK_ABSOLUTE_TEXT, REMARK_NO_ROOM, REMARK_UNUSED_NAME = 27, 28, 29, 30, 31
REMARK_UNSUITABLE_JUMP, REMARK_ODD_OPERAND, REMARK_NO_END, REMARK_SIMILAR_NAME, REMARK_UNSUITABLE_LINK = 32, 33, 34, 35, 36
# enum v7_finding_kind
MULTIPLY_DEFINED, RESERVED_NAME, ENTRY_NOT_IN_TEXT, UNDEFINED_NAME = 1, 2, 3, 4
# enum v7_map_name_state
NAME_IS_PLACED, NAME_IS_UNDEFINED, NAME_IS_MULTIPLE = 1, 2, 4
# enum v7_map_use_kind
DEFINES, MAKES_COMMON, WANTS, FORCES, TEXT_WORD, DATA_WORD, TEXT_NEAR, DATA_NEAR = 1, 2, 3, 4, 5, 6, 7, 8
# enum v7_map_limit_kind
LIMIT_TEXT, LIMIT_DATA, LIMIT_BSS, LIMIT_END, LIMIT_SYMBOLS, LIMIT_NUMBER, LIMIT_NAMES = 1, 2, 3, 4, 5, 6, 7
# enum v7_want
_REPORT, _FINDINGS, _PLACES, _MAP = 1, 2, 4, 8
_NO_ROOM = 60
# what the faults mean
FAULTS: Dict[int, str] = {
    1: "no such option", 2: "options exclude each other", 3: "the name of the entry point has more than 8 bytes",
    4: "the size of the forced names is not a multiple of 8", 5: "more than 64 names are forced",
    6: "too many words, bytes of bss or symbols", 7: "a struct is too short", 8: "no session", 9: "no such want", 10: "a session already",
    11: "short header", 12: "bad magic number", 13: "odd size", 14: "truncated", 21: "not an object", 22: "no relocation",
    23: "bad relocation", 24: "bad symbol number", 31: "text full", 32: "data full", 33: "bss full", 34: "names full",
    35: "nothing to withdraw", 36: "not kept by a session", 41: "does not fit", 42: "too many symbols", 43: "symbol number too large",
    50: "no memory", 60: "no room", 61: "a column is missing", 62: "not an octal number", 63: "over 177777", 64: "bad byte in a name",
    65: "the address does not follow", 66: "the number does not follow", 67: "more than 32767 words", 68: "more than 5461 symbols",
    69: "text, data or symbols is missing", 70: "unknown word", 71: "text, data and symbols are not in this order",
    72: "magic and flag come before text, data and symbols", 73: "only symbols can follow symbols", 74: "no such magic number",
    75: "odd size of bss", 76: "more than 8 bytes in a name", 77: "one number too many", 78: "a control character",
    79: "only comments can follow end", 80: "the line end is missing: the listing was cut", 81: "the strings have a length under 4",
    82: "a symbol belongs to an overlay", 83: "a symbol has its name at no place of the strings", 84: "a symbol is for a debugger",
    85: "a symbol has a description, and is not for a debugger", 86: "a linked program", 87: "two names are equal in eight bytes",
    88: "a word refers to a symbol for a debugger", 89: "a word refers to a local that is dropped",
}
_Answer = _struct((_U32, "fault word"), (_SIZE, "place size report_size"))
_Remark = _struct((_SIZE, "place text text_size"), (_U32, "kind part word"))
_Place = _struct((_U16, "text data has_data"))
_Slice = _struct((ctypes.c_char_p, "bytes"), (_SIZE, "size"))
_Finding = _struct((_NAME, "name"), (_U32, "kind"))
_FindingPlace = _struct((_SIZE, "first further"))
_MapHead = _struct(
    (_U64, "text_end data_start data_end bss_start bss_end"), (_SIZE, "place"), (_U32, "fault state"), (_U16, "magic entry_point"),
    (_NAME, "entry_name"),
)
_MapObject = _struct((_U64, "text data bss"), (_SIZE, "symbols"), (_U16, "text_size data_size bss_size"))
_MapName = _struct((_NAME, "name"), (_SIZE, "definer next_definer user"), (_U32, "state"), (_U16, "type value"))
_MapUse = _struct(
    (_U64, "address"), (_SIZE, "object name"), (_NAME, "label"), (_U32, "kind"), (_U16, "offset line beyond is_labelled inside"),
)
_MapLimit = _struct((_U64, "used most"), (_U32, "kind"))
_Map = _struct(
    (_MapHead, "head"), (_SIZE, "object_count name_count use_count limit_count"), (ctypes.c_void_p, "objects"), (_SIZE, "object_room"),
    (ctypes.c_void_p, "names"), (_SIZE, "name_room"), (ctypes.c_void_p, "uses"), (_SIZE, "use_room"), (ctypes.c_void_p, "limits"),
    (_SIZE, "limit_room"),
)
_Request = _struct(
    (_SIZE, "size"), (_U32, "options wants"), (_Slice, "entry forced"), (ctypes.POINTER(_Slice), "objects"), (_SIZE, "object_count"),
)
_Result = _struct(
    (_SIZE, "size"), (_U32, "fault word"), (_SIZE, "place file_size report_size"), (ctypes.c_void_p, "file"), (_SIZE, "file_room"),
    (ctypes.c_void_p, "report"), (_SIZE, "report_room finding_count"), (ctypes.c_void_p, "findings"), (_SIZE, "finding_room place_count"),
    (ctypes.c_void_p, "places"), (_SIZE, "place_room"), (_Map, "map"),
)
_Session = _struct((_U32, "is_open"), (ctypes.c_void_p, "state"))
_Word = _struct((_U16, "value reloc"))
_Symbol = _struct((_NAME, "name"), (_U16, "type value"))
_Counts = _struct((_SIZE, "text data symbols"), (_U32, "bss"))
_Header = _struct((_U16, "magic text_size data_size bss_size symbol_size entry_point unused flag"))
# end of what is from include/v7.h
# the buffers of a result besides that of the file, and by which bit each is wanted
_BUFFERS = [
    (_REPORT, "report", ctypes.c_char), (_FINDINGS, "findings", _Finding), (_PLACES, "places", _FindingPlace),
    (_MAP, "objects", _MapObject), (_MAP, "names", _MapName), (_MAP, "uses", _MapUse), (_MAP, "limits", _MapLimit),
]

Word = Tuple[int, int]
Symbol = Tuple[str, int, int]


class Program(NamedTuple):
    """What a link gives: 0, or 1 if there is something to report; the bytes of the file; the lines of the report."""

    status: int
    file: bytes
    report: str


class Findings(NamedTuple):
    """What is reported of a link: names that are multiply defined, one for each definition that differs from the first; those of
    `_etext`, `_edata` and `_end` that an object defines or makes a common; the entry point if it is not in text, and else
    None; and undefined names."""

    multiples: List[str]
    reserved: List[str]
    entry: Optional[str]
    undefined: List[str]


class Found(NamedTuple):
    """What a link gives, with its report as `Findings`."""

    status: int
    file: bytes
    findings: Findings


class Finding(NamedTuple):
    """A name that is reported, why, and the numbers of its objects: the first that defines it, or else the first with a symbol of it, or
    None; and, if it is MULTIPLY_DEFINED, the object of this further definition."""

    name: str
    kind: int
    first: Optional[int]
    further: Optional[int]


class MapObject(NamedTuple):
    """An object of a map: where its segments begin, how many symbols it has, and the sizes of the segments in bytes."""

    text: int
    data: int
    bss: int
    symbols: int
    text_size: int
    data_size: int
    bss_size: int


class MapName(NamedTuple):
    """A name of a map: the numbers of the objects that define it first and next, and of the first with a symbol of it that does not
    define it; the bits NAME_IS_PLACED, NAME_IS_UNDEFINED and NAME_IS_MULTIPLE; and its type word and value, which are those of the
    link if it is placed."""

    name: str
    definer: Optional[int]
    next_definer: Optional[int]
    user: Optional[int]
    state: int
    type: int
    value: int


class MapUse(NamedTuple):
    """A symbol of an object, or a word that leads to it, or beyond it by the bytes `inside`: the numbers of the object and of the name,
    one of DEFINES to DATA_NEAR, and of a word its address and its place, the place of its line, and the label before that with the bytes
    beyond it. The place of a symbol is its value. A forced name has no object."""

    object: Optional[int]
    name: int
    kind: int
    address: int
    offset: int
    line: int
    label: Optional[str]
    beyond: int
    inside: int


class MapLimit(NamedTuple):
    """How much is used of a limit: of text, data, bss, the end of bss, the symbols, the symbol number, or the external names."""

    kind: int
    used: int
    most: int


class Map(NamedTuple):
    """The map of a link: 0, or why it is refused, and the number of the object that is; where text ends, and data and bss begin and
    end; the magic, the entry point, and its name if it is not in text; what `v7-explain -m` shows; and what the link gives, or None, with
    what is reported of it, as by `link_places`."""

    status: int
    fault: int
    place: int
    segments: Tuple[int, int, int, int, int]
    magic: int
    entry_point: int
    entry_name: Optional[str]
    objects: List[MapObject]
    names: List[MapName]
    uses: List[MapUse]
    limits: List[MapLimit]
    program: Optional[Program]
    findings: List[Finding]


class Remark(NamedTuple):
    """A remark on a file: one of REMARK_SHORT_HEADER to REMARK_UNSUITABLE_LINK, the byte of the file, and the text; and the part that the byte
    is in, or that its relocation word belongs to, with the index of the word, text before data, or the number of the symbol. A byte that
    is elsewhere has the part 0."""

    kind: int
    byte: int
    text: str
    part: int
    word: int


class Place(NamedTuple):
    """A place at which an object fits a program: the address of its text, and that of its data, or None if it has no data, or its data may
    be at several addresses."""

    text: int
    data: Optional[int]


class Parts(NamedTuple):
    """An object in parts: pairs of a word and its relocation word, the size of bss in bytes, and triples of a name, a type word
    and a value."""

    text: List[Word]
    data: List[Word]
    bss: int
    symbols: List[Symbol]


class Header(NamedTuple):
    """The eight words that a file begins with. Sizes are in bytes; relocation words are there if the flag is 0."""

    magic: int
    text_size: int
    data_size: int
    bss_size: int
    symbol_size: int
    entry_point: int
    unused: int
    flag: int


class Fault(Exception):
    """Why a call gives nothing: `fault` is its number, `place` that of the object or name, the line of a listing, or the byte of a file in
    GNU's form, and `word` the index of the word, the part of an object that is too long, the column, or a number of that file.

    >>> try:
    ...     check(b"")
    ... except Fault as fault:
    ...     print(fault.fault, fault)
    11 short header, object 0
    """

    def __init__(self, text: str, fault: int, place: int, word: int) -> None:
        super().__init__(text, fault, place, word)
        self.fault, self.place, self.word = fault, place, word

    def __str__(self) -> str:
        return str(self.args[0])


def _fault(answer: Any, is_byte: bool = False) -> Fault:
    """The fault of an answer, whose place may be a byte of a file in GNU's form."""
    fault, place, word = answer.fault, answer.place, answer.word
    where = f" at word {word}" if fault in (23, 24) else f" in part {word}" if fault == 6 else ""
    if is_byte:
        where = f", byte {place}" if fault != 1 else ""
    elif 60 < fault < 81:
        where = f", line {place}, column {word}"
    elif 10 < fault < 35:
        where += f", object {place}"
    return Fault(FAULTS.get(fault, f"fault {fault}") + where, fault, place, word)


def refers_to(number: int) -> int:
    """The relocation word of a word that refers to the symbol of this number, an undefined external.

    >>> refers_to(1) == 0o30
    True
    """
    return 0o10 + 0o20 * _fitting("number", number, 12)


def _fitting(what: str, number: int, bits: int) -> int:
    if not isinstance(number, int):
        raise _wrong(what, "a number", number)
    if not 0 <= number < 1 << bits:
        raise ValueError(f"{what} is 0 to {(1 << bits) - 1}, and not {number}")
    return number


def _number(what: str, number: int) -> ctypes.c_uint32:
    return ctypes.c_uint32(_fitting(what, number, 32))


def _wrong(what: str, wanted: str, value: Any) -> TypeError:
    return TypeError(f"{what}: {wanted} is required, not '{type(value).__name__}'")


def _bytes(what: str, data: bytes) -> bytes:
    """The same bytes, or a copy if they can change."""
    if type(data) is bytes:
        return data
    try:
        return memoryview(data).tobytes()
    except TypeError:
        raise _wrong(what, "bytes", data) from None


def _items(what: str, items: Iterable[Any]) -> List[Any]:
    """The items of a list; bytes and a str have other ones."""
    if isinstance(items, (bytes, bytearray, memoryview, str)):
        raise _wrong(what, "a list", items)
    try:
        return [*items]
    except TypeError:
        raise _wrong(what, "a list", items) from None


def _list(objects: Iterable[bytes]) -> List[bytes]:
    return [_bytes(f"objects[{number}]", data) for number, data in enumerate(_items("objects", objects))]


def _latin(what: str, text: str) -> bytes:
    if not isinstance(text, str):
        raise _wrong(what, "a str", text)
    return text.encode("latin-1")


def _slice(data: bytes) -> List[Any]:
    data = _bytes("data", data)
    return [ctypes.c_char_p(data), ctypes.c_size_t(len(data))]


@functools.lru_cache(None)
def _format(kind: Any) -> str:
    """How `struct` reads a record."""
    form = "".join("8s" if field is _NAME else field._type_ for _, field in kind._fields_)
    return f"{form}{ctypes.sizeof(kind) - struct.calcsize(form)}x"


def _written(kind: Any, room: Any, count: int) -> Any:
    """What a call has written into a room: bytes, or the fields of each record."""
    data = ctypes.string_at(room, count * ctypes.sizeof(kind))
    return data if kind is ctypes.c_char else [*struct.iter_unpack(_format(kind), data)]


def _made(call: Any, answer: Any, rooms: Sequence[Tuple[str, Any]], sized: Any = None, is_byte: bool = False) -> Tuple[int, List[Any]]:
    """Makes a call with a room and its size for each pair of a field, which has the size, and a type; again, if the sizes that it answered
    are larger. Returns the status and what is written. The place of a fault may be a byte."""
    sized = answer if sized is None else sized
    for _ in range(2):
        sizes = [getattr(sized, field) for field, _ in rooms]
        buffers = [(kind * max(size, 1))() for (_, kind), size in zip(rooms, sizes)]
        status = call(*(part for pair in zip(buffers, map(ctypes.c_size_t, sizes)) for part in pair))
        if answer.fault != _NO_ROOM:
            break
    if answer.fault:
        raise _fault(answer, is_byte)
    return status, [_written(kind, buffer, getattr(sized, field)) for buffer, (field, kind) in zip(buffers, rooms)]


def _given(name: str, *words: Any, guess: int = 0, is_byte: bool = False, library: Any = _LIBRARY) -> bytes:
    """What a call writes, first with a room of the guessed size."""
    call, answer = getattr(library, name), _Answer(size=guess)
    return bytes(_made(lambda *room: call(*words, *room, ctypes.byref(answer)), answer, [("size", ctypes.c_char)], is_byte=is_byte)[1][0])


def version() -> str:
    """The version of the library.

    >>> [part.isdigit() for part in version().split(".")]
    [True, True, True]
    """
    number = _LIBRARY.v7_version()
    return f"{number >> 16}.{number >> 8 & 255}.{number & 255}"


def check(data: bytes) -> int:
    """How many bytes the object takes that the bytes begin with.

    >>> check(make(text=[(7, NUMBER)]) + b"more")
    20
    """
    answer = _Answer()
    if _LIBRARY.v7_check(*_slice(data), ctypes.byref(answer)):
        raise _fault(answer)
    return int(answer.size)


def strip(data: bytes) -> bytes:
    """The file without its symbols and relocation.

    >>> len(strip(make(text=[(7, NUMBER)])))
    18
    """
    return _given("v7_strip", *_slice(data))


def size(data: bytes) -> str:
    """The line of `v7 size` for a file.

    >>> size(make(text=[(7, NUMBER)], bss=4))
    '2+0+4 = 6b = 06b\\n'
    """
    return _given("v7_size", *_slice(data)).decode("latin-1")


def nm(data: bytes, options: int = 0) -> str:
    """The lines of `v7 nm` for a file.

    >>> nm(make(text=[(7, NUMBER)], symbols=[("_f", TEXT | EXTERNAL, 0), ("l", TEXT, 0)]), NM_EXTERNAL)
    '000000 T _f\\n'
    """
    return _given("v7_nm", _number("options", options), *_slice(data)).decode("latin-1")


def disassemble(data: bytes) -> str:
    """The text of a file as instructions, with names and labels, as `v7-explain -p` shows it without notes.

    >>> call = [(0o4767, NUMBER), (0o177774, refers_to(0) + FROM_PC), (0o207, NUMBER)]
    >>> print(disassemble(make(text=call, symbols=[("_f", EXTERNAL, 0), ("_main", TEXT | EXTERNAL, 0)])), end="")
    _main:
    000000  004767 177774         jsr pc,_f
    000004  000207                rts pc
    """
    return _given("v7_disassemble", *_slice(data)).decode("latin-1")


def disassemble_words(words: Iterable[int], address: int = 0) -> str:
    """Words as instructions, without names and labels. The first is at the address, and the address after 0177776 is 0.

    >>> print(disassemble_words([0o077077, 0o012700, 5], 0o1000), end="")
    001000  077077                sob r0,604
    001002  012700 000005         mov $5,r0
    >>> disassemble_words([65536])
    Traceback (most recent call last):
    ValueError: words[0] is 0 to 65535, and not 65536
    """
    at = ctypes.c_uint16(_fitting("address", address, 16))
    numbers = [_fitting(f"words[{place}]", word, 16) for place, word in enumerate(_items("words", words))]
    return _given("v7_disassemble_words", at, *_array(ctypes.c_uint16, numbers)).decode("latin-1")


def listing(data: bytes) -> str:
    """The listing of a file, as `v7-explain` prints it without its notes; `from_listing` gives the file again.

    >>> print(listing(make(text=[(0o207, NUMBER)], symbols=[("_f", TEXT | EXTERNAL, 0)])), end="")
    text
    _f:
    000000  000207     0  rts pc
    data
    bss 0
    symbols
    0     _f         42  000000  T
    end
    """
    return _given("v7_list", *_slice(data)).decode("latin-1")


def from_listing(text: str) -> bytes:
    """The file that a listing describes, as `v7-object` writes it.

    >>> from_listing("text\\n000000 207 0\\n") == make(text=[(0o207, NUMBER)])
    True
    >>> from_listing("text\\n000000 209 0\\n")
    Traceback (most recent call last):
    v7.Fault: not an octal number, line 2, column 8
    """
    return _given("v7_from_listing", *_slice(_latin("text", text)))


def from_gnu(data: bytes, options: int = 0) -> bytes:
    """The object that one of GNU's assembler becomes, as `v7-from-gnu` writes it.

    >>> from_gnu(b"short")
    Traceback (most recent call last):
    v7.Fault: short header, byte 5
    """
    return _given("v7_from_gnu", _number("options", options), *_slice(data), is_byte=True)


def remarks(data: bytes) -> List[Remark]:
    """What is wrong and odd in a file, as `v7-explain` reports it.

    >>> for remark in remarks(b"\\7\\1"):
    ...     print(remark.kind == REMARK_SHORT_HEADER, remark.byte, remark.text)
    True 2 short header: the file ends here, and a header has 16 bytes
    >>> [remark] = remarks(make(text=[(0o240, NUMBER), (0o207, NUMBER)], symbols=[("", ABSOLUTE, 0)]))
    >>> remark.kind == REMARK_EMPTY_NAME, remark.part == SYMBOLS_PART, remark.word
    (True, True, 0)
    """
    answer, words = _Answer(), _slice(data)
    rooms = [("size", ctypes.c_char), ("report_size", _Remark)]
    texts, found = _made(lambda *room: _LIBRARY.v7_remarks(*words, *room, ctypes.byref(answer)), answer, rooms)[1]
    return [Remark(kind, place, texts[at : at + size].decode("latin-1"), part, word) for place, at, size, kind, part, word in found]


def places(program: bytes, part: bytes) -> List[Place]:
    """The places at which an object fits a program, which may be stripped, in the order of their addresses.

    >>> first, second = make([(0o240, NUMBER)]), make([(0o12700, NUMBER), (2, IN_DATA)], [(7, NUMBER), (9, NUMBER)])
    >>> places(link([first, second], STRIP).file, second)
    [Place(text=2, data=6)]
    >>> places(second, b"")
    Traceback (most recent call last):
    v7.Fault: short header, object 1
    """
    answer, words = _Answer(), [*_slice(program), *_slice(part)]
    found = _made(lambda *room: _LIBRARY.v7_places(*words, *room, ctypes.byref(answer)), answer, [("size", _Place)])[1][0]
    return [Place(text, at if has_data else None) for text, at, has_data in found]


def _padded(what: str, name: str) -> bytes:
    data = _latin(what, name)
    if len(data) > 8:
        raise ValueError(f"a name has at most 8 bytes, and not {len(data)}: {name}")
    return data.ljust(8, b"\0")


def _array(kind: Any, items: Sequence[Any]) -> List[Any]:
    return [(kind * max(len(items), 1))(*items), ctypes.c_size_t(len(items))]


def _forced(names: Iterable[str]) -> bytes:
    return b"".join(_padded(f"forced[{number}]", name) for number, name in enumerate(_items("forced", names)))


def _asked(parts: List[bytes], options: int, entry: str, forced: Iterable[str], wants: int) -> Any:
    """What a link of these objects is asked for. It keeps what it points to."""
    named, names = _latin("entry", entry), _forced(forced)
    slices = (_Slice * max(len(parts), 1))(*((data, len(data)) for data in parts))
    number = _fitting("options", options, 32)
    return _Request(ctypes.sizeof(_Request), number, wants, _Slice(named, len(named)), _Slice(names, len(names)), slices, len(parts))


def _name(data: bytes) -> str:
    return data.rstrip(b"\0").decode("latin-1")


def _object(number: int) -> Optional[int]:
    return None if number == _NO_OBJECT else number


class _Run:
    """A link: what it gives."""

    def __init__(self, objects: Iterable[bytes], options: int, entry: str, forced: Iterable[str], wants: int,
                 call: Any = None, size: int = 0) -> None:
        """Links objects, or by another call what has this size: once, if it reports at most 2,000 names."""
        parts, call = _list(objects), call or _LIBRARY.v7_run
        request, size = _asked(parts, options, entry, forced, wants), size + sum(map(len, parts))
        # first there is room for what a link of such objects should give: no more than them, a header, and a symbol for each forced name
        size += 16 + request.forced.size // 8 * 12
        # of a file each symbol has twelve bytes, a word with what it refers to four, and a line of the report at most 27
        symbols, few = size // 12, min(size // 12, 2000)
        result = _Result(ctypes.sizeof(_Result), file_size=size, report_size=27 * few + 18, finding_count=few, place_count=few,
                         object_count=symbols, name_count=symbols, use_count=3 * symbols, limit_count=LIMIT_NAMES)
        rooms = {"file": ctypes.c_char, **{name: kind for want, name, kind in _BUFFERS if wants & want}}
        stems = [name.rstrip("s") for name in rooms]

        def lend(*words: Any) -> int:
            for name, stem, room, size in zip(rooms, stems, words[::2], words[1::2]):
                setattr(result, name, ctypes.addressof(room))
                setattr(result, f"{stem}_room", size)
            return int(call(ctypes.byref(request), ctypes.byref(result)))

        fields = [(f"{stem}_{'size' if kind is ctypes.c_char else 'count'}", kind) for stem, kind in zip(stems, rooms.values())]
        self.status, given = _made(lend, result, fields)
        self.given, self.head = dict(zip(rooms, given)), result.head

    def program(self) -> Program:
        return Program(self.status, self.given["file"], self.given["report"].decode("latin-1"))

    def found(self) -> Found:
        kinds = MULTIPLY_DEFINED, RESERVED_NAME, ENTRY_NOT_IN_TEXT, UNDEFINED_NAME
        rows = self.given["findings"]
        multiples, reserved, entries, undefined = ([_name(name) for name, of in rows if of == kind] for kind in kinds)
        return Found(self.status, self.given["file"], Findings(multiples, reserved, entries[0] if entries else None, undefined))

    def placed(self) -> List[Finding]:
        rows = zip(self.given["findings"], self.given["places"])
        return [Finding(_name(name), kind, _object(first), _object(further)) for (name, kind), (first, further) in rows]

    def mapped(self) -> Map:
        given = self.given
        objects, limits = [*map(MapObject._make, given["objects"])], [MapLimit(kind, used, most) for used, most, kind in given["limits"]]
        # each name is decoded once
        known = functools.lru_cache(None)(_name)
        names = [
            MapName(known(name), _object(first), _object(further), _object(user), state, of, value)
            for name, first, further, user, state, of, value in given["names"]
        ]
        # there may be a use for each word: a tuple is made by its own call, which is faster than that of its class
        new, none = tuple.__new__, _NO_OBJECT
        uses = [
            new(MapUse, (None if of == none else of, name, kind, address, offset, line, known(label) if has else None, beyond, inside))
            for address, of, name, label, kind, offset, line, beyond, has, inside in given["uses"]
        ]
        head, program = self.head, None if self.head.fault else self.program()
        segments = head.text_end, head.data_start, head.data_end, head.bss_start, head.bss_end
        named = _name(bytes(head.entry_name)) if head.state & 2 else None
        records = objects, names, uses, limits
        return Map(self.status, head.fault, head.place, segments, head.magic, head.entry_point, named, *records, program, self.placed())


def link(objects: Iterable[bytes], options: int = 0, entry: str = "", forced: Iterable[str] = ()) -> Program:
    """The link of a list of objects. What follows an object in its bytes is not looked at.

    >>> cut = make(text=[(7, NUMBER)])[:-1]
    >>> try:
    ...     link([make(), cut, make(text=[(8, NUMBER)])])
    ... except Fault as fault:
    ...     print(fault)
    truncated, object 1
    """
    return _Run(objects, options, entry, forced, _REPORT).program()


def link_findings(objects: Iterable[bytes], options: int = 0, entry: str = "", forced: Iterable[str] = ()) -> Found:
    """The same, with the report as lists of names.

    >>> refers = make(symbols=[("_f", UNDEFINED | EXTERNAL, 0), ("_end", ABSOLUTE | EXTERNAL, 0)])
    >>> link_findings([refers], entry="_go").findings
    Findings(multiples=[], reserved=['_end'], entry='_go', undefined=['_f'])
    """
    return _Run(objects, options, entry, forced, _FINDINGS).found()


def link_places(objects: Iterable[bytes], options: int = 0, entry: str = "", forced: Iterable[str] = ()) -> List[Finding]:
    """What is reported of a link, in the order of the lines, with the numbers of the objects.

    >>> one = make(symbols=[("_f", ABSOLUTE | EXTERNAL, 1), ("_g", UNDEFINED | EXTERNAL, 0)])
    >>> other = make(symbols=[("_f", ABSOLUTE | EXTERNAL, 2)])
    >>> for finding in link_places([other, one, other, make(), one]):
    ...     print(finding.name, finding.kind == MULTIPLY_DEFINED, finding.first, finding.further)
    _f True 0 1
    _f True 0 4
    _g False 1 None
    """
    return _Run(objects, options, entry, forced, _FINDINGS | _PLACES).placed()


def link_map(objects: Iterable[bytes], options: int = 0, entry: str = "", forced: Iterable[str] = ()) -> Map:
    """The map of the link, with the program and what is reported. A link that is refused for its sizes or its names has a map too.

    >>> refers = make(text=[(0, refers_to(0))], symbols=[("_f", UNDEFINED | EXTERNAL, 0)])
    >>> found = link_map([make(bss=2), refers])
    >>> found.names[0]
    MapName(name='_f', definer=None, next_definer=None, user=1, state=3, type=32, value=0)
    >>> [(use.object, use.kind, use.address) for use in found.uses]
    [(1, 3, 0), (1, 5, 0)]
    """
    return _Run(objects, options, entry, forced, _REPORT | _FINDINGS | _PLACES | _MAP).mapped()


def _rows(what: str, rows: Iterable[Any], size: int) -> List[Any]:
    """The pairs or triples of a list, each with where it is."""
    found = [(f"{what}[{number}]", row) for number, row in enumerate(_items(what, rows))]
    for at, row in found:
        if not isinstance(row, (tuple, list)) or len(row) != size:
            raise _wrong(at, f"a tuple of {size}", row)
    return [(at, *row) for at, row in found]


def _words(what: str, pairs: Iterable[Word]) -> List[Any]:
    rows = _rows(what, pairs, 2)
    words = [(_fitting(f"{at}: a word", value, 16), _fitting(f"{at}: a relocation word", reloc, 16)) for at, value, reloc in rows]
    return _array(_Word, words)


def make(text: Iterable[Word] = (), data: Iterable[Word] = (), bss: int = 0, symbols: Iterable[Symbol] = ()) -> bytes:
    """The object of these parts, as those of `Parts`.

    >>> make(*take_apart(make(bss=2, symbols=[("_b", BSS, 0)]))) == make(bss=2, symbols=[("_b", BSS, 0)])
    True
    >>> make(text=[(65536, NUMBER)])
    Traceback (most recent call last):
    ValueError: text[0]: a word is 0 to 65535, and not 65536
    """
    words = [*_words("text", text), *_words("data", data)]
    rows = [
        (_NAME(*_padded(at, name)), _fitting(f"{at}: a type word", kind, 16), _fitting(f"{at}: a value", value, 16))
        for at, name, kind, value in _rows("symbols", symbols, 3)
    ]
    return _given("v7_make", *words, _number("bss", bss), *_array(_Symbol, rows))


def _parts(call: Any, *words: Any) -> Parts:
    """Calls twice: for the numbers of words and symbols, and for these."""
    counts, answer = _Counts(), _Answer()
    rooms = [("text", _Word), ("data", _Word), ("symbols", _Symbol)]
    text, data, rows = _made(lambda *room: call(*words, *room, ctypes.byref(counts), ctypes.byref(answer)), answer, rooms, counts)[1]
    return Parts(text, data, counts.bss, [(_name(name), kind, value) for name, kind, value in rows])


def take_apart(data: bytes) -> Parts:
    """The parts of the object that the bytes begin with.

    >>> take_apart(make(text=[(0, refers_to(0))], symbols=[("_f", UNDEFINED | EXTERNAL, 0)]))
    Parts(text=[(0, 8)], data=[], bss=0, symbols=[('_f', 32, 0)])
    """
    return _parts(_LIBRARY.v7_take_apart, *_slice(data))


def read(data: bytes) -> Tuple[Header, Parts]:
    """The header and the parts of the file that the bytes begin with, an object or another. A word without a relocation word has
    NUMBER.

    >>> header, parts = read(link([make(text=[(7, NUMBER)])]).file)
    >>> header.magic == 0o407, header.flag, parts.text
    (True, 1, [(7, 0)])
    """
    header = _Header()
    parts = _parts(_LIBRARY.v7_read, *_slice(data), ctypes.byref(header))
    return Header(*(getattr(header, name) for name in Header._fields)), parts


class Session:
    """Objects that are added and withdrawn, and linked as they are at any time.

    The library keeps the session, so an edit costs what its object is, and not what is there. `close`, a `with` statement or the end of
    the session gives the memory back; it cannot be copied, and is for one thread at a time. What is also kept here is the bytes of the
    objects: `link_places` and `map` link these anew. An object that is not accepted is raised as a `Fault`, whose `place` is the number
    that it would have had, and the session stays as it was.

    >>> with Session([make(text=[(7, NUMBER)])]) as session:
    ...     session.add(make(text=[(8, NUMBER)]))
    ...     try:
    ...         session.add(make(text=[(0, NUMBER)] * 32767))
    ...     except Fault as fault:
    ...         print(fault)
    ...     for _ in range(2):
    ...         session.withdraw()
    ...     try:
    ...         session.withdraw()
    ...     except Fault as fault:
    ...         print(fault)
    text full, object 2
    nothing to withdraw
    """

    def __init__(self, objects: Iterable[bytes] = (), entry: str = "", forced: Iterable[str] = ()) -> None:
        self._handle = _Session()
        self.entry, self.forced = entry, tuple(_items("forced", forced))
        self._kept: List[bytes] = []
        # how many objects there are before the last edit and after it, and the answer, which tells whether it was made
        self._last = 0, 0, _Answer()
        # the size of the last state that was shown
        self._size = 0
        self._edit("v7_session_new", 0, *_slice(_forced(self.forced)))
        for data in _list(objects):
            self.add(data)

    def __enter__(self) -> Session:
        return self

    def __exit__(self, *_: object) -> None:
        self.close()

    def __reduce__(self) -> NoReturn:
        raise TypeError("a session cannot be copied")

    def close(self) -> None:
        """Gives the memory back. Only this may be called again."""
        _KEEPING.v7_session_free(ctypes.byref(self._handle))
        self._kept = []

    __del__ = close

    def add(self, data: bytes) -> None:
        """Adds an object after those that are there."""
        whole = _bytes("data", data)
        # it is kept before the library has it: what is kept beyond the count is not there
        self._kept[self._count():] = [whole]
        self._edit("v7_session_add", 1, *_slice(whole))

    def withdraw(self) -> None:
        """Withdraws the object that was added last. If there is none, a `Fault` is raised."""
        self._edit("v7_session_withdraw", -1)

    def link(self, options: int = 0) -> Program:
        """The link of what is there."""
        return self._run(options, _REPORT).program()

    def link_findings(self, options: int = 0) -> Found:
        """The same with its report as `Findings`."""
        return self._run(options, _FINDINGS).found()

    def link_places(self, options: int = 0) -> List[Finding]:
        """What is reported of the link, with the numbers of the objects that are there."""
        return link_places(self._objects(), options, self.entry, self.forced)

    def map(self, options: int = 0) -> Map:
        """The map of what is there, with the program and what is reported: all by one link."""
        return link_map(self._objects(), options, self.entry, self.forced)

    def state(self) -> Dict[str, Any]:
        """What is there, as a dict of `objects`, `text`, `data`, `bss`, `externals`, `multiples` and `marks`, as v7(3) has them: the
        words, the names, and what the last addition overwrote."""
        state = _given("v7_session_state", ctypes.byref(self._handle), guess=self._size, library=_KEEPING)
        self._size = len(state)
        return dict(json.loads(state))

    def _edit(self, name: str, more: int, *words: Any) -> None:
        """Makes a call after which there are so many objects more."""
        # until the library answers, the edit is not made
        count, answer = self._count(), _Answer(fault=_NO_ROOM)
        self._last = count, count + more, answer
        getattr(_KEEPING, name)(ctypes.byref(self._handle), *words, ctypes.byref(answer))
        del self._kept[self._count():]
        if answer.fault:
            # an object has the number that it would have had
            answer.place += count if 10 < answer.fault < 35 else 0
            raise _fault(answer)

    def _count(self) -> int:
        """How many objects there are, even if KeyboardInterrupt ended the last edit before the library answered, or after."""
        before, after, answer = self._last
        return before if answer.fault else after

    def _objects(self) -> List[bytes]:
        """The objects that are there."""
        if not self._handle.is_open:
            raise _fault(_Answer(fault=8))
        return self._kept[:self._count()]

    def _run(self, options: int, wants: int) -> _Run:
        call = functools.partial(_KEEPING.v7_session_link, ctypes.byref(self._handle))
        return _Run((), options, self.entry, self.forced, wants, call, sum(map(len, self._objects())))
