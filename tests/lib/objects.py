"""Objects of the Seventh Edition, and in the form of GNU's assembler for the PDP-11 (`pdp11-aout`), for the scripts that make some."""
import struct
from typing import NamedTuple


def pack(text=(), data=(), bss=0, symbols=(), magic=0o407, flag=0, entry=0, unused=0, tail=b""):
    """A file. Text and data are pairs of a word and a relocation word; a symbol is a name, a type and a value."""
    text, data = list(text), list(data)
    words = [word for word, _ in (*text, *data)] + ([relocation for _, relocation in (*text, *data)] if flag == 0 else [])
    header = struct.pack("<8H", magic, 2 * len(text), 2 * len(data), bss, 12 * len(symbols), entry, unused, flag)
    return header + struct.pack(f"<{len(words)}H", *words) + b"".join(struct.pack("<8sHH", *symbol) for symbol in symbols) + tail


class Parts(NamedTuple):
    """The numbers of a header, the words of text and of data, as many relocation words as the file has of both, and the symbols."""
    header: tuple
    text: tuple
    data: tuple
    relocation: tuple
    symbols: list


def unpack(stored):
    """What a file has, which is whole."""
    header = struct.unpack_from("<8H", stored)
    text, both = header[1] // 2, (header[1] + header[2]) // 2
    words = struct.unpack_from(f"<{both if header[7] else 2 * both}H", stored, 16)
    at = 16 + 2 * len(words)
    symbols = [struct.unpack_from("<8sHH", stored, place) for place in range(at, at + header[4], 12)]
    return Parts(header, words[:text], words[text:both], words[both:], symbols)


def long(number):
    """A number of 32 bits as GNU's form has it: its high word first."""
    return struct.pack("<HH", number >> 16, number & 65535)


def symbol(place, kind, value):
    return long(place) + struct.pack("<BBH", kind, 0, value)


def gnu_object(words, relocation, symbols, strings):
    """An object: words of text, relocation words, symbols, and their names as the bytes that follow the length."""
    header = [0o407, 2 * len(words), 0, 0, 8 * len(symbols), 0, 0, 0]
    numbers = struct.pack(f"<{8 + 2 * len(words)}H", *header, *words, *relocation)
    return numbers + b"".join(symbols) + long(4 + len(strings)) + strings


def gnu_named(words, relocation, rows):
    """The same of rows: a name, a type and a value."""
    symbols, strings = [], b""
    for name, kind, value in rows:
        symbols.append(symbol(4 + len(strings), kind, value))
        strings += name + b"\0"
    return gnu_object(words, relocation, symbols, strings)
