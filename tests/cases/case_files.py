"""The bytes of the files that cases describe: docs/CASES.md."""
import os
import re

from tests.cases.case_format import Mistake, encoded, numbered
from tests.lib.files import read_bytes
from tests.lib.objects import pack

SAMPLES = os.path.join(os.path.dirname(__file__), "data")


# --- listings, as man/v7-object.1 has them

def octal(line, column):
    if not re.fullmatch("[0-7]+", column):
        raise Mistake(line, f"not an octal number: {column}")
    if int(column, 8) > 0o177777:
        raise Mistake(line, f"over 177777: {column}")
    return int(column, 8)


ORDER = [None, "text", "data", "symbols"]


class Listing:
    """What has been read of a listing."""

    def __init__(self):
        self.head = {"magic": 0o407, "flag": 0, "bss": 0, "entry": 0, "unused": 0}
        self.sections = []
        self.words = {"text": [], "data": []}
        self.relocs = {"text": [], "data": []}
        self.symbols = []

    def take(self, line, columns):
        """Takes a line with one entry, or one entry of a line."""
        section = self.sections[-1] if self.sections else None
        if columns[0] in ORDER[ORDER.index(section) + 1:]:
            self.sections.append(columns[0])
        elif columns[0] in self.head and section != "symbols":
            self.head[columns[0]] = octal(line, columns[1])
        elif section == "symbols":
            self.take_symbol(line, columns)
        elif section:
            self.take_word(line, section, columns)
        else:
            raise Mistake(line, f"neither a number of the header nor a section: {columns[0]}")

    def take_short(self, line, text):
        """Takes a line with a section and what it has: words without addresses, or symbols without numbers, and commas between them."""
        name, _, entries = text.partition(" ")
        if self.sections[-1:] != [name]:
            self.take(line, [name])
        for columns in (entry.split() for entry in entries.split(",")):
            if name == "symbols":
                self.take_symbol(line, ["%o" % len(self.symbols), *columns])
            else:
                place = (self.start(name) + 2 * len(self.words[name])) % 65536
                self.take_word(line, name, ["%o" % place, *columns, "0"])

    def start(self, section):
        """The address at which a section begins."""
        size = 2 * len(self.words["text"]) if section == "data" else 0
        return {0o410: (size + 0o17777) // 0o20000 * 0o20000, 0o411: 0}.get(self.head["magic"], size)

    def take_word(self, line, section, columns):
        words = self.words[section]
        if octal(line, columns[0]) != (self.start(section) + 2 * len(words)) % 65536:
            raise Mistake(line, f"the address does not follow: {columns[0]}")
        words.append(octal(line, columns[1]))
        if self.head["flag"] == 0:
            self.relocs[section].append(octal(line, columns[2]))

    def take_symbol(self, line, columns):
        if octal(line, columns[0]) != len(self.symbols):
            raise Mistake(line, f"the number does not follow: {columns[0]}")
        name = encoded(line, columns[1]).split(b"\0")[0][:8]
        self.symbols.append((name, octal(line, columns[2]), octal(line, columns[3])))

    def bytes(self):
        parts = {part: zip(words, self.relocs[part] or words) for part, words in self.words.items()}
        return pack(**parts, symbols=self.symbols, **self.head)


def listed(block):
    """The bytes of the file of a listing."""
    listing = Listing()
    for line, text in block:
        columns = text.split()
        if columns and not columns[0].startswith("/"):
            try:
                if columns[0] in ORDER and len(columns) > 1:
                    listing.take_short(line, text.strip())
                else:
                    listing.take(line, columns)
            except IndexError:
                raise Mistake(line, "a column is missing") from None
    return listing.bytes()


# --- samples

def sample_path(name):
    """The file of a sample in the folder of samples, or its listing."""
    path = os.path.join(SAMPLES, os.fsdecode(name))
    if os.path.exists(path):
        return path
    path = re.sub(r"\.o$", "", path) + ".lst"
    return path if os.path.exists(path) else None


def sample(line, name):
    path = sample_path(name)
    if path is None:
        raise Mistake(line, f"neither in the folder nor a sample: {os.fsdecode(name)}")
    data = read_bytes(path)
    if not path.endswith(".lst"):
        return data
    return listed([(line, text) for text in data.decode("ascii").split("\n")])


# --- files that a line describes

def sized(sizes, names):
    text, data = ([(0, 0)] * (sizes[part] // 2) for part in (b"text", b"data"))
    return pack(text, data, sizes[b"bss"], [(name[:8], 0o40, 0) for name in names])


def source(item, folder, size=0):
    """The file that a line names last: one of the folder, or a sample. It has at least this size."""
    name = item.arguments[-1]
    data = folder[name] if name in folder else sample(item.line, name)
    if size > len(data):
        raise Mistake(item.line, f"{os.fsdecode(name)} has {len(data)} bytes")
    return data


def cut(item, folder):
    _, size, _ = item.arguments
    return source(item, folder, size)[:size]


def poked(item, folder):
    _, changes, _ = item.arguments
    data = source(item, folder, max(place + len(new) for place, new in changes))
    for place, new in changes:
        data = data[:place] + new + data[place + len(new):]
    return data


MAKERS = {
    "object": lambda item, folder: listed(item.block),
    "listing": lambda item, folder: listed(item.block),
    "text": lambda item, folder: b"".join(encoded(line, text) for line, text in item.block),
    "bytes": lambda item, folder: b"".join(item.arguments[1:]),
    "sized": lambda item, folder: sized(*item.arguments[1:]),
    "names": lambda item, folder: pack(symbols=[(item.arguments[2] + b"%04d" % number, 0o40, 0) for number in range(item.arguments[1])]),
    "same": source,
    "cut": cut,
    "poke": poked,
}


def contents(item, folder):
    """The bytes of the file that a line describes, among these files."""
    return MAKERS[item.word](item, folder)


def objects(item):
    """The files that an `object*` line makes."""
    name, count = item.arguments
    for place in range(count):
        block = [(line, numbered(text, place)) for line, text in item.block]
        yield encoded(item.line, numbered(name, place)), listed(block)


def make(item, folder):
    """Puts the files of a line into a folder."""
    if item.word == "use":
        folder.update((name, sample(item.line, name)) for name in item.arguments)
    elif item.word == "object" and len(item.arguments) == 2:
        folder.update(objects(item))
    else:
        folder[item.arguments[0]] = contents(item, folder)
