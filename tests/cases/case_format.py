"""The form of case files, docs/CASES.md: a file is read into cases, or a mistake with its line is raised."""
import re
from dataclasses import dataclass, field

from tests.lib.programs import FAULTS, PROGRAMS


class Mistake(Exception):
    """What is wrong in a line, or what came of it."""

    def __init__(self, line, text):
        super().__init__(text)
        self.line = line
        self.text = text


@dataclass
class Item:
    """A line that begins with a word: its arguments, its `|` lines, and how many commands of its part come before it."""
    line: int
    word: str
    arguments: tuple
    block: list = field(default_factory=list)
    place: int = 0


@dataclass
class Step:
    """Commands, each with its line, their input, and what has to come of each. Each text has its line, and so have the requests. The text
    `..` of an output stands for lines that are not shown."""
    line: int
    commands: list
    status: int = 0
    # whether nothing need come of it
    is_checked: bool = False
    given: list = field(default_factory=list)
    output: list = field(default_factory=list)
    error: list = field(default_factory=list)
    asked: tuple = None
    files: list = field(default_factory=list)


@dataclass
class Part:
    """Files, refusals and states, and commands, in a folder of their own."""
    files_before: list = field(default_factory=list)
    plans: list = field(default_factory=list)
    steps: list = field(default_factory=list)


@dataclass
class Case:
    name: str
    line: int
    parts: list


# --- texts and words

FAULT = re.compile(r"\\\{(\w+)\}")
TIMES = re.compile(r"\\\*([0-9]+)\(([^)]*)\)")
ESCAPE = re.compile(r"\\([0-3][0-7][0-7])?")
WORD = re.compile(r"(?:'([^']*)'|([^ ']+))(?: +|$)")


def numbered(text, number):
    """The text with this number in it: decimal, decimal in four digits, octal in six."""
    return text.replace("\\d", str(number)).replace("\\D", "%04d" % number).replace("\\o", "%06o" % number)


def spread(text):
    """The text with the words of each fault, and then each repetition, written out."""
    text = FAULT.sub(lambda found: FAULTS.get(found[1], found[0]), text)
    return TIMES.sub(lambda found: "".join(numbered(found[2], number) for number in range(int(found[1]))), text)


def encoded(line, text):
    """The bytes of a text without repetitions."""
    def byte(found):
        if not found[1]:
            raise Mistake(line, "a backslash without three octal digits")
        return chr(int(found[1], 8))
    return ESCAPE.sub(byte, text).encode("latin-1")


def words_of(line, text):
    """The words of a text, as bytes."""
    text, words, at = spread(text), [], 0
    while at < len(text):
        found = WORD.match(text, at)
        if not found:
            raise Mistake(line, "a quote inside a word, or without its end")
        words.append(encoded(line, found[2] if found[1] is None else found[1]))
        at = found.end()
    return words


def span(text):
    """The numbers of a repetition: N from 0 on, or those from one to another."""
    first, _, last = text.partition("..")
    return range(int(first), int(last) + 1) if last else range(int(first))


def texts_of(line, text):
    """The texts after the mark of a line, each with the newline that ends it or with none. That of `>..` or `!..` is `..`."""
    if text in (">..", "!.."):
        return [".."]
    found = re.fullmatch(r".(?:(-)|\* ([0-9]+(?:\.\.[0-9]+)?))?(?: (.*))?", text)
    if not found:
        raise Mistake(line, f"unknown line: {text}")
    is_last, times, rest = found[1], found[2], spread(found[3] or "")
    if times:
        return [numbered(rest, number) + "\n" for number in span(times)]
    return [rest if is_last else rest + "\n"]


# --- what follows the word at the front of a line

def number(word):
    if not word.isdigit():
        raise ValueError
    return int(word)


def path(word):
    if {b"", b".", b".."} & set(word.split(b"/")) or b"\0" in word:
        raise ValueError
    return word


def some_bytes(word):
    """Bytes, repeated bytes, or words that count up."""
    if b"*" in word:
        same, count = word.split(b"*")
        return some_bytes(same) * number(count)
    if b".." in word:
        first, last = (int.from_bytes(some_bytes(end), "little") for end in word.split(b".."))
        return b"".join(value.to_bytes(2, "little") for value in range(first, last + 1))
    return bytes.fromhex(word.decode("ascii"))


def number_on(word):
    number(word.removesuffix(b".."))
    return word


REQUESTS = (b"look", b"open", b"read", b"create", b"write", b"sync")


def request(word):
    if word not in REQUESTS:
        raise ValueError
    return word


KINDS = {"FILE": path, "FROM": path, "N": number, "N..": number_on, "BYTE": number, "HH": some_bytes, "REQUEST": request,
         **dict.fromkeys(("NAME", "PATH", "PREFIX", "EDIT"), bytes)}
FORMS = {
    "use": ["FILE .."],
    "object": ["FILE"],
    "bytes": ["FILE", "FILE HH .."],
    "text": ["FILE"],
    "listing": ["FILE"],
    "sized": ["FILE text N data N bss N undefined NAME .."],
    "names": ["FILE N PREFIX"],
    "cut": ["FILE N FROM"],
    "poke": ["FILE BYTE HH .. FROM"],
    "same": ["FILE FROM"],
    "refuse": ["REQUEST PATH", "write more FILE", "memory N", "memory N.."],
    "fail": ["read FILE after N", "write FILE after N"],
    "state": ["", "EDIT .."],
}
WITH_BLOCK = ("object", "text", "listing", "state")
PLANS = ("refuse", "fail", "state")
ONLY_MADE = ("use", "object")
ONLY_CHECKED = ("listing",)


def read_form(form, words):
    """The values of words that have this form: each of a kind, or a word of the form itself."""
    kinds = form.split()
    if kinds[-1:] == [".."]:
        kinds = kinds[:-1] + kinds[-2:-1] * (len(words) - len(kinds) + 1)
    if len(kinds) != len(words):
        raise ValueError
    if any(kind not in KINDS and kind.encode() != word for kind, word in zip(kinds, words)):
        raise ValueError
    return tuple(KINDS[kind](word) if kind in KINDS else kind for kind, word in zip(kinds, words))


def read_sized(words):
    name, words = path(words[0]), words[1:]
    sizes = {b"text": 0, b"data": 0, b"bss": 0}
    while words and words[0] in sizes:
        sizes[words[0]] = number(words[1])
        words = words[2:]
    # text and data are whole words
    if words and (words[0] != b"undefined" or len(words) == 1) or (sizes[b"text"] | sizes[b"data"]) % 2:
        raise ValueError
    return name, sizes, words[1:]


def read_poke(words):
    name, *changes, source = words
    if not changes or len(changes) % 2:
        raise ValueError
    places = map(number, changes[0::2])
    return path(name), list(zip(places, map(some_bytes, changes[1::2]))), path(source)


READERS = {"sized": read_sized, "poke": read_poke}


def item_of(line, word, rest):
    words = words_of(line, rest)
    for form in FORMS[word]:
        try:
            return Item(line, word, READERS[word](words) if word in READERS else read_form(form, words))
        except (ValueError, IndexError):
            pass
    raise Mistake(line, "wanted " + ", or ".join(f"{word} {form}" for form in FORMS[word]))


def requests_of(line, text):
    """The requests of a line, each with its file."""
    requests = [words_of(line, one) for one in text.split(", ")] if text else []
    for words in requests:
        if len(words) < 2 or words[:-1] != [b"write", b"more"] and (len(words) != 2 or words[0] not in REQUESTS):
            raise Mistake(line, "wanted asked REQUEST FILE, ..")
    return [b" ".join(words) for words in requests]


# --- cases

# a line that makes several files
REPEATED = re.compile(r"(names|cut|same|sized)\* ([0-9]+(?:\.\.[0-9]+)?)( .*)")


class Reader:
    """Reads the lines of one case."""

    def __init__(self):
        self.parts = [Part()]
        self.owner = None
        # commands of which the same comes as of the next one
        self.alike = []

    def step(self, line, text):
        """The command that a line is about."""
        if not self.parts[-1].steps or self.alike:
            raise Mistake(line, f"before any command: {text}")
        return self.parts[-1].steps[-1]

    def take(self, line, text):
        found = REPEATED.match(text)
        for number in span(found[2]) if found else ():
            self.take(line, numbered(found[1] + found[3], number))
        if not found:
            self.take_once(line, text)

    def take_once(self, line, text):
        word = text[0] if text[0] in "$<>!|" else text.partition(" ")[0]
        if word != "|":
            self.owner = None
        if word not in TAKEN_BY:
            raise Mistake(line, f"unknown line: {text}")
        head, *block = text.split(" | ") if word in (*WITH_BLOCK, "object*") else [text]
        TAKEN_BY[word](self, line, head)
        if block:
            self.owner.block.extend((line, f"{spread(one)}\n") for one in block)

    def take_end(self, line, text):
        if text != "--":
            raise Mistake(line, f"unknown line: {text}")
        self.end_part(line)
        self.parts.append(Part())

    def take_block(self, line, text):
        if self.owner is None:
            raise Mistake(line, f"not after object, text, listing or state: {text}")
        self.owner.block.extend((line, one) for one in texts_of(line, text))

    def take_command(self, line, text):
        status, _, command = text[1:].partition(" ")
        words = words_of(line, command)
        if not words or words[0].decode("latin-1") not in PROGRAMS:
            raise Mistake(line, f"not one of the programs: {command}")
        if status == "&":
            self.alike.append((line, words))
            return
        if status and not status.isdigit():
            raise Mistake(line, f"unknown line: {text}")
        self.end_step()
        self.parts[-1].steps.append(Step(line, [*self.alike, (line, words)], int(status or 0), bool(status)))
        self.alike = []

    def take_given(self, line, text):
        """Takes a line of input, and its answer if that follows."""
        given, _, answer = text.partition(" > ")
        self.take_text(line, given)
        if answer:
            self.take_text(line, f"> {answer}")

    def take_text(self, line, text):
        step = self.step(line, text)
        texts = {"<": step.given, ">": step.output, "!": step.error}[text[0]]
        texts.extend((line, encoded(line, one)) for one in texts_of(line, text))
        step.is_checked |= text[0] != "<"

    def take_form(self, line, text):
        word, _, rest = text.partition(" ")
        self.take_item(item_of(line, word, rest))

    def take_asked(self, line, text):
        step = self.step(line, text)
        if step.asked:
            raise Mistake(line, "a second asked")
        step.asked = line, requests_of(line, text.partition(" ")[2])

    def take_objects(self, line, text):
        found = re.fullmatch("object[*] ([0-9]+) ([^ ]+)", text)
        if not found:
            raise Mistake(line, "wanted object* N FILE")
        self.take_item(Item(line, "object", (found[2], int(found[1]))))

    def take_item(self, item):
        part = self.parts[-1]
        if item.word in WITH_BLOCK:
            self.owner = item
        if item.word in PLANS:
            item.place = len(part.steps)
            part.plans.append(item)
        elif not part.steps and item.word not in ONLY_CHECKED:
            part.files_before.append(item)
        elif part.steps and item.word not in ONLY_MADE:
            step = self.step(item.line, item.word)
            step.files.append(item)
            step.is_checked = True
        else:
            hint = "before the commands of a part; -- begins a new part" if part.steps else "after a command"
            raise Mistake(item.line, f"{item.word} comes {hint}")

    def end_step(self):
        steps = self.parts[-1].steps
        if steps and not steps[-1].is_checked:
            raise Mistake(steps[-1].line, "no line has what comes of this command")

    def end_part(self, line):
        self.end_step()
        if self.alike:
            raise Mistake(self.alike[0][0], "no command after this one")
        part = self.parts[-1]
        if not part.steps and all(plan.word != "state" for plan in part.plans):
            raise Mistake(line, "no command")


# what takes a line within a case, by the word or the mark at its front
TAKEN_BY = {"--": Reader.take_end, "$": Reader.take_command, "<": Reader.take_given, ">": Reader.take_text, "!": Reader.take_text,
            "|": Reader.take_block, "object*": Reader.take_objects, "asked": Reader.take_asked,
            **dict.fromkeys(FORMS, Reader.take_form)}


def check_line(line, text):
    if not text.isascii() or not text.isprintable():
        raise Mistake(line, "a byte that does not print: \\ooo is a byte")
    if text.endswith(" "):
        raise Mistake(line, "a blank at the end: \\040 is a blank")


def read_case(lines):
    """The case of these lines, which begin with those of `#`."""
    shown = [entry for entry in lines if entry[1].startswith("#")]
    if len(shown) == len(lines):
        raise Mistake(shown[-1][0], "no case after this line")
    line, text = lines[len(shown)]
    if not re.fullmatch("case [a-z0-9_]+", text):
        raise Mistake(line, f"wanted case NAME: {text}")
    if not any(re.match(r"# \S", text) for _, text in shown):
        raise Mistake(line, "no # line before this case")
    reader = Reader()
    for entry in lines:
        check_line(*entry)
    for entry in lines[len(shown) + 1:]:
        reader.take(*entry)
    reader.end_part(line)
    return Case(text[5:], line, reader.parts)


def cases_in(name):
    """The lines of each case of a file: a case begins with lines of `#`, or without them."""
    with open(name, encoding="latin-1", newline="") as file:
        lines = [entry for entry in enumerate(file.read().split("\n"), 1) if entry[1]]
    cases, was_shown = [], False
    for entry in lines:
        is_shown = entry[1].startswith("#")
        if not cases or not was_shown and (is_shown or entry[1].startswith("case ")):
            cases.append([])
        cases[-1].append(entry)
        was_shown = is_shown
    return cases
