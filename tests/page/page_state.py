"""The model of a state of a session, by tests/oracles/model.py: what the page shows is compared with it."""
import functools
import os
import re

from tests.lib.files import read_bytes
from tests.lib.programs import v7
from tests.oracles import model
from tests.page.page_tools import PARTS, WORD, addend_said, known_as, size_said

SEGMENT = {0o2: "text", 0o4: "data", 0o6: "bss"}
# what is known of a name that is defined, or of an undefined one
KNOWN = {model.UNDEFINED: "common", model.ABSOLUTE: "number", **model.SEGMENTS}


def counted(number, what):
    return f"{number} {what}{'' if number == 1 else 's'}"


def branch_of(word, address):
    """The address to which a word branches, if it does."""
    if word & 0o177000 == 0o077000:
        return (address + 2 - 2 * (word & 0o77)) % WORD
    if 0o400 <= word < 0o4000 or 0o100000 <= word < 0o104000:
        return (address + 2 + 2 * (word & 0o377) - (0o1000 if word & 0o200 else 0)) % WORD
    return None


class Given:
    """An object: its words with their relocation words, its symbols, and its instructions as libv7 has them."""

    def __init__(self, path):
        self.path, self.name, self.file = path, os.path.basename(path), model.read_object(read_bytes(path))
        self.text, self.data, self.bss = map(self.file.size, model.SEGMENTS)
        self.words = {model.SEGMENTS[segment]: words for segment, words in self.file.words.items()}
        self.symbols = [(one.name.decode("latin-1"), one.type, one.value) for one in self.file.symbols]

    def start(self, segment):
        return {"text": 0, "data": self.text, "bss": self.text + self.data}[segment]

    @functools.cached_property
    def lines(self):
        """The lines of a listing by the index of their first words; a word that begins no instruction is its number."""
        found, index = {}, 0
        for line in v7.disassemble(read_bytes(self.path)).splitlines():
            again = re.match(r"/ .*: the row before, (\d+) times", line)
            row = re.match(r"([0-7]{6})  (?:[0-7]{6} ?)+ +(.*)", line)
            if again:
                found.update({index + i: "halt" for i in range(1, int(again[1]) + 1)})
            elif row:
                index = int(row[1], 8) // 2
                found[index] = re.sub(r" */ .*", "", row[2])
        return found

    @functools.cached_property
    def instructions(self):
        return {index: text for index, text in self.lines.items() if not re.fullmatch("[0-7]{6}", text)}

    def branch(self, index):
        """Where the branch of an instruction to a number leads."""
        target, text = branch_of(self.words["text"][index][0], 2 * index), self.instructions.get(index, "")
        is_number = target is not None and self.words["text"][index][1] & 0o17 == 0 and re.search(f"[ ,]{target:o}$", text)
        return target if is_number else None


class Word:
    """A word of the image: its value, the pc bit, what it refers to (a segment, "" for a number, or None while it waits), the name that its
    object has for it, and the place that is meant. Then its object, its segment, index, value and relocation word there, and the offsets
    where the segments of the object begin."""

    def __init__(self, value, pc, kind, name, added, meant):
        self.value, self.pc, self.kind, self.name, self.added, self.meant = value, pc, kind, name, added, meant
        self.of, self.part, self.index, self.own, self.reloc, self.front = None, "", 0, 0, 0, {}


class Session:
    """What a session of some objects knows."""

    def __init__(self, objects, forced=()):
        merged = model.Merged([one.file for one in objects], [name.encode() for name in forced])
        named = lambda sizes: {name: sizes[segment] for segment, name in model.SEGMENTS.items()}
        self.objects, self.sizes, self.words = objects, named(merged.sizes), {}
        self.names = {name.decode("latin-1"): ("undefined" if external.is_undefined else KNOWN[external.kind], external.value)
                      for name, external in merged.externals.items()}
        self.multiples = [*dict.fromkeys(name.decode("latin-1") for name in merged.multiples)]
        self.fronts = [*map(named, merged.before)]
        for one, front in zip(objects, self.fronts):
            for part in PARTS:
                for index, (word, reloc) in enumerate(one.words[part]):
                    made = self.words[part, front[part] + 2 * index] = self.word(one, front, part, index, word, reloc)
                    made.of, made.part, made.index, made.own, made.reloc, made.front = one, part, index, word, reloc, front

    def word(self, one, front, part, index, word, reloc):
        pc, kind = reloc & 1, reloc & 0o16
        meant, next_one = (word + one.start(part) + 2 * index + 2) % WORD if pc else word, front[part] + 2 * index + 2
        if kind == 0:
            return Word((meant - next_one) % WORD if pc else word, pc, "", "", 0, meant)
        if kind in SEGMENT:
            name, added, segment, meant = "", 0, SEGMENT[kind], (meant - one.start(SEGMENT[kind]) + front[SEGMENT[kind]]) % WORD
        else:
            name, added = one.symbols[reloc >> 4][0], meant
            segment, place = self.names[name]
            segment, meant = (None, added) if segment in ("undefined", "common") else ("" if segment == "number" else segment,
                                                                                       (place + added) % WORD)
        return Word((meant - next_one) % WORD if pc else meant, pc, segment, name, added, meant)

    def waiting(self):
        """The names for which words wait, one for each word, object by object."""
        waiting = [word for word in self.words.values() if word.kind is None]
        return [word.name for one in self.objects for part in PARTS for word in waiting if word.of is one and word.part == part]

    def in_order(self):
        """The words with their segments and offsets, in the order of the image."""
        return sorted(self.words.items(), key=lambda item: (PARTS.index(item[0][0]), item[0][1]))

    def rows(self):
        """The words by the ids of their rows."""
        return {f"{part}-{offset}": word for (part, offset), word in self.words.items()}

    def place(self, word, minus="\u2212"):
        if word.kind is None:
            return f"waits for {word.name}{addend_said(word.added, minus)}"
        if word.kind and word.meant >= WORD // 2 and word.meant > self.sizes[word.kind]:
            return f"{word.kind} {minus} {WORD - word.meant:o}"
        return f"{word.kind or 'a number'} {word.meant:06o}" if word.kind or word.pc else "a number"

    def place_id(self, word):
        """The id of the row of the place that a word means in the image."""
        if not word.kind:
            return f"outside-{word.meant}" if word.kind == "" and word.pc and not word.name else ""
        size = self.sizes[word.kind]
        if word.meant < size:
            return f"{word.kind}-{word.meant - (word.meant % 2 if word.kind != 'bss' else 0)}"
        return f"{word.kind}-end" if word.meant == size else f"{word.kind}-beyond-{word.meant}"

    def spots(self):
        """The rows of places that are no words: of those that words mean, and of names in bss and at ends."""
        named = {}
        for name, (kind, number) in self.names.items():
            if kind in self.sizes:
                named.setdefault(self.place_id(Word(0, 0, kind, name, 0, number)), []).append(f"{name}: ")
        wanted = {self.place_id(word) for word in self.words.values()} | {spot for spot in named if re.fullmatch(r"bss-\d+|.*-end", spot)}
        rows = {}
        for spot in wanted:
            kind, what, *beyond = spot.split("-") if spot else ("text", "0")
            if kind in PARTS and what not in ("end", "beyond"):
                continue
            number = self.sizes[kind] if what == "end" else int([what, *beyond][-1])
            before = WORD - number if beyond and number >= WORD // 2 else 0
            where = f"{size_said(before)} before {kind}" if before else {"end": f"the end of {kind}", "beyond": f"after {kind}"}.get(
                what, "outside the program" if kind == "outside" else f"in {kind}")
            at = f"\u2212{before:o}".rjust(6, "\u2007") if before else f"{number:06o}"
            rows[spot] = f"{at} {''.join(named.get(spot, []))}{where}"
        return rows

    def instruction(self, word, offset):
        """The instruction that begins at a word; a branch has its place in the image, and then that of its object."""
        text = word.of.instructions.get(word.index, "") if word.part == "text" else ""
        target = word.of.branch(word.index) if text else None
        if target is None or offset == 2 * word.index:
            return text
        return f"{text[:-len(f'{target:o}')]}{(target + offset - 2 * word.index) % WORD:o}, in {word.of.name} {target:o}"

    def labels(self):
        """The labels at words, in no order: each with the element that it is, `S` if another definition of its name counts."""
        found = {}
        for one, front in zip(self.objects, self.fronts):
            for name, kind, value in one.symbols:
                part = {2: "text", 3: "data"}.get(kind % 32)
                index = (value - one.start(part)) % WORD // 2 if part else WORD
                if index < len(one.words.get(part, ())):
                    place = front[part] + 2 * index
                    counts = not kind & model.EXTERNAL or self.names[name] == (part, place)
                    found.setdefault((part, place), []).append([f"{name}:", "SPAN" if counts else "S"])
        for name, place in self.names.items():
            if place in self.words and f"{name}:" not in [said for said, _ in found.get(place, [])]:
                found.setdefault(place, []).append([f"{name}:", "SPAN"])
        return {f"{part}-{offset}": sorted(labels) for (part, offset), labels in found.items()}

    def heads(self):
        """The headings of the segments."""
        return [f"{part} {size_said(size)}" for part, size in self.sizes.items() if size]

    def lines(self):
        """The words, bss and the names, as the page shows them."""
        lines = []
        for (part, offset), word in self.in_order():
            said = self.instruction(word, offset)
            given = f", in {word.of.name} {word.own:06o}" * (word.reloc & 0o16 in SEGMENT and word.value != word.own)
            lines.append(f"{part} {offset:06o} {word.value:06o} {'pc ' * word.pc}{self.place(word)}{given}{f' / {said}' * bool(said)}")
        lines += [f"bss {size_said(self.sizes['bss'])}"] * (self.sizes["bss"] > 0)
        names = [f"name {name}: {known_as(*known)}" for name, known in self.names.items()]
        return [*lines, *sorted([*names, *(f"name {name}: multiply defined" for name in self.multiples)])]


    def chosen(self):
        """What the page says of each word and of each name that is chosen."""
        found = {}
        for (part, offset), word in self.in_order():
            target = word.of.branch(word.index) if part == "text" and word.index in word.of.instructions else None
            if word.kind is None:
                said = f"{self.place(word)}, which no object has defined."
            elif target is not None:
                moved = (target + offset - 2 * word.index) % WORD
                said = f"branches to text {moved:06o}: it holds the distance in its own text, which stays as it is."
            elif not word.reloc & 0o17:
                said = "refers to nothing: it stays as it is."
            else:
                name = f"{word.name}{addend_said(word.added)}, " * bool(word.name)
                distance = ", and holds the distance to it from the place after the word" if word.kind == part else \
                    ". The distance comes with a link, which places the segments"
                said = f"refers to {name}{self.place(word)}{distance * word.pc}."
            found[f"{part}-{offset}"] = f"The word at {part} {offset:06o} {said}"
        for name, known in self.names.items():
            place = self.place_id(Word(0, 0, known[0], name, 0, known[1])) if known[0] in self.sizes else ""
            count = sum(word.name == name or (place != "" and self.place_id(word) == place) for word in self.words.values())
            found[f"name {name}"] = f"{name} is {known_as(*known)}. {counted(count, 'word')} refer{'s' * (count == 1)} to it."
        return found


def place_in_link(bounds, is_split, own, meant):
    """The id of the place at an address of a link, of which the word names the segment `own`, or none: its end goes before what follows
    it."""
    start, end = {"": (0, 0), **bounds, "bss": (bounds["commons"][0], bounds["bss"][1])}[own]
    if start < meant == end:
        return f"{own}-end"
    for part, (start, end) in bounds.items():
        if (not is_split or (own in ("", "text")) == (part == "text")) and start <= meant < end:
            return {"commons": f"common-{meant}", "bss": f"bss-{meant - start}"}.get(part, f"{part}-{(meant - start) // 2 * 2}")
    return f"outside-{meant}"


class Step:
    """What the last step did: an object was added to a session, or withdrawn."""

    def __init__(self, objects, is_gone=False, forced=()):
        self.one, self.is_gone = objects[-1], is_gone
        self.before, self.after = Session(objects[:-1], forced), Session(objects, forced)
        old, new = self.before.words, self.after.words
        self.changed = sorted((key for key in old if old[key].kind is None and new[key].kind is not None),
                              key=lambda key: (PARTS.index(key[0]), key[1]))
        self.renamed = [name for name, known in self.before.names.items() if known != self.after.names[name]]

    def marks(self):
        """What the addition overwrote, in no order."""
        words = [(key, self.before.words[key]) for key in self.changed]
        return sorted([*(f"{name} was {known_as(*self.before.names[name])}" for name in self.renamed),
                       *(f"{part} {offset:06o} was {word.value:06o} {'pc ' * word.pc}{self.before.place(word)}"
                         for (part, offset), word in words)])

    def status(self):
        words = f": {counted(len(self.changed), 'word')} {'put back' if self.is_gone else 'bound'}" if self.changed else ""
        return f"{'Withdrew' if self.is_gone else 'Added'} {self.one.name}{words}"

    def told(self, part, offset):
        """Why a word changed."""
        old, new = self.before.words[part, offset], self.after.words[part, offset]
        at, where = self.after.names[old.name][1], f"The word at {part} {offset:06o}"
        if self.is_gone:
            return f"{where} waits for {old.name} again: its mark gave it back what it was, {old.value:06o}."
        sign = lambda number: str(number if number < WORD // 2 else number - WORD).replace("-", "\u2212")
        decimal = f", in decimal {sign(old.value)} + {sign(at)} = {sign(new.value)}" if new.pc and old.value >= WORD // 2 else ""
        distance = f", the distance from {offset + 2:06o} to {new.meant:06o}" if new.pc and new.kind == part else ""
        return (f"{where} waited for {old.name}, which is {known_as(*self.after.names[old.name])} now, so the linker added that: "
                f"{old.value:06o} + {at:06o} = {new.value:06o}{decimal}{distance}.")

    def sentence(self):
        """What the page says of the step."""
        more = [f"{counted(len(self.changed) - 1, 'other word')} changed too."] * (len(self.changed) > 1)
        return " ".join([*([self.told(*self.changed[0]), *more] if self.changed else [self.brought()]), *self.doubled()])

    def doubled(self):
        """The names that the object defines a second time."""
        new = [name for name in self.after.multiples if name not in self.before.multiples]
        return [f"{name} is defined a second time: the first definition counts." for name in new if not self.is_gone]

    def parts(self):
        """What the object brings."""
        names = len(self.after.names) - len(self.before.names)
        parts = [(self.one.text, f"{counted(self.one.text // 2, 'word')} of text"),
                 (self.one.data, f"{counted(self.one.data // 2, 'word')} of data"),
                 (self.one.bss, f"{size_said(self.one.bss)} of bss"), (names, counted(names, "name"))]
        return ", ".join(text for number, text in parts if number)

    def cuts(self):
        """What is said above and below the marks."""
        these = "these" if self.is_gone else "these; a withdrawal puts them back"
        what = these if self.changed or self.renamed else "nothing"
        return [f"The withdrawal of {self.one.name} put back {what}" if self.is_gone else f"{self.one.name} overwrote {what}",
                f"{'It cut' if self.is_gone else 'A withdrawal cuts'} off {self.parts() or 'nothing'}."]

    def brought(self):
        said = self.parts()
        if self.is_gone:
            return f"{said or 'Nothing'} of {self.one.name} cut off."
        waiting = self.after.waiting()
        names = [*dict.fromkeys(waiting)]
        awaited = counted(len(names), "name") if len(names) > 3 else ", ".join(names)
        waits = f"{counted(len(waiting), 'word')} wait{'s' if len(waiting) == 1 else ''} for {awaited}."
        waits = waits if waiting else "No word waits for a name."
        return f"{self.one.name} brought {said or 'nothing'}. {waits}"

    def names(self):
        """The rows of the names: each with what is known, what is struck out, and its tag; first those that changed, then new ones."""
        old, new, rows = self.before.names, self.after.names, []
        for name in new:
            state, was, tag = known_as(*new[name]), "", "" if name in old else "new"
            if self.is_gone:
                state, tag = (state, "cut off") if name not in old else (known_as(*old[name]), "")
            if name in self.renamed:
                was, tag = known_as(*(new if self.is_gone else old)[name]), "put back" if self.is_gone else "changed"
            rows.append([name, state, was, tag])
        order = {"changed": 0, "put back": 0, "new": 1, "cut off": 1, "": 2}
        rows.sort(key=lambda row: order[row[3]])
        kept = self.before.multiples
        tag = lambda name: "" if name in kept else "cut off" if self.is_gone else "new"
        return rows + [[name, "multiply defined", "", tag(name)] for name in self.after.multiples]

    def results(self):
        """What the scene says of each word that the step changed, and the labels of the places that these mean."""
        found, labels = {}, self.after.labels()
        for key, (part, offset) in ((f"{part}-{offset}", (part, offset)) for part, offset in self.changed):
            old, new = self.before.words[part, offset], self.after.words[part, offset]
            added = f"{old.value:06o} + {self.after.names[old.name][1]:06o} = {new.value:06o}"
            said = f"{new.value:06o} \u2192 {old.value:06o}" if self.is_gone else added
            start = max((index for index in new.of.lines if index <= new.index), default=0) if part == "text" else -1
            found[key] = [new.of.name, key, said, new.of.instructions.get(start) or f"{new.name}{addend_said(new.added)}"]
            place = self.after.place_id(new)
            if place in self.after.rows():
                found[f"place {place}"] = [self.after.rows()[place].of.name, f"place {place}", *(name for name, _ in labels.get(place, []))]
        return found

    def struck(self):
        """What each word was that the step changed."""
        found = {}
        for part, offset in self.changed:
            old, new = self.before.words[part, offset], self.after.words[part, offset]
            bound = f"{new.value:06o} {new.name}{addend_said(new.added)} = {self.after.place(new)}"
            found[f"{part}-{offset}"] = bound if self.is_gone else f"{old.value:06o} {self.before.place(old)}"
        return found
