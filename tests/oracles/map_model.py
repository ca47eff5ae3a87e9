"""The map of a link by the second linker, tests/oracles/model.py, from v7(3) and v7-explain(1): what `link_map` of the module v7 has to
give, and the text of `v7-explain -m`. Instructions are those of tests/oracles/disassembly.py."""
import functools
import itertools
import re

from tests.lib.programs import v7
from tests.oracles import agree, disassembly, model


@functools.cache
def fault_numbers():
    """The numbers of the faults that a limit has, by their texts."""
    return {text: number for number, text in v7.FAULTS.items() if 30 < number < 35 or 40 < number < 50}


def text(name):
    return name.decode("latin-1")


class Laid:
    """The layout of a link, whether it fits or not, and the link or why there is none."""

    def __init__(self, merged, arguments):
        link = model.Link.__new__(model.Link)
        link.merged, link.letters, link.entry = merged, arguments.letters, arguments.entry
        self.is_placed = True
        try:
            link.lay_out()
        except model.Refused:
            self.is_placed = False
        self.start, self.common_start, self.bss, self.symbol_of = link.start, link.common_start, link.bss, link.symbol
        self.fault, self.link = 0, None
        try:
            self.link = model.Link(merged, arguments)
        except model.Refused as refused:
            self.fault = fault_numbers()[str(refused)]

    def segments(self, sizes):
        data = self.start[model.DATA]
        return sizes[model.TEXT], data, data + sizes[model.DATA], self.start[model.BSS], self.common_start + self.bss


def text_of(file):
    """The text of an object, for its instructions."""
    words, relocation = map(list, zip(*file.words[model.TEXT])) if file.words[model.TEXT] else ([], [])
    symbols = [(symbol.name.ljust(8, b"\0"), symbol.type, symbol.value) for symbol in file.symbols]
    data, data_relocation = map(list, zip(*file.words[model.DATA])) if file.words[model.DATA] else ([], [])
    return disassembly.File(words, relocation, symbols, model.NORMAL, data, data_relocation, file.bss)


def line_starts(text):
    """For each byte of an object's text, where its line begins."""
    starts, place = {}, 0
    while place < len(text.words):
        length = text.line(place)[0]
        for offset in range(2 * place, 2 * (place + length)):
            starts[offset] = 2 * place
        place += length
    return starts


def label_before(symbols, segment, address, has_functions=True):
    """The nearest label up to an address, and the bytes beyond it; in text that of a function before others, if functions count. Of several
    at one address it is an external, or else the first."""

    def rank(symbol):
        is_external = bool(symbol.type & model.EXTERNAL)
        is_function = has_functions and segment == model.TEXT and (is_external or symbol.name.startswith(b"_"))
        return is_function, symbol.value, is_external

    best = max((it for it in symbols if it.segment == segment and it.value <= address), key=rank, default=None)
    return (text(best.name), address - best.value) if best else (None, 0)


def text_target(words, line, place):
    """Where a word of text without relocation leads, as the target of a branch or of an operand that counts from the pc; its line begins
    at the first place."""
    name, fields = disassembly.FOUND.get(words[line], ("", []))
    after = 2 * place + 2
    if line == place:
        steps = [-value if letter == "O" else value - 256 * (value > 127) for letter, value in fields if letter in "BO"]
        return (after + 2 * steps[0]) % model.WORD if steps else None
    operands = [value for letter, value in fields if disassembly.has_word(letter, value)]
    return (words[place] + after) % model.WORD if name != "sys" and operands[place - line - 1] in (0o67, 0o77) else None


def lead_of(file, starts, segment, place):
    """Where a word leads: to the symbol of a number, or to an address of a segment."""
    word, relocation = file.words[segment][place]
    refers = relocation & model.KIND
    if refers == model.NAMED:
        return model.NAMED, relocation // model.NUMBER
    if model.REFERS.get(refers) in model.SEGMENTS:
        return model.REFERS[refers], (word + (relocation & model.PC) * (file.start(segment) + 2 * place + 2)) % model.WORD
    if segment != model.TEXT or relocation & 0o17:
        return None
    return model.TEXT, text_target([word for word, _ in file.words[model.TEXT]], starts[2 * place] // 2, place)


def inside_of(file, segment, place, aim, symbol):
    """How many bytes beyond a symbol a word leads that leads to no label, and is not in the text after the symbol itself; else 0."""
    if aim is None or aim[0] not in model.SEGMENTS or aim[1] is None:
        return 0
    to, address = aim
    label, inside = label_before(file.symbols, to, address)
    if label is None or (symbol.kind, symbol.value) != (to, address - inside):
        return 0
    own, beyond = label_before(file.symbols, to, 2 * place)
    return 0 if segment == to == model.TEXT and own is not None and 2 * place - beyond == symbol.value else inside


def words_of(file, starts, object_number, name_number, number, at):
    """The words of an object that lead to the symbol of this number, and then those that may reach what it names."""
    symbol, near = file.symbols[number], []
    aims = (model.NAMED, number), (symbol.kind, symbol.value)
    kinds = (model.TEXT, v7.TEXT_WORD, v7.TEXT_NEAR), (model.DATA, v7.DATA_WORD, v7.DATA_NEAR)
    for segment, sure, perhaps in kinds:
        for place in range(len(file.words[segment])):
            aim = lead_of(file, starts, segment, place)
            inside = 0 if aim in aims else inside_of(file, segment, place, aim, symbol)
            if aim in aims or inside:
                line = starts[2 * place] if segment == model.TEXT else 2 * place
                label, beyond = label_before(file.symbols, segment, (line + file.start(segment)) % model.WORD)
                of = object_number, name_number, perhaps if inside else sure
                found = v7.MapUse(*of, at[segment] + 2 * place, 2 * place, line, label, beyond, inside)
                if inside:
                    near.append(found)
                else:
                    yield found
    yield from near


def kind_of(symbol):
    if symbol.kind != model.UNDEFINED:
        return v7.DEFINES
    return v7.MAKES_COMMON if symbol.value else v7.WANTS


class Names:
    """The names and the uses of a map."""

    def __init__(self, files, starts, forced, places, merged, laid):
        self.files, self.starts, self.places, self.merged, self.laid = files, starts, places, merged, laid
        self.uses_of = {name: [(None, None, model.Symbol(name, model.EXTERNAL, 0))] for name in forced}
        for place, file in enumerate(files):
            for number, symbol in enumerate(file.symbols):
                if symbol.type & model.EXTERNAL:
                    self.uses_of.setdefault(symbol.name, []).append((place, number, symbol))
        self.names = [self.name(name) for name in sorted(self.uses_of)]
        self.uses = [use for number, name in enumerate(sorted(self.uses_of)) for use in self.uses_by(name, number)]

    def name(self, name):
        uses = self.uses_of[name]
        definitions = [use for use in uses if use[2].kind != model.UNDEFINED]
        commons = [use for use in uses if use[2].kind == model.UNDEFINED and use[2].value]
        shown, state = model.Symbol(name, 0, 0), 0
        if self.laid and self.laid.is_placed:
            shown, state = self.laid.symbol_of(self.merged.externals[name]), v7.NAME_IS_PLACED
        if not definitions and not commons and name not in model.RESERVED:
            state += v7.NAME_IS_UNDEFINED
        taken = self.laid and self.laid.link and name in model.RESERVED and (definitions or commons)
        if name in self.merged.multiples or taken:
            state += v7.NAME_IS_MULTIPLE
        definers = [use[0] for use in definitions] + [None, None]
        user = next((use[0] for use in uses if use[0] is not None and use not in definitions), None)
        return v7.MapName(text(name), *definers[:2], user, state, shown.type, shown.value)

    def uses_by(self, name, number):
        for place, symbol_number, symbol in self.uses_of[name]:
            kind = v7.FORCES if place is None else kind_of(symbol)
            yield v7.MapUse(place, number, kind, 0, symbol.value, 0, None, 0, 0)
            if place is not None:
                yield from words_of(self.files[place], self.starts[place], place, number, symbol_number, self.places[place])


def limits_of(files, arguments, merged, laid):
    rows = [(number, sum(file.size(segment) for file in files), model.SEGMENT_LIMIT) for number, segment in enumerate(model.SEGMENTS, 1)]
    if laid:
        rows.append((4, laid.common_start + laid.bss, model.END_LIMIT))
        if laid.link:
            rows.append((5, len(laid.link.file.symbols), model.SYMBOLS_LIMIT))
            if "r" in arguments.letters:
                relocs = [reloc for pairs in laid.link.file.words.values() for _, reloc in pairs if reloc & model.KIND == model.NAMED]
                rows.append((6, max(relocs, default=0) // model.NUMBER, model.NUMBER_LIMIT))
        rows.append((7, len(merged.externals), model.NAMES_LIMIT))
    return [v7.MapLimit(*row) for row in rows]


class Mapped:
    """The map of a link of files: as `found`, what `link_map` gives, and as lines."""

    def __init__(self, files, arguments, paths=()):
        self.files, self.arguments, self.paths = files, arguments, paths
        self.merged, fault, refused_at = model.Merged([], arguments.forced), 0, 0
        for place, file in enumerate(files):
            try:
                self.merged = model.Merged([*self.merged.objects, file], arguments.forced)
            except model.Refused as refused:
                fault, refused_at = fault_numbers()[str(refused)], place
                break
        self.laid = laid = None if fault else Laid(self.merged, arguments)
        at, self.places = dict(laid.start) if laid else dict.fromkeys(model.SEGMENTS, 0), []
        for file in files:
            self.places.append(dict(at))
            for segment in model.SEGMENTS:
                at[segment] += file.size(segment)
        self.texts = [*map(text_of, files)]
        self.starts = [*map(line_starts, self.texts)]
        names = Names(files, self.starts, arguments.forced, self.places, self.merged, laid)
        self.symbols = [[symbol for _, _, symbol in names.uses_of[name]] for name in sorted(names.uses_of)]
        rows = [v7.MapObject(*map(place.get, model.SEGMENTS), len(file.symbols), *map(file.size, model.SEGMENTS))
                for file, place in zip(files, self.places)]
        known = rows, names.names, names.uses, limits_of(files, arguments, self.merged, laid)
        link = laid and laid.link
        if not link:
            segments = laid.segments(self.merged.sizes) if laid else (0,) * 5
            self.found = v7.Map(1, laid.fault if laid else fault, refused_at, segments, 0, 0, None, *known, None, [])
            return
        entry = text(link.entry) if link.entry is not None and not link.has_entry else None
        status, report = 1 if link.report else 0, "".join(line.decode("latin-1") + "\n" for line in link.report)
        program = v7.Program(status, model.write_file(link.file), report)
        self.found = v7.Map(status, 0, 0, laid.segments(self.merged.sizes), link.magic, link.file.entry, entry, *known, program,
                            agree.placed(self.merged, link))

    # the text

    @functools.cached_property
    def uses(self):
        """For each name its symbols, each with the words that lead to it."""
        of = [[] for _ in self.found.names]
        for use in self.found.uses:
            if use.kind >= v7.TEXT_WORD:
                of[use.name][-1][1].append(use)
            else:
                of[use.name].append((use, []))
        return of

    def head(self):
        """What becomes of the link."""
        found, count = self.found, len(self.files)
        title = f"Link of {count} object{'s' * (count != 1)}: "
        if not self.laid:
            refused = f"{title}refused, {v7.FAULTS[found.fault]} at"
            return [refused, f"  {self.paths[found.place]}", "  (addresses below count from 0 in each segment)"]
        if found.fault:
            return [f"{title}refused, {v7.FAULTS[found.fault]}"]
        entry = [] if found.entry_name is None else [f"  entry point not in text: {shown(found.entry_name)}"]
        return [f"{title}made, with {'something' if found.status else 'nothing'} to report",
                f"  magic 0{found.magic:o}, entry point {found.entry_point:06o}", *entry]

    def sizes(self):
        """The limits, the largest objects of a link that is refused, and the segments."""
        titles = ["text", "data", "bss", "end of bss", "symbols", "symbol number", "externals"]
        lines = ["", "Limits              used      of    left"]
        for kind, used, most in self.found.limits:
            lines.append(f"  {titles[kind - 1]:<14}{used:>8}{most:>8}{abs(most - used):>8}{' over' * (used > most)}")
        if not self.found.program:
            lines += ["", "Largest objects", "     text    data     bss     all  symbols"]
            rows = [(*row[4:], sum(row[4:]), row.symbols, path) for row, path in zip(self.found.objects, self.paths)]
            for *sizes, path in sorted(rows, key=lambda row: -row[3])[:10]:
                lines.append("  {:>7}{:>8}{:>8}{:>8}{:>9}  ".format(*sizes) + path)
        if self.laid:
            text_end, *ends = self.found.segments
            lines += ["", "Segments    from     end   bytes"]
            for name, start, end in zip(("text", "data", "commons", "bss"), (0, *ends), (text_end, *ends[1:])):
                lines.append(f"  {name:8}{start:06o}  {end:06o}{end - start:>8}")
        return lines

    def objects(self, places):
        """The objects with these numbers."""
        lines = ["", "Objects", "    text  bytes    data  bytes     bss  bytes"]
        for place in places:
            row = self.found.objects[place]
            pairs = (row.text, row.text_size), (row.data, row.data_size), (row.bss, row.bss_size)
            line, path = "".join(f"  {start:06o}{size:>7}" for start, size in pairs), self.paths[place]
            lines += [line, f"    {path}"] if len(path) > 33 else [f"{line}  {path}"]
        return lines

    def word(self, segment, address, label, line, of, inside=0, inner=(None, 0)):
        """A word of an object, in the segment and at the address: of text with the place and the text of its line, and the label of no function
        that is nearer; and how many bytes beyond a name it leads."""
        name, _ = label
        labels = [label] * (name is not None) + [inner] * (None not in (name, inner[0]) and inner[0] != name)
        before = "  " * bool(labels) + ", ".join(shown(it) + f"+{beyond:o}" * bool(beyond) for it, beyond in labels)
        if segment == "text":
            before = (before or f"  {self.found.objects[of].text + line:06o}") + f": {self.texts[of].whole_line(line // 2)[1]}"
        return f"                {segment} {address:06o}{before}" + f" / +{inside:o}" * bool(inside)

    def words(self, words):
        """The lines of words that lead to a name, or beyond it."""
        return [self.word("text" if word.kind in (v7.TEXT_WORD, v7.TEXT_NEAR) else "data", word.address, (word.label, word.beyond), word.line,
                          word.object, word.inside) for word in words]

    def users_of(self, path, words, has_all, under=None):
        """The words of an object by which it uses a name, and then those that perhaps do; or with the name `under` which they are."""
        for title, some in ("used in", [it for it in words if not it.inside]), ("perhaps in", [it for it in words if it.inside]):
            if some or has_all and title == "used in":
                yield f"    {title}".ljust(16) + f"{path} ({len(some)})"
                yield from [f"                as {shown(under)}"] if under is not None else self.words(some)

    def title_of(self, number):
        """The line of a name, as nm has it; without an address if the link has none."""
        name = self.found.names[number]
        if name.state & v7.NAME_IS_PLACED:
            return model.symbol_line(model.Symbol(b"", name.type, name.value)).decode() + shown(name.name)
        symbols = [it for file in self.files for it in file.symbols if it.type & model.EXTERNAL and text(it.name) == name.name]
        best = min(symbols, key=lambda it: (it.kind == model.UNDEFINED, it.is_undefined), default=model.Symbol(b"", 0o40, 0))
        return "      " + model.symbol_line(best)[6:9].decode() + shown(name.name)

    def name_lines(self, number, under, has_sources=True, has_users=True):
        """The line of a name, the objects that have it, and those that use it with their words; or with the name `under` which the words
        are that lead to the same address."""
        lines, definers, commons, users = [self.title_of(number)], [], [], []
        for (use, words), symbol in zip(self.uses[number], self.symbols[number]):
            path = None if use.object is None else self.paths[use.object]
            if use.kind == v7.DEFINES:
                definers.append(f"    {'again' if definers else 'defined'} in".ljust(16) + path)
            if use.kind == v7.MAKES_COMMON:
                commons.append(f"    common in   {path} ({use.offset})")
            if use.object is None:
                users.append("    used in     -u")
            elif use.kind != v7.DEFINES or words:
                first = under.setdefault((use.object, symbol.kind, symbol.value), symbol) if use.kind == v7.DEFINES else symbol
                users += self.users_of(path, words, use.kind != v7.DEFINES, None if first is symbol else text(first.name))
        return lines + (definers + commons) * has_sources + users * has_users

    def section(self, title, has_name, **parts):
        """The names of a part, after its title; nothing if there is none."""
        under = {}
        lines = [line for number in range(len(self.found.names)) if has_name(number) for line in self.name_lines(number, under, **parts)]
        return ["", title, *lines] if lines else []

    def has_state(self, bit):
        return lambda number: self.found.names[number].state & bit

    def is_unused(self, number):
        """Whether an object defines a name that nothing uses, and that is not in text at the entry point."""
        name = self.found.names[number]
        used = any(use.kind != v7.DEFINES or words for use, words in self.uses[number])
        at_entry = (name.type, name.value) == (0o42, self.found.entry_point)
        return self.found.program and name.definer is not None and not used and not at_entry

    def is_call(self, word):
        """Whether a word is the operand word of jsr or jmp by modes 37 and 67."""
        if word.kind != v7.TEXT_WORD or word.line == word.offset:
            return False
        first = self.files[word.object].words[model.TEXT][word.line // 2][0]
        return first & 0o77 in (0o37, 0o67) and (first & 0o177000 == 0o4000 or first & 0o177700 == 0o100)

    def odd_of(self, number):
        """What is odd of a name: the calls of it if it is of data, and whether it may be two that are cut to eight bytes."""
        name, symbols = self.found.names[number], self.uses[number]
        definition = next((symbol for use, _ in symbols if use.kind == v7.DEFINES for symbol in self.files[use.object].symbols
                           if symbol.type & model.EXTERNAL and symbol.kind and text(symbol.name) == name.name), None)
        is_common = any(use.kind == v7.MAKES_COMMON for use, _ in symbols)
        if definition.kind in (model.DATA, model.BSS) if definition else is_common:
            for use, words in symbols:
                for word in words if use.kind != v7.DEFINES else ():
                    if self.is_call(word):
                        yield f"  {shown(name.name)}: data, and called at text {word.address:06o} in {self.paths[use.object]}"
        pairs = itertools.combinations([use for use, _ in symbols], 2)
        if len(name.name) == 8 and any(
                one.object == other.object is not None or one.kind == other.kind == v7.DEFINES
                or one.kind == other.kind == v7.MAKES_COMMON and one.offset != other.offset for one, other in pairs):
            yield f"  {shown(name.name)}: perhaps two names, cut to eight bytes"

    def odd(self):
        """What no object shows alone."""
        missing = {name.name for name in self.found.names if name.state & v7.NAME_IS_UNDEFINED}
        there = {self.found.names[use.name].name for use in self.found.uses if use.kind in (v7.DEFINES, v7.MAKES_COMMON)}
        lines = []
        for number, name in enumerate(self.found.names):
            other = ("_" + name.name)[:8]
            pairs = ((name.name, other), (other, name.name))
            lines += self.odd_of(number)
            lines += [f"  {shown(one)}: undefined; there is {shown(two)}" for one, two in pairs if one in missing and two in there]
        return ["", "Odd", *lines] if lines else []

    def whole(self):
        """The lines of the map."""
        return [*self.head(), *self.sizes(), *self.section("Undefined", self.has_state(v7.NAME_IS_UNDEFINED)),
                *self.section("Multiply defined", self.has_state(v7.NAME_IS_MULTIPLE)), *self.odd(),
                *([] if "r" in self.arguments.letters else self.section("Unused", self.is_unused)),
                *self.objects(range(len(self.files))), *self.section("Externals", lambda number: True)]

    def at_address(self, address):
        """What the link has at an address."""
        lines = []
        for place, (file, row) in enumerate(zip(self.files, self.found.objects)):
            for segment, name, begin in zip(model.SEGMENTS, ("text", "data", "bss"), row[:3]):
                offset = address - begin
                if 0 <= offset < file.size(segment):
                    line = self.starts[place][offset] if segment == model.TEXT else offset
                    label = label_before(file.symbols, segment, file.start(segment) + line)
                    inner = label_before(file.symbols, segment, line, False) if segment == model.TEXT else (None, 0)
                    lines += [f"    in          {self.paths[place]}", self.word(name, address, label, line, place, inner=inner)]
        if self.laid and self.found.segments[2] <= address < self.found.segments[3]:
            rows = map(self.laid.symbol_of, self.merged.externals.values()) if self.laid.is_placed else ()
            lines += ["    in          commons", self.word("commons", address, label_before(rows, model.BSS, address), 0, None)]
        return lines

    def statics(self, names):
        """The locals with these names, each with its address, its object, and the words that lead to it."""
        lines = []
        for place, file in enumerate(self.files):
            for number, symbol in enumerate(file.symbols):
                if not symbol.type & model.EXTERNAL and text(symbol.name) in names:
                    moved = self.places[place][symbol.kind] - file.start(symbol.kind) if symbol.kind in model.SEGMENTS else 0
                    row = model.Symbol(b"", symbol.type, (symbol.value + moved) % model.WORD)
                    words = [*words_of(file, self.starts[place], place, None, number, self.places[place])]
                    lines += [model.symbol_line(row).decode() + shown(text(symbol.name)), f"    defined in  {self.paths[place]}",
                              *self.users_of(self.paths[place], words, False)]
        return ["", "Statics", *lines] if lines else []

    def asked(self, wanted):
        """The lines of the map for what is wanted: names, paths and addresses in octal. Whether all are there, too."""
        known = [name.name for name in self.found.names]
        there = {*known, *(text(symbol.name) for file in self.files for symbol in file.symbols)}
        names, paths, addresses, absent, nowhere = set(), [], [], [], []
        for word in wanted:
            if word[:8] in there:
                names.add(word[:8])
            elif word in self.paths:
                paths.append(word)
            elif lines := self.at_address(int(word, 8)) if word.isdigit() else []:
                addresses += lines
            else:
                (nowhere if re.fullmatch("[0-7]+", word) else absent).append(f"  {word}: not mentioned")
        addresses += nowhere
        lines = self.head() + ["", "Addresses", *addresses] * bool(addresses)
        for place in (place for path in paths for place, one in enumerate(self.paths) if one == path):
            lines += self.objects([place])
            lines += self.section("Defines", lambda number: self.has_symbol(number, place, True), has_sources=False)
            lines += self.section("Needs", lambda number: self.has_symbol(number, place, False), has_users=False)
        asked = self.section("Externals", lambda number: known[number] in names) or ["", "Externals"] * bool(absent)
        return lines + self.statics(names) + asked + absent, not absent + nowhere

    def has_symbol(self, number, place, defines):
        """Whether an object has a symbol of a name, which defines it or does not."""
        return any(use.object == place and (use.kind == v7.DEFINES) == defines for use, _ in self.uses[number])


def shown(name):
    """A name in a map: as in a listing, but that an empty one is nothing."""
    return name and disassembly.in_listing(name.encode("latin-1"))


def map_of(objects, arguments):
    """What `link_map` has to give for a link, or why it has no map, and the number of the object."""
    files = []
    for place, data in enumerate(objects):
        try:
            files.append(model.read_object(data))
        except model.Refused as refused:
            return str(refused), place
    return Mapped(files, arguments).found
