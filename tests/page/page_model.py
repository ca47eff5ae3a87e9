"""What the page shows and says, compared with the model of a state (page_state.py), and its links with what `v7 ld` and `v7 nm` say. In
each state these are the sentence, the status, the names in their order with what is struck out, the words and what they were, and in a
link each sum. Then come the cards, choices, the tour's count, and what can be done and seen while a question is open."""
import glob
import os
import random
import re
from itertools import permutations

import asm  # of examples
from tests.lib.files import TOP, read as text_of, write
from tests.oracles import agree, model
from tests.page.page_stage import SEEN, first
from tests.page.page_state import SEGMENT, Given, Session, Step, counted, place_in_link
from tests.page.page_tools import CLASS, FIVE, IN_C, LAYOUTS, SIXTEEN, TABLES, WORD, addend_said, object_of, same, size_said, words_of

# shows the whole image with each object unfolded, as key o and clicks on all folds do
WHOLE = """
isWhole = true;
for (const object of stateShown().list) opened.add(object);
showChosen(true);
return document.querySelectorAll("#image .fold").length;
"""
# what the page shows, as lines of text; a word is its segment and the texts of its parts
READ = """
const text = (element) => element ? element.textContent : "";
const part = (element, name) => text(element.querySelector(`.${name}`));
const all = (selector, of) => [...document.querySelectorAll(selector)].map(of);
const one = (id) => { const element = document.getElementById(id); return isLaidOut(element) ? element.textContent : ""; };
return {
    words: all("#image .word:not(.spot)", (row) => ({
        id: row.id, segment: row.id.split("-")[0], number: Number(row.id.split("-")[1]), isCut: row.classList.contains("cut-off"),
        isOld: row.matches(".bound, .put-back"),
        ...Object.fromEntries(["offset", "value", "pc", "place", "instruction", "bound-name", "sum", "of", "was", "tag",
            "given-word"].map((name) => [name, part(row, name)])),
        labels: [...row.querySelectorAll(".label")].map((one) => [one.textContent, one.tagName]),
        target: part(row, "target")
        || (part(row, "instruction") || part(row, "string") || row.classList.contains("inside") ? "a number" : "") })),
    spots: all("#image .spot", (row) => [row.id, text(row)]), heads: all("#image .segment h3", text),
    bss: text(document.querySelector("#bss .size")),
    names: all("#names .name", (row) => [...["b", ".state", ".was", ".tag", ".address"].map((name) => text(row.querySelector(name))),
        row.classList.contains("cut")]),
    marks: all(".overwrote .was", text), done: all(".undone .was", text), cuts: all("#marks p", text),
    table: one("table"), report: one("report"), step: one("status"), refused: document.querySelector("#note.refused") ? one("note") : "",
    note: one("note"), title: one("image-title"), left: drawn.left,
    arrows: Object.fromEntries(all("g.arrow", ({ dataset }) => [dataset.from, dataset.to])) };
"""


def read(page, is_whole=True):
    """What is shown; the whole image is, unless the scene is wanted."""
    if is_whole:
        page.run(WHOLE)
    return page.run(READ)


def lines_on(shown):
    """What the page shows, as the lines of the model. In which order the page has the names, page_model.py says."""
    words, names = [word for word in shown["words"] if not word["isCut"]], [name for name in shown["names"] if not name[-1]]
    parts = "segment", "offset", "value", "pc", "target", "place"
    lines = [words_of(" ".join(word[part] for part in parts) + word["given-word"]) + f" / {word['instruction']}" * bool(word["instruction"])
             for word in words]
    lines += [f"bss {shown['bss']}"] if shown["bss"] not in ("", size_said(0)) else []
    return [*lines, *sorted(f"name {name}: {known}" for name, known, *_ in names)]


# what the scene of a step says of the words that it changed, and the labels of the places that they mean
SCENE = """
isWhole = false;
showChosen(true);
const part = (row, name) => row.querySelector(name)?.textContent;
const labels = (row) => [...row.querySelectorAll(".label")].map((one) => one.textContent).sort();
const rows = [...document.querySelectorAll("#image .line:is(.bound, .put-back), #image .place-line:not(.spot)")];
return rows.map((row) => [label(Number(part(row, ".badge")) - 1), ...(row.matches(".place-line") ? [`place ${row.id}`, ...labels(row)]
    : [row.id, part(row, ".result"), part(row, ".instruction")])]);
"""
# the segments of names in a table
SEGMENT_OF = {"T": "text", "D": "data", "B": "bss"}


SUMS = ("Each sum is the word of the object + the address of the name, or how far the segment has moved, that it refers to (\u2212 how far the "
        "word itself has moved, with pc) = the word of the link.")


# ---- states
def besides(left, is_first=False):
    """What is said after a sentence: of arrows for which there is no space, and after the first step."""
    return f" {counted(left, 'arrow')} more: choose a word to see its own." * (left > 0) + \
        " Now add another object, and look at which words change." * is_first


def compare_arrows(shown, places, what):
    """Arrows lead to the places that their words mean. If none is left out, each word that the step changed or brought has its own."""
    new = [word["id"] for word in shown["words"] if word["tag"] in ("bound", "put back", "new")]
    same(f"{what}: arrows", shown["arrows"], {key: places[key] for key in (shown["arrows"] if shown["left"] else new) if places[key]})


def compare_step(page, objects, is_gone, what, forced=()):
    """The sentence, the status, the names, the marks and what is struck out, and all words, after a step."""
    step, scene, shown = Step(objects, is_gone, forced), page.run(SCENE), read(page)
    wanted = step.results()
    same(f"{what}: the scene", scene, [wanted.get(key) for _, key, *_ in scene])
    session = step.before if is_gone else step.after
    same(f"{what}: the sentence", shown["note"], step.sentence() + besides(shown["left"], len(objects) == 1 and not is_gone))
    same(f"{what}: the status", shown["step"], step.status())
    same(f"{what}: the names", [name[:4] for name in shown["names"]], step.names())
    same(f"{what}: what is struck out", {word["id"]: word["was"] for word in shown["words"] if word["isOld"]}, step.struck())
    same(f"{what}: what is marked", {word["id"] for word in shown["words"] if word["tag"] in ("bound", "put back")}, {*step.struck()})
    same(f"{what}: the marks", sorted(map(words_of, shown["done" if is_gone else "marks"])), step.marks())
    same(f"{what}: what is said of the marks", shown["cuts"][:2], step.cuts())
    same(f"{what}: labels", {word["id"]: sorted(word["labels"]) for word in shown["words"] if word["labels"]}, step.after.labels())
    same(f"{what}: headings", [head for head in shown["heads"] if head.startswith(tuple(session.sizes))
                               and not (is_gone and " 00 (0.)" in head)], session.heads())
    same(f"{what}: lines", lines_on(shown), session.lines())
    compare_arrows(shown, {key: session.place_id(word) for key, word in session.rows().items()}, what)
    if not is_gone:
        same(f"{what}: places that are no words", dict(shown["spots"]), session.spots())


def compare_link(tools, page, objects, number, what, forced=(), entry=""):
    """A link: each word with its address, its value and its sum, the headings, the names, the table and the report."""
    page.run("show({ ...view, gone: -1, layout: arguments[0] })", number)
    name, options = [*LAYOUTS.items()][number]
    what = f"{what}, {name}"
    linked = tools.link([*options, *(word for one in forced for word in ("-u", one)), *(["-e", entry] if entry else [])],
                        [one.path for one in objects])
    shown = read(page, "refused" not in linked)
    same(f"{what}: title", shown["title"], f"Addresses, ld {options[0] if options else 'with no option'}")
    if "refused" in linked:
        return same(what, shown["refused"], f"refused: {linked['refused']}")
    same(f"{what}: the sentence", shown["note"], SUMS)
    session, (_, text, data, rest), base = Session(objects, forced), linked["header"][:4], linked["base"]
    commons = rest - session.sizes["bss"]
    bounds = {"text": (0, text), "data": (base, base + data), "commons": (base + data, base + data + commons),
              "bss": (base + data + commons, base + data + rest)}
    same(f"{what}: headings", [head for head in shown["heads"] if not head.startswith("outside")],
         [f"{part} {size_said(end - start)} {start:06o} to {end:06o}" for part, (start, end) in bounds.items() if end > start])
    letters = {line[9:]: line[:8].split() for line in linked["table"].splitlines() if line[7].isupper()}
    addresses = {one: int(said[0], 8) for one, said in letters.items() if said[-1] not in "UC"}
    same(f"{what}: names", {row[0]: row[4] for row in shown["names"] if row[1] != "multiply defined"},
         {one: f"{addresses[one]:06o}" if one in addresses else "no address" for one in session.names})
    words, places = session.rows(), {}
    for row in shown["words"]:
        word, final = words[row["id"]], linked["segments"][row["segment"]][row["number"] // 2]
        moved = {part: (bounds[part][0] + word.front[part] - word.of.start(part)) % WORD for part in session.sizes}
        same(f"{what}: {row['id']}", (row["offset"], row["value"]), (f"{bounds[word.part][0] + row['number']:06o}", f"{final:06o}"))
        plus = addresses.get(word.name, 0) if word.name else moved.get(SEGMENT.get(word.reloc & 0o16), 0)
        minus = f" \u2212 {moved[word.part]:06o}" if word.pc and moved[word.part] else ""
        said = [f"{word.own:06o} + {plus:06o}{minus} = {final:06o}",
                f"{word.name}{addend_said(word.added)}" if word.name else SEGMENT.get(word.reloc & 0o16, "")]
        same(f"{what}: the sum of {row['id']}", [row["sum"], row["of"]], said if word.reloc & 0o17 else ["", ""])
        own = SEGMENT_OF.get(letters.get(word.name, [""])[-1]) if word.kind is None else word.kind or ("" if word.pc else None)
        meant = (final + bounds[word.part][0] + row["number"] + 2) % WORD if word.pc else final
        places[row["id"]] = "" if own is None else place_in_link(bounds, number == 2, own, meant)
    compare_arrows(shown, places, what)
    same(f"{what}: table", shown["table"] + "\n", linked["table"] or "empty\n")
    return same(f"{what}: report", shown["report"].rstrip("\n") + "\n", linked["report"])


def says(tools, page, files, most=1000):
    """All states of up to five objects, or those in their order, each with its withdrawal, and links: of small lists and of those in order
    all four, else one of them."""
    objects, count = [Given(file) for file in files], len(files)
    lists = [order for length in range(1, count + 1)
             for order in (permutations(range(count), length) if count <= 5 else [tuple(range(length))])]
    lists = lists[::max(1, len(lists) // (most if page.name == "Chromium" else 40))]
    for number, order in enumerate(lists):
        here, what = [objects[one] for one in order], f"{[*order]}"
        page.run("isWhole = null; show({ ...START, list: arguments[0] })", [*order])
        compare_step(page, here, False, what)
        for layout in range(4) if len(order) == 1 or list(order) == sorted(order) else [number % 4]:
            compare_link(tools, page, here, layout, what)
        page.run("show({ ...START, list: arguments[0].slice(0, -1), gone: arguments[0].at(-1) })", [*order])
        compare_step(page, here, True, f"{what}, withdrawn")
    return 2 * len(lists)


# ---- programs that no other test knows
def pool_of(tools, rng):
    """Objects of C and of the assembler, and random ones."""
    paths = [*SIXTEEN, *IN_C, *TABLES]
    for source in rng.sample(sorted(glob.glob(f"{TOP}/tests/oracles/data/*.s")), 8):
        paths.append(write(f"{tools.folder}/{os.path.basename(source)[:-2]}.o", asm.assembled(text_of(source))))
    names = [b"_main", b"_end", b"_etext", b"_edata", b"_f", b"_say", b"_count", b"_x", b"L1", b"_buf"]
    for number in range(8):
        paths.append(write(f"{tools.folder}/random{number}.o", agree.object_of(rng, names)))
    return paths


def played(tools, page, _, count=200):
    """States of random programs, which additions, withdrawals and links with -u and -e reach."""
    rng = random.Random(tools.seed)
    for turn in range(count // 20):
        files = rng.sample(pool_of(tools, rng), 7)
        page.load(tools.page_of(files, "played.html"))
        objects, here = [Given(file) for file in files], []
        forced, entry = rng.choice([(), (), ("_end",), ("_count", "_none")]), rng.choice(["", "", "_main", "_x", "_none"])
        page.run("askFor({ forced: arguments[0], entry: arguments[1] })", [*forced], entry)
        for _ in range(20):
            what = f"seed {tools.seed}, turn {turn}, {[one.name for one in here]}, {forced} {entry}"
            new = [number for number in range(7) if objects[number] not in here]
            if here and (not new or rng.random() < 0.35):
                page.run("show({ ...view, gone: -1, layout: -1 }); withdraw()")
                compare_step(page, here, True, f"{what}, withdrawn", forced)
                here = here[:-1]
                continue
            number = rng.choice(new)
            page.run("show({ ...view, gone: -1, layout: -1 }); addObject(arguments[0])", number)
            try:
                Session([*here, objects[number]], forced)
            except model.Refused as refused:
                same(f"{what}, {objects[number].name}", page.run("return ['title', 'aria-label'].map((one) => byId(arguments[0])"
                     ".getAttribute(one))", f"add{number + 1}"), [f"refused here: {refused}", f"{objects[number].name} is refused: {refused}"])
                continue
            here = [*here, objects[number]]
            compare_step(page, here, False, f"{what}, {objects[number].name}", forced)
            compare_link(tools, page, here, rng.randrange(4), f"{what}, {objects[number].name}", forced, entry)
    return count


def others(tools, page, _):
    """States of other programs, and links that are refused."""
    full = write(f"{tools.folder}/full.o", object_of([(0, 0)] * 32_767, []))
    for files, most in ((FIVE, 40), (tools.joined(5), 5)):
        page.load(tools.page_of(files, "others.html"))
        says(tools, page, files, most)
    page.load(tools.page_of([full, CLASS[3]], "full.html"))
    page.open("#objects=1,2")
    compare_link(tools, page, [Given(full), Given(CLASS[3])], 0, "full.o l.o")
    page.run("byId('maps').click()")
    same("a map of a link that is refused", page.run("return ['h2', '.refused'].map((one) => document.querySelector(`#mapped ${one}`)"
                                                     ".textContent)"), ["Memory maps", "refused: does not fit"])


# ---- what a state has besides
DECIMAL = "show({ ...view, decimal: arguments[0] }); isWhole = true; showChosen(true);"


def in_decimal(_, page, files):
    """In decimal each number of six octal digits is the decimal one, and has no 0 before it."""
    decimal = lambda text: re.sub(r"\b[0-7]{6}\b", lambda found: str(int(found[0], 8)), text)
    for count, layout in ((2, -1), (len(files), -1), (len(files), 1)):
        page.run("show({ ...START, list: DATA.objects.map(({ number }) => number).slice(0, arguments[0]), layout: arguments[1] })", count,
                 layout)
        both = []
        for is_decimal in (False, True):
            page.run(DECIMAL, is_decimal)
            shown = read(page, False)
            both.append([[word[key].strip(" \u2007") for key in ("id", "offset", "value", "sum", "given-word")] for word in shown["words"]]
                        + [name[:3] for name in shown["names"]] + [[mark] for mark in shown["marks"] if not re.search("[+\u2212]", mark)]
                        + [[shown["note"]]])
        same(f"{count} objects in decimal, layout {layout}", both[1], [[*map(decimal, line)] for line in both[0]])
        page.run(DECIMAL, False)


def reloc_said(reloc):
    kind = reloc & 0o16
    said = "a number" if kind == 0 else SEGMENT.get(kind) or f"symbol {reloc >> 4}"
    return f"{'0' if reloc else ''}{reloc:o} = {said}{', pc' if reloc & 1 else ''}"


CARDS = """
document.querySelectorAll(".given").forEach((words, i) => { words.open = true; showListing(words, DATA.objects[i]); });
const cells = (row) => [...row.children].map((cell) => cell.textContent);
return [...document.querySelectorAll(".card")].map((card) => [[...card.querySelectorAll("[role=option]")].map(cells),
    card.querySelector(".symbols").textContent.split("\\n"), card.querySelector("summary").textContent]);
"""

def cards(_, page, files):
    """Each line of a card: where the word is in its object, its value, and its relocation word. The symbols have the numbers that these
    words name."""
    shown = page.run(CARDS)
    for file, (rows, symbols, summary) in zip(files, shown):
        one = Given(file)
        same(f"the summary of {one.name}", summary, f"{counted((one.text + one.data) // 2, 'word')}, {counted(len(one.symbols), 'symbol')}")
        same(f"symbols of the card of {one.name}", [(line.split()[0], line.split()[-1]) for line in symbols],
             [(str(number), name) for number, (name, _, _) in enumerate(one.symbols)])
        words = Session([one]).words.values()
        same(f"the card of {one.name}", [row[:2] for row in rows],
             [[f"{one.start(word.part) + 2 * word.index:06o}", f"{word.own:06o}"] for word in words])
        for word, (_, _, said) in zip(words, rows):
            same(f"the relocation word of {one.name}, {word.part} {word.index}: {said}", said.startswith(reloc_said(word.reloc))
                 if word.reloc else " = " not in said, True)
    page.open("#objects=1,2")
    buttons = page.run("return [...document.querySelectorAll('.add > span')].map((one) => one.textContent)")
    same("the buttons of the cards", buttons, ["1 of 2", "2 of 2", *["Add"] * (len(files) - 2)])


# of a chosen word or name the sentence and the place of its arrow; the description of its row, and whether that is shown (Firefox says of
# what attribute); and the beginnings of the lines that are marked in cards, and whether they are seen
CHOOSE = """
choose(arguments[0], true);
const row = byId(arguments[0]), said = row?.getAttribute("aria-description") ?? "";
const after = row ? getComputedStyle(row, "::after").content : "", lines = [...document.querySelectorAll("#cards [aria-selected=true]")];
const isSeen = (box) => box.height > 0 && box.top >= 0 && box.bottom <= innerHeight;
return [byId("note").textContent, document.querySelector(`g.arrow[data-from="${arguments[0]}"]`)?.dataset.to ?? "",
    said, after.includes(said) || after.includes("attr(aria-description)"),
    lines.map((line) => line.textContent.slice(0, 12)), lines.every((line) => isSeen(line.getBoundingClientRect())), drawn.left];
"""


def chosen(_, page, files):
    """Each word, or some, and each name, where it is chosen: the sentence, the arrow, its relocation word, and its line in the card of its
    object."""
    objects = [Given(file) for file in files]
    for here in (objects[:2], objects):
        page.run("show({ ...START, list: DATA.objects.map(({ number }) => number).slice(0, arguments[0]) })", len(here))
        session = Session(here)
        wanted = {**session.chosen(), **{f"{part}-{offset}": Step(here).told(part, offset) for part, offset in Step(here).changed}}
        for key in [*wanted][::max(1, len(wanted) // 60)]:
            page.settle()
            said, *more, left = page.run(CHOOSE, key)
            word = session.rows().get(key)
            row = ["", "", True, [], True] if word is None else [session.place_id(word), reloc_said(word.reloc), True,
                   [f"{word.of.start(word.part) + 2 * word.index:06o}{word.own:06o}"], True]
            same(f"{len(here)} objects, {key}", [said, *more], [wanted[key] + besides(left), *row])


OWNERS = """
const chips = [...document.querySelectorAll("#rest .fold")].map((row) => [row.textContent.replace(/ (new|cut off)$/, ""), row.title]);
return [chips, [...document.querySelectorAll(".place-line .owned")].map((one) => [one.closest(".word").id, one.textContent])];
"""


def owners(_, page, files):
    """The objects below a scene are in their order, and a place below its words has the name of its object."""
    page.open("#" + first(len(files)))
    page.settle()
    chips, places = page.run(OWNERS)
    objects = [Given(file) for file in files]
    same(f"{len(files)} objects in their order", chips,
         [[f"{number} {one.name} {count}", f"{counted(count, 'word')}: show in the whole image"]
          for number, one in enumerate(objects, 1) for count in [(one.text + one.data) // 2]])
    words = Session(objects).rows()
    same(f"{len(files)} objects: the objects of places", [said for _, said in places], [words[key].of.name for key, _ in places])
    page.run("goTo(GUIDES.length - 1, GUIDES.at(-1).steps.map((one) => one.kind).lastIndexOf('changes') - 1)")
    same(f"{len(files)} objects: the heading of a question",
         page.run("return [...document.querySelectorAll('#image h3')].map((one) => one.textContent)"), ["To choose from"])
    return len(places)


# ---- questions
# tries all that could change the session; what is left of the view
TRIED = """
for (const button of document.querySelectorAll(".add, #adds button, #withdraw, #flick")) button.click();
for (const key of "12345wfapnir") document.dispatchEvent(new KeyboardEvent("keydown", { key, bubbles: true }));
return [view.list, view.gone, view.layout, view.guide, view.done, byId("addresses").disabled];
"""
# the answer of the open question, if the screen has it
ON_SCREEN = SEEN + r"""
const wait = nextStep(), found = [];
const has = (row) => row && new RegExp(`\\b${octal(wait.number)}\\b`).test(row.textContent);
if (wait.kind === "changes" && wait.act[0] === "withdraw" && wait.answers.length > 0) found.push("the marks have what is put back");
const says = (rows, key) => [...document.querySelectorAll(rows)].some((row) => row.dataset.key === key && has(row));
if (wait.kind === "value" && says("#image .word, #marks .mark", wait.word)) found.push(`${wait.word} has ${octal(wait.number)}`);
if (wait.kind === "where" && wait.number !== null && says("#names .name", `name ${wait.name}`))
    found.push(`${wait.name} has ${octal(wait.number)}`);
if (wait.act?.[0] === "link" && wait.act[1] === view.layout) found.push("the link is shown");
if (wait.kind === "changes") {
    const out = wait.answers.filter((key) => !seen(byId(key)));
    if (out.length > more) found.push(...out);
}
return found;
"""
# the answer of the open question in decimal, as far as its digits could be octal, and what is said of it
OTHER_BASE = """
const wait = nextStep(), typed = String(wait?.number ?? "");
if (!["value", "where"].includes(wait?.kind) || !/^[0-7]{2,}$/.test(typed)) return null;
const give = (isOn, typed) => {
    show({ ...view, decimal: isOn });
    byId("number").value = typed;
    giveNumber();
    return [predictionOf(view.done + 1).reason, predictionOf(view.done + 1).isRight];
};
return [typed, wait.number, ...give(true, wait.number.toString(8)), ...give(false, typed)];
"""


def asked(page):
    """Goes to each open question of the lessons; the texts say which it is."""
    for guide in range(1, page.run("return GUIDES.length")):
        for done in range(page.run("return GUIDES[arguments[0]].steps.length - 1", guide)):
            page.run("goTo(arguments[0], arguments[1])", guide, done)
            if page.run("return isAsked()"):
                page.settle()
                yield f"lesson {guide}, question {done + 1}"


def questions(_, page, __):
    """Under an open question nothing changes the session, its answer is not on the screen, and the right words are on the stage; a number
    in the other base is reported."""
    count, others = 0, 0
    for what in asked(page):
        before = page.run("return [view.list, view.gone, view.layout, view.guide, view.done]")
        same(f"{what}: the answer on the screen, and right words that are not on the stage", page.run(ON_SCREEN), [])
        same(f"{what}: what buttons and keys change", page.run(TRIED), [*before, True])
        other = page.run(OTHER_BASE)
        if other:
            typed, number, *said = other
            same(f"{what}: {typed} for {number:o}", said,
                 [f"Read in octal that is right, but {number:o} is decimal here: type 0{number:o}.", False,
                  f"Read in decimal that is right, but {typed} is octal here: type 0{number:o}, or {number}. with the point.", False])
        count, others = count + 1, others + bool(other)
    done = page.run("return GUIDES[1].steps.findIndex(({ ask }) => ask) - 1")
    page.open(f"#objects=2&lesson=1&done={done}")
    same("an address with other objects", page.run("return [view.list, isAsked()]"),
         [page.run("return guideView(1, arguments[0]).list", done), True])
    same("questions, and numbers in the other base", (count > 5, others > 0), (True, True))


# the checks of this file, and those of pages.py's pages that each is for
CHECKS = ((says, (0, 1, 2, 3)), (played, (0,)), (others, (0,)), (in_decimal, (0, 1, 2)), (cards, (0, 1, 2)), (chosen, (0, 1, 2, 3)),
          (owners, (3,)), (questions, (0, 1, 2)))
