"""Uses the page as a student does: the first view, the tour and the lessons by keys, steps back, marks, folds. A check has
the programs, the page as it was loaded, at 1366 x 768, and the objects; it returns how many things it has counted, if it counts some."""
import os
import re

from tests.lib.files import read_bytes, write
from tests.lib.objects import unpack
from tests.page.page_browser import Keys
from tests.page.page_model import asked, lines_on, read
from tests.page.page_stage import first, steps
from tests.page.page_state import Given, Session, counted
from tests.page.page_tools import LAYOUTS, addend_said, same, size_said

# how far texts differ from their background: the smallest contrast, and where
CONTRAST = r"""
const rgb = (text) => text.match(/[\d.]+/g).map(Number);
const light = (rgb) => rgb.slice(0, 3).map((c) => c / 255).map((c) => c <= 0.03928
    ? c / 12.92 : ((c + 0.055) / 1.055) ** 2.4).reduce((s, c, i) => s + c * [0.2126, 0.7152, 0.0722][i], 0);
function paper(element) {
    for (let at = element; at; at = at.parentElement) {
        const color = rgb(getComputedStyle(at).backgroundColor);
        if (color.length === 3 || color[3] === 1) return color;
    }
    return [255, 255, 255];
}
let least = [99, ""], count = 0;
for (const element of document.querySelectorAll("body *")) {
    if (![...element.childNodes].some((node) => node.nodeType === 3 && node.data.trim()) || !element.checkVisibility()
        || element.closest("svg, script")) continue;
    const [one, other] = [light(rgb(getComputedStyle(element).color)), light(paper(element))];
    const contrast = (Math.max(one, other) + 0.05) / (Math.min(one, other) + 0.05);
    count += 1;
    if (contrast < least[0]) least = [contrast, element.textContent.slice(0, 30)];
}
return { contrast: least[0], where: least[1], count, paper: rgb(getComputedStyle(document.body).backgroundColor) };
"""
FOCUS = "const e = document.activeElement; return e.id || e.className || e.tagName;"
# what the tabulator stops at, in order
STOPS = """
return [...document.querySelectorAll("button, summary, [tabindex]")].filter((e) => e.checkVisibility() && e.tabIndex >= 0).length;
"""


def first_view(_, page, __):
    page.open("")
    seen = page.run("return ['h1', '#first', '#menu button'].map((one) => document.querySelector(one).innerText)")
    same("the first view", seen, ["What a linker does", "Add main.o", "Take the tour, 5 steps"])
    same("the legend", page.run("return [...document.querySelectorAll('.legend .swatch')].map((one) => one.className)"),
         ["swatch new", "swatch bound", "swatch put-back"])
    same("the picture", page.run("return document.querySelector('.first-picture').getBoundingClientRect().width > 200"), True)
    page.click("first")
    same("the first action adds main.o", page.run("return [location.hash, byId('status').textContent]"), ["#objects=1", "Added main.o"])
    page.type("2")
    same("the legend after the first step", page.run("return byId('legend').checkVisibility()"), False)


# the headings, buttons and labels that are seen, but for those of cards and of lessons; and what three states have
SAID = """
return [...document.querySelectorAll("h1, h2, button, label, summary")].filter((one) => isLaidOut(one) && !one.closest(".card, #menu"))
    .map((one) => one.textContent.trim());
"""
BAR = ["What a linker does", "Withdraw w", "Before f", "Addresses a", "Maps m", "Dec d", "Large l", "Keys on", "Lessons"]
OWN, IMAGE = ["Objects", "Open", "New", "Save page"], ["Find /", "Whole image o"]
STATES_SAID = {
    "": [*BAR, *OWN, "Start here", "Add main.o", "Legend", "Names", "Marks"],
    "#objects=1,2&addresses=-r": [*BAR, *OWN, "Addresses, ld -r", *IMAGE, "Names", "Symbol table", "Report", "Save this link",
                                  "Add it to the objects", "-e", "-u"],
    "#objects=1&lesson=1&done=1": [
        *BAR, "Lesson 1: A word that waits, step 1 of 3", "1 the linker has not looked at it yet",
        "2 the pc is 4 when the word is used, and zero less 4 is 177774", "3 it is the address of _count", "Show the answer",
        "Leave the lesson", *OWN, "Merged image", *IMAGE, "Legend", "Names", "Marks"]}


def said(_, page, __):
    for state, wanted in STATES_SAID.items():
        page.open(state)
        same(f"headings, buttons and labels of {state}", page.run(SAID), wanted)


# titles, placeholders, and names for a reader of the screen; and texts that stay, of each kind
LABELS = """
const parts = [...document.querySelectorAll("[aria-label], [title], [placeholder]")];
return parts.filter((one) => !one.closest("#image *, #cards *, #names *, #marks *, #adds *, #mapped *")).flatMap((one) =>
    ["aria-label", "placeholder", "title"].map((name) => one.getAttribute(name)).filter(Boolean));
"""
TEXTS = """
return [document.title, document.documentElement.lang, ...arguments[0].flatMap((kind) => [...document.querySelectorAll(kind)]
    .map((one) => one.textContent.replace(/\\s+/g, " ").trim()))];
"""
LABELS_SAID = [
    "Steps", "Before and after the last step", "Addresses of a link", "View and help", "Memory maps side by side", "Decimal numbers",
    "Large, for a projector", "Shortcut keys", "Add an object", "What is shown beside the image", "Guide", "Set of objects",
    "Objects of V7 or of GNU's assembler, listings, and a file of lessons; or drop them onto the page", "A listing to type",
    "This page with the objects and lessons that it has now", "Listing",
    "Two objects become one image: the call in main.o leads to the text of twice.o", "Find", "The whole image in its order", "Memory maps",
    "Names and marks", "The output of -r is an object: linked.o", "entry", "The name at which the program starts", "names",
    "Names that are entered as undefined before the first object"]
TEXTS_SAID = {
    "#status": ["No objects yet"], "#marks p": ["A mark remembers what an addition overwrote, so that a withdrawal can put it back."],
    ".tabs button": ["Names", "Objects", "Lesson"], "#addresses option": ["none", "plain (p)", "-n (n)", "-i (i)", "-r (r)"],
    "#sets option": ["Five small objects", "your own"], "#drop": ["Drop object files of your own here, or anywhere on the page."],
    ".lead": ["A linker merges object files into one program. It puts their segments one after the other, finds the definition of each name "
              "(symbol resolution), and changes the words that refer to what has got its place (relocation). Add the objects one by one, "
              "look at which words change, and take each step back again."],
    "#legend .note": ["Each line is a word of 16 bits: its offset in the segment, its value, and what it refers to. Numbers are octal. A size "
                      "has its decimal number after it, as in 016 (14.). Choose a word, a name or a mark to see its arrows."],
    "#legend li": [
        "new: the last step added it",
        "bound, changed: it was there before, and the last step overwrote it; what it was is struck out",
        "put back, cut off: the withdrawal gave it its old value again, or took it out",
        "an arrow goes from a word to the place that it refers to",
        "a dot is a word that waits for a name; a dashed line joins the words that wait for the same name",
        "pcthe word counts from the place after it: it holds a distance, once both are in one segment or a link has placed them"],
    ".none": ["None yet. An object brings the names that it defines and those that it needs."]}
DISABLED = "return ['withdraw', 'flick'].map((id) => byId(id).getAttribute('aria-disabled'))"


def labels(_, page, __):
    """What stays on the page, for those who see it and those who hear it; and that nothing can be withdrawn before the first step."""
    page.open("")
    same("titles and names", page.run(LABELS), LABELS_SAID)
    same("texts", page.run(TEXTS, [*TEXTS_SAID]), ["What a linker does", "en", *(text for texts in TEXTS_SAID.values() for text in texts)])
    same("nothing to withdraw", page.run(DISABLED), ["true", "true"])
    page.open("#objects=1")
    same("something to withdraw", page.run(DISABLED), ["false", "false"])


def clicks(_, page, files):
    """Two objects, one taken back and put back, by clicks. The tabulator reaches each button, and Enter presses it."""
    page.open("")
    for button, count in (("add1", 1), ("add2", 2), ("withdraw", 1), ("flick", 2), ("flick", 1), ("withdraw", 0), ("flick", 1)):
        page.click(button)
        same(f"click {button}", lines_on(read(page)), Session([Given(file) for file in files[:count]]).lines())
        same(f"the button after {button}", page.run("return byId('flick').textContent === (view.gone >= 0 ? 'After f' : 'Before f')"), True)
    page.run("byId('addresses').value = '1'; byId('addresses').dispatchEvent(new Event('change'))")
    same("the address", page.run("return location.hash"), "#objects=1&addresses=-n&whole=1")
    page.open("")
    page.press("add2")
    same("Enter", lines_on(read(page)), Session([Given(files[1])]).lines())


def roles(_, page, __):
    """Names and roles, as the browser tells them to a reader of the screen."""
    page.open("#objects=1,2")
    tree = page.roles()
    for role, name in (("heading", "What a linker does"), ("heading", "Objects"), ("heading", "Names"), ("heading", "Marks"),
                       ("combobox", "Addresses of a link"), ("listbox", "Words of main.o"),
                       ("button", "Decimal numbers"), ("button", "Shortcut keys"), ("region", "Objects"), ("main", ""),
                       ("region", "Names and marks"),
                       ("listbox", "Merged image"), ("listbox", "Names"), ("listbox", "Marks"), ("region", "main.o"), ("region", "twice.o"),
                       ("option", "_twice text 000012 undefined changed"), ("group", "text 016 (14.) bytes"), ("status", "")):
        same(f"the {role} {name}", (role, name) in tree, True)
    same("the option of a word", [name for role, name in tree if role == "option"
                                  and name == "text 000006 000002 pc _twice = text 000012 , was 177770 waits for _twice, bound"] != [],
         True)
    same("buttons without a name", [pair for pair in tree if pair[0] in ("button", "option", "listbox", "region") and not pair[1].strip()],
         [])
    same("one place that is announced", page.run("return document.querySelectorAll('[aria-live], [role=status], [role=alert], "
                                                 "[role=log]').length"), 1)
    page.run("window.kept = document.getElementById('live')")
    page.type("w")
    same("what is announced", page.run("return [kept === document.getElementById('live'), kept.isConnected, kept.textContent.slice(0, "
                                       "33)]"), [True, True, "Withdrew twice.o: 1 word put back"])
    page.open("")
    page.run("document.getElementById('first').focus()")
    page.type(Keys.ENTER)
    same("the focus after the first button", page.run("return document.activeElement.id"), "image")


def stops(_, page, files):
    """Image, names and marks are one stop each; arrow keys move inside."""
    page.open("#" + first(len(files)))
    same("stops of sixteen objects", page.run(STOPS) < 60, True)
    same("stops in the image", page.run("return document.querySelectorAll('#image [tabindex], #image button').length"), 0)
    same("a tenth object has no key", page.run("return [...document.querySelectorAll('.card')].map((card) => "
                                               "card.querySelectorAll('kbd').length)"), [1] * 9 + [0] * 7)
    page.run("document.getElementById('image').focus()")
    rows = page.run("return [...document.querySelectorAll('#image [role=option]')].map((row) => row.id)")
    page.type(Keys.HOME)
    same("Home", page.run("return document.getElementById('image').getAttribute('aria-activedescendant')"), rows[0])
    page.type(Keys.PAGE_DOWN)
    same("Page Down", page.run("return byId('image').getAttribute('aria-activedescendant')"), rows[10])
    page.type(Keys.HOME)
    page.type(Keys.ARROW_DOWN)
    same("arrow down", page.run("return document.querySelector('#image .active').id"), rows[1])
    word = page.run("return [...document.querySelectorAll('#image [role=option]')].findIndex((row) => row.className.includes('word'))")
    page.type(Keys.HOME, *[Keys.ARROW_DOWN] * word)
    same("arrow down chooses", page.run("return document.querySelector('#image [aria-selected=true]').id"), rows[word])
    page.run("choose('', false)")
    page.run("const rows = rowsIn('image'); active.image = rows[rows.findIndex((row) => row.className.includes('fold')) - 1].id; "
             "setActive();")
    page.type(Keys.ARROW_DOWN)
    before = page.run("return document.querySelectorAll('.word').length")
    page.type(Keys.ENTER)
    same("Enter opens a fold", page.run("return document.querySelectorAll('.word').length") > before, True)


def keys(_, page, __):
    """Keys with Caps Lock, and switched off."""
    event = ("document.dispatchEvent(new KeyboardEvent('keydown', "
             "{ key: arguments[0], shiftKey: arguments[1], ctrlKey: arguments[2], bubbles: true }));")
    page.type("1", "2")
    page.run(event, "W", False, False)
    same("w with Caps Lock", page.run("return location.hash"), "#objects=1&withdrawn=2")
    page.run(event, "W", True, False)
    page.run(event, "w", False, True)
    same("W with Shift, and w with Control", page.run("return location.hash"), "#objects=1&withdrawn=2")
    page.click("keys")
    page.type("w")
    same("keys that are off", page.run("return [location.hash, byId('keys').getAttribute('aria-pressed'), byId('keys').textContent]"),
         ["#objects=1&withdrawn=2", "false", "Keys off"])
    page.click("keys")
    page.type("w")
    same("keys that are on again", page.run("return location.hash"), "#withdrawn=1")


def history(_, page, __):
    """The browser's Back and Forward are steps."""
    page.type("1", "2", "5")
    page.back()
    page.wait("return location.hash === '#objects=1,2'")
    same("Back", page.run("return view.list"), [0, 1])
    page.run("history.forward()")
    page.wait("return location.hash === '#objects=1,2,5'")
    same("Forward", page.run("return view.list"), [0, 1, 4])


# what the tour says of main.o and twice.o
TOLD = [
    "These are the object files, as an assembler wrote them. Each has words, and symbols: names that it defines or needs. Nothing is linked "
    "yet.",
    "main.o has been added. Each line of the merged image is a word: its offset, its value, and what it refers to. A dot marks a word that "
    "waits for a name.",
    "These are the names, with what is known of each: undefined until an object defines it, or a common, which the linker lays out if none "
    "does.",
    "twice.o has been added. It defines what 1 word waited for: what each was is struck out, and an arrow leads from it to the place that it "
    "refers to now.",
    "Withdraw takes the last object out again: marks remember what it overwrote. Addresses shows the link itself. Now take a lesson, or add "
    "the objects in an order of your own."]


def tour(_, page, __):
    """Five steps, by keys alone, and dismissed by Escape."""
    page.press("Take the tour, 5 steps")
    told = []
    for number in range(1, 6):
        page.wait("return new URLSearchParams(location.hash.slice(1)).get('tour') === arguments[0]", str(number))
        told.append(page.run("return document.querySelector('#guide .says').textContent"))
        same(f"the buttons at {number}", page.run("return [...document.querySelectorAll('#guide button')].map((one) => one.textContent)"),
             ["Next" if number < 5 else "Lesson 1: A word that waits", "Close the tour"])
        same(f"the tour at {number}", page.run("return [document.querySelectorAll('.toured').length, document.querySelector('#guide "
                                               "h2').textContent]"), [1, f"Tour, {number} of 5"])
        if number < 5:
            page.press("next")
    same("what the tour says", told, TOLD)
    page.back()
    page.wait("return new URLSearchParams(location.hash.slice(1)).get('tour') === '4'")
    page.type(Keys.ESCAPE)
    same("the tour is dismissed", page.run("return [document.getElementById('guide').hidden, location.hash]"), [True, "#objects=1,2"])


# the keys that answer the open question rightly: a digit that chooses, or the digits of a number
RIGHT = """
const wait = nextStep();
if (wait.kind === "value" || (wait.kind === "where" && wait.number !== null)) return [...wait.number.toString(8)];
return [wait.kind === "where" ? "n" : String(1 + choicesOf(wait).findIndex((choice) => choice.isRight))];
"""
WRONG = "return choicesOf(nextStep()).findIndex((choice) => !choice.isRight) + 1;"
# what a lesson has to say at a step: what comes before the answer, and whether a question is open
SENTENCES = """
const wait = nextStep();
return [[...GUIDES[view.guide].steps[view.done].says.map(prose),
    ...(wait?.ask ? [prose(wait.ask), ...choicesOf(wait).map(givenText)] : [])], Boolean(wait?.ask), view.done];
"""


HOW = {"changes": ["Choose a word in the image, or press a digit.", None], "choice": ["Choose an answer.", None]}
TYPE = ["Type a number.", "octal, decimal with a point, or 0x"]


def by_keys(page, number):
    """A lesson by keys, with the right answers: the place that is announced has each sentence in order, with choices, answers and
    verdicts. Returns how many questions and sentences it has."""
    page.open(f"#lesson={number}&done=0")
    live = lambda: page.run("return byId('live').textContent")
    log, wanted, count, total = [live()], [], 0, page.run("return GUIDES[view.guide].steps.length - 1")
    for number_of_step in range(1, total + 1):
        same(f"lesson {number}: the count of steps", page.run("return document.querySelector('#guide h2 .size').textContent"),
             f"step {number_of_step - 1} of {total}")
        sentences, is_asked, done = page.run(SENTENCES)
        wanted += sentences
        if is_asked:
            kind, *hints = page.run("return [nextStep().kind, ...['.ask .hint', '#typed'].map((one) => "
                                    "document.querySelector(`#guide ${one}`)?.textContent)]")
            same(f"lesson {number}, step {done}: how to answer", hints, HOW.get(kind, TYPE))
            page.type(*page.run(RIGHT))
            if page.run("return document.activeElement.id") == "number":
                page.type(Keys.ENTER)
            log.append(live())
        page.type(Keys.ENTER)
        page.wait("return view.done === arguments[0]", done + 1)
        log.append(live())
        if is_asked:
            wanted += ["You chose ", "Right: "]
            said, right = page.run("return [document.querySelector('#guide .is-right')?.textContent, "
                                   "rightText(GUIDES[view.guide].steps[view.done])]")
            same(f"lesson {number}, step {done + 1}: the answer", said in [f"Right: {one}." for one in right.split(" or ")], True)
        count += is_asked
    wanted += page.run(SENTENCES)[0]
    text, at, missing = " ".join(" ".join(log).split()), 0, []
    for sentence in wanted:
        found = text.find(" ".join(sentence.split()), at)
        missing += [sentence] if found < 0 else []
        at = max(at, found)
    same(f"lesson {number}: what was not announced in order", missing, [])
    return count, len(wanted)


def lessons(_, page, __):
    """The menu, and all lessons and the practice by keys alone."""
    page.run("document.getElementById('guides').focus()")
    page.type(Keys.ENTER)
    menu = page.run("return [GUIDES.length, ...['h2', 'button'].flatMap((name) => [...document.querySelectorAll(`#guide ${name}`)])"
                    ".map((one) => one.textContent)]")
    same("the menu", (menu[0], menu[1:3], menu[-1]),
         (len(menu) - 2, ["Lessons and tour", "Take the tour, 5 steps"], "Practice with these objects"))
    questions, sentences = zip(*(by_keys(page, number) for number in range(1, page.run("return GUIDES.length"))))
    print(f"{sum(questions)} questions were answered by keys; {sum(sentences)} sentences, choices and verdicts were announced", flush=True)
    return sum(questions)


def wrong_answer(_, page, __):
    """The reason of a wrong answer, and what the next step says of it."""
    page.open("#objects=1&lesson=1&done=1")
    page.type(str(page.run(WRONG)))
    same("the reason of a wrong answer", page.run("const reason = document.querySelector('#guide .reason').textContent; "
                                                  "return [reason.length > 20, byId('live').textContent.includes(reason)]"), [True, True])
    answered = """const pressed = [...document.querySelectorAll('#guide .choices button')].map((one) => one.getAttribute('aria-pressed'));
        return [document.querySelector('#guide .ask .hint').textContent, pressed]"""
    chosen = ["You chose the linker has not looked at it yet.", ["true", "false", "false"]]
    same("what was chosen", page.run(answered), chosen)
    page.type("q")
    same("q, from the question", page.run(FOCUS), "image")
    page.type("q")
    same("q, back to the question", page.run("return document.getElementById('guide').contains(document.activeElement)"), True)
    page.click("next")
    same("a wrong answer", page.run("return document.querySelector('#guide .is-wrong').textContent"),
         "You chose the linker has not looked at it yet; the answer is the pc is 4 when the word is used, and zero less 4 is 177774.")
    page.back()
    page.wait("return view.done === 1")
    same("Back in a lesson", page.run("return [view.list, document.querySelector('#guide .ask').textContent.slice(0, 10)]"),
         [[0], "Why does t"])
    page.open("#objects=1&lesson=1&done=1")
    same("what was chosen, after a reload", page.run(answered), chosen)


# the wrong answers of the open question, each with the reason that the page gives, and the list that is there; what the step adds
WRONG_ANSWERS = """
const wait = nextStep();
const wrong = choicesOf(wait).filter((one) => !one.isRight);
const known = stateNow().byName.get(wait.name);
const numbers = { value: [wait.before, wait.number + 2], where: [known?.number ?? 2, (wait.number ?? 0) + 2, 0,
    ...(known ? LAYOUTS.map((_, i) => symbolOf(stateNow(), known.i, i).value) : [])] }[wait.kind] ?? [];
for (const number of new Set(numbers)) if (number !== wait.number) wrong.push({ number, isRight: false });
const word = wait.kind === "value" ? wordOf(stateNow(), wait.word) : null;
const adds = wait.act?.[0] === "add" ? [label(wait.act[1]), word?.kind < 0 && defines(wait.act[1], word.name) ? word.name : ""] : ["", ""];
return wrong.map((given) => [wait.kind, wait.act?.[0] ?? "", givenText(given), reasonOf(given, wait), view.list,
    known ? [known.kind, known.number] : null, wait, adds]);
"""


BEGINS = {"text": "Text begins at 0.", "data": "Data begins where text ends.", "bss": "Bss follows data and the commons.",
          "common": "The commons follow the data of all objects, each on an even address.",
          "number": "It is a number, which no link changes.", "undefined": "The linker defines it, as the end of a segment."}


def reason_wanted(kind, act, text, known, wait, adds, session, addresses):
    """The reason of a wrong answer, by what the model says of the state; `adds` has the object that the step adds, and the name of the word
    that it defines."""
    if kind == "where":
        return where_wanted(text, known, wait, act, addresses)
    if text == "no word":
        look = "the last object bound" if act == "withdraw" else f"waits for a name of {adds[0]}"
        return f"{counted(len(wait['answers']), 'word')} will change: look for a word that {look}."
    part, offset = (wait["word"].split("-") if kind == "value" else [text.split()[0], int(text.split()[1], 8)])
    word, at = session.words[part, int(offset)], f"{part} {int(offset):06o}"
    said = "It is a number, which refers to nothing" if word.kind == "" and not word.pc else \
        f"It {'refers to ' * (word.kind is not None)}{session.place(word)}"
    if kind == "changes" and act == "withdraw":
        return f"{said} already." if word.kind is None else f"The addition of {session.objects[-1].name} did not overwrite it."
    if kind == "changes":
        return f"{said}, which {adds[0]} does not define." if word.kind is None and act == "add" else \
            f"It is bound already. {said}." if word.kind else f"{said}, and that stays so."
    if int(text, 8) == wait["before"]:
        return "That is what the word is now, and the step changes it."
    if adds[1]:
        return f"{adds[0]} defines {adds[1]}: add the place of {adds[1]} to the word, modulo 200000."
    if act != "link":
        return "Its mark has what it was before." if act == "withdraw" else f"The step leaves the word at {at} as it is."
    if not word.reloc & 0o17:
        return "It refers to nothing, so each link has the same word."
    if word.pc:
        meant = word.name + addend_said(word.added) if word.name else session.place(word)
        return f"Take the address of {meant} in this link, and subtract that of the place after the word."
    if word.kind is None and addresses[wait["act"][1]] is None:
        return f"{word.name} has no address in this link, so the word stays as it is."
    return f"{said}: add the address {f'that {word.name} has' if word.kind is None else f'where {word.kind} begins'} in this link."


def where_wanted(text, known, wait, act, addresses):
    """Why an answer is not the place of a name after the step of a question."""
    if text == "no address":
        return {"common": "No object defines it, but the linker lays the common out.", "undefined": "No object defines it, but the linker "
                "does."}.get(known[0], "An object defines it, so it has an address there.")
    if wait["number"] is None:
        return "It stays a common, without an address, which the next link may lay out." if known[0] == "common" else \
            "No object defines it, so it has no address there."
    if act != "link":
        return "Its place is counted from the beginning of the merged segment."
    layout, is_placed = wait["act"][1], known[0] in ("text", "data", "bss")
    if is_placed and int(text, 8) == known[1]:
        return f"That is its offset in {known[0]}: add where {known[0]} begins in this link."
    other = [name for i, (name, address) in enumerate(zip(LAYOUTS, addresses)) if i != layout and address == int(text, 8)]
    if other:
        return f"That is its address {'in a plain link' if other[0] == 'plain' else f'with {other[0]}'}."
    if known[0] == "data" and layout in (1, 2):
        return ("With -n data begins at the next multiple of 20000 after text.",
                "With -i data has addresses of its own, which begin at 0.")[layout - 1]
    return f"Its offset is {known[1]:06o}. " * is_placed + BEGINS[known[0]]


def addresses_of(tools, name, files):
    """The address of a name in each link, or None."""
    tables = [tools.link(options, files).get("table", "") for options in LAYOUTS.values()]
    found = [[line for line in table.splitlines() if line[9:] == name and line[7] in "TDBA"] for table in tables]
    return [int(lines[0][:6], 8) if lines else None for lines in found]


def reasons(tools, page, files):
    """Each wrong answer has a reason, which follows from the state; each question has a choice that is wrong."""
    count = 0
    for question in asked(page):
        wrong = page.run(WRONG_ANSWERS)
        same(f"{question}: a wrong answer", len(wrong) > 0, True)
        kind, act, _, _, here, known, wait, adds = wrong[0]
        given = [files[number] for number in here]
        session = Session([Given(file) for file in given])
        name = wait["name"] if kind == "where" else session.rows()[wait["word"]].name if kind == "value" else ""
        addresses = addresses_of(tools, name, given) if name and given else []
        for _, _, text, reason, *_ in wrong:
            same(f"{question}, {text}", reason if kind != "choice" else len(reason) > 15, True if kind == "choice" else
                 reason_wanted(kind, act, text, known, wait, adds, session, addresses))
        count += len(wrong)
    return count


# questions for an address in each layout, of a name in data and of a common
HINTS = "lesson Hints\nadd k.o\nadd l.o\nadd main.o\n" + "".join(f"ask where {name} Where?\nlink {layout}\n" for layout in LAYOUTS
                                                                 for name in ("_x", "_count"))


def hints(tools, page, files):
    """The reasons of wrong addresses in each layout."""
    page.load(tools.page_of(files, "hints.html", write(f"{tools.folder}/hints.txt", HINTS)))
    return reasons(tools, page, files)


NUMBERS = {"12": 10, "10.": 10, "0xa": 10, "0x0A": 10, "9": 9, "-2": 65534, "177776": 65534, "0o12": 10, "x": None, "1g": None}


def numbers(_, page, __):
    """Numbers in octal, decimal and hexadecimal."""
    for text, number in NUMBERS.items():
        seen = page.run("const number = numberOf(arguments[0]); return Number.isNaN(number) ? null : number", text)
        same(f"the number {text}", seen, number)
    page.run("const isValue = ({ kind }) => kind === 'value', guide = GUIDES.findIndex(({ steps }) => steps.some(isValue));"
             "goTo(guide, GUIDES[guide].steps.findIndex(isValue) - 1); byId('number').value = 'x'; giveNumber()")
    same("no number", page.run("return byId('typed').textContent"),
         "Type octal digits, decimal digits with a point after them, or 0x and hexadecimal digits.")
    page.open("#objects=1,2&numbers=decimal")
    same("numbers of a page in decimal", page.run("return ['016', '16', '16.'].map(numberOf)"), [14, 16, 16])
    page.open("#objects=1&numbers=decimal&lesson=1&done=1")
    asked = "Why does the word at 2 hold 65532?"
    same("a lesson in decimal", page.run("return [prose(nextStep().ask), document.querySelector('#guide .ask').textContent.slice(0, "
                                         "arguments[0]), numberOf('16')]", len(asked)), [asked, asked, 16])


def leads(_, page, __):
    """Marks lead to their words, and names to theirs. On a phone the buttons stay, and the image is seen."""
    page.size(1280, 300)
    page.open("#objects=1,2")
    page.run("document.getElementById('main').scrollTop = 10000; document.querySelector('#marks [data-key=text-6]').click()")
    same("a mark leads to its word, and shows its arrow",
         page.run("const box = byId('text-6').getBoundingClientRect(); return [document.querySelector('#image [aria-selected=true]').id, "
                  "box.top >= byId('top').getBoundingClientRect().bottom - 1 && box.bottom <= innerHeight + 1, "
                  "[...document.querySelectorAll('g.arrow')].map((arrow) => arrow.dataset.from)]"), ["text-6", True, ["text-6"]])
    page.run("document.querySelector('#names [data-key=\"name _count\"]').click()")
    same("a name shows no arrow but its own", page.run("return document.querySelectorAll('g.arrow').length"), 0)
    page.size(390, 844)
    page.open("")
    same("on a phone the objects are folded",
         page.run("return [...document.querySelectorAll('.card')].filter((card) => card.checkVisibility()).length"), 0)
    page.click("first")
    for number in (2, 3, 4):
        seen = page.run("const button = document.querySelector('#adds button:not([aria-disabled=true])'), "
                        "box = button.getBoundingClientRect(); button.click(); "
                        "const row = document.querySelector('.word.new, .word.bound').getBoundingClientRect(); "
                        "return [box.top >= 0 && box.bottom <= innerHeight, row.top < innerHeight && row.bottom > 0, view.list.length]")
        same(f"on a phone, {number} objects", seen, [True, True, number])


def texts(_, page, __):
    """Zoom, dark and light."""
    css = page.run("return document.querySelector('style').textContent")
    same("no size follows the window's width", re.findall(r"[\d.]+(?:vw|vi|vmin|vmax)\b", css), [])
    same("sizes of text in pixels", re.findall(r"font(?:-size)?:[^;]*\dpx", css), [])
    sizes = []
    for width, scale in ((1280, 1), (640, 2)):
        page.size(width, 720 // scale, scale)
        page.open("#objects=1,2")
        sizes.append(page.run("return parseFloat(getComputedStyle(document.querySelector('.word')).fontSize) * devicePixelRatio"))
    same("zoom of 200 % makes text twice as large", sizes[1], 2 * sizes[0])
    page.size(1366, 768)
    for scheme in ("light", "dark"):
        page.media("", scheme)
        for state in ("", "#objects=1,2", "#objects=1&withdrawn=2", "#objects=1&lesson=1&done=1"):
            page.open(state)
            seen = page.run(CONTRAST)
            same(f"contrast, {scheme}, {state}: {seen['where']}",
                 (seen["contrast"] >= 4.5, seen["count"] > 30, max(seen["paper"][:3]) < 60), (True, True, scheme == "dark"))
    page.media("", "light")


def presenter(_, page, files):
    """Large words for a projector. At each step the sentence and what changed are seen."""
    return steps(page, len(files), [(1024, 768, 1), (1366, 768, 1)], "for a projector", "switchPresenter()")[0]


def projector(_, page, __):
    """For a projector letters have at least 28 pixels, and two objects are in view, without the legend."""
    page.size(1920, 1080)
    page.open("#objects=1,2")
    page.type("l")
    page.settle()
    seen = page.run("const size = (name) => parseFloat(getComputedStyle(document.querySelector(name)).fontSize); "
                    "const stage = document.getElementById('stage').getBoundingClientRect();"
                    "return [size('#image .word'), size('#note'), document.getElementById('legend').checkVisibility(), "
                    "[...document.querySelectorAll('#image .word')].every((row) => row.getBoundingClientRect().bottom <= stage.bottom)]")
    same("words for a projector", (seen[0] >= 28, seen[1] >= 24, seen[2:]), (True, True, [False, True]))


# of each lesson its steps; of its two sheets the lines of each step and the cells of each row; and the headings of objects
HANDOUTS = """
window.print = () => { window.printed = document.body.classList.contains("handout"); };
const texts = (of, name) => [...of.querySelectorAll(name)].map((one) => one.textContent);
return GUIDES.slice(1).map(({ steps }, i) => {
    view = guideView(i + 1, 0);
    printHandout();
    const sheets = [...document.querySelectorAll("#paper > div")];
    return [steps.map((step) => ({ ...step, ask: prose(step.ask), says: step.says.map(prose),
            choices: step.choices.map(({ text }) => prose(text)), isRight: step.choices.map(({ isRight }) => isRight) })),
        sheets.map((sheet) => [...sheet.querySelectorAll(".paper-step")].map((step) => texts(step, "p"))),
        sheets.map((sheet) => [...sheet.querySelectorAll("tr")].map((row) => texts(row, "td"))), texts(sheets[0], "h2"),
        [...sheets.map((sheet) => texts(sheet, "h1")), texts(sheets[0], ".paper-object > p"), texts(sheets[0], ".symbols")],
        guideTitle(i + 1)];
});
"""


def answer_on_paper(step):
    if step["kind"] in ("value", "where"):
        return "no address" if step["number"] is None else f"{step['number']:06o}"
    if step["kind"] == "changes":
        named = [key.split("-") for key in step["answers"]]
        return " or ".join(f"{part} {int(offset):06o}" for part, offset in named) or "no word"
    return " or ".join(text for text, is_right in zip(step["choices"], step["isRight"]) if is_right)


def step_on_paper(step, number, names, is_answered):
    """The lines of a step, with its answer or with room for it."""
    lines, (act, *rest) = [], step["act"] or [""]
    if step["ask"]:
        marks = ["\u2612" if is_right and is_answered else "\u2610" for is_right in step["isRight"]]
        lines += [f"{number}. {step['ask']}", *map(" ".join, zip(marks, step["choices"])),
                  f"Answer: {answer_on_paper(step) if is_answered else 22 * '_'}"]
    link = [f"with {name}" if name != "plain" else "with no option" for name in LAYOUTS]
    lines += [{"add": f"Add {names[rest[0]]}", "link": f"Link {link[rest[0] % 4]}"}[act] + "."] if rest else []
    lines += [{"withdraw": "Withdraw the last object.", "image": "Show the merged image."}[act]] if act and not rest else []
    return lines + [" ".join(step["says"])] * bool(step["says"] and (is_answered or not step["ask"]))


def words_on_paper(objects):
    """The rows of words after a step, but for instructions and texts."""
    session = Session(objects)
    rows = [[part, f"{offset:06o}", f"{word.value:06o}", "pc" * bool(word.pc), "\u2192 " * (word.kind is not None) + session.place(word)]
            for (part, offset), word in session.in_order()]
    return [row if row[4] != "\u2192 a number" else row[:4] for row in rows] if len(rows) <= 64 else []


def handouts(_, page, files):
    """The sheet of each lesson has its objects, from which all follows, and its questions without answers; the next sheet has the answers,
    and the words after each step."""
    page.open("")
    objects, count = [Given(file) for file in files], 0
    for guide, (steps, sheets, rows, heads, besides, title) in enumerate(page.run(HANDOUTS), 1):
        number, here, added, words, wanted = 0, [], [], [], ([], [])
        for step in steps:
            number += bool(step["ask"])
            act, *rest = step["act"] or [""]
            here = {"add": [*here, *(objects[one] for one in rest)], "withdraw": here[:-1]}.get(act, here)
            added += [one for one in here if one not in added]
            words += words_on_paper(here) if act not in ("", "link") else []
            for sheet, is_answered in zip(wanted, (False, True)):
                sheet.append(step_on_paper(step, number, [one.name for one in objects], is_answered))
        same(f"the steps of handout {guide}", sheets, [*wanted])
        same(f"the objects of handout {guide}", (heads, len(rows[0])),
             ([one.name for one in added], sum((one.text + one.data) // 2 for one in added)))
        same(f"the titles, bss and symbols of handout {guide}", [*besides[:3], [[line.split()[-1] for line in one.split("\n")]
             for one in besides[3]]], [[title], [title], [f"bss {size_said(one.bss)}" for one in added if one.bss],
                                      [[name for name, _, _ in one.symbols] for one in added]])
        same(f"the words of handout {guide}", (len(rows[1]), [row[:len(other)] for row, other in zip(rows[1], words)]), (len(words), words))
        answers = [answer_on_paper(step) for step in steps if step["kind"] in ("value", "where")]
        same(f"the answers on handout {guide}", [one for one in answers if re.search(rf"\b{one}\b", str(sheets[0]))], [])
        count += number
    page.open("#lesson=1&done=0&numbers=decimal")
    page.run("window.print = () => { window.printed = document.body.classList.contains('handout'); }")
    page.click("handout")
    same("a handout in decimal", page.run("return [printed, document.body.classList.contains('handout'), view.done, "
                                          "/\\b0[0-7]{5}\\b/.test(byId('paper').querySelector('.paper-object table').textContent)]"),
         [True, False, 0, False])
    page.open("#lesson=1&done=1")
    same("one handout of a lesson", page.run("return byId('handout')"), None)
    return count


# ---- what is computed for a class
MAPS = """
areMapsShown = true;
showMaps(stateNow());
return [...document.querySelectorAll("#mapped .map")].map((map) => [map.querySelector("h3").textContent,
    [...map.querySelectorAll(".piece")].map((piece) => [piece.title, piece.querySelector("span").textContent]),
    [...map.querySelectorAll(".piece:is(.text, .data, .bss)")].map((piece) => [...piece.querySelectorAll("i")]
        .map((share) => [Number(share.textContent), Number(share.style.flexGrow)])), map.querySelector("p")?.textContent ?? ""]);
"""


def pieces(bounds):
    """The pieces of a map, with the gaps between them: the title and the text of each."""
    found, at = [], 0
    for part, start, end in bounds:
        for name, first_byte, last, said in ((("gap", at, start, size_said(start - at)), (part, start, end, f"{part} {start:06o}"))):
            if last > first_byte and end > start:
                found.append([f"{name}, {size_said(last - first_byte)}, {first_byte:06o} to {last:06o}", said])
        at = max(at, end) if end > start else at
    return found


def maps(tools, page, files):
    """The memory maps have the segments of objects and links where the files have them, with the shares of objects."""
    page.open("#" + first(len(files)))
    sizes, wanted = [unpack(read_bytes(file)).header[1:4] for file in files], []
    for file, (text, data, bss) in zip(files, sizes):
        parts = [("text", 0, text), ("data", text, text + data), ("bss", text + data, text + data + bss)]
        wanted.append([os.path.basename(file), pieces(parts), [[] for _, start, end in parts if end > start], ""])
    shares = [[[number, size[which]] for number, size in enumerate(sizes, 1) if size[which]] for which in range(3)]
    for name, options in LAYOUTS.items():
        linked = tools.link(options, files)
        (_, text, data, rest), base = linked["header"][:4], linked["base"]
        end, bss = base + data + rest, sum(size[2] for size in sizes)
        parts = [("text", 0, text), ("data", base, base + data), ("commons", base + data, end - bss), ("bss", end - bss, end)]
        wanted.append([f"ld {name}" if options else "ld", pieces(parts), [one for one in shares if one],
                       "text and data have addresses of their own" if name == "-i" else ""])
    same("memory maps", page.run(MAPS), wanted)


# gives a right or a wrong answer to the open question
ANSWER = """
const [isRight, wait] = [arguments[0], nextStep()];
give(choicesOf(wait).find((choice) => choice.isRight === isRight) ?? { number: (wait.number ?? 0) + (isRight ? 0 : 2), isRight });
return predictionOf(view.done + 1).isRight;
"""


def result(_, page, __):
    """At the end of a lesson the page says how many answers were right and wrong, and how many questions are open."""
    page.run("sessionStorage.clear()")
    page.open("#lesson=7&done=0")
    given = []
    for done in range(page.run("return GUIDES[7].steps.length - 1")):
        if page.run("return isAsked()") and len(given) < 3:
            given.append(page.run(ANSWER, len(given) != 1))
        page.run("goTo(7, arguments[0])", done + 1)
    same("the result of a lesson", (given, page.run("return document.querySelector('#guide .result')?.textContent")),
         ([True, False, True], "Your first answers: 2 right, 1 wrong, 1 open."))


# ---- the object beside the image
MARKED = "return [chosen, [...document.querySelectorAll('#cards [aria-selected=true]')].map((row) => row.textContent.slice(0, 12))]"


def beside(_, page, files):
    """A line of a card leads to the word that it has become, also by keys; one of an object that is not there leads nowhere."""
    page.open("#" + first(len(files) - 1))
    page.run("document.querySelectorAll('.given').forEach((words) => { words.open = true; })")
    page.wait("return document.querySelectorAll('#cards [role=listbox]').length === arguments[0]", len(files))
    objects = [Given(file) for file in files[:-1]]
    wanted = {key: (f"line-{objects.index(word.of)}-{word.part}-{word.index}",
                    f"{word.of.start(word.part) + 2 * word.index:06o}{word.own:06o}") for key, word in Session(objects).rows().items()}
    keys = list(wanted)[::max(1, len(wanted) // 20)]
    for key in keys:
        page.run("byId(arguments[0]).click()", wanted[key][0])
        same(f"the word of {wanted[key][0]}", page.run(MARKED), [key, [wanted[key][1]]])
    page.run("document.querySelector('#given-0').focus()")
    page.type(Keys.END)
    same("the last line of an object, by keys", page.run(MARKED)[1],
         [[start for line, start in wanted.values() if line.startswith("line-0-")][-1]])
    page.run("document.querySelector('#cards .card:last-child [role=option]').click()")
    same("a line of an object that is not there",
         page.run("return chosen !== 'none' && document.querySelector('#cards .card:last-child [aria-selected=true]') === null"), True)
    return len(keys)


# the checks of this file, and the pages that each is for: the class example, a program in C, pointers and bss, sixteen objects
CHECKS = (
    (first_view, (0,)), (said, (0,)), (labels, (0,)), (roles, (0,)), (stops, (3,)), (keys, (0,)), (history, (0,)), (tour, (0,)), (lessons, (0, 1, 2)),
    (wrong_answer, (0,)), (numbers, (0,)), (leads, (0,)),
    (clicks, (0,)), (texts, (0,)), (presenter, (3,)), (projector, (0,)), (handouts, (0, 1, 2)), (maps, (0, 1, 2)),
    (result, (0,)), (beside, (0, 3)),
    (reasons, (0, 1, 2)), (hints, (0,)))
