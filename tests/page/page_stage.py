"""Measures the stage of the page: what a step moves, what is in view, what a choice and the search find, in Chromium and in Firefox."""
import re
import time

from tests.page.page_browser import Keys
from tests.page.page_state import Given, Session
from tests.page.page_tools import same

# widths, heights and scales of a window; a zoom of 200 % at 1280 is a window of 640 pixels, each of two dots
SIZES = [(1920, 1080, 1), (1366, 768, 1), (1024, 768, 1), (390, 844, 1), (640, 360, 2)]


def first(count):
    """The address of the state of the first objects."""
    return "objects=" + ",".join(str(number) for number in range(1, count + 1))


# ---- steps
SEEN = r"""
const stage = document.getElementById("stage").getBoundingClientRect();
const seen = (row) => {
    const box = row?.getBoundingClientRect();
    return Boolean(box) && box.height > 0 && box.top >= stage.top - 2 && box.bottom <= Math.min(stage.bottom, innerHeight) + 2;
};
const arrowOf = (key) => document.querySelector(`g.arrow[data-from="${key}"]`);
const isWholeArrow = (key) => {
    const to = wordOf(stateNow(), key)?.to;
    return Boolean(to) && arrowOf(key)?.dataset.to === to && seen(byId(key)) && seen(byId(to));
};
const more = [...document.querySelectorAll("#image .more-line")].filter(seen)
    .reduce((sum, row) => sum + Number(row.textContent.match(/and (\d+) other/)?.[1] ?? 0), 0);
"""
# of a step: what is hidden of it; its changed words, how many have rows in view, and how many are counted there; those that lead somewhere,
# and whole arrows of these; arrows with an end out of view; and where everything is
STEP = SEEN + r"""
const within = (element, room) => {
    if (!element || !element.checkVisibility()) return false;
    const [box, frame] = [element.getBoundingClientRect(), room.getBoundingClientRect()];
    return box.top >= frame.top - 1 && box.bottom <= Math.min(frame.bottom, innerHeight) + 1 && box.left >= -1
        && box.right <= innerWidth + 1;
};
const places = {};
for (const row of document.querySelectorAll("#image .word, #image .fold, #image .owner, #image h3, #names .name, button")) {
    if (!row.checkVisibility() || row.closest("#guide")) continue;
    const box = row.getBoundingClientRect();
    const among = () => row.dataset.key ?? [...row.parentElement.children].indexOf(row);
    const key = row.id || `${(row.closest(".segment") ?? row.parentElement).id} ${among()}`;
    places[key] = [Math.round(10 * box.left) / 10, Math.round(10 * box.top) / 10];
}
const [note, status] = [byId("note"), byId("status")];
const changedRows = [...document.querySelectorAll(".word:is(.bound, .put-back)")],
    changedNames = [...document.querySelectorAll(".name:is(.changed, .put-back)")];
const isHidden = {
    sentence: !(note.textContent.length > 20 && within(note, document.body) && note.scrollHeight <= note.clientHeight + 1),
    status: !(status.textContent.length > 5 && within(status, document.body)),
    row: changedRows.length > 0 && !within(changedRows[0], byId("stage")), name: changedNames.length > 0
    && !within(changedNames[0], byId("known")) };
const changed = [...changesOf(view)].filter(([key, how]) => isWordKey(key) && how !== "new").map(([key]) => key);
const lead = changed.filter((key) => wordOf(stateNow(), key)?.to);
return { hidden: Object.keys(isHidden).filter((name) => isHidden[name]), rows: changedRows.length, names: changedNames.length,
    named: changedNames.filter((row) => within(row, byId("names")) && within(row, document.body)).length,
    words: changed.length, there: changed.filter((key) => seen(byId(key))).length, more, leading: lead.length,
    whole: lead.filter(isWholeArrow).length, places,
    cut: [...document.querySelectorAll("g.arrow")].filter((arrow) => ![arrow.dataset.from,
        arrow.dataset.to].every((id) => seen(byId(id)))).length };
"""

# a step that changes more words may count those that do not fit, and one that changes more names may have the last ones below
MOST, MOST_NAMES = 108, 4

def one_step(page, what, is_large=True):
    """The step that is shown, and its withdrawal: the sentence, the status, the first changed row and name are in view, and nothing moves.
    In a large window each changed word is, or is counted in its group, and both ends of each arrow are. Returns how many rows had changed,
    how many of the two are whole in view, with all words, arrows and changed names, and how many of the others change more of them than
    may be asked."""
    rows, whole, large, before = 0, 0, 0, {}
    for act in ("add", "withdraw"):
        if before:
            page.type("w")
        page.settle()
        seen = page.run(STEP)
        same(f"{what}, {act}: what cannot be seen", seen["hidden"], [])
        if is_large:
            same(f"{what}, {act}: changed words in view, or counted", seen["there"] + seen["more"], seen["words"])
            same(f"{what}, {act}: arrows with an end out of view", seen["cut"], 0)
        is_whole = (seen["there"], seen["whole"], seen["named"]) == (seen["words"], seen["leading"], seen["names"])
        rows, whole, large = rows + seen["rows"], whole + is_whole, large + (not is_whole
                                                                             and (seen["words"] > MOST or seen["names"] > MOST_NAMES))
        if before:
            gone = [f"{key}: {place} to {seen['places'].get(key)}" for key, place in before.items() if seen["places"].get(key) != place]
            same(f"{what}: what the withdrawal moves", gone[:3], [])
        before = seen["places"]
    return rows, whole, large


def steps(page, count, sizes, what, script=""):
    """Each step in each size of window; a script comes first. Returns the sums of what `one_step` does, but for the rows only at 1366 x
    768."""
    rows, whole, large = 0, 0, 0
    for width, height, scale in sizes:
        page.size(width, height, scale)
        for number in range(1, count + 1):
            page.open("#" + first(number))
            page.run(script)
            found = one_step(page, f"{what}, {width} wide, object {number}", width == 1366 and not script)
            rows, whole, large = rows + found[0], whole + found[1] * (width == 1366), large + found[2] * (width == 1366)
    return rows, whole, large


# ---- choices
CHOICE = SEEN + r"""
const [key] = arguments;
choose(key, true);
const arrows = drawn.arrows.flatMap(({ key: target, rows }) => rows.map((row) => [row, target]));
const faults = arrows.filter((ends) => byId("image").matches(".scene")
    && !ends.every(seen)).map(([row, target]) => `${row.id} to ${target.id}: an end is out of view`);
const without = drawn.references.filter((one) => !byId(one.id));
const groups = new Set(drawn.references.map((one) => byId(one.id)?.closest(".group")));
const left = without.length === 0 ? 0 : [...groups].map((group) => group?.querySelector(".more-line")?.textContent)
    .reduce((sum, text) => sum + Number(text?.match(/and (\d+) other/)?.[1] ?? 0), 0);
const shown = new Set(arrows.map(([row]) => row));
const nowhere = drawn.references.filter((one) => one.to && byId(one.id) && !shown.has(byId(one.id))).length;
const counted = drawn.references.filter((one) => byId(one.id)).length + left;
return { faults, ends: arrows.length, all: drawn.references.length, counted, nowhere, isWhole: !wordOf(stateNow(), key)?.to
    || isWholeArrow(key) };
"""
# all names, and so many of the words that refer to something
CHOOSE_FROM = """
const names = stateNow().names.map(({ name }) => `name ${name}`), words = allReferences(stateNow());
return [...names, ...words.filter((_, i) => i % Math.ceil(words.length / arguments[0]) === 0).map(({ id }) => id)];
"""


def choices(page, what, keys):
    """Both ends of each arrow of a choice are seen, and of nine of ten words the own arrow; all references have a row or are counted."""
    ends, wholly = 0, []
    for key in keys:
        seen = page.run(CHOICE, key)
        ends += seen["ends"]
        wholly += [] if key.startswith("name ") else [seen["isWhole"]]
        same(f"{what}: {key}", (seen["faults"][:2], seen["nowhere"], seen["counted"]), ([], 0, seen["all"]))
    same(f"{what}: choices whole in view, nine of ten", 10 * sum(wholly) >= 9 * len(wholly) or "1366" not in what, True)
    return ends


def whole_and_back(page):
    """Key o shows the whole image with the choice, and the scene again; Escape leads back to the step."""
    word = page.run("return allReferences(stateNow()).filter((one) => one.to)[0].id")
    page.run("document.activeElement.blur(); choose('', false)")
    page.settle()
    step = page.run("return [...document.querySelectorAll('#image .word')].map((row) => row.id).join()")
    page.run("choose(arguments[0], true)", word)
    pressed = page.run("return document.getElementById('whole').getAttribute('aria-pressed')")
    for wanted in ("true", "false") if pressed == "false" else ("false", "true"):
        page.type("o")
        same(f"key o: {wanted}", page.run("return [byId('whole').getAttribute('aria-pressed'), String(!byId('image').matches('.scene')), "
                                          "chosen, Boolean(byId(chosen))]"), [wanted, wanted, word, True])
    page.type(Keys.ESCAPE)
    same("Escape", page.run("return [chosen, [...document.querySelectorAll('#image .word')].map((row) => row.id).join()]"), ["", step])


def search(page, files):
    """`/jsr pc,` finds each such instruction, in folds too. Enter leads to the next one, and with Shift back."""
    session = Session([Given(file) for file in files])
    wanted = [f"{part}-{offset}" for (part, offset), word in session.in_order() if "jsr pc," in session.instruction(word, offset)]
    page.run("document.activeElement.blur()")
    page.type("/", *"jsr pc,")
    page.wait("return byId('found').textContent === arguments[0]", f"1 of {len(wanted)}")
    same("what /jsr pc, finds", page.run("return matches.map(({ id }) => id)"), wanted)
    page.type(Keys.ENTER)
    second = min(2, len(wanted))
    same("the next one", page.run("return [byId('found').textContent, chosen]"), [f"{second} of {len(wanted)}", wanted[second - 1]])
    page.run("byId('find').dispatchEvent(new KeyboardEvent('keydown', { key: 'Enter', shiftKey: true }))")
    same("the one before", page.run("return [byId('found').textContent, chosen]"), [f"1 of {len(wanted)}", wanted[0]])
    page.type("z")
    page.wait("return byId('found').textContent === 'nothing'")
    page.type(Keys.ESCAPE)
    page.run("choose('', false)")
    return len(wanted)


# what is clicked with so many objects, or with one fewer
CLICKED = {"an object": "#add{count}", "Withdraw": "#withdraw", "a word": ".word.bound", "a name": ".name", "a fold": ".fold",
           "Addresses": "#addresses"}
CLICK = """
const element = document.querySelector(arguments[0]);
if (element.matches("select")) element.value = "0";
element.dispatchEvent(element.matches("select") ? new Event("change") : new MouseEvent("click", { bubbles: true }));
"""


def response(_, page, files):
    """Prints how long a click takes with a hundred objects, with the two frames after it: the middle of five, in milliseconds of the
    processor in Chromium, and by the clock in Firefox, which does not say more. The aim is 100; docs/internals/COSTS.md has the figures."""
    times, count = {}, len(files)
    for what, selector in CLICKED.items():
        taken = []
        for _ in range(5):
            page.open("#" + first(count - (what == "an object")))
            page.settle()
            before = page.busy()
            page.run(CLICK, selector.format(count=count))
            page.settle()
            taken.append(page.busy() - before)
        times[what] = sorted(taken)[2]
    said = ", ".join(f"{what} {time:.0f}" for what, time in times.items())
    print(f"{page.name}: milliseconds for a click with {count} objects: {said}", flush=True)


def stage(_, page, files):
    """All of this, with some objects. At 1366 x 768 each step is whole in view, with objects that are joined nine of ten."""
    counts, sizes, what = {"arrows of choices": 0}, page.sizes(SIZES), f"{len(files)} objects"
    counts["rows that changed"], whole, large = steps(page, len(files), sizes, what)
    is_right = 10 * whole >= 9 * (2 * len(files) - large) if "joined" in files[0] else whole == 2 * len(files)
    same(f"steps whole in view, {what}: {whole}", is_right or (1366, 768, 1) not in sizes, True)
    for width, height, scale in sizes:
        page.size(width, height, scale)
        for number in {5, len(files)} if width == 1366 else {len(files)}:
            page.open("#" + first(number))
            counts["arrows of choices"] += choices(page, f"{what}, {number} objects, {width} wide", page.run(CHOOSE_FROM, 20))
        whole_and_back(page)
    page.open("#" + first(len(files)))
    counts["found calls"] = search(page, files)
    same("nothing was measured of", [name for name, count in counts.items() if count == 0], [])
    return sum(counts.values())


def steps_of_five(_, page, __):
    same("steps whole in view, pointers and bss", steps(page, 5, [(1366, 768, 1)], "pointers and bss")[1], 10)


CHECKS = ((stage, (0, 1, 3, 6)), (steps_of_five, (2,)), (response, (7,)))
