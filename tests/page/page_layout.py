"""Looks at where things are on the page: arrows, text in its frames, badges. The pictures of docs/pictures are made here too."""
import base64
import re
import tempfile

from tests.lib.files import read_bytes
from tests.page.page_browser import Chromium
from tests.page.page_stage import CHOOSE_FROM, first
from tests.page.page_tools import faults, same

# faults of the layout that is shown, as texts, and how many things were looked at
LOOK = r"""
const faults = [], counts = { arrows: 0, lines: 0, texts: 0, badges: 0, crossings: 0 };
const fault = (text) => { if (faults.length < 30) faults.push(text); };
const near = (one, other, far = 3) => Math.abs(one - other) <= far;
const image = document.getElementById("image");
const seen = (element) => element.checkVisibility({ visibilityProperty: true }) && element.getClientRects().length > 0;
const middle = (box) => (box.top + box.bottom) / 2;
const spot = (path, length) => path.getPointAtLength(length).matrixTransform(path.getScreenCTM());
const rowBox = (id) => document.getElementById(id).getBoundingClientRect();

// the boxes of all text of an element, line by line
function textBoxes(element) {
    const boxes = [];
    const walker = document.createTreeWalker(element, NodeFilter.SHOW_TEXT);
    for (let node = walker.nextNode(); node; node = walker.nextNode()) {
        if (!node.data.trim() || !seen(node.parentElement)) continue;
        const range = document.createRange();
        range.selectNodeContents(node);
        for (const box of range.getClientRects()) if (box.width > 1) boxes.push({ box, node, text: node.data.trim() });
    }
    return boxes;
}

const words = textBoxes(image);
words.sort((a, b) => a.box.top - b.box.top);
function crosses(path, name) {
    const total = path.getTotalLength();
    const [first, last] = [spot(path, 0), spot(path, total)];
    const box = path.getBoundingClientRect();
    const near = words.filter((word) => word.box.bottom > box.top && word.box.top < box.bottom && word.box.right > box.left
        && word.box.left < box.right);
    counts.crossings += 1;
    for (let at = 0; near.length > 0 && at <= total; at += 3) {
        const point = spot(path, at);
        for (const { box, text } of near) {
            if (point.x > box.left + 1 && point.x < box.right - 1 && point.y > box.top + 1 && point.y < box.bottom - 1)
                return fault(`${name} crosses ${text}`);
        }
    }
}

const lanes = new Set();
if (seen(image)) for (const arrow of document.querySelectorAll("g.arrow")) {
    if (!seen(arrow.querySelector(".line"))) continue;
    counts.arrows += 1;
    const [line, head] = [arrow.querySelector(".line"), arrow.querySelector(".head")];
    const [from, to] = [rowBox(arrow.dataset.from), rowBox(arrow.dataset.to)];
    const [start, tip, end] = [spot(line, 0), spot(head, 0), spot(line, line.getTotalLength())];
    const name = `the arrow ${arrow.dataset.from} to ${arrow.dataset.to}`;
    if (!near(start.y, middle(from)) || !near(start.x, from.right))
        fault(`${name} starts at ${start.x},${start.y} and not at ${from.right},${middle(from)}`);
    const isDown = !/Q/.test(line.getAttribute("d"));
    const edge = tip.y < middle(to) ? to.top : to.bottom;
    if (isDown ? !near(tip.y, edge) || !near(tip.x, end.x) || tip.x < from.right || tip.x > to.right : !near(tip.y, middle(to))
        || !near(tip.x, to.right)
        || !near(end.y, middle(to))) fault(`${name} ends at ${tip.x},${tip.y} and not at ${to.right},${middle(to)}`);
    crosses(line, name);
    crosses(head, name);
    if (!isDown) lanes.add(Math.round(Number(line.getAttribute("d").match(/Q ([\d.]+)/)[1])));
}
if (lanes.size > 8) fault(`${lanes.size} lanes`);
for (const chain of document.querySelectorAll("g.chain")) {
    if (!seen(chain.querySelector(".dash"))) continue;
    const [line, ...ticks] = chain.querySelectorAll(".dash");
    const rows = chain.dataset.rows.split(" ");
    if (ticks.length !== rows.length) fault("a dashed line of too few words");
    if (!near(line.getTotalLength(), middle(rowBox(rows.at(-1))) - middle(rowBox(rows[0])))) fault(`the dashed line of ${rows} is short`);
    rows.forEach((id, i) => {
        counts.lines += 1;
        const box = rowBox(id);
        const [start, end] = [spot(ticks[i], 0), spot(ticks[i], ticks[i].getTotalLength())];
        if (!near(start.y, middle(box)) || !near(end.y, middle(box)) || end.x > box.left)
            fault(`the dashed line of ${id} is at ${end.x},${end.y}`);
        crosses(ticks[i], `the dashed line of ${id}`);
    });
    crosses(line, "a dashed line");
}

// no text leaves its frame, and none covers another
const FRAMES = ".word, .fold, .name, .mark, .card, button, .segment > h3, .owner, pre, #guide, .bar, #legend, #welcome, #note, .refused";
for (const frame of document.querySelectorAll(FRAMES)) {
    if (!seen(frame)) continue;
    const outer = frame.getBoundingClientRect();
    if (frame.closest(".adds, .maps")) continue;
    const column = (frame.closest(".stage, main, .side, .known, header") ?? document.body).getBoundingClientRect();
    if (outer.right > column.right + 1) fault(`${frame.id || frame.className} is wider than its column`);
    for (const { box, node, text } of textBoxes(frame)) {
        counts.texts += 1;
        const scrolls = frame.scrollHeight > frame.clientHeight + 1 && getComputedStyle(frame).overflowY === "auto";
        if (box.left < outer.left - 1 || box.right > outer.right + 1) fault(`"${text}" leaves ${frame.id || frame.className} by the side`);
        if (!scrolls && !isClipped(node.parentElement) && (box.top < outer.top - 1 || box.bottom > outer.bottom + 1))
            fault(`"${text}" leaves ${frame.id || frame.className}`);
    }
}
function apart(boxes, what) {
    boxes.sort((a, b) => a.box.top - b.box.top);
    for (let i = 0; i < boxes.length; i++) {
        for (let j = i + 1; j < boxes.length && boxes[j].box.top < boxes[i].box.bottom - 2; j++) {
            const [one, other] = [boxes[i].box, boxes[j].box];
            if (one.left < other.right - 1 && other.left < one.right - 1)
                fault(`${what} "${boxes[i].text}" and "${boxes[j].text}" overlap`);
        }
    }
}
// what has been scrolled out of its part of the page is not seen
function isClipped(element) {
    const room = element.closest(".stage, .names, .told, .side, .known")?.getBoundingClientRect();
    const box = element.getBoundingClientRect();
    return room !== undefined && (box.top < room.top || box.bottom > room.bottom);
}
const badges = [...document.querySelectorAll(".page .tag, .page .badge, .page kbd, .page .label")].filter((badge) => seen(badge)
    && !isClipped(badge));
counts.badges = badges.length;
const boxesOf = (elements) => elements.map((element) => ({ box: element.getBoundingClientRect(), text: element.textContent }));
apart(boxesOf(badges), "the badges");
apart(boxesOf([...document.querySelectorAll("#guide button")].filter((button) => seen(button) && !isClipped(button))), "the buttons");
for (const row of document.querySelectorAll(".word, .name, .card .head, .mark")) if (seen(row)) apart(textBoxes(row), "the texts");
// nothing that can be pressed is covered
for (const button of document.querySelectorAll("button, summary, input, select")) {
    const box = button.getBoundingClientRect();
    const [x, y] = [(box.left + box.right) / 2, (box.top + box.bottom) / 2];
    if (!seen(button) || isClipped(button) || button.closest(".adds") || x < 0 || y < 0 || x > innerWidth || y > innerHeight) continue;
    counts.pressed = (counts.pressed ?? 0) + 1;
    const above = document.elementFromPoint(x, y);
    if (!above || !(button.contains(above) || above.contains(button) && !above.matches("#main, .page, body")))
        fault(`${button.textContent.trim() || button.id} is covered by ${above?.id || above?.className}`);
}
const root = document.documentElement;
if (root.scrollWidth > root.clientWidth + 1) fault(`the page is ${root.scrollWidth} wide, and the window ${root.clientWidth}`);
const main = document.getElementById("main");
if (main.scrollWidth > main.clientWidth + 1) fault("the image is wider than its column");
return { faults, counts };
"""


# widths, heights and scales of a window; a zoom of 200 % at 1280 is a window of 640 pixels, each of two dots
SIZES = [(390, 844, 1), (820, 1180, 1), (1280, 720, 1), (1920, 1080, 1), (640, 360, 2)]


def states_of(page, files):
    """The states that are looked at: steps, withdrawals, links, and of a page with lessons the first view, the tour and lessons."""
    count, places = len(files), [str(number) for number in range(1, len(files) + 1)]
    backwards = "objects=" + ",".join(reversed(places))
    lessons = ["", "tour=1", first(2) + "&tour=4", "objects=1&lesson=1&done=1"] * (page.run("return GUIDES.length") > 2)
    return [*lessons, *map(first, sorted({1, 2, min(7, count), count})), first(2) + "&addresses=-r&numbers=decimal",
            backwards + "&addresses=-n", f"{first(count - 1)}&withdrawn={count}"]


# gives each word of text an instruction, as long as they come; how many of them are shown
INSTRUCTIONS = """
for (const object of DATA.objects) object.instructions = object.text.map((_, index) => index % 3 === 1
    ? "" : "movb *-177776(r5),*_longname+177776(r4)");
document.querySelectorAll(".given").forEach((words, i) => { words.open = true; showListing(words, DATA.objects[i]); });
showAll();
return document.querySelectorAll(".instruction").length;
"""

# on paper nothing is drawn, and each word that refers to something says to what: itself, or in a step its instruction or the line of the
# place, which follows
PAPER = r"""
const faults = [];
const drawn = [...document.querySelectorAll("#drawing")].filter((element) => element.checkVisibility()).length;
if (drawn) faults.push("arrows are on the paper");
for (const row of document.querySelectorAll(".word:not(.spot):not(.cut-off)")) {
    const word = wordAt(stateNow(), row.id.split("-")[0], Number(row.id.split("-")[1]));
    const saying = [...row.querySelectorAll(".target, .place")].filter((part) => part.checkVisibility());
    const said = saying.map((part) => part.textContent).join("");
    const place = document.querySelector(`[id="${word.to}"].place-line`);
    const isBelow = place?.checkVisibility() && row.compareDocumentPosition(place) & Node.DOCUMENT_POSITION_FOLLOWING;
    if (word.kind > 0 && !isBelow && !said.startsWith(SEGMENTS[word.kind] + " ")) faults.push(`${row.id} says ${said}`);
    if (word.kind < 0 && !said.includes(word.name) && !row.querySelector(".instruction")?.textContent.includes(word.name))
        faults.push(`${row.id} says ${said}`);
}
return { faults, counts: { printed: document.querySelectorAll(".word").length } };
"""


class Counts(dict):
    """How many things were looked at."""

    def add(self, what, seen):
        faults.extend(f"{what}: {text}" for text in seen["faults"])
        for name, count in seen["counts"].items():
            self[name] = self.get(name, 0) + count

    def total(self, but=()):
        same("what was not counted", [what for what, count in self.items() if count == 0 and what not in but], [])
        return sum(self.values())


def go(page, state):
    page.run("location.hash = arguments[0] || '#';", state)
    page.wait("return location.hash.replace('#', '') === arguments[0] && hashOf(view) === arguments[0]", state)


def look_at_states(page, files, what, counts):
    for state in states_of(page, files):
        go(page, state)
        counts.add(f"{what}, {state}", page.run(LOOK))
    go(page, first(len(files)))
    for key in page.run(CHOOSE_FROM, 2)[::max(1, len(files) // 5)]:
        page.run("choose(arguments[0], true);", key)
        counts.add(f"{what}, {key}", page.run(LOOK))


def look_on_paper(_, page, files):
    """As it is printed, upright and across: the window has the width of the paper less its margins."""
    counts = Counts()
    for width in (703, 1032):
        page.size(width, 1000)
        page.media("print")
        for state in [one for one in states_of(page, files) if "addresses" not in one and "objects" in one]:
            go(page, state)
            for script in (LOOK, PAPER):
                counts.add(f"{width} on paper, {state}", page.run(script))
        page.media("")
    return counts.total(("arrows", "lines", "crossings")) * len(re.findall(rb"/Type /Page[\n ]", page.paper()))


def look_with_instructions(_, page, __):
    """The longest instruction beside each word of text, in the image, in a link and in the objects."""
    counts = Counts()
    for width, height, scale in SIZES:
        page.size(width, height, scale)
        for state in ("#objects=1,2", "#objects=4,3,1,2,5&addresses=-n"):
            page.open(state)
            counts["instructions"] = counts.get("instructions", 0) + page.run(INSTRUCTIONS)
            page.settle()
            counts.add(f"instructions, {width} wide, {state}", page.run(LOOK))
    return counts.total(("lines",))


def look_everywhere(_, page, files):
    """In each size that the browser has."""
    counts = Counts()
    for width, height, scale in page.sizes(SIZES):
        page.size(width, height, scale)
        page.open("")
        look_at_states(page, files, f"{width} wide in {page.name}", counts)
    return counts.total()


def look_at_large_text(_, page, files):
    """Where the browser is set to text of 200 %."""
    counts = Counts()
    with Chromium(text=32) as large:
        large.load(page.path)
        look_at_states(large, files, "text of 200 %", counts)
    return counts.total(("lines",))


# ---- pictures
PICTURES = "docs/pictures"
STATES_SHOWN = {"first": "", "bound": "objects=1,2"}
# how many of a thousand pixels may differ: other versions of a browser smooth letters in another way
LIMIT = 15

DIFFERENCE = r"""
const [one, other, done] = arguments;
const pixels = async (text) => {
    const image = await createImageBitmap(await (await fetch(`data:image/png;base64,${text}`)).blob());
    const canvas = Object.assign(document.createElement("canvas"), { width: image.width, height: image.height });
    canvas.getContext("2d").drawImage(image, 0, 0);
    return canvas.getContext("2d").getImageData(0, 0, image.width, image.height);
};
(async () => {
    const [a, b] = [await pixels(one), await pixels(other)];
    if (a.width !== b.width || a.height !== b.height) return 1000;
    let count = 0;
    for (let i = 0; i < a.data.length; i += 4) if ([0, 1, 2].some((part) => Math.abs(a.data[i + part] - b.data[i + part]) > 64)) count += 1;
    return 1000 * count / (a.width * a.height);
})().then(done, () => done(1000));
"""


def make_pictures(page, folder):
    """Pictures of some states, in a folder."""
    page.size(1366, 768)
    for name, address in STATES_SHOWN.items():
        page.open("#" + address)
        page.settle()
        page.picture(f"{folder}/{name}.png")


def compare_pictures(_, page, __):
    """The pictures are those of the page."""
    with tempfile.TemporaryDirectory() as folder:
        make_pictures(page, folder)
        for name in STATES_SHOWN:
            both = [base64.b64encode(read_bytes(f"{of}/{name}.png")).decode() for of in (folder, PICTURES)]
            same(f"docs/pictures/{name}.png, as the part `pictures` makes it",
                 page.driver.execute_async_script(DIFFERENCE, *both) <= LIMIT, True)


def write_pictures(_, page, __):
    make_pictures(page, PICTURES)


# the checks of both browsers, and those of Chromium alone: the class example, sixteen objects, five, and five that are joined
CHECKS_EVERYWHERE = ((look_everywhere, (0, 3, 4, 5)),)
CHECKS = ((look_with_instructions, (0,)), (look_on_paper, (0, 3, 4, 5)), (look_at_large_text, (0, 3, 4, 5)), (compare_pictures, (0,)))
