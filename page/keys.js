// Keys and clicks. Image, names and marks are each one stop of the tabulator, with arrow keys inside.
"use strict";

// the keys that leave the state as it is, and act under an open question too
const QUIET = new Set(["d", "l", "o"]);
// the lists of rows that can be chosen: those of the cards are there as long as these are unfolded
const lists = () => ["image", "names", "marks", ...[...document.querySelectorAll("#cards [role=listbox]")].map(({ id }) => id)];

// for each list the row that keys move from
const active = { image: "", names: "", marks: "" };
let areKeysOn = true;

const rowsIn = (list) => [...byId(list).querySelectorAll("[role=option]")];

// tells the browser which row of each list is active
function setActive() {
    for (const list of lists()) {
        const row = byId(active[list] ?? "");
        const isThere = row && byId(list).contains(row);
        for (const other of byId(list).querySelectorAll(".active")) if (other !== row) other.classList.remove("active");
        if (isThere) {
            row.classList.add("active");
            byId(list).setAttribute("aria-activedescendant", row.id);
        } else byId(list).removeAttribute("aria-activedescendant");
    }
}

// makes a row active, and chooses it, unless it is a fold
function moveTo(list, row) {
    if (!row) return;
    active[list] = row.id;
    const key = row.dataset.key;
    if (/^(fold |none$)/.test(key)) setActive();
    else choose(key, list !== "image");
    if (byId(active[list])) bring(byId(active[list]));
}

// what Enter and a click do with a row
function press(list, row) {
    const { key } = row.dataset;
    if (key.startsWith("fold ")) openFold(key);
    else {
        moveTo(list, row);
        answer(key);
    }
}

function keyInList(list, event) {
    const rows = rowsIn(list);
    const now = rows.findIndex((row) => row.id === active[list]);
    const places = { ArrowDown: now + 1, ArrowUp: Math.max(0, now - 1), Home: 0, End: rows.length - 1, PageDown: now + 10,
        PageUp: now - 10 };
    if (event.key in places) moveTo(list, rows[Math.max(0, Math.min(rows.length - 1, places[event.key]))]);
    else if ((event.key === "Enter" || event.key === " ") && now >= 0) press(list, rows[now]);
    else return;
    event.preventDefault();
    event.stopPropagation();
}

function watchList(list) {
    const element = byId(list);
    element.addEventListener("keydown", (event) => {
        if (!event.ctrlKey && !event.metaKey && !event.altKey) keyInList(list, event);
    });
    element.addEventListener("click", (event) => {
        const row = event.target.closest("[role=option]");
        if (row) press(list, row);
    });
    element.addEventListener("focus", () => {
        const rows = rowsIn(list);
        if (!rows.some((row) => row.id === active[list]) && rows.length > 0) {
            active[list] = (rows.find((row) => row.matches(".bound, .put-back, .new, .changed")) ?? rows[0]).id;
            setActive();
        }
    });
}

// from the question to the image, or to the first thing to press, and back
function switchPlace() {
    const guide = byId("guide");
    if (guide.hidden || guide.contains(document.activeElement)) byId("image").focus({ preventScroll: true });
    else {
        showTab("guide");
        (guide.querySelector("input, .choices button") ?? byId("next") ?? guide).focus();
    }
}

// what a key does under a question: a digit chooses, or begins a number
function questionKey(event, key) {
    if (byId("number") && /^[0-9]$/.test(key)) byId("number").focus();
    else {
        const choice = byId(byId("number") && key === "n" ? "choice1" : `choice${key}`);
        if (!choice) return;
        event.preventDefault();
        choice.click();
        byId("next").focus();
    }
}

// single keys, in small letters or with Caps Lock, if they are on
function shortcut(event) {
    if (event.key === "Escape" && (view.guide >= 0 || chosen)) return chosen ? choose("", false) : closeGuide();
    if (!areKeysOn || event.ctrlKey || event.metaKey || event.altKey || /INPUT|TEXTAREA/.test(event.target.tagName)) return undefined;
    const key = event.key.toLowerCase();
    if (key === "/") {
        event.preventDefault();
        return byId("find").focus();
    }
    if (event.shiftKey) return undefined;
    if (key === "q") return switchPlace();
    if (event.target.tagName === "SELECT" && key.length > 1) return undefined;
    if (isAsked() && !QUIET.has(key)) return key === "enter" ? pressNext(event) : questionKey(event, key);
    const element = document.querySelector(`[aria-keyshortcuts~="${CSS.escape(key)}" i]`);
    if (!element) return key === "enter" ? pressNext(event) : undefined;
    event.preventDefault();
    if (element.id === "addresses") return show({ ...view, layout: key === "a" && view.layout < 0 ? 0 : "pnir".indexOf(key) });
    return element.click();
}

// Enter goes on in a lesson, where no button and no row takes it
function pressNext(event) {
    if (event.target.closest?.("button, summary, a, [role=listbox]") || !byId("next")) return;
    event.preventDefault();
    byId("next").click();
}

function switchKeys() {
    areKeysOn = !areKeysOn;
    byId("keys").setAttribute("aria-pressed", String(areKeysOn));
    byId("keys").textContent = areKeysOn ? "Keys on" : "Keys off";
    document.body.classList.toggle("no-keys", !areKeysOn);
}

// the buttons of the bar; one that is disabled does nothing
function watchBar() {
    const acts = {
        withdraw, keys: switchKeys, guides: () => closeGuide(true),
        decimal: () => show({ ...view, decimal: !view.decimal }), whole: switchWhole, flick, presenter: switchPresenter,
        maps: () => { areMapsShown = !areMapsShown; keepAddress(); showMaps(stateNow()); draw(); },
    };
    for (const [id, act] of Object.entries(acts)) {
        byId(id).addEventListener("click", () => { if (byId(id).getAttribute("aria-disabled") !== "true") act(); });
    }
    byId("addresses").addEventListener("change", (event) => show({ ...view, layout: Number(event.target.value) }));
}

// the whole image in its order, or the scene of the step
function switchWhole() {
    isWhole = byId("whole").getAttribute("aria-pressed") !== "true";
    opened.clear();
    keepAddress();
    showChosen(true, firstChanged);
}

// large words for a projector, without the legend
const isLarge = () => document.documentElement.classList.contains("presenter");
function setLarge(isOn) {
    document.documentElement.classList.toggle("presenter", isOn);
    byId("presenter").setAttribute("aria-pressed", String(isOn));
}
function switchPresenter() {
    setLarge(!isLarge());
    keepAddress();
    showChosen(true, firstChanged);
}

// in a narrow window the names, the objects and the lesson share one place
function showTab(name) {
    byId("page").dataset.tab = name;
    for (const tab of ["names", "objects", "guide"]) byId(`tab-${tab}`).setAttribute("aria-pressed", String(tab === name));
}

function watchKeys() {
    lists().forEach(watchList);
    watchBar();
    for (const tab of ["names", "objects", "guide"]) byId(`tab-${tab}`).addEventListener("click", () => showTab(tab));
    document.addEventListener("keydown", shortcut);
}
