// Objects of the reader's own: files that are opened or dropped, listings that are edited, and a page that is saved with them. Any order of
// them is a session.
"use strict";

// ---- what bytes are
const isText = (bytes) => bytes.length > 0 && bytes.every((byte) => byte >= 32 || byte === 9 || byte === 10 || byte === 13);
const attempt = (act) => {
    try {
        return act();
    } catch (fault) {
        if (fault instanceof Fault && !endsLinker(fault)) return fault;
        throw fault;
    }
};

// the object that bytes are: in the form of V7, or in that of GNU's assembler, or as a listing; or why they are none
function objectIn(bytes) {
    const size = attempt(() => LINKER.check(bytes));
    if (size === bytes.length) return bytes;
    const made = attempt(() => (isText(bytes) ? LINKER.fromListing(bytes) : LINKER.fromGnu(bytes)));
    if (!(made instanceof Fault)) return made;
    return size instanceof Fault ? (isText(bytes) ? made : size) : bytes.slice(0, size);
}

const isOfListing = ({ fault }) => fault > 60 && fault < 81;
function faultText(fault) {
    if (isOfListing(fault)) return `line ${fault.place}, column ${fault.word}: ${fault.message}`;
    return fault.fault === 23 || fault.fault === 24 ? `${fault.message} at word ${fault.word}` : fault.message;
}

// ---- objects come and go
// what was made of the objects is made again; the list stays as far as there is such a state
function renew(list = view.list) {
    DATA.objects.forEach((object, number) => { object.number = number; });
    forgetStates();
    forgetElements();
    let there = list;
    while (!hasState(there)) there = there.slice(0, -1);
    step({ ...START, decimal: view.decimal, list: there, layout: view.layout });
}

function forgetElements() {
    for (const id of ["cards", "adds", "start", "menu"]) byId(id).replaceChildren();
    byId("sets").value = String(DATA.set);
    GUIDES = guides();
    recallAnswers();
}

// the objects are not those of a set any more; lessons are about all objects, so they go where one goes
const makeOwn = (keepsLessons) => Object.assign(DATA, { set: -1 }, keepsLessons ? {} : { lessons: [], lessonsText: "" });

// puts an object beside the others, or in place of one that is called so: why it is refused, or nothing
function bringObject(path, bytes) {
    const found = attempt(() => objectIn(bytes));
    if (found instanceof Fault) return `${path}: ${faultText(found)}`;
    const object = objectOf(path, found);
    const at = DATA.objects.findIndex((_, number) => label(number) === path.replace(/^.*\//, ""));
    const number = at < 0 ? DATA.objects.length : at;
    DATA.objects[number] = Object.assign(object, { number });
    makeOwn(at < 0);
    return "";
}

function bringFile(path, bytes) {
    if (!isText(bytes) || !/^(#.*\n|\s)*lesson /.test(latin(bytes))) return bringObject(path, bytes);
    makeOwn(true);
    const fault = takeLessons(new TextDecoder().decode(bytes));
    return fault && `${path}: ${fault}`;
}

function clearObjects() {
    DATA.objects.length = 0;
    makeOwn(false);
    refuse([]);
    renew([]);
}

function removeObject(number) {
    DATA.objects.splice(number, 1);
    makeOwn(false);
    renew(view.list.filter((one) => one !== number).map((one) => (one > number ? one - 1 : one)));
}

// an object comes one place earlier in the list
function moveEarlier(number) {
    const list = [...view.list];
    const place = list.indexOf(number);
    [list[place - 1], list[place]] = [list[place], list[place - 1]];
    if (hasState(list)) step({ ...view, list, gone: -1 });
}

// the buttons of a card that change an object, move it, and take it away
function cardTools(number) {
    const tool = (id, sign, title, act) =>
        withAttributes(makeButton(`${id}${number + 1}`, sign, act), { title, "aria-label": `${label(number)}: ${title}` });
    return make("div", "tools own-tools", tool("edit", "\u270e", "edit its listing", () => editListing(number)),
        tool("earlier", "\u2191", "one place earlier in the link", () => moveEarlier(number)),
        tool("away", "\u00d7", "take it from the page", () => removeObject(number)));
}

function showCardTools(number) {
    byId(`earlier${number + 1}`)?.setAttribute("aria-disabled", String(view.list.indexOf(number) < 1 || isAsked()));
    for (const id of ["away", "edit"]) byId(`${id}${number + 1}`)?.setAttribute("aria-disabled", String(isAsked()));
}

// ---- files
function refuse(faults) {
    byId("own-refused").hidden = faults.length === 0;
    byId("own-refused").replaceChildren(...faults.map((fault) => make("p", "", fault)));
}

// opens files; lessons come after the objects that they are about
async function openFiles(files) {
    const given = await Promise.all([...files].map(async (file) => [file.name, new Uint8Array(await file.arrayBuffer())]));
    const isLast = ([path]) => Number(/lessons.*\.txt$/.test(path));
    const faults = given.sort((a, b) => isLast(a) - isLast(b)).map(([path, bytes]) => bringFile(path, bytes)).filter(Boolean);
    refuse(faults);
    if (faults.length < given.length) renew();
    say([faults.length > 0 ? `Refused: ${faults.join(". ")}` : `${counted(given.length, "file")} opened.`]);
}

function saveFile(name, content) {
    const link = withAttributes(make("a"), { href: URL.createObjectURL(new Blob([content])), download: name });
    link.click();
    URL.revokeObjectURL(link.href);
}

const linkFile = () => linkOf(view.list, view.layout).file;

// the output of -r as one more object
function addLink() {
    const fault = bringObject("linked.o", linkFile());
    refuse(fault ? [fault] : []);
    if (!fault) renew([]);
}

// ---- listings
const EMPTY_LISTING = "text\n_f:\n000000 012700 0   / mov $5,r0\n000002 000005 0\n000004 000207 0   / rts pc\nsymbols\n0 _f 42 0\n";

// the listing of an object, or of a new one, to edit
function editListing(number) {
    byId("editor").hidden = false;
    byId("own-name").value = number < 0 ? "own.o" : label(number);
    byId("own-text").value = number < 0 ? EMPTY_LISTING : LINKER.list(DATA.objects[number].bytes);
    typed();
    showTab("objects");
    byId("own-text").focus();
    byId("own-text").setSelectionRange(0, 0);
    byId("own-text").scrollTop = 0;
}

// makes the object anew of its listing, while one types; at a mistake it shows the line, and the object stays as it was
function takeListing() {
    const [text, path] = [byId("own-text").value, byId("own-name").value.trim() || "own.o"];
    const made = attempt(() => LINKER.fromListing(new TextEncoder().encode(text.endsWith("\n") ? text : `${text}\n`)));
    const fault = made instanceof Fault ? `${path}: ${faultText(made)}` : isSame(path, made) ? "" : bringObject(path, made);
    const line = made instanceof Fault && isOfListing(made) ? text.split("\n")[made.place - 1] ?? "" : "";
    setText(byId("own-said"),
        [fault, line && `> ${line}`, ...(fault ? [] : LINKER.remarks(made).map(({ text: remark }) => remark))].filter(Boolean).join("\n"));
    byId("own-said").classList.toggle("refused", Boolean(fault));
    return !fault;
}
const isSame = (path, bytes) => DATA.objects.some((object, number) => label(number) === path && latin(object.bytes) === latin(bytes));

function typed() {
    const was = [...DATA.objects];
    if (takeListing() && (was.length !== DATA.objects.length || was.some((object, number) => object !== DATA.objects[number]))) renew();
}

// ---- what keeps objects
// the page with the objects and the lessons that it has now: so a teacher makes pages without any program
let source = "";
function pageText() {
    const objects = DATA.objects.map(({ path, bytes }) => ({ path, bytes: btoa(latin(bytes)) }));
    const data = JSON.stringify([{ title: "These objects", objects, lessons: DATA.lessonsText }]).replace(/</g, "\\u003c");
    const [start, end] = ['<script type="application/json" id="data">', "<\/script>"];
    const at = source.indexOf(start) + start.length;
    return `<!DOCTYPE html>\n${source.slice(0, at)}\n${data}\n${source.slice(source.indexOf(end, at))}\n`;
}

// ---- events
function watchOwn() {
    byId("sets").append(...SETS.map(({ title }, number) => withAttributes(make("option", "", title), { value: String(number) })),
        withAttributes(make("option", "", "your own"), { value: "-1" }));
    byId("sets").addEventListener("change",
        (event) => (event.target.value === "-1" ? clearObjects() : openSet(Number(event.target.value))));
    const acts = {
        "own-open": () => byId("own-files").click(), "own-page": () => saveFile("v7.html", pageText()), "own-new": () => editListing(-1),
        "own-close": () => { byId("editor").hidden = true; }, "own-add": addLink,
        "own-save": () => saveFile(view.layout === 3 ? "linked.o" : "a.out", linkFile()),
    };
    for (const [id, act] of Object.entries(acts)) byId(id).addEventListener("click", act);
    byId("own-files").addEventListener("change", (event) => openFiles(event.target.files));
    let timer = 0;
    byId("own-text").addEventListener("input", () => {
        clearTimeout(timer);
        timer = setTimeout(typed, 150);
    });
    for (const id of ["own-text", "own-name", "entry", "forced"]) byId(id).addEventListener("keydown", (event) => event.stopPropagation());
    for (const id of ["entry", "forced"]) byId(id).addEventListener("change", askLinks);
    watchDrops();
}

// what links are asked for from now on
function askFor(asked) {
    Object.assign(ASKED, asked);
    [byId("entry").value, byId("forced").value] = [asked.entry, asked.forced.join(" ")];
    forgetStates();
}

function askLinks() {
    askFor({ entry: byId("entry").value.trim().slice(0, 8), forced: byId("forced").value.split(/[\s,]+/).filter(Boolean) });
    show(view);
}

function watchDrops() {
    const drop = (isOver) => document.body.classList.toggle("dropping", isOver);
    document.addEventListener("dragover", (event) => {
        event.preventDefault();
        drop(true);
    });
    document.addEventListener("dragleave", (event) => { if (!event.relatedTarget) drop(false); });
    document.addEventListener("drop", (event) => {
        event.preventDefault();
        drop(false);
        openFiles(event.dataTransfer.files);
    });
}
