// The objects and the states of a session: what the page shows of them, from the linker's session, and its links. A state is computed when
// it is wanted, and then kept.
"use strict";

const REFERENTS = { number: 0, text: 1, data: 2, bss: 3 };
// the options of the links that are shown
const LINK_OPTIONS = [0, 16, 32, 1];
const modulo = (number) => ((number % WORD) + WORD) % WORD;

// ---- objects
// whether a word with this relocation word is more than a number
const refers = (reloc) => (reloc & 15) !== 0;

function letterOf({ type, value }) {
    const small = { 0: value === 0 ? "u" : "c", 2: "t", 3: "d", 4: "b", 0o24: "r", 0o37: "f" }[type % 32] ?? "a";
    return type & 32 ? small.toUpperCase() : small;
}
const lineOfSymbol = (symbol) =>
    `${/u/i.test(letterOf(symbol)) ? "      " : symbol.value.toString(8).padStart(6, "0")} ${letterOf(symbol)} ${symbol.name}`;

// the address to which an instruction at an index branches
function branchOf(word, index) {
    if ((word & 0o177000) === 0o077000) return modulo(2 * index + 2 - 2 * (word & 63));
    return (word & 0o074000) === 0 && (word & 0o103400) !== 0 ? modulo(2 * index + 2 + 2 * ((word & 255) - 2 * (word & 128))) : -1;
}

// the instructions of a text by their first words, those to which an address ends the line, and for each word the first of its instruction
function decodedOf(bytes, words) {
    const [instructions, branches, starts] = [{}, {}, new Set([0])];
    let index = -1;
    for (const line of LINKER.disassemble(bytes).split("\n")) {
        // of many words 0 all but the first are one line
        const again = /^\/ .*: the row before, ([0-9]+) times/.exec(line);
        for (let left = again ? Number(again[1]) : 0; left > 0; left--) {
            starts.add(index += 1);
            instructions[index] = "halt";
        }
        if (!/^[0-7]{6} {2}/.test(line)) continue;
        starts.add(index = parseInt(line.slice(0, 6), 8) / 2);
        const text = line.slice(30).replace(/ *\/ .*$/, "");
        // a word that begins no instruction is itself
        if (/^[0-7]{6}$/.test(text)) continue;
        instructions[index] = text;
        const target = branchOf(words[index], index);
        if ([" ", ","].some((before) => text.endsWith(before + target.toString(8)))) branches[index] = target;
    }
    const units = [];
    words.forEach((_, i) => units.push(starts.has(i) ? i : units[i - 1]));
    return { instructions, branches, units };
}

const isOfText = (byte) => byte === 0 || byte === 9 || byte === 10 || (byte >= 32 && byte < 127);
// the texts in words of data, by the index of the first word of each
function textsIn(words, relocs) {
    const texts = new Map();
    let first = 0;
    for (let next = 0; next <= words.length; next++) {
        const word = words[next];
        if (word & 255 && isOfText(word & 255) && isOfText(word >> 8) && !refers(relocs[next])) continue;
        if (next - first >= 2) texts.set(first, words.slice(first, next).map((one) => String.fromCharCode(one & 255, one >> 8)).join(""));
        first = next + 1;
    }
    return texts;
}

// for each word of data the first word of its text; a word of no text is alone
function unitsOfData(words, strings) {
    const starts = words.map((_, index) => index);
    for (const [start, text] of strings) starts.fill(start, start, start + text.length / 2);
    return starts;
}

// the functions of a segment, or its variables: each from one label to the next
function piecesOf(words, labels) {
    const starts = [...new Set([0, ...labels.map(({ index }) => index)])].filter((index) => index < words.length).sort((a, b) => a - b);
    return starts.map((start, i) => ({ start, end: starts[i + 1] ?? words.length }));
}

// the names that an object defines in a segment
function labelsIn(symbols, part, start) {
    const all = symbols.filter(({ type }) => ({ 2: "text", 3: "data" }[type % 32]) === part);
    return all.map(({ name, type, value }) => ({ index: modulo(value - start) >> 1, isExternal: (type & 32) !== 0, name }))
        .sort((a, b) => a.index - b.index);
}

const byPart = (of) => Object.fromEntries(PARTS.map((part) => [part, of(part)]));

// an object as the page wants it; bytes that are no object are a fault
function objectOf(path, bytes) {
    LINKER.check(bytes);
    const file = LINKER.read(bytes);
    const { words, relocs, bss, symbols } = file;
    const sizes = { text: 2 * words.text.length, data: 2 * words.data.length, bss };
    const starts = { text: 0, data: sizes.text, bss: sizes.text + sizes.data };
    const labels = byPart((part) => labelsIn(symbols, part, starts[part]));
    const [{ instructions, branches, units }, strings] = [decodedOf(bytes, words.text), textsIn(words.data, relocs.data)];
    return {
        path, bytes, starts, sizes, ...words, bss, relocs,
        references: byPart((part) => relocs[part].flatMap((reloc, index) => (refers(reloc) ? [index] : []))),
        table: symbols, symbols: symbols.map(lineOfSymbol), labels, instructions, branches, strings,
        units: { text: units, data: unitsOfData(words.data, strings) }, pieces: byPart((part) => piecesOf(words[part], labels[part])),
    };
}

// ---- the session
let current = null;
let currentList = [];
// what the links of the page are asked for besides a layout: the name of the entry point, and names that are forced
const ASKED = { entry: "", forced: [] };

// brings the session to a list of objects: why the last one is refused, or nothing
function reach(list) {
    current ??= LINKER.session(ASKED.forced);
    let same = 0;
    while (same < currentList.length && currentList[same] === list[same]) same += 1;
    for (; currentList.length > same; currentList = currentList.slice(0, -1)) current.withdraw();
    for (const object of list.slice(same)) {
        try {
            current.add(DATA.objects[object].bytes);
        } catch (fault) {
            if (endsLinker(fault) || !(fault instanceof Fault)) throw fault;
            return fault.message;
        }
        currentList = [...currentList, object];
    }
    return "";
}

// ---- places
const placeMeant = ({ value, pc }, offset) => (pc ? modulo(value + offset + 2) : value);
const placeIn = (segment, offset) => `${segment}-${segment === "bss" ? offset : offset - (offset % 2)}`;

// the place in the merged image that a cell refers to
function imagePlace(cell, offset, sizes) {
    const meant = placeMeant(cell, offset);
    if (!(cell.target in sizes)) return cell.target === "number" && cell.pc ? `outside-${meant}` : "";
    const size = sizes[cell.target];
    return meant < size ? placeIn(cell.target, meant) : meant === size ? `${cell.target}-end` : `${cell.target}-beyond-${meant}`;
}

// what a link has at an address; `inText` says whether the addresses of text are meant, where there are two spaces
function foundAt({ bases: [text, start, data, bss, end], isSplit }, inText, at) {
    if ((inText || !isSplit) && at < text) return placeIn("text", at);
    if ((inText && isSplit) || at < start || end <= at) return `outside-${at}`;
    return at < data ? placeIn("data", at - start) : at < bss ? `common-${at}` : placeIn("bss", at - bss);
}

function linkPlace(link, cell, part, offset) {
    const address = modulo(startOf(link, part) + offset);
    const meant = placeMeant({ value: link.words[part][offset / 2], pc: cell.pc }, address);
    const segment = cell.target === "external" ? { 2: "text", 3: "data", 4: "bss" }[link.byName.get(cell.name).type % 32] : cell.target;
    const [text, start, data, , end] = link.bases;
    const bounds = { text: [0, text], data: [start, data], bss: [data, end] }[segment];
    if (bounds) return bounds[0] < meant && meant === bounds[1] ? `${segment}-end` : foundAt(link, segment === "text", meant);
    return cell.target === "number" && cell.pc ? foundAt(link, true, meant) : "";
}

// the address at which a segment with words begins; 0 if data begins later than all addresses
const startOf = ({ bases }, part) => (part === "data" && bases[1] < WORD ? bases[1] : 0);

// the id of the row of the place that a word refers to, in the image (-1) or in a link; "" if there is none
function placeOf(state, part, offset, layout) {
    const [cell, link] = [state.words[part][offset / 2], layout < 0 ? null : linkIn(state, layout)];
    return link && !link.refused ? linkPlace(link, cell, part, offset) : imagePlace(cell, offset, state.sizes);
}

// ---- states
// a link of the objects of a list, as it is asked for
const linkOf = (list, layout) => LINKER.link(list.map((object) => DATA.objects[object].bytes), { options: LINK_OPTIONS[layout], ...ASKED });

// the link of a state in a layout, which is made when it is wanted
function linkIn(state, layout) {
    if (!state.links[layout]) {
        const { file, ...link } = linkOf(state.list, layout);
        const read = link.refused ? { symbols: [] } : LINKER.read(file);
        const externals = read.symbols.slice(read.symbols.length - state.names.length);
        const byName = new Map(externals.map((one) => [one.name, one]));
        state.links[layout] = { ...read, ...link, isSplit: layout === 2, externals, byName };
    }
    return state.links[layout];
}

// a mark: the word or the name that was overwritten; of a word also what was added to it, and what it is now
function markOf({ segment: part = "", offset, name, was }, words, byName) {
    if (!part) return { part, name, kind: was.state, number: was.value };
    const by = was.target === "external" ? byName.get(was.name) : null;
    const isBound = by && by.kind in REFERENTS;
    return { part, offset, value: was.value, pc: was.pc, meant: placeMeant(was, offset), name: by?.name ?? "",
        kind: REFERENTS[was.target] ?? -1, found: by?.kind, bound: isBound ? by.number : null,
        now: isBound ? words[part][offset / 2].value : null };
}

function computed(list) {
    reach(list);
    const raw = current.state();
    const words = byPart((part) => raw[part]);
    const names = raw.externals.map(({ name, state, value }, i) => ({ name, i, kind: state, number: value }));
    const byName = new Map(names.map((one) => [one.name, one]));
    const fronts = [{ text: 0, data: 0, bss: 0 }];
    for (const object of list) {
        const [{ sizes }, front] = [DATA.objects[object], fronts[fronts.length - 1]];
        fronts.push(Object.fromEntries(Object.keys(sizes).map((part) => [part, front[part] + sizes[part]])));
    }
    const sizes = fronts.pop();
    return { list, words, sizes, fronts, names, byName, multiples: raw.multiples,
        marks: raw.marks.map((mark) => markOf(mark, words, byName)), links: [],
        owners: byPart((part) => list.flatMap((object, place) => DATA.objects[object][part].map(() => place))) };
}

const STATES = new Map();
const REFUSALS = new Map();
// how many words the states have that are kept, and how many they may have
let keptWords = 0;
const MOST_KEPT = 400000;

// why an object is refused after a list, or nothing
function refusalOf(list, object) {
    const key = `${list.join()}+${object}`;
    if (!REFUSALS.has(key)) REFUSALS.set(key, STATES.has([...list, object].join()) ? "" : reach([...list, object]));
    return REFUSALS.get(key);
}

// whether there is such a state: objects that are there, each once, and none is refused
const hasState = (list) => list.every((object, place) => DATA.objects[object] && list.indexOf(object) === place)
    && (list.length === 0 || STATES.has(list.join())
        || (hasState(list.slice(0, -1)) && !refusalOf(list.slice(0, -1), list[list.length - 1])));

function stateOf(list) {
    const key = list.join();
    if (!STATES.has(key)) {
        if (keptWords > MOST_KEPT) forgetKept();
        STATES.set(key, computed(list));
        keptWords += list.reduce((sum, object) => sum + DATA.objects[object].text.length + DATA.objects[object].data.length, 100);
    }
    return STATES.get(key);
}

function forgetKept() {
    STATES.clear();
    REFUSALS.clear();
    keptWords = 0;
}

// a session of no objects comes in place of the one that is there
function forgetStates() {
    forgetKept();
    current?.free();
    [current, currentList] = [null, []];
}

// ---- the objects of the page
const DATA = { set: -2, objects: [], lessons: [], lessonsText: "" };
// what the page was made of: sets of objects, each with its lessons
const SETS = JSON.parse(document.getElementById("data").textContent);
let LINKER = null;
let compiled = null;

// begins the linker, and again after a trap, or where no memory was left
async function beginLinker() {
    compiled ??= await WebAssembly.compile(await unpacked(document.getElementById("linker").textContent));
    LINKER = new Linker(await WebAssembly.instantiate(compiled, {}));
    forgetKept();
    [current, currentList] = [null, []];
}

// takes objects and lessons in place of those that are there; why the page has no lessons then, or nothing
function takeObjects(objects, lessons) {
    forgetStates();
    DATA.objects = [];
    DATA.objects = objects.map(({ path, bytes }, number) => ({ ...objectOf(path, bytes), number }));
    return takeLessons(lessons);
}
const decodedObjects = (objects) => objects.map(({ path, bytes }) => ({ path, bytes: bytesOf(atob(bytes)) }));
