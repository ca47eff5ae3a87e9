// The scene: what one step changed, or what is chosen, or what a question asks about, on one screen. Each group has the words that
// mean one place, a line each, and this place below them. All else is a fold for each object.
"use strict";

// how many instructions around a word that changed are shown, or around a chosen one
const NEAR = 2;
const AROUND = 4;
// the choice that is on the stage, if it is not the step, whether the step has a row for a choice, and the groups that were unfolded in it
let [sceneOf, isKept] = ["", false];
const openGroups = new Set();

const inOrder = (a, b) => PARTS.indexOf(a.split("-")[0]) - PARTS.indexOf(b.split("-")[0]) || a.split("-")[1] - b.split("-")[1];

const newGroup = (by, target, words) => ({ by, target, words, keep: [], more: [] });

// words by the place that they mean, or by the name for which they wait
function groupsOf(state, keys) {
    const groups = new Map();
    for (const key of keys) {
        const word = wordOf(state, key);
        if (!word) continue;
        const by = word.to || (word.kind < 0 ? `name ${word.name}` : key);
        if (!groups.has(by)) groups.set(by, newGroup(by, word.to, []));
        groups.get(by).words.push(key);
    }
    return [...groups.values()];
}

// ---- what is shown
const changedWords = (changed) => [...changed].filter(([key, how]) => isWordKey(key) && how !== "new").map(([key]) => key).sort(inOrder);

// what an object brought, or what was cut off: all its words, if they fit; else its names, and what its words wait for
function broughtParts({ full }, isAll) {
    const place = full.list.length - 1;
    if (place < 0) return [];
    const object = DATA.objects[full.list[place]];
    const keysOf = (part, indices) => indices.map((index) => keyAt(full, place, part, index));
    const parts = PARTS.filter((part) => object[part].length > 0);
    const allOf = (part) => ({ ...newGroup(`all-${part}`, "", keysOf(part, [...object[part].keys()])), isPlain: true });
    if (isAll) return parts.map((part) => ({ title: `${label(object.number)}, ${part}`, groups: [allOf(part)] }));
    const names = PARTS.flatMap((part) =>
        keysOf(part, [...new Set(object.labels[part].filter((one) => one.isExternal).map(({ index }) => index))]));
    const waits = allReferences(full).filter((one) => one.place === place && !one.to && one.waits)
        .map(({ id }) => id);
    return [
        { title: `${label(object.number)} defines`, groups: names.length > 0 ? [{ ...newGroup("names", "", names), isPlain: true }] : [] },
        { title: `${label(object.number)} waits for`, groups: groupsOf(full, waits) },
    ].filter(({ groups }) => groups.length > 0);
}

function stepParts(context, isAll) {
    const keys = changedWords(context.changed);
    if (keys.length === 0) return broughtParts(context, isAll);
    const groups = groupsOf(context.full, keys);
    for (const group of groups) group.more = nearOf(context.full, group, keys);
    return [{ title: "", groups }];
}

// the first words of the instructions around the words of a group, and after the place that they mean
function nearOf(full, { words, target }, keys, count = NEAR) {
    const taken = new Set([...keys, target].map((key) => wordOf(full, key)).filter(Boolean).map((word) => unitKey(full, word, 0)));
    const near = words.flatMap((key) => Array.from({ length: 2 * count + 1 }, (_, i) => unitKey(full, wordOf(full, key), i - count)));
    const after = target.startsWith("text-") && wordOf(full, target) ? [1, 2, 3].map((by) => unitKey(full, wordOf(full, target), by)) : [];
    return [...new Set([...near, ...after])].filter((key) => key && !taken.has(key));
}

// the first word of the instruction of a word, or of one before or after it, in its function
function unitKey(full, { place, part, index }, by) {
    const object = DATA.objects[full.list[place]];
    const units = object.units[part];
    const piece = object.pieces[part].find(({ start, end }) => start <= index && index < end);
    let at = units[index];
    for (let left = by; left < 0 && at > piece.start; left += 1) at = units[at - 1];
    for (let left = by; left > 0 && at < piece.end; left -= 1) {
        at += 1;
        while (at < units.length && units[at] !== at) at += 1;
    }
    return at >= piece.end || (by !== 0 && at === units[index]) ? "" : keyAt(full, place, part, at);
}

// the words that refer to what is chosen, below them this, and below it what it refers to; then those that mean a place before or after it
function choiceParts({ state }) {
    const references = chosenReferences(state);
    const [place, word, own] = [chosenPlace(state), wordOf(state, chosen), references.find(({ id }) => id === chosen)];
    const isApart = ({ to }) => !word && to && to !== place;
    const others = newGroup("others", word ? "" : place,
        references.filter((one) => one.id !== chosen && !isApart(one)).map(({ id }) => id));
    if (!word) return [{ title: "", groups: [others, ...groupsOf(state, references.filter(isApart).map(({ id }) => id))] }];
    const self = newGroup("chosen", own?.to ?? "", [chosen]);
    self.more = nearOf(state, self, [chosen], AROUND);
    return [{ title: "", groups: word.kind < 0 ? [self, others] : [others, self] }];
}

// the words that a question asks for, and others that wait
function questionParts({ state }, wait, shown) {
    if (wait.kind === "value") return [{ title: "The word in question",
        groups: groupsOf(state, [wait.word].filter((key) => !shown.has(key))) }];
    if (wait.kind !== "changes") return [];
    const waiting = allReferences(state).filter((one) => one.waits && !wait.answers.includes(one.id)).map(({ id }) => id);
    const count = Math.max(6, wait.answers.length);
    const some = waiting.filter((_, i) => waiting.length <= count
        || Math.floor((i * count) / waiting.length) !== Math.floor(((i - 1) * count) / waiting.length));
    const words = [...new Set([...wait.answers, ...candidates(wait), ...some])].filter((key) => !shown.has(key)).sort(inOrder);
    const keep = wait.answers.filter((key) => !shown.has(key)).slice(0, FEW);
    return words.length > 0 ? [{ title: "To choose from", groups: [{ ...newGroup("asked", "", words), keep, isCells: true }] }] : [];
}

const keysIn = (parts) =>
    new Set(parts.flatMap(({ groups }) => groups.flatMap(({ words, target }) => [...words, ...(target ? [target] : [])])));

// the scenes that can be shown, the fullest first: of the choice, if the step does not have it; of the step and of the question; or of
// the question, with the step in a line
function scenesOf(context) {
    const wait = nextStep();
    const asked = wait?.ask ? questionParts(context, wait, new Set()) : [];
    const isBrought = changedWords(context.changed).length === 0;
    const steps = [...(isBrought ? [stepParts(context, true)] : []), stepParts(context, false)];
    const own = wordOf(context.state, chosen);
    const all = keysIn([...steps[steps.length - 1], ...asked]);
    const ends = own ? [own.to].filter(Boolean) : chosenReferences(context.state).map(({ id }) => id);
    const isThere = all.has(own ? chosen : chosenPlace(context.state)) && (asked.length > 0 || ends.every((id) => all.has(id)));
    sceneOf = isThere ? "" : chosen;
    const kept = sceneOf ? [] : [...steps.flat(), ...asked].flatMap(({ groups }) => groups).filter(({ words }) => words.includes(chosen));
    for (const group of kept) group.keep.push(chosen);
    isKept = kept.length > 0;
    if (sceneOf) return [choiceParts(context)];
    if (asked.length === 0) return steps;
    const both = steps.map((step) => [...step, ...questionParts(context, wait, keysIn(step)).filter(({ groups }) => groups.length > 0)]);
    return openGroups.has("step") ? both : [...both, [{ title: "", fold: stepText(), groups: [] }, ...asked]];
}

// ---- what fits is measured
// whether the folds of the objects have to fit too: not in a narrow window, and not if they are many
const isRestSeen = ({ full }) => innerWidth >= 1280 && full.list.length <= FEW;

// puts parts on the stage, and says whether they fit; the folds of the objects need not at last
function putScene(context, parts, how) {
    const used = new Set();
    const rest = withAttributes(byId("rest") ?? make("div"), { id: "rest", role: "group", "aria-label": "Objects" });
    setChildren(rest, context.full.list.map((_, place) => foldRow(context, place, "")));
    setChildren(byId("image"), [...parts.flatMap((part, i) => partElements(context, part, i, how, used)), rest]);
    const room = byId("stage").clientHeight;
    return room === 0 || rest.offsetTop + (isRestSeen(context) && !how.isLast ? rest.offsetHeight : 0) <= room;
}

// of each form how many columns it has at most, and how many pixels a row has at least
const FORMS = { line: [1, 20], cells: [2, 16], "cells dense": [3, 16], "cells dense tight": [4, 12] };

// shows parts with the instructions around their words, with a line for each word, or a cell: in two columns, three, or four where they
// fit. To lay out takes long, so a form that is too high by its words alone is not tried
function showsAll(context, parts) {
    const count = parts.flatMap(({ groups }) => groups.flatMap(({ words }) => words)).length;
    const room = byId("stage").clientHeight || Infinity;
    const cells = ["cells", "cells dense", "cells dense tight"].map((cells) => ({ cells, isLast: true }));
    return [...(count <= FEW ? [{ near: true }] : []), {}, ...(isRestSeen(context) ? [{ cells: "cells" }] : []), ...cells].some((how) => {
        const [columns, height] = FORMS[how.cells ?? "line"];
        return count * height <= room * columns && putScene(context, parts, { limit: Infinity, ...how });
    });
}

// puts the first scene that fits on the stage; if none does, the last one, with so many words of large groups as fit. That of another
// choice is shown from its beginning
function showScene(context) {
    const [before, scenes] = [sceneOf, scenesOf(context)];
    if (sceneOf !== before) byId("stage").scrollTop = 0;
    if (scenes.some((parts) => showsAll(context, parts))) return;
    const parts = scenes[scenes.length - 1];
    let [low, high] = [1, Math.max(1, ...parts.flatMap(({ groups }) => groups.map(({ words }) => words.length)))];
    while (low < high) {
        const middle = (low + high + 1) >> 1;
        if (putScene(context, parts, { limit: middle, cells: "cells", isLast: true })) low = middle;
        else high = middle - 1;
    }
    putScene(context, parts, { limit: low, cells: "cells" });
}

// ---- rows
// the instruction of a word, or the name that it has in its object
function saidOf(object, word) {
    const instruction = word.part === "text" ? instructionAt(object, object.units.text[word.index], movedBy(word)) : "";
    const string = word.part === "data" ? object.strings.get(word.index) : undefined;
    return instruction || (string === undefined ? (word.own.kind < 0 ? nameText(word.own) : "a word") : quoted(string));
}

// what a word was, what was added to it, and what it is
function resultOf(state, word, change) {
    if (isLinked(state)) {
        const sum = sumOf(state, word, view.layout);
        return [...(word.own.kind !== 0 || word.own.pc ? [["span", "by", sumText(word, sum)]] : []), ["span", "value", shown(sum.final)]];
    }
    const mark = change === "bound" || change === "put back" ? marksOf(stateShown()).get(wordKey(word.part, word.offset)) : null;
    const value = ["span", "value", shown(word.value)];
    if (!mark) return [value, ["span", "meant", " ", ...targetParts(state, word)]];
    const isBack = view.gone >= 0;
    const by = typeof mark.bound === "number" && !isBack ? ` + ${shown(mark.bound)} = ` : " \u2192 ";
    return [["s", "was", shown(isBack ? mark.now : mark.value)], ["span", "by", by], value];
}

// the line of a word: whose it is, where, what it says, and what the last step did to it
function lineRow(context, key, className, partsFor) {
    const { state, full } = context;
    const isCut = !wordOf(state, key);
    const from = isCut ? full : state;
    const word = { ...wordOf(from, key), isCut };
    const object = DATA.objects[full.list[word.place]];
    const base = context.bases && word.part === "data" ? context.bases[1] : 0;
    const change = className === "near" ? (isCut ? "cut off" : "") : changeOf(context, word);
    const offset = ["span", "offset", ["span", `part-${word.part}`, `${word.part} `], column(base + word.offset)];
    const isTold = change !== "" && (className === "place-line" || (change !== "new" && className !== "near"));
    const row = rowOf(key, `word line ${className}`, key,
        [["span", "badge", String(object.number + 1)], offset, ...partsFor(from, word, object, change)], isTold ? change : "");
    if (change && !isTold) row.classList.add(change.replace(" ", "-"));
    const said = row.textContent.replace(/^\d+/, "").replace(/\s+/g, " ").trim();
    return withAttributes(row, { "aria-label": `${label(object.number)}, ${said}`, "aria-description": relocText(word.own) });
}

// a word with its instruction, and what it was and is
function sceneRow(context, key) {
    const word = wordOf(context.state, key);
    return lineRow(context, key, word && word.kind < 0 && !context.bases ? "waits" : "", (from, word, object, change) =>
        [word.pc ? ["span", "pc", "pc"] : ["span", "no-pc", "\u00a0\u00a0"], ["span", "instruction", saidOf(object, word)],
            ["span", "result", ...resultOf(from, word, change)]]);
}

// an instruction beside one that changed, or the place that the words above mean, with its names
function nearRow(context, key, className = "near") {
    return lineRow(context, key, className, (from, word, object) => {
        const names = (context.labels.get(`${word.place} ${word.part} ${word.index}`) ?? []).flatMap((label) => [label, " "]);
        return [["span", "no-pc", "\u00a0\u00a0"], ["span", "instruction meaning", ...names, ["span", "what", saidOf(object, word)]],
            ...(className === "near" ? [] : [["span", "owned", label(object.number)]])];
    });
}

// the line of the place that the words above it mean
const placeRow = (context, id) => (isWordKey(id) ? nearRow(context, id, "place-line") : spotRow(context, id, "word spot place-line"));

// a line for what is not shown
const moreRow = (id, text) => rowOf(`more-${id.replace(/\W/g, "-")}`, "fold more-line", `fold more ${id}`,
    [text, ["span", "open", "show"]]);

function groupRows(context, { by, words, target, keep, more, isPlain }, { limit, near }, used) {
    const isFree = (key) => !used.has(key) && used.add(key);
    const isFolded = !openGroups.has(by) && words.length > Math.max(limit, keep.length) + 1;
    const first = isFolded ? new Set([...keep, ...words.filter((key) => !keep.includes(key)).slice(0, Math.max(0, limit - keep.length))])
        : new Set(words);
    const isAfter = (key) => target && wordOf(context.full, target) && inOrder(key, target) > 0
        && wordOf(context.full, key).place === wordOf(context.full, target).place;
    const around = near ? more : [];
    const before = [...first, ...around.filter((key) => !isAfter(key))].sort(inOrder);
    const rowFor = (key) => (!first.has(key) ? nearRow(context, key) : isPlain ? plainRow(context, key) : sceneRow(context, key));
    const rows = before.filter(isFree).map(rowFor);
    const left = words.length - first.size;
    if (left > 0) rows.push(moreRow(by, `and ${counted(left, "other word")}`));
    if (target && isFree(target)) rows.push(placeRow(context, target));
    return [...rows, ...around.filter(isAfter).filter(isFree).map(rowFor)];
}

function partElements(context, part, number, how, used) {
    const title = part.title ? [withAttributes(make("h3", "", part.title), { role: "presentation" })] : [];
    const fold = part.fold ? [moreRow("step", part.fold)] : [];
    const head = title.length + fold.length > 0 ? [withAttributes(make("div", "part"), { role: "presentation" })] : [];
    for (const one of head) setChildren(one, [...title, ...fold]);
    return [...head, ...part.groups.map((group, i) => {
        const id = `group-${number}-${i}`;
        const className = group.isCells ? "group cells asked" : how.cells && !group.isPlain ? `group ${how.cells}` : "group";
        const said = group.target ? counted(group.words.length, "word") : part.title || "words";
        const element = withAttributes(byId(id) ?? make("div"), { id, class: className, role: "group", "aria-label": said });
        setChildren(element, groupRows(context, group, how, used));
        return element;
    })];
}

// opens a fold: a group, the step, or an object in the whole image
function openFold(key) {
    const [, what, name] = [...key.match(/^fold (\w+) (.*)$/)];
    if (what === "more") openGroups.add(name);
    else {
        isWhole = true;
        opened.add(Number(name));
        const place = view.list.indexOf(Number(name));
        const part = PARTS.find((one) => DATA.objects[Number(name)][one].length > 0);
        if (place >= 0 && part) active.image = keyAt(stateNow(), place, part, 0);
    }
    showChosen(true, () => (what === "more" ? null : byId(`text-of-${name}`) ?? byId(`data-of-${name}`)));
}
