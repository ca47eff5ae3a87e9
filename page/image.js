// Puts the merged image on the page: the scene of the step or of the choice, or the whole image in its order, in which large
// objects are folded.
"use strict";

// an object of so few words is open beside the image at first; an image of so few words is never folded
const FEW = 24;
const SMALL = 300;
// an image of more words is not shown as a whole unless it is wanted
const MOST = 64;
// the objects that were unfolded, and whether the whole image is wanted: null, if it is shown where it fits on the stage
const opened = new Set();
let isWhole = null;

// the folds of objects that are shown
let shownFolds = [];

const isWordKey = (key) => /^(text|data)-\d+$/.test(key);
const wordOf = (state, key) => (isWordKey(key) ? wordAt(state, key.split("-")[0], Number(key.split("-")[1])) : null);

// ---- labels
// the names at the words, by the place of the object, the segment and the index; one that counts for nothing is told apart
function labelsOf(state) {
    const labels = new Map();
    const known = state.byName;
    state.list.forEach((object, place) => PARTS.forEach((part) => {
        for (const { index, isExternal, name } of DATA.objects[object].labels[part]) {
            const key = `${place} ${part} ${index}`;
            const offset = state.fronts[place][part] + 2 * index;
            const counts = !isExternal || (known.get(name)?.kind === part && known.get(name).number === offset);
            labels.set(key, [...(labels.get(key) ?? []), counts ? ["span", "label", `${name}:`] : ["s", "label unused", `${name}:`]]);
        }
    }));
    // a name with a wrong value can be at a word of another object
    for (const { name, kind, number } of known.values()) {
        const word = wordOf(state, wordKey(kind, number));
        const [key, all] = [`${word?.place} ${kind} ${word?.index}`, labels.get(`${word?.place} ${kind} ${word?.index}`) ?? []];
        const isThere = word?.offset !== number || all.some(([, , said]) => said === `${name}:`);
        if (!isThere) labels.set(key, [...all, ["span", "label", `${name}:`]]);
    }
    return labels;
}

// the size of a segment in bytes
const sizeOf = (state, segment) => state.sizes[segment] ?? 0;

// ---- rows
// the row of a word, in a state or cut off by its withdrawal
function plainRow(context, key) {
    const { state, full } = context;
    const isCut = !wordOf(state, key);
    const word = { ...wordOf(isCut ? full : state, key), isCut };
    return wordRow(isCut ? full : state, word, context.labels, changeOf(context, word));
}

// what the last step did to a word
function changeOf({ changed, isNew }, word) {
    if (word.isCut) return "cut off";
    return changed.get(wordKey(word.part, word.offset)) ?? (isNew(word.place) ? "new" : "");
}

// the fold of an object, in the whole image one for each segment
function foldRow(context, place, part) {
    const object = DATA.objects[context.full.list[place]];
    const count = part ? object[part].length : object.text.length + object.data.length;
    const id = part ? `fold-${object.number}-${part}` : `fold-${object.number}`;
    shownFolds.push({ place, part, id });
    const cut = place >= context.state.list.length;
    const parts = part ? [] : [["span", "badge", String(object.number + 1)], label(object.number)];
    parts.push(...(part ? [counted(count, "word"), ["span", "open", "show"]] : [String(count)]));
    const row = rowOf(id, "fold", `fold object ${object.number}`, parts, cut ? "cut off" : context.isNew(place) ? "new" : "");
    const said = `${counted(count, "word")}${part ? "," : ":"} show in the whole image`;
    return withAttributes(row, { "aria-label": `${label(object.number)}, ${said.replace(":", ",")}`, title: part ? "" : said });
}

// a segment's part of the image, with its title: in a link from one address to another
function groupElement(name, bytes, range, rows = []) {
    const sizes = [...(bytes === null ? [] : [bytesText(bytes)]), ...(range ? [`${shown(range[0])} to ${shown(range[1])}`] : [])];
    const title = make("h3", "", name, ...sizes.flatMap((text) => [" ", make("span", "size", text)]));
    title.setAttribute("role", "presentation");
    const element = withAttributes(document.querySelector(`#image > #${name}`) ?? make("div", "segment"),
        { id: name, role: "group", "aria-label": title.textContent });
    setChildren(element, [title, ...rows]);
    return element;
}

// the title of the words that an object brought
function ownerOf(object, part) {
    const id = `${part}-of-${object}`;
    const badge = make("span", "badge", String(object + 1));
    return byId(id) ?? withAttributes(make("p", "owner", badge, " ", label(object)), { id, role: "presentation" });
}

function objectRows(context, place, part) {
    const object = DATA.objects[context.full.list[place]];
    if (!context.open.has(place)) return [ownerOf(object.number, part), foldRow(context, place, part)];
    return [ownerOf(object.number, part), ...object[part].map((_, index) => plainRow(context, keyAt(context.full, place, part, index)))];
}

// ---- places that are no words
// the labels at places that are no words, by the ids of these
function namedSpots(state) {
    const named = new Map();
    for (const one of state.names) {
        const id = placeOfName(state, one);
        if (id && !isWordKey(id)) named.set(id, [...(named.get(id) ?? []), ["span", "label", `${one.name}:`]]);
    }
    return named;
}

// the ids of the places that are no words: those that words refer to, and the ends of segments that have names
const spotsOf = (state, named) => new Set([...[...named.keys()].filter((id) => id.endsWith("-end")),
    ...allReferences(state).map(({ to }) => to).filter((to) => to && !isWordKey(to))]);

// where a place is that is no word: its offset, or in a link its address
function spotNumber({ state, bases }, id) {
    const [kind, what, beyond] = id.split("-");
    if (what !== "end") return Number(beyond ?? what) + (bases && kind === "bss" && !beyond ? bases[3] : 0);
    return bases ? bases[{ text: 0, data: 2, bss: 4 }[kind]] : sizeOf(state, kind);
}

// whether a place is before its segment
const isBefore = (id) => id.includes("-beyond-") && Number(id.split("-")[2]) >= WORD / 2;

// the row of a place that is no word: in bss or in commons, the end of a segment, or a place before it, after it or outside of all
function spotRow(context, id, className = "word spot") {
    const [kind, what] = id.split("-");
    const number = spotNumber(context, id);
    const before = isBefore(id) ? small(WORD - number) : "";
    const labels = (context.named.get(id) ?? []).flatMap((label) => [label, " "]);
    const said = before ? `${bytesText(WORD - number)} before ${kind}` : { end: `the end of ${kind}`, beyond: `after ${kind}` }[what]
        ?? (kind === "outside" ? "outside the program" : `in ${kind === "common" ? "commons" : kind}`);
    const row = rowOf(id, className, id,
        [["span", "offset", before ? `\u2212${before}`.padStart(6, "\u2007") : column(number)], ["span", "meaning", ...labels, said]]);
    return withAttributes(row, { "aria-label": row.textContent.replace(/\s+/g, " ").trim() });
}

// the rows of bss or of commons: their names, and what is referred to
function roomRows(context, kind) {
    const ids = [...new Set([...context.named.keys(), ...context.spots])].filter((id) => id.startsWith(`${kind}-`) && /^\w+-\d+$/.test(id));
    return ids.sort((a, b) => a.split("-")[1] - b.split("-")[1]).map((id) => spotRow(context, id));
}

// the rows before a segment, or those of its end and after it
function edgeRows(context, segment, areBefore) {
    return [...context.spots].filter((id) => /-(end|beyond)/.test(id) && id.startsWith(segment) && isBefore(id) === areBefore)
        .map((id) => spotRow(context, id));
}

// the rows of a segment with words
function partRows(context, part) {
    const { list, owners } = context.full;
    const rows = list.flatMap((_, place) => (owners[part].includes(place) ? objectRows(context, place, part) : []));
    return [...edgeRows(context, part, true), ...rows, ...edgeRows(context, part, false)];
}

function roomGroup(context, name, kind, bounds) {
    const rows = [...edgeRows(context, kind, true), ...roomRows(context, kind), ...edgeRows(context, kind, false)];
    return groupElement(name, name === "bss" ? sizeOf(context.state, name) : bounds[1] - bounds[0], context.bases ? bounds : null, rows);
}

function imageContext(state, changed) {
    const full = isLinked(state) ? state : stateShown();
    const named = namedSpots(state);
    return {
        state, full, changed, labels: labelsOf(full), named, spots: spotsOf(full, named),
        bases: isLinked(state) ? linkIn(state, view.layout).bases : null,
        isNew: (place) => view.gone < 0 && place === state.list.length - 1,
    };
}

const wordsIn = ({ sizes }) => (sizes.text + sizes.data) / 2;

// the objects that are not folded in the whole image: all, if they are small, or those with what changed or is chosen
function openPlaces({ full, changed }) {
    const places = full.list.map((_, place) => place);
    if (wordsIn(full) <= SMALL) return new Set(places);
    const keys = [...changed.keys(), chosen, chosenPlace(full)];
    const must = new Set(keys.map((key) => wordOf(full, key)).filter(Boolean)
        .flatMap((word) => [word.place, wordOf(full, word.to)?.place]));
    return new Set(places.filter((place) => must.has(place) || opened.has(full.list[place])));
}

function wholeGroups(context) {
    const { state, full, bases } = context;
    const groups = [];
    context.open = openPlaces(context);
    for (const part of PARTS.filter((part) => sizeOf(full, part) > 0)) {
        groups.push(groupElement(part, sizeOf(state, part), bases && (part === "text" ? [0, bases[0]] : bases.slice(1, 3)),
            partRows(context, part)));
    }
    if (bases && bases[2] < bases[3]) groups.push(roomGroup(context, "commons", "common", bases.slice(2, 4)));
    if (full.sizes.bss > 0) groups.push(roomGroup(context, "bss", "bss", bases?.slice(3, 5)));
    const outside = [...context.spots].filter((id) => id.startsWith("outside-"));
    if (outside.length > 0) groups.push(groupElement("outside", null, null, outside.map((id) => spotRow(context, id))));
    return groups;
}

// puts the whole image on the stage, and says whether it fits
function showWhole(context) {
    sceneOf = "";
    byId("image").classList.remove("scene");
    setChildren(byId("image"), wholeGroups(context));
    return byId("image").offsetHeight <= byId("stage").clientHeight;
}

function showImage(state, changed) {
    const context = imageContext(state, changed);
    shownFolds = [];
    byId("image").hidden = context.full.list.length === 0;
    byId("image").classList.toggle("linked", context.bases !== null);
    const isThere = isWhole !== false && (isWhole || wordsIn(context.full) <= MOST) && showWhole(context);
    const whole = isWhole ?? isThere;
    byId("whole").setAttribute("aria-pressed", String(whole));
    if (whole) return;
    shownFolds = [];
    byId("image").classList.add("scene");
    showScene(context);
}
