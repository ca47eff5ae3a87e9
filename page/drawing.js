// Draws arrows and dashed lines over the merged image. Which lanes they take follows from the order of the rows alone;
// where the rows are is measured after the layout, and again when it changes.
"use strict";

const ARROW_LANES = 8;
const CHAIN_LANES = 3;
// from the middle of a row, in pixels: where its arrow starts, and where others end; more for a word that refers to itself
const APART = 2;
const ITSELF = 6;

function svg(name, attributes, ...children) {
    const element = document.createElementNS("http://www.w3.org/2000/svg", name);
    for (const [key, value] of Object.entries(attributes)) element.setAttribute(key, value);
    element.append(...children);
    return element;
}

// the row of a word, or the fold that has it in the whole image
function rowAt(place, part, id) {
    const fold = byId(id) ? null : shownFolds.find((one) => one.place === place && one.part === part);
    return byId(fold ? fold.id : id);
}

// the row of a place, or the fold that has it
function rowOfPlace(state, id) {
    const word = byId(id) ? null : wordOf(state, id);
    return word ? rowAt(word.place, word.part, id) : byId(id);
}

// the id of the place of a name; "" if it has none
function placeOfName(state, { i, kind, number }) {
    const symbol = isLinked(state) ? symbolOf(state, i, view.layout) : { letter: "" };
    if (kind === "common") return hasAddress(symbol) ? `common-${symbol.value}` : "";
    if (kind === "undefined") return { T: "text-end", D: "data-end", B: "bss-end" }[symbol.letter] ?? "";
    if (!SEGMENTS.includes(kind)) return "";
    const size = sizeOf(state, kind);
    if (number >= size) return number === size ? `${kind}-end` : `${kind}-beyond-${number}`;
    return kind === "bss" ? `bss-${number}` : wordKey(kind, number - (number % 2));
}

// the id of the place that is chosen: that of the word, or of the definition of the name
function chosenPlace(state) {
    if (!chosen.startsWith("name ")) return chosen;
    const found = state.byName.get(chosen.slice(5));
    return found ? placeOfName(state, found) : "";
}

// the name that the choice is about: itself, or that for which the chosen word waits
function chosenName(state) {
    if (chosen.startsWith("name ")) return chosen.slice(5);
    const word = wordOf(state, chosen);
    return word && word.kind < 0 ? word.name : "";
}

// all words that refer to something, with the place that each refers to, and whether it waits
function allReferences(state) {
    const layout = layoutOf(state);
    state.references ??= new Map();
    if (!state.references.has(layout)) state.references.set(layout, state.list.flatMap((number, place) =>
        PARTS.flatMap((part) => DATA.objects[number].references[part].map((index) => {
            const offset = state.fronts[place][part] + 2 * index;
            return { place, part, index, id: wordKey(part, offset), to: placeOf(state, part, offset, layout),
                name: ownWord(DATA.objects[number], part, index).name, waits: state.words[part][offset / 2].target === "external" };
        }))));
    return state.references.get(layout);
}

// the words that refer to what is chosen, and the chosen word if it refers to something; none if nothing is chosen
function chosenReferences(state) {
    if (!chosen) return [];
    const [name, target] = [chosenName(state), chosenPlace(state)];
    return allReferences(state).filter((one) => one.id === chosen || (target && one.to === target)
        || (name && one.name === name && !(isWordKey(chosen) && one.to)));
}

// the words whose arrows are wanted: those that belong to the choice, or those that the last step changed or brought
function wantedReferences(state) {
    if (chosen) return chosenReferences(state).map((one) => ({ ...one, rank: 0 }));
    const ranks = new Map(["new", "put-back", "bound"].flatMap((change, i) =>
        [...document.querySelectorAll(`#image .word.${change}`)].map(({ id }) => [id, 2 - i])));
    return allReferences(state).filter(({ id }) => ranks.has(id)).map((one) => ({ ...one, rank: ranks.get(one.id) }));
}

// arrows that end at one row, and words that wait for one name, as bundles that share a lane
function bundles(state, references) {
    const order = new Map([...document.querySelectorAll("#image .word, #image .fold")].map((row, i) => [row, i]));
    const found = { arrows: new Map(), chains: new Map() };
    for (const one of references) {
        const [row, target] = [rowAt(one.place, one.part, one.id), rowOfPlace(state, one.to)];
        const isLine = one.waits && view.layout < 0;
        if (!row || !(target || isLine)) continue;
        const [all, key] = isLine ? [found.chains, one.name] : [found.arrows, target];
        if (!all.has(key)) all.set(key, { key, rows: [], count: 0, rank: one.rank, places: isLine ? [] : [order.get(target)] });
        const bundle = all.get(key);
        bundle.count += 1;
        if (!bundle.rows.includes(row)) bundle.rows.push(row);
        bundle.places.push(order.get(row));
        bundle.rank = Math.min(bundle.rank, one.rank);
    }
    return { arrows: [...found.arrows.values()], chains: [...found.chains.values()] };
}

// gives each bundle a lane in which it meets no other, the most wanted and the shortest first; -1 where there is none
function giveLanes(all, limit) {
    const lanes = Array.from({ length: limit }, () => []);
    for (const bundle of all) [bundle.start, bundle.end] = [Math.min(...bundle.places), Math.max(...bundle.places)];
    for (const bundle of all.sort((a, b) => a.rank - b.rank || a.end - a.start - (b.end - b.start))) {
        bundle.lane = lanes.findIndex((lane) => lane.every((other) => other.end < bundle.start || bundle.end < other.start));
        if (bundle.lane >= 0) lanes[bundle.lane].push(bundle);
    }
    return all.filter((bundle) => bundle.lane >= 0);
}

// where a row is in the image, in pixels
function boxOf(row, frame) {
    const box = row.getBoundingClientRect();
    return { left: box.left - frame.left, right: box.right - frame.left, top: box.top - frame.top, bottom: box.bottom - frame.top,
        middle: (box.top + box.bottom) / 2 - frame.top };
}

function arrowElement(row, target, line, head) {
    const isOld = ["bound", "put-back"].some((change) => row.classList.contains(change));
    const group = svg("g", { class: isOld || chosen ? "arrow strong" : "arrow" }, svg("path", { class: "line", d: line }),
        svg("path", { class: "head", d: head }));
    group.dataset.from = row.id;
    group.dataset.to = target.id;
    return group;
}

// the arrow of a cell at the left: down between the cells
function arrowDown(row, target, from, to, size) {
    const [x, y] = [from.right + size.gap, to.middle + (to.middle > from.middle ? -1 : 1) * (to.bottom - to.top) / 2];
    const by = y > from.middle ? -size.head : size.head;
    return arrowElement(row, target, `M ${from.right} ${from.middle} H ${x} V ${y + by}`,
        `M ${x} ${y} l ${-size.head / 2} ${by} h ${size.head} z`);
}

function arrow(row, target, lane, box, size) {
    const [from, to] = [box(row), box(target)];
    const apart = row === target ? ITSELF : APART;
    if (from.right < to.right - 2 * size.head && row.closest(".cells")) return arrowDown(row, target, from, to, size);
    const [y1, y2] = [from.middle - apart, to.middle + apart];
    const x = from.right + size.head + size.gap * lane;
    const bend = Math.min(size.gap, Math.abs(y2 - y1) / 2) * Math.sign(y2 - y1);
    const turn = Math.min(size.gap, x - from.right);
    const [start, end] = [`M ${from.right} ${y1} H ${x - turn} Q ${x} ${y1} ${x} ${y1 + bend}`, `Q ${x} ${y2} ${x - turn} ${y2}`];
    const line = `${start} V ${y2 - bend} ${end} H ${to.right + size.head - 3}`;
    const head = `M ${to.right} ${y2} l ${size.head} ${-size.head / 2} v ${size.head} z`;
    return arrowElement(row, target, line, head);
}

function chainLine(bundle, box, size) {
    const boxes = bundle.rows.map(box);
    const x = boxes[0].left - size.dot - size.gap * (bundle.lane + 1);
    const group = svg("g", { class: "chain" });
    const ends = [boxes[0].middle, boxes[boxes.length - 1].middle];
    group.append(svg("path", { class: "dash", d: `M ${x} ${ends[0]} V ${ends[1]}` }));
    for (const box of boxes) group.append(svg("path", { class: "dash", d: `M ${x} ${box.middle} H ${box.left - size.dot}` }));
    group.dataset.rows = bundle.rows.map((row) => row.id).join(" ");
    return group;
}

// the lanes' widths, in pixels: they follow the size of the text
function sizes() {
    const rem = parseFloat(getComputedStyle(document.documentElement).fontSize);
    const gap = parseFloat(getComputedStyle(byId("image")).getPropertyValue("--gap")) * rem;
    return { gap, head: 0.7 * rem, dot: 0.75 * rem };
}

let drawn = { arrows: [], chains: [], left: 0, references: [] };
// the size of the image that was drawn over
let drawnSize = "";
const areaText = ({ width, height }) => `${width} ${height}`;

// chooses what is drawn, and says what is not
function chooseDrawn(state) {
    const references = wantedReferences(state);
    const { arrows, chains } = bundles(state, references);
    const kept = { arrows: giveLanes(arrows, ARROW_LANES),
        chains: giveLanes(chains.filter((chain) => chain.rows.length > 1 && !chain.rows[0].closest(".cells")), CHAIN_LANES) };
    const count = (all) => all.reduce((sum, bundle) => sum + bundle.count, 0);
    drawn = { ...kept, left: count(arrows) - count(kept.arrows), references };
}

function draw() {
    const frame = byId("image").getBoundingClientRect();
    const size = sizes();
    const boxes = new Map();
    const box = (row) => boxes.get(row) ?? boxes.set(row, boxOf(row, frame)).get(row);
    const lines = drawn.arrows.flatMap(({ rows, key, lane }) => rows.map((row) => arrow(row, key, lane, box, size)));
    const chains = drawn.chains.map((chain) => chainLine(chain, box, size));
    byId("drawing").replaceChildren(...lines, ...chains);
    drawnSize = areaText(frame);
}

// draws again when the layout changes: by size, zoom, fonts, and on paper
function watchLayout() {
    new ResizeObserver(() => {
        if (drawnSize !== areaText(byId("image").getBoundingClientRect())) draw();
    }).observe(byId("image"));
    document.fonts.ready.then(draw);
    for (const name of ["resize", "beforeprint", "afterprint"]) window.addEventListener(name, draw);
}
