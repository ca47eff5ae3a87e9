// Steps, and showing the page anew. Each step is an entry of the browser's history.
"use strict";

// ---- showing
function stepText() {
    const { list, gone } = view;
    const changed = changedWords(changesOf(view)).length;
    const words = changed > 0 ? `: ${counted(changed, "word")} ${gone >= 0 ? "put back" : "bound"}` : "";
    if (gone >= 0) return `Withdrew ${label(gone)}${words}`;
    return list.length > 0 ? `Added ${label(list[list.length - 1])}${words}` : "No objects yet";
}

function showBar() {
    const isOff = { withdraw: view.list.length === 0, flick: view.gone < 0 && view.list.length === 0 };
    for (const [id, off] of Object.entries(isOff)) byId(id).setAttribute("aria-disabled", String(off || isAsked()));
    byId("addresses").disabled = isAsked();
    byId("addresses").value = String(view.layout);
    byId("decimal").setAttribute("aria-pressed", String(isDecimal()));
    byId("flick").setAttribute("aria-pressed", String(view.gone >= 0));
    byId("flick").firstChild.textContent = view.gone >= 0 ? "After " : "Before ";
    setText(byId("image-title"), view.layout < 0 ? "Merged image"
        : `Addresses, ld ${view.layout > 0 ? LAYOUTS[view.layout] : "with no option"}`);
}

// whether a word and what it refers to are in one segment, so that the distance between them stays
const isDistance = (word) => SEGMENTS[word.kind] === word.part;

// the sum of a mark; of a distance in decimal with its sign too, since a word before its place is a negative number
function markSum(mark) {
    if (typeof mark.bound !== "number") return "";
    const sum = (say) => `${say(mark.value)} + ${say(mark.bound)} = ${say(mark.now)}`;
    const signed = (number) => String(number < WORD / 2 ? number : number - WORD).replace("-", "\u2212");
    return sum(shown) + (mark.pc && mark.value >= WORD / 2 ? `, in decimal ${sum(signed)}` : "");
}

// why a word changed in the last step
function markText(state, mark) {
    const { part, offset, name, bound } = mark;
    const [word, where] = [wordAt(state, part, offset), `The word at ${part} ${shown(offset)}`];
    if (view.gone >= 0) return `${where} waits for ${name} again: its mark gave it back what it was, ${shown(mark.value)}.`;
    const distance = word.pc && isDistance(word) ? `, the distance from ${shown(offset + 2)} to ${shown(word.meant)}` : "";
    const found = stateText(mark.found, bound);
    return `${where} waited for ${name}, which is ${found} now, so the linker added that: ${markSum(mark)}${distance}.`;
}

// the marks of words that the last step made or put back, in the order of the image
function wordMarks() {
    const marks = stateShown().marks.filter(markSum);
    return marks.sort((a, b) => PARTS.indexOf(a.part) - PARTS.indexOf(b.part) || a.offset - b.offset);
}

// what the last step brought or cut off
function broughtText() {
    const { list } = stateShown();
    const text = list.length > 0 ? cutText(list) : "";
    return view.gone >= 0 ? `${text || "Nothing"} of ${label(view.gone)} cut off.`
        : list.length > 0 ? `${label(list[list.length - 1])} brought ${text || "nothing"}.` : "";
}

// the sentence above the image: why the chosen word changed, or the first of those that did, and what came or went
function sentence(state) {
    if (isLinked(state) && view.list.length > 0) return ["Each sum is the word of the object + the address of the name, or how far the"
        + " segment has moved, that it refers to (\u2212 how far the word itself has moved, with pc) = the word of the link."];
    const marks = wordMarks();
    const mark = marks.find((one) => markKey(one) === chosen) ?? (chosen ? null : marks[0]);
    const notes = [mark ? markText(state, mark) : chosen ? chosenText(state) : broughtText()];
    if (mark && marks.length > 1 && !chosen) notes.push(`${counted(marks.length - 1, "other word")} changed too.`);
    if (!mark && !chosen && view.gone < 0 && view.list.length > 0) notes.push(waitingText(state));
    const multiples = view.gone < 0 && view.list.length > 0 && !chosen
        ? state.multiples.slice(stateOf(view.list.slice(0, -1)).multiples.length) : [];
    for (const name of new Set(multiples)) notes.push(`${name} is defined a second time: the first definition counts.`);
    if (drawn.left > 0) notes.push(`${counted(drawn.left, "arrow")} more: choose a word to see its own.`);
    if (view.guide < 0 && view.list.length === 1 && view.gone < 0) notes.push("Now add another object, and look at which words change.");
    return notes.filter(Boolean);
}

// what the chosen word is, or where the chosen name is
function chosenText(state) {
    if (chosen.startsWith("name ")) {
        const known = state.byName.get(chosen.slice(5));
        const refer = `${counted(drawn.references.length, "word")} refer${drawn.references.length === 1 ? "s" : ""}`;
        return known ? `${known.name} is ${stateText(known.kind, known.number)}. ${refer} to it.` : "";
    }
    const word = wordOf(state, chosen);
    if (!word) return "";
    const where = `The word at ${word.part} ${shown(word.offset)}`;
    if (word.kind < 0) return `${where} waits for ${nameText(word)}, which no object has defined.`;
    const branch = DATA.objects[state.list[word.place]].branches[word.index];
    if (word.part === "text" && branch !== undefined) return `${where} branches to text ${shown((branch + movedBy(word)) % WORD)}: `
        + "it holds the distance in its own text, which stays as it is.";
    if (word.kind === 0 && !word.pc) return `${where} refers to nothing: it stays as it is.`;
    const name = word.own.kind < 0 ? `${nameText(word.own)}, ` : "";
    const distance = !word.pc ? "" : isDistance(word) ? ", and holds the distance to it from the place after the word"
        : ". The distance comes with a link, which places the segments";
    return `${where} refers to ${name}${meantText(state, word)}${distance}.`;
}

// for how many names how many words wait
function waitingText(state) {
    const waiting = allReferences(state).filter((one) => one.waits);
    const names = new Set(waiting.map(({ name }) => name));
    if (waiting.length === 0) return "No word waits for a name.";
    const awaited = names.size > 3 ? counted(names.size, "name") : [...names].join(", ");
    return `${counted(waiting.length, "word")} ${waiting.length === 1 ? "waits" : "wait"} for ${awaited}.`;
}

function showNotes(state) {
    const refused = view.layout >= 0 ? linkIn(state, view.layout).refused : "";
    byId("note").classList.toggle("refused", Boolean(refused));
    setText(byId("note"), refused ? `refused: ${refused}` : sentence(state).join(" "));
}

// brings a row onto the stage, if it is not wholly there: so rows stay where they are, if they can. Others come too, if all fit
function bring(row, others = []) {
    const room = [".stage", ".names", ".known", ".side"].map((name) => row?.closest(name))
        .find((one) => one && getComputedStyle(one).overflowY === "auto");
    if (!room) return;
    const [box, frame] = [row.getBoundingClientRect(), room.getBoundingClientRect()];
    if (box.top < frame.top || box.bottom > frame.bottom) row.scrollIntoView({ block: box.height > frame.height ? "start" : "center" });
    const boxes = [row, ...others].map((one) => one.getBoundingClientRect());
    const [top, bottom] = [Math.min(...boxes.map((one) => one.top)), Math.max(...boxes.map((one) => one.bottom))];
    if (bottom - top <= frame.height) room.scrollTop += Math.min(0, top - frame.top) + Math.max(0, bottom - frame.bottom);
}

// shows the image, and what is chosen in it; rows are kept as long as all that has to be shown is there. Then it brings a row
// onto the stage, with the ends of the arrows of a choice, and draws last, when nothing moves any more
function showChosen(isAnew, lead = () => null) {
    const state = stateNow();
    const changed = changesOf(view);
    if (isAnew || !isShown(state)) showImage(state, changed);
    chooseDrawn(state);
    showNotes(state);
    const selected = document.querySelectorAll(`[aria-selected=true], [data-key="${CSS.escape(chosen)}"]`);
    for (const row of selected) row.setAttribute("aria-selected", String(row.dataset.key === chosen));
    setActive();
    bring(lead(), chosen ? drawn.arrows.flatMap(({ rows, key }) => [key, ...rows]) : []);
    draw();
}

// whether what is chosen, and what it refers to, have rows, and what refers to a name; without a choice the step is shown
function isShown(state) {
    if (!chosen) return sceneOf === "" && !isKept;
    const place = chosenPlace(state);
    if (!place) return sceneOf === chosen || !byId("image").classList.contains("scene");
    const ends = isWordKey(chosen) ? [wordOf(state, place)?.to].filter(Boolean) : chosenReferences(state).map(({ id }) => id);
    return Boolean(byId(place)) && (isAsked() || ends.every(byId));
}

// another step has no groups unfolded
let stepBefore = "";
function forget() {
    const now = [...view.list, ...(view.gone >= 0 ? [view.gone] : [])].join();
    if (now === stepBefore) return;
    if (opened.size > 0) isWhole = null;
    openGroups.clear();
    opened.clear();
    stepBefore = now;
}

// the first row that the last step changed
const firstChanged = () => byId("image").querySelector(":scope.scene .word, :scope.scene .fold")
    ?? byId("image").querySelector(".word.bound, .word.put-back") ?? byId("image").querySelector(".word.new, .word.cut-off")
    ?? byId("image").querySelector(".fold.new, .fold.cut-off");

// the list that was shown last
let shownList = [];

function showAll() {
    const state = stateNow();
    const changed = changesOf(view);
    const hadFocus = document.activeElement !== document.body;
    chosen = "";
    forget();
    clearFound();
    setText(byId("status"), [stepText(), verdict()].filter(Boolean).join(". "));
    showBar();
    showGuide();
    document.body.classList.toggle("guided", view.guide >= 0);
    document.body.classList.toggle("stepped", view.list.length > 1 || view.gone >= 0);
    showCards();
    showNames(state, changed);
    showMarks();
    showLink(state);
    showMaps(state);
    // what asks for the layout comes together, so that the browser makes it once
    showChosen(true, () => {
        // the focus goes to the image, if what had it is not there any more
        const isThere = document.activeElement !== document.body && isLaidOut(document.activeElement);
        if (hadFocus && !isThere) byId("image").focus({ preventScroll: true });
        bring(byId("names").querySelector(".changed, .put-back, .new"));
        showNext();
        return firstChanged();
    });
    say([stepText(), byId("note").textContent, guideText()]);
    shownList = view.list;
}

// says something to a reader of the screen, in one place
function say(sentences) {
    setText(byId("live"), sentences.filter(Boolean).join(" ").replace(/\s+/g, " "));
}

// ---- steps
// makes a new step
function step(newView) {
    [view, chosen] = [newView, ""];
    history.pushState(null, "", `#${hashOf(view)}`);
    showAll();
}

// shows the same step in another way
function show(newView) {
    [view, chosen] = [newView, ""];
    keepAddress();
    showAll();
}

function addObject(object) {
    const list = [...view.list, object];
    if (!view.list.includes(object) && hasState(list)) step({ ...view, list, gone: -1 });
}

function withdraw() {
    if (view.list.length > 0) step({ ...view, list: view.list.slice(0, -1), gone: view.list[view.list.length - 1] });
}

// shows what was before the last step, or after it, in the same rows
function flick() {
    if (view.gone >= 0) show({ ...view, list: [...view.list, view.gone], gone: -1 });
    else if (view.list.length > 0) show({ ...view, list: view.list.slice(0, -1), gone: view.list[view.list.length - 1] });
}

// chooses a word or a name; one that is folded is shown
function choose(key, isLed) {
    chosen = key;
    clearTimeout(addressTimer);
    addressTimer = setTimeout(keepAddress, 200);
    showChosen(false, () => (isLed ? byId(isWordKey(key) ? key : chosenPlace(stateNow())) : null));
    unfoldCard();
}

// where the linker has stopped, or had no memory, a new one shows the list that was there, or none
async function beginAgain(fault) {
    await beginLinker();
    view = { ...START, decimal: view.decimal, list: shownList };
    shownList = [];
    show(view);
    setText(byId("note"),
        `${fault instanceof Fault ? "There was no memory for that" : "The linker has stopped"}: the page is as it was before this step.`);
    byId("note").classList.add("refused");
}

function watchFaults() {
    const take = (event, fault) => {
        if (!endsLinker(fault)) return;
        event.preventDefault();
        beginAgain(fault);
    };
    window.addEventListener("error", (event) => take(event, event.error));
    window.addEventListener("unhandledrejection", (event) => take(event, event.reason));
}

async function begin() {
    source = document.documentElement.outerHTML;
    try {
        await beginLinker();
    } catch (fault) {
        setText(byId("status"), `This browser cannot run the linker: ${fault.message}`);
        return;
    }
    const [wide, widest] = ["80em", "84em"].map((width) => window.matchMedia(`(min-width: ${width})`));
    const fold = () => { byId("more").open = widest.matches; };
    widest.addEventListener("change", fold);
    fold();
    watchKeys();
    watchFind();
    watchOwn();
    watchFaults();
    window.addEventListener("popstate", restore);
    restore();
    const few = wide.matches ? DATA.objects.filter(({ text, data }) => text.length + data.length <= FEW) : [];
    for (const { number } of few) byId("cards").children[number].querySelector("details").open = true;
    watchLayout();
    document.body.classList.add("ready");
}
begin();
