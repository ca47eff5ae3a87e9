// A file of lessons, each line of which is checked against the objects as it is read: its numbers in braces, and the answers that it gives.
// What comes are the steps of the lessons, with numbers and answers computed.
"use strict";

// what is wrong with a file of lessons
class Mistake extends Error {}

function ensure(holds, text) {
    if (!holds) throw new Mistake(text);
}
const firstWord = (text) => (text.includes(" ") ? [text.slice(0, text.indexOf(" ")), text.slice(text.indexOf(" ") + 1)] : [text, ""]);
const octalOf = (text) => (/^\+?[0-7]+$/.test(text) && parseInt(text, 8) < WORD ? parseInt(text, 8) : null);

// a word of the image that is named by its segment and its offset
function wordNamed(text) {
    const [part, digits] = firstWord(text);
    const offset = octalOf(digits);
    return PARTS.includes(part) && offset !== null && offset % 2 === 0 ? { part, offset } : null;
}
const cellAt = (state, word) => word && state.words[word.part][word.offset / 2];
const nameIn = (state, name) => state.byName.get(name.slice(0, 8));
const wordMarksOf = (state) => state.marks.filter(({ part }) => part);
const changedIn = (state) => wordMarksOf(state).map(markKey);

// ---- numbers in a text
// whether a text has a number outside of braces and quotations; digits after a letter belong to a word
const hasBareNumber = (text) => /[0-9]/.test(text.replace(/"[^"]*("|$)|\{[^}]*(\}|$)/g, "\0").replace(/[A-Za-z_][A-Za-z_0-9.-]*/g, ""));

function numberInLink(state, layout, text) {
    const link = linkIn(state, layout);
    const word = wordNamed(text);
    if (text === "text" || text === "data") return startOf(link, text);
    if (link.refused) return null;
    if (word) return link.words[word.part][word.offset / 2] ?? null;
    return addressIn(link, text);
}
// the address of a name, if it has one
function addressIn(link, name) {
    const symbol = link.refused ? undefined : link.byName.get(name.slice(0, 8));
    return symbol && symbol.type % 32 !== 0 ? symbol.value : null;
}

// the number of a reference, and the text of a size or a relocation word
function numberOfReference(state, text) {
    const [first, rest] = firstWord(text);
    const word = wordNamed(rest);
    const cell = cellAt(state, word);
    const said = (number) => (number === null || number === undefined ? null : { number, part: number });
    const size = (number) => (number === null || number === undefined || number >= WORD ? null : { number, part: sizeText(number) });
    if (LAYOUTS.includes(first)) return said(numberInLink(state, LAYOUTS.indexOf(first), rest));
    if (first === "size") return size(SEGMENTS.includes(rest) ? state.sizes[rest] : null);
    if (first === "reloc") {
        const reloc = word && wordAt(state, word.part, word.offset)?.own.reloc;
        return (reloc ?? null) === null ? null : { number: reloc, part: `${reloc > 0 ? "0" : ""}${reloc.toString(8)}` };
    }
    if (PARTS.includes(first)) return said(cellAt(state, wordNamed(text))?.value);
    if (first === "was") return said(cell && marksOf(state).get(wordKey(word.part, word.offset))?.value);
    const place = cell && { at: word.offset, after: word.offset + 2, before: -placeMeant(cell, word.offset) }[first];
    if (["at", "after", "before"].includes(first)) return said(cell && modulo(place));
    const name = nameIn(state, text);
    if (!name || name.kind === "undefined") return null;
    return name.kind === "common" ? size(name.number) : said(name.number);
}

// a text as its parts: texts, and the numbers of references. A number that the file gives has to be the same
function proseOf(state, text) {
    ensure(!hasBareNumber(text), "a number is in no braces, and in no quotation");
    const parts = [];
    let rest = text;
    for (let open = rest.indexOf("{"); open >= 0; open = rest.indexOf("{")) {
        const end = rest.indexOf("}", open);
        ensure(end >= 0, "a brace has no end");
        const [said, key] = rest.slice(open + 1, end).split(/ = (.*)/);
        const found = numberOfReference(state, said);
        ensure(found, `${said} in braces refers to nothing`);
        ensure(key === undefined || octalOf(key) === found.number, `${said} in braces is ${found.number.toString(8)}`);
        if (open > 0) parts.push(rest.slice(0, open));
        parts.push(found.part);
        rest = rest.slice(end + 1);
    }
    return rest ? [...parts, rest] : parts;
}

// ---- questions
const STEPS = ["add", "withdraw", "link", "image"];
// a step of a lesson: the question before it, what is done, and what is said after it
const newStep = () => ({ ask: "", kind: "", answers: [], choices: [], act: null, says: [] });

// what an open question has not yet; `because` is wanted after a wrong answer, and nowhere else
function missingOf({ kind, choices }) {
    if (kind !== "choice") return "step";
    const last = choices[choices.length - 1];
    if (last && !last.isRight && last.reason.length === 0) return "reason for its wrong answer";
    return !choices.some(({ isRight }) => isRight) ? "right answer" : choices.every(({ isRight }) => isRight) ? "wrong answer" : "";
}

// whether a line may begin by this word
function ensureAllowed(steps, open, word) {
    ensure(steps.length > 0 || word === "lesson", "no lesson has begun");
    const what = open ? missingOf(open) : "";
    const next = { step: ["word", "number", ...STEPS], "reason for its wrong answer": ["because"], "": [word] }[what] ?? ["right", "wrong"];
    ensure(next.includes(word), `the question of line ${open?.line} has no ${what}`);
}

// a question, with what it asks of its step
function questionOf(state, text, line) {
    const [kind, rest] = firstWord(text);
    const [first, others] = firstWord(rest.trimStart());
    const question = { ...newStep(), kind: "choice", line, said: text, words: [], given: null };
    if (kind === "changes") return { ...question, kind, said: rest };
    if (kind === "value") {
        const [digits, said] = firstWord(others.trimStart());
        const word = wordNamed(`${first} ${digits}`);
        ensure(word, "value is followed by text or data, an offset and a text");
        return { ...question, kind, word: wordKey(word.part, word.offset), before: cellAt(state, word)?.value ?? 0, said };
    }
    if (kind !== "where") return question;
    ensure(first, "where is followed by a name and a text");
    return { ...question, kind, name: first.slice(0, 8), said: others };
}

// gives an open question the answer that the state after its step has; one in the file that is wrong is a fault
function answerQuestion(question, state, layout, changed) {
    const { kind, word, name, words, given } = question;
    if (kind === "changes") {
        const other = words.find((key) => !changed.includes(key));
        ensure(!other, `the word at ${Number(other?.split("-")[1]).toString(8)} does not change`);
        question.answers = changed;
    } else if (kind !== "choice") {
        const isWord = kind === "value";
        const known = nameIn(state, name ?? "");
        ensure(isWord || known, "after the step there is no such name");
        const text = isWord ? word.replace(/-(.*)/, (_, offset) => ` ${Number(offset).toString(8)}`) : name;
        const now = isWord ? cellAt(state, wordNamed(text))?.value : known.kind in REFERENTS ? known.number : null;
        question.number = (layout < 0 ? now : isWord ? numberInLink(state, layout, text) : addressIn(linkIn(state, layout), name)) ?? null;
        ensure(!isWord || question.number !== null, "after the step there is no such word");
        ensure(given === null || question.number !== null, "the name is nowhere");
        ensure(given === null || given === question.number, `the number is ${question.number?.toString(8)}`);
    }
}

// ---- lines
// makes a step: what is done, and the answer to the question before it
function takeStep(reader, open, word, rest) {
    const before = changedIn(stateOf(reader.list));
    let act = [word];
    if (word === "add") {
        const object = DATA.objects.find(({ number, path }) => !reader.list.includes(number)
            && (path === rest || path.endsWith(`/${rest}`)));
        ensure(object, `no step adds ${rest}`);
        const refusal = refusalOf(reader.list, object.number);
        ensure(!refusal, `${rest} is refused: ${refusal}`);
        act = [word, object.number];
        reader.list = [...reader.list, object.number];
    } else if (word === "withdraw") {
        ensure(reader.list.length > 0, "there is nothing to withdraw");
        reader.list = reader.list.slice(0, -1);
    } else if (word === "link") {
        ensure(LAYOUTS.includes(rest), `there is no link ${rest}`);
        act = [word, LAYOUTS.indexOf(rest)];
    }
    const state = stateOf(reader.list);
    if (!open) return reader.steps.push({ ...newStep(), act });
    answerQuestion(open, state, word === "link" ? act[1] : -1, { add: changedIn(state), withdraw: before }[word] ?? []);
    return Object.assign(open, { act });
}

function readLine(reader, line, word, rest) {
    const state = stateOf(word === "lesson" ? [] : reader.list);
    const said = (text) => {
        ensure(text, `${word} is followed by a text`);
        return proseOf(state, text);
    };
    const now = reader.steps[reader.steps.length - 1];
    const open = now?.ask && !now.act && now.says.length === 0 ? now : null;
    ensureAllowed(reader.steps, open, word);
    if (STEPS.includes(word)) takeStep(reader, open, word, rest);
    else if (word === "lesson") {
        Object.assign(reader, { list: [], steps: [newStep()] });
        reader.lessons.push({ title: prose(said(rest)), steps: reader.steps });
    } else if (word === "say") now.says.push(said(rest));
    else if (word === "ask") {
        const question = questionOf(state, rest, line);
        reader.steps.push({ ...question, ask: said(question.said.trim()) });
    } else if (word === "right" || word === "wrong" || word === "because") {
        ensure(open && (word !== "because" || missingOf(open).startsWith("reason")), "an answer to no question");
        if (word === "because") open.choices[open.choices.length - 1].reason = said(rest);
        else open.choices.push({ text: said(rest), isRight: word === "right", reason: [] });
    } else if (word === "number") {
        ensure(["value", "where"].includes(open?.kind), "an answer to no question");
        open.given = octalOf(rest);
        ensure(open.given !== null, `there is no number ${rest}`);
    } else if (word === "word") {
        ensure(open?.kind === "changes", "an answer to no question");
        const named = wordNamed(rest);
        ensure(cellAt(state, named), `there is no word ${rest}`);
        open.words.push(wordKey(named.part, named.offset));
    } else ensure(false, `${word} begins no line of a lesson`);
}

// the lessons of a file, each with its steps; the first step of a lesson is what it says at its beginning. A mistake has its line
function lessonsIn(text) {
    const reader = { list: [], lessons: [], steps: [] };
    text.split("\n").forEach((line, index) => {
        const [word, rest] = firstWord(line.trim());
        if (!word || word.startsWith("#")) return;
        try {
            readLine(reader, index + 1, word, rest.trim());
        } catch (fault) {
            if (!(fault instanceof Mistake)) throw fault;
            throw new Mistake(`line ${index + 1}: ${fault.message}`);
        }
    });
    const now = reader.steps[reader.steps.length - 1];
    const missing = now?.ask && !now.act && now.says.length === 0 ? missingOf(now) : "";
    ensure(!missing, `line ${now?.line}: the question has no ${missing}`);
    return reader.lessons;
}

// takes lessons about the objects that are there: why there are none then, or nothing
function takeLessons(text) {
    Object.assign(DATA, { lessons: [], lessonsText: "" });
    try {
        Object.assign(DATA, { lessons: lessonsIn(text), lessonsText: text });
        return "";
    } catch (fault) {
        if (!(fault instanceof Mistake)) throw fault;
        return fault.message;
    }
}
