// A lesson on paper: its objects and questions, and on other sheets the answers.
"use strict";

// a step of a lesson on paper: what is done, said and asked, with room for the answer or with the answer
function paperStep(made, number, withAnswers) {
    const parts = [];
    if (made.ask) {
        parts.push(make("p", "ask", `${number}. ${prose(made.ask)}`));
        for (const one of made.choices) parts.push(make("p", "", `${withAnswers && one.isRight ? "\u2612" : "\u2610"} ${givenText(one)}`));
        parts.push(make("p", "line", withAnswers ? `Answer: ${rightText(made)}` : "Answer: ______________________"));
    }
    if (made.act) parts.push(make("p", "act", `${actText(made.act)}.`));
    if (made.says.length > 0 && (withAnswers || !made.ask)) parts.push(make("p", "", made.says.map(prose).join(" ")));
    return make("section", "paper-step", ...parts);
}

// an object on paper: all that its words become follows from it
function paperObject(object) {
    const rows = PARTS.flatMap((part) => object[part]
        .map((_, index) => make("tr", "", make("td", "", part), ...listingCells(object, part, index))));
    const bss = object.bss > 0 ? [make("p", "", `bss ${bytesText(object.bss)}`)] : [];
    return make("section", "paper-object", make("h2", "", label(object.number)), make("table", "listing", ...rows), ...bss,
        symbolsOf(object));
}

// the words of a state on paper, each with its place in the segment, pc, and what it refers to
function paperWords(state) {
    const rows = PARTS.flatMap((part) => state.list.flatMap((number, place) => DATA.objects[number][part].map((_, index) => {
        const word = imageWord(state, place, part, index);
        const { instruction, string } = textsOf(DATA.objects[number], word);
        const said = word.kind === 0 && !word.pc ? instruction ?? string ?? ""
            : `${word.kind < 0 ? "" : "\u2192 "}${meantText(state, word)}`;
        const cells = [part, shown(word.offset), shown(word.value), word.pc ? "pc" : "", said];
        return make("tr", "", ...cells.map((text) => make("td", "", text)));
    })));
    return rows.length <= 64 ? make("table", "listing", ...rows) : "";
}

// the steps of a lesson on paper: the words after a step come with the answers alone, since they answer the questions before them
function paperSteps(guide, withAnswers) {
    let number = 0;
    return GUIDES[guide].steps.flatMap((made, done) => {
        view = { ...guideView(guide, done), gone: -1, layout: -1 };
        number += made.ask ? 1 : 0;
        const isShown = withAnswers && made.act && made.act[0] !== "link";
        return [paperStep(made, number, withAnswers), ...(isShown ? [paperWords(stateNow())] : [])];
    });
}

// prints a lesson as a handout, with its objects, and after it the same with the answers
function printHandout() {
    const kept = view;
    const added = GUIDES[kept.guide].steps.filter(({ act }) => act?.[0] === "add").map(({ act }) => act[1]);
    const given = (withAnswers) => (withAnswers ? [] : [...new Set(added)].map((number) => paperObject(DATA.objects[number])));
    const parts = [false, true].map((withAnswers) => make("div", withAnswers ? "answers" : "", make("h1", "", guideTitle(kept.guide)),
        ...given(withAnswers), ...paperSteps(kept.guide, withAnswers)));
    view = kept;
    byId("paper")?.remove();
    document.body.append(withAttributes(make("div", "paper", ...parts), { id: "paper" }));
    document.body.classList.add("handout");
    window.print();
    document.body.classList.remove("handout");
}
