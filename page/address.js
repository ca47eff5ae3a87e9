// The address of the page: the objects, what links are asked for, the step, and how the page looks. So a bookmark and a reload keep the
// view.
"use strict";

// ---- objects
// bytes as an address has them, and back
const coded = (bytes) => btoa(latin(bytes)).replace(/\+/g, "-").replace(/\//g, "_").replace(/=/g, "");
const decoded = (text) => bytesOf(atob(text.replace(/-/g, "+").replace(/_/g, "/")));

// what the address says of the objects: which set they are, or their names and bytes, up to so many
const MOST_IN_ADDRESS = 6000;
function objectsInHash() {
    if (DATA.set >= 0) return DATA.set > 0 ? [`set=${DATA.set + 1}`] : [];
    if (DATA.objects.reduce((sum, { bytes }) => sum + bytes.length, 0) > MOST_IN_ADDRESS) return ["own=large"];
    return [`own=${DATA.objects.map(({ bytes }, number) => `${coded(new TextEncoder().encode(label(number)))}:${coded(bytes)}`).join()}`];
}

// takes the objects that an address has: why there are none, or nothing
function takeOwn(own) {
    const words = own === "large" ? "" : own;
    try {
        takeObjects(words.split(",").filter(Boolean).map((one) => one.split(":").map(decoded))
            .map(([name, bytes]) => ({ path: new TextDecoder().decode(name), bytes })), "");
        return words === own ? "" : "Objects of your own were too large for the address: Save page keeps them.";
    } catch (fault) {
        if (endsLinker(fault)) throw fault;
        return "The address has no objects that could be read.";
    }
}

// brings the objects of an address, unless they are there, and what it asks of links
function restoreObjects(words) {
    const own = words.get("own");
    const number = own === null ? Math.max(0, Math.min(SETS.length, Number(words.get("set") ?? 1)) - 1) || 0 : -1;
    const asked = { entry: words.get("entry") ?? "", forced: (words.get("forced") ?? "").split(",").filter(Boolean) };
    if (JSON.stringify(asked) !== JSON.stringify(ASKED)) askFor(asked);
    if (number === DATA.set && (number >= 0 || objectsInHash()[0] === `own=${own}`)) return;
    DATA.set = number;
    const fault = number < 0 ? takeOwn(own) : takeObjects(decodedObjects(SETS[number].objects), SETS[number].lessons);
    refuse(fault ? [fault] : []);
    forgetElements();
}

function openSet(number) {
    refuse([]);
    history.pushState(null, "", number > 0 ? `#set=${number + 1}` : "#");
    restore();
}

// ---- the step
// what the address says of links, and of how the page looks
function looksInHash() {
    const isOn = { maps: areMapsShown, large: isLarge(), "whole=1": isWhole === true, "whole=0": isWhole === false };
    const asked = [...(ASKED.entry ? [`entry=${encodeURIComponent(ASKED.entry)}`] : []),
        ...(ASKED.forced.length > 0 ? [`forced=${ASKED.forced.map(encodeURIComponent).join()}`] : [])];
    return [...asked, ...Object.keys(isOn).filter((name) => isOn[name]), ...(chosen ? [`chosen=${encodeURIComponent(chosen)}`] : [])];
}

function hashOf({ list, gone, layout, decimal, guide, done }) {
    const parts = [];
    if (list.length > 0) parts.push(`objects=${list.map((object) => object + 1).join()}`);
    if (gone >= 0) parts.push(`withdrawn=${gone + 1}`);
    if (layout >= 0) parts.push(`addresses=${LAYOUTS[layout]}`);
    if (decimal) parts.push("numbers=decimal");
    if (guide === 0) parts.push(`tour=${done + 1}`);
    if (guide > 0) parts.push(`lesson=${guide}&done=${done}`);
    return [...objectsInHash(), ...parts, ...looksInHash()].join("&");
}

// the view of an address, as far as there is such a state
function viewOf(hash) {
    const words = new URLSearchParams(hash);
    const list = (words.get("objects") ?? "").split(",").filter(Boolean).map((text) => Number(text) - 1);
    const gone = Number(words.get("withdrawn") ?? 0) - 1;
    const isThere = hasState(list);
    const guide = words.has("tour") ? 0 : GUIDES[Number(words.get("lesson"))] && words.has("lesson") ? Number(words.get("lesson")) : -1;
    const wanted = guide === 0 ? Number(words.get("tour")) - 1 : Number(words.get("done") ?? 0);
    const done = guide < 0 ? 0 : Math.max(0, Math.min(wanted, GUIDES[guide].steps.length - 1)) || 0;
    const decimal = words.get("numbers") === "decimal";
    // a question is about the objects of its lesson
    if (guide > 0 && GUIDES[guide].steps[done + 1]?.ask) return { ...guideView(guide, done), decimal };
    return {
        list: isThere ? list : [], gone: isThere && hasState([...list, gone]) ? gone : -1,
        layout: LAYOUTS.indexOf(words.get("addresses")), decimal, guide, done,
    };
}

// ---- there and back
// the address says what is shown now; of choices that follow each other quickly it has the last
let addressTimer = 0;
const keepAddress = () => history.replaceState(null, "", `#${hashOf(view)}`);

// shows what the address says
function restore() {
    const words = new URLSearchParams(location.hash.slice(1));
    restoreObjects(words);
    view = viewOf(location.hash.slice(1));
    areMapsShown = words.has("maps");
    isWhole = words.has("whole") ? words.get("whole") === "1" : null;
    opened.clear();
    setLarge(words.has("large"));
    showAll();
    if (words.has("chosen")) choose(words.get("chosen"), true);
}
