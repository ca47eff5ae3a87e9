// The linker in the page: libv7, compiled for WebAssembly. Each call is one of v7.h, with bytes and numbers.
"use strict";

const [NO_MEMORY, NO_ROOM] = [50, 60];
// the sizes of structs of v7.h in bytes
const [ANSWER, REQUEST, RESULT, REMARK, SESSION] = [32, 64, 288, 40, 16];
// where a result has its fault, the word of that and its place; and of its map the bounds of segments, and why the link is refused
const [FAULT_AT, BOUNDS_AT, REFUSED_AT] = [8, 120, 168];
// for each buffer of a result where its size is, its place and its room, and how many bytes each of its items has
const BUFFERS = [[24, 40, 1], [32, 56, 1], [192, 224, 40], [200, 240, 40], [208, 256, 48], [216, 272, 24]];
const WANTS_REPORT_AND_MAP = 9;

// bytes as characters of the same numbers, and back
function latin(bytes) {
    const parts = [];
    for (let from = 0; from < bytes.length; from += 8192) parts.push(String.fromCharCode(...bytes.subarray(from, from + 8192)));
    return parts.join("");
}
const bytesOf = (text) => Uint8Array.from(text, (letter) => letter.charCodeAt(0));
// names as a request has them, eight bytes each
const paddedNames = (names) => bytesOf(names.map((name) => name.slice(0, 8).padEnd(8, "\0")).join(""));

// why a call gives nothing: its number, and its place and word as in struct v7_answer
class Fault extends Error {
    constructor({ fault, word = 0, place = 0 }) {
        super(FAULTS[fault] ?? `fault ${fault}`);
        Object.assign(this, { fault, word, place });
    }
}
// whether a session cannot go on after a fault: no memory was left, or the module has stopped
const endsLinker = (fault) => fault instanceof WebAssembly.RuntimeError || fault?.fault === NO_MEMORY;

// the module of a page, which has it packed
async function unpacked(text) {
    const packed = new Blob([bytesOf(atob(text))]).stream();
    return new Uint8Array(await new Response(packed.pipeThrough(new DecompressionStream("gzip"))).arrayBuffer());
}

// The memory of an instance of the module. A place is a number; the calls take and give it as a BigInt.
class Memory {
    constructor({ exports }) {
        this.calls = exports;
        this.lent = [];
        // how large a room is at first: the state of one object more is not made twice
        this.most = 4096;
    }
    get view() { return new DataView(this.calls.memory.buffer); }
    bytes(place, size) { return new Uint8Array(this.calls.memory.buffer, place, size); }
    u32(place) { return this.view.getUint32(place, true); }
    size(place) { return Number(this.view.getBigUint64(place, true)); }
    setSizes(place, ...sizes) { sizes.forEach((size, i) => this.view.setBigUint64(place + 8 * i, BigInt(size), true)); }
    words(place, count) { return new Uint16Array(this.calls.memory.buffer.slice(place, place + 2 * count)); }

    // room that is lent until `whole` ends
    room(size) {
        const place = Number(this.calls.malloc(BigInt(Math.max(size, 1))));
        if (place === 0) throw new Fault({ fault: NO_MEMORY });
        this.lent.push(place);
        this.bytes(place, size).fill(0);
        return place;
    }
    given(bytes) {
        const place = this.room(bytes.length);
        this.bytes(place, bytes.length).set(bytes);
        return [place, bytes.length];
    }
    whole(act) {
        const before = this.lent;
        this.lent = [];
        try {
            return act();
        } finally {
            this.lent.forEach((place) => this.calls.free(BigInt(place)));
            this.lent = before;
        }
    }
    // the result of a call: numbers over 32 bits are sizes and places. Its options are those that are given as `{ option }`
    call(name, ...words) {
        return this.calls[name](...words.map((word) => (typeof word === "object" ? word.option : BigInt(word))));
    }
    // makes a call with an answer; again, with the sizes that it answered, if a room was too small
    made(act) {
        const place = this.room(ANSWER);
        const answer = () => {
            const [at, size, count] = [8, 16, 24].map((field) => this.size(place + field));
            return { fault: this.u32(place), word: this.u32(place + 4), place: at, size, count };
        };
        act(place, { size: this.most, count: 64 });
        if (answer().fault === NO_ROOM) act(place, answer());
        this.most = Math.max(this.most, 2 * answer().size);
        if (answer().fault) throw new Fault(answer());
        return answer();
    }
    // a call that gives no more than its answer; bytes are given as their place and size
    answered(name, words, roomFor = () => []) {
        const given = words.flatMap((word) => (word instanceof Uint8Array ? this.given(word) : [word]));
        return this.made((place, most) => this.call(name, ...given, ...roomFor(most), place));
    }
    // what a call writes into a room
    written(name, ...words) {
        return this.whole(() => {
            let out = 0;
            const { size } = this.answered(name, words, (most) => [out = this.room(most.size), most.size]);
            return this.bytes(out, size).slice();
        });
    }
}

// The calls on files, and those that begin a session.
class Linker {
    constructor(instance) { this.memory = new Memory(instance); }
    // how many bytes of a file are its object
    check(bytes) { return this.memory.whole(() => this.memory.answered("v7_check", [bytes]).size); }
    disassemble(bytes) { return latin(this.memory.written("v7_disassemble", bytes)); }
    list(bytes) { return latin(this.memory.written("v7_list", bytes)); }
    fromListing(bytes) { return this.memory.written("v7_from_listing", bytes); }
    fromGnu(bytes) { return this.memory.written("v7_from_gnu", { option: 0 }, bytes); }
    session(forced = []) { return new Session(this.memory, forced); }

    // the words of a file, their relocation words, and its symbols
    read(bytes) {
        const { memory } = this;
        return memory.whole(() => {
            const most = bytes.length;
            const [header, counts, text, data, symbols] = [16, 32, 2 * most, 2 * most, most].map((size) => memory.room(size));
            const rooms = [text, most >> 1, data, most >> 1, symbols, Math.floor(most / 12)];
            memory.made((place) => memory.call("v7_read", ...memory.given(bytes), header, ...rooms, counts, place));
            const [texts, datas, names] = [0, 8, 16].map((field) => memory.size(counts + field));
            const both = { text: memory.words(text, 2 * texts), data: memory.words(data, 2 * datas) };
            const halves = (odd) => byPart((part) => Array.from(both[part].filter((_, i) => i % 2 === odd)));
            const symbol = (_, i) => {
                const name = latin(memory.bytes(symbols + 12 * i, 8)).replace(/\0[^]*/, "");
                const [type, value] = memory.words(symbols + 12 * i + 8, 2);
                return { name, type, value };
            };
            return { words: halves(0), relocs: halves(1), bss: memory.u32(counts + 24), symbols: Array.from({ length: names }, symbol) };
        });
    }

    // what is wrong or suspicious in a file: each remark with its part, and the index of its word or the number of its symbol
    remarks(bytes) {
        const { memory } = this;
        return memory.whole(() => {
            let [texts, found] = [0, 0];
            const { count } = memory.made((place, most) => {
                [texts, found] = [memory.room(most.size), memory.room(most.count * REMARK)];
                memory.call("v7_remarks", ...memory.given(bytes), texts, most.size, found, most.count, place);
            });
            return Array.from({ length: count }, (_, i) => {
                const at = found + REMARK * i;
                return { part: memory.u32(at + 28), word: memory.u32(at + 32),
                    text: latin(memory.bytes(texts + memory.size(at + 8), memory.size(at + 16))) };
            });
        });
    }

    // a link, by a request and a result as in v7.h: its file, its report and where its segments are; or why it is refused. The first call
    // says how large the buffers have to be
    link(objects, { options, entry, forced }) {
        const { memory } = this;
        return memory.whole(() => {
            const [request, result, slices] = [memory.room(REQUEST), memory.room(RESULT), memory.room(16 * objects.length)];
            objects.forEach((bytes, i) => memory.setSizes(slices + 16 * i, ...memory.given(bytes)));
            memory.setSizes(request, REQUEST, options + WANTS_REPORT_AND_MAP * 2 ** 32, ...memory.given(bytesOf(entry)),
                ...memory.given(paddedNames(forced)), slices, objects.length);
            for (let round = 0; round < 2; round++) {
                const sizes = BUFFERS.map(([size]) => memory.size(result + size));
                memory.setSizes(result, RESULT);
                BUFFERS.forEach(([, place, each], i) => memory.setSizes(result + place, memory.room(sizes[i] * each), sizes[i]));
                memory.call("v7_run", request, result);
                if (memory.u32(result + FAULT_AT) !== NO_ROOM) break;
            }
            const fault = memory.u32(result + FAULT_AT);
            if (fault) throw new Fault({ fault });
            const [file, report] = BUFFERS.map(([size, place]) => memory.bytes(memory.size(result + place), memory.size(result + size)));
            return { file: file.slice(), report: latin(report), bases: [0, 1, 2, 3, 4].map((i) => memory.size(result + BOUNDS_AT + 8 * i)),
                refused: FAULTS[memory.u32(result + REFUSED_AT)] };
        });
    }
}

// A session, which is there until it is freed.
class Session {
    constructor(memory, forced) {
        this.memory = memory;
        this.handle = memory.whole(() => {
            const handle = memory.room(SESSION);
            memory.lent.pop();
            try {
                memory.made((place) => memory.call("v7_session_new", handle, ...memory.given(paddedNames(forced)), place));
            } catch (fault) {
                memory.call("free", handle);
                throw fault;
            }
            return handle;
        });
    }
    add(bytes) { this.memory.whole(() => this.memory.answered("v7_session_add", [this.handle, bytes])); }
    withdraw() { this.memory.whole(() => this.memory.answered("v7_session_withdraw", [this.handle])); }
    // it is ASCII: JSON has other bytes of names by their numbers
    state() { return JSON.parse(new TextDecoder().decode(this.memory.written("v7_session_state", this.handle))); }
    free() {
        this.memory.call("v7_session_free", this.handle);
        this.memory.call("free", this.handle);
    }
}
