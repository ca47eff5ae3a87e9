"""Makes the same calls of libv7 and, in node, of its module for the page, and compares all that they write: on the files of the cases, the
examples and the tests of libv7, on random files and damaged ones, in links and in sessions, with rooms that are large enough and with
others. Each twentieth call comes first with no memory left after 0, 1, 2 .. requests: until it gives the same it has to be refused, and
to give its memory back. The heap keeps what it lent, also where memory cannot grow.

usage: python3 -m tests.libv7.module             compares
       python3 -m tests.libv7.module -m COUNT    makes so many random changes of the module, and says which are not found
tier: check, 90 seconds; programs: libv7.so; for: page/session.js packaging/heap.c tools/module.py; needs: node wasm-opt
"""
import ctypes
import glob
import hashlib
import json
import os
import random
import re
import struct
import sys
import tempfile
from concurrent.futures import ThreadPoolExecutor
from typing import NamedTuple

from tests.cases.case_format import cases_in, read_case
from tests.cases.cases import files_of, forced_in
from tests.lib.compare import notices
from tests.lib.files import TOP, read, read_bytes, write
from tests.lib.objects import gnu_named, pack
from tests.lib.programs import ran, v7
from tests.oracles import agree
from tests.page.page_tools import CLASS, Scripts, Tools, planted, report, same

OPTIONS = [0, 16, 32, 1, 2, 4, 8, 64, 65, 68, 72, 5, 9, 20, 40, 3, 48, 128]
# the buffers of a result: where each has its size, its place and its room, and how many bytes an item has
BUFFERS = [(24, 40, 1), (32, 56, 1), (72, 80, 12), (96, 104, 16), (192, 224, 40), (200, 240, 40), (208, 256, 48), (216, 272, 24)]
# the calls of a job, by the linker of the page: of each a digest of what it returns and writes
PLAY = r"""(jobs) => {
    const { memory } = LINKER;
    const all = 0xffffffffffffffffn;
    let count = 0;
    const play = (texts, session, [name, ...words]) => memory.whole(() => {
        const [rooms, places] = [[], []];
        const text = (number) => memory.given(bytesOf(texts[number]));
        const room = (size) => {
            rooms.push([memory.room(size), size]);
            return rooms.at(-1)[0];
        };
        const given = {
            number: (number) => [number], option: (option) => [{ option }], bytes: text, room: (size) => [room(size)],
            session: () => [session],
            request: (size, options, wants, entry, forced, ...objects) => {
                const [place, slices] = [memory.room(REQUEST), memory.room(16 * objects.length)];
                objects.forEach((object, i) => memory.setSizes(slices + 16 * i, ...text(object)));
                memory.setSizes(place, size, options + wants * 2 ** 32, ...text(entry), ...text(forced), slices, objects.length);
                return [place];
            },
            result: (size, ...buffers) => {
                const result = room(RESULT);
                memory.setSizes(result, size);
                for (const [at, size, count] of buffers) {
                    memory.setSizes(result + at, room(size), count);
                    places.push(result + at);
                }
                return [result];
            },
        };
        const made = words.flatMap(([kind, ...rest]) => given[kind](...rest));
        const fault = name === "v7_run" ? made.at(-1) + FAULT_AT : made.at(-1);
        const out = heap.heap_out(), isEdit = /_(new|add|withdraw|free)$/.test(name);
        let value;
        for (let limit = ++count % 20 === 0 ? 0 : -1; ; limit = limit < 40 ? limit + 1 : limit * 2) {
            heap.heap_limit(limit < 0 ? all : BigInt(limit));
            value = memory.call(name, ...made);
            heap.heap_limit(all);
            if (memory.u32(fault) !== NO_MEMORY) break;
            if (limit < 0 || (!isEdit && heap.heap_out() !== out)) return `${name} is refused, after ${limit} requests`;
        }
        if (!isEdit && heap.heap_out() !== out) return `${name} keeps memory`;
        for (const place of places) memory.setSizes(place, 0);
        return md5([value ?? 0, memory.u32(session), ...rooms.map(([place, size]) => latin(memory.bytes(place, size)))].join(" "));
    });
    return jobs.map(([texts, calls]) => memory.whole(() => {
        const session = memory.room(SESSION), out = heap.heap_out();
        const found = calls.map((call) => play(texts, session, call));
        return heap.heap_out() === out ? found : ["the session keeps memory"];
    }));
}"""
# a linker of an instance whose heap can be asked
BEGIN = """async () => {
    const instance = await WebAssembly.instantiate(compiled, {});
    globalThis.heap = instance.exports;
    LINKER = new Linker(instance);
}"""
# blocks that are lent, changed in size and freed at random keep their bytes, and lie apart; at last all memory is asked for
HEAP = r"""(seed, count) => {
    const { malloc, realloc, free, memory } = heap;
    const random = (most) => (seed = (Math.imul(seed, 1103515245) + 12345) >>> 0, (seed >>> 8) % most);
    const [blocks, faults] = [[], []];
    const bytes = ({ place, size }) => new Uint8Array(memory.buffer, place, size);
    const fill = (block) => { bytes(block).fill(block.mark); return block; };
    const check = (block) => {
        if (bytes(block).some((byte) => byte !== block.mark)) faults.push(`${block.size} bytes at ${block.place}`);
    };
    for (let i = 0; i < count; i++) {
        const size = 1 + random(1 << random(i % 50 ? 12 : 18));
        const at = random(blocks.length || 1);
        if (blocks.length < 40 || random(3) === 0) blocks.push(fill({ place: Number(malloc(BigInt(size))), size, mark: 1 + random(255) }));
        else if (random(2)) { check(blocks[at]); free(BigInt(blocks[at].place)); blocks.splice(at, 1); }
        else {
            const place = Number(realloc(BigInt(blocks[at].place), BigInt(size)));
            check({ ...blocks[at], place, size: Math.min(size, blocks[at].size) });
            blocks[at] = fill({ ...blocks[at], place, size });
        }
    }
    let place, all = 0;
    while ((place = Number(malloc(1n << 20n))) !== 0) { all += 1; blocks.push(fill({ place, size: 1 << 20, mark: 1 + (all % 255) })); }
    blocks.forEach(check);
    const ends = blocks.map(({ place, size }) => [place, place + size]).sort((a, b) => a[0] - b[0]);
    ends.slice(1).forEach(([start], i) => { if (start < ends[i][1]) faults.push(`blocks meet at ${start}`); });
    if (Number(malloc(16n)) === 0 && all === 0) faults.push("no memory at all");
    return [faults.slice(0, 3), all, memory.buffer.byteLength >> 20];
}"""


# ---- what is called
class Request(NamedTuple):
    """What is asked of a link."""

    options: int
    wants: int
    objects: list
    entry: bytes = b""
    forced: bytes = b""
    size: int = 64


class Result(NamedTuple):
    """How many items each buffer of a result has room for."""

    counts: list
    size: int = 288


class Option(NamedTuple):
    """A number of 32 bits."""

    number: int


class Job:
    """Calls on one session, each with a digest of what libv7 returns and writes."""

    def __init__(self, library):
        self.library, self.session, self.calls, self.wanted, self.texts = library, ctypes.create_string_buffer(16), [], [], {}

    def call(self, name, *words):
        """Makes a call of numbers, options, bytes, rooms of the size in a list, None for the session, requests and results. Gives what
        each room has then."""
        kept, rooms, places = [], [], []

        def place(data):
            kept.append(ctypes.create_string_buffer(data, max(len(data), 1)))
            return ctypes.addressof(kept[-1])

        def room(size):
            at = place(bytes(size))
            rooms.append((kept[-1], size))
            return at

        def number_of(text):
            return self.texts.setdefault(text, len(self.texts))

        def given(word):
            """The numbers of a word, and the word as the module's player takes it."""
            if isinstance(word, bytes):
                return [place(word), len(word)], ["bytes", number_of(word)]
            if isinstance(word, list):
                return [room(*word)], ["room", *word]
            if isinstance(word, Option):
                return [word.number], ["option", word.number]
            if isinstance(word, Request):
                slices = b"".join(struct.pack("<2Q", place(one), len(one)) for one in word.objects)
                texts = [number for text in (word.entry, word.forced) for number in (place(text), len(text))]
                made = struct.pack("<QII6Q", word.size, word.options, word.wants, *texts, place(slices), len(word.objects))
                return [place(made)], ["request", word.size, word.options, word.wants,
                                       *map(number_of, (word.entry, word.forced, *word.objects))]
            if isinstance(word, Result):
                at, buffers = room(288), [(at, count * each, count) for (_, at, each), count in zip(BUFFERS, word.counts)]
                result = rooms[-1][0]
                struct.pack_into("<Q", result, 0, word.size)
                for field, size, count in buffers:
                    struct.pack_into("<2Q", result, field, room(size), count)
                    places.append((result, field))
                return [at], ["result", word.size, *buffers]
            return ([ctypes.addressof(self.session)], ["session"]) if word is None else ([word], ["number", word])

        made, coded = zip(*map(given, words))
        value = getattr(self.library, name)(*(ctypes.c_uint64(number) for numbers in made for number in numbers))
        for result, field in places:
            struct.pack_into("<Q", result, field, 0)
        found = [buffer.raw[:size] for buffer, size in rooms]
        self.calls.append([name, *coded])
        texts = [str(value).encode(), str(struct.unpack_from("<I", self.session)[0]).encode(), *found]
        self.wanted.append(hashlib.md5(b" ".join(texts)).hexdigest())
        return found

    def coded(self):
        """The job as the module's player takes it."""
        return [[text.decode("latin-1") for text in self.texts], self.calls]

    def sized(self, rng, name, *words):
        """A call that writes into a room: one that is empty, and others, one of which is as large as what is written."""
        size = struct.unpack_from("<Q", self.call(name, *words, [0], 0, [32])[-1], 16)[0]
        found = b""
        for more in (0, *rng.sample((-1, 1, 100), 1)):
            if size + more > 0:
                found = self.call(name, *words, [size + more], size + more, [32])[0] if more == 0 else self.call(
                    name, *words, [size + more], size + more, [32]) and found
        return found


def of_cases():
    """The files of each part of the cases, or the first of many, with the names that a session there forces."""
    for path in sorted(glob.glob(f"{TOP}/tests/cases/data/*.case")):
        for lines in cases_in(path):
            for part in read_case(lines).parts:
                forced = {name[:8] for item in part.plans if item.word == "state" for name in forced_in(item.arguments)[0]}
                yield [data for data in files_of(part).values() if data is not None and len(data) <= 2048][:8], sorted(forced)


def of_library():
    """The files of the tests of libv7, and lists of objects."""
    v7.version()
    from tests.libv7 import library  # after it was said which library that is
    files = [data for *_, data in library.DAMAGED] + [text.encode("latin-1") for *_, text in library.MISTAKES]
    files += [data for *_, data in library.CONVERTED]
    return files, [objects for _, _, objects, _ in library.LIMITS]


def of_folders():
    names = [path for folder in ("examples", "tests/oracles", "tests/page") for path in glob.glob(f"{TOP}/{folder}/**", recursive=True)]
    return [read_bytes(path) for path in sorted(names) if path.endswith((".o", ".lst", ".gnu", ".out"))]


NAMES = [*agree.NAMES, b"_ninebyt", b"_f", b"x", b"9", b"/x", b"text"]
FORCED = [b"", b"", b"_a\0\0\0\0\0\0_z\0\0\0\0\0\0", b"_end\0\0\0\0", b"_ninebyt" * 2 + b"_ninebyu_nineby\0"]


def of_chance(rng, count):
    """Random objects and programs, and damaged ones."""
    for _ in range(count):
        made = agree.program_of(rng, NAMES) if rng.random() < 0.3 else agree.object_of(rng, NAMES)
        yield made if rng.random() < 0.6 else agree.damage(rng, rng.choice([made, agree.bad_object_of(rng, NAMES)]))


def of_instructions(rng, count):
    """Objects of words of each value, with names: the disassembler sees each instruction."""
    words = rng.sample(range(65536), 65536)
    for start in range(0, 65536, 65536 // count):
        text = [(word, rng.choice([0] * 8 + [1, 2, 3, 4, 5, 6, 7, 0o10, 0o11])) for word in words[start:start + 65536 // count]]
        symbols = [(b"_out", 0o40, 0)] + [(b"_%o" % n, 0o42 + rng.randrange(3), 2 * rng.randrange(len(text))) for n in range(40)]
        yield pack(text, [(rng.choice([word, 0o66151, 0o12]), 0) for word, _ in text[:200]], rng.randrange(9) * 2, symbols)


# the orders in which many values come to a sort
ORDERS = [lambda rng, count: rng.sample(range(count), count), lambda _, count: range(count), lambda _, count: range(count, 0, -1),
          lambda rng, count: [rng.randrange(3) for _ in range(count)], lambda _, count: [number % (count // 3) for number in range(count)],
          lambda _, count: [abs(number - count // 2) for number in range(count)],
          lambda rng, count: sorted(range(count), key=lambda number: number + rng.randrange(count // 4))]


def of_orders(rng):
    """Objects with many labels, uses of names, and names of GNU's form, in different orders."""
    for count in (9, 20, 33, 70, 300, 1500):
        for order in ORDERS:
            values, names = order(rng, count), max(2, min(count // 2, 90))
            text = [(rng.choice([0o4767, 0o16700, 0o12700, value]), rng.choice([0, 0o10 + 16 * (value % names)])) for value in values]
            labels = [(b"L%o" % (number % 512), rng.choice([2, 2, 2, 3, 4]), 2 * value % 60000) for number, value in enumerate(values)]
            yield pack(text, [], 60, [(b"_u%d" % number, 0o40, 0) for number in range(names)] + labels)
            rows = [(b"_%o" % value + b"long" * (count % 2), rng.choice([5, 0o42, 4]), 0) for value in values]
            yield gnu_named(values, [0] * count, rows)
    for length in (7, 63, 64, 65, 66, 130):
        for last in (b"x", b"y", b"y\0", b"\0"):
            yield gnu_named([0, 0], [0o20, 0o21], [(b"n" * length + b"x", 0o40, 0), (b"n" * length + last, 0o40, 2)])
    calls = [(number, 0) for word in range(0o104400, 0o104500) for number in (word, *rng.sample(range(65536), 4), 0o240)]
    yield pack(calls, [], 0, [(b"_a%o" % at, 0o42, 2 * at) for at in range(0, len(calls), 7)])


def of_file(rng, job, data):
    """All calls about a file."""
    job.call("v7_check", data, [32])
    for name in ("v7_disassemble", "v7_from_listing"):
        job.sized(rng, name, data)
    listed = job.sized(rng, "v7_list", data)
    for options in (0, rng.randrange(1, 9)):
        job.sized(rng, "v7_from_gnu", Option(options), data)
    size, count = struct.unpack_from("<2Q", job.call("v7_remarks", data, [0], 0, [0], 0, [32])[-1], 16)
    for less, fewer in ((0, 0), rng.choice([(1, 0), (0, 1)])):
        if size >= less and count >= fewer:
            job.call("v7_remarks", data, [size - less], size - less, [40 * (count - fewer)], count - fewer, [32])
    counts = struct.unpack_from("<3Q", job.call("v7_read", data, [16], [0], 0, [0], 0, [0], 0, [32], [32])[-2])
    for less in ((0, 0, 0), rng.choice([(1, 0, 0), (0, 1, 0), (0, 0, 1)])):
        if all(map(int.__ge__, counts, less)):
            rooms = [word for count, fewer, each in zip(counts, less, (4, 4, 12)) for word in ([each * (count - fewer)], count - fewer)]
            job.call("v7_read", data, [16], *rooms, [32], [32])
    if 0 < len(listed) < 20_000:
        for _ in range(2):
            at = rng.randrange(len(listed) + 1)
            other = rng.choice([b"x", b" ", b"9", b"/", b"\n", b"\0", b"text\n", b"0", b""])
            job.sized(rng, "v7_from_listing", listed[:at] + other + listed[at + rng.randrange(2):])
        job.sized(rng, "v7_from_listing", listed)


def of_link(rng, job, request):
    """A link, by a result that has no rooms, those that it needs, and one too small."""
    result = job.call("v7_run", request, Result([0] * 8))[0]
    counts = [struct.unpack_from("<Q", result, at)[0] for at, _, _ in BUFFERS]
    found = job.call("v7_run", request, Result(counts))
    short = rng.randrange(8)
    if counts[short]:
        job.call("v7_run", request, Result([count - (number == short) for number, count in enumerate(counts)]))
    return found


def of_links(rng, job, objects, forced):
    """Links of objects."""
    for wants in (1, 15, rng.randrange(17)):
        options, entry = rng.choice([0, *OPTIONS]), rng.choice([b"", b"", b"_a", b"_main", b"_ninebyte"])
        of_link(rng, job, Request(options, wants, objects, entry, forced))
    if rng.random() < 0.1:
        sizes = rng.choice([(8, 288), (63, 288), (64, 8), (64, 39), (64, 120), (64, 287)])
        job.call("v7_run", Request(0, rng.randrange(16), objects, b"", forced, sizes[0]), Result([999] * 8, sizes[1]))
        names = b"".join(b"%08d" % number for number in range(rng.randrange(60, 68)))
        job.call("v7_run", Request(0, 1, objects, b"", names + b"x" * rng.randrange(2)), Result([9999] * 8))


def linked(library, rng, objects):
    """The files of links in each layout, and without symbols."""
    for options in (0, 1, 2, 16, 18, 32, 4):
        found = of_link(rng, Job(library), Request(options, 0, objects))
        if found[1]:
            yield found[1]


def of_session(rng, job, objects, forced, steps=20):
    """A session: additions, withdrawals and states."""
    def act(what):
        if what == "state":
            job.sized(rng, "v7_session_state", None)
        elif what == "withdraw":
            job.call("v7_session_withdraw", None, [32])
        else:
            job.call("v7_session_add", None, what, [32])

    if rng.random() < 0.2:
        act(rng.choice(["state", "withdraw", b"", *objects]))
    job.call("v7_session_new", None, forced, [32])
    if rng.random() < 0.1:
        job.call("v7_session_new", None, forced, [32])
    is_large = sum(map(len, objects)) > 99_999
    for one in objects:
        act(one)
        if not is_large:
            act("state")
    for _ in range(0 if is_large else steps):
        act(rng.choice(["state", "withdraw", "withdraw", *objects, *objects]))
    for _ in range(len(objects) + 1):
        act("withdraw")
    act("state")
    job.call("v7_session_free", None)


def jobs_of(count):
    """All calls: of files, of links, and of sessions."""
    rng, jobs = random.Random(count), []
    files, limits = of_library()
    library = ctypes.CDLL(os.environ["LIBV7"])
    chance = [*of_chance(rng, count)]
    groups = [(objects, b"".join(name.ljust(8, b"\0") for name in forced)) for objects, forced in of_cases()]
    groups += [(objects, b"") for objects in limits]
    groups += [(rng.sample(chance, rng.choice([1, 2, 3, 5])), rng.choice(FORCED)) for _ in range(count // 2)]

    def job(act, *words):
        jobs.append(Job(library))
        act(rng, jobs[-1], *words)

    folders, many = of_folders(), [*of_orders(rng)]
    some = [folders[:5], folders, *(rng.sample(folders, 4) for _ in range(9))]
    programs = [[data for data in objects if data[:2] == b"\7\1"] for objects in some]
    files += [file for objects in programs for file in linked(library, rng, objects)]
    groups += [(rng.sample(many, 3), b"") for _ in range(40)] + [([one], b"") for one in many]
    files += [*folders, *chance, *many, *of_instructions(rng, 32), *(data for group, _ in groups for data in group)]
    for data in dict.fromkeys(files):
        job(of_file, data)
    for objects, forced in groups:
        job(of_links, objects, forced)
        job(of_session, objects, forced)
    rng.shuffle(jobs)
    return jobs


# ---- both
def compare(scripts, jobs, wanted, most=1):
    """How many jobs differ in the module, up to so many."""
    scripts.run(BEGIN)
    count = 0
    for start in range(0, len(jobs), 20):
        came = scripts.run(PLAY, jobs[start:start + 20])
        came = [came] * 20 if isinstance(came, dict) else came
        for (_, calls), one, other in zip(jobs[start:], came, wanted[start:start + 20]):
            at = next((at for at, both in enumerate(zip(one, other)) if both[0] != both[1]), 0)
            count += one != other
            same(f"{str(calls[at])[:80]}, call {at + 1} of {len(calls)}", one, other)
        if count >= most:
            break
    return count


def check_heap(tools):
    """The heap in 40 megabytes, where memory does not grow as far as it is asked to."""
    with Scripts(tools.page_of(CLASS), "--wasm-max-mem-pages=640") as scripts:
        scripts.run(BEGIN)
        came = scripts.run(HEAP, 7, 20_000)
        same("the heap", came if isinstance(came, dict) else (came[0], 5 <= came[1] <= 20, came[2] <= 40), ([], True, True))
        same("blocks that are too large", scripts.run("() => [29n, 30n, 40n].map((size) => String(heap.malloc(1n << size)))"),
             ["0"] * 3)


# ---- random changes of the module
SWAPS = {"add": "sub", "sub": "add", "lt_u": "le_u", "gt_u": "ge_u", "eq": "ne", "ne": "eq", "and": "or", "or": "xor", "shl": "shr_u",
         "shr_u": "shl", "store16": "store8", "load8_u": "load8_s", "load16_u": "load8_u"}
SPOT = re.compile(r"\((i32|i64)\.(?:const (-?\d+)\)|(" + "|".join(SWAPS) + r")\b)")


def changed(line):
    return SPOT.sub(lambda found: f"({found[1]}.const {int(found[2]) + 1})" if found[2] else f"({found[1]}.{SWAPS[found[3]]}", line,
                    count=1)


def mutate(tools, jobs, count):
    """Changes the module at random places, and says which changes are not found, and which of these no call reaches."""
    ran("wasm-dis", tools.module, "-o", f"{tools.folder}/v7.wat")
    lines = read(f"{tools.folder}/v7.wat").split("\n")
    spots = [number for number, line in enumerate(lines) if SPOT.search(line) and "(data " not in line and "(global " not in line]
    write(f"{tools.folder}/jobs", json.dumps(jobs))

    def is_seen(number, line):
        own = Tools(tempfile.mkdtemp(dir=tools.folder))
        write(f"{own.folder}/m.wat", "\n".join([*lines[:number], line, *lines[number + 1:]]))
        own.module = f"{own.folder}/m.wasm"
        # not each place can have what stops
        if ran("wasm-as", f"{own.folder}/m.wat", "-o", own.module, "--all-features").status != 0:
            return True
        # a change that loops ends by its limit of the processor: on a busy machine the clock would find changes
        words = [sys.executable, "-m", "tests.libv7.module", "-w", own.page_of(CLASS), f"{tools.folder}/jobs"]
        done = ran("prlimit", "--cpu=300", *words)
        return done.status != 0

    def found(number):
        line = lines[number]
        if is_seen(number, changed(line)):
            return "found"
        # a constant is a whole expression; before another operator something has to stop
        stopped = SPOT.sub("(unreachable)" if SPOT.search(line)[2] else r"(block (unreachable)) \g<0>", line, count=1)
        what = "not found" if is_seen(number, stopped) else "no call reaches"
        print(f"{what}: {number} {line.strip()} -> {changed(line).strip()}", flush=True)
        return what

    with ThreadPoolExecutor(len(os.sched_getaffinity(0))) as pool:
        all_found = [*pool.map(found, random.Random(count).sample(spots, count))]
    print(f"{all_found.count('found')} of {count} changes of the module are found, and no call reaches "
          f"{all_found.count('no call reaches')} of the others")


def main(*words):
    if words[:1] == ("-w",):
        with Scripts(words[1]) as scripts:
            return compare(scripts, *json.loads(read(words[2])))
    notices(planted)
    with tempfile.TemporaryDirectory() as folder:
        tools, made = Tools(folder), jobs_of(100)
        jobs = [job.coded() for job in made], [job.wanted for job in made]
        if words[:1] == ("-m",):
            return mutate(tools, jobs, int(words[1]))
        with Scripts(tools.page_of(CLASS)) as scripts:
            compare(scripts, *jobs, 20)
        check_heap(tools)
    print(f"{sum(len(job.calls) for job in made)} calls of the module")
    return report("by the module and by libv7")


if __name__ == "__main__":
    sys.exit(main(*sys.argv[1:]))
