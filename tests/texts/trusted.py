"""Follows each promise to the definitions that a reader has to trust, and writes what PROOFS and TRUST say of them.

A promise is the contract of a public function, or what contracts see of a public type. From the definitions that it cites this follows
the imports. Each file that they lead to has to be in specs/ of its crate, not in a folder of INTERNAL there, and nothing in src/ or
specs/ of a crate may import the internals of another.

The theorem is the first claim of PROOFS, which is followed definition by definition, with what a session does and the relation of linking.
A claim that begins with this relation leaves out the function `link`, since `linking_law` ties the two. The theorem is about sessions and
links that were run; by which arguments, `call_law` says, and the claim of `Performs` counts that. A claim that begins with a crate leads to
what the public contracts of the crate cite. Lines are those of definitions, without imports, comments and empty lines; the number of a
claim may be wrong by a twentieth. Each function and type that a table of PROOFS names has to be in the code.

usage: python3 -m tests.texts.trusted        compares
       python3 -m tests.texts.trusted -w     writes the numbers of PROOFS and TRUST
tier: text, 6 seconds; for: crates crates.txt docs/PROOFS.md docs/TRUST.md
"""
import functools
import glob
import os
import re
import sys

from tests.lib.compare import notices, same
from tests.lib.files import read, write
from tests.lib.rattle import crates_in, definitions, functions, items

PROOFS, TRUST = "docs/PROOFS.md", "docs/TRUST.md"
# the laws that are the theorem: the first claim begins with what they cite
THEOREM = ("crates/laws/src/commands.rt", ["session_law", "undo_law"])
# what it is followed from besides: what a session does, and what a link is; and what a claim leaves out that begins with the relation
BESIDES = {"IsSessionRun", "IsLinkedFrom", "IsRefused"}
RELATION, LEFT_OUT = "IsLinkedFrom", {("link_out", "function.Link", "link")}
# the definitions by which arguments are read, with the kit's `clap`, and the claim that leads to them
READS_WORDS = "`Performs`"
WORDS = ("crates/command_words/specs/", ["Calls", "LinkWords", "Tools"]), ("crates/tool_options/specs/", ["Flags", "ForcedNames"])
WORDS_LINES = re.compile(r"\d+ of its lines say how arguments are read")
# the files that a reader begins with, and the pages that say how many lines they have
FIRST = ["aout_core/specs/Contents", "link_session/specs/Mentions", "laws/specs/relation/LinkedFrom"]
FIRST_LINES = re.compile(r"files of `specs/`, \d+ lines")
# folders of what loops and private functions do
INTERNAL = ["internal"]
# definitions name no constants of the code, but for the ids by which `command_words` knows its options, the rows of `instructions`, in the
# laws that compare them with the definitions' tables, and the help of a program, of which no definition says what it says
IDS = [("command_words", "words"), ("command_words", "link_words"), ("instructions", "table"), ("instructions", "call_table"),
       ("v7_object", "help"), ("v7_origin", "help"), ("v7_from_gnu", "help")]
# crates whose definitions nobody has to trust: tests, and what a reader at a terminal sees
OTHERS = ["v7", "device_tests"]
LIBRARIES = [crate for crate in crates_in(".") if crate not in OTHERS]
IMPORT = re.compile(r"^ *(?:pub )?(?:ghost )?use Rattle\.(\w+)\.(specs|proofs)(?:\.([\w.]+?))?(?:\.\{([^}]*)\}|(?: as (\w+))?);?$")
# in a list of names those of one module: `Contents.{Fits, bss_end}`
INNER = re.compile(r"([\w.]+)\.\{([^{}]*)\}(?=[,}])")
# in a cell of PROOFS a name: a function or a type, after the module or the type that it is of
NAME = re.compile(r"`(?:\w+::)*(\w+)`")
faults = []


# --- sources and definitions

def imports(text):
    """Each name that is brought in, with the crate, the folder and the module that it is from, and its name there."""
    for line in text.split("\n"):
        found = IMPORT.match(INNER.sub(lambda it: ", ".join(f"{it[1]}.{name.strip()}" for name in it[2].split(",")), line))
        if found and found[1] in LIBRARIES:
            crate, folder, module, names, alias = found.groups()
            for name in (names or alias or module.split(".")[-1]).split(","):
                path, _, other = name.strip().partition(" as ")
                inner, _, own = path.rpartition(".")
                yield other or own, (crate, folder, ".".join(part for part in (module, inner) if part), own)


def exported(crate):
    """The public modules of a crate, and the names that its root exports from others; of a program, its `perform`."""
    if os.path.exists(f"crates/{crate}/src/main.rt"):
        return set(), {"program": {"perform"}}
    text = read(f"crates/{crate}/src/lib.rt")
    modules = set(re.findall(r"^pub mod (\w+);", text, re.M))
    names = {}
    for module, group, one in re.findall(r"^pub use ([\w:]+)::(?:\{([^}]*)\}|(\w+));", text, re.M):
        names.setdefault(module.replace("::", "/"), set()).update(name.strip() for name in (group or one).split(","))
    return modules, names


@functools.lru_cache(None)
def contracts(crate):
    """The contracts of a crate, and what contracts see of a type: for each the source, the name, whether it is public, and each definition
    that it cites, with the place of that."""
    found, (modules, names) = [], exported(crate)
    for path in sorted(glob.glob(f"crates/{crate}/src/**/*.rt", recursive=True)):
        module, text = path.split("/src/")[1][:-3], read(path)
        is_open, given = module == "lib" or module in modules, names.get(module, set())
        outer = dict(imports("\n".join(line for line in text.split("\n") if line.startswith("ghost use"))))
        for item in items(text):
            of, kind = re.match(r"(?:impl(?:<.*?>)? (?:(.*?) for )?|(?:pub )?trait |.*)(\w*)", item[0]).groups()
            is_impl, scope = item[0].startswith("impl"), {**outer, **dict(imports("\n".join(item)))}
            seen = re.findall(r"^ *ghost (?!(?:invariant|inverse|inverse_ok) )(\w+) = (.*);$", "\n".join(item), re.M)
            heads = [(it.name, bool(of) or it.given == "pub ", it.head()) for it in functions(item)]
            for name, is_public, cited in [*heads, *((name, True, text) for name, text in seen)]:
                is_given = is_open or (kind if is_impl else name) in given
                words = sorted({*re.findall(r"\w+", cited)} & {*scope})
                found.append((path, name, is_given and is_public, {word: scope[word] for word in words}))
    return found


def path_of(crate, module):
    return f"crates/{crate}/specs/{module.replace('.', '/')}.antt"


@functools.lru_cache(None)
def in_file(path):
    """The definitions of a file of definitions, and what it imports."""
    return [*definitions(read(path))], dict(imports(read(path)))


def count(path):
    """How many lines of definitions a file has."""
    return sum(len(it.lines) for it in in_file(path)[0])


# --- what promises lead to

def trusted():
    """The files that the promises lead to."""
    reached, waiting = set(), []
    for crate in LIBRARIES:
        for path, _, is_public, cited in contracts(crate):
            waiting += [(place, f"{path} cites {word}") for word, place in cited.items() if is_public]
    while waiting:
        (crate, folder, module, _), why = waiting.pop()
        if module.startswith("declared"):
            if module.endswith("TheConstants") and "/specs/" in why and (crate, module.split(".")[1]) not in IDS:
                faults.append(f"{why}, a constant of the code")
        elif folder == "proofs" or module.split(".")[0] in INTERNAL:
            faults.append(f"{why}, of {crate}/{folder}/{module.replace('.', '/')}")
        elif (path := path_of(crate, module)) not in reached:
            reached.add(path)
            waiting += [(place, f"{path} imports {name}") for name, place in in_file(path)[1].items()]
    return reached


def other_internals():
    """Imports of the internals of another crate."""
    for path in glob.glob("crates/*/src/**/*.rt", recursive=True) + glob.glob("crates/*/specs/**/*.antt", recursive=True):
        for name, (crate, _, module, _) in imports(read(path)):
            if module.split(".")[0] in INTERNAL and path.split("/")[1] != crate:
                faults.append(f"{path} imports {name}, of the internals of {crate}")


def led_to(starts):
    """How many lines of definitions some names lead to, by file."""
    reached, waiting = {}, list(starts)
    left_out = LEFT_OUT if RELATION in {name for *_, name in starts} else set()
    while waiting:
        crate, module, name = waiting.pop()
        path = path_of(crate, module)
        if not os.path.exists(path) or (crate, module, name) in left_out:
            continue
        known, scope = in_file(path)
        places = {own: place for place, it in enumerate(known) for own in it.names}
        if name not in places:
            if name in scope and scope[name][1] == "specs":
                waiting.append((scope[name][0], *scope[name][2:]))
            continue
        place = places[name]
        if place in reached.setdefault(path, {}):
            continue
        reached[path][place] = len(known[place].lines)
        for word in set(re.findall(r"[\w-]+", "\n".join(known[place].lines))):
            if word in places and places[word] != place:
                waiting.append((crate, module, word))
            elif word in scope and scope[word][1] == "specs" and not scope[word][2].startswith("declared"):
                waiting.append((scope[word][0], *scope[word][2:]))
    return {path: sum(lines.values()) for path, lines in reached.items()}


# --- PROOFS

def named_definitions():
    """Where each definition is, by its name."""
    where = {}
    for path in glob.glob("crates/*/specs/**/*.antt", recursive=True):
        crate, module = path.split("/")[1], path.split("/specs/")[1][:-5].replace("/", ".")
        if crate in LIBRARIES and module.split(".")[0] not in INTERNAL + ["declared"]:
            for name in {name for it in in_file(path)[0] for name in it.names}:
                where.setdefault(name, []).append((crate, module, name))
    return where


def claims(text):
    """The claims of PROOFS: each with the lines that it leads to, by file, and its row."""
    where = named_definitions()
    for row in re.findall(r"^\| (?:[^|\n]+ \| ){3}\d+ \| \d+ \|$", text, re.M):
        claim, _, names = row.strip("| ").split(" | ")[:3]
        starts = []
        for name in re.findall(r"`([\w.]+)`", names):
            if name in LIBRARIES:
                starts += cited_in(name)
                continue
            crate, name = name.split(".") if "." in name else (None, name)
            found = [place for place in where.get(name, []) if crate in (None, place[0])]
            if len(found) != 1:
                faults.append(f"{PROOFS}: {claim}: {len(found)} definitions are called {name}")
            starts += found
        yield led_to(starts), row


def cited_in(crate):
    """Where the definitions are that the public contracts of a crate cite."""
    places = {place for _, _, is_public, cited in contracts(crate) if is_public for place in cited.values()}
    return [(crate, module, name) for crate, folder, module, name in sorted(places) if folder == "specs" and "declared" not in module]


def cited_by_theorem():
    """The definitions that the laws of the theorem cite."""
    path, laws = THEOREM
    return {word for source, name, _, cited in contracts(path.split("/")[1]) if source == path and name in laws for word in cited}


def unknown(text):
    """The names of contracts in the tables of PROOFS that no source has."""
    known = {*LIBRARIES, *OTHERS}
    for path in glob.glob("crates/*/src/**/*.rt", recursive=True):
        known.update(re.findall(r"\b(?:fn|struct|enum|trait|mod|type) (\w+)", read(path)))
    for part in re.split(r"^(?=## )", text, flags=re.M):
        rows = [line.strip("| ").split(" | ") for line in part.split("\n") if line.startswith("| ")]
        # the heading of such a part names crates
        if any(f"`{crate}`" in part.split("\n")[0] for crate in LIBRARIES + OTHERS):
            names = [name for row in rows if len(row) in (2, 3) for name in NAME.findall(row[1])]
            yield from (f"{PROOFS}: no contract of {name}" for name in names if name not in known)


def expected():
    """The pages as they should be, and how many lines in how many files the theorem leads to."""
    pages = {path: read(path) for path in (PROOFS, TRUST)}
    all_claims = list(claims(pages[PROOFS]))
    theorem = all_claims[0][0]
    if set(re.findall(r"`(?:\w+\.)?(\w+)`", all_claims[0][1].split(" | ")[2])) != cited_by_theorem() | BESIDES:
        faults.append(f"{PROOFS}: the first claim should begin with {', '.join(sorted(cited_by_theorem() | BESIDES))}")
    for found, row in all_claims:
        lines, written = sum(found.values()), int(row.split(" | ")[-2])
        # a few lines more or less, as of one remark, change no page
        lines = written if abs(lines - written) * 20 <= lines else lines
        pages[PROOFS] = pages[PROOFS].replace(row, re.sub(r"\d+ \| \d+ \|$", f"{lines} | {len(found)} |", row))
    first = sum(count(f"crates/{name}.antt") for name in FIRST)
    reading = [found for found, row in all_claims if READS_WORDS in row]
    words = sum(found.get(f"{folder}{name}.antt", 0) for found in reading for folder, names in WORDS for name in names)
    pages[PROOFS], said = WORDS_LINES.subn(f"{words} of its lines say how arguments are read", pages[PROOFS])
    faults.extend([f"{PROOFS} does not say how many lines say how arguments are read"] * (said != 1))
    for page in (PROOFS, TRUST):
        pages[page], said = FIRST_LINES.subn(f"files of `specs/`, {first} lines", pages[page])
        faults.extend([f"{page} does not say how many lines the first files have"] * (said != 1))
    return pages, f"{sum(theorem.values())} lines in {len(theorem)} files"


def main():
    other_internals()
    reached = trusted()
    pages, shown = expected()
    faults.extend(unknown(pages[PROOFS]))
    notices(same, "names", [*unknown(pages[PROOFS].replace("`read_file`", "`read_files`"))], [])
    notices(same, PROOFS, re.sub(r"\d", "0", pages[PROOFS]).split("\n"), pages[PROOFS].split("\n"))
    for page, text in pages.items():
        if sys.argv[1:] == ["-w"]:
            write(page, text)
        same(f"{page}, by the code; -w writes it", read(page).split("\n"), text.split("\n"))
    print(*faults, f"the theorem leads to {shown}, all promises to {sum(map(count, reached))} in {len(reached)}", sep="\n")
    sys.exit(1 if faults else 0)


if __name__ == "__main__":
    main()
