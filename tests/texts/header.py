"""Compares include/v7.h with the declarations of the code: the fields of each struct, which has `repr(C)`, each call's parameters, and the
numbers of remarks; tests/libv7 has the other numbers. What tools/faces.py makes of the header has to be there.

tier: text, 2 seconds; for: include/v7.h packaging/python packaging/rust man/v7.3 crates/libv7 tools/faces.py
"""
import glob
import os
import re

from tests.lib.compare import notices, same
from tests.lib.files import TOP, read
from tests.lib.rattle import functions, items
from tools.faces import HEADER, calls_of, enums_of, faces, structs_of

# a field or a parameter that has another name in the code, since the name is a word of the language
RENAMED = {"type_bits": "type", "data_words": "data"}
IN_C = {"u8": "unsigned char", "u16": "uint16_t", "u32": "uint32_t", "u64": "uint64_t", "usize": "size_t", "[u8; 8]": "unsigned char[8]",
        "Slot": "void *"}
# a parameter of a call of the code
PARAMETER = re.compile(r"(\w+): ([^,)]+)")
# the structs of the header, by their names in the code
STRUCTS = dict(pair.split(":") for pair in """Answer:v7_answer Counts:v7_counts FileHeader:v7_header FindingPlace:v7_finding_place
    Handle:v7_session LimitRecord:v7_map_limit MapAnswer:v7_map MapHead:v7_map_head NameRecord:v7_map_name ObjectBytes:v7_slice
    ObjectRecord:v7_map_object ObjectWord:v7_word PlaceRecord:v7_place RemarkRecord:v7_remark ReportedName:v7_finding Request:v7_request
    RunAnswer:v7_result SymbolRow:v7_symbol UseRecord:v7_map_use""".split())


# --- the code

def sources():
    """The files of the crates that declare what C sees, by their paths below crates."""
    paths = [path for crate in ("libv7", "link_maps") for path in glob.glob(f"{TOP}/crates/{crate}/src/*.rt")]
    return {os.path.relpath(path, f"{TOP}/crates"): read(path) for path in paths}


def c_types(kind):
    """A type of the code as it is in C: a slice is a pointer and a number of items."""
    found = re.fullmatch(r"(&(?:'\w+ )?(mut )?)?(\[)?(\w+)(?:<'\w+>)?\]?", kind)
    if kind in IN_C or not found:
        return [IN_C.get(kind, kind)]
    pointed = IN_C.get(found[4]) or f"struct {STRUCTS.get(found[4], found[4])}"
    return [("" if found[2] else "const ") + f"{pointed} *", *["size_t"] * bool(found[3])] if found[1] else [pointed]


def expanded(fields, known):
    """Names and types of the code as pairs of C. A slice of bytes is one field if the header has `struct v7_slice` there. The size of
    another slice is a field of any name."""
    found = []
    for name, kind in fields:
        first, *size = c_types(kind)
        is_slice = size and known[len(found):][:1] == [("struct v7_slice", name)]
        found += [("struct v7_slice", name)] if is_slice else [(first, RENAMED.get(name, name)), *((it, "") for it in size)]
    return found


def fields_in_code(texts, name):
    """The fields of a struct with `repr(C)`, each with its type."""
    body = re.search(r"#\[repr\(C\)\]\n(?:#\[[^\n]*\n)*pub struct " + name + r"(?:<'a>)? \{(.*?)\n\}", "\n".join(texts.values()), re.S)
    return re.findall(r"^    (?:pub(?:\(crate\))? )?(\w+): (?!Global,)([^\n]+),", body[1] if body else "", re.M)


def declared_calls(texts):
    """Each call of the code, with its parameters, and what it returns as the last one: pairs of a name and a type."""
    calls = {}
    for it in [it for text in texts.values() for item in items(text) for it in functions(item) if 'extern "C"' in it.signature[0]]:
        head, _, returned = " ".join(it.signature).partition("-> ")
        parameters = [(word, kind.strip()) for word, kind in PARAMETER.findall(head) if kind != "Global"]
        calls[it.name] = [*parameters, ("", returned.split()[0])]
    return calls


# --- what differs

def different(what, known, found):
    """Pairs of a type and a name that differ; a field of the code without a name has any."""
    if len(known) != len(found) or any(one[0].strip() != other[0] or other[1] not in ("", one[1]) for one, other in zip(known, found)):
        yield f"{what}: {known} in C, and {found} in the code"


def compare(header, texts):
    """The header and the code have the same structs, calls and numbers of remarks."""
    structs, calls, declared = structs_of(header), calls_of(header), declared_calls(texts)
    same("the structs", sorted(structs), sorted(STRUCTS.values()))
    same("the calls", sorted(calls), sorted(declared))
    faults = []
    for of_code, name in STRUCTS.items():
        faults += different(f"struct {name}", structs[name], expanded(fields_in_code(texts, of_code), structs[name]))
    for name, known in calls.items():
        found = expanded(declared[name], known)
        kinds = [kind for kind, _ in found]  # a parameter that is the only one of its type may have another name
        faults += different(name, known, [(kind, word if kinds.count(kind) > 1 else "") for kind, word in found])
    same("what differs", faults, [])
    kinds = re.findall(r"^    (\w+) = (\d+),", read(f"{TOP}/crates/checks/src/finding.rt"), re.M)
    same("kinds of remarks", {name[10:].replace("_", "").lower(): number for name, number in enums_of(header)["v7_remark_kind"].items()},
         {name.lower(): int(number) for name, number in kinds})


# what is changed in the header to see that it is found: a field, its place, its type, a call, and a number
PLANTED = [
    ("uint32_t word;      /* V7_BAD", "uint32_t words;     /* V7_BAD"),
    ("    uint16_t value;\n    uint16_t reloc;", "    uint16_t reloc;\n    uint16_t value;"),
    ("    size_t symbols;\n    uint32_t bss;", "    size_t symbols;\n    uint16_t bss;"),
    ("uint32_t v7_version(void);", ""),
    ("v7_check(const unsigned char *bytes", "v7_check(unsigned char *bytes"),
    ("V7_REMARK_ODD_COMMON = 19", "V7_REMARK_ODD_COMMON = 18"),
]


def main():
    header, texts = read(HEADER), sources()
    for old, new in PLANTED:
        notices(compare, header.replace(old, new), texts)
    compare(header, texts)
    others = [path for path, text in faces(header).items() if text != read(path)]
    same(f"files that are other than {HEADER}: python3 -m tools.faces", others, [])
    print(f"v7.h, the code, Python, Rust and v7(3) agree: {len(structs_of(header))} structs, {len(calls_of(header))} calls")


if __name__ == "__main__":
    main()
