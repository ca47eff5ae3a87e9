"""Makes what other languages have of include/v7.h: the constants, texts and structs of v7.py, the declarations of v7-sys, and the calls in
v7(3). A new number of a fault is a line of v7.h with its text there, and a run of this.

usage: python3 -m tools.faces        writes them
       python3 -m tools.faces -c     names the files that are other than v7.h wants, with status 1
"""
import re
import sys

from tests.lib.files import read, write

HEADER = "include/v7.h"
PYTHON, RUST, MANUAL = "packaging/python/v7.py", "packaging/rust/v7-sys/src/declared.rs", "man/v7.3"
WIDTH = 140
BEGIN, END = "from include/v7.h, by tools/faces.py", "end of what is from include/v7.h"
# the enums of the module, with what its names begin with; of the faults it has the texts, and one name
IN_PYTHON = {"v7_part": "", "v7_nm_option": "", "v7_link_option": "", "v7_relocation": "", "v7_segment": "", "v7_gnu_option": "",
             "v7_remark_kind": "", "v7_finding_kind": "", "v7_map_name_state": "", "v7_map_use_kind": "", "v7_map_limit_kind": "",
             "v7_want": "_"}
# types of C in ctypes and in Rust; other pointers are a c_void_p there, and pointers here
TYPES = {"uint16_t": ("_U16", "u16"), "uint32_t": ("_U32", "u32"), "uint64_t": ("_U64", "u64"), "size_t": ("_SIZE", "usize"),
         "unsigned char[8]": ("_NAME", "Name"), "unsigned char": ("", "u8"), "void": ("", "c_void"),
         "const unsigned char *": ("ctypes.c_char_p", ""), "const struct v7_slice *": ("ctypes.POINTER(_Slice)", "")}
# fields that are the number of an object, or that there is none
NUMBERS = {"first", "further", "definer", "next_definer", "user", "object"}
# constants that go into words of 16 bits
SHORT = {"v7_relocation", "v7_segment"}


# --- what the header has

def plain(text):
    """C without comments."""
    return re.sub(r"/\*.*?\*/", "", text, flags=re.S)


def enums_of(header):
    """Each enum, with its constants."""
    found = re.findall(r"enum (\w+) \{(.*?)\}", plain(header), re.S)
    return {name: {constant: int(value, 0) for constant, value in re.findall(r"(V7_\w+)\s*=\s*(\w+)", body)} for name, body in found}


def structs_of(header):
    """Each struct, with its fields: pairs of a type and a name."""
    found = re.findall(r"struct (\w+) \{(.*?)\};", plain(header), re.S)
    field = re.compile(r"([\w *]+?)(\w+)((?:\[\d+\])?);")
    return {name: [(kind.strip() + count, word) for kind, word, count in field.findall(body)] for name, body in found}


def calls_of(header):
    """Each call, with its parameters, and what it returns as the last one: pairs of a type and a name."""
    found = re.findall(r"^(uint32_t |size_t )(v7_\w+)\((.*?)\);", plain(header), re.S | re.M)
    parameter = re.compile(r"\s*([^,]*?[ *])(\w+)(?:,|$)")
    return {name: [*parameter.findall(re.sub(r"\s+", " ", words)), (kind, "")] for kind, name, words in found}


def texts_of(header):
    """The texts of faults, by their numbers."""
    numbers = enums_of(header)["v7_fault"]
    return {numbers[name]: text for name, text in re.findall(r'case (V7_\w+):\s*return "(.*?)";', header) if numbers[name]}


def filled(items, between=", ", start="", width=WIDTH):
    """Items on as few lines as hold them, each of which begins so."""
    lines = []
    for item in items:
        if lines and len(lines[-1]) + len(between) + len(item) < width:
            lines[-1] += between + item
        else:
            lines.append(start + item)
    return [line + between.rstrip() for line in lines[:-1]] + lines[-1:]


def camel(name):
    """`v7_map_use` as `MapUse`."""
    return "".join(part.capitalize() for part in name.split("_")[1:])


# --- Python

def assigned(names, values):
    """Assignments of several names each."""
    line = lambda count: f"{', '.join(names[:count])} = {', '.join(values[:count])}"
    while names:
        count = max(count for count in range(1, len(names) + 1) if count == 1 or len(line(count)) <= WIDTH)
        yield line(count)
        names, values = names[count:], values[count:]


def python_type(kind):
    if kind.startswith("struct ") and not kind.endswith("*"):
        return "_" + camel(kind)
    return TYPES[kind][0] if kind in TYPES else "ctypes.c_void_p"


def python_struct(name, fields):
    """A struct as types, each with the names of its fields."""
    groups = []
    for kind, field in fields:
        kind = python_type(kind)
        if groups and groups[-1][0] == kind:
            groups[-1][1].append(field)
        else:
            groups.append((kind, [field]))
    lines = filled([f"({kind}, \"{' '.join(names)}\")" for kind, names in groups], start="    ", width=WIDTH - 1)
    only = f"_{camel(name)} = _struct({lines[0].strip()})"
    return [only] if len(lines) == 1 and len(only) <= WIDTH else [f"_{camel(name)} = _struct(", *lines[:-1], lines[-1] + ",", ")"]


def python_of(header):
    enums = enums_of(header)
    for enum, start in IN_PYTHON.items():
        yield f"# enum {enum}"
        yield from assigned([start + name[3:] for name in enums[enum]], [*map(str, enums[enum].values())])
    yield f"_NO_ROOM = {enums['v7_fault']['V7_NO_ROOM']}"
    yield "# what the faults mean"
    yield "FAULTS: Dict[int, str] = {"
    lines = filled([f'{number}: "{text}"' for number, text in texts_of(header).items()], start="    ", width=WIDTH - 1)
    yield from [*lines[:-1], lines[-1] + ",", "}"]
    for name, fields in structs_of(header).items():
        yield from python_struct(name, fields)


# --- Rust

def rust_type(kind, field=""):
    pointer = re.fullmatch(r"(const )?(.*) \*", kind)
    if pointer:
        return f"*{'const' if pointer[1] else 'mut'} {rust_type(pointer[2])}"
    if kind.startswith("struct "):
        return camel(kind)
    return "Number" if kind == "size_t" and field in NUMBERS else TYPES[kind][1]


def rust_struct(name, fields, held):
    """A struct. One that holds a pointer is compared with no other; a session is not copied."""
    traits = "Debug" if name == "v7_session" else "Clone, Copy, Debug" + ("" if held else ", Default, PartialEq, Eq")
    rows = [f"pub {'r#' if field == 'type' else ''}{field}: {rust_type(kind, field)}" for kind, field in fields]
    only = f"pub struct {camel(name)} {{ {', '.join(rows)} }}"
    lines = [only] if len(only) <= WIDTH else [f"pub struct {camel(name)} {{", *filled(rows, start="    "), "}"]
    yield from [f"/// `struct {name}`", f"#[repr(C)] #[derive({traits})]", *lines]


def rust_of(header):
    structs, with_pointers = structs_of(header), set()
    yield from ["//! The declarations of v7.h, made of it by tools/faces.py.", "use crate::{Name, Number};", "use std::ffi::c_void;"]
    for enum, constants in enums_of(header).items():
        yield f"// enum {enum}"
        yield from filled([f"pub const {name}: {'u16' if enum in SHORT else 'u32'} = {value};" for name, value in constants.items()], " ")
    for name, fields in structs.items():
        if any("*" in kind or kind in with_pointers for kind, _ in fields):
            with_pointers.add(f"struct {name}")
        yield from rust_struct(name, fields, f"struct {name}" in with_pointers)
    yield 'extern "C" {'
    for name, words in calls_of(header).items():
        given = ", ".join(f"{word}: {rust_type(kind.strip())}" for kind, word in words[:-1])
        yield f"    pub fn {name}({given}) -> {rust_type(words[-1][0].strip())};"
    yield from ["}", "/// What a fault means, as `v7_strerror` of v7.h says it."]
    yield from ["pub(crate) fn text(fault: u32) -> &'static str {", "    match fault {"]
    yield from filled([*(f'{number} => "{words}"' for number, words in texts_of(header).items()), '_ => "unknown fault"'], start=" " * 8)
    yield from ["    }", "}"]


# --- the manual

def names_of(header):
    yield from (f".Nm {name} ," for name in calls_of(header))


def synopsis_of(header):
    for name, words in calls_of(header).items():
        given = [f'"{kind}{word}"' for kind, word in words[:-1]] or ["void"]
        line = f".Fn {name} {' '.join(given)}"
        yield f".Ft {words[-1][0].strip()}"
        yield from [line] if len(line) <= 80 else [f".Fo {name}", *filled(given, " ", ".Fa ", 81), ".Fc"]


# --- all of them

def within(text, comment, *parts):
    """A text with other lines between its marks, of which a part has one pair."""
    begin, end = f"{comment}{BEGIN}\n", f"{comment}{END}\n"
    waiting = ("".join([begin, *(f"{line}\n" for line in part), end]) for part in parts)
    return re.sub(f"{re.escape(begin)}.*?{re.escape(end)}", lambda _: next(waiting), text, flags=re.S)


def faces(header):
    """Each file, as the header wants it."""
    return {PYTHON: within(read(PYTHON), "# ", python_of(header)), RUST: "".join(f"{line}\n" for line in rust_of(header)),
            MANUAL: within(read(MANUAL), '.\\" ', names_of(header), synopsis_of(header))}


def main(*words):
    others = {path: text for path, text in faces(read(HEADER)).items() if text != read(path)}
    for path, text in others.items():
        print(f"{path}: other than {HEADER}: python3 -m tools.faces" if words else f"{path} is written")
        if not words:
            write(path, text)
    return int(bool(words and others))


if __name__ == "__main__":
    sys.exit(main(*sys.argv[1:]))
