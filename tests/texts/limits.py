"""Compares the limits that the documents name with the constants of the code that enforce them, and the version of v7.h with that of the
programs and packages. Where a constant, or the number in a document, is another one, the text of the document is not found.

tier: text, 1 seconds; for: crates docs/LINK.md README.md
"""
import re

from installed import version
from tests.lib.compare import notices, same
from tests.lib.files import read

# the file and the name of each constant, and the texts that have its value, in place of {}
LIMITS = [
    ("tool_options/src/forced.rt", "MOST", {
        "docs/LINK.md": "| names after `-u` that differ once they are cut | {} |",
        "man/v7.1": "More than {} different names after",
        "man/v7.3": "More than {} different names are forced;",
        "include/v7.h": "/* more than {} different names are forced;",
    }),
    ("link_session/src/limits.rt", "MOST_BYTES", {
        "docs/LINK.md": "| text, data and bss of all objects, each | {} bytes |",
        "man/v7-ld.1": "With this object the segment would pass {} bytes.",
        "include/v7.h": "/* the text would pass {} bytes in all */",
    }),
    ("link_session/src/limits.rt", "MOST_NAMES", {
        "docs/LINK.md": "| external names of all objects, with the forced ones | {} |",
        "man/v7-ld.1": "With this object there would be more than {} external names.",
        "include/v7.h": "/* there would be more than {} external names */",
    }),
    ("link_out/src/linker.rt", "LAST_ADDRESS", {
        "docs/LINK.md": "with `-i` text does not count | {} |",
        "man/v7-ld.1": "The program would end past {}, the largest number of 16 bits.",
        "include/v7.h": "/* the program would end past {} */",
    }),
    ("link_out/src/kept_symbols.rt", "MOST_ROWS", {
        "docs/LINK.md": "| symbols of a table | {}, which are 65,532 bytes |",
        "man/v7-ld.1": "The table would have more than {} symbols,",
        "man/v7.3": "bss, or {} symbols;",
        "include/v7.h": "/* its table would have more than {} symbols */",
    }),
    ("link_out/src/relocs.rt", "MOST_NUMBER", {
        "docs/LINK.md": "that a word refers to | {} |",
        "man/v7-ld.1": "whose number in the table is over {}: a relocation word can hold",
        "include/v7.h": "a word refers to a name with a number over {} */",
    }),
    ("command_words/src/lines.rt", "LINE_LIMIT", {
        "docs/LINK.md": "lines of a session | {} bytes;",
        "man/v7-session.1": "A line has more than {} bytes before its newline.",
    }),
    ("command_words/src/line_reader.rt", "LINES_LIMIT", {
        "docs/LINK.md": "bytes; {} | `line too long`",
        "man/v7-session.1": "The script goes on after {} lines.",
    }),
    ("aout_core/src/block.rt", "BLOCK_SIZE", {
        "docs/LINK.md": "| what is read or listed at once; what is written to a file | {} bytes;",
    }),
    ("host/src/pieces.rt", "PIECE_SIZE", {
        "docs/LINK.md": "what is written to a file | 512 bytes; {} |",
    }),
    ("v7_explain/src/explaining.rt", "MOST_BYTES", {
        "docs/LINK.md": "; a listing or an object in GNU's form | {} bytes;",
        "man/v7-explain.1": "The file has more than {} bytes,",
    }),
    ("v7_object/src/making.rt", "MOST_BYTES", {
        "man/v7-object.1": "The listing has more than {} bytes.",
    }),
    ("v7_origin/src/reading.rt", "MOST_BYTES", {
        "man/v7-origin.1": "A file has more than {} bytes.",
    }),
    ("v7_origin/src/scanning.rt", "MOST_WORK", {
        "man/v7-origin.1": "The search ends once {} words are compared,",
    }),
    ("v7_from_gnu/src/reading.rt", "MOST_BYTES", {
        "man/v7-from-gnu.1": "The file has more than {} bytes.",
    }),
]

# where the version is
VERSIONS = {"crates/host/src/shown.rt": 'VERSION: &str = "{}";', "packaging/python/v7.py": '__version__ = "{}"',
            "README.md": "version {}, ", "packaging/rust/Cargo.toml": '\nversion = "{}"',
            "packaging/rust/v7-sys/Cargo.toml": '\nversion = "{}"'}


def value_of(path, name):
    """The value of a constant, which its file has once."""
    found = re.findall(rf"^(?:pub(?:\(crate\))? )?const {name}: \w+ = ([0-9_]+);", read(f"crates/{path}"), re.M)
    same(f"crates/{path}: constants {name}", len(found), 1)
    return f"{int(found[0]):,}"


def compare(name, value, texts):
    without = [(page, text) for page, text in texts.items() if text.format(value) not in read(page)]
    same(f"{name}: the documents without {value}", without, [])


def main():
    notices(compare, "the version", version() + ".1", VERSIONS)
    compare("the version", version(), VERSIONS)
    for path, name, texts in LIMITS:
        compare(f"{name} of crates/{path}", value_of(path, name), texts)
    print(f"{len(LIMITS)} limits are in the documents as in the code")


if __name__ == "__main__":
    main()
