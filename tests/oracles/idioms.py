"""Makes objects of the idioms of real assembler text in tests/oracles/data: each says in its first lines what is right about it. Those of
tests/oracles/right are made already, by GNU's assembler and by hand: objects.txt there says what is right about each. `v7 ld` takes each,
and has nothing to report. `v7-explain -c` says nothing of it for sure.

tier: check, 5 seconds; programs: v7 v7-object v7-explain; for: tests/oracles/data examples/asm.py crates/checks
"""
import glob
import os

import asm
from tests.lib.compare import notices, same
from tests.lib.files import TOP, new_folder, read, write
from tests.lib.programs import program, ran
from tests.oracles.notes import DOUBT, checked

IDIOMS = sorted(glob.glob(os.path.join(TOP, "tests/oracles/data/*")))
RIGHT = [f"{TOP}/tests/oracles/right/{line.split()[0]}.o" for line in read(f"{TOP}/tests/oracles/right/objects.txt").splitlines()]
# its text is data
RIGHT.append(f"{TOP}/examples/k.o")


def made(path):
    """The name of the object of an idiom, which is made here: of a source by examples/asm.py, of a listing by v7-object."""
    name, kind = os.path.splitext(os.path.basename(path))
    if kind == ".lst":
        same(f"v7-object {name}", ran(program("v7-object"), path, f"{name}.o").texts(), (0, "", ""))
    else:
        write(f"{name}.o", asm.assembled(read(path)))
    return f"{name}.o"


def check(path):
    same(f"ld of {path}", ran(program("v7"), "ld", "-r", "-o", "linked", path).texts(), (0, "", ""))
    same(f"v7-explain -c of {path}", [line for line in checked([path])[path] if DOUBT not in line], [])


def main():
    for path in [made(path) for path in IDIOMS] + RIGHT:
        check(path)
    write("damaged.o", b"\1")
    notices(check, "damaged.o")
    print(f"{len(IDIOMS) + len(RIGHT)} idioms are objects that ld takes, and of which -c says nothing for sure")


if __name__ == "__main__":
    with new_folder():
        main()
