"""Compares what examples/asm.py makes with what GNU's assembler and `v7-from-gnu` made of the same source, byte for byte, and with the
objects that were written by hand; and each of its messages with the line and the column of the mistake. Each listing of examples makes
the object of its name.

tier: check, 5 seconds; programs: v7-from-gnu v7-object; for: examples crates/gnu_objects crates/listings
"""
import glob
import os
import sys
import tempfile

import asm
from tests.lib.compare import notices, same
from tests.lib.files import TOP, read, read_bytes, write
from tests.lib.programs import program, ran

EXAMPLES = os.path.join(TOP, "examples")


# sources that both assemblers take, and sources whose objects were written by hand with the same order of names
GNU = ["main", "twice", "cstart", "squares"]
BY_HAND = ["main", "twice", "count", "double"]

MISTAKES = [
    ("\tmovv r0, r1\n", "1:2: there is no instruction movv"),
    ("\tclr r0\n\t.skip 2\n", "2:2: there is no instruction or directive .skip"),
    ("\tmov r0\n", "1:2: mov has 2 operands"),
    ("\tclr r0, r1\n", "1:2: clr has 1 operand"),
    ("\tmov 2(r8), r0\n", "1:6: r8 is no register"),
    ("\tjsr 2, x\n", "1:6: 2 is no register"),
    ("\tmov $9, r0\n", "1:6: 9 is no octal number: a decimal one has a point at its end"),
    ("\tmov $x + y, r0\n", "1:6: x + y is no expression"),
    ("\tmov $x +, r0\n", "1:6: a number is expected after +"),
    ("x:\tclr r0\nx:\tclr r1\n", "2:1: x is defined twice"),
    ("\tbr y\n", "1:5: y is no label of this file"),
    ("x:\t.space 1000\n\tbr x\n", "2:5: it is too far for a branch"),
    ("\tjmp 1f\n", "1:6: there is no such label 1"),
    ("\t.data\n\t.byte 1\n\t.word 2\n", "3:8: a word begins at an odd offset: .even is missing"),
    ("\t.byte 1\n\tclr r0\n", "2:2: an instruction begins at an odd offset: .even is missing"),
    ("\t.bss\n\tclr r0\n", "2:2: bss has no instructions"),
    ("\t.comm x\n", "1:2: .comm has 2 operands"),
    ("\t.comm x, y\n", "1:11: y is not a number"),
    ("\t.asciz text\n", '1:9: a text is expected, as "text" or <text>'),
    (". = x\n", "1:5: a place is moved by .=.+N"),
]


def main():
    with tempfile.TemporaryDirectory() as folder:
        for name in GNU + BY_HAND:
            stored = os.path.join(EXAMPLES if name in BY_HAND else folder, f"{name}.o")
            if name in GNU:
                ran(program("v7-from-gnu"), os.path.join(EXAMPLES, f"{name}.gnu"), stored)
            made = asm.assembled(read(os.path.join(EXAMPLES, f"{name}.s")))
            same(f"{name}.s", made, read_bytes(stored))
            notices(same, f"{name}.s", made, read_bytes(stored)[:-1])
        for listing in glob.glob(f"{EXAMPLES}/*.lst") + glob.glob(f"{EXAMPLES}/total/*.lst"):
            same(listing, ran(program("v7-object"), listing, f"{folder}/listed").texts(), (0, "", ""))
            if os.path.exists(listing[:-3] + "o"):
                same(listing, read_bytes(f"{folder}/listed"), read_bytes(listing[:-3] + "o"))
        for source, wanted in MISTAKES:
            path = os.path.join(folder, "mistake.s")
            write(path, source)
            came = ran(sys.executable, os.path.join(EXAMPLES, "asm.py"), path).texts("utf-8")
            same(repr(source), (*came, os.path.exists(path[:-2] + ".o")), (1, "", f"{path}:{wanted}\n", False))
    print(f"{len(GNU) + len(BY_HAND)} objects and {len(MISTAKES)} mistakes of examples/asm.py were compared")


if __name__ == "__main__":
    main()
