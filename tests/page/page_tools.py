"""What the tests of the page share: the programs, the objects that pages are made of, and the comparing."""
import json
import os
import random
import re
import shutil
import subprocess
import sys

import page as pages  # of packaging
from tests.lib.compare import Differs
from tests.lib.files import TOP, read_bytes, write
from tests.lib.objects import pack, unpack
from tests.lib.programs import BUILD, asked, program, ran

LAYOUTS = {"plain": [], "-n": ["-n"], "-i": ["-i"], "-r": ["-r"]}
WORD = 0o200000
PARTS = ("text", "data")
SEGMENTS = ("a number", "text", "data", "bss")


def paths(folder, names):
    return [f"{TOP}/{folder}/{name}" for name in names]


# the objects of the pages of a release: the class example, a program in C with an object that has a fault, and the lessons about pointers,
# bss and the output of -r. And those of a program with words that refer to each segment of their own
CLASS, IN_C, TABLES = (paths(folder, names) for _, folder, names in pages.SETS)
FIVE = paths("examples", ["start.o", "print.o", "main.o", "twice.o", "count.o"])
# a program in C of sixteen files: a calculator without any library, as Debian's Portable C Compiler (the source package pcc,
# 1.2.0~DEVEL+20220331, configured with --target=pdp11-unknown-bsd) and examples/asm.py made it. A file comes before those that it calls
NAMES = "main command line token number parse apply stack name mem list sort error text print start".split()
SIXTEEN = paths("tests/page/data", [f"{name}.o" for name in NAMES])

# takes the first set of a page
OPEN = "() => takeObjects(decodedObjects(SETS[0].objects), SETS[0].lessons)"

faults = []
compared = 0


def same(what, shown, wanted):
    global compared
    compared += 1
    if shown != wanted:
        shown, wanted = str(shown), str(wanted)
        at = max(0, len(os.path.commonprefix([shown, wanted])) - 100)
        faults.append(f"{what}\n  the page: {shown[at:at + 400]}\n  wanted:   {wanted[at:at + 400]}")


def planted():
    """Compares what differs."""
    same("planted", "", "planted")
    if faults:
        raise Differs(faults.pop())


def report(what):
    """Prints how many things were compared, and the first faults; whether there are any."""
    print(f"{compared} things of pages were compared, {what}")
    for fault in faults[:20]:
        print(fault)
    return bool(faults)


def lessons_of(files):
    """The lessons beside objects."""
    return os.path.join(os.path.dirname(files[0]), "lessons.txt")


def words_of(line):
    return " ".join(line.split())


def object_of(words, symbols, data=()):
    """An object of text words with their relocation words, of symbols, and of data without relocation."""
    return pack(words, [(word, 0) for word in data], 0, [(name.encode(), kind, value) for name, kind, value in symbols])


# what a size, an addend and what is known of a name are as texts
def size_said(size):
    return f"0{size:o} ({size}.) bytes"


def addend_said(meant, minus="\u2212"):
    return "" if meant == 0 else f" {minus} {WORD - meant:o}" if meant >= WORD // 2 else f" + {meant:o}"


def known_as(kind, number):
    if kind in ("undefined", "common"):
        return f"a common of {size_said(number)}" if kind == "common" else kind
    return f"{'the number' if kind == 'number' else kind} {number:06o}"


class Scripts:
    """The scripts of a page that need no browser, in node."""

    def __init__(self, path, *flags):
        self.node = subprocess.Popen(["node", *flags, f"{TOP}/tests/page/dump.mjs", path], stdin=subprocess.PIPE, stdout=subprocess.PIPE,
                                     text=True)

    def run(self, script, *words):
        """What a function of JavaScript gives; a fault as {"fault": its message}."""
        self.node.stdin.write(json.dumps([script, *words]) + "\n")
        self.node.stdin.flush()
        return json.loads(self.node.stdout.readline())

    def __enter__(self):
        return self

    def __exit__(self, *_):
        self.node.stdin.close()
        self.node.wait()
        self.node.stdout.close()


class Tools:
    """The programs that the page is compared with."""

    def __init__(self, folder, seed=0):
        self.v7, self.folder, self.seed = program("v7"), folder, seed
        self.module = os.path.join(TOP, BUILD, "v7.wasm")
        if not os.path.exists(self.module):
            if not shutil.which("wasm-opt"):
                print("not run, as wasm-opt is missing: Debian's package is binaryen")
                sys.exit(0)
            sys.exit(f"{self.module} is missing: make page makes it; or, after make quick: make build/quick/v7.html, V7_BUILD=build/quick")

    def page_of(self, files, name="page.html", lessons=""):
        """A page of these objects alone."""
        title = next((title for title, folder, names in pages.SETS if paths(folder, names) == files), "These objects")
        return write(f"{self.folder}/{name}", pages.page_of(self.module, [pages.set_of(title, lessons, files)]))

    def page(self, number):
        """A page and its objects: the class example, a program in C, pointers and bss, sixteen objects, five, five and eight that are joined
        of the sixteen, and a hundred that are copies of these."""
        if number == 7:
            files = [write(f"{self.folder}/{one}.o", read_bytes(SIXTEEN[one % 16])) for one in range(100)]
        else:
            files = [CLASS, IN_C, TABLES, SIXTEEN, FIVE][number] if number < 5 else self.joined({5: 5, 6: 8}[number])
        return self.page_of(files, f"{number}.html", lessons_of(files) if number < 3 else ""), files

    def scripts(self, files, lessons=""):
        """Its scripts, with these objects; and why its lessons are none, or nothing."""
        scripts = Scripts(self.page_of(files, lessons=lessons))
        return scripts, scripts.run(OPEN)

    def joined(self, count):
        """So many objects that `ld -r` makes of the sixteen, which the seed puts into an order."""
        order = random.Random(self.seed).sample(SIXTEEN, len(SIXTEEN))
        groups = [order[len(order) * number // count:len(order) * (number + 1) // count] for number in range(count)]
        return [write(f"{self.folder}/joined{count}-{number}.o", self.bytes_of_link(["-r"], group)) for number, group in enumerate(groups)]

    def nm(self, file):
        return asked(self.v7, "nm", "-p", file)

    def bytes_of_link(self, options, files):
        """The file that a link writes."""
        asked(self.v7, "ld", *options, "-o", f"{self.folder}/linked", *files)
        return read_bytes(f"{self.folder}/linked")

    def link(self, options, files):
        """The words and the header of a link, where data begins, its table as `nm -p` has it, its report; or why it is refused."""
        out = os.path.join(self.folder, "linked")
        status, report, error = ran(self.v7, "ld", *options, "-o", out, *files).texts("utf-8")
        if status == 2:
            return {"refused": error.strip().split(": ", 1)[1]}
        made = unpack(read_bytes(out))
        base = {0o407: made.header[1], 0o410: (made.header[1] + 8191) // 8192 * 8192, 0o411: 0}[made.header[0]]
        return {"header": made.header, "base": base, "segments": {"text": made.text, "data": made.data}, "table": self.nm(out),
                "report": report or "nothing to report\n"}
