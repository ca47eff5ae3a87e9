#!/usr/bin/env python3
"""Makes the page: packaging/page.py MODULE.wasm v7.html [TITLE LESSONS OBJECT ..]

Without a title it has the three sets of the examples; with one it has these objects alone. LESSONS may be "".
"""
import base64
import gzip
import json
import os
import sys

sys.path.insert(1, os.path.dirname(os.path.dirname(os.path.abspath(__file__))))
from tests.lib.files import TOP, read, read_bytes, write  # noqa: E402
from tools import faces  # noqa: E402

# the sets of objects, each with its folder
SETS = [("Five small objects", "examples", ["main.o", "twice.o", "k.o", "l.o", "double.o"]),
        ("A program in C", "examples/total", ["total.o", "say.o", "console.o", "low.o", "limit.o"]),
        ("Pointers, bss, commons", "examples/menu", ["menu.o", "stop.o", "room.o", "more.o", "pair.o"])]
SCRIPTS = "session state states lessons rows image layout drawing scene search maps lesson questions handout keys own address steps".split()
HEAD = """<!DOCTYPE html>
<html lang="en">
<head>
<meta charset="utf-8">
<meta name="viewport" content="width=device-width, initial-scale=1">
<title>What a linker does</title>
<style>
"""


def coded(data):
    return base64.b64encode(data).decode()


def set_of(title, lessons, paths):
    objects = [{"path": path, "bytes": coded(read_bytes(path))} for path in paths]
    return {"title": title, "objects": objects, "lessons": read(lessons) if lessons else ""}


def page_of(module, sets):
    """The page with a module and sets of objects. What the faults mean is by v7.h."""
    data = json.dumps(sets, ensure_ascii=False).replace("<", "\\u003c")
    faults = json.dumps(faces.texts_of(read(f"{TOP}/include/v7.h")))
    linker = coded(gzip.compress(read_bytes(module), mtime=0))
    parts = [HEAD, read(f"{TOP}/page/lesson.css"), "</style>\n</head>\n<body>\n", read(f"{TOP}/page/body.html")]
    parts.append(f'<script type="application/json" id="data">\n{data}\n</script>\n')
    parts.append(f'<script type="application/wasm" id="linker">{linker}</script>\n')
    parts.append(f'<script>\n"use strict";\nconst FAULTS = {faults};\n</script>\n')
    parts += [f"<script>\n{read(f'{TOP}/page/{name}.js')}</script>\n" for name in SCRIPTS]
    return "".join([*parts, "</body>\n</html>\n"])


def main(module, file, *words):
    if words:
        return write(file, page_of(module, [set_of(words[0], words[1], words[2:])]))
    module, file = os.path.abspath(module), os.path.abspath(file)
    os.chdir(TOP)
    sets = [set_of(title, f"{folder}/lessons.txt", [f"{folder}/{name}" for name in names]) for title, folder, names in SETS]
    return write(file, page_of(module, sets))


if __name__ == "__main__":
    if len(sys.argv) < 3:
        sys.exit(__doc__)
    main(*sys.argv[1:])
