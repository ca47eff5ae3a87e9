"""Runs a test, and keeps the commands that it runs: with each its input, and the files of its folder.

usage: python3 -m tests.measure.recording MODULE [ARGUMENT ..]

The folder RECORDED then has MODULE.commands, with a line of JSON for each command, and `files`, with the contents of files by their
digests. A command of a shell is not kept, and neither is one in the repository's own folder, or with large files; of many files only those
that the command names."""
import glob
import hashlib
import json
import os
import runpy
import subprocess
import sys

from tests.lib.files import TOP, read_bytes, write
from tests.lib.programs import BUILD, PROGRAMS

RECORDED = f"{TOP}/build/measure/recorded"
MOST_FILES, MOST_BYTES = 60, 1_000_000


def digest(data):
    return hashlib.sha256(data).hexdigest()[:24]


def keep(module, words, at, given):
    """Keeps a command of a test that works in the folder `at`."""
    if os.path.samefile(at, TOP):
        return
    named = {os.fsdecode(it) for it in words[1:]}
    found = glob.glob("**", root_dir=at, recursive=True, include_hidden=True)
    paths = [it for it in found if os.path.isfile(f"{at}/{it}") and (len(found) <= MOST_FILES or it in named)]
    if sum(os.path.getsize(f"{at}/{it}") for it in paths) > MOST_BYTES:
        return
    contents = {it: read_bytes(f"{at}/{it}") for it in paths if not os.path.islink(f"{at}/{it}")}
    for data in contents.values():
        if not os.path.exists(path := f"{RECORDED}/files/{digest(data)}"):
            write(path, data)
    words = [os.fsencode(it).decode("latin-1") for it in words]
    line = {"words": words, "given": given.decode("latin-1"), "files": {it: digest(data) for it, data in contents.items()}}
    with open(f"{RECORDED}/{module}.commands", "a", encoding="ascii") as file:
        file.write(json.dumps(line, sort_keys=True) + "\n")


def main(module):
    def recorded(words, **how):
        folder, name = os.path.split(os.fsdecode(how.get("executable") or words[0]))
        if folder == os.path.realpath(BUILD) and name in PROGRAMS:
            keep(module, [name, *words[1:]], os.fsdecode(how.get("cwd") or "."), how.get("input") or b"")
        return run(words, **how)

    run, subprocess.run = subprocess.run, recorded
    runpy.run_module(module, run_name="__main__", alter_sys=True)


if __name__ == "__main__":
    del sys.argv[0]
    main(sys.argv[0])
