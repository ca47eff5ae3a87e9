"""Kills `strip` of 500 files, `ld` over its own input, and the recipes of v7(1) for both, each at 100 moments that are random, but the same in
each run. What is lost may be no more than v7(1) says: the file that is written. Of that a beginning of the new file is there; files before it
are new, and those after it old. Of the recipes nothing is lost.

tier: check, 60 seconds; programs: v7; for: man/v7.1 crates/host
"""
import os
import random
import re
import signal
import subprocess
import tempfile
import time

from tests.lib.compare import notices, same
from tests.lib.files import TOP, new_folder, read, read_bytes, write
from tests.lib.objects import pack
from tests.lib.programs import program

FILES, MOMENTS = 500, 100


def object_of(words, *names):
    """An object with as many words of text, and symbols of text."""
    return pack([(0o240, 0)] * words, symbols=[(name.encode(), 0o42, 0) for name in names])


def recipes():
    """The commands of v7(1) that lose nothing."""
    parts = re.findall(r"^\.Ss \w+ without risk$(.*?)(?=^\.Ss )", read(f"{TOP}/man/v7.1"), re.M | re.S)
    displays = re.findall(r"^\.Bd -literal.*?\n(.*?)^\.Ed$", "".join(parts), re.M | re.S)
    return ["; ".join(re.findall(r"^\$ (?!v7 nm)(.*)$", it, re.M)).replace("v7 ", f"{program('v7')} ") for it in displays]


def state(files):
    return {name: read_bytes(name) for name in files}


def run(command, before, seconds=None):
    """The files after a command, which is killed after some seconds with all that it has begun, and how long it took."""
    for name, data in before.items():
        if not os.path.exists(name) or read_bytes(name) != data:
            write(name, data)
    begun = time.monotonic()
    with subprocess.Popen(["sh", "-c", command], stdout=subprocess.PIPE, stderr=subprocess.STDOUT, start_new_session=True) as running:
        try:
            running.communicate(timeout=seconds)
        except subprocess.TimeoutExpired:
            os.killpg(running.pid, signal.SIGKILL)
            # all that have the pipe have ended
            running.communicate()
    return state(before), time.monotonic() - begun


def check_lost(what, before, after, came, most):
    """Files that are written in order are new, then one may be cut, and then they are old; the others are as before. How many are cut."""
    kinds = ["new" if came[name] == after[name] else "old" if came[name] == before[name] else "cut" if after[name].startswith(came[name])
             else "neither" for name in before if before[name] != after[name]]
    same(f"{what}: files that are written", kinds, sorted(kinds, key=["new", "cut", "old", "neither"].index))
    same(f"{what}: other files", [name for name in before if before[name] == after[name] != came[name]], [])
    same(f"{what}: whether more are lost than v7(1) says", kinds.count("cut") > most or "neither" in kinds, False)
    return kinds.count("cut")


def check(what, command, before, most):
    """Kills a command at random moments: in how many of them a file was lost."""
    choice = random.Random(1979)
    with new_folder():
        runs = [run(command, before) for _ in range(3)]
        after, taken = runs[0][0], max(it[1] for it in runs)
        same(f"{what}: whether it writes a file", before != after, True)
        return sum(check_lost(what, before, after, run(command, before, choice.random() * taken)[0], most) for _ in range(MOMENTS))


def main():
    v7, files = program("v7"), {f"{number:03}.out": object_of(50, "_main", f"n{number}") for number in range(FILES)}
    link = {"main.o": object_of(20000, "_main"), "count.o": object_of(12000, "_count")}
    # a kill loses nothing of what the system has, so memory serves as a disk
    tempfile.tempdir = "/dev/shm" if os.access("/dev/shm", os.W_OK) else None
    notices(check_lost, "planted", {"a": b"old"}, {"a": b"new"}, {"a": b"n"}, 0)
    notices(check_lost, "planted", {"a": b"old", "b": b"old"}, {"a": b"new", "b": b"new"}, {"a": b"old", "b": b"new"}, 1)
    lost = [check("strip", f"exec {v7} strip {' '.join(files)}", files, 1), check("ld", f"exec {v7} ld -o main.o main.o count.o", link, 1)]
    for command in recipes():
        few = dict(list(files.items())[:3]) if "*.out" in command else {}
        check(command, command, {"program": object_of(20000, "_main", "old"), **link, **few}, 0)
    print(f"of {MOMENTS} moments at which they were killed strip lost a file at {lost[0]}, ld at {lost[1]}, and {len(recipes())} recipes none")


if __name__ == "__main__":
    main()
