"""Plants the bugs of tests/cases/PLANTED.md, each alone, and plays the cases with it. As many are tried side by side as there are
processors.

usage: python3 -m tests.cases.planted [BUG ..]    tries the bugs of all rows, or these; an error if a case that the row names does not fail,
                                    or if one of them fails without a bug
       python3 -m tests.cases.planted -c          looks only whether each edit fits the code, and the table the edits and the cases

A row has the text that changes. The rows of tests/programs/largest.py count as cases. The bug is made in a copy of the sources, and programs are compiled there
without proof: those that use its crate, one after another, as long as a case that the row names does not fail. The other programs are
those without a bug, in build/test. libv7 counts as a program.

tier: text, 1 seconds; words: -c; for: crates tests/cases
"""
import glob
import os
import re
import shutil
import sys
import tempfile
from concurrent.futures import ThreadPoolExecutor
from typing import NamedTuple

from tests.lib.compare import same
from tests.lib.files import TOP, read, write
from tests.lib.programs import PROGRAMS, ran
from tests.lib.rattle import below, crates_in
from tests.lib.tally import Failed
from tests.programs import largest
from tests.wrong_bodies import edits
from tools.compiling import compile_program
from tools.sketch import compile_library

PAGE = "tests/cases/PLANTED.md"
ROW = re.compile(r"^\| `(\w+)` \| [^`|]*(?:`[^`]*`[^`|]*)*\| `([\w/.]+)` \| `(.*)` becomes `(.*)` \| (.*) \|$")
# what largest.py prints, whether it finds something or not
PRINTED = re.compile(r"^[01] of 1 answers .*\n\Z", re.M)
# what is compiled, and the crate of each
COMPILED = {**PROGRAMS, "libv7": "libv7"}
# the programs without a bug
GOOD = os.path.join(TOP, "build", "test")
# for a command of a case, on a machine with other work too
SECONDS = "300"
# a compilation takes a processor and a gigabyte
SIDE_BY_SIDE = len(os.sched_getaffinity(0))


class Row(NamedTuple):
    """A bug, its file below crates, the text that changes with what it becomes, and the cases that have to fail with it."""
    bug: str
    where: str
    old: str
    new: str
    cases: list


def rows_of(table, runs):
    """The rows of a table of tests/programs/largest.py: for each its command, and the programs that it runs, as a case has them."""
    return {f"largest.py: {name}, {kind}": (["tests.programs.largest", f"{name}, {kind}"], runs(name))
            for name, _, kinds in table for kind in kinds}


# what counts as a case; a listing is read back by v7-object
SCRIPTS = {
    **rows_of(largest.TABLE, lambda name: f"$ {name}\n" + "$ v7-object\n" * (name == "v7-explain")),
    **rows_of(largest.CALLS, lambda _: "$ libv7\n"),
}


def rows():
    """The bugs of the table."""
    found = filter(None, map(ROW.match, read(f"{TOP}/{PAGE}").split("\n")))
    return [Row(row[1], row[2], row[3], row[4], re.findall(r"`([^`]+)`", row[5])) for row in found]


def changed(row):
    """The path of the file that a bug changes, and its text with the bug."""
    crate, _, path = row.where.partition("/")
    try:
        [(path, text)] = edits.changed([(path, row.old, row.new)], f"crates/{crate}").items()
    except edits.Misfit as misfit:
        raise Failed(str(misfit)) from None
    return f"crates/{crate}/{path}", text


def cases():
    """The text of each case, and the programs of what counts as one."""
    texts = {name: runs for name, (_, runs) in SCRIPTS.items()}
    for path in glob.glob(f"{TOP}/tests/cases/data/*.case"):
        for text, name in re.findall(r"^((?:#.*\n)+case (\w+)\n(?:[^#\n].*\n|\n)*)", read(path), re.M):
            texts[name] = text
    return texts


def programs_of(text):
    """The programs that a case runs. A state is that of libv7."""
    found = set(re.findall(r"^\$[\d&]* (\S+)", text, re.M))
    return found | {"libv7"} if re.search(r"^state\b", text, re.M) else found


def failed(folder, texts):
    """Those of these cases, and of what counts as one, that fail with the programs of a folder."""
    found = [name for name in texts if name in SCRIPTS and script_fails(folder, SCRIPTS[name][0])]
    return found + cases_that_fail(folder, {name: text for name, text in texts.items() if name not in SCRIPTS})


def script_fails(folder, words):
    done = ran(sys.executable, "-m", *words, cwd=TOP, env={**os.environ, "LIBV7": os.path.join(folder, "libv7.so"), "V7_BUILD": folder})
    if not PRINTED.search(done.said()):
        raise Failed(done.said())
    return done.status != 0


def cases_that_fail(folder, texts):
    if not texts:
        return []
    with tempfile.NamedTemporaryFile("w", suffix=".case", encoding="ascii") as file:
        file.writelines(texts.values())
        file.flush()
        environment = {**os.environ, "LIBV7": os.path.join(folder, "libv7.so"), "V7_BUILD": folder, "V7_SECONDS": SECONDS}
        said = ran(sys.executable, "-m", "tests.cases.cases", file.name, cwd=TOP, env=environment).said()
    names = re.findall(r"^ok (\w+)", said, re.M) + re.findall(rf"^{file.name}:\d+: (\w+): ", said, re.M)
    if sorted(names) != sorted(texts) or re.search(r": build/\S+ is missing$", said, re.M):
        raise Failed(said)
    return [name for name in texts if not re.search(rf"^ok {name}$", said, re.M)]


def sources(top, path, text):
    """Copies the sources, with one file changed."""
    shutil.copy(os.path.join(TOP, "crates.txt"), top)
    for source in glob.glob(os.path.join(TOP, "crates", "*", "src")):
        shutil.copytree(source, os.path.join(top, os.path.relpath(source, TOP)))
    write(os.path.join(top, path), text)


def failing(row, texts):
    """Those of these cases that fail with a bug."""
    (path, text), uses = changed(row), crates_in(TOP)
    crate = path.split("/")[1]
    using = [name for name in COMPILED if crate in below(COMPILED[name], uses)]
    counts = {name: sum(name in programs_of(text) for text in texts.values()) for name in using}
    reached = sorted(filter(counts.get, using), key=lambda name: -counts[name])
    with tempfile.TemporaryDirectory() as top:
        sources(top, path, text)
        folder = os.path.join(top, "build")
        shutil.copytree(GOOD, folder, ignore=shutil.ignore_patterns("*.compiled"))
        found = []
        for program in reached:
            compile_one(top, program, folder)
            found = failed(folder, texts)
            if len(found) == len(texts):
                break
        return found


def compile_one(top, name, folder):
    """Compiles a program or libv7 of the sources at `top`."""
    if name == "libv7":
        compile_library(top, folder)
    else:
        compile_program(top, name, folder)


def programs(names):
    """Compiles programs without a bug."""
    os.makedirs(GOOD, exist_ok=True)
    with ThreadPoolExecutor(SIDE_BY_SIDE) as pool:
        list(pool.map(lambda name: compile_one(TOP, name, GOOD), names))


def check_table():
    """Whether each edit fits the code, and each case of a row is there."""
    table, there = rows(), cases()
    planted = Row("planted", "v7/src/main.rt", "planted", "", ["planted"])
    same("how many faults a row has that is planted", len([*faults_of(planted, there)]), 2)
    faults = [fault for row in table for fault in faults_of(row, there)]
    print(f"{PAGE} has {len(table)} bugs", *faults, sep="\n")
    return bool(faults) or not table


def faults_of(row, there):
    """What is wrong with a row of the table: cases that are not there, and an edit that does not fit."""
    yield from (f"{row.bug}: no case {name}" for name in row.cases if name not in there)
    if not row.cases:
        yield f"{row.bug}: no case"
    try:
        changed(row)
    except Failed as fault:
        yield f"{row.bug}: {fault}"


def try_row(row, there):
    """Plants a bug: what is wrong, if not all cases fail that its row names."""
    try:
        found = failing(row, {name: there[name] for name in row.cases})
    except Failed as fault:
        return str(fault)
    passed = [name for name in row.cases if name not in found] if row.cases else ["no case is named"]
    return "not found: " + ", ".join(passed) if passed else None


def try_rows(table):
    """Plants the bugs, after the cases are played without one: whether all wanted cases fail, and without a bug none."""
    there = cases()
    wanted = {name: there[name] for row in table for name in row.cases}
    faults = 0
    programs(set().union(*map(programs_of, wanted.values())))
    with ThreadPoolExecutor(SIDE_BY_SIDE) as pool:
        good = pool.submit(failed, GOOD, wanted)
        tried = pool.map(lambda row: try_row(row, there), table)
        passed = good.result()
        print(f"{len(wanted)} cases without a bug: {'failed: ' + ', '.join(passed) if passed else 'as expected'}", flush=True)
        faults += bool(passed)
        for row, fault in zip(table, tried):
            print(f"{row.bug}: {fault or 'found'}", flush=True)
            faults += bool(fault)
    print(f"{len(table)} bugs planted, {faults} faults")
    return faults


def main(words):
    if words == ["-c"]:
        return check_table()
    table = [row for row in rows() if not words or row.bug in words]
    return 1 if not table or try_rows(table) else 0


if __name__ == "__main__":
    sys.exit(main(sys.argv[1:]))
