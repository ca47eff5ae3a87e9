"""Plays cases, docs/CASES.md, with the built programs, in real folders and through real pipes.

usage: python3 -m tests.cases.cases [FILE ..]      plays these files, or all of tests/cases
       python3 -m tests.cases.cases -s             compares the samples, and the data of stored runs, with examples/
       python3 -m tests.cases.cases -b             plays the wrong cases of data/false.words: each fails with the error of its first line
       python3 -m tests.cases.cases -p             plays all with the programs of a package: skips parts that watch a program, and states

Parts with `refuse memory` are skipped too for a program that tools/compiling.py has made: a script starts it, and it has its own malloc.
The programs are in build/, or in the folder V7_BUILD. A command has 60 seconds, or V7_SECONDS.

tier: text, 1 seconds; words: -s; for: tests/cases/data examples
tier: test, 20 seconds; programs: v7 v7-explain v7-object v7-from-gnu v7-origin libv7.so; words: -b; for: tests/cases docs/CASES.md
tier: check, 120 seconds; programs: v7 v7-explain v7-object v7-from-gnu v7-origin libv7.so;
 for: tests/cases docs/CASES.md tests/lib/faults
tier: check, 20 seconds; programs: v7 v7-explain v7-object v7-from-gnu v7-origin libv7.so; words: -b; for: tests/cases docs/CASES.md
"""
import collections
import glob
import os
import re
import subprocess
import sys
import tempfile

from tests.cases.case_files import SAMPLES, contents, make, sample, sample_path
from tests.cases.case_format import Mistake, cases_in, encoded, read_case
from tests.lib.compare import notices, same
from tests.lib.files import TOP, read_bytes, write
from tests.lib.programs import BUILD, ran, v7
from tests.lib.watching import NotWatched, Watch, is_memory

# how long a command may take
SECONDS = int(os.environ.get("V7_SECONDS") or 60)


def shown(data, most=120):
    """Bytes as text."""
    plain = "".join(chr(byte) if 32 <= byte < 127 and byte != 92 else f"\\{byte:03o}" for byte in data[:most])
    return plain + (f".. ({len(data)} bytes)" if len(data) > most else "")


def shown_line(data):
    return shown(data[:-1]) if data.endswith(b"\n") else shown(data) + "  without a newline"


def differ(line, what, expected, came):
    return Mistake(line, f"{what}\n  wanted: {expected}\n  came:   {came}")


# --- what came of a command

def lines_in(data):
    """The lines of bytes, each with its newline."""
    return [line for line in re.split(b"(?<=\n)", data) if line]


def check_output(line, what, expected, came):
    """Compares what was written to a stream, line by line. The text `..` stands for all lines before the next one that is expected, or to
    the end."""
    lines, at, is_skipping = lines_in(came), 0, False
    for place, text in ((place, part) for place, text in expected for part in lines_in(text)):
        if text == b"..":
            is_skipping = True
            continue
        first = at
        while is_skipping and at < len(lines) and lines[at] != text:
            at += 1
        if at == len(lines) or lines[at] != text:
            is_there = first < len(lines)
            raise differ(place, what, shown_line(text), shown_line(lines[first]) if is_there else "no further line")
        at, is_skipping = at + 1, False
    if at < len(lines) and not is_skipping:
        raise differ(line, what, "no further line", shown_line(lines[at]))


def excerpt(data, at):
    return f"{len(data)} bytes, from byte {at} on: {data[at:at + 16].hex(' ', 2) or 'none'}"


def check_bytes(item, expected, came):
    if expected != came:
        at = len(os.path.commonprefix([expected, came])) // 2 * 2
        raise differ(item.line, os.fsdecode(item.arguments[0]), excerpt(expected, at), excerpt(came, at))


def check_files(step, before, after):
    described = {item.arguments[0] for item in step.files}
    for item in step.files:
        name = item.arguments[0]
        if name not in after:
            raise Mistake(item.line, f"{os.fsdecode(name)} is not there")
        check_bytes(item, contents(item, {other: data for other, data in after.items() if other != name}), after[name])
    for name in sorted((before.keys() | after.keys()) - described):
        if before.get(name) != after.get(name):
            how = "has gone" if name not in after else "has changed" if name in before else "has appeared"
            raise Mistake(step.line, f"{os.fsdecode(name)} {how}, and no line describes it")


# --- commands

def snapshot(directory):
    """The files of a folder and of those in it, by their paths from there."""
    files, top = {}, os.fsencode(directory)
    for at, _, names in os.walk(top):
        for path in (os.path.join(at, name) for name in names):
            files[os.path.relpath(path, top)] = read_bytes(path)
    return files


def run(line, words, directory, given=b"", environment=None):
    """Runs a command, of this line, and returns what came of it."""
    name = os.fsdecode(words[0])
    path = os.path.join(BUILD, name)
    if not os.access(path, os.X_OK):
        raise Mistake(line, f"build/{name} is missing")
    try:
        return ran(*words, given=given, seconds=SECONDS, executable=path, cwd=directory, env=environment or {})
    except subprocess.TimeoutExpired:
        raise Mistake(line, f"it does not end within {SECONDS} seconds") from None


def planned(item):
    """The plan of a line, in the words of tests/lib/watching.py."""
    if item.word == "refuse":
        return b"refuse", b" ".join(word if isinstance(word, bytes) else str(word).encode() for word in item.arguments)
    word, name, _, count = item.arguments
    return word.encode(), name, str(count).encode()


def watched(line, words, plans, directory, given):
    """Runs a command that is watched, and returns what came of it and what it asked for."""
    plans = {item.line: planned(item) for item in plans}
    try:
        watch = Watch(plans.values())
        came = run(line, words, directory, given, watch.environment())
        requests = watch.requests()
    except NotWatched as why:
        raise Mistake(line, str(why)) from None
    for place, plan in plans.items():
        if is_memory(plan[1]) and not watch.is_reached(plan[1]):
            raise Mistake(place, "the command makes fewer requests for memory")
    return came, requests


def play_command(step, line, words, plans, directory):
    """Runs a command, of whose requests some are refused, and checks what comes of it."""
    before = snapshot(directory)
    given = b"".join(text for _, text in step.given)
    if step.asked or plans:
        came, requests = watched(line, words, plans, directory, given)
    else:
        came, requests = run(line, words, directory, given), []
    check_output(line, "standard error", step.error, came.err)
    check_output(line, "standard output", step.output, came.out)
    if came.status != step.status:
        raise differ(line, "status", step.status, came.status)
    check_files(step, before, snapshot(directory))
    place, asked = step.asked or (line, requests)
    if requests != asked:
        raise differ(place, "asked", shown(b", ".join(asked), 2000), shown(b", ".join(requests), 2000))


# --- states of sessions

def forced_in(words):
    """The names that edits force, each after -u, and the other edits."""
    names, words = [], list(words)
    while words[:1] == [b"-u"] and len(words) > 1:
        names.append(words[1])
        words = words[2:]
    return names, words


def printable(name):
    """A name as v7 prints it; the empty one is \\000."""
    return "".join(char if "!" <= char <= "~" and char != "\\" else f"\\{ord(char):03o}" for char in name or "\0")


def word_line(word):
    """A word, whether it is relative to pc, and what it refers to or waits for."""
    target = {"number": "a number", "external": f"waits for {printable(word.get('name', ''))}"}.get(word["target"], word["target"])
    return f"{word['value']:06o} {'pc' if word['pc'] else '  '}  {target}"


def external_line(external):
    """What is known of an external."""
    kind, value = external["state"], external["value"]
    if kind == "common":
        return f"a common of {value} bytes"
    return kind if kind == "undefined" else f"{'the number' if kind == 'number' else kind} {value:06o}"


def mark_line(mark):
    if "name" in mark:
        return f"mark {printable(mark['name'])} was {external_line(mark['was'])}"
    return f"mark {mark['segment']} {mark['offset']:06o} was {word_line(mark['was'])}"


def lines_of(state):
    """What a session shows, as lines."""
    lines = [] if state["objects"] else ["nothing"]
    lines += [f"{part} {word['offset']:06o}  {word_line(word)}" for part in ("text", "data") for word in state[part]]
    lines += [f"bss {state['bss']} bytes"] * (state["bss"] > 0)
    lines += [f"name {printable(external['name'])}: {external_line(external)}" for external in state["externals"]]
    lines += [f"name {printable(name)}: multiply defined" for name in state["multiples"]]
    return lines + [mark_line(mark) for mark in state["marks"]]


def edit(item, session, word, files):
    """Makes an edit of a session. To withdraw from one without objects changes nothing."""
    try:
        if word == b"-":
            session.withdraw()
        elif word[:1] == b"+" and word[1:] in files:
            session.add(files[word[1:]])
        else:
            raise Mistake(item.line, f"this edit cannot be made: {shown(word)}")
    except v7.Fault as fault:
        if word != b"-":
            raise Mistake(item.line, f"this edit cannot be made: {shown(word)}: {fault}") from None


def play_state(item, files):
    """Compares what a session of libv7 shows after the edits of a line."""
    names, edits = forced_in(item.arguments)
    with v7.Session(forced=[name[:8].decode("latin-1") for name in names]) as session:
        for word in edits:
            edit(item, session, word, files)
        lines = lines_of(session.state())
    expected = [(line, encoded(line, text)) for line, text in item.block]
    check_output(item.line, "state", expected, "".join(f"{line}\n" for line in lines).encode("latin-1"))


def files_of(part):
    """The files before the commands. Listings after the commands are read too, so that a bad one is found before the part is played."""
    folder = {}
    for item in part.files_before:
        make(item, folder)
    for item in (item for step in part.steps for item in step.files):
        if item.word == "listing":
            contents(item, folder)
    return folder


def play_states(part, place, directory):
    """Plays the states that come after this number of commands."""
    for item in part.plans:
        if item.word == "state" and item.place == place:
            play_state(item, snapshot(directory))


def play_part(part, folder):
    with tempfile.TemporaryDirectory() as directory:
        for name, data in folder.items():
            write(os.path.join(os.fsencode(directory), name), data)
        for place, step in enumerate(part.steps):
            play_states(part, place, directory)
            for line, words in step.commands:
                play_command(step, line, words, [item for item in part.plans if item.word != "state" and item.place <= place], directory)
        play_states(part, len(part.steps), directory)


# --- cases

def is_script(program):
    path = os.path.join(BUILD, os.fsdecode(program))
    return os.path.exists(path) and read_bytes(path).startswith(b"#!")


def reason(part, is_packaged):
    """Why a part is not played with these programs, or None."""
    if is_packaged and any(plan.word == "state" for plan in part.plans):
        return "states of sessions"
    if is_packaged and (part.plans or any(step.asked for step in part.steps)):
        return "requests that are watched"
    refuses_memory = any(plan.word == "refuse" and plan.arguments[0] == "memory" for plan in part.plans)
    return "requests for memory" if refuses_memory and any(is_script(words[0]) for step in part.steps for _, words in step.commands) else None


class Run:
    """All cases of a run, and what came of them."""

    def __init__(self, is_packaged):
        self.is_packaged = is_packaged
        self.names = {}
        self.played = self.in_part = self.bad = 0
        self.skipped = collections.Counter()

    def play(self, case):
        reasons = []
        for part in case.parts:
            why, folder = reason(part, self.is_packaged), files_of(part)
            if why:
                reasons.append(why)
            else:
                play_part(part, folder)
        if len(reasons) == len(case.parts):
            self.skipped[reasons[0]] += 1
            print(f"skipped {case.name}: {reasons[0]}")
        else:
            self.played += 1
            self.in_part += bool(reasons)
            print(f"ok {case.name}" + (f", but not all: {reasons[0]}" if reasons else ""))

    def take(self, name, lines):
        """Reads a case and plays it."""
        try:
            case = read_case(lines)
            if case.name in self.names:
                raise Mistake(case.line, f"a second case {case.name}; the first: {self.names[case.name]}")
            self.names[case.name] = f"{name}:{case.line}"
            self.play(case)
        except Mistake as mistake:
            self.bad += 1
            known = next((text[5:] for _, text in lines if text.startswith("case ")), "no case")
            print(f"{name}:{mistake.line}: {known}: {mistake.text}")

    def file(self, name):
        try:
            cases = cases_in(name)
        except OSError:
            cases = []
        for lines in cases:
            self.take(name, lines)
        if not cases:
            self.bad += 1
            print(f"{name}:1: no such file, or no case in it")

    def summary(self):
        skipped = "".join(f", {count} for {why}" for why, count in sorted(self.skipped.items()))
        if self.in_part or self.skipped:
            skipped = f"; {self.in_part} of them in part; {sum(self.skipped.values())} skipped{skipped}"
        print(f"{self.played} cases played{skipped}; {self.bad} failed")


def check_samples():
    """The samples, and the data of stored runs, are those of examples, if these have such a file."""
    names = {os.path.basename(path).replace(".lst", ".o") for path in glob.glob(os.path.join(SAMPLES, "*"))}
    found = {name: sample(0, name) for name in names if sample_path(name)}
    found.update((path, read_bytes(path)) for path in glob.glob(f"{TOP}/crates/*/data/*.[ogl]*"))
    examples = {name: f"{TOP}/examples/{os.path.basename(name)}" for name in found}
    known = {name: read_bytes(path) for name, path in examples.items() if os.path.exists(path)}
    notices(compare_samples, {**found, next(iter(known)): b"planted"}, known)
    compare_samples(found, known)
    print(f"{len(known)} samples compared with examples/")


def compare_samples(found, known):
    for name, data in known.items():
        same(name, found[name], data)


def error_of(lines):
    """The error of a case, or nothing."""
    try:
        for part in read_case(lines).parts:
            play_part(part, files_of(part))
    except Mistake as mistake:
        return mistake.text.split("\n")[0]
    return "none"


def check_false():
    """Plays the wrong cases."""
    cases = cases_in(os.path.join(SAMPLES, "false.words"))
    for lines in cases:
        same(f"false.words:{lines[0][0]}: the error", error_of(lines), lines[0][1][2:])
    print(f"{len(cases)} wrong cases fail, each with its own error")


def main(words):
    if words == ["-s"]:
        return check_samples()
    if words == ["-b"]:
        return check_false()
    is_packaged = words[:1] == ["-p"]
    all_cases, files = Run(is_packaged), words[is_packaged:]
    for name in files or sorted(glob.glob(os.path.relpath(os.path.join(SAMPLES, "*.case")))):
        all_cases.file(name)
    all_cases.summary()
    # a file that is named may have only cases that are skipped
    return 1 if all_cases.bad or not (all_cases.played or files) else 0


if __name__ == "__main__":
    sys.exit(main(sys.argv[1:]))
