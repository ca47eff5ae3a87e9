"""Refuses one request for memory after another to each program, alone and with all after it, and judges what comes of it.
tests/libv7/c/calls.c does the same with the calls of libv7.

usage: python3 -m tests.programs.memory [CALL ..]      all calls of the table, or these: 'v7 nm'
tier: check, 90 seconds; programs: v7 v7-explain v7-object v7-from-gnu v7-origin; for: crates/host tests/lib/watch.c

A call is run as it is, and then with its first request refused, with its second, and so on, until a run makes fewer requests; and with
each of them and all after it. For each call a line has their number, and how many of the runs came out as if nothing had been refused. In
any other run the answer has to be `no memory`, in its place:

- The status is 2, and the line of the fault is all of standard error. Standard output has the answers for the files before.
- Nothing is stored, and each file is as it was.
- A session answers a line by `no memory`, and goes on as if that line were not there. A withdrawal is made whatever is refused. If
  there is no memory for the line itself, the session ends with the fault, so with all later requests refused it ends at the next path.
  What came before it is done.
- A later request is not refused at an earlier place.
"""
import os
import re
import sys
import tempfile
from dataclasses import dataclass, field

from tests.cases.case_files import sample
from tests.cases.cases import snapshot
from tests.lib.compare import Differs, notices, same
from tests.lib.files import TOP, read_bytes, write
from tests.lib.programs import FAULTS, program, ran
from tests.lib.watching import Watch

SECONDS = 60
NO_MEMORY = FAULTS["memory"].encode() + b"\n"


@dataclass
class Call:
    """A command, the files that it needs, and its input. Each answer for a file begins as `begins` has it. Without that there is one
    answer."""
    name: str
    words: list
    files: dict
    begins: bytes = rb"\A"
    script: list = field(default_factory=list)


@dataclass
class Result:
    """What came of a run, with the files of the folder after it, and whether a request of it was refused."""
    status: int
    output: bytes
    error: bytes
    files: dict
    was_refused: bool = field(compare=False)


# --- the calls

def example(name):
    return read_bytes(os.path.join(TOP, "examples", name))


def examples(*names):
    return {os.fsencode(os.path.basename(name)): example(name) for name in names}


def samples(*names):
    return {name: sample(0, name) for name in names}


OBJECTS = examples("main.o", "twice.o", "count.o")
COMMONS = samples(b"k.o", b"c.o", b"d.o")
LINKED = bytes.fromhex("07010e00000002000000000000000100c01d0a00f70902008700c00c8700")
GNU = examples("main.gnu", "twice.gnu", "squares.gnu")
SCRIPT = ["add main.o", "add k.o", "undefined", "withdraw", "add twice.o", "link half", "add count.o", "externals", "link whole",
          "withdraw", "withdraw", "add count.o", "add none.o", "link again"]


def calls():
    """Each call once, of few and small files."""
    objects = [*map(os.fsdecode, OBJECTS)]
    yield Call("v7 ld", ["v7", "ld", "-o", "out", "-e", "_main", *objects, "k.o"], {**OBJECTS, **COMMONS})
    yield Call("v7 ld -r -u", ["v7", "ld", "-r", "-d", "-X", "-u", "_z", "-o", "out", "c.o", "k.o"], COMMONS)
    yield Call("v7 ld, a report", ["v7", "ld", "-i", "-o", "out", "main.o", "main.o"], OBJECTS)
    yield Call("v7 nm", ["v7", "nm", *objects], OBJECTS, rb"(?m)^\S+:$")
    yield Call("v7 nm -p -r", ["v7", "nm", "-pr", "main.o", "d.o"], {**OBJECTS, **COMMONS}, rb"(?m)^\S+:$")
    yield Call("v7 size", ["v7", "size", *objects], OBJECTS, rb"(?m)^")
    yield Call("v7 strip", ["v7", "strip", *objects], OBJECTS)
    yield Call("v7 session", ["v7", "session", "-d"], {**OBJECTS, **COMMONS}, script=SCRIPT)
    yield Call("v7 session -r -u", ["v7", "session", "-r", "-u", "_z"], {**OBJECTS, **COMMONS}, script=SCRIPT)
    listed = {**OBJECTS, **examples("total/say.o")}
    for letter in "", "-c", "-d", "-p", "-s", "-l":
        yield Call(f"v7-explain {letter}".rstrip(), ["v7-explain", *letter.split(), "main.o", "say.o"], listed)
    yield Call("v7-explain -o", ["v7-explain", "-o", "out", "say.o"], listed)
    yield Call("v7-explain -l -R", ["v7-explain", "-l", "-R", "in"], {b"in/a.o": example("main.o"), b"in/b/c.o": example("total/say.o")})
    yield Call("v7-explain -m", ["v7-explain", "-m", "-y", "_count", "main.o", "twice.o", "k.o"], {**OBJECTS, **COMMONS})
    yield Call("v7-object", ["v7-object", "main.lst", "out"], examples("main.lst"))
    yield Call("v7-origin", ["v7-origin", "-o", "out", "-R", "in", "program", *objects],
               {**OBJECTS, b"program": LINKED, b"in/a.o": example("total/say.o"), b"in/b": LINKED})
    yield Call("v7-from-gnu", ["v7-from-gnu", "squares.gnu", "out"], GNU)
    yield Call("v7-from-gnu -o", ["v7-from-gnu", "-o", "made", *map(os.fsdecode, GNU)], {**GNU, b"made/old": b""})


# --- runs

class Player:
    """Runs the commands of a call in a folder that has its files before each run."""

    def __init__(self, folder, call):
        self.program = program(call.words[0])
        self.folder, self.call = folder, call
        self.there = {}

    def restore(self):
        """Makes the files as they are before the call."""
        for path in self.there.keys() - self.call.files.keys():
            os.remove(os.path.join(os.fsencode(self.folder), path))
        for path, data in self.call.files.items():
            if self.there.get(path) != data:
                write(os.path.join(self.folder, os.fsdecode(path)), data)

    def run(self, script=None, number=0, rest=b""):
        """What comes of a run that reads this script, or that of the call, and has the request of this number refused, and with `..` all
        after it."""
        self.restore()
        watch = Watch([(b"refuse", b"memory %d%s" % (number, rest))] if number else [])
        lines = "".join(f"{line}\n" for line in (self.call.script if script is None else script))
        how = {"executable": self.program, "cwd": self.folder, "env": watch.environment()}
        done = ran(*self.call.words, given=lines.encode(), seconds=SECONDS, **how)
        watch.requests()
        self.there = snapshot(self.folder)
        return Result(*done, self.there, bool(watch.refused))


# --- what is right

def expect_files(wanted, came):
    others = sorted(path for path in wanted.keys() | came.keys() if wanted.get(path) != came.get(path))
    if others:
        raise Differs(f"files that are other than wanted, or not wanted: {os.fsdecode(b' '.join(others))}")


class Command:
    """Judges the runs of a command by the run in which nothing is refused."""

    def __init__(self, player):
        self.player, self.call = player, player.call
        self.whole = player.run()
        if self.whole.status > 1 or self.whole.was_refused:
            raise Differs(f"status {self.whole.status} although nothing is refused: {self.whole.error!r}")
        self.beginnings = [found.start() for found in re.finditer(self.call.begins, self.whole.output)]

    def place(self, came):
        """Judges a run in which a request was refused: how far it went."""
        same("status", came.status, 2)
        name = self.call.words[0]
        if not re.fullmatch(f"{name}: {FAULTS['memory']}\n", os.fsdecode(came.error)):
            raise Differs(f"standard error: {came.error!r}")
        if not self.whole.output.startswith(came.output) or len(came.output) not in self.beginnings:
            raise Differs(f"standard output has a part of an answer: {came.output[-80:]!r}")
        expect_files(self.call.files, came.files)
        return len(came.output)


class Session(Command):
    """Judges the runs of a session by sessions without one of its lines, or cut before it."""

    def __init__(self, player):
        super().__init__(player)
        script, self.refused, self.ended = self.call.script, {}, {}
        before = [player.run(script[:number]) for number in range(len(script))]
        for number, line in enumerate(script):
            answered = before[number].output
            self.ended.setdefault(answered, (number, before[number].files))
            if line != "withdraw":
                rest = player.run(script[:number] + script[number + 1:])
                self.refused[answered + NO_MEMORY + rest.output[len(answered):]] = (number, rest.files)
                path = next((later for later in range(number + 1, len(script)) if " " in script[later]), len(script))
                ended = player.run(script[:number] + script[number + 1:path])
                self.ended.setdefault(answered + NO_MEMORY + ended.output[len(answered):], (number, ended.files))

    def place(self, came):
        if came.status == 1 and came.output in self.refused:
            number, files = self.refused[came.output]
            same("standard error", came.error, b"")
        elif came.output in self.ended:
            number, files = self.ended[came.output]
            same("status and standard error", (came.status, came.error), (2, b"v7: " + NO_MEMORY))
        else:
            raise Differs(f"status {came.status}, and answers as of no session without a line: {came.output!r}")
        expect_files(files, came.files)
        return number


def refuse_each(player, judge, rest):
    """Refuses one request after another, and with `..` all after it. Returns how many there are, how many runs came out as if nothing had
    been refused, and what was wrong in others."""
    number, alike, last, faults = 1, 0, None, []
    while (came := player.run(number=number, rest=rest)).was_refused:
        try:
            if came == judge.whole:
                alike += 1
            else:
                place = judge.place(came)
                if last is not None and place < last:
                    raise Differs(f"the place {place} comes before {last}")
                last = place
        except Differs as wrong:
            faults.append(f"request {number}{os.fsdecode(rest)}: {wrong}")
        number += 1
    if number == 1 or last is None:
        faults.append("no request was refused")
    return number - 1, alike, faults


def refuse_all(player):
    """Refuses one request after another, alone and with all after it. Returns what `refuse_each` does, with all that was wrong."""
    judge = (Session if player.call.script else Command)(player)
    if not player.call.script:
        notices(judge.place, judge.whole)
    requests, alike, faults = refuse_each(player, judge, b"")
    return requests, alike, faults + refuse_each(player, judge, b"..")[2]


def try_call(call):
    """Refuses the requests of a program, and prints a line for it, and what is wrong: how much that is."""
    with tempfile.TemporaryDirectory() as folder:
        try:
            requests, alike, faults = refuse_all(Player(folder, call))
        except Differs as wrong:
            requests, alike, faults = 0, 0, [str(wrong)]
    print("\n  ".join([f"{call.name}: {requests} requests" + f", {alike} of them not needed" * bool(alike), *faults[:10]]), flush=True)
    return len(faults)


def main(*names):
    faults = sum(try_call(call) for call in calls() if not names or call.name in names)
    print(f"requests for memory refused one after another: {faults or 'no'} faults")
    return 1 if faults else 0


if __name__ == "__main__":
    sys.exit(main(*sys.argv[1:]))
