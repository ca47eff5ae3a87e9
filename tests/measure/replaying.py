"""Plays recorded commands, and tests that compare by themselves, with mutants (tests/measure/mutants.py), and finds which are noticed."""
import collections
import glob
import hashlib
import itertools
import json
import os
import shutil
import subprocess
import sys

from tests.cases.case_format import Mistake, cases_in, read_case
from tests.cases.cases import check_output
from tests.lib.files import TOP, read, read_bytes, write
from tests.lib.programs import ran
from tests.lib.tally import Failed
from tests.measure.recording import RECORDED, digest

# of the commands of a test that is not of cases, how many are replayed
MOST_REPLAYED = 500
# of the commands that reach a mutant, how many are tried, and how long one may take
MOST_COMMANDS = 150
SECONDS = 5
# tests whose commands are not recorded, and which end at the first difference
SCRIPTS = [[sys.executable, "-m", "tests.programs.terminal"], [sys.executable, "-m", "tests.programs.folders"],
           ["sh", "tests/programs/streams.sh"]]


def excerpts():
    """The steps of cases that show an excerpt of an output, by their commands and their input."""
    found = collections.defaultdict(list)
    for case in (read_case(lines) for path in glob.glob(f"{TOP}/tests/cases/data/*.case") for lines in cases_in(path)):
        for step in (step for part in case.parts for step in part.steps):
            if any(text == b".." for _, text in step.output + step.error):
                for _, words in step.commands:
                    found[b"\0".join([*words, b"".join(text for _, text in step.given)])].append(step)
    return found


def agrees(step, done):
    """Whether outputs are as a case has them."""
    try:
        check_output(0, "", step.error, done.err)
        check_output(0, "", step.output, done.out)
    except Mistake:
        return False
    return True


class Commands:
    """Recorded commands, each of which is played in a folder of its own, below one that no other process has. Of a command of which a case
    shows an excerpt, only that counts."""

    def __init__(self, programs, top):
        self.programs, self.top, self.excerpts, lines = programs, top, excerpts(), {}
        for path in sorted(glob.glob(f"{RECORDED}/*.commands")):
            own = read(path).splitlines()
            lines.update(dict.fromkeys(own[::1 if "cases" in path else max(1, len(own) // MOST_REPLAYED)]))
        self.all = [json.loads(line) for line in lines]

    def fill(self, at, folder):
        shutil.rmtree(folder, ignore_errors=True)
        os.makedirs(folder)
        for name, kept in self.all[at]["files"].items():
            write(f"{folder}/{name}", read_bytes(f"{RECORDED}/files/{kept}"))

    def play(self, at, mutant=0, **more):
        """What came of a command: its status, a digest of what it wrote, and of the files there are then; nothing if it takes too long.
        `more` is for its environment."""
        command, folder = self.all[at], f"{self.top}/{os.getpid()}/{at}"
        if not os.path.exists(folder):
            self.fill(at, folder)
        name, given = command["words"][0], command["given"].encode("latin-1")
        words, environment = [it.encode("latin-1") for it in command["words"]], {"MUTANT": f"{name}:{mutant}", **more}
        try:
            done = ran(*words, given=given, seconds=SECONDS, executable=f"{self.programs}/{name}", cwd=folder, env=environment)
        except subprocess.TimeoutExpired:
            self.fill(at, folder)
            return None
        is_shown = any(agrees(step, done) for step in self.excerpts[b"\0".join([*words, given])])
        whole = hashlib.sha256(repr((done.status, None if is_shown else (done.out, done.err))).encode())
        paths = [f"{at}/{file}" for at, _, names in os.walk(folder) for file in names]
        files = {os.path.relpath(path, folder): read_bytes(path) for path in paths}
        whole.update(repr(sorted(files.items())).encode())
        if {path: digest(data) for path, data in files.items()} != command["files"]:
            self.fill(at, folder)
        return whole.digest()


def known(commands, at):
    """What comes of a command without a mutant, and the mutants that it reaches; nothing if it is not always the same."""
    seen = f"{commands.top}/{os.getpid()}.seen"
    good = commands.play(at, SEEN=seen)
    numbers = numbers_in(f"{seen}.{commands.all[at]['words'][0]}")
    return (good, numbers) if good and good == commands.play(at) else (None, [])


def numbers_in(path):
    """The mutants that the bytes of a file have as reached; the file is gone then."""
    if not os.path.exists(path):
        return []
    numbers = [number for number, byte in enumerate(read_bytes(path)) if byte]
    os.remove(path)
    return numbers


def dies(commands, good, number):
    """Whether one of these commands comes to something else with a mutant."""
    return any(commands.play(at, number) != came for at, came in good.items())


def fails(programs, script, **more):
    """Whether a test that compares by itself fails, with this in its environment."""
    return ran(*script, cwd=TOP, env={**os.environ, "V7_BUILD": programs, **more}).status != 0


def killed_by(pool, commands, script, alive):
    """The mutants that a test notices that compares by itself, and those that it reaches."""
    seen, jobs = f"{commands.top}/{os.path.basename(script[-1])}", collections.defaultdict(list)
    if fails(commands.programs, script, SEEN=seen):
        raise Failed(f"{' '.join(script)} fails without a mutant")
    for program, numbers in alive.items():
        own = {*numbers_in(f"{seen}.{program}")}
        for mutant, number in numbers.items():
            if number in own:
                jobs[mutant].append(pool.submit(fails, commands.programs, script, MUTANT=f"{program}:{number}"))
    return {mutant for mutant, some in jobs.items() if any(job.result() for job in some)}, {*jobs}


def killed(pool, commands, alive):
    """The mutants that a recorded command or one of SCRIPTS notices, and those that one of these reaches. `alive` has those of each
    program, with their numbers."""
    outcomes = list(pool.map(known, itertools.repeat(commands), range(len(commands.all)), chunksize=8))
    places, jobs = collections.defaultdict(list), collections.defaultdict(list)
    # those that reach few first
    for at, (_, numbers) in sorted(enumerate(outcomes), key=lambda it: len(it[1][1])):
        for number in numbers:
            places[commands.all[at]["words"][0], number].append(at)
    for program, numbers in alive.items():
        for mutant, number in numbers.items():
            own = places[program, number]
            if own:
                good = {at: outcomes[at][0] for at in own[::max(1, len(own) // MOST_COMMANDS)]}
                jobs[mutant].append(pool.submit(dies, commands, good, number))
    dead, reached = {mutant for mutant, some in jobs.items() if any(job.result() for job in some)}, {*jobs}
    for script in SCRIPTS:
        left = {program: {mutant: number for mutant, number in numbers.items() if mutant not in dead} for program, numbers in alive.items()}
        found = killed_by(pool, commands, script, left)
        dead, reached = dead | found[0], reached | found[1]
    return dead, reached
