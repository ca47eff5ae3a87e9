"""Proves a program or a library for C with the libraries under it, and builds it.

usage: python3 -m tools.prove [--anew] NAME FILE
       python3 -m tools.prove --sources NAME      prints the files that it is proved of
       python3 -m tools.prove --only NAME [FLAG ..]      checks this crate while it is written, over the libraries that were proved before;
                                                  FLAGs are those of `rattle check`, such as --only MODULE::NAME

Libraries that do not wait for each other are proved side by side, and kept in build/proved, packed, since the gate refuses folders with
sources that no crate lists. A crate is proved again where its sources, or a library below it, have changed; a library that `make gate` has
proved since is taken from there. If only FILE is gone, what was proved is compiled again. Beside them NAME.verdict has the line by which
the prover ends, and NAME.o what a program is linked from: a release is made of these.

The first time a crate is proved from nothing, by the words of the gate, and those above it read its statements and not its proofs. Later it
is proved over crates/NAME/out/incremental, a folder of the prover's own, which `--only` and `rt check` use too. The prover keeps there each
module that it checked, with what it read, and checks a module again if something that it read has changed. A module of a crate above reads
contracts, definitions, lemmas, types and public constants of those below, and nothing of a body: so after an edit of a body no function
above is proved again. Nothing here decides that. Each library above is made anew, in seconds, since the prover refuses one that was proved
over another build of one below, and a program is linked from the new code. The verdict then has `incremental=trusted`. With --anew, as for
a release, nothing is taken from there; the gate reads neither that folder nor build/proved. tests/programs/kept_proofs.py compares both.

While it works it prints a line for each crate, and at least one every ten seconds.
"""
import fcntl
import hashlib
import math
import os
import re
import shutil
import subprocess
import sys
import tarfile
import tempfile
import time
from concurrent.futures import ThreadPoolExecutor, wait

from tests.lib.files import TOP, read, write
from tests.lib.programs import asked, ran
from tests.lib.rattle import FUNCTION, crates_in
from tests.lib.tally import Failed, Tally

KEPT = "build/proved"
# `make gate` leaves this once all is proved
GATED = "build/gated"
# has a proof begin with what the last one left
OVER = ["--incremental", "out/incremental"]
# more jobs of one check seldom help
MOST_JOBS = 8
# of a processor for a function
SECONDS_EACH = 3


class Crate:
    """A crate, with all that it uses, and the crates of the repository that it waits for."""

    def __init__(self, name, uses, crates):
        self.name, self.uses = name, uses
        self.is_static = f"\n{name} staticlib:" in read("crates.txt")
        self.is_program = os.path.exists(f"crates/{name}/src/main.rt")
        # what it leaves: statements, or which code was proved
        self.left = f"{name}.checked" if self.is_static or self.is_program else f"{name}.rlib"
        self.waits = [crates[other] for other in uses if other in crates]
        self.below = {it for other in self.waits for it in (other, *other.below)}
        parts = [f"crates/{name}/{part}" for part in ("src", "specs", "proofs")]
        self.files = sorted(f"{at}/{file}" for part in parts for at, _, files in os.walk(part) for file in files)

    def functions(self):
        """How many functions its sources have."""
        return sum(len(FUNCTION.findall(read(file))) for file in self.files if file.endswith(".rt"))


def crates_under(*names):
    """The crates of these names and those below them, lowest first."""
    lines, crates = crates_in("."), {}

    def add(name):
        for other in lines[name]:
            if other in lines and other not in crates:
                add(other)
        crates[name] = Crate(name, lines[name], crates)

    for name in names:
        if name not in crates:
            add(name)
    return [*crates.values()]


class Kit:
    """The kit's commands, and the words that they take. What libraries leave for the crates above is in a folder."""

    def __init__(self, place):
        self.place = place
        self.version, self.folder = asked("rt", "version").strip(), os.path.dirname(asked("rt", "doc"))
        self.rattle = f"{self.folder}/bin/rattle"
        self.toolchain = ["--toolchain", f"{self.folder}/toolchain"]
        self.logic = ["--logic-built", f"{self.folder}/logic_built"]

    def words(self, crate):
        """What names a crate, the libraries that it uses and the logic."""
        words = ["--crate-name", crate.name, "src/main.rt" if crate.is_program else "src/lib.rt"]
        words += ["--crate-type", "staticlib"] * crate.is_static
        own = [it.name for it in crate.waits]
        for name in sorted({"std", *crate.uses}):
            words += ["--extern", f"{name}={self.place if name in own else self.folder + '/rlibs'}/{name}.rlib"]
        for place in (f"{self.folder}/rlibs", self.place):
            words += ["-L", f"dependency={place}"]
        return words + ["--antt-project", f"{self.folder}/rattle/logic/antt-project.json"]

    def proving(self, crate, jobs, is_anew=True):
        """The command that proves a crate, and writes what it leaves. For a program this is from nothing."""
        words = [*self.words(crate), *self.logic, "--jobs", str(jobs), "-o", f"{self.place}/{crate.left}"]
        if not crate.left.endswith(".rlib"):
            return [self.rattle, "check", *words]
        return [self.rattle, "build", *words, *(["--statements"] if is_anew else OVER)]

    def checking(self, crate, *flags, kept="out/incremental", jobs=None):
        """The command that checks a crate over what its last check kept."""
        jobs = str(jobs or min(os.cpu_count(), MOST_JOBS))
        return [self.rattle, "check", *self.words(crate), *self.logic, "--incremental", kept, "--jobs", jobs, *flags]

    def building(self, crate, file, jobs=0):
        """The commands that compile what was proved, or prove it first by so many jobs, and link it if it is a program."""
        compiled = file if crate.is_static else f"{self.place}/{crate.name}.o"
        proved = [*self.logic, *OVER, "--jobs", str(jobs)] if jobs else ["--crate-checked", f"{self.place}/{crate.left}"]
        words = [*self.words(crate), *self.toolchain, *proved, "--backend", "llvm", "-o", compiled]
        system = [f"{self.folder}/c/{name}_c.a" for name in ("libos", "liblibc")]
        linking = [f"{self.rattle}-link", "--target", "x86_64-unknown-linux-gnu", *self.toolchain, "-o", file, compiled, *system]
        return [[self.rattle, "build", *words], *[linking] * crate.is_program]


def seconds_to(until):
    """The seconds up to a time of `time.monotonic`, as a limit."""
    return None if until == math.inf else max(0, until - time.monotonic())


class Proving:
    """What is proved of crates, lowest first, up to a time. The last one is built into a file, if a file is given."""

    def __init__(self, crates, kit, file=None, is_anew=False, until=math.inf):
        self.crates, self.kit, self.file, self.is_anew, self.until = crates, kit, file, is_anew, until
        self.top = crates[-1] if file else None
        # what is found to be proved before anything is proved here, and what is to be said of it
        self.known, self.lanes, self.busy = {}, {}, []

    def stamp(self, crate):
        """What a proof rests on: the kit, the sources of the crate, and the libraries below it, of which `format` has the sums."""
        whole = hashlib.sha256((self.kit.version + read("crates.txt")).encode())
        for file in [*crate.files, *sorted(f"{self.kit.place}/{it.left}/format" for it in crate.below)]:
            whole.update(f"{file.removeprefix(self.kit.place)}\n{read(file)}\n".encode())
        return whole.hexdigest()

    def to_end(self, crate):
        """How many functions the longest chain has that ends with it, up to what is proved."""
        return 0 if crate in self.known else crate.functions() + max(map(self.to_end, crate.waits), default=0)

    def spare(self, crate):
        """How many functions more the chain has that each crate above it waits for besides."""
        above = [other for other in self.crates if crate in other.waits]
        return min((max(map(self.to_end, other.waits)) - self.to_end(crate) for other in above), default=0)

    def is_first(self, crate):
        """Whether a crate is proved from nothing: if that is asked for, or if nothing is left of an earlier proof."""
        out = f"crates/{crate.name}/out"
        return self.is_anew or not any(map(os.path.exists, [f"{KEPT}/{crate.name}.verdict", f"{out}/rlib", f"{out}/incremental"]))

    def proving(self, crate):
        """The command that proves a crate. Where it is not waited for, it takes fewer processors, or what others leave."""
        jobs, spare = min(os.cpu_count(), MOST_JOBS), self.spare(crate)
        nice = ["nice", "-n", "19"] if spare >= 100 else []
        return [*nice, *self.kit.proving(crate, max(1, jobs // 2) if spare else jobs, self.is_first(crate))]

    def run(self, crate, commands):
        """Runs commands in the folder of a crate, and returns the line of the verdict."""
        said = ""
        for words in commands:
            done = ran(*words, cwd=f"crates/{crate.name}", seconds=seconds_to(self.until))
            said += done.said()
            if done.status:
                raise Failed(said)
        verdict = re.search("^logic=proved .*", said, re.M)
        if not verdict:
            raise Failed(said)
        return verdict[0]

    def is_kept(self, crate):
        """Whether the crate is proved already. What it left is unpacked; a program that was proved over that folder leaves only its
        file."""
        kept = f"{KEPT}/{crate.name}"
        if not all(os.path.exists(f"{kept}.{kind}") for kind in ("stamp", "verdict")) or read(f"{kept}.stamp") != self.stamp(crate):
            return False
        if self.is_anew and "incremental=trusted" in read(f"{kept}.verdict"):
            return False
        if not os.path.exists(f"{kept}.tar"):
            return crate is self.top and self.is_built(crate)
        with tarfile.open(f"{kept}.tar") as packed:
            packed.extractall(self.kit.place)
        return True

    def is_gated(self, crate):
        """Whether the gate proved a library since its sources last changed. What it left is copied."""
        left = f"crates/{crate.name}/out/rlib/{crate.left}"
        if not all(map(os.path.exists, (GATED, f"{left}/format"))):
            return False
        last = max(os.path.getmtime(file) for file in ("crates.txt", *(file for it in (crate, *crate.below) for file in it.files)))
        # one that an earlier gate proved of the same files has its old time, and is put there by this one
        if not last < os.path.getctime(f"{left}/format") < os.path.getmtime(GATED):
            return False
        pairs = [(f"crates/{it.name}/out/rlib/{it.left}/format", f"{self.kit.place}/{it.left}/format") for it in crate.below]
        if not all(os.path.exists(gated) and read(gated) == read(own) for gated, own in pairs):
            return False
        shutil.copytree(left, f"{self.kit.place}/{crate.left}")
        return True

    def found(self, crate):
        """What is to be said of a crate that is proved already; nothing if it is not."""
        if self.is_kept(crate):
            return "proved before"
        return "proved by the gate" if crate is not self.top and self.is_gated(crate) else ""

    def is_built(self, crate):
        """Whether there is what is built of a crate, if anything is."""
        return crate is not self.top or all(map(os.path.exists, [self.file, *[f"{KEPT}/{crate.name}.o"] * crate.is_program]))

    def keep(self, crate, stamp, verdict):
        """Keeps what a crate left, packed, with its verdict and what its proof rests on. What was built of it before is gone."""
        kept = f"{KEPT}/{crate.name}"
        for path in (f"{kept}.stamp", f"{kept}.tar", *[self.file] * (crate is self.top)):
            if os.path.exists(path):
                os.remove(path)
        if os.path.exists(f"{self.kit.place}/{crate.left}"):
            with tarfile.open(f"{kept}.tar", "w") as packed:
                packed.add(f"{self.kit.place}/{crate.left}", crate.left)
        for kind, text in (("verdict", verdict + "\n"), ("stamp", stamp)):
            write(f"{kept}.{kind}", text)

    def build(self, crate, stamp=None):
        """Compiles and links what was proved, or what it proves then, and keeps under a stamp."""
        verdict = self.run(crate, self.kit.building(crate, f"{self.file}.new", stamp and min(os.cpu_count(), MOST_JOBS)))
        if stamp:
            self.keep(crate, stamp, verdict)
        if crate.is_program:
            shutil.copyfile(f"{self.kit.place}/{crate.name}.o", f"{KEPT}/{crate.name}.o")
        os.rename(f"{self.file}.new", self.file)

    def prove(self, crate):
        """Proves a crate once those that it waits for are proved, unless it is proved already."""
        wait(self.lanes[other] for other in crate.waits)
        if any(self.lanes[other].exception() for other in crate.waits):
            raise Failed("what it uses is not proved")
        said = self.known.get(crate) or self.found(crate)
        if said and self.is_built(crate):
            return said
        self.busy.append(crate.name)
        try:
            os.makedirs(f"crates/{crate.name}/out", exist_ok=True)
            stamp = self.stamp(crate)
            if crate is self.top and not said and not self.is_first(crate):
                self.build(crate, stamp)
                return f"{crate.functions()} functions are proved"
            if not said:
                self.keep(crate, stamp, self.run(crate, [self.proving(crate)]))
            if crate is self.top:
                self.build(crate)
        finally:
            self.busy.remove(crate.name)
        return f"{said}, and compiled again" if said else f"{crate.functions()} functions are proved"

    def whole(self):
        """Proves all, lowest first. The status to end with."""
        os.makedirs(KEPT, exist_ok=True)
        for crate in self.crates:
            said = self.known.keys() >= {*crate.waits} and self.found(crate)
            self.known.update({crate: said} if said else {})
        count = sum(crate.functions() for crate in self.crates if crate not in self.known)
        minutes = count * SECONDS_EACH / min(os.cpu_count(), MOST_JOBS) / 60
        print(f"{len(self.crates)} crates, of which {len(self.known)} are proved; the others have {count} functions: at most about "
              f"{minutes:.0f} minutes on an idle machine", flush=True)
        with ThreadPoolExecutor(len(self.crates)) as pool:
            for crate in self.crates:
                self.lanes[crate] = pool.submit(self.prove, crate)
            return Tally({lane: crate.name for crate, lane in self.lanes.items()}, lambda: self.busy).take_all()


def lock(crates):
    """Waits until no other run works in these crates' folders, nor `rt`, which has these locks too, and keeps others out up to the end."""
    for name in sorted(crate.name for crate in crates):
        folder = os.open(f"crates/{name}", os.O_RDONLY)
        try:
            fcntl.flock(folder, fcntl.LOCK_EX | fcntl.LOCK_NB)
        except BlockingIOError:
            print(f"waiting for another run to end in crates/{name}", flush=True)
            fcntl.flock(folder, fcntl.LOCK_EX)


def check_only(name, *flags):
    """Checks a crate alone. The libraries below it that have changed, or were never proved, are proved first."""
    *below, crate = crates_under(name)
    lock([*below, crate])
    with tempfile.TemporaryDirectory() as place:
        kit = Kit(place)
        if below and Proving(below, kit).whole():
            return 1
        os.makedirs(f"crates/{name}/out", exist_ok=True)
        return subprocess.run(kit.checking(crate, *flags), cwd=f"crates/{name}", check=False).returncode


def main(name, file, *flags, is_anew=False):
    if name == "--sources":
        print(*(path for crate in crates_under(file) for path in crate.files), sep="\n")
        return 0
    if not shutil.which("rt"):
        sys.exit("rt, the command of the Rattle kit, is not on the PATH")
    made = os.path.abspath(file)
    os.chdir(TOP)
    if name == "--only":
        return check_only(file, *flags)
    os.makedirs(os.path.dirname(made), exist_ok=True)
    crates = crates_under(name)
    lock(crates)
    with tempfile.TemporaryDirectory() as place:
        return Proving(crates, Kit(place), made, is_anew).whole()


if __name__ == "__main__":
    sys.exit(main(*[it for it in sys.argv[1:] if it != "--anew"], is_anew="--anew" in sys.argv))
