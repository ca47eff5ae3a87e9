"""Has the prover refuse the wrong bodies of crates, many of them in one copy of the crate.

usage: python3 -m tests.wrong_bodies.wrong_bodies [-j N] [-m M] [CRATE ..]   tries all edits of these crates, or of all
       python3 -m tests.wrong_bodies.wrong_bodies [-j N] [-m M] CRATE/EDIT ..  tries these edits alone, and notes nothing
       python3 -m tests.wrong_bodies.wrong_bodies [-j N] [-m M] -c   tries those of the crates that have changed since theirs were refused,
                                                 first those tried longest ago; of must-fail/ only what the gate has not tried since

tests/wrong_bodies/wrong-bodies.seen has a line for each crate, the one that was tried last at the end: its digest, or `-` until all of its
edits are refused, and the seconds of its longest copy where `rt check` had left nothing. No copy begins that would by these take longer
than what is left of M minutes, or of the time that `make check` has; what has not ended then is stopped. What is left is named. With -c
this is no fault.

A wrong body is an edit in must-fail/ or in the file wrong-bodies of a crate: tests/wrong_bodies/edits.py has its form. A copy has at
most one edit for each function. It is checked once, by the kit's `rattle`, with the libraries below it as `make` or the gate left them, or
else as they are proved first, and over what `rt check` of the crate left, or else its earlier copies. For each edit, the script then reads
whether the prover refuses the function itself. If it only says that the function calls another one that is not proved, the edit goes into a
later copy without the edits of that one. An edit outside of functions, as of a constant or a definition, has a copy for itself.

It is an error if an edit does not fit its crate, if the prover cannot read the text that it makes, if its function is proved, or if the
function is refused for what it calls alone. CONTRIBUTING.md, "When a refusal shows nothing", has what is judged if it is refused only for
its shape. A goal is of the same kind as another one if it is of the same clause at any return, or else has its name.

N copies are checked side by side, two if it is not given. The last line has how many edits are refused, and the minutes.
"""
import argparse
import contextlib
import hashlib
import math
import os
import re
import shutil
import subprocess
import sys
import tempfile
import threading
import time
from concurrent.futures import ThreadPoolExecutor

from tests.lib.compare import same
from tests.lib.files import TOP, write
from tests.lib.rattle import FUNCTION
from tests.wrong_bodies import edits
from tools import prove

SEEN = "tests/wrong_bodies/wrong-bodies.seen"
# of the time that `make check` has, what is left to say what was tried
LAST_SECONDS = 10
BLOCK = re.compile(r"( *)(?:pub(?:\(\w+\))? )?(impl|trait|mod)\b(.*)\{$")
# what the prover says of a place, and what that says only of the form of a proof or of a name that is gone
PLACE = re.compile(r"(?:note: )?(?:\./)?((?:src|specs|proofs)/[^:\s]+):(\d+):\d+: (.*)")
SHAPE = re.compile(r"has no field|is not in scope|has no `|was not admitted|cannot be named from here")
UNREAD = re.compile(r"is not in scope|has no field|is no name|operand is missing|expected the end|cannot continue")
CALLED = re.compile(r"`([^`]+)`")
# a goal that has no answer, and that no search proves
OPEN = re.compile(r"it is not proved that .*?\(`([^`]+)`\)")
# the way to a return in the name of its goal, as `then-one-other` in `returns-then-one-other-clause-first`
WAY = re.compile(r"^returns.*?(?=-clause-|$)")


def plain(text):
    """A type or a trait without its lifetimes, arguments and paths."""
    while re.search(r"<[^<>]*>", text):
        text = re.sub(r"<[^<>]*>", "", text)
    return text.replace("&", "").split("::")[-1].strip()


def suffix(trait):
    """What the prover puts after the name of a type for a trait: `FromAllocError` for `From<AllocError>`."""
    arguments = re.fullmatch(r"[^<]*<(.*)>", trait.strip())
    return plain(trait) + (plain(arguments[1]) if arguments else "")


class Function:
    """A function of a source: its name as the prover has it, its lines, and what the names of its closures begin with."""

    def __init__(self, module, block, name, first, last):
        self.name, self.first, self.last = "::".join([*module, *block, name]), first, last
        self.inner = "::".join([*module, *block, "fn", name, ""]), "::".join([*module, "fn", *block, name, ""])

    def is_named(self, name):
        """Whether the prover means it, or a closure in it, by a name."""
        return name == self.name or name.startswith(self.inner)

    def __eq__(self, other):
        return isinstance(other, Function) and self.name == other.name

    def __hash__(self):
        return hash(self.name)


def block_of(lines, number, depth):
    """The block of a type or a trait that a line of some depth is in, if there is one, and the modules in its file."""
    block, inside = [], []
    for line in reversed(lines[:number]):
        found = BLOCK.match(line)
        if not found or len(found[1]) >= depth:
            continue
        depth, kind, head = len(found[1]), found[2], re.sub(r"\bwhere\b.*", "", found[3])
        if kind == "mod":
            inside.insert(0, head.strip())
            continue
        if kind == "impl":
            head = re.sub(r"^<(?:[^<>]|<[^<>]*>)*>", "", head)
        trait, _, owner = head.rpartition(" for ")
        owner = plain(owner.split(":")[0] if kind == "trait" else owner)
        block = [owner[:1].upper() + owner[1:] + (suffix(trait) if trait else "")]
    return block, inside


def functions_of(path, text):
    """The functions of a source, as rt fmt lays it out."""
    lines = text.split("\n")
    module = [] if path in ("src/lib.rt", "src/main.rt") else path[len("src/"):-len(".rt")].split("/")
    for at, line in enumerate(lines):
        found = FUNCTION.match(line)
        if found:
            ends = (other for other in range(at, len(lines)) if lines[other] == found[1] + "}")
            block, inside = block_of(lines, at, len(found[1]))
            yield Function([*module, *inside], block, found[3], at + 1, next(ends, at) + 1)


def changed_lines(text, old, new):
    """The lines of a text that change if an old text becomes a new one."""
    start = len(os.path.commonprefix([old, new]))
    end = len(old) - len(os.path.commonprefix([old[start:][::-1], new[start:][::-1]]))
    at = text.index(old)
    return text.count("\n", 0, at + start) + 1, text.count("\n", 0, at + max(start, end)) + 1


class Edit:
    """A wrong body, with the function that it changes. None: it changes something else, and is tried alone."""

    def __init__(self, folder, body):
        self.folder, self.name = folder, body.name
        self.function, self.alone = None, False
        try:
            self.changes = edits.pairs(body.text)
            self.misfit = ""
            edits.changed(self.changes, folder)
            self.function = self.found()
        except edits.Misfit as misfit:
            self.misfit = str(misfit)

    def found(self):
        """The one function that has all that the edit changes, if there is one."""
        files = {file for file, _, _ in self.changes}
        file = min(files)
        if len(files) > 1 or not file.startswith("src/"):
            return None
        text = edits.read(f"{self.folder}/{file}")
        functions, found = list(functions_of(file, text)), set()
        for _, old, new in self.changes:
            if text.count(old) != 1:
                return None
            first, last = changed_lines(text, old, new)
            around = [it for it in functions if it.first <= first and last <= it.last]
            found.add(around[-1] if around else None)
            text = text.replace(old, new)
        return found.pop() if len(found) == 1 else None

    @property
    def files(self):
        return {file for file, _, _ in self.changes}

    def has(self, file, line):
        """Whether a place is in the function that the edit changes, or in a file of an edit with no function."""
        return file in self.files and (not self.function or self.function.first <= line <= self.function.last)


class Answer:
    """What the prover says of a copy."""

    def __init__(self, crate, status, text):
        lines = text.rstrip("\n").split("\n")
        self.status, self.last, self.lines = status, lines[-1], lines
        self.verdicts, self.places = {}, []
        for line in lines:
            said = re.match(rf"fn {crate}::(\S+): (.*)", line)
            place = PLACE.match(line)
            if said:
                self.verdicts[said[1]] = said[2]
            elif place and (": error" in line or "it is not proved" in line):
                self.places.append((place[1], int(place[2]), place[3]))

    @property
    def is_told(self):
        """Whether the prover came to an end."""
        return self.last.startswith(("logic=", "only="))

    def unread(self, files):
        """The places that the prover cannot read, where an edit that only makes a statement false reads well."""
        for file, line, text in self.places:
            found = re.match(r"error(?:\[[^\]]*\])?: (`[^`]*`: )?(.*)", text)
            if found and (file in files or file.startswith(("src/", "specs/"))):
                if not found[1] or UNREAD.search(re.sub(CALLED, "", found[2])):
                    yield file, line, text

    def names(self, function):
        """What the prover calls a function, and the closures in it."""
        return list(filter(function.is_named, self.verdicts))

    def folders(self, function):
        """Where the proofs of these are."""
        return tuple(f"proofs/{name.replace('::', '/')}/" for name in self.names(function))

    def complaints(self, edit):
        """What it says in a function and in its proof; of an edit with no function, all that it says."""
        if not edit.function:
            return [text for _, _, text in self.places]
        folders = self.folders(edit.function)
        return [text for file, line, text in self.places if file.startswith(folders) or edit.has(file, line)]

    def open_goals(self, function):
        """The kinds of the goals of a function that are not proved: if a condition changes, the ways to its returns have other names."""
        folders, found = self.folders(function), set()
        for name in self.names(function):
            _, searched, goals = self.verdicts[name].partition("`search` did not prove ")
            found.update(CALLED.findall(goals.split(";")[0]) if searched else [])
        for file, _, text in self.places:
            answered = file.startswith(folders) and not SHAPE.search(text)
            named = re.match(r"error: `([^`]*)`: ", text) if answered else OPEN.match(text)
            found.update([named[1]] if named else [])
        return {WAY.sub("returns", goal) for goal in found}

    def judge(self, edit):
        """What the answer says of an edit: proved, refused, shape, callee; and a line that shows it."""
        told = self.complaints(edit)
        if edit.function:
            names = self.names(edit.function)
            said = [self.verdicts[name] for name in names if self.verdicts[name] != "proved"]
            if names and not said:
                return "proved", ""
            searched = [text for text in said if "did not prove" in text]
            if not told and not searched:
                return "callee", (said or ["it has no verdict"])[0]
        elif self.status == 0:
            return "proved", ""
        else:
            searched = [text for text in self.verdicts.values() if "did not prove" in text]
        shape = [text for text in told if SHAPE.search(text)]
        telling = [text for text in told if text not in shape] + searched
        if shape and edit.function:
            # an answer is for a goal that is gone, so the goal in its place has none: what tells is an answer that fails
            telling = [text for text in telling if text.startswith("error: ")]
        return ("refused", telling[0]) if telling else ("shape", (shape or [self.last])[0])

    def waits_for(self, function, crate):
        """The names of the functions that are not proved and that a function calls, also by others."""
        reached, ahead = set(), self.names(function)
        while ahead:
            name = ahead.pop()
            for called in CALLED.findall(self.verdicts.get(name, "")):
                called = called[len(crate) + 2:] if called.startswith(f"{crate}::") else called
                if called in self.verdicts and called not in reached:
                    reached.add(called)
                    ahead.append(called)
        return reached


def check_itself():
    """What the prover says of a function is judged as what it is."""
    edit = Edit("crates/tried", edits.WrongBody("tried", "half", "", "file: src/lib.rt\nold: no file\nnew: of this crate"))
    edit.function = Function([], [], "half", 3, 9)
    answers = {
        "proved": "proved",
        "refused": "not proved\nsrc/lib.rt:5:9: it is not proved that what the function ensures holds when it returns (`returns`)",
        "shape": "not proved\nproofs/half/Answers.antt:5:1: error: `returns`: `Goals` has no `returns` that can be named from here",
        "callee": "it calls `tried::twice`, which is not proved",
    }
    for word, said in answers.items():
        same(said, Answer("tried", 1, f"fn tried::half: {said}\nlogic=failed\n").judge(edit)[0], word)


def run(words, folder, until):
    """Runs a command in a folder up to a time, with both outputs as one text, in the order of their lines."""
    how = {"stdin": subprocess.DEVNULL, "stdout": subprocess.PIPE, "stderr": subprocess.STDOUT, "errors": "replace"}
    return subprocess.run(words, cwd=folder, check=False, timeout=prove.seconds_to(until), **how)


class Trial:
    """The edits of a crate, tried in copies."""

    def __init__(self, crate, kit, slots, only, until):
        self.crate, self.kit, self.slots, self.until = crate, kit, slots, until
        self.folder = f"crates/{crate.name}"
        found = [Edit(self.folder, body) for body in edits.edits_of(crate.name)]
        self.kept = None
        self.edits = [it for it in found if only is None or {crate.name, f"{crate.name}/{it.name}"} & only]
        self.results, self.apart, self.copies = {}, set(), 0
        # what the next copy may take, and what the longest one took
        self.expected, self.seconds = noted().get(crate.name, ("-", 0))[1] or crate.functions() * prove.SECONDS_EACH, 0

    def left(self):
        """The names of the edits of which nothing is known yet."""
        return [it.name for it in self.edits if it.name not in self.results]

    def failed(self):
        """The names of the edits that are not refused."""
        return [name for name, fault in self.results.items() if fault]

    def check(self, texts, without=(), edited=()):
        """Checks a copy of the crate with these texts and without some folders of proofs, over what `rt check` of the crate left, or
        else the copies before it; only the functions of these edits, and what they call, if each has one."""
        only = [f"--only={it.function.name}" for it in edited if it.function]
        with self.slots, tempfile.TemporaryDirectory(prefix="wrong-body-") as copy:
            kept, left = self.kept, f"{self.folder}/out/incremental"
            if os.path.isdir(left):
                kept = shutil.copytree(left, f"{copy}/out/incremental")
            for part in ("src", "specs", "proofs"):
                if os.path.isdir(f"{self.folder}/{part}"):
                    shutil.copytree(f"{self.folder}/{part}", f"{copy}/{part}")
            for path in without:
                shutil.rmtree(f"{copy}/{path}", ignore_errors=True)
            for path, text in texts.items():
                write(f"{copy}/{path}", text)
            begun = time.monotonic()
            if begun + self.expected > self.until:
                raise subprocess.TimeoutExpired("a copy", 0)
            try:
                done = run(self.kit.checking(self.crate, *only * (len(only) == len(edited)), kept=kept, jobs=1), copy, self.until)
            finally:
                # one that was stopped takes longer still, so it does not begin again with so little time
                self.copies, self.expected = self.copies + 1, math.ceil(time.monotonic() - begun)
                self.seconds = max(self.seconds, self.expected if kept is self.kept else 0)
        return Answer(self.crate.name, done.returncode, done.stdout)

    def end(self, edit, fault, line=""):
        """Notes what came of an edit, and prints it."""
        self.results[edit.name] = fault
        line = re.sub(r"\s+", " ", line)[:150]
        print(f"{self.crate.name}/{edit.name}: {fault or 'refused'}{': ' + line if line else ''}", flush=True)

    def next_copy(self, waiting):
        """As many of the edits that wait as one copy can have, and the texts of its files."""
        chosen, texts = [], {}
        for edit in waiting:
            if chosen and (edit.alone or chosen[0].alone):
                continue
            pairs = {frozenset((edit.function, it.function)) for it in chosen}
            if pairs & self.apart or any(len(pair) == 1 for pair in pairs):
                continue
            try:
                texts = edits.changed(edit.changes, self.folder, texts)
            except edits.Misfit:
                continue
            chosen.append(edit)
        return chosen, texts

    def run(self):
        """Tries all edits, as far as there is time."""
        for edit in self.edits:
            edit.alone = edit.function is None
            if edit.misfit:
                self.end(edit, "it cannot be made", edit.misfit)
        waiting = sorted((it for it in self.edits if not it.misfit), key=lambda it: it.alone)
        late = contextlib.suppress(subprocess.TimeoutExpired)
        with tempfile.TemporaryDirectory(prefix="wrong-bodies-") as self.kept, late:
            while waiting:
                chosen, texts = self.next_copy(waiting)
                answer = self.check(texts, edited=chosen)
                print(f"{self.crate.name}: copy {self.copies}, {len(chosen)} edits", flush=True)
                again = [it for it in chosen if not self.has_ended(it, chosen, answer)]
                waiting = sorted(again + [it for it in waiting if it not in chosen], key=lambda it: it.alone)

    def has_ended(self, edit, chosen, answer):
        """Notes what a copy says of an edit. Whether it is the last word on it."""
        single, unread = len(chosen) == 1, list(answer.unread({file for it in chosen for file in it.files}))
        mine = [text for file, line, text in unread if edit.has(file, line)]
        if unread or not answer.is_told:
            if mine or single:
                self.end(edit, "the prover cannot read it, or does not tell", (mine or answer.lines[-3:])[0])
            edit.alone = edit.alone or not any(it.has(file, line) for it in chosen for file, line, _ in unread)
            return bool(mine or single)
        word, line = answer.judge(edit)
        if word == "callee":
            return self.has_ended_for_callee(edit, chosen, answer, line)
        if word == "shape":
            self.without_proof(edit, line)
        else:
            self.end(edit, "" if word == "refused" else "NOT REFUSED: its function is proved", line)
        return True

    def has_ended_for_callee(self, edit, chosen, answer, line):
        """Has an edit wait for a copy without the edits of what it calls, or of all others. Whether there was none of them."""
        if len(chosen) == 1:
            self.end(edit, "NOT REFUSED for itself", line)
            return True
        below = answer.waits_for(edit.function, self.crate.name)
        others = [it for it in chosen if it is not edit and below & set(answer.names(it.function))]
        self.apart |= {frozenset((edit.function, it.function)) for it in others}
        edit.alone = not others
        print(f"{self.crate.name}/{edit.name}: waits for another copy: {line[:150]}", flush=True)
        return False

    def without_proof(self, edit, line):
        """Compares the goals that are open with an edit and without it if nothing is written of the proof."""
        function = edit.function
        if not function:
            self.end(edit, "refused only for its shape", line)
            return
        top = f"{self.folder}/proofs"
        found = [os.path.relpath(at, top) for at, _, files in os.walk(top) if files]
        folders = [f"proofs/{path}" for path in found if function.is_named(path.replace(os.sep, "::"))]
        right = self.check({}, folders, [edit])
        wrong = self.check(edits.changed(edit.changes, self.folder), folders, [edit])
        more = wrong.open_goals(function) - right.open_goals(function)
        if wrong.is_told and more:
            self.end(edit, "", f"without its proof `{min(more)}` is open, and not with the right body")
        else:
            self.end(edit, "refused only for its shape: change a value, and keep the names", line)


def digest(crate):
    """The digest of the code and the definitions of a crate, without comments, and of its edits."""
    whole = hashlib.sha256()
    paths = [f"{at}/{file}" for part in ("src", "specs") for at, _, files in os.walk(f"crates/{crate}/{part}") for file in files]
    texts = [(os.path.relpath(path, f"crates/{crate}"), edits.read(path)) for path in paths]
    texts += [(f"edits/{body.name}", body.text) for body in edits.edits_of(crate)]
    for name, text in sorted(texts):
        lines = [line for line in text.split("\n") if not re.match(r"\s*(//|--)", line)]
        whole.update("\n".join([name, *lines, ""]).encode())
    return whole.hexdigest()


def with_edits():
    """The crates that have edits."""
    return [crate for crate in sorted(os.listdir("crates")) if edits.edits_of(crate)]


def noted():
    """The digests and the seconds that are noted of crates, first of those that were tried longest ago."""
    found = re.findall(r"^(\w+) ([0-9a-f]{64}|-)(?: (\d+))?$", edits.read(SEEN), re.M) if os.path.exists(SEEN) else []
    here = with_edits()
    return {crate: (known, int(seconds or 0)) for crate, known, seconds in found if crate in here}


def note(trials, digests):
    """Notes what came of crates, after what is noted of others. A digest that no longer holds is dropped."""
    rows = {crate: (known if known == digest(crate) else "-", seconds) for crate, (known, seconds) in noted().items()}
    for name, trial in trials.items():
        if trial.copies or not trial.left():
            _, seconds = rows.pop(name, ("-", 0))
            is_refused = not trial.left() and not trial.failed()
            rows[name] = digests[name] if is_refused else "-", trial.seconds or seconds
    write(SEEN, "".join(f"{crate} {known} {seconds or ''}".rstrip() + "\n" for crate, (known, seconds) in rows.items()))


def is_gated(crate):
    """Whether `make gate` has had the edits of must-fail/ refused since the crate last changed."""
    parts = [f"crates/{crate}/{part}" for part in ("src", "specs", "proofs", "must-fail")]
    files = [f"{at}/{file}" for part in parts for at, _, names in os.walk(part) for file in names]
    return os.path.exists(prove.GATED) and max(map(os.path.getmtime, files)) < os.path.getmtime(prove.GATED)


def changed():
    """The crates that have changed since their edits were refused, first those that were tried longest ago, and their edits to be tried."""
    was = noted()
    crates = [*(it for it in with_edits() if it not in was), *(it for it, (known, _) in was.items() if known != digest(it))]
    bodies = [body for crate in crates for body in (edits.records if is_gated(crate) else edits.edits_of)(crate)]
    return crates, {f"{body.crate}/{body.name}" for body in bodies}


def try_edits(names, jobs, only, until, at_once):
    """Tries the edits of crates, or only some, once the libraries below are proved, so many crates at once, in order, up to a time."""
    with tempfile.TemporaryDirectory(prefix="wrong-bodies-") as place:
        kit, crates = prove.Kit(place), {it.name: it for it in prove.crates_under(*names)}
        needed = {below for name in names for below in crates[name].below}
        slots = threading.Semaphore(jobs)
        trials = {name: Trial(crates[name], kit, slots, only, until) for name in names}
        with contextlib.suppress(subprocess.TimeoutExpired):
            if prove.Proving([it for it in crates.values() if it in needed], kit, until=until).whole():
                sys.exit("a library is not proved")
            with ThreadPoolExecutor(at_once) as pool:
                list(pool.map(Trial.run, trials.values()))
        return trials


def say(trials, begun):
    """Prints what came of the edits of each crate, and of all."""
    for name, trial in trials.items():
        said = {"FAILED": trial.failed(), "not tried": trial.left()}
        fault = "".join(f": {word}: {' '.join(those)}" for word, those in said.items() if those)
        print(f"{name}: {len(trial.results) - len(trial.failed())} of {len(trial.edits)} refused, in {trial.copies} copies{fault}")
    refused = sum(len(trial.results) - len(trial.failed()) for trial in trials.values())
    edited, copies = (sum(counts) for counts in zip(*((len(trial.edits), trial.copies) for trial in trials.values())))
    minutes = (time.monotonic() - begun) / 60
    print(f"{refused} of {edited} wrong bodies refused, in {copies} copies of {len(trials)} crates: {minutes:.0f} minutes")


def main():
    os.chdir(TOP)
    check_itself()
    parser = argparse.ArgumentParser(description=__doc__, formatter_class=argparse.RawDescriptionHelpFormatter)
    parser.add_argument("-j", type=int, default=2, metavar="N")
    parser.add_argument("-m", type=int, default=math.inf, metavar="M")
    parser.add_argument("-c", action="store_true")
    parser.add_argument("names", nargs="*", metavar="CRATE[/EDIT]")
    given = parser.parse_args()
    known = {f"{crate}/{body.name}": crate for crate in with_edits() for body in edits.edits_of(crate)}
    strange = {*given.names} - {*known, *known.values()}
    if strange or not shutil.which("rt"):
        parser.error(f"no crate with edits, or no edit: {' '.join(sorted(strange))}" if strange else "rt is not on the PATH")
    crates, only = sorted({name.split("/")[0] for name in given.names}) or with_edits(), None
    if given.c:
        crates, only = changed()
        print(f"changed since their wrong bodies were refused: {' '.join(crates) or 'no crate'}", flush=True)
    elif any("/" in name for name in given.names):
        only = {*given.names}
    if not crates:
        return 0
    begun, digests = time.monotonic(), {crate: digest(crate) for crate in crates}
    left = min(60 * given.m, float(os.environ.get("V7_UNTIL") or math.inf) - LAST_SECONDS - time.time())
    trials = try_edits(crates, given.j, only, begun + left, given.j if given.c else len(crates))
    say(trials, begun)
    if given.c or only is None:
        note(trials, digests)
    return 1 if any(trial.failed() or trial.left() and not given.c for trial in trials.values()) else 0


if __name__ == "__main__":
    sys.exit(main())
