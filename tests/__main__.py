"""Runs tests, the cheapest first, and lists those that a change concerns.

usage: python3 -m tests NAME ..          tests, all of a folder (`oracles`), or all of a tier: `text`, `test`, `check`, `all` or `measure`
       python3 -m tests list             all tests by tier, with their seconds, and the programs that they run
       python3 -m tests which [PATH ..]  the tests and the crates that a change of these files concerns; without a PATH of those that
                                         have changed since the commit SINCE, or HEAD
       python3 -m tests needs TIER       Debian's packages that the tests of this tier and of those before need, and that are missing
       python3 -m tests needs            all that each tier needs besides, missing or not
       python3 -m tests parts COMMAND ..     runs commands up to one that fails, and prints the minutes of each. One that has passed with
                                         this commit is not run again. A minute before V7_CI_SECONDS are over, 10,800 if they are not
                                         given, it stops what runs, and names what is left out; 0 is for no limit

Each tier has what those before do not have; `measure` is for the night. The tests of `test` run side by side with programs that are
compiled here without any proof, and with the tests that are code, of each crate that has a function with `#[test]`. Those of `check` and `all` run with the programs of
build/, or of the folder V7_BUILD.

A test says of itself in its head, as `tier: check, 60 seconds; programs: ..; for: ..; needs: ..; words: ..`, how long it takes on an idle
machine, the programs that it runs, the paths for which it was made, what it needs beside Python and make, and its arguments. This is one
line, or goes on after a `;` and a blank. Where V7_CI is set, a tool that is missing is a fault.
"""
import contextlib
import glob
import math
import os
import re
import shlex
import shutil
import signal
import subprocess
import sys
import tempfile
import time
from collections import Counter
from concurrent.futures import ThreadPoolExecutor, wait
from typing import NamedTuple

from tests.lib.compare import notices, same
from tests.lib.files import TOP, read, read_bytes
from tests.lib.programs import PROGRAMS, Ran, program, ran
from tests.lib.rattle import below, crates_in
from tests.lib.tally import Failed, Tally
from tools.compiling import compile_program
from tools.prove import SECONDS_EACH, crates_under
from tools.sketch import compile_library

TIERS = ["text", "test", "check", "all", "measure"]
HEAD = re.compile(r"^(?:# )?tier: (\w+), (\d+) seconds((?:;(?:\n#?)? \w+: [^;\n]+)*)$", re.M)
# Debian's packages of commands, and of modules of Python, where they have another name
PACKAGES = {"cc": "gcc libc6-dev", "c++": "g++", "venv": "python3-venv", "man": "man-db", "aspell": "aspell aspell-en",
            "chromedriver": "chromium-driver", "selenium": "python3-selenium", "node": "nodejs", "wasm-opt": "binaryen", "pdp11": "simh",
            "fuzzer": "libclang-rt-dev"}
# the lines that a test prints for those who run it, besides its last one
SHOWN = re.compile(r"skipped: |(.*: )?not (run|assembled|measured|formatted)\b")
# for a whole run of one crate, on a machine with other work too
SECONDS = "1800"
PROCESSORS = min(4, len(os.sched_getaffinity(0)))
# what has passed, of `make check` and `make check-all`, and with which commit
PARTS = "build/parts"
# after these CI stops a run, and all that it has said may be lost; of them, what is left for the end
CI_SECONDS = 10800
LAST_SECONDS = 60


class Test(NamedTuple):
    name: str
    path: str
    tier: str
    seconds: int
    says: dict

    def words(self, key):
        return self.says.get(key, "").split()

    def command(self):
        start = [sys.executable, "-m", self.path[:-3].replace("/", ".")] if self.path.endswith(".py") else ["sh", self.path]
        return [*start, *self.words("words")]

    def title(self):
        return " ".join([self.name, *(it for it in self.words("words") if it.startswith("-"))])


def listed():
    """All tests, the cheapest of each tier first."""
    found = []
    for path in sorted(glob.glob("tests/*/*.py") + glob.glob("tests/*/*.sh") + glob.glob("tools/*.sh")):
        for tier, seconds, more in HEAD.findall(read(path)):
            says = dict(re.findall(r"(\w+): ([^;\n]+)", more))
            found.append(Test(os.path.basename(path).rpartition(".")[0], path, tier, int(seconds), says))
    return sorted(found, key=lambda it: (TIERS.index(it.tier), it.seconds, it.title()))


# --- running

def passes(*words, env=None):
    """Runs a command that has to succeed: its last line, after those that say what was not done."""
    done = ran(*words, env=env)
    if done.status:
        raise Failed(done.said())
    *lines, last = done.said().rstrip().split("\n")
    return "\n".join([*filter(SHOWN.match, lines), last])


def is_there(tool):
    """Whether a tool is there, and with a compiler the headers of the C library: Debian has gcc without these. A module may be that of the
    system's Python, by which the test of the page goes on if another one comes first."""
    if tool == "fuzzer":
        return ran("clang", "-fsanitize=fuzzer,address", "-x", "c", "-o", os.devnull, "-",
                   given=b"int LLVMFuzzerTestOneInput(void) { return 0; }\n").status == 0 if shutil.which("clang") else False
    if tool in ("venv", "selenium"):
        pythons = [sys.executable, *filter(os.path.exists, ["/usr/bin/python3"])]
        return any(ran(python, "-c", f"import {tool}").status == 0 for python in pythons)
    return shutil.which(tool) and (tool != "cc" or ran("cc", "-E", "-", given=b"#include <stdlib.h>\n").status == 0)


def package(tool):
    return PACKAGES.get(tool, tool)


def needed(tests):
    """The tools that tests need."""
    return sorted({it for test in tests for it in test.words("needs")})


def missing(tests):
    return [it for it in needed(tests) if not is_there(it)]


def print_needs(tests, tier=""):
    """Prints Debian's packages that a tier and those before it need, and that are missing; or all that each tier needs."""
    for name in [] if tier else TIERS:
        print(f"{name}: make python3", *map(package, needed([test for test in tests if test.tier == name])))
    before = ["text", "measure"] if tier == "measure" else TIERS[:TIERS.index(tier) + 1] if tier else []
    for it in missing([test for test in tests if test.tier in before]):
        print(package(it))
    return 0


def tools_there(tests):
    """Names the tools that are missing; an error where all have to be there."""
    absent = missing(tests)
    for it in absent:
        without = ", ".join(test.title() for test in tests if it in test.words("needs"))
        print(f"{it} is missing, Debian's {package(it)}: not all of {without} is run", flush=True)
    if absent and os.environ.get("V7_CI"):
        sys.exit("all tools have to be there, as V7_CI is set")


def side_by_side(tests):
    """How many tests run at once: one after another if one is of the tier `all`, and takes all processors."""
    return 1 if any(TIERS.index(it.tier) > 2 for it in tests) else PROCESSORS


def minutes(tests):
    """About how long tests take on an idle machine."""
    seconds = [it.seconds for it in tests]
    return max(*seconds, sum(seconds) / side_by_side(tests)) / 60


def run_listed(tests):
    """Runs tests with the programs that are there."""
    tools_there(tests)
    print(f"{len(tests)} tests, about {minutes(tests):.1f} minutes on an idle machine", flush=True)
    for name in sorted({it for test in tests for it in test.words("programs") if not it.endswith(".so")}):
        program(name)
    check_itself()
    return run_jobs({it.title(): it.command() for it in tests}, side_by_side(tests))


def run_jobs(commands, count=1):
    with ThreadPoolExecutor(count) as pool:
        return Tally({pool.submit(passes, *words): name for name, words in commands.items()}).take_all()


def check_itself():
    """A command that fails is noticed alone, among others, and as a part. One whose time is over is stopped, with all that it has begun."""
    notices(passes, "false")
    notices(lambda: same("planted", run_jobs({"planted": ["false"]}), 0))
    notices(lambda: same("planted", run_parts("false"), 0))
    with tempfile.NamedTemporaryFile("r", encoding="utf-8") as file:
        same("what a stopped command comes to", runs(f"setsid sleep 99 & echo $! >{file.name}; wait", time.time() + 1), None)
        same("whether what it has begun goes on", is_alive(int(file.read())), False)


def commit():
    """The commit that the files are of; nothing without git, or if one has changed, but for the digests that a test of wrong bodies
    writes."""
    if not shutil.which("git"):
        return ""
    changed = ran("git", "status", "--porcelain", "--", ".", ":!tests/wrong_bodies/wrong-bodies.seen")
    return "" if changed.status or changed.out else ran("git", "rev-parse", "HEAD").out.decode().strip()


def begun_by(command):
    """The numbers of a process and of all that it has begun, also in sessions of their own."""
    above, found = {}, [command]
    for path in glob.glob("/proc/[0-9]*/stat"):
        with contextlib.suppress(OSError):
            above[int(path.split("/")[2])] = int(read_bytes(path).rpartition(b")")[2].split()[1])
    for one in found:
        found += [it for it, parent in above.items() if parent == one]
    return found


def is_alive(process):
    """Whether a process goes on. One that has ended, and that nobody has asked about, has no words."""
    with contextlib.suppress(OSError):
        return bool(read_bytes(f"/proc/{process}/cmdline"))
    return False


def stop(command):
    """Ends a command and all that it has begun: by a request, at which tests say what they leave out, and then by force."""
    begun, last = begun_by(command.pid), time.monotonic() + LAST_SECONDS / 10
    for number in (signal.SIGTERM, signal.SIGKILL):
        for it in begun:
            with contextlib.suppress(ProcessLookupError):
                os.kill(it, number)
        while any(map(is_alive, begun)) and time.monotonic() < last:
            time.sleep(0.1)


def runs(command, until):
    """Runs a command, which sees when it has to end, and stops it then, or when this script is stopped. Its status, or None."""
    with subprocess.Popen(command, shell=True, start_new_session=True, env={**os.environ, "V7_UNTIL": str(until)}) as running:
        try:
            return running.wait(None if until == math.inf else max(0, until - time.time()))
        except subprocess.TimeoutExpired:
            stop(running)
            return None
        except BaseException:
            stop(running)
            raise


def run_parts(*commands):
    """Runs commands up to one that fails, or to the limit of time, and notes in build/parts those that have passed."""
    limit = int(os.environ.get("V7_CI_SECONDS") or CI_SECONDS)
    until = float(os.environ.get("V7_BEGUN") or time.time()) + limit - LAST_SECONDS if limit else math.inf
    passed, rows, status = {*read(PARTS).split("\n")} if os.path.exists(PARTS) else set(), [], 0
    for at, command in enumerate(commands):
        state, begun = commit(), time.monotonic()
        if state and f"{state} {command}" in passed:
            rows.append(f"passed before       {command}")
            continue
        failed = runs(command, until)
        said = "STOPPED" if failed is None else "FAILED" if failed else ""
        rows.append(f"{(time.monotonic() - begun) / 60:6.1f} minutes {said:7} {command}")
        if failed != 0:
            rows += [f"not run             {other}" for other in commands[at + 1:]]
            rows += [f"the limit is {limit} seconds: what was stopped or not run is not tested"] * (failed is None)
            status = 1
            break
        if state:
            os.makedirs("build", exist_ok=True)
            with open(PARTS, "a", encoding="utf-8") as file:
                file.write(f"{state} {command}\n")
    print("\n".join(rows), flush=True)
    return status


# --- the tests of code

def crates_with_tests():
    """How many functions with `#[test]` each crate has."""
    paths = glob.glob("crates/*/src/**/*.rt", recursive=True)
    return Counter(path.split("/")[1] for path in paths for _ in re.findall(r"^ *#\[test\]", read(path), re.M))


def run_tests(name, count, ask=ran):
    """Runs the tests of a crate: each of them has to run."""
    done = ask("rt", "try", "--test", "--seconds", SECONDS, cwd=f"crates/{name}")
    found = re.search(r"^test result: ok\. (\d+) passed; 0 failed", done.said(), re.M)
    if done.status or not found or int(found[1]) != count:
        said = re.sub(r"^test .* \.\.\. ok\n", "", done.said(), flags=re.M)
        raise Failed(f"{said}{count} tests of {name} should have passed, and the status was {done.status}\n")
    return f"{count} tests of {name}"


# --- tests and cases, with programs that are compiled without proof

def once_compiled(programs, folder, *words):
    """Runs a command with the compiled programs, once these are there."""
    wait(programs)
    if any(job.exception() for job in programs):
        raise Failed("a program is not compiled\n")
    return passes(*words, env={**os.environ, "V7_BUILD": folder, "V7_SECONDS": SECONDS})


def run_unproved(tests):
    """Runs tests side by side, with programs that are compiled without proof, the cases, and the tests of crates."""
    tools_there(tests)
    check_itself()
    notices(run_tests, "planted", 3, lambda *words, **how: Ran(0, b"test result: ok. 2 passed; 0 failed", b""))
    print("Programs are compiled, cases played, texts compared, and the tests of crates run: about 5 minutes on four idle processors.")
    print("All of this is compiled without proof, so it proves nothing: make gate proves it.", flush=True)
    play = [sys.executable, "-m", "tests.cases.cases"]
    folder = os.path.join(TOP, "build", "test")
    os.makedirs(folder, exist_ok=True)
    with ThreadPoolExecutor(PROCESSORS) as pool:
        # what is cheap comes first, and nothing that waits before what it waits for
        first = {pool.submit(passes, *it.command()): it.title() for it in tests if not it.words("programs")}
        programs = {pool.submit(compile_program, TOP, name, folder): f"the program {name}" for name in PROGRAMS}
        programs[pool.submit(compile_library, TOP, folder)] = "libv7"
        work = [(f"tests of {name}", run_tests, name, count) for name, count in crates_with_tests().most_common()]
        # those that repeat most take longest, so they come first
        files = sorted(glob.glob("tests/cases/data/*.case"), key=lambda path: -sum(map(int, re.findall(r"\* ?(\d+)", read(path)))))
        work += [(path, once_compiled, [*programs], folder, *play, path) for path in files]
        work += [(it.title(), once_compiled, [*programs], folder, *it.command()) for it in tests if it.words("programs")]
        tally = Tally({**first, **programs, **{pool.submit(*rest): name for name, *rest in work}})
        status = tally.take_all()
    print(f"{tally.count('([0-9]+) cases played')} cases and {tally.count('([0-9]+) tests of ')} tests passed: nothing was proved")
    return status


# --- which tests and crates a change concerns

def concern(path, test):
    """Why a change of a file concerns a test: it was made for the file, imports the script, or runs a program that has the crate."""
    if any(f"{path}/".startswith(f"{it.rstrip('/')}/") for it in [test.path, *test.words("for")]):
        return "made for it"
    if path.endswith(".py"):
        imports = " ".join(re.findall(r"^ *(?:from|import) .*", read(test.path), re.M))
        return "uses it" if re.search(rf"\b{os.path.basename(path)[:-3]}\b", imports) else ""
    crate = path.split("/")[1] if path.startswith("crates/") else None
    own = [name for name in test.words("programs") if crate in below({**PROGRAMS, "libv7.so": "libv7"}[name], crates_in(TOP))]
    return f"runs {' '.join(sorted(own))}" if own else ""


def print_crate(name):
    """What to do in a crate, and the crates that are proved again after it."""
    crates = {it.name: it for it in crates_under(*crates_in(TOP))}
    above = [it for it in crates.values() if crates[name] in it.below]
    tops = [it.name for it in above if not any(it in other.below for other in above)] or [name]
    count = sum(it.functions() for it in [crates[name], *above])
    print(f"in crates/{name}, which has {crates[name].functions()} functions: rt try --test, rt check --only MODULE::NAME, and rt check")
    print(f"crates above it: {' '.join(it.name for it in above) or 'none'}\n"
          "after an edit of a body, make takes seconds for each of these, from the second time on; from nothing, with it, they have "
          f"{count}\nfunctions, and are proved in about {count * SECONDS_EACH / 60:.0f} minutes of a processor:\n  rt ci {' '.join(tops)}")
    print(f"its wrong bodies:\n  make check-wrong-bodies NAMES={name}")


def print_tests(what, tests, before="V7_BUILD=build/quick "):
    """A command that runs tests, and its minutes. A test goes by its title if not all of its name are run."""
    if tests:
        others = {it.name for it in listed() if it not in tests}
        names = " ".join(dict.fromkeys(shlex.quote(it.title()) if it.name in others else it.name for it in tests))
        print(f"{what}, {minutes(tests):.1f} minutes:\n  {before}python3 -m tests {names}")


def changed_since(commit):
    """The files that have changed since a commit, and those that git does not know."""
    if not shutil.which("git") or ran("git", "rev-parse", "--verify", commit).status:
        sys.exit(f"git, its folder or {commit} is not there: make which CHANGED=PATH")
    asked = [ran("git", "diff", "--name-only", commit), ran("git", "ls-files", "-o", "--exclude-standard")]
    return sorted({path for it in asked for path in it.out.decode().splitlines()})


def which(*paths):
    """Prints the tests and the crates that a change of these files concerns."""
    paths = paths or changed_since(os.environ.get("SINCE") or "HEAD")
    for name in sorted({path.split("/")[1] for path in paths if path.startswith("crates/")} & crates_in(TOP).keys()):
        print_crate(name)
    reasons = [(test, {concern(path, test) for path in paths} - {""}) for test in listed()]
    made = [test for test, why in reasons if why & {"made for it", "uses it"} and TIERS.index(test.tier) < 3]
    print_tests("tests of texts that were made for it, or use it", [it for it in made if it.tier == "text"], "")
    print_tests("other tests that were made for it, or use it, once make quick has compiled the programs and libv7 in 3 minutes",
         [it for it in made if it.tier != "text"])
    cases = [path for path in paths if path.endswith(".case")]
    if cases:
        print(f"these cases alone:\n  V7_BUILD=build/quick python3 -m tests.cases.cases {' '.join(cases)}")
    print("all texts, all cases and tests of code, unproved, 5 minutes:\n  make test\nbefore it is merged, 60 minutes:\n  make check")
    others = [test for test, why in reasons if why and test not in made]
    print_tests("of that, what runs a program with it, also with those of make quick", [it for it in others if it.tier == "check"])
    for test in (it for it in others if it.tier == "all"):
        start, *words = test.command()
        before = "V7_BUILD=build/quick " if test.words("programs") else ""
        print(f"only make check-all runs this, {test.seconds / 60:.0f} minutes:\n  {before}{' '.join([os.path.basename(start), *words])}")
    for path in paths:
        if not os.path.exists(path):
            print(f"{path} is not there")
    return 0


def named(tests, word):
    """The tests of a tier, a folder or a name. One of the tier `all` is chosen by a folder or a name only if no other test is."""
    own = [it for it in tests if it.name == word]
    found = [it for it in tests if word in (it.name, it.title(), it.path.split("/")[-2])]
    found = [it for it in tests if it.tier == word] or [it for it in found if TIERS.index(it.tier) < 3 or own == [it]] or found
    if not found:
        sys.exit(f"there is no test {word}: python3 -m tests list")
    return found


def main(words):
    os.chdir(TOP)
    tests = listed()
    if words[:1] == ["which"]:
        return which(*(os.path.relpath(os.path.abspath(it), TOP) for it in words[1:]))
    if words[:1] == ["needs"] and (len(words) == 1 or words[1] in TIERS):
        return print_needs(tests, *words[1:])
    if words[:1] == ["parts"] and words[1:]:
        # then what it runs is stopped too
        signal.signal(signal.SIGTERM, lambda number, _: sys.exit(128 + number))
        return run_parts(*words[1:])
    if words == ["list"]:
        for it in tests:
            print(f"{it.tier:5} {it.title():24} {it.seconds:5} seconds  {it.path}  {' '.join(it.words('programs'))}".rstrip())
        return 0
    if words == ["test"]:
        return run_unproved([it for it in tests if it.tier in ("text", "test")])
    chosen = [test for word in words for test in named(tests, word)]
    if not chosen:
        sys.exit(__doc__)
    return run_listed(sorted({test.title(): test for test in chosen}.values(), key=tests.index))


if __name__ == "__main__":
    sys.exit(main(sys.argv[1:]))
