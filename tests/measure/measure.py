"""Measures what the tests reach of code, and what they notice: `make measure`. It prints three figures, which CONTRIBUTING explains.

usage: python3 -m tests.measure.measure [edges | mutants | fuzz ..]   these, or all
       MUTANTS=PREFIX python3 -m tests.measure.measure mutants        only mutants whose names begin so, such as v7_explain::question

Programs are compiled without proof, once with edges that are noted and once with mutants (tests/measure/mutants.py), and libv7 for
libFuzzer, with the tests of the kit and the address sanitizer. All is in build/measure. An error if a mutant survives that
tests/measure/judged does not have, or if none survives of what it has; if fewer than 98 of 100 negated conditions are noticed, without
those judged equal; or if libFuzzer finds a fault.

tier: measure, 2400 seconds; needs: cc clang fuzzer; for: tests/measure
"""
import bisect
import collections
import fnmatch
import glob
import json
import os
import random
import re
import shutil
import struct
import sys
import tempfile
from concurrent.futures import ProcessPoolExecutor, ThreadPoolExecutor

from tests.lib.files import TOP, read, read_bytes, write
from tests.lib.programs import PROGRAMS, asked, ran
from tests.lib.rattle import crates_in
from tests.lib.tally import Failed
from tests.measure import mutants, replaying
from tests.measure.mutants import REACHED, compiled, link
from tests.measure.recording import RECORDED, digest
from tools import sketch
from tools.compiling import kit, once

FOLDER = f"{TOP}/build/measure"
PROCESSORS = len(os.sched_getaffinity(0))
NEGATED_WANTED = 98
FUZZ_SECONDS = int(os.environ.get("FUZZ_SECONDS") or 600)
# what runs with edges that are noted
TESTS = ["cases.cases", "programs.terminal", "programs.folders", "oracles.idioms", "oracles.origin 45", "oracles.map", "oracles.notes",
         "oracles.disassembly", "oracles.mistakes", "oracles.agree", "oracles.agree -l 500 1000", "libv7.library"]


def compile_one(name):
    """Compiles a program with edges and with mutants, or libv7 with edges and for libFuzzer."""
    with tempfile.TemporaryDirectory(dir=FOLDER) as work:
        lines = list(sketch.module(TOP, PROGRAMS.get(name, name), work))
        edges = compiled(work, sketch.without_tests(lines), "-O0", "-fsanitize-coverage=trace-pc-guard,pc-table", "-c")
        link(work, path_of(name), name, edges)
        if name == "libv7":
            checked = compiled(work, lines, "-O1", "-fsanitize=address", "-c",
                               "-fsanitize-coverage=inline-8bit-counters,pc-table,trace-cmp")
            sketch.run("clang", "-O1", "-g", "-std=gnu11", "-Wall", "-Wextra", "-Werror", "-fsanitize=fuzzer,address", f"-I{TOP}/include",
                       "-o", f"{FOLDER}/fuzz", f"{TOP}/tests/measure/fuzz.c", checked, f"{kit()}/c/liblibc_c.a")
        else:
            found = mutants.compile_with(work, lines, f"{FOLDER}/mutants/{name}", name)
            write(f"{FOLDER}/mutants/{name}.numbers", json.dumps(found))
    write(f"{FOLDER}/{name}.made", "")


def compile_all():
    os.makedirs(f"{FOLDER}/mutants", exist_ok=True)
    how = digest(b"".join(read_bytes(f"{TOP}/tests/measure/{name}") for name in ("mutants.py", "runtime.c", "fuzz.c")))
    with ThreadPoolExecutor(PROCESSORS) as pool:
        jobs = {name: pool.submit(once, TOP, crate, f"{FOLDER}/{name}.made", lambda name=name: compile_one(name), how)
                for name, crate in {"libv7": "libv7", **PROGRAMS}.items()}
        print("compiled with edges and mutants, without proof:", *(f"{name} ({job.result()})" for name, job in jobs.items()), flush=True)


def path_of(name):
    return f"{FOLDER}/libv7.so" if name == "libv7" else f"{FOLDER}/{name}"


# --- edges

def run_test(words):
    """Runs a test with edges that are noted. The commands of those that SCRIPTS does not have are recorded."""
    by = [] if words.startswith("programs.") else ["tests.measure.recording"]
    done = ran(sys.executable, "-m", *by, *f"tests.{words}".split(), cwd=TOP,
               env={**os.environ, "V7_BUILD": FOLDER, "LIBV7": path_of("libv7"), "V7_SECONDS": "300"})
    if done.status:
        raise Failed(f"{words}: {done.said()[-2000:]}")


def run_tests():
    for folder in (RECORDED, REACHED):
        shutil.rmtree(folder, ignore_errors=True)
        os.makedirs(folder)
    with ThreadPoolExecutor(PROCESSORS) as pool:
        list(pool.map(run_test, TESTS))


def edges_of(name):
    """The functions of a program, as names of the source: for each how many edges it has, and how many were reached."""
    begin, *places = (word for word, in struct.iter_unpack("<Q", read_bytes(f"{REACHED}/{name}.places")))
    starts = sorted((int(at, 16), function) for at, function in re.findall(r"^(\w+) [tTwW] (.*)$", asked("nm", path_of(name)), re.M))
    found = collections.defaultdict(lambda: [0, 0])
    for place, reached in zip(places[::2], read_bytes(f"{REACHED}/{name}.edges")[1:]):
        count = found[mutants.source_name(starts[bisect.bisect_right(starts, (place - begin, "\x7f")) - 1][1])]
        count[0] += 1
        count[1] += reached
    return found


def print_edges():
    """Prints the edges that were reached, by crate, and the functions that nothing runs. A function counts once for all programs, with the
    one that reaches most of it."""
    best = {}
    for name in ["libv7", *PROGRAMS]:
        for function, (count, reached) in edges_of(name).items():
            best[function] = max(best.get(function, (0, 0)), (reached, count))
    own, total = crates_in(TOP), [0, 0]
    for crate in own:
        of = [count for function, count in best.items() if function.split("::")[0] == crate]
        reached, count = sum(it[0] for it in of), sum(it[1] for it in of)
        total = [total[0] + reached, total[1] + count]
        if count:
            print(f"{crate:16} {reached:6} of {count:6} edges, {100 * reached // count} %")
    # what the compiler makes, such as a drop, has a name with ++
    print("nothing runs:", *sorted(it for it, (reached, _) in best.items() if not reached and it.split("::")[0] in own and "++" not in it),
          sep="\n    ")
    print(f"figure 1: {total[0]} of {total[1]} edges were reached, {100 * total[0] / total[1]:.1f} %", flush=True)


# --- mutants

def judged():
    """The patterns of mutants that were judged, each with what was found: equal, noticed by another test, or a case is owed."""
    return dict(re.findall(r"^(\S+ \S+ \S+): (equal|noticed|owed)\b", read(f"{TOP}/tests/measure/judged"), re.M))


def print_mutants():
    """Plays the recorded commands with each mutant, and prints those that survive and are not judged, and the shares of each kind."""
    prefix, alive = os.environ.get("MUTANTS", ""), {}
    for name in PROGRAMS:
        numbers = json.loads(read(f"{FOLDER}/mutants/{name}.numbers"))
        alive[name] = {mutant: number for mutant, number in numbers.items() if mutant.startswith(prefix)}
    with tempfile.TemporaryDirectory() as top, ProcessPoolExecutor(PROCESSORS) as pool:
        dead, reached = replaying.killed(pool, replaying.Commands(f"{FOLDER}/mutants", top), alive)
    every, known = set().union(*alive.values()), judged()
    matched = {pattern: set(fnmatch.filter(every, pattern)) for pattern in known}
    equal, noticed = (set().union(*(matched[it] for it in known if known[it] == kind)) - dead for kind in ("equal", "noticed"))
    dead |= noticed
    faults = [f"survives{'' if it in reached else ', and no command reaches it'}: {it}" for it in
              sorted(every - dead - set().union(*matched.values()))]
    faults += [f"is judged, but no such mutant survives: {pattern}" for pattern, them in matched.items()
               if not prefix and them <= dead - noticed]
    print(*faults, sep="\n")
    shares = {}
    for kind in mutants.KINDS:
        of = {it for it in every - equal if it.split()[1] == kind}
        shares[kind] = 100 * len(of & dead) / max(1, len(of))
        print(f"{kind:9} {len(of & dead):5} of {len(of):5} mutants are noticed, {shares[kind]:.1f} %")
    print(f"figure 2: {len(dead)} of {len(every - equal)} mutants are noticed, {shares['negated']:.1f} % of negated conditions; "
          f"{len(equal)} more are judged equal", flush=True)
    return faults or shares["negated"] < NEGATED_WANTED


# --- libFuzzer

def write_seeds(folder):
    """Begins with files of the examples and of the recorded commands, each as bytes for several calls, and lists of such files."""
    choice, files = random.Random(1979), sorted(glob.glob(f"{TOP}/examples/*.[og]*") + glob.glob(f"{RECORDED}/files/*"))
    seeds = [data for data in map(read_bytes, files) if len(data) < 2000][:3000]
    for number, data in enumerate(seeds):
        write(f"{folder}/{number}", bytes([choice.randrange(10), choice.randrange(256), choice.randrange(256)]) + data)
        several = b"".join(len(it).to_bytes(2, "little") + it for it in choice.sample(seeds, 3))
        write(f"{folder}/{number}-list", bytes([choice.randrange(10, 13), choice.randrange(256), choice.randrange(256)]) + several)


def fuzz():
    """Runs libFuzzer, and returns its last lines."""
    with tempfile.TemporaryDirectory() as work:
        write_seeds(f"{work}/seeds")
        os.makedirs(f"{work}/new")
        done = ran(f"{FOLDER}/fuzz", f"-max_total_time={FUZZ_SECONDS}", "-print_final_stats=1", "-max_len=65536", f"{work}/new",
                   f"{work}/seeds", cwd=work, env={**os.environ, "ASAN_OPTIONS": "detect_leaks=0"})
        for path in glob.glob(f"{work}/crash-*") + glob.glob(f"{work}/timeout-*"):
            shutil.copy(path, FOLDER)
    return done


def print_fuzz(done):
    said = done.said()
    executions = re.search(r"stat::number_of_executed_units: *(\d+)", said)
    if done.status or not executions:
        print(said[-4000:])
    covered = re.findall(r"cov: (\d+)", said)
    print(f"figure 3: {executions and executions[1]} inputs by libFuzzer in {FUZZ_SECONDS} seconds, which reach "
          f"{covered and covered[-1]} edges: {'a FAULT, whose bytes are in build/measure' if done.status else 'no fault'}", flush=True)
    return done.status


def main(parts):
    os.chdir(TOP)
    compile_all()
    with ThreadPoolExecutor(1) as beside:
        if "edges" in parts:
            run_tests()
        fuzzing = beside.submit(fuzz) if "fuzz" in parts else None
        status = 0
        if "edges" in parts:
            print_edges()
        if "mutants" in parts:
            status |= bool(print_mutants())
        if fuzzing:
            status |= bool(print_fuzz(fuzzing.result()))
    return status


if __name__ == "__main__":
    sys.exit(main(sys.argv[1:] or ["edges", "mutants", "fuzz"]))
