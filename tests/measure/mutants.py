"""Mutants of code that is only tested: of functions whose contract has no `ensures`, and of `texts`. Each program has all of its mutants;
the variable MUTANT, such as v7:12, switches one on. They are made in the module of LLVM, where it has what the source has:

    negated    a condition is negated, or a comparison by == or != that is the value of an expression
    bound      a comparison by <, <=, > or >= counts one more, or one fewer, but for the end of a loop
    constant   a number from 2 on is one larger, in arithmetic or as an argument
    put        a call that puts something into a text is dropped

A mutant has a name: its function, its kind, and which of this kind it is in the function. Instances of a generic function share it."""
import collections
import glob
import os
import re

from tests.lib.files import TOP, read
from tests.lib.rattle import functions, items
from tools import sketch
from tools.compiling import kit

FUNCTION = re.compile(r'define .*@"([^"]*)"')
COMPARISON = re.compile(r"  (%\w+) = icmp (\w+) (i\d+ .*)$")
BRANCH = re.compile(r"  br i1 (%\w+), label %((?:then|true)[\w.]*), label %((?:else|false)[\w.]*)$")
ARITHMETIC = re.compile(r"  %\w+ = (?:add|sub|mul|udiv|urem|and|or|shl|lshr) (?:nuw )?(?:nsw )?(i\d+) \S+, (\d+)$")
CALL = re.compile(r'  (?:%\w+ = )?call .*@"(?!rattle-|core::|std|alloc)')
NUMBER = re.compile(r"\(.*\b(i8|i16|i32|i64) (\d+)")
PUT = re.compile(r'  call void (@"[^"]*::(?:put\w*|say)(?:::<[^"]*)?")\(')
TEST = '  call void @"rattle-'
KINDS = ["negated", "bound", "constant", "put"]
MOVED = {"ult": "ule", "ule": "ult", "ugt": "uge", "uge": "ugt", "slt": "sle", "sle": "slt", "sgt": "sge", "sge": "sgt"}
DECLARED = "declare zeroext i1 @v7_mutant(i32) nounwind willreturn memory(none)\ndeclare void @v7_nothing()\n"
REACHED = f"{TOP}/build/measure/reached"
# more than there are
MOST_MUTANTS = 1 << 16


def tested_only():
    """The functions that are only tested, as `crate::module::name`."""
    found = set()
    for path in glob.glob(f"{TOP}/crates/*/src/**/*.rt", recursive=True):
        crate, _, *folders = os.path.relpath(path, f"{TOP}/crates")[:-len(".rt")].split("/")
        module = "::".join([crate, *(it for it in folders if it not in ("lib", "main"))])
        for function in (it for item in items(read(path)) for it in functions(item)):
            if crate == "texts" or not any("ensures" in line for clause in function.clauses for line in clause):
                found.add(f"{module}::{function.name}")
    return found


def source_name(name):
    """The function of the source of one of a module, as `crate::module::name`, or with the type before the name: without what a generic one
    is made for. A closure counts as its function."""
    return re.sub(r"::fn::(\w+)::.*", r"::\1", re.sub(r"::<.*", "", name))


class Mutants:
    """The mutants of a program, by their names, each with its number."""

    def __init__(self):
        self.numbers, self.only = {}, tested_only()

    def lines(self, module):
        """The lines of a module, with its mutants."""
        is_declared, function = False, []
        for line in module:
            if line.startswith(("define", "declare")) and not is_declared:
                is_declared = True
                yield DECLARED
            if line.startswith("define") or function:
                function.append(line.rstrip("\n"))
                if line.startswith("}"):
                    yield from (f"{it}\n" for it in self.mutated(function))
                    function = []
            else:
                yield line

    def mutated(self, lines):
        """The lines of a function with its mutants, if it is only tested."""
        found = FUNCTION.match(lines[0])
        name = source_name(found[1]) if found else ""
        *before, last = name.split("::")
        if "::".join([*(it for it in before if not it[:1].isupper()), last]) not in self.only:
            return lines
        made, counts, is_loop = [], collections.Counter(), False
        first_of = {line.split(":")[0]: lines[at + 1] for at, line in enumerate(lines) if re.match(r"[\w.]+:", line)}
        for at, line in enumerate(lines):
            ends = next((it for it in lines[at:] if it.startswith(("  br ", "  ret ", "  switch ", "  unreachable"))), "")
            is_loop = line.startswith("loop") or is_loop and not re.match(r"[\w.]+:", line)
            kind, changed = change(line, lines[at + 1:at + 3], ends, first_of)
            if kind and not (is_loop and kind == "bound"):
                counts[kind] += 1
                number = self.numbers.setdefault(f"{name} {kind} {counts[kind]}", len(self.numbers) + 1)
                made.append(f"  %m{number} = call zeroext i1 @v7_mutant(i32 {number})")
                made += changed.replace("%M", f"%m{number}").split("\n")
            else:
                made.append(line)
        return made


def change(line, after, ends, first_of):
    """The kind of the mutant of a line of a module, and its lines, in which %M switches it on; or no kind, and the line. What serves a test
    of the kit has no mutant. `ends` is the end of its block, and `first_of` has the first line of each block."""
    found = COMPARISON.match(line)
    if found and not any(it.startswith(TEST) or "label %trap" in it for it in after):
        result, word, operands = found.groups()
        plain = f"  %M.a = icmp {word} {operands}\n"
        if word in MOVED:
            return "bound", f"{plain}  %M.b = icmp {MOVED[word]} {operands}\n  {result} = select i1 %M, i1 %M.b, i1 %M.a"
        if not BRANCH.match(ends):
            return "negated", f"{plain}  {result} = xor i1 %M.a, %M"
    found = BRANCH.match(line)
    if found and not any(first_of[it].startswith(TEST) for it in found.groups()[1:]):
        return "negated", f"  %M.a = xor i1 {found[1]}, %M\n  br i1 %M.a, label %{found[2]}, label %{found[3]}"
    found = PUT.match(line)
    if found:
        return "put", f"  %M.a = select i1 %M, ptr @v7_nothing, ptr {found[1]}\n{line.replace(found[1], '%M.a', 1)}"
    found = ARITHMETIC.match(line)
    if not found or found[1] == "i64" and not re.search("div|rem", line):
        found = CALL.match(line) and NUMBER.search(line)
    if found and int(found[2]) > 1:
        other = f"  %M.a = select i1 %M, {found[1]} {int(found[2]) + 1}, {found[1]} {found[2]}\n"
        return "constant", f"{other}{line[:found.start(2)]}%M.a{line[found.end(2):]}"
    return "", line


def without_assumptions(lines):
    """The lines of a module without its tests. Nothing follows from what they would have tested, as a mutant may break it."""
    return (line.replace("  unreachable\n", "  ret void\n") if sketch.TEST.match(line) else line for line in sketch.without_tests(lines))


def compiled(work, lines, *flags):
    """Compiles the lines of a module, or what these flags ask for, in a folder, and returns the path of that."""
    with open(f"{work}/module.ll", "w", encoding="utf-8") as file:
        file.writelines(lines)
    sketch.run(f"{kit()}/toolchain/bin/clang", "--target=x86_64-unknown-linux-gnu", "-x", "ir", "-fPIC", "-mllvm", "-trap-unreachable",
               *flags, "-o", f"{work}/compiled", f"{work}/module.ll")
    return f"{work}/compiled"


def link(work, made, name, *objects):
    """Links a program with what a measured one has besides."""
    sketch.run("cc", "-O1", "-fPIC", "-fno-stack-protector", "-c", f'-DNAME="{name}"', f'-DREACHED="{REACHED}"',
               f"-DMOST_MUTANTS={MOST_MUTANTS}", "-o", f"{work}/runtime.o", f"{TOP}/tests/measure/runtime.c")
    sketch.link(made, name, *objects, f"{work}/runtime.o")


def compile_with(work, lines, made, name):
    """Compiles the lines of a module with its mutants into a program, and returns the mutants that can change what it does, each with its
    number: the compiler leaves out what no result depends on."""
    every = Mutants()
    optimized = read(compiled(work, without_assumptions(every.lines(lines)), "-O1", "-S", "-emit-llvm"))
    left = set(map(int, re.findall(r"call .*@v7_mutant\(i32 (?:\w+ )*(\d+)\)", optimized)))
    link(work, made, name, compiled(work, [optimized], "-O0", "-c"))
    return {mutant: number for mutant, number in every.numbers.items() if number in left}
