"""Makes libv7 for a browser, as a module of WebAssembly with addresses of 32 bits and without imports.

usage: python3 -m tools.module FILE.wasm            of what `make lib` proved, which build/proved keeps
       python3 -m tools.module --quick FILE.wasm    of the sources, without any proof

The kit compiles no library with a heap for wasm64, as the heap is C. So the module of LLVM that it makes for x86-64 is taken, which a
proved build gives to clang as it is, and is compiled for wasm64: both have pointers of 64 bits, and their lowest byte first.
packaging/heap.c has the heap. Debian's binaryen makes addresses of 32 bits, since not every browser has others."""
import hashlib
import os
import re
import subprocess
import sys
import tempfile

from tests.lib.files import TOP, read, read_bytes, write
from tools import prove, sketch
from tools.compiling import kit, once

# the crate of libv7
CRATE = "libv7"
TARGET = "--target=wasm64-unknown-unknown"
FEATURES = ["memory64", "bulk-memory", "sign-ext", "nontrapping-float-to-int", "multivalue", "mutable-globals"]
HEAP = """define internal {{ i64, i64 }} @rattle_{name}({arguments}) {{
  %none = icmp eq i64 %new, 0
  %size = select i1 %none, i64 %align, i64 %new
  %made = call ptr @{call}
  %place = ptrtoint ptr %made to i64
  %ok = icmp ne i64 %place, 0
  %flag = zext i1 %ok to i64
  %value = select i1 %ok, i64 %place, i64 %align
  %first = insertvalue {{ i64, i64 }} undef, i64 %flag, 0
  %both = insertvalue {{ i64, i64 }} %first, i64 %value, 1
  ret {{ i64, i64 }} %both
}}
"""
# the heap of the kit, of which C has three functions, by those of heap.c; what is for x86-64 goes
CHANGES = [
    (r'^target datalayout = .*$', 'target datalayout = "e-m:e-p:64:64-p10:8:8-p20:8:8-i64:64-i128:128-n32:64-S128-ni:1:10:20"'),
    (r'^target triple = .*$', 'target triple = "wasm64-unknown-unknown"'),
    (r' "(?:target-cpu|target-features|tune-cpu|probe-stack|stack-probe-size)"="[^"]*"', ""),
    (r'^declare .*@rattle_alloc\(.*$', HEAP.format(name="alloc", arguments="i64 %new, i64 %align", call="malloc(i64 %size)")
     + "declare ptr @malloc(i64)\ndeclare ptr @realloc(ptr, i64)\ndeclare void @free(ptr)"),
    (r'^declare .*@rattle_realloc\(.*$', HEAP.format(name="realloc", arguments="ptr %old, i64 %had, i64 %new, i64 %align",
                                                     call="realloc(ptr %old, i64 %size)")),
    (r'^declare .*@rattle_dealloc\(.*$', "define internal void @rattle_dealloc(ptr %old) {\n  call void @free(ptr %old)\n  ret void\n}\n"),
    (r'^declare i64 @__sysv_signal.*$', "define internal i64 @__sysv_signal(i32 %a, i64 %b) {\n  ret i64 0\n}"),
]


def retargeted(text):
    for old, new in CHANGES:
        text = re.sub(old, lambda _, new=new: new, text, flags=re.M)
    left = re.findall(r"^declare .*@(?!llvm\.|malloc|realloc|free|memcpy|memmove|memset|memcmp)(\S+?)\(", text, re.M)
    if left:
        sys.exit(f"the module calls what is not there: {' '.join(left)}")
    return text


def run(*words, **how):
    subprocess.run(words, check=True, **how)


def proved_module(work):
    """The module of LLVM that the kit compiles of the proved libv7: clang is a script, which keeps it."""
    real = f"{kit()}/toolchain"
    os.makedirs(f"{work}/toolchain/bin")
    os.symlink(f"{real}/lib", f"{work}/toolchain/lib")
    for name in os.listdir(f"{real}/bin"):
        if name != "clang":
            os.symlink(f"{real}/bin/{name}", f"{work}/toolchain/bin/{name}")
    write(f"{work}/toolchain/bin/clang", f'#!/bin/sh\n[ ! -e module.bc ] || cp module.bc {work}/taken\nexec {real}/bin/clang "$@"\n')
    os.chmod(f"{work}/toolchain/bin/clang", 0o755)
    crates, made = prove.crates_under(CRATE), prove.Kit(work)
    made.toolchain = ["--toolchain", f"{work}/toolchain"]
    proving = prove.Proving(crates, made)
    *below, top = crates
    for crate in below:
        if not proving.found(crate):
            sys.exit(f"{crate.name} is not proved as it is now: `make lib` does that")
    # a proof over what the prover kept leaves only what was built: then it is made again
    [words] = made.building(top, f"{work}/lib.a", 0 if proving.found(top) else os.cpu_count())
    run(*words, cwd=f"crates/{CRATE}")
    run(f"{real}/bin/clang", "-x", "ir", "-S", "-emit-llvm", "-O0", "-o", f"{work}/module.ll", f"{work}/taken")
    return read(f"{work}/module.ll")


def quick_module(work):
    sketch.make(TOP, CRATE, f"{work}/unproved.ll")
    return read(f"{work}/unproved.ll")


def compiled(work, text):
    """The module of WebAssembly of a module of LLVM: the calls that the page makes, and what they need."""
    bin_of = f"{kit()}/toolchain/bin"
    calls = sorted(set(re.findall(r'"(v7_[a-z_]+)"', read("page/session.js"))))
    write(f"{work}/v7.ll", retargeted(text))
    run(f"{bin_of}/clang", TARGET, "-x", "ir", "-O2", "-c", "-o", f"{work}/v7.o", f"{work}/v7.ll")
    run(f"{bin_of}/clang", TARGET, "-O2", "-ffreestanding", "-fno-builtin", "-c", "-o", f"{work}/heap.o", "packaging/heap.c")
    os.symlink(f"{bin_of}/ld.lld", f"{work}/wasm-ld")
    run(f"{work}/wasm-ld", "-mwasm64", "--no-entry",
        *(f"--export={name}" for name in [*calls, "malloc", "realloc", "free", "heap_out", "heap_limit"]),
        "--gc-sections", "--strip-all", "--stack-first", "-z", "stack-size=1048576", "-o", f"{work}/v7_64.wasm", f"{work}/v7.o",
        f"{work}/heap.o")
    run("wasm-opt", *(f"--enable-{name}" for name in FEATURES), "--memory64-lowering", "-O2", f"{work}/v7_64.wasm", "-o", f"{work}/v7.wasm")
    return read_bytes(f"{work}/v7.wasm")


def make(file, module):
    with tempfile.TemporaryDirectory() as work:
        write(file, compiled(work, module(work)))


def main(*words):
    file = os.path.abspath(words[-1])
    os.chdir(TOP)
    if words[0] == "--quick":
        how = hashlib.sha256("".join(map(read, ("tools/module.py", "packaging/heap.c", "page/session.js"))).encode()).hexdigest()
        once(TOP, CRATE, file, lambda: make(file, quick_module), how)
    else:
        make(file, proved_module)


if __name__ == "__main__":
    if len(sys.argv) < 2:
        sys.exit(__doc__)
    main(*sys.argv[1:])
