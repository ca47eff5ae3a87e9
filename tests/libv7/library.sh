#!/bin/sh
# libv7 as a caller has it: installed into a folder, and found by pkg-config. Its two libraries must show the calls of v7.h and
# nothing else, and the header must compile as C99, C++98 and C++17. tests/libv7/c/calls.c makes each call, and tests/libv7/library.py has
# an input for each fault. The examples in C, Python and Rust are compiled, link objects of examples/ as the program does, with the same
# file, report and status, and run sessions, which compare by themselves. Those in C run under valgrind too. The commands of
# docs/LIBRARY.md are run. The wheel of Python is installed into a fresh environment. Tools that are missing are named.
#
# usage: CC=cc CXX=c++ tests/libv7/library.sh
#
# tier: check, 90 seconds; programs: v7 v7-explain v7-object v7-from-gnu libv7.so;
# for: Makefile crates/libv7 include packaging docs/LIBRARY.md man/v7.3 tests/libv7 examples/c examples/python;
# needs: cc c++ pkg-config valgrind mypy venv rustc cargo
set -u
cd "$(dirname "$0")/../.."
top=$PWD
build=$(realpath "${V7_BUILD:-build}")
V7_BUILD=$build
export V7_BUILD
: "${CC:=cc}" "${CXX:=c++}"
work=$(mktemp -d)
trap 'rm -rf "$work"' EXIT
to=$work/installed
make -s install-lib FROM="$(realpath --relative-to=. "$build")" PREFIX="$to" LIBDIR="$to/lib" INCLUDEDIR="$to/include" DESTDIR= || exit 1
cd "$work"
cp "$top"/examples/*.o .
$build/v7 ld -s -o bad.o main.o >/dev/null
failed=0
fail() {
    echo "$1"
    failed=1
}

# whether a tool is there
has() {
    command -v "$1" >/dev/null || { echo "skipped: $1 is not there"; return 1; }
}

if has pkg-config; then
    PKG_CONFIG_PATH=$work/installed/lib/pkgconfig
    export PKG_CONFIG_PATH
    compiles=$(pkg-config --cflags v7)
    links=$(pkg-config --libs v7)
    version=$(pkg-config --modversion v7)
else
    compiles=-I$work/installed/include
    links="-L$work/installed/lib -lv7"
    version=$(sed -n 's/^Version: //p' installed/lib/pkgconfig/v7.pc)
fi
archive=$work/installed/lib/libv7.a
library=$work/installed/lib/libv7.so.0

# the names that a library shows, and those that the header declares
sed -n 's/^[a-z0-9]*_t \(v7_[a-z_]*\)(.*/\1/p' installed/include/v7.h | sort >declared
[ -s declared ] || fail "v7.h declares no call"
for shown in "-D $library" "-g $archive"; do
    nm --defined-only $shown | awk 'NF == 3 { print $3 }' | sort | diff declared - || fail "v7.h declares something else than nm $shown"
done
readelf -d "$library" | grep -q 'Library soname: \[libv7.so.0\]' || fail "the soname of libv7.so.0 is another"
[ "$(readlink "$library")" = "libv7.so.0.$version" ] && [ "$(readlink installed/lib/libv7.so)" = libv7.so.0 ] ||
    fail "libv7.so and libv7.so.0 are not links to libv7.so.0.$version"
for page in $(grep -o 'docs/[A-Z]*\.md' installed/include/v7.h); do
    [ -s "installed/share/doc/v7/$page" ] || fail "v7.h cites $page, which is not installed"
done
echo "$(wc -l <declared) calls shown by both libraries"

# the header alone, as C and as C++; its version is that of v7.pc
cat >header.c <<'END'
#include "v7.h"
#include <stdio.h>
#include <string.h>

int main(void)
{
    puts(V7_VERSION);
    return V7_REFERS_TO(0) != 010 || V7_REFERS_TO(4095) != 0177770 || V7_REFERS_TO(1) + V7_FROM_PC != 031 ||
           strcmp(v7_strerror(V7_NOTHING), "nothing to withdraw") != 0 || strcmp(v7_strerror(37), "unknown fault") != 0;
}
END
cp header.c header.cpp
# compiles it with these words, and runs it
header() {
    "$@" -pedantic -Wall -Wextra -Werror $compiles -o header && ./header >header.txt || fail "v7.h does not compile, or is wrong: $*"
    echo "$version" | cmp -s - header.txt || fail "the version of v7.h is not that of v7.pc"
    echo "v7.h: $*"
}
header $CC -std=c99 header.c
header $CC -std=c11 header.c
$CC -std=c89 $compiles -fsyntax-only header.c 2>&1 | grep -q 'v7.h needs C99' || fail "v7.h does not say that it needs C99"
if has "$CXX"; then
    header $CXX -std=c++98 header.cpp
    header $CXX -std=c++17 header.cpp
fi

# objects are linked by the program and by a command, which prints the line of each file first: `links NAME COMMAND`
links() {
    for objects in 'main.o twice.o count.o' 'main.o count.o' 'a.o b.o c.o' 'k.o l.o' 'main.o main.o' 'main.o bad.o'; do
        rm -f ours theirs
        $build/v7 ld -o theirs $objects >theirs.txt 2>/dev/null
        theirs=$?
        $2 ours $objects >ours.txt 2>faults.txt
        ours=$?
        [ $ours -eq $theirs ] || fail "$1: the status is $ours and not $theirs for $objects"
        [ $theirs -eq 2 ] || cmp theirs ours || fail "$1: another file for $objects"
        [ $theirs -eq 2 ] || grep -v '^[^ ]*\.o: [0-9]' ours.txt | cmp theirs.txt - || fail "$1: another report for $objects"
    done
    echo "$1: 6 links compared"
}

# runs what compares by itself: `checks NAME WHAT COMMAND ..`
checks() {
    shown="$1: $2"
    shift 2
    "$@" >said.txt 2>&1 && echo "$shown: $(tail -1 said.txt)" || { cat said.txt; fail "$shown differs"; }
}

# compiles a source, with what follows it: `compile PROGRAM SOURCE WORD ..`
compile() {
    made=$1
    shift
    $CC -std=c99 -O2 -Wall -Wextra -Werror -o "$made" $compiles "$@" || exit 1
}

wrapped='-Wl,--wrap=malloc -Wl,--wrap=realloc -Wl,--wrap=free'
compile calls "$top/tests/libv7/c/calls.c" $wrapped "$archive"
checks C "each call" ./calls
# a compiler may leave out a read that the source has, so the calls are made of what is compiled at -O0 too, without proof
if has rt; then
    (cd "$top" && python3 -c 'import sys, tools.sketch; tools.sketch.make(*sys.argv[1:])' "$top" libv7 "$work/plain.a" -O0) || exit 1
    compile calls "$top/tests/libv7/c/calls.c" $wrapped -Wl,--whole-archive plain.a -Wl,--no-whole-archive \
        "$(dirname "$(rt doc)")/c/liblibc_c.a"
    checks "C at -O0" "each call" ./calls
fi
compile stack "$top/tests/libv7/c/stack.c" -pthread "$archive"
./stack >stack.txt && echo "32,768 bytes of stack: $(cat stack.txt)" || fail "a call needs more than that of stack: $(cat stack.txt)"
# the program of v7(3) lists what v7 nm lists, and refuses what is not a file
awk '/^\.Bd -literal/ { getline; on = /^#include/ } /^\.Ed/ { on = 0 } on { gsub(/\\e/, "\\"); print }' "$top/man/v7.3" >list.c
compile list list.c "$archive"
./list <main.o >ours.txt && "$build/v7" nm main.o | cmp - ours.txt || fail "the program of v7(3) lists something else"
./list <list.c 2>ours.txt
[ $? -eq 2 ] && echo "bad magic number" | cmp - ours.txt || fail "the program of v7(3) does not refuse a file"
echo "the program of v7(3) lists what v7 nm lists"
compile by_c "$top/examples/c/link.c" "$archive"
compile ran_by_c "$top/examples/c/session.c" "$archive"
links C ./by_c
# the toy assembler: both definitions of a name and the use of an undefined one have a line, or without a source an address
compile toy "$top/examples/c/toy.c" "$archive"
cp "$top"/examples/c/toy_*.txt .
printf '_twice:\n    return\n' >toy_again.txt
cat >toy.wanted <<'END'
toy_twice.txt:2: _twice is defined here
toy_again.txt:1: _twice is defined here again
twice.o at 000000: _twice is defined here again
END
toy() {
    $1 ours toy_main.txt toy_twice.txt >toy.txt 2>&1 && $1 theirs toy_main.txt twice.o >>toy.txt 2>&1
    $1 ours toy_main.txt toy_twice.txt toy_again.txt twice.o >>toy.txt 2>&1
    $1 ours toy_main.txt main.o >>toy.txt 2>&1
    head -3 toy.txt | cmp -s - toy.wanted && grep -q '^toy_main\.txt:3: _twice is not defined$' toy.txt &&
        grep -q '^main\.o at 0000.*: _twice is not defined$' toy.txt || { cat toy.txt; fail "the toy assembler shows other places: $1"; }
}
toy ./toy
# it names what it cannot read or write
./by_c out missing.o 2>&1 | grep -q '^missing\.o: ' || fail "the example in C says nothing of a file that is not there"
./by_c missing/out main.o 2>&1 | grep -q '^missing/out: ' || fail "the example in C says nothing of a file that it cannot write"
./by_c 2>&1 | grep -q '^usage: ' || fail "the example in C says nothing of missing arguments"
checks C "a session" ./ran_by_c
compile by_shared "$top/examples/c/link.c" $links
compile ran_by_shared "$top/examples/c/session.c" $links
LD_LIBRARY_PATH=$work/installed/lib${LD_LIBRARY_PATH:+:$LD_LIBRARY_PATH}
export LD_LIBRARY_PATH
links "C with libv7.so" ./by_shared
checks "C with libv7.so" "a session" ./ran_by_shared
# what docs/LIBRARY.md shows: each block whose first line begins with one of these programs, in a copy of the examples
cp -r "$top/examples" page
"$build/v7" ld -o theirs main.o twice.o count.o
run_shown() {
    awk -v first="$1" '/^    / { if (!inside) on = index($0, "    " first " ") == 1; inside = 1; if (on) print; next } { inside = 0 }' \
        "$top/docs/LIBRARY.md" >shown.sh
    [ -s shown.sh ] || fail "docs/LIBRARY.md shows no command of $1"
    rm -f page/program
    (cd page && LIBV7=$library PYTHONPATH=$top/packaging/python sh -e ../shown.sh) >/dev/null && cmp theirs page/program ||
        fail "docs/LIBRARY.md: the commands of $1"
    echo "docs/LIBRARY.md: the commands of $1"
}
if has pkg-config; then
    for program in cc python3; do
        has $program && run_shown $program
    done
fi
if has valgrind; then
    watched='valgrind -q --error-exitcode=9 --leak-check=full'
    links "C with valgrind" "$watched ./by_c"
    checks "C with valgrind" "a session" $watched ./ran_by_c
fi
LIBV7=$library
PYTHONDONTWRITEBYTECODE=1
PYTHONPATH=$top
export LIBV7 PYTHONDONTWRITEBYTECODE PYTHONPATH
links Python "env PYTHONPATH=$top/packaging/python python3 $top/examples/python/link.py"
checks Python "a session" env "PYTHONPATH=$top/packaging/python" python3 "$top/examples/python/session.py"
# the notebook has the instructions that use another object, and what is undefined without objects
PYTHONPATH=$top/packaging/python python3 "$top/examples/python/notebook.py" main.o twice.o count.o >notebook.txt &&
    grep -qF '| main.o | 000004 | `jsr pc,_twice` |' notebook.txt && grep -qF '| twice.o | `_twice` |' notebook.txt ||
    fail "the notebook shows something else"
# the relinker follows a folder: an object more, one that is cut short, and both undone
mkdir watched
cp main.o twice.o watched
PYTHONPATH=$top/packaging/python python3 "$top/examples/python/relink.py" relinked watched >relinked.txt 2>&1 &
relinker=$!
# waits until it has linked what is there, or said this
relinks() {
    "$build/v7" ld -o theirs watched/*.o >/dev/null 2>&1
    for tenth in $(seq 100); do
        if [ $# -gt 0 ]; then grep -q "$1" relinked.txt && return; else cmp -s theirs relinked && return; fi
        sleep 0.1
    done
    cat relinked.txt
    fail "the relinker does not link what is there"
}
relinks
cp count.o watched
relinks
head -c 20 main.o >watched/main.o
relinks 'watched/main\.o: truncated, object 1'
cp main.o watched
rm watched/count.o
relinks
kill $relinker
echo "Python: a notebook, and a folder relinked"
checks Python "each fault" python3 -m tests.libv7.library
if has mypy; then
    export MYPYPATH="$top/packaging/python" MYPY_CACHE_DIR="$work/mypy"
    mypy --strict "$top/packaging/python/v7.py" || fail "Python: mypy does not take the type hints"
    mypy "$top"/examples/python/*.py || fail "Python: mypy does not take the examples"
    ! mypy "$top/tests/libv7/wrong_types.py" >wrong.txt &&
        test "$(grep -c ': error: .* has incompatible type' wrong.txt)" -eq "$(grep -c '^v7' "$top/tests/libv7/wrong_types.py")" ||
        { cat wrong.txt; fail "Python: mypy takes a wrong type"; }
fi
unset LIBV7
# the wheel, in an environment that has nothing else
if python3 -m venv fresh 2>/dev/null; then
    (cd "$top" && python3 packaging/python/backend.py "$work" "$build/libv7.so.0" >/dev/null) || fail "Python: no wheel is made"
    mkdir wheel
    cp "$top"/examples/python/*.py wheel
    python3 -m tests.libv7.wheel v7-*.whl || fail "Python: the wheel is not as an index wants it"
    pip="fresh/bin/pip install -q --no-index --disable-pip-version-check"
    $pip v7-*.whl || fail "Python: the wheel is not installed"
    links "Python, from the wheel" "env -u LD_LIBRARY_PATH fresh/bin/python wheel/link.py"
    checks "Python, from the wheel" "a session" env -u LD_LIBRARY_PATH fresh/bin/python wheel/session.py
    $pip --force-reinstall --config-settings="library=$build/libv7.so.0" "$top/packaging/python" ||
        fail "Python: packaging/python is not installed by pip"
    checks "Python, installed by pyproject.toml" "a session" env -u LD_LIBRARY_PATH fresh/bin/python wheel/session.py
else
    echo "skipped: python3 has no venv"
fi
# the crates of Rust, in a copy, without any other crate
if has cargo; then
    cp -r "$top/packaging/rust" crates
    grep -q "^v7-sys = .*version = \"=$version\"" crates/Cargo.toml || fail "the crate v7 wants another v7-sys"
    LIBV7_DIR=$work/installed/lib cargo build -q --offline --release --examples --manifest-path crates/Cargo.toml || exit 1
    links "Rust by the crate v7" crates/target/release/examples/link
    toy crates/target/release/examples/toy
fi
exit $failed
