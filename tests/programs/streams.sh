#!/bin/sh
# Runs the programs with standard streams closed, and compares their files, faults and statuses: what goes to a closed stream is a write
# error, what is read from one is a read error, and no file that a command opens takes the place of one. It also tries more files than may
# be open, a device that is full, an output that is the input, and files that are larger than the memory.
#
# tier: check, 10 seconds; programs: v7 v7-explain v7-object v7-from-gnu v7-origin; for: crates/host
set -u
cd "$(dirname "$0")/../.."
build=$(realpath "${V7_BUILD:-build}")
top=$PWD
PATH=$build:$PATH
for program in v7 v7-explain v7-object v7-from-gnu v7-origin; do
    [ -x "$build/$program" ] || { echo "$build/$program is missing: make builds it"; exit 2; }
done
work=$(mktemp -d)
trap 'rm -rf "$work"' EXIT
cp examples/*.o examples/squares.gnu "$work"
cd "$work" || exit 2
# what is said of a failure goes there, though standard output is closed
exec 9>&1

fail() {
    echo "$1" >&9
    : >"$work/failed"
}

# the run just before ended with this status, and the file `fault` holds this line, or nothing
expect() {
    [ "$status" -eq "$2" ] && echo "$3" | sed '/^$/d' | cmp -s - fault || fail "$1: status $status and '$(cat fault)', not $2 and '$3'"
}

# a command ends with this status and this fault
tried() {
    what=$1 wanted=$2 said=$3
    shift 3
    "$@" 2>fault 9>&-
    status=$?
    expect "$what" "$wanted" "$said"
}

# the same of a run just before whose fault cannot be seen: `ended WHAT STATUS`
ended() {
    status=$?
    : >fault
    expect "$1" "$2" ''
}

# two files are the same
same() {
    cmp "$1" "$2" >differs 2>&1 || fail "$(cat differs)"
}

# the words of a fault
fault_words() {
    sed -n "s/^$1 //p" "$top/tests/lib/faults"
}

# both report a difference that is planted
status=0
echo planted >fault
for plant in "expect planted 0 a" "expect planted 1 planted" "same fault /dev/null" "tried planted 0 a cat fault"; do
    ($plant) 9>/dev/null >/dev/null
    rm failed 2>/dev/null || { echo "a planted difference is not reported: $plant"; exit 1; }
done

# what the program writes with its streams open
tried 'ld with a report' 1 '' v7 ld -o reported main.o count.o >report
tried 'ld without one' 0 '' v7 ld -o whole main.o twice.o count.o >report
cp whole stripped
tried 'strip' 0 '' v7 strip stripped

# more files than may be open: no output is made
(ulimit -n 64 && exec v7 ld -o out main.o $(yes twice.o | head -n 99)) >answers 2>fault; status=$?
expect 'too many files' 2 "v7: twice.o: $(fault_words open)"
[ ! -e out ] || fail 'too many files: an output is there'

# the folder that is to hold standard input can't be opened: two streams are open, and no more may be
if [ "$(head -c 2 "$build/v7")" = '#!' ]; then
    echo 'skipped: no folder to hold a stream, as a script starts the programs of make quick'
else
    (ulimit -n 1 && exec v7 nm main.o) <&- >answers 2>fault; status=$?
    expect 'no folder to hold a stream' 2 "v7: /: $(fault_words open)"
    same answers /dev/null
    # the stack that TRUST names is enough
    stack=$(sed -n 's/.* \([0-9]*\) kB of stack.*/\1/p' "$top/docs/TRUST.md")
    for words in 'ld -o out main.o twice.o count.o' 'nm main.o' 'size main.o' 'strip out' 'session'; do
        printf 'add twice.o\nexternals\nlink out\n' |
            tried "$words, $stack kB of stack" 0 '' sh -c "ulimit -s $stack && exec env -i '$build/v7' $words" >answers
    done
    rm out
fi

# a device that is full
if [ -c /dev/full ]; then
    for tool in nm size; do
        tried "$tool, device full" 2 "v7: $(fault_words write)" v7 $tool main.o >/dev/full
    done
    printf 'add main.o\nlink out\n' | tried 'session, device full' 2 "v7: $(fault_words write)" v7 session >/dev/full
    [ ! -e out ] || fail 'session, device full: it went on'
    printf 'link /dev/full\nwithdraw\n' | tried 'session, a link to a full device' 1 '' v7 session >answers
    printf '/dev/full: %s\nnothing to withdraw\n' "$(fault_words write)" | same - answers
fi

# standard output closed
tried 'ld with a report, output closed' 2 "v7: $(fault_words write)" v7 ld -o out main.o count.o >&-
same out reported
tried 'ld without one, output closed' 0 '' v7 ld -o out main.o twice.o count.o >&-
same out whole
tried 'strip, output closed' 0 '' v7 strip out >&-
same out stripped
for tool in nm size; do
    tried "$tool, output closed" 2 "v7: $(fault_words write)" v7 $tool main.o >&-
done
rm out
printf 'add main.o\nlink out\n' | tried 'session, output closed' 2 "v7: $(fault_words write)" v7 session >&-
[ ! -e out ] || fail 'session, output closed: it went on'

# standard input closed
tried 'session, input closed' 2 'v7: script read error' v7 session <&- >answers
same answers /dev/null
tried 'ld, input closed' 1 '' v7 ld -o out main.o count.o <&- >answers
same out reported
printf 'Undefined:\n_twice\n' | same - answers

# the programs beside v7: what goes to a closed stream, or to a device that is full, is a write error
tried 'v7-explain' 0 '' v7-explain main.o >listing
tried 'v7-from-gnu' 0 '' v7-from-gnu squares.gnu converted
for letter in '' -d -l -s -m '-y _main'; do
    tried "v7-explain $letter, output closed" 2 "v7-explain: $(fault_words write)" v7-explain $letter main.o >&-
done
said='v7-explain: reported: a program; relocation removed, so ld cannot link it again'
tried 'v7-explain -c, output closed' 1 "$said" v7-explain -c reported >&-
if [ -c /dev/full ]; then
    tried 'v7-explain, device full' 2 "v7-explain: $(fault_words write)" v7-explain main.o >/dev/full
    tried 'v7-explain -o, device full' 2 "v7-explain: /dev/full: $(fault_words write)" v7-explain -o /dev/full main.o >answers
fi

# an output to which a link leads is refused if it is the input, which stays as it was
cp main.o x.o
ln x.o hard.o
ln -s x.o soft.o
for output in hard.o soft.o; do
    tried "v7-explain -o $output" 2 "v7-explain: $output: the output is one of the inputs" v7-explain -o $output x.o >answers
done
same x.o main.o

# with a closed stream, or with none, they store the same
for closed in '<&-' '>&-' '2>&-' '<&- >&- 2>&-'; do
    eval "v7-explain -o stored main.o $closed && v7-object listing made $closed && v7-from-gnu squares.gnu out $closed" >answers 2>fault
    status=$?
    expect "stored with $closed" 0 ''
    same stored listing
    same made main.o
    same out converted
    rm -f stored made out
done
v7-explain -c reported >answers 2>&-; ended 'v7-explain -c, error closed' 1
v7-object main.o out >answers 2>&-; ended 'v7-object, error closed' 1
v7-from-gnu main.o out >answers 2>&-; ended 'v7-from-gnu, error closed' 1
[ ! -e out ] || fail 'a file that was refused is stored'

# a file that is larger than the memory that there is can be read, but there is no memory for it; one without an end is too long
dd if=/dev/null of=large bs=1 seek=300000000 2>answers
if (ulimit -v 200000 && exec v7-explain main.o) >answers 2>fault; then
    limited() {
        (ulimit -v 200000 && exec "$@")
    }
    ln -s /dev/zero zero
    for words in v7-explain 'v7-explain -c' 'v7-explain -o out' 'v7-explain -m'; do
        tried "$words zero" 2 "v7-explain: zero: $(fault_words open)" limited $words zero >answers
        tried "$words large" 2 'v7-explain: large: file too long' limited $words large >answers
        tr '\0' x <zero | tried "$words, a pipe" 2 'v7-explain: /dev/stdin: file too long' limited $words /dev/stdin >answers
    done
    limited v7-explain -l zero | grep -q '^device .* zero$' || fail 'v7-explain -l zero'
    for words in 'v7-object large out' 'v7-from-gnu large out'; do
        tried "$words" 2 "${words%% *}: large: file too long" limited $words >answers
    done
    # an inventory reads only its first bytes
    (ulimit -v 200000 && exec v7-explain -l large) >answers 2>fault; status=$?
    expect 'v7-explain -l large, with little memory' 0 ''
    grep -q '^other .* large$' answers || fail "v7-explain -l large: $(cat answers)"
fi
[ ! -e out ] || fail 'with little memory a file is stored'
rm large zero

# standard error closed, and all three
v7 ld -o out main.o count.o >answers 2>&-; ended 'ld, error closed' 1
same out reported
v7 strip out none.o >answers 2>&-; ended 'strip, error closed' 2
same out reported
v7 ld -o out main.o twice.o count.o <&- >&- 2>&-; ended 'ld, all closed' 0
same out whole
v7 ld -o out main.o count.o <&- >&- 2>&-; ended 'ld with a report, all closed' 2
same out reported

# a file that is opened first has the lowest descriptor that is free: it is none of those three, which are held. To ask for
# a descriptor by a path the system has to have /dev/fd
[ -d /dev/fd ] || { [ ! -e failed ]; exit; }
rm out
tried 'descriptor 0' 2 "v7: /dev/fd/0: $(fault_words read)" v7 ld -o out main.o /dev/fd/0 <&- >answers
tried 'descriptor 1' 2 "v7: /dev/fd/1: $(fault_words read)" v7 ld -o out main.o /dev/fd/1 >&-
v7 ld -o out main.o /dev/fd/2 >answers 2>&-; ended 'descriptor 2' 2
# the other programs hold them too
tried 'v7-explain, descriptor 0' 2 "v7-explain: /dev/fd/0: $(fault_words read)" v7-explain main.o /dev/fd/0 <&- >answers
tried 'v7-explain, descriptor 1' 2 "v7-explain: /dev/fd/1: $(fault_words read)" v7-explain -o out /dev/fd/1 >&-
tried 'v7-object, descriptor 0' 2 "v7-object: /dev/fd/0: $(fault_words read)" v7-object /dev/fd/0 out <&- >answers
tried 'v7-from-gnu, descriptor 1' 2 "v7-from-gnu: /dev/fd/1: $(fault_words read)" v7-from-gnu /dev/fd/1 out >&-
for opened in /dev/fd/0 /dev/fd/1 /dev/fd/2; do
    for words in "v7 ld -o out main.o $opened" "v7-explain $opened" "v7-object $opened out" "v7-from-gnu $opened out"; do
        $words <&- >&- 2>&-; ended "$words, all closed" 2
    done
done
[ ! -e out ] || fail 'a file that is opened took the place of a stream'
[ ! -e failed ]
