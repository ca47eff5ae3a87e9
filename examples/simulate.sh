#!/bin/sh
# Loads a linked file of the magic number 0407 into SIMH's PDP-11, runs it from its entry point until it halts, and
# prints what the program wrote on the console. The machine is bare: there is no Unix under the program, so it has to
# halt by itself, and system calls are not answered.
#
# usage: simulate.sh FILE
#
# The status is 0 where the program halted, 1 where it did not (within ten seconds) or stopped in another way, 2 where
# FILE is no such file, and 3 where SIMH's pdp11 is not installed (Debian's package simh).
[ $# -eq 1 ] || { echo "usage: simulate.sh FILE" >&2; exit 2; }
command -v pdp11 >/dev/null || { echo "simulate.sh: pdp11 is not installed (Debian: apt-get install simh)" >&2; exit 3; }
[ -r "$1" ] || { echo "simulate.sh: $1: cannot open" >&2; exit 2; }

# the words of the header: magic number, text, data, bss, symbols, entry point, unused, flag
set -- "$1" $(od -An -v -to2 -N16 "$1")
[ "${2-}" = 000407 ] && [ "${9-000000}" != 000000 ] || { echo "simulate.sh: $1: not a linked file of magic 0407" >&2; exit 2; }

# a script of the simulator: clear memory, store text and data from address 0 on, and run
script=$(mktemp)
trap 'rm -f "$script" "$script.out"' EXIT
{
    echo "deposit 0-157776 0"
    od -Ao -v -to2 -w2 -j16 -N$((0$3 + 0$4)) "$1" | awk '
        function octal(text,    i, n) { for (i = 1; i <= length(text); i++) n = 8 * n + substr(text, i, 1); return n }
        NF == 2 { printf "deposit %o %s\n", octal($1) - 16, $2 }'
    echo "echo -- program"
    echo "run $7"
    echo "exit"
} >"$script"
# without a buffer, so that what the program and the simulator write stays in order
timeout 10 stdbuf -o0 pdp11 "$script" </dev/null >"$script.out"

# what came between the mark and the message about the halt, without the carriage returns of the console
tr -d '\r' <"$script.out" | awk '/^-- program$/ { program = 1; next } /^HALT instruction|^Goodbye$/ { exit } program' |
    sed '$ { /^$/ d; }'
grep -q '^HALT instruction' "$script.out" || { echo "simulate.sh: $1: it did not halt" >&2; exit 1; }
