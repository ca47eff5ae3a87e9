#!/bin/sh
# Links a program of five files, and the one of the lesson "Find the fault", whose first _twice is another one; runs both on SIMH's
# PDP-11, and compares what they print.
#
# tier: all, 20 seconds; programs: v7; for: examples; needs: pdp11
set -eu
cd "$(dirname "$0")/../../examples"
work=$(mktemp -d)
trap 'rm -rf "$work"' EXIT
for twice in twice.o 'double.o twice.o'; do
    "${V7_BUILD:-../build}/v7" ld -e _start -o "$work/doubled" main.o $twice count.o print.o start.o || test $? -eq 1
    sh simulate.sh "$work/doubled" | tee "$work/printed"
    echo '21 doubled is 42' | cmp - "$work/printed"
done
