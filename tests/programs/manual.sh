#!/bin/sh
# Runs the examples of the manual pages and of the documents, and compares what is shown with what comes. The examples of a
# page are its displays, and those of a document its blocks that are indented by four blanks or more; of both, only those
# whose first line begins with "$ ". There a line after "$ " is typed to the shell, a line after "v7> " to the program, and all
# others are what is shown, standard error too, but for what comes only at a terminal. Each file has a new copy of the folder
# examples, and its commands run in one shell, so that each sees what those before it left. Commands that need a program which is
# not installed are counted.
#
# usage: tests/programs/manual.sh [FILE...]       the programs are in build/, or in the folder V7_BUILD
#
# tier: check, 30 seconds; programs: v7 v7-explain v7-object v7-from-gnu v7-origin;
# for: man docs examples README.md; needs: groff man mandoc pdp11
set -u
cd "$(dirname "$0")/../.."
top=$PWD
build=$(realpath "${V7_BUILD:-build}")
for program in v7 v7-from-gnu v7-object v7-explain v7-origin; do
    [ -x "$build/$program" ] || { echo "$build/$program is missing: make build/$program makes it"; exit 2; }
done
[ $# -gt 0 ] || set -- man/*.1 man/*.5 man/*.7 README.md CONTRIBUTING.md examples/*.md docs/*.md docs/*/*.md
work=$(mktemp -d)
trap 'rm -rf "$work"' EXIT
PATH=$build:$PATH
export PATH
LC_ALL=C
export LC_ALL

# the lines of the blocks with examples, and an empty line after each block
blocks() {
    case $1 in
    *.md)
        awk '/^    / {
                if (!inside) { inside = 1; match($0, /^ +/); indent = RLENGTH; runs = substr($0, indent + 1) ~ /^\$ / }
                if (runs) print substr($0, indent + 1)
                next
            }
            { if (inside && runs) print ""; inside = 0 }' "$1"
        ;;
    *)
        awk '/^\.Bd -literal/ { inside = 1; first = 1; next }
            /^\.Ed/ { if (runs) print ""; inside = 0; runs = 0; next }
            inside { if (first) { runs = /^\$ /; first = 0 } gsub(/\\&/, ""); gsub(/\\e/, "\\"); if (runs) print }' "$1"
        ;;
    esac
}

# for each command a file N.typed, N.input and N.shown in the new folder
commands() {
    rm -f "$work"/*.typed "$work"/*.input "$work"/*.shown
    blocks "$1" | awk -v work="$work" '
        function name(kind) { return sprintf("%s/%03d.%s", work, n, kind) }
        /^\$ / { if (n) close(name("shown")); n++; print substr($0, 3) >name("typed"); close(name("typed"))
                 printf "" >name("input"); printf "" >name("shown"); next }
        n == 0 || /^$|^v7> quit$|^add PATH, |^list shows |^end of the session: | says what this file is$/ { next }
        /^v7> / { print substr($0, 5) >name("input"); next }
        { print >name("shown") }'
}

# runs them in a copy of examples
run() {
    rm -rf "$work/build" "$work/examples"
    mkdir "$work/build"
    cp -r "$top/examples" "$work/examples"
    cd "$work/examples" || exit 2
    status=0
    ran=0
    for typed in "$work"/*.typed; do
        [ -e "$typed" ] || break
        part=${typed%.typed}
        line=$(cat "$typed")
        case $line in
        "sh simulate.sh "*) needed=pdp11 ;;
        "pdp11-aout-as "*) needed=pdp11-aout-as ;;
        "python3 "*) needed=python3 ;;
        "make "*) needed=make ;;
        *) needed=sh ;;
        esac
        command -v "$needed" >/dev/null || { echo "$1: not run, as $needed is missing: $line"; skipped=$((skipped + 1)); continue; }
        (exit $status)
        eval "$line" <"$part.input" >"$part.came" 2>&1
        status=$?
        ran=$((ran + 1))
        diff "$part.shown" "$part.came" >"$part.diff" || { echo "$1: $line"; cat "$part.diff"; failed=1; }
    done
    cd "$top" || exit 2
}

# a page of the manual, on a terminal of 80 columns: groff has nothing to say
formats() {
    command -v groff >/dev/null && command -v man >/dev/null || { echo "$1: not formatted, as man or groff is missing"; return; }
    MANWIDTH=80 man --warnings -l "$1" >/dev/null 2>"$work/warnings"
    [ ! -s "$work/warnings" ] || { cat "$work/warnings"; echo "$1: groff warns"; failed=1; }
}

# mandoc finds nothing to say of the pages, but for pages of others that this machine lacks
lint() {
    command -v mandoc >/dev/null || { echo "man: not run, as mandoc is missing: mandoc -T lint"; return; }
    (cd man && mandoc -T lint ./*.[1-9] 2>/dev/null) | grep -v 'lacks .* entry, run makewhatis\|referenced manual not found' && failed=1
}

failed=0
count=0
echo planted >"$work/planted"
! diff "$work/planted" /dev/null >/dev/null || { echo "a planted difference is not reported"; exit 1; }
skipped=0
for page in man/*.[1-9]; do
    [ ! -e "$page" ] || formats "$page"
done
[ ! -d man ] || lint
for file in "$@"; do
    commands "$file"
    run "$file"
    echo "$file: $ran commands"
    count=$((count + ran))
done
echo "$count commands of $# files were run, and $skipped were not"
exit $failed
