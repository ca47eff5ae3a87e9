#!/bin/sh
# Proves two claims again: that a withdrawal takes an addition back, and that a run of edits replies to each and links what they leave.
# For each it then breaks one line of the code, in a copy, and shows how the prover refuses it. docs/TRUST.md shows what it prints.
#
# tier: all, 360 seconds; for: crates/link_session crates/link_out docs/TRUST.md
set -u
cd "$(dirname "$0")/.."
work=$(mktemp -d)
trap 'rm -rf "$work"' EXIT

mkdir -p "$work/crates"
grep -E '^(aout_core|tool_options|link_session|link_out):' crates.txt >"$work/crates.txt"
cp HANDLES "$work"
cp -R crates/aout_core crates/tool_options crates/link_session crates/link_out "$work/crates"
rm -rf "$work"/crates/*/must-fail "$work"/crates/*/out

# CRATE MODULES FUNCTION EDIT: proves the function; then again with the line changed that the edit changes
recheck() {
    crate=$1
    modules=$2
    edit=crates/$crate/must-fail/$4.edit
    file=$(sed -n 's/^file: //p' "$edit")
    old=$(sed -n 's/^old: //p' "$edit")
    new=$(sed -n 's/^new: //p' "$edit")

    echo 'With the code as it is:'
    prove "$3" right || { tail -20 "$work/right"; exit 1; }
    verdicts right

    OLD=$old NEW=$new awk '$0 == ENVIRON["OLD"] { $0 = ENVIRON["NEW"]; changed++ } { print } END { exit changed != 1 }' \
        "crates/$crate/$file" >"$work/broken" || { echo "$edit does not fit the code"; exit 1; }
    cp "$work/broken" "$work/crates/$crate/$file"
    prove "$3" wrong && { echo 'not refused'; exit 1; }
    {
        echo "With one line of crates/$crate/$file broken:"
        printf '%s\n' "$old" | sed 's/^ */- /'
        printf '%s\n' "$new" | sed 's/^ */+ /'
        sed -n 's/^\.\/\(proofs[^:]*\):.* error: \(.*\)no proof of .*$/\1: error: \2no proof/p' "$work/wrong"
        verdicts wrong | grep -v ': proved$'
    } | tee "$work/shown"
    cp "crates/$crate/$file" "$work/crates/$crate/$file"
    sed 's/^/    /' "$work/shown" >"$work/block"
    grep -cFx -f "$work/block" docs/TRUST.md | grep -qFx "$(wc -l <"$work/block")" || {
        echo 'docs/TRUST.md shows something else'
        exit 1
    }
}

# FUNCTION NAME: proves it, with what the prover says in a file
prove() {
    (cd "$work/crates/$crate" && rt check --only "$1") >"$work/$2" 2>&1
}

# NAME: the lines that say which functions are proved, and which are not
verdicts() {
    grep -E "^fn $crate::($modules)::" "$work/$1" | sort
}

recheck link_session 'session|undo|chain' session::Session::withdraw withdraw_leaves_names
recheck link_out runner runner::run run_drops_refusals
