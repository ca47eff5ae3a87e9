#!/bin/sh
# Whether each file of a crate is in the layout of `rt fmt`. The gate refuses another one, and then does not prove the crate at all.
#
# tier: text, 4 seconds; for: crates
set -eu
cd "$(dirname "$0")/../.."
files=$(find crates -path '*/out' -prune -o \( -name '*.rt' -o -name '*.antt' \) -print)
"$(dirname "$(rt doc)")/bin/rattle" fmt --check $files
echo "$(echo "$files" | wc -l) files are in their layout"
