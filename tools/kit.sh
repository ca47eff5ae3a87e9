#!/bin/sh
# Fails if the Rattle kit is missing, or is none of those that all proofs and tests have passed with: `kit.sh KIT ..`. With `any` every
# kit passes.
set -u
version=$(rt version 2>/dev/null) || {
    echo "The command rt of the Rattle kit is not on the PATH. The proofs and tests of v7 have passed with: $*." >&2
    exit 2
}
for kit in "$@"; do
    [ "$kit" = any ] || [ "$kit" = "${version%% *}" ] && exit 0
done
echo "This is $version. The proofs and tests of v7 have passed with: $*. 'make KITS=any' goes on all the same." >&2
exit 2
