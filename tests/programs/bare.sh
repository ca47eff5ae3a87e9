#!/bin/sh
# Tries the tests on a machine that is not ours: with nothing of the environment but PATH, HOME and LANG, in a clone, where no Python is
# compiled yet, and in an unpacked archive without .git, where all of it is. What is committed is tried. Texts are compared, and make and
# the tests say what they would do.
#
# tier: check, 60 seconds; for: .ci/run Makefile tools/needs tools/kit.sh tools/prove.py tests/__main__.py; needs: git cc
set -u
cd "$(dirname "$0")/../.."
[ -e .git ] || { echo "skipped: no clone is made, as this is not one"; exit 0; }
work=$(mktemp -d)
trap 'rm -rf "$work"' EXIT
mkdir "$work/home" "$work/archive"
git clone -q . "$work/clone" && git archive HEAD | tar -x -C "$work/archive" || exit 1
failed=0

# runs a command in one of the folders
bare() {
    folder=$1
    shift
    (cd "$work/$folder" && env -i PATH="$PATH" HOME="$work/home" LANG=C.UTF-8 "$@") >"$work/said" 2>&1 </dev/null
}

passes() {
    bare "$@" || { cat "$work/said"; echo "this fails in a new folder, the $*"; failed=1; }
}

passes archive python3 -m compileall -q .
for folder in clone archive; do
    passes $folder make -n quick test
    passes $folder sh -c 'python3 -m tools.prove --sources v7 | grep -q "^crates/v7/src/main.rt$"'
    passes $folder make -s which CHANGED=README.md
    passes $folder tools/needs
    passes $folder make -s check-text
done
# a test that reads what Python writes passes where nothing is compiled, and fails here
cat >"$work/clone/tests/texts/planted.py" <<'END'
from tests.lib.files import read
import glob
print(sum(len(read(path)) for path in glob.glob("tests/*/*.*")))
END
bare clone env PYTHONDONTWRITEBYTECODE=1 sh -c 'find . -name __pycache__ -exec rm -r {} + && python3 -m tests.texts.planted' ||
    { cat "$work/said"; failed=1; }
! bare clone python3 -m tests.texts.planted || { echo "a test that reads what Python writes is not noticed"; failed=1; }
[ $failed -ne 0 ] || echo "texts and plans of make are right in a clone and in an archive, with PATH, HOME and LANG alone"
exit $failed
