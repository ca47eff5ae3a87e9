#!/bin/sh
# Checks the packages of a release.
#
# usage: tools/dist.sh all                     builds them twice, compares them, and runs them: `sh tools/dist.sh all`
#        tools/dist.sh -t                      a trial of what `make quick` has compiled: all of this that needs no other system
#        tools/dist.sh run DIST                runs the packages of the folder DIST
#        OBJECTS=FOLDER tools/dist.sh ..       a trial: takes the objects of programs and liblibv7.a from this folder, and proves nothing
#        PROVED=CHECKOUT tools/dist.sh ..      begins with what was proved in this checkout, and proves only what has changed
#        BASE=FOLDER tools/dist.sh ..          copies Debian's base from this folder, which debootstrap has made, as make_debian does
#
# The two builds are of one commit, in two folders, with two file masks, languages and time zones. They are by two users, if the first is
# root, and on two dates, if faketime is installed. A proof changes no byte of a program, so the second takes what the first has proved,
# and compiles, links and packs it again.
#
# To run the packages, a folder with Debian's base is made by debootstrap, from the mirror of this machine; with a C compiler and
# pkg-config, and without the kit, make and Python. Once the package for Debian is installed there, and once the tar is unpacked.
# Both times the README of the release, the examples of the manual pages, the tutorial, the page for restorers, the cases, and the C
# example with both libraries are run there; before that, how to get it by that README, and the C example with libv7-0 and libv7-dev
# alone. What drives the cases, tests/cases/cases.py, runs outside. It skips those that watch a program, since the programs of a package are
# linked statically. The module of python3-v7 and the wheel run outside too. Wanted: root, Debian's debootstrap and lintian.
#
# tier: all, 4200 seconds; words: all; for: packaging tools/dist.sh; needs: git cc debootstrap lintian faketime cmark-gfm mandoc
set -u
cd "$(dirname "$0")/.."
top=$PWD
version=$(sed -n 's/^#define V7_VERSION "\(.*\)"/\1/p' include/v7.h)
name=v7-$version-linux-x86_64
work=$(mktemp -d)
chmod 755 "$work"
trap 'umount "$work/debian/proc" "$work/debian/sys" 2>/dev/null; rm -rf --one-file-system "$work"' EXIT
failed=0

# `fail TEXT [FILE]`: reports a failure, after what a file has
fail() {
    [ $# -lt 2 ] || cat "$2"
    echo "$1"
    failed=1
}

stop() {
    echo "$1" >&2
    exit 2
}

# --- two builds

# puts objects that were not proved in place of proved ones
take_objects() {
    mkdir -p "$1/build/proved" "$1/crates/libv7/out"
    cp "$OBJECTS"/*.o "$1/build/proved"
    cp "$OBJECTS/liblibv7.a" "$1/crates/libv7/out"
    for crate in $(sed -n 's/^\([a-z0-9_]*\).*:.*/\1/p' "$1/crates.txt"); do
        echo "not proved: compiled for a trial of the packages" >"$1/build/proved/$crate.verdict"
    done
}

# a clone, and its packages, which are made with this file mask by the words that follow. It takes what was proved, and nothing that was
# built, in the checkout `PROVED`; what has other sources it proves again
build() {
    to=$1
    mask=$2
    shift 2
    git clone -q "$top" "$to" || exit 1
    if [ -n "${PROVED:-}" ]; then
        mkdir -p "$to/build"
        cp -r "$PROVED/build/proved" "$to/build"
        rm -f "$to"/build/proved/*.o
    fi
    if [ -n "${OBJECTS:-}" ]; then
        take_objects "$to"
        make="python3 packaging/dist.py --kept"
    else
        make="make dist"
    fi
    [ "$(id -u)" -ne 0 ] || [ "$1" = sh ] || chown -R 65534:65534 "$to"
    (cd "$to" && umask "$mask" && "$@" "$make") || { echo "no packages were built in $to"; exit 1; }
}

twice() {
    date=
    command -v faketime >/dev/null && date="faketime -f +400d" || echo "skipped: faketime is not there, so both builds are of today"
    user=
    [ "$(id -u)" -ne 0 ] && echo "skipped: not root, so both builds are by one user" ||
        user="setpriv --reuid=65534 --regid=65534 --clear-groups"
    build "$work/one" 022 sh -c
    [ -n "${OBJECTS:-}" ] || PROVED=$work/one
    build "$work/another/folder" 077 env -u MAKEFLAGS TMPDIR=/tmp HOME="$work/another" DONT_FAKE_MONOTONIC=1 NO_FAKE_STAT=1 TZ=Asia/Tokyo \
        LC_ALL=C.UTF-8 $user $date sh -c
    for folder in one another/folder; do
        (cd "$work/$folder/dist" && sha256sum -c --quiet SHA256SUMS) || fail "$folder: SHA256SUMS is wrong"
    done
    if diff -r "$work/one/dist" "$work/another/folder/dist"; then
        echo "two builds are equal:"
        cat "$work/one/dist/SHA256SUMS"
    else
        fail "two builds differ"
    fi
}

# --- a folder with Debian

debian=$work/debian

# the commands that a section of a page begins with: `shown PAGE HEADING`
shown() {
    awk -v heading="## $2" '$0 == heading { on = 1 } on && /^    / { found = 1; print substr($0, 5); next } found { exit }' "$1"
}

# Debian's base, from the mirror of this machine
make_debian() {
    if [ -n "${BASE:-}" ]; then
        cp -a "$BASE" "$debian" || stop "BASE is not a folder that can be copied"
    else
        mirror=$(apt-get indextargets --format '$(REPO_URI) $(CODENAME)' 'Created-By: Packages' | head -1)
        debootstrap --variant=minbase --include=gcc,libc6-dev,pkg-config "${mirror#* }" "$debian" "${mirror% *}" \
            >"$work/debootstrap.txt" 2>&1 || { tail -20 "$work/debootstrap.txt"; stop "debootstrap failed"; }
    fi
    for absent in python3 make rt; do
        [ ! -e "$debian/usr/bin/$absent" ] || fail "the folder has $absent"
    done
}

# runs a command in the folder, with these programs first
inside() {
    chroot "$debian" env -i PATH="$programs:/usr/sbin:/usr/bin:/sbin:/bin" HOME=/root PKG_CONFIG_PATH="$config" \
        LD_LIBRARY_PATH="$libraries" "$@"
}

# how the README of the release says to get it, as printed
readme() {
    shown packaging/README.md 'How to get it' >"$work/readme.sh"
    [ -s "$work/readme.sh" ] || fail "packaging/README.md has no commands"
    rm -rf "$debian/tmp/readme"
    mkdir "$debian/tmp/readme"
    cp "$dist"/* "$work/readme.sh" "$debian/tmp/readme"
    inside sh -euc 'cd /tmp/readme && . ./readme.sh' >"$work/readme.txt" 2>&1 || fail "the commands of packaging/README.md fail"
    tail -1 "$work/readme.txt" | grep -q '^14+2+0 = 16b = 020b$' || fail "the commands print something else" "$work/readme.txt"
    echo "packaging/README.md: $(wc -l <"$work/readme.sh") lines were run"
}

# the README of the release: the paths that it names are there
own_readme() {
    page=$debian$share/doc/v7/README.md
    [ -s "$page" ] && ! grep -q '@VERSION@' "$page" || { fail "the release has no README of its own"; return; }
    for path in $(sed -n 's/^| `\([a-z][^`]*\)` .*/\1/p' "$page"); do
        [ -e "$debian${share%/share}/$path" ] || fail "README.md of the release names $path, which is not there"
    done
    [ -e "$(dirname "$page")/NOTICE" ] || [ -e "$(dirname "$page")/copyright" ] || fail "there is neither NOTICE nor copyright"
    grep -q '<script' "$(dirname "$page")/v7.html" || fail "v7.html is not the page"
    echo "README.md of the release: $(grep -c '^|' "$page") rows of paths and links"
}

# no link of what is installed is dead
web() {
    for folder in "$debian${share%/share}/README.md" "$debian$share/doc/v7" "$debian$share/doc/libv7-dev"; do
        [ ! -e "$folder" ] || python3 -m tests.programs.installed look "$folder" || fail "a link of the release is dead"
    done
}

# the processors that the README names: the programs have instructions of x86-64-v2, and none of a later level
processors() {
    grep -q 'x86-64-v2' "$page" || fail "the README does not name the processors"
    find "$debian${share%/share}/lib" -path '*/v7/*.o' -exec objdump -d --no-show-raw-insn {} + >"$work/instructions.txt"
    grep -qw 'ptest' "$work/instructions.txt" || fail "no program needs x86-64-v2"
    later='v[a-z0-9]+|andn|bextr|bls(i|r|msk)|bzhi|lzcnt|movbe|mulx|pdep|pext|rorx|sarx|shlx|shrx'
    ! grep -E "$(printf '\t')($later)[lq]?( |\$)" "$work/instructions.txt" || fail "a program needs more than x86-64-v2"
    echo "the programs run on x86-64-v2: $(wc -l <"$work/instructions.txt") lines were read"
}

# the first commands of the README of the release, which are typed in the folder of the archive, and then a link
first_link() {
    shown "$page" 'The first link' >"$debian/tmp/first.sh"
    [ "$(wc -l <"$debian/tmp/first.sh")" -eq 2 ] || fail "README.md of the release has no first commands"
    inside sh -euc 'cd "$0" && rm -rf /tmp/home && mkdir /tmp/home && HOME=/tmp/home && . /tmp/first.sh &&
        test "$PWD" = /tmp/home/v7-examples && v7 ld -o program main.o twice.o count.o && v7 size program' \
        "${share%/share}" >"$work/first.txt" 2>&1
    [ "$(cat "$work/first.txt")" = '14+2+0 = 16b = 020b' ] || fail "the first commands of the README of the release fail" "$work/first.txt"
    echo "README.md of the release: $(wc -l <"$debian/tmp/first.sh") lines were run"
}

# the examples of the manual pages that are installed, and of some pages; and once its source is assembled, the tutorial
manual() {
    rm -rf "$debian/tmp/manual"
    mkdir -p "$debian/tmp/manual/tests/programs" "$debian/tmp/manual/build" "$debian/tmp/manual/man"
    cp tests/programs/manual.sh "$debian/tmp/manual/tests/programs"
    cp -r "$debian$share/doc/v7/examples" "$debian/tmp/manual"
    inside sh -euc 'cd /tmp/manual && cp "$1"/man/man[157]/v7* man && { gunzip -q man/*.gz 2>/dev/null || :; }
        for program in v7 v7-from-gnu v7-object v7-explain v7-origin; do ln -s "$(command -v $program)" build; done
        sh tests/programs/manual.sh man/* "$1/doc/v7/README.md" "$1/doc/v7/docs/RESTORING.md"' sh "$share" ||
        fail "an example of the manual differs"
    # the folder has no Python
    python3 "$debian/tmp/manual/examples/asm.py" "$debian/tmp/manual/examples/squares.s" || fail "asm.py does not do"
    inside sh -euc 'cd /tmp/manual && sh tests/programs/manual.sh "$1/doc/v7/docs/TUTORIAL.md"' sh "$share" ||
        fail "an example of the tutorial differs"
}

# the cases, driven from outside: each program is a script that runs it in the folder
cases() {
    mkdir -p "$work/cases/build"
    cp -r tests "$work/cases"
    cp -r examples "$work/cases"
    for program in v7 v7-from-gnu v7-object v7-explain v7-origin; do
        path=$(inside sh -c 'command -v "$0"' $program)
        cat >"$work/cases/build/$program" <<END
#!/bin/sh
exec /usr/sbin/chroot "$debian" /bin/sh -c 'cd "\$0" && shift 0 && exec "\$@"' "\${PWD#"$debian"}" "$path" "\$@"
END
        chmod 755 "$work/cases/build/$program"
    done
    (cd "$work/cases" && TMPDIR=$debian/tmp PYTHONDONTWRITEBYTECODE=1 python3 -m tests.cases.cases -p >"$work/cases.txt") ||
        fail "a case differs"
    grep -v '^ok \|^skipped ' "$work/cases.txt"
}

# the C example against the installed header, with the shared library and with the other
library() {
    inside sh -euc 'cd /tmp && rm -rf library && mkdir library && cd library && cp "$1"/doc/v7/examples/*.o . &&
        cc -o shared "$1/doc/v7/examples/c/link.c" $(pkg-config --cflags --libs v7) &&
        cc -o alone "$1/doc/v7/examples/c/link.c" $(pkg-config --cflags v7) $(pkg-config --libs-only-L v7) \
            -Wl,-Bstatic -lv7 -Wl,-Bdynamic &&
        cc -o session "$1/doc/v7/examples/c/session.c" $(pkg-config --cflags --libs v7) &&
        ./session >/dev/null && ./shared one main.o twice.o count.o >/dev/null && ./alone two main.o twice.o count.o >/dev/null &&
        v7 ld -o three main.o twice.o count.o && cmp one three && cmp two three && test "$(pkg-config --modversion v7)" = "$2"' \
        sh "$share" "$version" || fail "the C example fails"
    echo "the C example was compiled and run with both libraries"
}

# the C example with libv7-0 and libv7-dev alone, and the documents that the header cites
library_alone() {
    inside dpkg -i "/tmp/libv7-0_${version}_amd64.deb" "/tmp/libv7-dev_${version}_amd64.deb" >"$work/dpkg.txt" 2>&1 ||
        fail "dpkg does not install the library" "$work/dpkg.txt"
    inside sh -euc 'cd /tmp && rm -rf alone && mkdir alone && cd alone && doc=/usr/share/doc/libv7-dev && cp $doc/examples/*.o . &&
        cc -o link $doc/examples/c/link.c $(pkg-config --cflags --libs v7) && ./link program main.o twice.o count.o >/dev/null &&
        for page in $(grep -o "docs/[A-Z]*\.md" /usr/include/v7.h); do test -s $doc/$page; done && ! command -v v7' ||
        fail "libv7-dev alone does not do"
    cmp "$debian/tmp/alone/program" "$debian/tmp/readme/$name/share/doc/v7/examples/program" || fail "another program with libv7-dev alone"
    echo "the C example was compiled and run with libv7-0 and libv7-dev alone"
}

# the module of Python in its package and in the wheel, outside of the folder
python() {
    for deb in "$dist"/python3-v7_*.deb "$dist"/libv7-0_*.deb; do
        dpkg-deb -x "$deb" "$work/python"
    done
    PYTHONPATH=$work/python/usr/lib/python3/dist-packages LD_LIBRARY_PATH=$work/python/usr/lib/x86_64-linux-gnu \
        python3 examples/python/session.py >"$work/session.txt" || fail "python3-v7 does not do"
    python3 -m tests.libv7.wheel "$dist"/*.whl || fail "the wheel is not right"
    python3 -m venv "$work/fresh" && "$work/fresh/bin/pip" install -q --no-index --disable-pip-version-check "$dist"/*.whl &&
        "$work/fresh/bin/python" examples/python/session.py | cmp - "$work/session.txt" &&
        (cd examples && "$work/fresh/bin/python" python/link.py "$work/linked" main.o twice.o count.o >/dev/null) ||
        fail "the wheel does not do"
    echo "Python: a session with python3-v7, and the examples with the wheel in a fresh environment"
}

# lintian finds nothing in the packages
clean() {
    command -v lintian >/dev/null || { echo "skipped: lintian is not there"; return; }
    lintian --fail-on error,warning --tag-display-limit 0 "$dist"/*.deb >"$work/lintian.txt" 2>&1 &&
        echo "lintian: nothing in the packages for Debian" || fail "lintian finds something" "$work/lintian.txt"
}

# all of these with what is installed
try_all() {
    echo "--- $1"
    own_readme
    web
    processors
    first_link
    manual
    cases
    library
}

# what of the packages of a folder needs no other system
look() {
    dist=$(cd "$1" && pwd)
    (cd "$dist" && sha256sum -c --quiet SHA256SUMS) || fail "SHA256SUMS is wrong"
    ! dpkg-deb -f "$dist/v7_${version}_amd64.deb" Maintainer | grep -qF "$(git show -s --format='<%ae>')" ||
        fail "the maintainer is whoever made the last commit"
    clean
    python
}

# two builds of what `make quick` has compiled, and the files of the tar
trial() {
    OBJECTS=${OBJECTS:-build/quick}
    twice
    look "$work/one/dist"
    mkdir -p "$debian/opt"
    tar xzf "$dist/$name.tar.gz" -C "$debian/opt"
    share=/opt/$name/share
    own_readme; web; processors
    make -s install FROM="$OBJECTS" STAGE="$work/stage" PREFIX="$work/installed" DESTDIR= >"$work/install.txt" 2>&1 &&
        cmp "$OBJECTS/v7" "$work/installed/bin/v7" || fail "make install FROM=$OBJECTS does not do" "$work/install.txt"
}

run_packages() {
    [ "$(id -u)" -eq 0 ] || stop "root is needed to change the root folder"
    command -v lintian >/dev/null || fail "lintian is not there"
    look "$1"
    make_debian
    programs=/usr/local/bin share=/usr/share config= libraries=
    readme
    cp "$dist"/*_amd64.deb "$debian/tmp"
    library_alone
    inside dpkg -i "/tmp/v7_${version}_amd64.deb" >"$work/dpkg.txt" 2>&1 || fail "dpkg does not install the package" "$work/dpkg.txt"
    try_all "the packages for Debian"
    inside dpkg -r v7 libv7-dev libv7-0 >"$work/dpkg.txt" 2>&1 || fail "dpkg does not remove the packages" "$work/dpkg.txt"
    tar xzf "$dist/$name.tar.gz" -C "$debian/opt"
    programs=/opt/$name/bin share=/opt/$name/share config=/opt/$name/lib/pkgconfig libraries=/opt/$name/lib
    try_all "the tar"
}

case ${1:-} in
all)
    twice
    [ $failed -eq 0 ] && run_packages "$work/one/dist"
    ;;
run) run_packages "$2" ;;
-t) trial ;;
*) stop "usage: tools/dist.sh all | -t | run DIST" ;;
esac
[ $failed -eq 0 ] && echo "the packages are right"
exit $failed
