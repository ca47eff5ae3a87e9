#!/usr/bin/env python3
"""Makes the packages of a release in dist: v7-VERSION-linux-x86_64.tar.gz, the packages for Debian (v7, libv7-0, libv7-dev and
python3-v7), the wheel of Python, and SHA256SUMS. The tar and the package v7 have a README of their own, packaging/README.md.

usage: packaging/dist.py           of what tools/prove.py has proved, or proves now
       packaging/dist.py --kept    of what is in build/proved and crates/libv7/out, which it does not check: for trials

The programs are linked statically, so they need no library where they run. Two runs for one commit give the same bytes, whatever the
folder, the user and the date: files have the date of the commit, and belong to root.
"""
import glob
import gzip
import hashlib
import os
import re
import shutil
import subprocess
import sys
import tempfile
from email.utils import formatdate
from typing import NamedTuple

sys.path.insert(1, os.path.dirname(os.path.dirname(os.path.abspath(__file__))))
from tests.lib.files import TOP, read, read_bytes, write  # noqa: E402
from tests.lib.programs import PROGRAMS, ran  # noqa: E402
from tests.lib.rattle import below, crates_in  # noqa: E402
import backend  # noqa: E402
import installed  # noqa: E402

KEPT = "build/proved"
# whoever makes a release for others puts an address here that is read: `invalid` is no host
MAINTAINER = "v7 developers <v7@developers.invalid>"
LIBDIR = "usr/lib/x86_64-linux-gnu"
TRIAL = "This is a trial: nothing was checked when these packages were made. Do not publish them.\n"


def run(*words, **how):
    subprocess.run(words, check=True, **how)


def asked(*words):
    """What a command prints."""
    return subprocess.run(words, stdout=subprocess.PIPE, check=True, text=True).stdout.strip()


def digest(path):
    return hashlib.sha256(read_bytes(path)).hexdigest()


class Release:
    """What a release is made of, and what its packages are called."""

    def __init__(self, is_checked):
        self.is_checked = is_checked
        self.version = installed.version()
        self.commit, self.date = asked("git", "show", "-s", "--format=%H\n%ct", "HEAD").split("\n")
        self.date = int(self.date)
        self.is_clean = not asked("git", "status", "--porcelain")
        self.kit_version, self.kit = asked("rt", "version"), os.path.dirname(asked("rt", "doc"))
        self.name = f"v7-{self.version}-linux-x86_64"

    def prove(self):
        """Proves what is not proved yet."""
        for crate, out in (*((crate, crate) for crate in PROGRAMS.values()), ("libv7", "liblibv7.a")):
            run(sys.executable, "-m", "tools.prove", "--anew", crate, f"crates/{crate}/out/{out}")

    def crates(self):
        """The crates of the repository that the programs and libv7 are made of, and the kit's libraries that they use."""
        uses = crates_in(TOP)
        ours = set().union(*(below(name, uses) for name in [*PROGRAMS.values(), "libv7"]))
        kits = {"std", *(other for name in ours for other in uses[name])} - ours
        for name in [*kits]:
            form = read(f"{self.kit}/rlibs/{name}.rlib/format")
            kits.update(re.findall(r"^(?:dep|needs|carries) (\w+)", form, re.M))
        return sorted(ours), sorted(kits)


# --- programs and libraries

def link(release, place):
    """Links each program statically: place/objects has what it is linked from besides the C library, and place/bin the program."""
    archives = [f"{release.kit}/c/{name}_c.a" for name in ("libos", "liblibc")]
    os.makedirs(f"{place}/objects")
    os.makedirs(f"{place}/bin")
    for name, crate in PROGRAMS.items():
        whole, program = f"{place}/objects/{name}.o", f"{place}/bin/{name}"
        run("ld", "-r", "-o", whole, f"{KEPT}/{crate}.o", *archives)
        run("cc", "-static", "-Wl,--gc-sections", "-o", program, whole)
        run("strip", program)


def page(release, place):
    """The page, as place/bin/v7.html."""
    words = [f"{place}/v7.wasm"] if release.is_checked else ["--quick", "build/quick/v7.wasm"]
    run(sys.executable, "-m", "tools.module", *words)
    run(sys.executable, "packaging/page.py", words[-1], f"{place}/bin/v7.html")


def libraries(place):
    """The libraries and what comes with them, installed below place/lib as if it were the folder usr."""
    flags = ["PREFIX=/usr", "LIBDIR=/usr/lib", "INCLUDEDIR=/usr/include", f"DESTDIR={place}/library", "CFLAGS=", "LDFLAGS="]
    how = {"env": {key: text for key, text in os.environ.items() if key not in ("MAKEFLAGS", "MFLAGS", "MAKELEVEL")}}
    for path in glob.glob("build/libv7.*"):
        os.remove(path)
    run("make", "-s", "-o", "crates/libv7/out/liblibv7.a", "install-lib", *flags, **how)
    run("strip", "--strip-unneeded", shared(place))
    run("strip", "-g", "-D", f"{place}/library/usr/lib/libv7.a")


def shared(place):
    """The file of the shared library that is installed."""
    return os.path.realpath(f"{place}/library/usr/lib/libv7.so.0")


# --- what comes with them

def debian(*names):
    """The versions of those of these packages of Debian that are installed."""
    versions = ran("dpkg-query", "-W", "-f", "${Package} ${Version}\n", *names).texts()[1]
    return ", ".join(versions.splitlines()) or "not known"


def major():
    """The first number of the compiler's version."""
    return asked("cc", "-dumpversion").split(".")[0]


def provenance(release, place):
    ours, kits = release.crates()
    sums = [f"{digest(f'{place}/bin/{name}')}  bin/{name}" for name in sorted(PROGRAMS)]
    sums += [f"{digest(f'{place}/library/usr/{path}')}  {path}" for path in ("include/v7.h", "lib/libv7.a")]
    sums.append(f"{digest(shared(place))}  lib/{os.path.basename(shared(place))}")
    verdicts = [f"    {name}: {read(f'{KEPT}/{name}.verdict').strip()}" for name in ours]
    parts = [
        f"Where these files of v7 {release.version} come from\n",
        "" if release.is_checked else TRIAL,
        f"Commit     {release.commit}{'' if release.is_clean else ', with changes that are not committed'}",
        f"Date       {formatdate(release.date)}, of the commit",
        f"Kit        {release.kit_version}",
        f"Compiler   {asked('cc', '--version').splitlines()[0]}",
        f"Linker     {asked('ld', '--version').splitlines()[0]}",
        f"Packages   {debian('libc6-dev', f'gcc-{major()}', 'binutils', 'dpkg', 'cmark-gfm', 'mandoc')}\n",
        "The prover ended with these lines, one for each crate that a program or libv7 contains. `functions` is the number of",
        "functions that were proved, and `sum` the logic:\n",
        *verdicts,
        "\nThese libraries of the kit, which come with it proved, are used too: " + ", ".join(kits) + ".",
        "\nThe checksums (SHA-256) of what was built, without the differences of the packages:\n",
        *(f"    {line}" for line in sums),
        "\nTo rebuild: take the commit, put the command `rt` of that kit on the PATH, and run `make dist` on Debian with the packages",
        "named above, and python3 and make. Then dist/SHA256SUMS is the same, whatever the folder, the user and the date.",
        "To link a program again with another C library: `cc -static -o v7 v7.o`, with an object of the folder v7 beside libv7.",
    ]
    return "\n".join(parts) + "\n"


def licences(release, place):
    """The licence texts of what is linked in, below place/licences; and NOTICE."""
    _, kits = release.crates()
    to = f"{place}/licences"
    lines, unknown = [], []
    for name in kits:
        texts = sorted(glob.glob(f"{release.kit}/rattle/{name}/LICENSE*"))
        for text in texts:
            write(f"{to}/{name}/{os.path.basename(text)}", read_bytes(text))
        if texts:
            lines.append(f"- {name}: licences/{name} has its licence texts, as the kit has them.")
        else:
            unknown.append(name)
    system = {"libc6": "/usr/share/doc/libc6/copyright", "gcc": f"/usr/share/doc/gcc-{major()}-base/copyright",
              "LGPL-2.1": "/usr/share/common-licenses/LGPL-2.1", "GPL-3": "/usr/share/common-licenses/GPL-3"}
    missing = [path for path in system.values() if not os.path.exists(path)]
    for name, path in system.items():
        if os.path.exists(path):
            write(f"{to}/debian/{name}", read_bytes(path))
    return "\n".join([
        "What the programs and libraries of v7 contain, and under which terms\n",
        "v7 itself: its owner has not chosen a licence yet. Until then nobody is given leave to copy or to change it.\n",
        "The programs are linked statically. They contain parts of:\n",
        "- the GNU C library, under the LGPL 2.1 or later, and files with other notices: licences/debian/libc6 and LGPL-2.1. The folder",
        "  v7 beside libv7 has the objects to link a program again with another C library;",
        "- the start-up and support code of GCC, under the GPL 3 with the GCC Runtime Library Exception: licences/debian/gcc and GPL-3.\n",
        "The programs and libv7 contain code of these libraries of the Rattle kit, most of them ports of crates of Rust:\n",
        *lines,
        f"- {', '.join(unknown)}: the licence is unknown, since the kit has no licence text for them.",
        "- the kit's C code, liblibc_c.a (in libv7 and the programs) and libos_c.a (in the programs): the licence is unknown.",
        *(f"\nNot found when this was built: {path}" for path in missing),
    ]) + "\n"


def tree(release, place, root, prefix, libdir):
    """All files of a package below root/prefix."""
    installed.put(f"{place}/bin", f"{root}{prefix}", True, ["PROVENANCE", "NOTICE"])
    shutil.copytree(f"{place}/library/usr/lib", f"{root}{libdir}", symlinks=True)
    shutil.copytree(f"{place}/objects", f"{root}{libdir}/v7")
    shutil.copytree(f"{place}/library/usr/include", f"{root}{prefix}/include")
    shutil.copytree(f"{place}/library/usr/share/man/man3", f"{root}{prefix}/share/man/man3")
    doc = f"{root}{prefix}/share/doc/v7"
    write(f"{doc}/PROVENANCE", provenance(release, place))
    write(f"{doc}/NOTICE", licences(release, place))
    shutil.copytree(f"{place}/licences", f"{doc}/licences")


def config(path, prefix, libdir):
    """Lets pkg-config find the library below this prefix."""
    text = read(path)
    text = re.sub("^prefix=.*", f"prefix={prefix}", text, flags=re.M)
    text = re.sub("^libdir=.*", f"libdir={libdir}", text, flags=re.M)
    write(path, re.sub("^includedir=.*", "includedir=${prefix}/include", text, flags=re.M))


# --- packages

def settle(root, date):
    """Gives each file one mode and the date of the commit."""
    for at, folders, files in os.walk(root, topdown=False):
        for name in (*files, *folders):
            path = f"{at}/{name}"
            if not os.path.islink(path):
                is_run = os.path.isdir(path) or os.path.basename(at) == "bin"
                os.chmod(path, 0o755 if is_run else 0o644)
            os.utime(path, (date, date), follow_symlinks=False)
    os.chmod(root, 0o755)
    os.utime(root, (date, date))


def pack(release, root, file):
    """The tar of a folder, packed by gzip."""
    settle(f"{root}/{release.name}", release.date)
    how = ["--sort=name", "--format=gnu", "--owner=root:0", "--group=root:0", "-I", "gzip -9n"]
    run("tar", "-C", root, *how, "-cf", os.path.abspath(file), release.name)


def squeeze(path):
    """Packs a file by gzip without a name and a date."""
    write(f"{path}.gz", gzip.compress(read_bytes(path), 9, mtime=0))
    os.remove(path)


CONTROL = """Package: {name}
Version: {version}
Architecture: {architecture}
Maintainer: {maintainer}
Installed-Size: {size}
{relations}Section: {section}
Priority: optional
Description: {text}
"""
CHANGELOG = """v7 ({version}) unstable; urgency=medium

  * CHANGES.md has what changed.

 -- {maintainer}  {date}
"""
WHOLE = """ A prover has checked, for every input, that link and undo do what their
 contracts say."""


class Package(NamedTuple):
    """A package for Debian: its fields, and which of all files below the root it takes."""

    name: str
    architecture: str
    section: str
    relations: str
    text: str
    files: list


# a package takes what those before it have left
PACKAGES = [
    Package("libv7-0", "amd64", "libs", "Depends: libc6 (>= {libc})\nMulti-Arch: same\n",
            "linker of Seventh Edition Unix for the PDP-11, library\n"
            " The shared library links, lists, disassembles and strips object files of\n"
            " the PDP-11, which come as bytes.\n" + WHOLE,
            [f"{LIBDIR}/libv7.so.0*", "usr/share/doc/libv7-0"]),
    Package("libv7-dev", "amd64", "libdevel", "Depends: libv7-0 (= {version})\nSuggests: v7\nMulti-Arch: same\n",
            "linker of Seventh Edition Unix for the PDP-11, to develop with\n"
            " This package has what programs in C and other languages need to call the\n"
            " library: the header, the static library, the manual and examples.",
            [f"{LIBDIR}/libv7.a", f"{LIBDIR}/libv7.so", f"{LIBDIR}/pkgconfig", "usr/include", "usr/share/man/man3",
             "usr/share/doc/libv7-dev"]),
    Package("python3-v7", "all", "python", "Depends: python3 (>= 3.8), libv7-0 (>= {version})\n",
            "linker of Seventh Edition Unix for the PDP-11, Python module\n"
            " The module links, lists, disassembles and strips object files of the\n"
            " PDP-11, which come as bytes, by the library libv7.",
            ["usr/lib/python3"]),
    Package("v7", "amd64", "devel", "Suggests: libv7-dev, python3-v7\n",
            "object tools of Seventh Edition Unix for the PDP-11\n"
            " This package has a linker (ld), nm, size and strip for object files of the\n"
            " PDP-11, and a link session that can undo each addition exactly.\n" + WHOLE,
            ["usr"]),
]


def library_files(root):
    """What the packages for Debian have beside the files of the tar: documents of the library, and the module of Python."""
    doc = f"{root}/usr/share/doc"
    shutil.copytree(f"{doc}/v7/licences", f"{doc}/libv7-0/licences")
    to = f"{doc}/libv7-dev"
    examples = ["examples/c", *sorted(glob.glob("examples/*.o"))]
    installed.documents(to, [*installed.LIBRARY_DOCUMENTS, *examples], True)
    module = f"{root}/usr/lib/python3/dist-packages/v7"
    write(f"{module}/__init__.py", read_bytes("packaging/python/v7.py"))
    write(f"{module}/py.typed", "")


def take(package, root, to):
    """Moves the files of a package from the root of all to one of its own."""
    for pattern in package.files:
        found = glob.glob(f"{root}/{pattern}")
        if not found:
            sys.exit(f"{package.name}: there is no {pattern}")
        for path in found:
            place = f"{to}/{os.path.relpath(path, root)}"
            os.makedirs(os.path.dirname(place), exist_ok=True)
            os.rename(path, place)


def add_notices(release, package, root, notice):
    """The history and the terms of a package, and what lintian is to let pass."""
    doc = f"{root}/usr/share/doc/{package.name}"
    write(f"{doc}/changelog", CHANGELOG.format(version=release.version, maintainer=MAINTAINER, date=formatdate(release.date)))
    squeeze(f"{doc}/changelog")
    owner = "v7" if package.name == "v7" else "libv7-0"
    notice = notice.replace(" licences/", f" /usr/share/doc/{owner}/licences/")
    if package.architecture == "all":
        notice = "\n".join(notice.split("\n")[:3])
    write(f"{doc}/copyright", f"{notice}\nOn Debian, /usr/share/common-licenses has the texts of LGPL-2.1 and GPL-3.\n")
    # the owner has chosen neither a licence nor a notice
    passed = ["copyright-without-copyright-notice"]
    if package.name == "v7":
        passed += [f"statically-linked-binary [usr/bin/{name}]" for name in sorted(PROGRAMS)]
    write(f"{root}/usr/share/lintian/overrides/{package.name}", "".join(f"{package.name}: {tag}\n" for tag in passed))


def control(release, package, root, libc):
    """The files by which dpkg installs a package."""
    files = sorted(path for path in glob.glob(f"{root}/**", recursive=True) if os.path.isfile(path) and not os.path.islink(path))
    sums = "".join(f"{hashlib.md5(read_bytes(path)).hexdigest()}  {os.path.relpath(path, root)}\n" for path in files)
    fields = {"version": release.version, "maintainer": MAINTAINER, "libc": libc,
              "size": sum((os.path.getsize(path) + 1023) // 1024 for path in files)}
    relations = package.relations.format(**fields)
    write(f"{root}/DEBIAN/control", CONTROL.format(**{**package._asdict(), **fields, "relations": relations}))
    write(f"{root}/DEBIAN/md5sums", sums)
    if package.section == "libs":
        write(f"{root}/DEBIAN/shlibs", f"libv7 0 {package.name} (>= {release.version})\n")
        write(f"{root}/DEBIAN/triggers", "activate-noawait ldconfig\n")


def debian_packages(release, place, root):
    """The packages for Debian of the files below root, in dist. Their names."""
    library_files(root)
    for path in glob.glob(f"{root}/usr/share/man/*/*"):
        squeeze(path)
    libc = ".".join(map(str, backend.needs(shared(place))[1]))
    notice = read(f"{root}/usr/share/doc/v7/NOTICE")
    os.remove(f"{root}/usr/share/doc/v7/NOTICE")
    how = {"env": {**os.environ, "SOURCE_DATE_EPOCH": str(release.date)}, "stdout": subprocess.DEVNULL}
    names = []
    for package in PACKAGES:
        to = f"{place}/packages/{package.name}"
        take(package, root, to)
        add_notices(release, package, to, notice)
        control(release, package, to, libc)
        settle(to, release.date)
        names.append(f"{package.name}_{release.version}_{package.architecture}.deb")
        run("dpkg-deb", "--root-owner-group", "--threads-max=1", "-Zxz", "--build", to, f"dist/{names[-1]}", **how)
    return names


def main(words):
    if words not in ([], ["--kept"]):
        sys.exit(__doc__)
    os.chdir(TOP)
    release = Release(not words)
    if release.is_checked:
        release.prove()
    shutil.rmtree("dist", ignore_errors=True)
    os.makedirs("dist")
    with tempfile.TemporaryDirectory() as place:
        link(release, place)
        page(release, place)
        libraries(place)
        top = f"{place}/tar/{release.name}"
        tree(release, place, top, "", "/lib")
        write(f"{top}/README.md", installed.reflowed(read(f"{top}/share/doc/v7/README.md").replace("](", "](share/doc/v7/")))
        config(f"{place}/tar/{release.name}/lib/pkgconfig/v7.pc", "${pcfiledir}/../..", "${prefix}/lib")
        names = [f"{release.name}.tar.gz"]
        pack(release, f"{place}/tar", f"dist/{names[0]}")
        shutil.rmtree(f"{place}/licences")
        tree(release, place, f"{place}/deb", "/usr", f"/{LIBDIR}")
        os.renames(f"{place}/deb/usr/share/zsh/site-functions", f"{place}/deb/usr/share/zsh/vendor-completions")
        config(f"{place}/deb/{LIBDIR}/pkgconfig/v7.pc", "/usr", f"/{LIBDIR}")
        names += debian_packages(release, place, f"{place}/deb")
        names.append(backend.build_wheel("dist", {"library": shared(place)}))
    write("dist/SHA256SUMS", "".join(f"{digest(f'dist/{name}')}  {name}\n" for name in names))
    print(read("dist/SHA256SUMS"), end="")


if __name__ == "__main__":
    main(sys.argv[1:])
