"""Runs `v7-explain -l -R`, and `v7-origin -R`, over what no case can have: links, FIFOs, sockets, devices, names that are not UTF-8, folders that can't be
read, and folders that are nested deeper than a path may be long. `v7-explain` may open none of the first four by their own paths.

tier: check, 3 seconds; programs: v7-explain v7-origin; for: crates/host crates/v7_explain/src/explaining.rt
 crates/v7_origin/src/reading.rt
"""
import os
import socket
import stat
import subprocess
import sys

from tests.lib.compare import notices, same
from tests.lib.files import new_folder, write
from tests.lib.objects import pack
from tests.lib.programs import FAULTS, program, ran

DEEP = 2100
COLUMNS = "      -      -      -      -      -  -                  "


def rows(*words):
    """The status, the kinds and paths of the lines, and the lines of errors."""
    done = ran(EXPLAIN, *words, seconds=60)
    lines = done.out.decode().splitlines()
    if "-R" in words:
        same("the line of totals", lines.pop(), f"total {len(lines)}: 0 ok, 0 odd, 0 damaged")
    found = [line.partition(COLUMNS) for line in lines]
    return done.status, [(kind.strip(), path) for kind, _, path in found], done.err.decode("utf-8", "replace").splitlines()


def inventory(*paths):
    """The status, the paths that have lines, which are of texts, and the lines of errors."""
    status, lines, errors = rows("-l", "-R", *paths)
    if any(kind != "text" for kind, _ in lines):
        sys.exit("a line is not that of a text: %r" % lines)
    return status, [path for _, path in lines], errors


def make(*paths):
    for path in paths:
        write(os.fsdecode(path), "a line of text, as long as a header\n")


def every_kind():
    """A folder with a file of each kind, a FIFO, a socket, a device, and names that are not UTF-8."""
    make(b"kinds/z", b"kinds/\xff/inside", b"kinds/r\xe9.o")
    write("kinds/empty", b"")
    write("kinds/core", bytes(266) + bytes([0, 0, 1, 0]) + bytes(754 + 64))
    subprocess.run(["tar", "-cf", "kinds/tar", "kinds/z"], check=True)
    os.mkfifo("kinds/fifo")
    socket.socket(socket.AF_UNIX).bind("kinds/socket")
    found = [("core", "core"), ("empty", "empty"), ("FIFO", "fifo"), ("socket", "socket"), ("tar", "tar"), ("text", "z")]
    if os.getuid() == 0:
        os.mknod("kinds/device", stat.S_IFCHR | 0o600, os.makedev(1, 5))
        found.insert(1, ("device", "device"))
    else:
        print("not tried without root: a device in a folder")
    # in the order of what is shown: a backslash comes before an r
    found += [("not UTF-8", "\\377"), ("not UTF-8", "r\\351.o")]
    errors = [f"v7-explain: kinds/{path}: {FAULTS['open']}" for kind, path in found if kind == "not UTF-8"]
    same("every kind", rows("-l", "-R", "kinds"), (2, [(kind, "kinds/" + path) for kind, path in found], errors))
    write("program", pack([(0o207, 0)], flag=1))
    said = [*(f"kinds/{path}: not tried: its name is not UTF-8" for kind, path in found if kind == "not UTF-8"),
            "program: text 02, data 0, plain", "000000-000002  2 bytes of no object here"]
    same("no object", ran(program("v7-origin"), "-R", "kinds", "program", seconds=60).texts(), (1, "\n".join([*said, ""]), ""))
    os.remove("program")
    os.chdir("kinds")
    same("every kind, here", rows("-l", "-R", ".")[:2], (2, [(kind, "./" + path) for kind, path in found]))
    os.chdir("..")

    # by their own paths, they have lines of an inventory, and are not opened
    special = [("FIFO", "kinds/fifo"), ("socket", "kinds/socket"), ("device", "/dev/zero")]
    same("named", rows("-l", *[path for _, path in special], "kinds/z"), (0, [*special, ("text", "kinds/z")], []))
    for option in ([], ["-c"], ["-d"], ["-s"], ["-m"], ["-o", "out"]):
        for _, path in special:
            same(f"{option} {path}", rows(*option, path), (2, [], [f"v7-explain: {path}: {FAULTS['open']}"]))
    # a link is followed
    piped = ran(EXPLAIN, "-l", "/dev/stdin", given=b"a text of a pipe", seconds=60).texts()
    same("a pipe", piped, (0, f"{'text':12}{COLUMNS}/dev/stdin\n", ""))


def main():
    make(b"some/b/c", b"some/a", b"some/b-", b"some/empty/x", "some/\u00fc/\u4e2d".encode(), b"other/here")
    os.remove(b"some/empty/x")
    found = ["some/a", "some/b/c", "some/b-", "some/\u00fc/\u4e2d"]
    same("folders", inventory("some"), (0, found, []))
    notices(same, "a folder less", inventory("some"), (0, found[1:], []))
    same("slashes", inventory("some/b/", "some//b", "."),
         (0, ["some/b/c", "some//b/c", "./other/here", *("./" + path for path in found)], []))

    # a loop of links, a link to a file, and one to nothing
    os.symlink("..", b"some/b/up")
    os.symlink("a", b"some/link")
    os.symlink("nowhere", b"some/lost")
    same("links", inventory("some"), (0, found, []))
    os.symlink("some", b"to")
    same("a link", inventory("to", "to/"), (2, [path.replace("some", "to") for path in found], ["v7-explain: to: " + FAULTS["read"]]))
    same("a link to a file", inventory("some/link"), (0, ["some/link"], []))

    every_kind()
    if os.getuid() != 0:
        os.chmod("some/b", 0)
        found.remove("some/b/c")
        same("no permission", inventory("some"), (2, found, ["v7-explain: some/b: " + FAULTS["open"]]))
        os.chmod("some/b", 0o700)

    top = os.open(".", os.O_RDONLY)
    os.mkdir("deep")
    os.chdir("deep")
    for _ in range(DEEP):
        os.mkdir("d")
        os.chdir("d")
    os.fchdir(top)
    status, lines, errors = inventory("deep")
    same("deep folders", (status, lines, len(errors)), (2, [], 1))
    if not errors[0].startswith("v7-explain: deep/d/d/d/") or len(errors[0]) < 4000:
        sys.exit("deep folders: %r" % errors)
    subprocess.run(["rm", "-rf", "deep"], check=True)
    print("folders are walked as said: links, devices, FIFOs, sockets, names that are not UTF-8, and %d levels" % DEEP)


if __name__ == "__main__":
    EXPLAIN = program("v7-explain")
    with new_folder():
        main()
