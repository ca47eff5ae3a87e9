"""Compares the stored run of each program with what it prints. With the arguments in `args` of its crate, the input `stdin`, and in a copy
of `data/`, it has to print the bytes of `stdout`, and to end with the status of `status`. `rt ci` compares those of proved programs,
once all is proved.

tier: test, 3 seconds; programs: v7 v7-explain v7-object v7-from-gnu v7-origin;
 for: crates/v7_explain
"""
import os

from tests.lib.compare import notices, same
from tests.lib.files import TOP, new_folder, read_bytes
from tests.lib.programs import PROGRAMS, program, ran


def stored(crate, name):
    """A file of a stored run, or nothing."""
    path = f"{TOP}/crates/{crate}/{name}"
    return read_bytes(path) if os.path.exists(path) else b""


def compare(crate, done):
    same(f"crates/{crate}/stdout", done.out.split(b"\n"), stored(crate, "stdout").split(b"\n"))
    same(f"crates/{crate}/status, with {done.err!r}", done.status, int(stored(crate, "status") or 0))


def main():
    for name, crate in PROGRAMS.items():
        data = f"crates/{crate}/data"
        with new_folder(data if os.path.isdir(f"{TOP}/{data}") else ""):
            done = ran(program(name), *stored(crate, "args").decode().splitlines(), given=stored(crate, "stdin"))
        notices(compare, crate, done._replace(out=b"planted" + stored(crate, "stdout")))
        notices(compare, crate, done._replace(out=stored(crate, "stdout"), status=3))
        compare(crate, done)
    print(f"{len(PROGRAMS)} stored runs compared")


if __name__ == "__main__":
    main()
