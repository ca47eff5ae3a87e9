"""Runs commands, and the programs that are tested: these are in build/, or in the folder V7_BUILD."""
import importlib
import os
import subprocess
import sys
from typing import NamedTuple

from tests.lib.files import TOP, read

BUILD = os.environ.get("V7_BUILD") or os.path.join(TOP, "build")
# the programs of a release, each with its crate
PROGRAMS = {name: name.replace("-", "_") for name in ("v7", "v7-explain", "v7-from-gnu", "v7-object", "v7-origin")}
# the words of the faults that every program has, by the names by which cases cite them
FAULTS = dict(line.split(" ", 1) for line in read(f"{TOP}/tests/lib/faults").splitlines())


class Ran(NamedTuple):
    status: int
    out: bytes
    err: bytes

    def texts(self, encoding="latin-1"):
        """The status, and both outputs as texts."""
        return self.status, self.out.decode(encoding), self.err.decode(encoding)

    def said(self):
        """What both outputs have, one after the other."""
        return (self.out + self.err).decode("utf-8", "replace")


def program(name):
    """The path of a program, which has to be there."""
    path = os.path.join(BUILD, name)
    if not os.access(path, os.X_OK):
        sys.exit(f"{path} is missing: make build/{name} proves it; or, after make quick: V7_BUILD=build/quick")
    return path


def asked(*words, **how):
    """The text that a command prints, which has to succeed."""
    return subprocess.run(words, stdout=subprocess.PIPE, check=True, encoding="utf-8", **how).stdout


def ran(*words, given=b"", seconds=None, **how):
    """Runs a command whose input is these bytes."""
    done = subprocess.run(words, input=given, stdout=subprocess.PIPE, stderr=subprocess.PIPE, timeout=seconds, check=False, **how)
    return Ran(done.returncode, done.stdout, done.stderr)


class Library:
    """The module of libv7: the library beside the programs, unless LIBV7 names another. It is loaded when it is first used."""

    def __getattr__(self, name):
        path = os.environ.setdefault("LIBV7", os.path.join(BUILD, "libv7.so"))
        if not os.path.exists(path):
            sys.exit(f"{path} is missing: make lib proves it; or, after make quick: V7_BUILD=build/quick")
        return getattr(importlib.import_module("v7"), name)


v7 = Library()
