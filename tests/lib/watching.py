"""Lists what a program requests of the system, and has the system refuse some of it. tests/lib/watch.c is loaded before the program,
which has to be linked to the C library when it starts."""
import atexit
import functools
import os
import shutil
import tempfile

from tests.lib.files import TOP, read_bytes
from tests.lib.programs import ran

SOURCE = f"{TOP}/tests/lib/watch.c"


class NotWatched(Exception):
    """The reason why a program cannot be watched."""


def is_memory(request):
    return request.startswith(b"memory ")


@functools.cache
def compiled():
    """The library, compiled once for all programs, in a folder of its own."""
    folder, compiler = tempfile.mkdtemp(), os.environ.get("CC") or "cc"
    atexit.register(shutil.rmtree, folder)
    try:
        done = ran(compiler, "-O1", "-shared", "-fPIC", "-o", f"{folder}/watch.so", SOURCE)
    except OSError as error:
        raise NotWatched(f"{compiler}, which compiles tests/lib/watch.c, does not start: {error.strerror}") from None
    if done.status:
        raise NotWatched(f"tests/lib/watch.c is not compiled: {done.said()}")
    return f"{folder}/watch.so"


class Watch:
    """Watches one run of a program."""

    def __init__(self, plans):
        """Each plan is `refuse` and a request, or `read` or `write`, a file, and after how many bytes that fails. The seventh request for
        memory is `memory 7`, and with all after it `memory 7..`."""
        self.library = compiled()
        self.list = os.path.join(os.path.dirname(self.library), f"list{os.getpid()}")
        self.plans, self.refused, self.granted = [self.lines_of(*plan) for plan in plans], [], []

    @staticmethod
    def lines_of(word, name, count=b""):
        """The three lines of a plan."""
        return (word, b"memory", name[7:-2]) if is_memory(name) and name.endswith(b"..") else (word, name, count)

    def is_reached(self, request):
        """Whether a run came to this request for memory, or to the one before it, if all after it are refused too."""
        if request.endswith(b".."):
            number = int(request[7:-2])
            return number < 2 or b"granted %d" % (number - 1) in self.granted
        return request in self.refused

    def environment(self):
        lines = [word for plan in self.plans for word in plan]
        return {"LD_PRELOAD": self.library, "WATCH_LIST": self.list, "WATCH_PLAN": b"".join(word + b"\n" for word in lines)}

    def requests(self):
        """The requests in order. Equal reads or writes that follow each other are one, and reads of standard input are left out. Afterwards
        `refused` has the requests for memory that were refused, and `granted` the last one before all are."""
        if not os.path.exists(self.list):
            raise NotWatched("tests/lib/watch.c is not loaded")
        lines = read_bytes(self.list).split(b"\n")[1:-1]
        os.remove(self.list)
        self.refused = [*filter(is_memory, lines)]
        self.granted = [line for line in lines if line.startswith(b"granted ")]
        lines = [line for line in lines if line not in self.refused + self.granted]
        found = []
        for line in lines:
            is_again = found[-1:] == [line] and line.startswith((b"read ", b"write "))
            if line != b"read stdin" and not is_again:
                found.append(line)
        return found
