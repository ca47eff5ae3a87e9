"""Runs commands under valgrind, and counts their instructions, for all counts of this project.

A processor copies or clears many bytes by one `rep movsb` or `rep stosb`, and callgrind counts such an instruction once for each
byte. So glibc is asked to use neither, by ENVIRONMENT. Only counts with the same setting can be compared.

Instructions do not show the time: a processor does several at once, and waits for memory and for the system. So `milliseconds` gives
the least time of a processor, of the command and of the system for it, in many runs. Compare it only with runs on the same host.

usage: python3 -m tests.costs.counting COMMAND ..      prints how many instructions the command takes
"""
import os
import re
import shutil
import subprocess
import sys
import tempfile

from tests.lib.files import read
from tests.lib.programs import ran

ENVIRONMENT = {"GLIBC_TUNABLES": "glibc.cpu.x86_rep_movsb_threshold=0x10000000:glibc.cpu.x86_rep_stosb_threshold=0x10000000"}


def is_installed():
    """Whether valgrind is installed; if not, it says so."""
    if shutil.which("valgrind"):
        return True
    print("instructions are counted where valgrind is installed")
    return False


def valgrind(words, folder=None, script=""):
    """Runs a command under valgrind, whose options come before it, with this input."""
    return ran("valgrind", *words, given=script.encode(), cwd=folder, env={**os.environ, **ENVIRONMENT})


def counted(command, folder=None, script="", status=0):
    """How many instructions a command takes under callgrind. It has to end with this status."""
    with tempfile.TemporaryDirectory() as own:
        path = f"{own}/counts"
        done = valgrind(["--tool=callgrind", f"--callgrind-out-file={path}", *command], folder, script)
        if done.status != status or not os.path.exists(path):
            sys.exit(f"{' '.join(command[:9])} ended with status {done.status} under valgrind: {done.said()}")
        return int(re.search(r"^summary: (\d+)", read(path), re.M)[1])


def ended(command, folder=None):
    """Runs a command: what it used, and how often it read and wrote, as the system says."""
    process = subprocess.Popen(command, cwd=folder, stdin=subprocess.DEVNULL, stdout=subprocess.DEVNULL, stderr=subprocess.DEVNULL)
    os.waitid(os.P_PID, process.pid, os.WEXITED | os.WNOWAIT)
    with open(f"/proc/{process.pid}/io", encoding="ascii") as file:
        calls = [int(count) for count in re.findall(r"^sysc[rw]: (\d+)", file.read(), re.M)]
    _, _, used = os.wait4(process.pid, 0)
    process.returncode = 0
    return used, calls


def milliseconds(command, folder=None, runs=60):
    """The least time of a processor that a command takes in a number of runs."""
    runs = [ended(command, folder)[0] for _ in range(runs)]
    return 1000 * min(used.ru_utime + used.ru_stime for used in runs)


def main(*command):
    if not is_installed():
        return 1
    print(counted(command))
    return 0


if __name__ == "__main__":
    sys.exit(main(*sys.argv[1:]))
