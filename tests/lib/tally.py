"""Counts jobs that run side by side: how many are done, what they print, and which have failed."""
import os
import re
import signal
import time
from concurrent.futures import FIRST_COMPLETED, wait

from tests.lib.compare import Differs

SECONDS_SILENT = 10


class Failed(Differs):
    """What was printed by something that failed."""


class Tally:
    """What has been run, and whether anything failed."""

    def __init__(self, jobs, busy=None):
        """Jobs with their names. `busy` gives the names of those that are at work, if others wait for these."""
        self.jobs, self.begun = jobs, time.monotonic()
        self.busy = busy or (lambda: [name for job, name in jobs.items() if job.running()])
        self.lines = []
        self.failed = []

    def far(self):
        return f"{len(self.lines) + len(self.failed)} of {len(self.jobs)}, {time.monotonic() - self.begun:.0f} seconds"

    def take(self, job):
        try:
            self.lines.append(job.result())
            print(f"{self.far()}: {self.jobs[job]}: {self.lines[-1]}", flush=True)
        except Failed as failed:
            self.failed.append(self.jobs[job])
            print(f"{self.far()}: FAILED: {self.jobs[job]}\n{str(failed).rstrip()}", flush=True)

    def take_all(self):
        """Takes each result as it comes, and returns the status to end with. What runs is printed if nothing comes for a while, and what
        is left out if this is stopped."""
        left = {*self.jobs}

        def stopped(number, _):
            os.write(1, f"stopped without {', '.join(sorted(self.jobs[job] for job in left))}\n".encode())
            os._exit(128 + number)

        signal.signal(signal.SIGTERM, stopped)
        while left:
            done, left = wait(left, SECONDS_SILENT, FIRST_COMPLETED)
            for job in done:
                self.take(job)
            if not done:
                print(f"{self.far()}; now {', '.join(self.busy())}", flush=True)
        if self.failed:
            print(f"{len(self.failed)} failed: {', '.join(self.failed)}")
        return 1 if self.failed else 0

    def count(self, pattern):
        found = (re.match(pattern, line) for line in self.lines)
        return sum(int(it[1]) for it in found if it)
