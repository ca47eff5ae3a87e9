"""Opens the page in browsers, from the disk, and compares what it shows and says with the model of a state (page_model.py). Then it opens
objects of one's own (page_own.py), looks at the layout in many sizes (page_layout.py), takes the tour and the lessons by keys alone
(page_use.py), and measures the stage (page_stage.py) with the sixteen compiled objects of tests/page/data and with the examples: model,
own, layout and stage in Firefox too, if it is installed. The pictures of docs/pictures are compared with the page. No other script starts
a browser.

usage: python3 -m tests.page.page [-j JOBS] [-s SEED] [PART ..]     all parts or these, so many side by side; the seed makes programs, and
                                                                    puts the sixteen objects into an order
       the parts: firefox, layout, stage, model, own, use; and pictures, which writes docs/pictures anew
tier: all, 1500 seconds; words: -j 4; programs: v7 libv7.so;
 for: page examples/lessons.txt docs/pictures; needs: chromium chromedriver selenium firefox-esr wasm-opt
"""
import argparse
import random
import sys
import tempfile
import time
import traceback
from concurrent.futures import ThreadPoolExecutor, as_completed

from tests.lib.compare import notices
from tests.lib.programs import ran
from tests.page import page_layout, page_model, page_own, page_stage, page_use
from tests.page.page_browser import Chromium, Firefox, firefox
from tests.page.page_tools import Tools, faults, planted, report, same

# the checks of each part, and the pages that each is for; the longest part comes first, and all but that are in Chromium
PARTS = {"firefox": [*page_own.CHECKS, *page_model.CHECKS, *page_stage.CHECKS, *page_layout.CHECKS_EVERYWHERE],
         "layout": [*page_layout.CHECKS_EVERYWHERE, *page_layout.CHECKS], "stage": page_stage.CHECKS, "model": page_model.CHECKS,
         "own": page_own.CHECKS, "use": page_use.CHECKS, "pictures": [(page_layout.write_pictures, (0,))]}


def checked(tools, page, checks):
    """Makes checks of the pages that each is for; one that counts has to count something."""
    for check, numbers in checks:
        for number in numbers:
            path, files = tools.page(number)
            page.load(path)
            page.size(1366, 768)
            page.open("")
            count = check(tools, page, files)
            same(f"{check.__name__} has counted nothing", count == 0, False)
            print(f"{page.name}: {check.__name__} of page {number}{f': {count}' if count else ''}", flush=True)


def in_firefox(tools, checks):
    """Checks in Firefox; those that look at sizes also where all is twice as large."""
    if not firefox():
        print("not measured in Firefox, as it is not installed: Debian's package is firefox-esr")
        return
    for zoom in (1, 2):
        with Firefox(zoom=zoom) as page:
            checked(tools, page, [one for one in checks if zoom == 1 or one in [*page_stage.CHECKS, *page_layout.CHECKS_EVERYWHERE]])


def run_part(name, seed):
    """A part in this process: whether it has found faults."""
    notices(planted)
    with tempfile.TemporaryDirectory() as folder:
        try:
            if name == "firefox":
                in_firefox(Tools(folder, seed), PARTS[name])
            else:
                with Chromium() as page:
                    checked(Tools(folder, seed), page, PARTS[name])
        except (Exception, KeyboardInterrupt) as error:  # the faults that were found are printed all the same
            faults.append(f"{type(error).__name__}: {error}")
            traceback.print_exc()
    return report(name)


def run_parts(names, seed, jobs):
    """Parts side by side, each in a process of its own: how many have found faults."""
    began, count = time.monotonic(), 0
    with ThreadPoolExecutor(jobs) as pool:
        waiting = {pool.submit(ran, sys.executable, "-m", "tests.page.page", "-s", str(seed), name): name for name in names}
        for done in as_completed(waiting):
            print(f"--- {waiting[done]}, {time.monotonic() - began:.0f} s after the start\n{done.result().said()}", end="", flush=True)
            count += done.result().status != 0
    return count


def main():
    parser = argparse.ArgumentParser()
    parser.add_argument("-j", type=int, default=2, dest="jobs")
    parser.add_argument("-s", type=int, default=random.randrange(10_000), dest="seed")
    parser.add_argument("parts", nargs="*", default=[*PARTS][:-1])
    words = parser.parse_args()
    return run_part(*words.parts, words.seed) if len(words.parts) == 1 else run_parts(words.parts, words.seed, words.jobs)


if __name__ == "__main__":
    sys.exit(bool(main()))
