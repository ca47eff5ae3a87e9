"""Comparing, and showing that a comparer can fail."""
import contextlib
import io
import sys


class Differs(SystemExit):
    """What was found, and what is wanted: a script that does not catch it ends with it."""


def first_difference(found, wanted):
    """Of lists the first items that differ, with their number; of other values both."""
    if isinstance(found, list) and isinstance(wanted, list):
        at = next((at for at, (one, other) in enumerate(zip(found, wanted)) if one != other), min(len(found), len(wanted)))
        where = f"item {at + 1} of {len(found)} and {len(wanted)} "
        return where, *(f"{items[at]!r}" if at < len(items) else "nothing" for items in (found, wanted))
    return "", repr(found), repr(wanted)


def same(what, found, wanted):
    """Raises Differs if what was found is not what is wanted."""
    if found != wanted:
        where, one, other = first_difference(found, wanted)
        raise Differs(f"{what}: {where}\n  came   {one[:2000]}\n  wanted {other[:2000]}")


def notices(comparer, *given):
    """Gives a comparer a planted difference: it has to raise. What it prints is not shown. Each script that compares calls this once a run,
    so that a comparer which always agrees is found."""
    with contextlib.redirect_stdout(io.StringIO()):
        try:
            comparer(*given)
        except (AssertionError, SystemExit):
            return
    sys.exit(f"{comparer.__module__}.{comparer.__qualname__} does not report a difference that is planted")
