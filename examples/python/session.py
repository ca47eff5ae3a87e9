"""Makes two objects, links them, adds and withdraws, and compares: python3 session.py."""
import sys

import v7

# mov $4,r0; jsr pc,_half
MAIN = v7.make(
    text=[(0o012700, v7.NUMBER), (4, v7.NUMBER), (0o004767, v7.NUMBER), (0o177770, v7.refers_to(1) + v7.FROM_PC)],
    symbols=[("start", v7.TEXT, 0), ("_half", v7.UNDEFINED | v7.EXTERNAL, 0)],
)

# asr r0; rts pc; and a word of data that holds the address of the first
HALF = v7.make(
    text=[(0o006200, v7.NUMBER), (0o000207, v7.NUMBER)],
    data=[(0, v7.IN_TEXT)],
    symbols=[("_half", v7.TEXT | v7.EXTERNAL, 0)],
)


def same(name, got, wanted):
    if got != wanted:
        sys.exit(f"{name}: {got!r} and not {wanted!r}")
    print(f"{name}: as wanted")


def main():
    both = v7.link([MAIN, HALF])
    alone = v7.link([MAIN])
    same("nothing to report", (both.status, both.report), (0, ""))
    same("a name that is not there", (alone.status, alone.report), (1, "Undefined:\n_half\n"))
    same("names", v7.nm(both.file), "000010 T _half\n000000 t start\n")
    same("parts", v7.take_apart(HALF).data, [(0, v7.IN_TEXT)])
    same("made of parts", v7.make(*v7.take_apart(MAIN)), MAIN)

    session = v7.Session([MAIN])
    waiting = {"value": 0o177770, "pc": True, "target": "external", "name": "_half"}
    shown = session.state()
    same("a word that waits", session.state()["text"][3], {"offset": 6, **waiting})
    session.add(HALF)
    same("added", session.link(), both)
    marks = [{"name": "_half", "was": {"state": "undefined", "value": 0}}, {"segment": "text", "offset": 6, "was": waiting}]
    same("what the addition overwrote", session.state()["marks"], marks)
    session.withdraw()
    same("withdrawn", session.link(), alone)
    same("shown as before", session.state(), shown)
    session.withdraw()
    same("nothing left", session.link(), v7.link([]))
    try:
        session.withdraw()
    except v7.Fault as fault:
        same("nothing to withdraw", str(fault), "nothing to withdraw")
    session.add(HALF)
    same("the other one", session.link().file, v7.link([HALF]).file)


if __name__ == "__main__":
    main()
