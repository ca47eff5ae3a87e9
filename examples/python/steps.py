"""Adds objects to a session and withdraws them again, and prints what each step changes: python3 steps.py OBJECT...

A line with `-` is as it was, one with `+` as it is. A line of a mark is what the addition overwrote, and what a withdrawal puts back.
"""
import sys

import v7


def read(path):
    with open(path, "rb") as file:
        return file.read()


def lines(state):
    """A state as lines, each with what it is about."""
    for part in ("text", "data"):
        for word in state[part]:
            target = word.get("name") or word["target"]
            yield f"{part} {word['offset']:06o}", f"{word['value']:06o} {'pc' if word['pc'] else '  '} {target}"
    yield "bss", f"{state['bss']} bytes"
    for name in state["externals"]:
        yield f"name {name['name']}", f"{name['state']} {name['value']:06o}"


def show(title, before, after, marks):
    print(title)
    old, new = dict(lines(before)), dict(lines(after))
    for about in [*new, *(about for about in old if about not in new)]:
        if old.get(about) != new.get(about):
            print("".join(f"  {sign} {about}  {of[about]}\n" for sign, of in (("-", old), ("+", new)) if about in of), end="")
    for mark in marks:
        about = f"{mark['segment']} {mark['offset']:06o}" if "segment" in mark else mark["name"]
        was = mark["was"]
        print(f"  mark {about} was {was['value']:06o} {was.get('name') or was.get('target') or was['state']}")


def main(*paths):
    with v7.Session() as session:
        states = [session.state()]
        for path in paths:
            session.add(read(path))
            states.append(session.state())
            show(f"add {path}", states[-2], states[-1], states[-1]["marks"])
        for path, before in zip(reversed(paths), states[-2::-1]):
            after = session.state()
            session.withdraw()
            show(f"withdraw {path}", after, session.state(), [])
            assert session.state() == before


if __name__ == "__main__":
    sys.exit(main(*sys.argv[1:]))
