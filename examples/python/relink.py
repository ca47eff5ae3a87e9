"""Links the objects of a folder, in the order of their names, whenever one of them changes: python3 relink.py OUT FOLDER.

The session keeps what is linked. After a change it withdraws the objects from the first that changed on, and adds them again."""
import contextlib
import os
import sys
import time

import v7


def seen(folder):
    """The objects of a folder, each with what changes when it is written. One that goes away meanwhile is not among them."""
    found = []
    for name in sorted(name for name in os.listdir(folder) if name.endswith(".o")):
        path = os.path.join(folder, name)
        with contextlib.suppress(FileNotFoundError):
            status = os.stat(path)
            found.append((path, status.st_mtime_ns, status.st_size))
    return found


def same_so_far(old, new):
    """How many of the first objects are as they were."""
    return next((place for place, pair in enumerate(zip(old, new)) if pair[0] != pair[1]), min(len(old), len(new)))


def update(session, old, new):
    """Makes the session that of the new objects; returns those that it has, which end before one that is refused."""
    place = same_so_far(old, new)
    for _ in old[place:]:
        session.withdraw()
    for number, (path, *_) in enumerate(new[place:], place):
        try:
            with open(path, "rb") as file:
                session.add(file.read())
        except (OSError, v7.Fault) as error:
            print(f"{path}: {error}", flush=True)
            return new[:number]
    return new


def write(path, data):
    with open(f"{path}.part", "wb") as file:
        file.write(data)
    os.replace(f"{path}.part", path)


def watch(out, folder):
    linked, last = [], None
    with v7.Session() as session:
        while True:
            now = seen(folder)
            if now != last:
                linked, last = update(session, linked, now), now
                if linked == now:
                    program = session.link()
                    write(out, program.file)
                    print(program.report, end="", flush=True)
            time.sleep(0.1)


if __name__ == "__main__":
    watch(*sys.argv[1:])
