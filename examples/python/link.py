"""Links objects by libv7: python3 link.py OUT OBJECT... does what v7 ld -o OUT OBJECT... does."""
import sys

import v7


def read(path):
    with open(path, "rb") as file:
        return file.read()


def main(out, *paths):
    objects = [read(path) for path in paths]
    for path, data in zip(paths, objects):
        print(f"{path}: {v7.size(data)}", end="")
    try:
        program = v7.link(objects)
    except v7.Fault as fault:
        print(fault, file=sys.stderr)
        return 2
    with open(out, "wb") as file:
        file.write(program.file)
    print(program.report, end="")
    return program.status


if __name__ == "__main__":
    sys.exit(main(*sys.argv[1:]))
