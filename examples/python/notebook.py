"""A notebook on a link: each cell asks the library, and shows what it answers, as Markdown: python3 notebook.py OBJECT..."""
import sys

import v7

CELLS = []


def cell(question):
    def kept(answer):
        CELLS.append((question, answer))
        return answer

    return kept


def table(head, rows):
    return "\n".join(f"| {' | '.join(map(str, row))} |" for row in [head, ["---"] * len(head), *rows])


@cell("How large are the objects?")
def sizes(paths, objects):
    parts = map(v7.take_apart, objects)
    return table(["object", "text", "data", "bss"], [(path, 2 * len(p.text), 2 * len(p.data), p.bss) for path, p in zip(paths, parts)])


@cell("Who defines each name, and who uses it?")
def names(paths, objects):
    found = v7.link_map(objects)
    rows = []
    for number, name in enumerate(found.names):
        users = {paths[use.object] for use in found.uses if use.name == number and use.kind in (v7.TEXT_WORD, v7.DATA_WORD)}
        definer = "nobody" if name.definer is None else paths[name.definer]
        rows.append((f"`{name.name}`", definer, ", ".join(sorted(users)) or "nobody"))
    return table(["name", "defined by", "used by"], rows)


@cell("Which instructions use a name that another object defines?")
def lines(paths, objects):
    found = v7.link_map(objects)
    rows = []
    for use in found.uses:
        if use.kind == v7.TEXT_WORD and found.names[use.name].definer not in (None, use.object):
            text = {line[:6]: line[30:] for line in v7.disassemble(objects[use.object]).splitlines() if line[:1].isdigit()}
            rows.append((paths[use.object], f"{use.line:06o}", f"`{text[f'{use.line:06o}']}`"))
    return table(["object", "address", "instruction"], rows)


@cell("What is missing without the last object, without the last two, and so on?")
def missing(paths, objects):
    rows = []
    with v7.Session(objects) as session:
        for path in reversed(paths):
            session.withdraw()
            rows.append((path, ", ".join(f"`{name}`" for name in session.link_findings().findings.undefined) or "nothing"))
    return table(["without", "undefined"], rows)


@cell("How much is left?")
def limits(paths, objects):
    kinds = {v7.LIMIT_TEXT: "text", v7.LIMIT_DATA: "data", v7.LIMIT_END: "all segments", v7.LIMIT_SYMBOLS: "symbols"}
    return table(["of", "used", "at most"], [(kinds[it.kind], it.used, it.most) for it in v7.link_map(objects).limits if it.kind in kinds])


def main(paths):
    objects = []
    for path in paths:
        with open(path, "rb") as file:
            objects.append(file.read())
    for question, answer in CELLS:
        print(f"## {question}\n\n{answer(paths, objects)}\n")


if __name__ == "__main__":
    main(sys.argv[1:])
