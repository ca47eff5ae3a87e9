#!/usr/bin/env python3
"""Lays out what is installed, and puts it into its place: programs, manual, documents, as HTML too, examples, the page, and
completion. The packages of a release have the same, by packaging/dist.py.

usage: packaging/installed.py put BUILD FOLDER          what the programs of the folder BUILD come with, below FOLDER
       packaging/installed.py library FOLDER            the documents of libv7, below FOLDER
       packaging/installed.py copy STAGE DEST PREFIX    copies what is below STAGE/PREFIX to DEST/PREFIX; without a DEST it notes that there
       packaging/installed.py remove PREFIX             takes away what was noted

A link of a document leads to what is installed too, or else is plain text. For HTML it takes cmark-gfm and mandoc.
"""
import glob
import html
import os
import re
import shutil
import sys
import textwrap

sys.path.insert(1, os.path.dirname(os.path.dirname(os.path.abspath(__file__))))
from tests.lib.files import TOP, read, read_bytes, write  # noqa: E402
from tests.lib.programs import PROGRAMS, asked  # noqa: E402
import completion  # noqa: E402

DOCUMENTS = ["CHANGES.md", "CONTRIBUTING.md", "docs", "examples"]
# what libv7-dev has of the documents: what v7.h cites, and what shows how to call the library
LIBRARY_DOCUMENTS = ["docs/LIBRARY.md", "docs/LINK.md", "docs/FORMAT.md", "docs/OBJECTS.md"]
README = "packaging/README.md"
NOTED = "share/doc/v7/INSTALLED"
WIDTH = 100
LINK = re.compile(r"(!?)\[((?:[^\[\]`]|`[^`]*`)*)\]\(([^)\s#]*)(#[^)\s]*)?\)")
STYLE = """body { max-width: 100ch; margin: 1em auto; padding: 0 1em; font-family: sans-serif; line-height: 1.4 }
pre, table { overflow-x: auto; display: block } pre { background: #eee; padding: 0.5em }
table { border-collapse: collapse } td, th { border: 1px solid #aaa; padding: 0.2em 0.5em; vertical-align: top } img { max-width: 100% }
"""


def version():
    return re.search(r'^#define V7_VERSION "(.*)"$', read(f"{TOP}/include/v7.h"), re.M)[1]


def anchor(heading):
    """The name by which links know a heading."""
    return re.sub(r"[^\w\- ]", "", heading.lower()).replace(" ", "-")


# --- documents

def prose(text):
    """The lines of a document, each with whether it is prose: outside of blocks of code."""
    fenced = False
    for line in text.split("\n"):
        mark = line.startswith("```")
        fenced ^= mark
        yield line, not (fenced or mark or line.startswith("    "))


def settled(text, source, place, shipped):
    """A document of which each link leads to what is shipped, or is plain text. `shipped` has the place of each path."""
    def settle(found):
        mark, shown, target, heading = found.groups()
        if "://" in target:
            return found[0]
        path = os.path.normpath(os.path.join(os.path.dirname(source), target)) if target else source
        if path not in shipped:
            return shown
        to = os.path.relpath(shipped[path], os.path.dirname(place) or ".") if target else ""
        return f"{mark}[{shown}]({to}{heading or ''})"

    return "\n".join(LINK.sub(settle, line) if is_prose else line for line, is_prose in prose(text))


def filled(parts, head):
    """The lines of a paragraph or an item, of at most WIDTH columns. None but the first begins as an item or a heading does."""
    text = re.sub(r" (?=[-+*#>=|]|\d+[.)])", "\0", " ".join(" ".join(parts).split()))
    how = {"initial_indent": head, "subsequent_indent": " " * len(head), "break_long_words": False, "break_on_hyphens": False}
    return [line.replace("\0", " ") for line in textwrap.wrap(text, WIDTH, **how)]


def reflowed(text):
    """A document whose prose has lines of at most WIDTH columns."""
    lines, parts, head = [], [], ""

    def flush():
        lines.extend(filled(parts, head) if parts else [])
        parts.clear()

    for line, is_prose in prose(text):
        item = re.match(r" *(?:[-*]|\d+\.) ", line)
        if not is_prose or not line or line.startswith(("#", "|", "!")):
            flush()
            lines.append(line)
        else:
            if item:
                flush()
            if not parts:
                head = item[0] if item else ""
            parts.append(line[len(item[0]):] if item else line)
    flush()
    return "\n".join(lines)


def page_of(text, title, up):
    """A document as a page: with names for its headings, and links to other pages."""
    text = "\n".join(LINK.sub(lambda found: re.sub(r"\.md(#[^)]*)?\)$", r".html\1)", found[0]), line) if is_prose else line
                     for line, is_prose in prose(text))
    named = lambda found: f'<h{found[1]} id="{anchor(html.unescape(re.sub("<[^>]*>", "", found[2])))}">{found[2]}</h{found[1]}>'
    body = re.sub(r"<h(\d)>(.*?)</h\1>", named, asked("cmark-gfm", "-e", "table", input=text))
    return (f'<!DOCTYPE html>\n<html lang="en">\n<head><meta charset="utf-8"><title>{html.escape(title)}</title>'
            f'<link rel="stylesheet" href="{up}style.css"></head>\n<body>\n{body}</body>\n</html>\n')


def manual_page(path, shipped):
    """A page of the manual as HTML, without links to pages that are not shipped."""
    made = asked("mandoc", "-T", "html", "-O", "man=%N.%S.html,style=../style.css", f"{TOP}/{path}")
    kept = lambda found: found[0] if f"man/{found[1].removesuffix('.html')}" in shipped else found[2]
    return re.sub(r'<a class="Xr" href="([^"]*)">(.*?)</a>', kept, made)


def files_in(names):
    """The files of these names and folders of the repository."""
    for name in names:
        if os.path.isdir(f"{TOP}/{name}"):
            for path in sorted(glob.glob(f"{TOP}/{name}/**", recursive=True)):
                if os.path.isfile(path) and "__pycache__" not in path:
                    yield os.path.relpath(path, TOP)
        else:
            yield name


def has_tools():
    found = all(map(shutil.which, ("cmark-gfm", "mandoc")))
    if not found:
        print("cmark-gfm or mandoc is not there: no HTML is installed", file=sys.stderr)
    return found


def readme(text, there):
    """The README of a release, with its version, and without the rows of files that are not there."""
    text = text.replace("# v7\n", f"# v7 {version()}\n", 1)
    return re.sub(r"^\| `share/doc/v7/([^`]*)` .*\n", lambda found: found[0] if found[1] in {"examples", *there} else "", text, flags=re.M)


def documents(to, names, has_html, made=()):
    """Documents and examples below a folder. README.md there is that of a release. `made` are the files that are there besides."""
    shipped = {path: path for path in files_in(names)}
    if has_html:
        # the page of libv7 comes with libv7 alone
        shipped.update((path, f"{path}.html") for path in files_in(["man"]) if path.endswith(".3") != ("docs" in names))
    shipped.update((path, path) for path in made)
    if "docs" in names:
        shipped.update({README: "README.md", "README.md": "README.md"})
    for path, place in shipped.items():
        if path in ("README.md", *made):
            continue
        if path.startswith("man/"):
            write(f"{to}/{place}", manual_page(path, shipped))
        elif not path.endswith(".md"):
            write(f"{to}/{place}", read_bytes(f"{TOP}/{path}"))
        else:
            text = read(f"{TOP}/{path}")
            if path == README:
                text = readme(text, {*shipped.values(), *["README.html"] * has_html})
            text = reflowed(settled(text, path, place, shipped))
            write(f"{to}/{place}", text)
            if has_html:
                write(f"{to}/{place[:-3]}.html", page_of(text, place[:-3], "../" * place.count("/")))
    if has_html:
        write(f"{to}/style.css", STYLE)


# --- all that comes with the programs

def put(build, to, has_html=None, made=()):
    """The programs of a folder, and what comes with them, below a folder. `made` are the files that are made besides."""
    for name in PROGRAMS:
        write(f"{to}/bin/{name}", read_bytes(f"{build}/{name}"))
    for path in files_in(["man"]):
        if not path.endswith(".3"):
            write(f"{to}/share/man/man{path[-1]}/{os.path.basename(path)}", read_bytes(f"{TOP}/{path}"))
    page = [name for name in ("v7.html",) if os.path.exists(f"{build}/{name}")]
    if not page:
        print("no page is installed: `make page` makes it", file=sys.stderr)
    documents(f"{to}/share/doc/v7", DOCUMENTS, has_tools() if has_html is None else has_html, [*page, *made])
    for name in page:
        write(f"{to}/share/doc/v7/{name}", read_bytes(f"{build}/{name}"))
    bash, zsh = completion.texts()
    for name in PROGRAMS:
        write(f"{to}/share/bash-completion/completions/{name}", bash)
    write(f"{to}/share/zsh/site-functions/_v7", zsh)


# --- into its place

def copy(stage, dest, prefix):
    """Copies files with fixed modes, whatever the file mask is, and notes each file, and each folder that is new. A package, which is made
    in a folder `dest`, has no such note."""
    root = os.path.abspath(dest + prefix)
    noted = [*read(f"{root}/{NOTED}").split("\n")[:-1]] if os.path.exists(f"{root}/{NOTED}") else []

    def make(folder):
        if not os.path.isdir(folder):
            make(os.path.dirname(folder))
            os.mkdir(folder)
            os.chmod(folder, 0o755)
            noted.append(os.path.relpath(folder, root) + "/")

    stage = os.path.abspath(stage)
    for at, _, files in sorted(os.walk(stage)):
        for name in sorted(files):
            place = os.path.abspath(dest + "/" + os.path.relpath(f"{at}/{name}", stage))
            make(os.path.dirname(place))
            if os.path.lexists(place):
                os.remove(place)
            shutil.copyfile(f"{at}/{name}", place, follow_symlinks=False)
            if not os.path.islink(place):
                os.chmod(place, 0o755 if os.path.basename(at) == "bin" else 0o644)
            noted.append(os.path.relpath(place, root))
    if dest:
        return
    make(os.path.dirname(f"{root}/{NOTED}"))
    write(f"{root}/{NOTED}", "".join(f"{path}\n" for path in dict.fromkeys(noted)))
    os.chmod(f"{root}/{NOTED}", 0o644)


def remove(prefix):
    """Removes the files that were noted, and the folders that were made for them and are empty now."""
    root = os.path.abspath(prefix)
    if not os.path.exists(f"{root}/{NOTED}"):
        sys.exit(f"{root}/{NOTED} is not there: nothing was installed")
    noted = read(f"{root}/{NOTED}").split("\n")[:-1]
    for path in (*noted, NOTED):
        if not path.endswith("/") and os.path.lexists(f"{root}/{path}"):
            os.remove(f"{root}/{path}")
    for path in sorted((os.path.normpath(f"{root}/{path}") for path in noted if path.endswith("/")), key=len, reverse=True):
        if os.path.isdir(path) and not os.listdir(path):
            os.rmdir(path)


def main(words):
    library = lambda to: documents(to, LIBRARY_DOCUMENTS, has_tools())
    kinds = {"put": put, "library": library, "copy": copy, "remove": remove}
    if len(words) < 2 or words[0] not in kinds:
        sys.exit(__doc__)
    kinds[words[0]](*words[1:])


if __name__ == "__main__":
    main(sys.argv[1:])
