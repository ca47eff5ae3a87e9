"""Checks what is installed: no link of a document or a page is dead, and lines of prose have at most 100 columns.

usage: python3 -m tests.programs.installed look FOLDER      what is below this folder, or a file
       python3 -m tests.programs.installed            installs the programs by packaging/installed.py, as `make install` does, into a new
                                           folder, with the mask 077; looks, calls a program as another user, and uninstalls

tier: check, 10 seconds; programs: v7 v7-explain v7-object v7-from-gnu v7-origin; for: packaging/installed.py docs man examples;
 needs: cmark-gfm mandoc

A file FOO.gz may be in place of FOO, as on Debian.
"""
import glob
import html.parser
import os
import re
import subprocess
import sys
import tempfile

import installed
from tests.lib.files import TOP, read, write
from tests.lib.programs import BUILD, ran

NOBODY = 65534


class Page(html.parser.HTMLParser):
    """The links and the names of a page."""

    def __init__(self, text):
        super().__init__()
        self.links, self.names = [], set()
        self.feed(text)

    def handle_starttag(self, tag, attrs):
        for key, value in attrs:
            if key in ("href", "src"):
                self.links.append(value)
            elif key in ("id", "name"):
                self.names.add(value)


def names_in(path):
    """The places in a file that a link can name."""
    text = read(path)
    if path.endswith(".html"):
        return Page(text).names
    return {*map(installed.anchor, re.findall(r"^#+ (.*)$", text, re.M))}


def links_of(path):
    text = read(path)
    if path.endswith(".html"):
        return Page(text).links
    return [target + (heading or "") for line, is_prose in installed.prose(text) if is_prose
            for _, _, target, heading in installed.LINK.findall(line)]


def dead_in(path):
    """The links of a file that lead nowhere."""
    for link in links_of(path):
        target, _, heading = link.partition("#")
        if re.match(r"[a-z]+:", target):
            continue
        place = os.path.normpath(os.path.join(os.path.dirname(path), target)) if target else path
        if not os.path.exists(place) and not os.path.exists(place + ".gz"):
            yield f"{path}: no file {link}"
        elif heading and heading not in names_in(place):
            yield f"{path}: no place {link}"


def wide_in(path):
    """The lines of prose that are too wide. A word alone may be."""
    for number, (line, is_prose) in enumerate(installed.prose(read(path)), 1):
        if is_prose and len(line) > installed.WIDTH and not line.startswith(("|", "#", "!")) and " " in line.strip():
            yield f"{path}:{number}: {len(line)} columns"


def look(folder):
    """The faults below a folder, and how many files and links were looked at."""
    paths = [folder] if os.path.isfile(folder) else glob.glob(f"{folder}/**", recursive=True)
    pages = [path for path in paths if path.endswith((".md", ".html")) and os.path.isfile(path)]
    faults = [fault for path in pages for fault in dead_in(path)]
    faults += [fault for path in pages if path.endswith(".md") for fault in wide_in(path)]
    return faults, len(pages), sum(len(links_of(path)) for path in pages)


def make():
    """Installs, looks and uninstalls. The faults."""
    os.umask(0o077)
    script = f"{TOP}/packaging/installed.py"
    with tempfile.TemporaryDirectory() as folder:
        os.chmod(folder, 0o755)
        stage, root = f"{folder}/stage", f"{folder}/usr/local"
        subprocess.run([sys.executable, script, "put", BUILD, f"{stage}{root}"], check=True)
        subprocess.run([sys.executable, script, "copy", stage, f"{folder}/package", root], check=True)
        subprocess.run([sys.executable, script, "copy", stage, "", root], check=True)
        faults, pages, links = look(root)
        write(f"{root}/planted.md", "[a link](none.md)\n")
        faults += [] if look(f"{root}/planted.md")[0] else ["a planted link that is dead is not found"]
        os.remove(f"{root}/planted.md")
        closed = [path for path in glob.glob(f"{root}/**", recursive=True) if not os.stat(path).st_mode & 0o004]
        faults += [f"others cannot read {path}" for path in closed]
        for program in installed.PROGRAMS:
            how = {"user": NOBODY, "group": NOBODY, "extra_groups": []} if os.getuid() == 0 else {}
            said = ran(f"{root}/bin/{program}", "--version", **how).said()
            wanted = "v7: usage\n" if program == "v7" else f"{program} {installed.version()}\n"
            faults += [] if said == wanted else [f"{program}: {said}"]
        there = {os.path.relpath(path, root) for path in glob.glob(f"{root}/**", recursive=True)}
        has_html = installed.has_tools()
        for wanted in ("doc/v7/v7.html", "doc/v7/docs/TUTORIAL.html", "doc/v7/man/v7.1.html", "man/man1/v7-ld.1",
                       "bash-completion/completions/v7-explain", "zsh/site-functions/_v7"):
            is_made = os.path.exists(f"{BUILD}/v7.html") if "v7/v7.html" in wanted else has_html or not wanted.endswith(".html")
            if f"share/{wanted}" not in there and is_made:
                faults.append(f"share/{wanted} is not installed")
        faults += [f"a package has {installed.NOTED}"] if os.path.exists(f"{folder}/package{root}/{installed.NOTED}") else []
        subprocess.run([sys.executable, script, "remove", root], check=True)
        faults += [f"left: {folder}/usr"] if os.path.exists(f"{folder}/usr") else []
    return faults, pages, links


def main(words):
    if words and (len(words) != 2 or words[0] != "look"):
        sys.exit(__doc__)
    faults, pages, links = look(words[1]) if words else make()
    print("\n".join(faults) or f"what is installed: {pages} documents and pages with {links} links, none of them dead")
    return 1 if faults else 0


if __name__ == "__main__":
    sys.exit(main(sys.argv[1:]))
