"""Plays v7 at a terminal: help, the version, why arguments are refused, and a session with prompt, help, list, hints and quit. Then it
runs the same commands through pipes, where each byte and status has to be that of the specification.

The terminal is a pseudo-terminal, by the module `pty`. What is expected here is written by hand: the lines of v7(1) and of
v7-session(1). Options are those of the manual pages. Random command lines, always the same, show that a reason is given for those
that v7 refuses, and for no others.

tier: check, 25 seconds; programs: v7 v7-explain v7-from-gnu v7-object v7-origin;
 for: crates/v7 crates/command_words crates/host man
"""
import os
import pty
import random
import re
import select
import subprocess

from installed import version
from tests.lib.compare import notices, same
from tests.lib.files import TOP, new_folder, read, write
from tests.lib.programs import FAULTS, program, ran

TOOLS = ["ld", "nm", "session", "size", "strip"]
SECONDS = 10
RANDOM_LINES = 400

# arguments that are refused, and the lines that follow `v7: usage` at a terminal
REASONS = [
    (["xx"], "there is no command xx"),
    (["help", "all"], "there is no command all"),
    (["-o"], "there is no command -o"),
    ([""], "there is no command "),
    (["ld"], "ld: it needs a file"),
    (["ld", "-s"], "ld: it needs a file"),
    (["strip"], "strip: it needs a file"),
    (["ld", "-z", "a.o"], "ld: there is no option -z"),
    (["ld", "-rz", "-y", "a.o"], "ld: there is no option -z"),
    (["ld", "-\u00e9", "a.o"], "ld: there is no option -\u00e9"),
    (["nm", "-x"], "nm: there is no option -x"),
    (["size", "-x"], "size: there is no option -x"),
    (["strip", "-s", "a.o"], "strip: there is no option -s"),
    (["session", "-o", "x"], "session: there is no option -o"),
    (["ld", "-lc", "a.o"], "ld: there is no option -l, as v7 reads no archives"),
    (["ld", "--strip", "a.o"], "ld: there is no option --strip"),
    (["ld", "a.o", "-o"], "ld: -o needs a file"),
    (["ld", "-o", "-s", "a.o"], "ld: -o needs a file"),
    (["ld", "-o", "-", "a.o"], "ld: -o needs a file"),
    (["ld", "-o", "--", "a.o"], "ld: -o needs a file"),
    (["ld", "-su", "-r", "a.o"], "ld: -u needs a name"),
    (["session", "-e"], "session: -e needs a name"),
    (["ld", "-o", "x", "-oy", "a.o"], "ld: -o takes one file"),
    (["ld", "-e", "x", "-e", "x", "a.o"], "ld: -e takes one name"),
    (["ld", "-rs", "a.o"], "ld: -r and -s exclude each other"),
    (["ld", "-s", "-X", "a.o", "-r"], "ld: -s and -r exclude each other"),
    (["ld", "-ni", "a.o"], "ld: -n and -i exclude each other"),
    (["ld", "-r", "-n", "a.o"], "ld: -r and -n exclude each other"),
    (["session", "-ir"], "session: -i and -r exclude each other"),
    (["session", "a.o"], "session: it takes no file, and was given a.o"),
    (["ld", *(f"-ux{number}" for number in range(65)), "a.o"], "ld: -u takes at most 64 different names"),
    (["ld", "-rs", "-z", "--no"], "ld: -r and -s exclude each other"),
    ([b"nm", b"\xe9"], "an argument is not UTF-8"),
]
# the same of the programs beside v7, and the line that follows the usage
BESIDE = {
    "v7-explain": [
        ("", "it needs a file"), ("-z a.o", "there is no option -z"),
        ("a.o --list", "an option has one letter, but for --help and --version"), ("a.o -o", "-o needs the next argument as its value"),
        ("-o a -o b c.o", "-o takes one value"), ("-o a b.o c.o", "-o is for one file"), ("-dc a.o", "-d and -c exclude each other"),
        ("-R a.o", "-R needs -l"), ("a.o -m b.o", "-m has to be the first argument"),
        ("-m -z a.o", "ld does not take the arguments after -m"), ("a.o -t b.o", "-t needs -c"),
        ("-c -o b a.o", "-c and -o exclude each other"), ("-y f a.o b.o", "-y is for one file"),
        ("-o -d a.o", "-o needs the next argument as its value"), ("-c", "it needs a file"),
        ("-l -R -s a.o", "-l and -s exclude each other")],
    "v7-object": [
        ("", "it takes two files"), ("a", "it takes two files"), ("a b c", "it takes two files"), ("-- -x", "it takes two files"),
        ("-", "it takes two files"), ("-x a b", "there is no option -x"), ("a b -yx", "there is no option -y"),
        ("a -\u00e9 b", "there is no option -\\303"), ("a --x b", "an option has one letter, but for --help and --version"),
        ("--- a b", "an option has one letter, but for --help and --version")],
    "v7-origin": [
        ("", "it needs a file"), ("-a a b", "-a needs -o"), ("-z a", "there is no option -z"), ("a -o", "-o needs the next argument as its value"),
        ("-R", "-R needs the next argument as its value"), ("-R a", "it needs a file"), ("-R a -R b c", "-R takes one value"),
        ("-o a -o b c", "-o takes one value"), ("a --x", "an option has one letter, but for --help and --version")],
    "v7-from-gnu": [
        ("", "it takes two files"), ("a", "it takes two files"), ("-S a b c", "it takes two files"), ("-o a", "it needs a file"),
        ("-o", "-o needs the next argument as its value"), ("-oq a b", "-o needs the next argument as its value"),
        ("-o a -o b c", "-o takes one value"), ("a b -z", "there is no option -z"), ("-Sz a b", "there is no option -z"),
        ("a b --x", "an option has one letter, but for --help and --version")],
}
# arguments that ask for help
HELP = [([], None), (["help"], None), (["help", "help"], None), (["--help"], None), (["ld", "-r", "--help"], "ld")]
HELP += [(words, tool) for tool in TOOLS for words in ([tool, "--help"], ["help", tool])]

# what the pages of v7 say before their examples, without empty lines
PAGES = {None: """usage: v7 COMMAND [ARGUMENT]...
  ld       links objects into a program, or into one object
  nm       lists the symbols of files
  session  links step by step: objects are added and taken out again
  size     prints the sizes of text, data and bss
  strip    removes symbols and relocation from files
  v7 COMMAND --help shows the options of a command.
  v7 --version shows the version.
""", "ld": """usage: v7 ld [-rsxXnid] [-u NAME]... [-e NAME] [-o OUTPUT] FILE...
Links the objects FILE in order, and exits with 1 if it reports anything.
  -o OUTPUT  writes the linked file to OUTPUT, not to a.out
  -r         makes an object, which can be linked again
  -s         keeps no symbols
  -x         keeps no local symbols
  -X         keeps no local symbols that begin with L
  -n         begins data at a multiple of 020000, so that text can be shared
  -i         gives text and data address spaces of their own
  -d         with -r, lays out commons too
  -u NAME    makes NAME undefined from the start
  -e NAME    makes NAME the entry point
""", "nm": """usage: v7 nm [-gnopru] [FILE]...
Lists the symbols of each FILE, or of a.out.
  -g       external symbols alone
  -n       by value, not by name
  -o       the file's name before each line
  -p       in the order of the symbol table
  -r       in reverse order
  -u       undefined symbols alone
""", "session": """usage: v7 session [-rsxXnid] [-u NAME]... [-e NAME]
Reads commands from standard input, one on a line, and answers each.
  add PATH    adds an object
  withdraw    takes out the object that was added last
  externals   lists the external names
  undefined   lists the undefined names
  link PATH   links the objects into a file
  The options are those of v7 ld, and apply to each link.
""", "size": """usage: v7 size [FILE]...
Prints the sizes of text, data and bss of each FILE, or of a.out, in bytes,
then their sum in decimal, and in octal. There are no options.
""", "strip": """usage: v7 strip FILE...
Removes the symbols and the relocation of each FILE, in place. There are no
options.
"""}
COMMANDS = """add PATH, withdraw, externals, undefined and link PATH are the commands;
list shows the objects, help this text, and quit ends the session
"""
# what is typed in a session at a terminal, with what is shown after it; lines are typed one by one
SESSION = [
    ("add main.o", "added main.o\n"),
    ("undefined", "_twice\n"),
    ("help", COMMANDS),
    ("?", COMMANDS),
    ("", ""),
    ("  ", ""),
    (" help ", COMMANDS),
    ("list", "main.o\n"),
    ("add twice.o", "added twice.o\n"),
    ("add " + "x" * 600, "x" * 600 + f": {FAULTS['open']}\n"),
    (" list ", "main.o\ntwice.o\n"),
    ("link program", "linked program 0\n"),
    ("withdraw", "withdrew twice.o\n"),
    ("add added", f"added: {FAULTS['open']}\n"),
    # an answer as long as that of an addition
    ("add \udcffabcd", "bad command\n"),
    ("list", "main.o\n"),
    ("withdraw", "withdrew main.o\n"),
    ("withdraw", "nothing to withdraw\n"),
    ("list", "no object is added\n"),
]
# lines that are not commands, and the hint for each
HINTS = [
    ("withdrew", "Do you mean withdraw?"),
    ("helper", "Do you mean help?"),
    ("undo", "Do you mean withdraw?"),
    ("UNDEF", "Do you mean undefined?"),
    ("Add x", "Commands are in small letters: add x"),
    ("HELP", "Commands are in small letters: help"),
    (" add x", "A command begins its line: add x"),
    ("link", "link needs a path: link PATH"),
    ("link ", "link needs a path: link PATH"),
    ("Link ", "link needs a path: link PATH"),
    ("add\tx", "add has one blank after it: add PATH"),
    ("withdraw now", "withdraw has nothing after it"),
    ("quit now", "quit has nothing after it"),
    ("\x1b[A", "For arrow keys, start the session by rlwrap v7 session"),
    ("x", "help shows the commands"),
    ("twice.o", "help shows the commands"),
]
SESSION += [(line, f"bad command\n{hint}\n") for line, hint in HINTS]
OWN = ["help", "?", "list", ""]
ENDINGS = ["quit", "exit", " quit ", None]
ONE = "end of the session: 1 command, status 0: each was done, and no link had anything to report\n"
REFUSED = "a line was refused, or a link had something to report"
DONE = "each was done, and no link had anything to report"

def holds(what, is_true):
    same(what, bool(is_true), True)


# --- running

def plain(data):
    """What a terminal shows, as text: it turns each newline into two characters."""
    return data.replace(b"\r\n", b"\n").decode("utf-8", "surrogateescape")


def read_to(master, ends):
    """Reads from the terminal until what was read ends so, nobody can write any more, or nothing comes for a while."""
    came = b""
    while not (ends and came.endswith(ends)) and select.select([master], [], [], SECONDS)[0]:
        try:
            data = os.read(master, 65536)
        except OSError:
            break
        if not data:
            break
        came += data
    return plain(came)


class Terminal:
    """A program whose streams with these numbers are a terminal, without echo. The others are pipes."""

    def __init__(self, words, streams=(0, 1, 2)):
        self.master, slave = pty.openpty()
        subprocess.run(["stty", "-echo"], stdin=slave, check=True)
        pipe = subprocess.PIPE
        kinds = [slave if number in streams else pipe for number in range(3)]
        self.process = subprocess.Popen([program("v7"), *words], stdin=kinds[0], stdout=kinds[1], stderr=kinds[2])
        os.close(slave)

    def type(self, line):
        os.write(self.master, line.encode("utf-8", "surrogateescape") + b"\n")

    def give(self, script):
        """Writes to the pipe of standard input, and closes it."""
        with self.process.stdin as pipe:
            pipe.write(script)
        self.process.stdin = None

    def shown(self, ends=None):
        return read_to(self.master, ends)

    def ended(self):
        """What the terminal shows to the end, what the pipe of standard output has, that of standard error, and the status."""
        rest = self.shown()
        try:
            output, error = self.process.communicate(timeout=SECONDS)
        except subprocess.TimeoutExpired:
            self.process.kill()
            output, error = self.process.communicate()
        os.close(self.master)
        return rest, plain(output or b""), plain(error or b""), self.process.returncode


def at_terminal(words, streams=(0, 2)):
    """What standard error shows at a terminal, what standard output gives to a pipe, and the status. Any other input is empty."""
    terminal = Terminal(words, streams)
    if 0 not in streams:
        terminal.give(b"")
    shown, output, _, status = terminal.ended()
    return shown, output, status


def through_pipes(words, script=b""):
    status, out, err = ran(program("v7"), *words, given=script, seconds=SECONDS)
    return plain(err), plain(out), status


# --- help and version

def options_of(manual):
    """The options of a manual page, each with its argument."""
    items = re.findall(r"^\.It Fl (\w)(?: Ar (\w+))?", read(f"{TOP}/man/{manual}.1"), re.M)
    return {f"-{letter} {argument.upper()}".strip() for letter, argument in items}


def check_text(words, named, manual, page):
    """A page has the usage, each option of the manual and no other one, two examples that run, and where the manual is."""
    holds(f"{words}: usage", page.startswith(f"usage: {named} "))
    holds(f"{words}: manual", page.endswith(f"The manual is {manual}(1): man {manual}\n") and os.path.exists(f"{TOP}/man/{manual}.1"))
    shown = {option.strip() for option in re.findall(r"^  (-\w(?: [A-Z]+)?)  ", page, re.M)}
    same(f"{words}: options", shown, options_of(manual) if manual not in ("v7", "v7-session") else set())
    examples = re.findall(r"^  (\w.*)$", page.partition("examples:\n")[2], re.M)
    same(f"{words}: examples", len(examples), 2)
    holds(f"{words}: 80 columns", all(len(line) <= 80 for line in page.split("\n")))
    return examples


def check_page(words, tool, page):
    """The page of a tool, or of v7."""
    same(f"{words}: the page", page.partition("\nexamples:\n")[0].replace("\n\n", "\n"), PAGES[tool])
    return check_text(words, f"v7 {tool}" if tool else "v7", f"v7-{tool}" if tool else "v7", page)


def check_beside():
    """The programs beside v7: help, anywhere before `--`, and why arguments are refused."""
    examples = set()
    for name, reasons in BESIDE.items():
        same(f"{name} --version", ran(program(name), "--version"), (0, f"{name} {version()}\n".encode(), b""))
        for words in (["--help"], ["x", "--help"], ["-q", "--help", "--"]):
            status, page, error = ran(program(name), *words)
            same(f"{name} {words}: standard error and status", (error, status), (b"", 0))
            examples.update(check_text(f"{name} {words}", name, name, plain(page)))
        usage = plain(page).partition("\n\n")[0] + f"\n       {name} --help | --version\n"
        for words, reason in reasons:
            status, output, error = ran(program(name), *words.split())
            same(f"{name} {words}", (plain(error), output, status), (f"{usage}{name}: {reason}\n", b"", 2))
    return sorted(examples)


def run_example(command):
    """An example of a page ends with 0, and reports nothing."""
    path = f"{os.path.dirname(program('v7'))}:{os.environ['PATH']}"
    status, _, err = ran("sh", "-c", command, env={**os.environ, "PATH": path})
    same(f"example: {command}", (status, err), (0, b""))


def check_help():
    """Help and version go to standard output if standard error is a terminal."""
    examples = set()
    for words, tool in HELP:
        shown, page, status = at_terminal(words)
        same(f"{words}: standard error and status", (shown, status), ("", 0))
        examples.update(check_page(words, tool, page))
    notices(same, "--version", at_terminal(["--version"]), ("", f"v7 {version()}\n", 1))
    same("--version", at_terminal(["--version"]), ("", f"v7 {version()}\n", 0))
    for command in [*sorted(examples), *check_beside()]:
        run_example(command)
    for words in [words for words, _ in HELP] + [["--version"]]:
        same(f"{words}: through pipes", through_pipes(words), ("v7: usage\n", "", 2))
    return len(HELP) + 1 + 3 * len(BESIDE)


# --- why arguments are refused

def check_reasons():
    for words, reason in REASONS:
        where = "v7 --help lists the commands"
        if words[0] in TOOLS:
            where = f"v7 {words[0]} --help shows how to call it"
        same(f"{words}", at_terminal(words), (f"v7: usage\n{reason}\n{where}\n", "", 2))
        same(f"{words}: through pipes", through_pipes(words), ("v7: usage\n", "", 2))
    return len(REASONS) + sum(map(len, BESIDE.values()))


WORDS = ["", *"-r -s -x -X -n -i -d -o -e -u -g -p -z - -- --long -rs -xXd -gn -upr -ofile -o= -e=x -uname -u=name -= -1 -o1 -r=1".split(),
         "missing", "=", "-\u00e9", "x-y", "ld", "-ro", "-du"]


def check_random():
    """At a terminal the first line and the status are those through pipes, and two lines more come if it is `v7: usage`. The files
    do not exist, and a session has no lines, so nothing else is written."""
    choice = random.Random(1979)
    refused = 0
    for _ in range(RANDOM_LINES):
        words = [choice.choice(TOOLS)] + [choice.choice(WORDS) for _ in range(choice.randrange(1, 6))]
        error, output, status = through_pipes(words)
        shown, shown_output, shown_status = at_terminal(words, (2,))
        is_usage = error == "v7: usage\n"
        refused += is_usage
        same(f"{words}: output and status", (shown_output, shown_status), (output, status))
        same(f"{words}: first line", shown[:len(error)], error)
        same(f"{words}: more lines, {shown!r}", shown[len(error):].count("\n"), 2 if is_usage else 0)
    # each of many files counts
    for count in range(1, 21):
        words = ["size", *["k.o"] * count]
        shown, output, status = at_terminal(words)
        same(f"size of {count} files", (shown, output.count("\n"), status), ("", count, 0))
        same(f"size of {count} files: through pipes", through_pipes(words), (shown, output, status))
    return refused


# --- a hint after a fault

def check_hints():
    """A file that is not an a.out file, and one that is not an object; but not a file that cannot be opened, read or linked."""
    hints = [(["size", "README.md"], "v7: README.md: bad magic number\n", "v7-explain README.md says what this file is\n"),
             (["ld", "-o", "out", "ab.out"], "v7: ab.out: no relocation\n", "v7-explain ab.out says what this file is\n"),
             (["nm", "missing.o"], f"v7: missing.o: {FAULTS['open']}\n", ""),
             (["nm", "/tmp"], f"v7: /tmp: {FAULTS['read']}\n", ""),
             (["ld", "-o", "no/out", "k.o", "l.o"], f"v7: no/out: {FAULTS['create']}\n", "")]
    for words, line, hint in hints:
        same(f"{words}", at_terminal(words), (line + hint, "", 2))
        same(f"{words}: through pipes", through_pipes(words), (line, "", 2))
    return len(hints)


# --- a session

def play(typed, ending):
    """A session in which lines are typed, each after the prompt; its last part, and its status."""
    terminal = Terminal(["session"])
    same("the first prompt", terminal.shown(b"v7> "), COMMANDS + "v7> ")
    for line, answer in typed:
        terminal.type(line)
        same(f"session: {line[:20]}", terminal.shown(b"v7> "), answer + "v7> ")
    os.write(terminal.master, b"\4" if ending is None else ending.encode() + b"\n")
    shown, _, _, status = terminal.ended()
    return shown, status


def summary(ending, count, status):
    said = REFUSED if status else DONE
    return ("\n" if ending is None else "") + f"end of the session: {count} commands, status {status}: {said}\n"


def check_session():
    """Each ending, a session without a fault, and a session whose streams are not both a terminal."""
    count = sum(line.strip() not in OWN for line, _ in SESSION)
    for ending in ENDINGS:
        same(f"{ending}: end", play(SESSION, ending), (summary(ending, count, 1), 1))
        done = SESSION[:2] + SESSION[8:9]
        same(f"{ending}: end without a fault", play(done, ending), (summary(ending, 3, 0), 0))
    same("one command", play(SESSION[:1], "quit"), (ONE, 0))
    same("no command", play([], "quit"), (summary("quit", 0, 0), 0))
    # lines that are typed ahead, and a last one without a newline
    terminal = Terminal(["session"])
    terminal.shown(b"v7> ")
    os.write(terminal.master, b"add k.o\n\nwithdraw\nundefined\4\4")
    shown, _, _, status = terminal.ended()
    same("typed ahead", (shown.replace("v7> ", ""), status), ("added k.o\nwithdrew k.o\n\n" + summary("", 3, 0), 0))
    check_mixed()
    return 2 * len(ENDINGS) + 5


def check_mixed():
    """A script from a pipe has no prompt; nor has a terminal, if standard error is a pipe."""
    script = "".join(line + "\n" for line, _ in SESSION) + "quit\n"
    answers = "".join("bad command\n" if line.strip() in OWN else answer for line, answer in SESSION[:-len(HINTS)])
    answers += "bad command\n" * (len(HINTS) + 1)
    same("session: through pipes", through_pipes(["session"], script.encode("utf-8", "surrogateescape")), ("", answers, 1))
    terminal = Terminal(["session"], (1, 2))
    terminal.give(script.encode("utf-8", "surrogateescape"))
    shown, _, _, status = terminal.ended()
    same("session: a script to a terminal", (shown, status), (answers, 1))
    terminal = Terminal(["session"], (0, 1))
    os.write(terminal.master, b"help\nadd k.o\n\4")
    shown, _, error, status = terminal.ended()
    same("session: standard error is a pipe", (shown, error, status), ("bad command\nadded k.o\n", "", 1))


def main():
    with new_folder("examples"):
        write("commands.txt", "add main.o\n")
        print(f"at a terminal: {check_help()} pages, {check_reasons()} reasons, {check_random()} refused of {RANDOM_LINES} random lines, "
              f"{check_hints()} hints, {check_session()} sessions")


if __name__ == "__main__":
    main()
