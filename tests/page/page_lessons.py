"""Compares the lessons of the page with the programs: their answers, and the faults of a file of lessons."""
import os
import re

from tests.page.page_state import Given, Session, Step
from tests.page.page_tools import LAYOUTS, same


ONE = "lesson One\nadd main.o\n"
TWO = "lesson One\nadd main.o\nadd twice.o\n"
CHOICE = ONE + "ask Which?\n"
QUESTIONS = [
    ("ask Which?", 1, "no lesson has begun"),
    ("lesson One\nadd nothing.o", 2, "no step adds nothing.o"),
    ("lesson One\nadd in.o", 2, "no step adds in.o"),
    ("lesson One\nadd main.o\nadd main.o", 3, "no step adds main.o"),
    ("lesson One\n\nwithdraw", 3, "there is nothing to withdraw"),
    ("lesson One\nlink -s", 2, "there is no link -s"),
    # choices: a right one, a wrong one, and a reason for it
    (CHOICE + "add twice.o", 4, "the question of line 3 has no right answer"),
    (CHOICE + "right One\nadd twice.o", 5, "the question of line 3 has no wrong answer"),
    (CHOICE + "right One\nwrong Two\nsay So.", 6, "the question of line 3 has no reason for its wrong answer"),
    (CHOICE + "wrong One\nwrong Two", 5, "the question of line 3 has no reason for its wrong answer"),
    ("lesson One\nask Which?", 2, "the question has no right answer"),
    ("lesson One\nword text 0", 2, "an answer to no question"),
    ("lesson One\nask", 2, "ask is followed by a text"),
    ("# One\nlesson One\nshow main.o", 3, "show begins no line of a lesson"),
    # questions about the next step
    (ONE + "ask changes Which?\nword text 12\nadd twice.o", 4, "there is no word text 12"),
    (ONE + "ask value text 6 What?\nword text 6\nadd twice.o", 4, "an answer to no question"),
    (ONE + "ask undefined Which?\nname _twice", 4, "the question of line 3 has no right answer"),
    (ONE + "name _twice", 3, "name begins no line of a lesson"),
    (ONE + "ask changes Which?\nword text 4\nadd twice.o", 5, "the word at 4 does not change"),
    (TWO + "ask changes Which?\nword text 2\nwithdraw", 6, "the word at 2 does not change"),
    (ONE + "ask value text 6 What?\nnumber 4\nadd twice.o", 5, "the number is 2"),
    (ONE + "ask value text 6 What?\nnumber 8\nadd twice.o", 4, "there is no number 8"),
    (ONE + "ask value text 12 What?\nimage", 4, "after the step there is no such word"),
    (ONE + "ask value bss 0 What?\nimage", 3, "value is followed by text or data, an offset and a text"),
    (ONE + "ask where _count Where?\nnumber 12\nlink -r", 5, "the name is nowhere"),
    ("lesson One\nadd k.o\nadd l.o\nask where _x Where?\nnumber 2\nlink plain", 6, "the number is 6"),
    (ONE + "ask where _y Where?\nlink plain", 4, "after the step there is no such name"),
    (ONE + "ask changes Which?\nsay This.", 4, "the question of line 3 has no step"),
    ("lesson One\nask changes Which?", 2, "the question has no step"),
    ("lesson One\nask where", 2, "where is followed by a name and a text"),
    (CHOICE + "right One\nwrong Two\nbecause so\nnumber 2\nimage", 7, "an answer to no question"),
    # numbers in texts
    (ONE + "say It is at 6.", 3, "a number is in no braces, and in no quotation"),
    (ONE + 'say It prints "15", and 2.', 3, "a number is in no braces, and in no quotation"),
    (ONE + "ask changes Is it at 6?", 3, "a number is in no braces, and in no quotation"),
    (CHOICE + "right It is 2", 4, "a number is in no braces, and in no quotation"),
    (CHOICE + "right One\nwrong Two\nbecause of 2", 6, "a number is in no braces, and in no quotation"),
    (ONE + "say It is {text 6", 3, "a brace has no end"),
    (ONE + "say It is {text 12}.", 3, "text 12 in braces refers to nothing"),
    (ONE + "say It is {text 6} and {data 0}.", 3, "data 0 in braces refers to nothing"),
    (ONE + "say It is {_twice}.", 3, "_twice in braces refers to nothing"),
    (ONE + "say It is {plain _twice}.", 3, "plain _twice in braces refers to nothing"),
    (ONE + "say It is {was text 6}.", 3, "was text 6 in braces refers to nothing"),
    (ONE + "say It is {size text = 10}.", 3, "size text in braces is 12"),
    (ONE + "say It is {reloc text 12}.", 3, "reloc text 12 in braces refers to nothing"),
    (ONE + "say It is {size commons}.", 3, "size commons in braces refers to nothing"),
    (ONE + "say It is {}.", 3, " in braces refers to nothing"),
    (ONE + "say It is {text 6 = 4}.", 3, "text 6 in braces is 177770"),
    (TWO + "say It is {-n _count = 2}.", 4, "-n _count in braces is 20000"),
    (TWO + "withdraw\nsay It is {_twice}.", 5, "_twice in braces refers to nothing"),
    (TWO + "lesson Two\nsay It is {text 6}.", 5, "text 6 in braces refers to nothing"),
]


TAKE = "(text) => takeLessons(text)"
PRACTICE = re.compile(r"(What will the word at (text|data) \d+ be|Which word changes) when \S+ is added\?|Where is \S+ in a plain link\?")


def bad_lessons(tools, files):
    """A line that refers to no word, name or step: no lessons, and the line's number."""
    with tools.scripts(files)[0] as scripts:
        for text, line, fault in QUESTIONS:
            same(f"lessons: {text}", scripts.run(TAKE, text + "\n"), f"line {line}: {fault}")
            same(f"lessons that are left: {text}", scripts.run("() => DATA.lessons"), [])


# a file of lessons that has to be accepted: objects that come again, and texts that could end the script of the page
ACCEPTED = """lesson </script><b>
add main.o
withdraw
add main.o
say <!-- </script> -->
lesson Two
add main.o
say PDP-11, r0 and "15" are no numbers; {text 2 = 177774} {after text 2 = 4} {before text 2 = 0} {reloc text 2 = 51} \
{reloc text 0 = 0} {size text = 12} {_count = 2} {plain _count = 12} {-n data = 20000} are.
add twice.o
say It was {was text 6 = 177770}, and is {at text 6 = 6} {text 6 = 2} {_twice = 12} {-n text 2 = 17774}.
ask changes Which?
word text 6
withdraw
"""
# the numbers of its texts, in their order, but for sizes and relocation words: these are texts
NUMBERS = [0o177774, 4, 0, 0o12, 0o20000, 0o177770, 6, 2, 0o12, 0o17774]


def lessons_of_all_kinds(tools, files):
    """A withdrawn object can come again, a lesson begins with no object, and a text is data, whatever it has."""
    with tools.scripts(files)[0] as scripts:
        same("lessons of all kinds", scripts.run(TAKE, ACCEPTED), "")
        lessons = scripts.run("() => DATA.lessons")
    said = [part for one in lessons for step in one["steps"] for parts in step["says"] for part in parts]
    same("a text that could end the script", [text for text in [lessons[0]["title"], *said] if "script" in str(text)],
         ["</script><b>", "<!-- </script> -->"])
    same("relocation words and sizes in texts", [text for text in said if isinstance(text, str) and text[:1] == "0"],
         ["051", "0", "012 (10.)", "02 (2.)"])
    same("the numbers of texts", [part for part in said if isinstance(part, int)], NUMBERS)


def lesson_answers(tools, scripts, files, lessons=10, answers=12):
    """The answers of the lessons, and of the practice, are what the programs say of the objects; there are so many lessons, and answers at
    least."""
    count, guides = 0, scripts.run("() => [...DATA.lessons, { steps: practiceSteps() }]")
    for guide in guides:
        here = []
        for step in guide["steps"]:
            act, *rest = step["act"] or [""]
            after = {"add": [*here, *(files[number] for number in rest)], "withdraw": here[:-1]}.get(act, here)
            if step["kind"] not in ("", "choice"):
                said = answer_said(tools, step, after, act, rest, after if act == "add" else here if act == "withdraw" else [])
                same(f"the answer to {step['ask']}, {act}", sorted(step["answers"]) or step.get("number"), said)
                count += 1
            if guide is guides[-1] and step["ask"]:
                same(f"a question of the practice: {step['ask']}", bool(PRACTICE.fullmatch("".join(map(str, step["ask"])))), True)
            if guide is guides[-1] and act == "add":
                same("what the practice adds", re.findall(r"([\w.]+) (?:is added\?|has been added\.)", str(step["ask"] or step["says"])),
                     [os.path.basename(files[rest[0]])])
            if step["kind"] == "value":
                word = Session([Given(file) for file in here]).rows().get(step["word"])
                same(f"the word before {step['ask']}", step["before"], word.value if word else 0)
            here = after
    same("lessons", (len(guides) - 1, count >= answers), (lessons, True))
    same("the practice", guides[-1]["steps"][0]["says"],
         ["Each question is about these objects, and the linker has computed its answer."])


def remarks(_, scripts, files):
    """What a lesson quotes of v7-explain is what libv7 remarks on the object that was added last, and on no other."""
    here, count = [], 0
    odd = [[one["text"] for one in scripts.run("(number) => LINKER.remarks(DATA.objects[number].bytes)", number)]
           for number in range(len(files))]
    for step in scripts.run("() => DATA.lessons.flatMap(({ steps }) => steps)"):
        act, *rest = step["act"] or ["none" if step["ask"] else ""]
        here = {"": [], "add": [*here, *rest], "withdraw": here[:-1]}.get(act, here)
        quoted = re.search(r'v7-explain has a remark: "(.*)"\.$', "".join(str(part) for parts in step["says"] for part in parts))
        if quoted:
            same("the remark of v7-explain", [any(quoted[1].endswith(text) for text in odd[here[-1]]), len(odd[here[-1]])], [True, 1])
            same("other remarks of v7-explain", [said for number, said in enumerate(odd) if said and number != here[-1]], [])
            count += 1
    same("remarks of v7-explain", count > 0, True)


def answer_said(tools, step, files, act, rest, changed):
    """The answer to a question that the model and the programs give; `changed` are the objects whose last one the step adds or
    withdraws."""
    if step["kind"] == "changes":
        return sorted(f"{part}-{offset}" for part, offset in (Step([Given(file) for file in changed]).changed if changed else [])) or None
    if act == "link":
        linked = tools.link(list(LAYOUTS.values())[rest[0]], files)
        if step["kind"] == "value":
            part, offset = step["word"].split("-")
            return linked["segments"][part][int(offset) // 2]
        lines = [line for line in linked["table"].splitlines() if line[9:] == step["name"] and line[7] not in "UC"]
        return int(lines[0][:6], 8) if lines else None
    session = Session([Given(file) for file in files])
    if step["kind"] == "value":
        return session.rows()[step["word"]].value
    known = session.names[step["name"]]
    return known[1] if known[0] in ("text", "data", "bss", "number") else None
