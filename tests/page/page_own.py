"""Objects of one's own on the page: they are dropped, refused, edited as listings, linked as `v7 ld` links them, and kept by the address
and by a page that is saved. Where the linker traps or has no memory, a new one begins."""
import base64
import os

import page as pages  # of packaging
from tests.lib.files import read, read_bytes, write
from tests.lib.programs import ran, v7
from tests.page.page_model import lines_on, read as read_page
from tests.page.page_state import Given, Session
from tests.page.page_tools import CLASS, IN_C, LAYOUTS, TABLES, same

# drops files, each a name and its bytes
DROP = """
const files = arguments[0].map(([name, text]) => new File([Uint8Array.from(atob(text), (letter) => letter.charCodeAt(0))], name));
const given = new DataTransfer();
for (const file of files) given.items.add(file);
window.openedFiles = byId("live").textContent = "";
document.body.dispatchEvent(new DragEvent("drop", { bubbles: true, cancelable: true, dataTransfer: given }));
"""
# what is saved in place of a file
SAVED = """
window.saved = [];
const coded = (content) => btoa(typeof content === "string" ? unescape(encodeURIComponent(content)) : latin(content));
window.saveFile = (name, content) => saved.push([name, coded(content)]);
"""
TYPE = """
byId("own-text").value = byId("own-text").value.replace(arguments[0], arguments[1]);
byId("own-text").dispatchEvent(new Event("input"));
"""
TITLES = ["Five small objects", "A program in C", "Pointers, bss, commons"]
OBJECTS = "return [DATA.objects.map(({ number }) => label(number)), byId('own-refused').textContent]"
TOOLS = """
const words = byId("cards").children[arguments[0]].querySelector("details");
words.open = true;
showListing(words, DATA.objects[arguments[0]]);
return [...words.querySelectorAll(".own-tools button")].map((one) => [one.title, one.getAttribute("aria-label"),
    one.getAttribute("aria-disabled")]);
"""


def drop(page, *files):
    """Drops files; gives the names of the objects then, and what is refused."""
    page.run(DROP, [[os.path.basename(path), base64.b64encode(data).decode()] for path, data in files])
    page.wait("return byId('live').textContent !== ''")
    return page.run(OBJECTS)


def compare_image(tools, page, what):
    """What is shown is the image of the objects that the page has now."""
    given = page.run("return view.list.map((one) => [label(one), btoa(latin(DATA.objects[one].bytes))])")
    objects = [Given(write(f"{tools.folder}/{name}", base64.b64decode(data))) for name, data in given]
    same(f"the image, {what}", lines_on(read_page(page)), Session(objects).lines())


def dropped(tools, page, files):
    """An object of each form is dropped; damaged ones are refused in words, and the others are there."""
    names, folder = [os.path.basename(file) for file in files], os.path.dirname(CLASS[0])
    page.open("")
    squares, listed = read_bytes(f"{folder}/squares.gnu"), read_bytes(f"{folder}/k.lst")
    same("dropped", drop(page, ("own.o", read_bytes(IN_C[0])), ("squares.gnu", squares), ("listed.lst", listed)),
         [[*names, "own.o", "squares.gnu", "listed.lst"], ""])
    same("what is announced", page.run("return byId('live').textContent"), "3 files opened.")
    same("lessons that stay", page.run("return GUIDES.length"), 12)
    same("the bytes of dropped objects", page.run("return DATA.objects.slice(5).map(({ bytes }) => btoa(latin(bytes)))"),
         [base64.b64encode(data).decode() for data in (read_bytes(IN_C[0]), v7.from_gnu(squares), read_bytes(f"{folder}/k.o"))])
    page.run("for (const number of [5, 6, 7]) addObject(number)")
    compare_image(tools, page, "dropped")
    bad = read_bytes(IN_C[0])[:-3]
    for name, data, fault in (("cut.o", bad, "truncated"), ("odd.o", b"\7\1\3\0" + bytes(12), "odd size"), ("x.o", b"\1", "short header"),
                              ("bad.lst", b"text\n000000 9 0\n", "line 2, column 8: not an octal number"),
                              ("lessons.txt", b"lesson A\nadd no.o\n", "line 2: no step adds no.o")):
        there, said = drop(page, (name, data))
        same(f"{name} is refused", (said, there[-1], page.run("return byId('live').textContent")),
             (f"{name}: {fault}", "listed.lst", f"Refused: {name}: {fault}"))
    same("the list stays", page.run("return view.list"), [5, 6, 7])
    for number, can_move in ((5, "true"), (7, "false")):
        name = ["own.o", "squares.gnu", "listed.lst"][number - 5]
        same(f"the buttons of {name}", page.run(TOOLS, number),
             [[said, f"{name}: {said}", off] for said, off in (("edit its listing", "false"), ("one place earlier in the link", can_move),
                                                               ("take it from the page", "false"))])
    page.run("moveEarlier(7)")
    same("one place earlier", page.run("return view.list"), [5, 7, 6])
    page.run("removeObject(5)")
    same("an object is taken away", page.run("return [view.list, DATA.objects.length]"), [[6, 5], 7])
    compare_image(tools, page, "one taken away")


def edited(tools, page, __):
    """A listing that is edited makes its object again, and the image follows; a mistake is shown with its line, and a remark with
    its word."""
    page.open("#objects=1,2")
    page.run("editListing(1)")
    for old, new in (("006300", "006301"), ("0 _twice 42 0", "0 _twice 42 2")):
        page.run(TYPE, old, new)
        page.wait("return latin(DATA.objects[1].bytes) === latin(LINKER.fromListing(new TextEncoder().encode(byId('own-text').value)))")
        same("after an edit", page.run("return [view.list, byId('own-said').textContent]"), [[0, 1], ""])
        compare_image(tools, page, f"after {new} was typed")
    page.run(TYPE, "006301", "9")
    page.wait("return byId('own-said').textContent !== ''")
    same("a mistake", page.run("return [byId('own-said').textContent.split('\\n'), DATA.objects[1].text[0]]"),
         [["twice.o: line 3, column 9: not an octal number", "> 000000  9     0  asl r0"], 0o6301])
    page.run("byId('own-name').value = 'odd.o'")
    page.run("byId('own-text').value = 'text\\n000000 000207 0\\nsymbols\\n0 _x 40 0\\nend\\n'; "
             "byId('own-text').dispatchEvent(new Event('input'));")
    page.wait("return DATA.objects.length === 6")
    same("a remark", page.run("return byId('own-said').textContent"),
         "symbol 0 _x is undefined, and no word refers to it: a mistake, if this is not meant")
    page.run("byId('own-new').click()")
    page.wait("return DATA.objects.length === 7")
    same("a new listing", page.run("return [label(6), byId('own-text').value.match(/mov.*|rts.*/g), [...DATA.objects[6].text]]"),
         ["own.o", ["mov $5,r0", "rts pc"], [0o12700, 5, 0o207]])


def linked(tools, page, files):
    """What is saved of each link is what `v7 ld` writes, with -u and -e too; the output of -r becomes an object."""
    page.open("")
    page.run(SAVED)
    for forced, entry in ((), ""), (("_count", "_more"), "_twice"):
        page.run("askFor({ entry: arguments[1], forced: arguments[0] }); step({ ...START, list: [0, 1, 2] })", [*forced], entry)
        for number, options in enumerate(LAYOUTS.values()):
            page.run("show({ ...view, layout: arguments[0] }); byId('own-save').click()", number)
            words = [*options, *(word for name in forced for word in ("-u", name)), *(["-e", entry] if entry else [])]
            ran(tools.v7, "ld", *words, "-o", f"{tools.folder}/wanted", *files[:3])
            wanted = read_bytes(f"{tools.folder}/wanted")
            same(f"the link {words}", page.run("return saved.pop()"),
                 ["linked.o" if number == 3 else "a.out", base64.b64encode(wanted).decode()])
            if not forced:
                same(f"the report of {words}", page.run("return byId('report').textContent + '\\n'"),
                     tools.link(words, files[:3])["report"].rstrip("\n") + "\n")
    page.run("byId('own-add').click()")
    same("the output of -r as an object", page.run("return [label(DATA.objects.length - 1), btoa(latin(DATA.objects.at(-1).bytes))]"),
         ["linked.o", base64.b64encode(wanted).decode()])


def kept(tools, page, _):
    """The address keeps objects of one's own, what links are asked for, and how the page looks; a page that is saved keeps objects and
    lessons."""
    page.open("#objects=1,2&addresses=-n&entry=_main&forced=_a,_b&maps&large&chosen=text-6")
    look = "return [location.hash, view, areMapsShown, isLarge(), chosen, ASKED, DATA.objects.length]"
    before = page.run(look)
    same("what an address keeps", (before[2:], before[1]["layout"]),
         ([True, True, "text-6", {"entry": "_main", "forced": ["_a", "_b"]}, 5], 1))
    page.open("")
    drop(page, ("own.o", read_bytes(TABLES[0])))
    page.run("addObject(5); choose('text-2', true)")
    page.wait("return location.hash.includes('chosen')")
    before = page.run(look)
    page.open(before[0])
    same("objects in the address", page.run(look), before)
    none = "The address has no objects that could be read."
    for bad, said in (("#own=xx:yy", none), ("#own=bWFpbi5v:BwE", none), ("#set=9", ""), ("#own=", ""),
                      ("#own=large", "Objects of your own were too large for the address: Save page keeps them.")):
        page.open(bad)
        same(f"the page at {bad}", page.run("return [document.body.classList.contains('ready'), byId('own-refused').textContent]"),
             [True, said])
    page.open(before[0])
    page.run(SAVED)
    drop(page, ("lessons.txt", b"lesson One\nadd own.o\nadd more.o\nsay It is {text 0}.\n"), ("more.o", read_bytes(TABLES[3])))
    page.run("byId('own-page').click()")
    [[name, text]] = page.run("return saved")
    page.load(write(f"{tools.folder}/saved.html", base64.b64decode(text).decode("utf-8")))
    same("a page that was saved", page.run("return [DATA.objects.length, GUIDES.map(({ title }) => title).slice(1, -1), "
                                           "byId('sets').length]") + [name], [7, ["One"], 2, "v7.html"])


def restarted(tools, page, files):
    """Without memory, or after a trap, a new linker shows the list that was there, and says so; then the step can be made."""
    for fault, said in (("current.add = () => { throw new Fault({ fault: NO_MEMORY }); }", "There was no memory for that"),
                        ("current.handle = 0xfffffff0", "The linker has stopped")):
        page.load(tools.page_of(files))
        page.open("#objects=1")
        page.run(f"{fault}; document.querySelector('#add2').click()")
        page.wait("return byId('note').classList.contains('refused')")
        same(f"after {fault}", page.run("return [view.list, location.hash, byId('note').textContent]"),
             [[0], "#objects=1", f"{said}: the page is as it was before this step."])
        page.run("byId('add2').click()")
        compare_image(tools, page, f"a step after {fault}")
    page.run("beginLinker = async () => { throw new Error('no WebAssembly'); }; begin()")
    page.wait("return byId('status').textContent === 'This browser cannot run the linker: no WebAssembly'")


def sets(tools, page, _):
    """The page of a release has three sets, each with its lessons."""
    path = f"{tools.folder}/v7.html"
    pages.main(tools.module, path)
    page.load(path)
    seen = []
    for number in range(3):
        page.run("byId('sets').value = arguments[0]; byId('sets').dispatchEvent(new Event('change'))", str(number))
        seen.append(page.run("return [byId('sets').selectedOptions[0].text, DATA.objects.map(({ path }) => path), GUIDES.length - 2, "
                             "byId('own-refused').textContent, location.hash]"))
    wanted = [[title, [f"{folder}/{name}" for name in names], read(f"{folder}/lessons.txt").count("\nlesson "), "",
               f"#set={number}" if number > 1 else ""]
              for number, (title, (_, folder, names)) in enumerate(zip(TITLES, pages.SETS), 1)]
    same("the sets", seen, wanted)
    same("bytes of the page", os.path.getsize(path) < 500_000, True)


CHECKS = ((dropped, (0,)), (edited, (0,)), (linked, (0,)), (kept, (0,)), (restarted, (0,)), (sets, (0,)))
