#!/usr/bin/env python3
"""Tests the page of bindings/web in headless Chromium.

    bindings/web/tests/page.py [--site FOLDER] [--files N] [--only WORD] [--screenshots]

Drops files on the page and compares what it shows with readelf; opens damaged and foreign files, an empty one and one that
doesn't fit; filters and scrolls a long table; stops work; and goes through the page by the keyboard. FOLDER is a built one,
bindings/web/out/site where none is given. N files of the system are compared, 300 where no number is given. It needs Debian's
selenium and its driver.
"""
import argparse
import functools
import http.server
import itertools
import pathlib
import re
import subprocess
import sys
import tempfile
import threading
import time

TOP = pathlib.Path(__file__).resolve().parents[3]
sys.path[1:1] = [str(TOP / it) for it in ("tools", "tools/compare", "oracle")]
import comparing
import damage
import files
import loaders
import readelf_rows as readelf
import screenshots
from chromium import By, Chromium
from tables import PANEL, compare_file, compare_segments, compare_tables, symbol_form
from scripts import CHECKS, CLICK, CONTRAST, CUT, FIRST, INSIDE, LOOK_UPS, MADE, PIECES, REFERENCES, ROWS, STOP, TERMS

MOST_ROWS = 800
SIZE = (1440, 2400)
LIBRARIES = pathlib.Path("/usr/lib/x86_64-linux-gnu")
LIBC, LIBM = LIBRARIES / "libc.so.6", LIBRARIES / "libm.so.6"
TABS = ("Overview", "Layout", "Sections", "Segments", "Symbols", "Versions", "Relocations", "Dynamic", "Notes", "Hash tables")


# Roles that a screen reader says together with a name.
NAMED = {"button", "textbox", "searchbox", "combobox", "grid", "listbox", "option", "tab", "tablist", "tabpanel", "progressbar",
         "columnheader", "link", "image", "region", "heading", "menuitem"}


class Test:
    """The page, and what differed."""

    def __init__(self, page, site, count, room):
        self.page, self.site, self.count, self.room = page, site, count, room
        self.example, self.differences, self.compared = site / "example.elf", [], 0
        self.takes_screenshots = False

    def same(self, where, shown, wanted):
        self.compared += 1
        if shown != wanted:
            self.differences.append(f"{where}: the page says {shown!r}, and {wanted!r} is wanted")

    def wait(self, condition, seconds=5):
        """Waits until an expression is true, which counts as a comparison."""
        self.page.wait(condition, seconds)
        self.compared += 1

    def open(self, path, drops=False, tab=None):
        """Opens a file by the file dialog's input, or drops it, and then a tab."""
        self.page.run("document.body.dataset.state = 'waiting'")
        (self.page.drop if drops else self.page.choose_file)(path)
        self.page.wait("document.body.dataset.state === 'ready'", 60)
        if tab:
            self.tab(tab)

    def tab(self, title):
        self.page.click(f"#tab-{title.lower().replace(' ', '')}")

    def tabs(self):
        for title in TABS:
            self.tab(title)
            yield title

    def rows(self, most=MOST_ROWS):
        said = self.page.run(f"({ROWS})({most})")
        return said["count"], {int(index): cells for index, cells in said["found"].items()}

    def choose(self, label, text):
        """Chooses, in the panel in view, the option that begins with a text."""
        field = f"//*[@role='tabpanel'][not(@hidden)]//label[span='{label}']"
        options = self.page.find_elements(By.XPATH, f"{field}//option[starts-with(., '{text} (')]")
        for option in options[:1]:
            option.click()
        return bool(options)

    def go(self, what, number):
        self.page.run(f"(() => {{ const it = document.getElementById('go'); it.elements.what.value = '{what}';"
                      f" it.elements.where.value = '{number:x}'; it.requestSubmit(); }})()")


def system_files(count):
    """Files of this system, of all sizes up to 8 MiB, and small ones of this repository."""
    found = [TOP / "crates/elfnm/data/add.o", TOP / "crates/elfsym/data/stripped.so",
             *(pathlib.Path("/usr/lib32", it.name) for it in (LIBC, LIBM)), LIBRARIES / "crt1.o", LIBC, LIBM,
             pathlib.Path("/usr/bin/readelf"), pathlib.Path("/usr/bin/python3")]
    return [it for it in [*found, *comparing.spread(count, 8 << 20)] if it.exists()][:count]


def try_comparison(test):
    """Files of the system and of other machines, of both classes and byte orders, compared with readelf."""
    others = files.of_other_machines(test.room)
    bare = [files.without_sections(test.room, it) for it in (LIBC, LIBM, *(it for it in others if it.suffix == ".so"))]
    stored = [TOP / "crates/elfsym/data" / it for it in ("versions.so", "needs.so")]
    paths = [test.example, *stored, *bare, *system_files(test.count), *others]
    for index, path in enumerate(paths):
        compare_file(test, path, drops=index % 10 == 0)
    headers = [readelf.header(path) for path in paths]
    kinds = sorted({f"{it['Class']} {it['Data'].split()[-2]}-endian" for it in headers})
    machines = len({it["Machine"] for it in headers})
    print(f"web: compared {len(paths)} files for {machines} machines with readelf: {', '.join(kinds)}")


def try_foreign(test):
    """Files that are no ELF files, and one that doesn't fit, are told by name and reason."""
    short = "File is shorter than the first ELF header part"
    foreign = {"a.txt": (b"plain text\n" * 9, "Did not find ELF magic number"), "empty": (b"", short),
               "<img src=x onerror=alert(1)>": (b"\x7fELF", short), "too-large.elf": (b"", "does not fit")}
    for name, (data, text) in foreign.items():
        with open(test.room / name, "wb") as file:
            file.write(data)
            file.truncate(1 << 40 if name == "too-large.elf" else None)
        test.open(test.room / name)
        said = test.page.text("#message")
        is_closed = test.page.run("document.body.dataset.view") != "viewer"
        test.same(f"{name}: not opened", is_closed and name in said and text in said, True)


def try_damaged(test):
    """Damaged files are shown as far as they can be read, each tab of them."""
    for index in range(30):
        path = test.room / f"damaged-{index}"
        path.write_bytes(damage.damaged(1, index))
        test.open(path)
        if test.page.run("document.body.dataset.view") == "viewer":
            test.compared += bool([*test.tabs()])
    test.tab("Overview")


def try_missing_parts(test):
    """Of fifty files of which parts are missing the page says so, or shows what it does of the whole file."""
    def shown():
        return test.page.texts(".card.first .facts dd, .card.first .hardened dd"), test.page.texts("[role=tab]")

    program = files.programs(test.room)[0]
    test.open(program, tab="Overview")
    whole, told = shown(), 0
    for index, data in enumerate(damage.missing(program.read_bytes(), 1)):
        path = test.room / f"missing-{index}"
        path.write_bytes(data)
        test.open(path)
        is_viewer = test.page.run("document.body.dataset.view") == "viewer"
        if is_viewer:
            test.tab("Overview")
        is_told = not is_viewer or test.page.run("document.querySelector('.faults li, .facts .bad') !== null")
        told += is_told
        test.same(f"missing-{index}: said, or shown as the whole", is_told or shown() == whole, True)
    test.same("missing parts that are said", told > 20, True)


def try_hardening(test):
    """What the overview says of how a file is hardened, for programs linked in several ways and shared objects."""
    programs = list(files.hardened(test.room))
    libraries = [it for it in (LIBC, LIBRARIES / "libz.so.1") if it.exists()]
    for path in (*programs, *libraries, *(files.without_sections(test.room, it) for it in programs[:-1])):
        test.open(path, tab="Overview")
        test.same(f"{path}: hardening", test.page.run(TERMS % "document.querySelectorAll('.hardened dt')"), readelf.hardening(path))


BY_LINUX, BY_GLIBC = "By Linux, which starts programs", "By glibc, which loads shared libraries"
LOADS = "(() => { const it = document.querySelector('.card.first .facts dd span'); return [it.className, it.textContent, it.title]; })()"


def try_loads(test):
    """Whether the file loads, or why not, is said of each, and by which loader."""
    cut = files.changed(test.room, LIBC, f"half-{LIBC.name}", lambda data: data[: len(data) // 2])
    program, unlinked = files.programs(test.room)
    said = {LIBC: ("fine", "yes", BY_GLIBC), cut: ("bad", "no: Load segment is past the end of the file", BY_GLIBC),
            program: ("fine", "yes", BY_LINUX), files.without_sections(test.room, program): ("fine", "yes", BY_LINUX),
            files.without_sections(test.room, LIBM): ("fine", "yes", BY_GLIBC), files.packed(test.room): ("fine", "yes", BY_LINUX),
            unlinked: ("hint", "no: Type is neither executable nor shared object", "")}
    for path, wanted in said.items():
        test.open(path, tab="Overview")
        test.same(f"{path}: loads", tuple(test.page.run(LOADS)), wanted)
        test.same(f"{path}: pages in memory", test.page.texts(".card.first .facts .weak"), [])


# Changes of oracle/loaders.py, each with what the page says where the file isn't loaded, or is loaded without a plan.
REASONS = {"Alignment": "Alignment of a load segment is not a power of two", "Overlap": "Load segment begins before the end of the one before it",
        "Zeros": "Load segment has zeros but is not readable and writable", "Data": "Load segment is past the end of the file",
        "FileSize": "Load segment is larger in the file than in memory", "IdentVersion": "Version in the first bytes is not 1",
        "Misaligned": "Address and offset of a load segment differ modulo the page size",
        "Misaligned: no bytes": "Address and offset of a load segment differ modulo the page size"}


def try_loads_of_made_files(test):
    """The verdict is what Linux does with a program here, and glibc with a library. Of a file that is loaded, but has no plan, the
    page says so."""
    room = loaders.Room(str(test.room), "")
    changes = {it[0]: it[1] for it in loaders.CASES}
    for error, name in itertools.product(REASONS, ("program", "library")):
        path = room.changed(changes[error], name).rename(test.room / f"{error} {name}")
        is_program = name == "program"
        is_loaded = subprocess.run([path]).returncode == 42 if is_program else loaders.by_glibc(str(path)) == "loaded"
        test.open(path, tab="Overview")
        wanted = ["fine", "yes"] if is_loaded else ["bad", f"no: {REASONS[error]}"]
        test.same(f"{error}, {name}: loads", test.page.run(LOADS), [*wanted, BY_LINUX if is_program else BY_GLIBC])
        has_plan = error == "IdentVersion" or not is_loaded
        test.same(f"{error}, {name}: pages in memory", test.page.texts(".card.first .facts .weak"), [] if has_plan else [f"not known: {REASONS[error]}"])
        unread = [it for it in test.page.texts(".faults li") if it.startswith("Pages in memory")]
        test.same(f"{error}, {name}: what can't be read", unread, [] if has_plan else [f"Pages in memory{REASONS[error]}"])


def try_zeros(test):
    """Of an address that only memory has, the page says that it is zero there, and in which section."""
    test.open(LIBC)
    bss = next(it for it in readelf.sections(LIBC) if it[1] == ".bss")
    test.go("address", int(bss[3], 16) + 64)
    test.page.wait_text("#gosaid", "Zero in memory .\\.bss.: the file has no byte", 5)
    test.compared += 1
    # The field is empty with the next file.
    test.open(test.example)
    test.same("the field of a new file", test.page.run("[document.getElementById('go').elements.where.value, document.getElementById('gosaid').textContent]"), ["", ""])


def try_hints(test):
    """Of bytes without fields the page says the part, the address, the segment and the symbol."""
    program = files.programs(test.room)[0]
    test.open(program)
    name, value, _ = functions_of(program)[-1]
    test.go("address", value)
    test.page.wait_text(".bytefacts", f"{name}", 5)
    rows = dict(test.page.run("Array.from(document.querySelectorAll('.bytefacts dt'), (it) => [it.textContent, it.nextElementSibling.textContent])"))
    test.same("what is said of a byte", [rows.get("Address"), rows.get("Symbol"), rows.get("Part"), "LOAD" in rows.get("Segment", "")],
              [hex(value), f"{name}+0x0", ".text, code", True])


def try_exact_names(test):
    """A name that is the whole text of the filter comes first."""
    test.open(LIBM, tab="Symbols")
    test.page.run("(() => { const it = document.querySelector('%s input[type=search]'); it.value = 'exp';"
                  " it.dispatchEvent(new Event('input')); })()" % PANEL)
    test.page.wait_text(f"{PANEL} .said", " of ")
    time.sleep(0.3)
    _, rows = test.rows(100)
    exact = sum(it[6] == "exp" for it in readelf.symbols(LIBM)[".dynsym"])
    test.same("the names that are shown first", [rows[at][7] == "exp" for at in range(exact + 1)], [*[True] * exact, False])


def try_dock(test):
    """The pane of bytes stays closed where it was closed, also for another file and after the page is loaded again."""
    page = test.page
    is_closed = "document.getElementById('dock').classList.contains('closed')"
    test.open(test.example, tab="Sections")
    page.click("#togglehex")
    page.click(f"{PANEL} .row")
    test.same("closed by its button", page.run(is_closed), True)
    test.open(LIBM)
    test.same("closed with another file", page.run(is_closed), True)
    page.run("document.body.dataset.state = 'waiting'")
    page.send("Page.reload")
    page.wait("document.body?.dataset.state === 'ready'")
    test.open(test.example)
    test.same("closed when the page is loaded again", page.run(is_closed), True)
    test.go("offset", 0x40)
    page.wait(f"!{is_closed}", 5)
    page.click("#togglehex")
    page.click("#togglehex")
    test.same("open by its button", page.run(is_closed), False)
    page.run("localStorage.clear()")


IN_VIEW = """(() => {
  const [it, all] = [document.querySelector(%r), document.querySelector(%r)].map((node) => node?.getBoundingClientRect());
  return Boolean(it) && it.left >= all.left - 1 && it.right <= all.right + 1 && it.top >= all.top - 1 && it.bottom <= all.bottom + 1;
})()"""


def try_resize(test):
    """After a resize the byte that was chosen is in view; at 400 the name comes first, and at 1280 each check is in view."""
    page = test.page
    page.resize(1280, 800)
    test.open(LIBC)
    for tab in ("Sections", "Segments"):
        test.tab(tab)
        time.sleep(0.2)
        at = page.texts(f"{PANEL} [role=columnheader]").index("Check") + 1
        test.same(f"the check in {tab}", page.run(IN_VIEW % (f"{PANEL} .row > div:nth-child({at})", PANEL)), True)
    page.resize(1280, 900)
    time.sleep(0.2)
    test.go("offset", 0x12345)
    page.keys(*["ARROW_DOWN"] * 8, at="#bytes")
    for width, height in ((1280, 480), (500, 900), (1280, 900), (400, 800)):
        page.resize(width, height)
        time.sleep(0.4)
        test.same(f"the byte at {width} by {height} pixels", page.run(IN_VIEW % (f"#byte-{0x12345 + 8 * 16}", "#bytes")), True)
    for path, tab in ((LIBC, "Symbols"), (test.example, "Sections")):
        test.open(path, tab=tab)
        # A table that is open has its columns in the other order, and shows its rows in it.
        for width, first in ((400, "Name"), (1280, "Nr"), (400, "Name")):
            page.resize(width, 800)
            time.sleep(0.2)
            heads, (_, rows) = page.texts(f"{PANEL} [role=columnheader]"), test.rows(20)
            test.same(f"the first column of {tab} at {width} pixels", heads[0], first)
            test.same(f"the number of the second line of {tab} at {width} pixels", rows[1][heads.index("Nr")], "1")
    page.resize(*SIZE)


def try_screenshots(test):
    """The page looks as in the pictures of bindings/web/tests/screenshots: 1280 pixels wide, 400 wide, and dark."""
    page = test.page
    for look, (width, height, scheme) in screenshots.LOOKS.items():
        page.resize(width, height)
        page.look(scheme)
        test.open(test.example)
        for tab in screenshots.TABS:
            test.tab(tab)
            page.run("document.activeElement?.blur()")
            time.sleep(0.4)
            difference = screenshots.compare(page, f"{look}-{tab.lower()}", width, height, test.takes_screenshots)
            test.same(f"{tab} {look}, as in its picture", difference, "")
    page.look("light")
    page.resize(*SIZE)


def try_unread_symbols(test):
    """Where a section of dynamic symbols can't be read, those of the dynamic segment are shown."""
    path = files.unread_symbols(test.room, LIBM)
    test.open(path)
    compare_tables(test, path, "Symbols", "Table", {"the dynamic segment": readelf.symbols(LIBM)[".dynsym"]}, symbol_form)


def try_hash_tables(test):
    """The hash tables of a file without section headers are those that its dynamic segment names; each passes its check, and
    finds a symbol as readelf lists it."""
    libraries = [LIBM, test.example, *(it for it in files.of_other_machines(test.room) if it.suffix == ".so")]
    for path in [files.without_sections(test.room, it) for it in libraries]:
        tags = [name for _, name, _ in readelf.dynamic(path)]
        symbols = readelf.symbols(path)["the dynamic segment"]
        names = [it[6] for it in symbols]
        number, value, *_, name, _ = next(it for it in reversed(symbols) if int(it[1], 16) and it[4] == "GLOBAL" and names.count(it[6]) == 1)
        test.open(path, tab="Hash tables")
        cards = test.page.run(f"({LOOK_UPS})('{name}')")
        kinds = [f"DT_{tag}{kind} hash table" for tag, kind in (("GNU_HASH", "GNU"), ("HASH", "gABI")) if tag in tags]
        wanted = [[it, "passes its check", f"Symbol {number} at 0x{int(value, 16):x}"] for it in kinds]
        test.same(f"{path}: hash tables, and {name}", [[*it[:2], it[2].split(",")[0]] for it in cards], wanted)


def try_examples(test):
    """The example without faults has none, by the page and by readelf. Of the other the page says what is wrong with the header,
    with each section and each segment, and with the hash table."""
    size, kind, end = "header_size does not match size of header", "Invalid sh type", "entry point out of range"
    align, outside = "Invalid combination of virtual_addr, offset, and align", "Data is out of range"
    cells = lambda count, said, faults: {**dict.fromkeys(range(count), said), **faults}
    good = ["Header: passes", "Sections: passes", "Segments: passes", "Hash table .hash: passes its check"]
    bad = [f"Header: {size}", f"Sections: {kind} at section 15", f"Segments: {end} at segment 5, and 1 more",
           "Hash table .hash: Chain index is out of range"]
    wanted = {"example.elf": [good, cells(19, "passes", {}), {}, cells(8, "passes", {}), {}],
              "example-with-faults.elf": [bad, cells(19, "passes", {15: kind}), cells(19, "", {11: outside, 15: kind}),
                                          cells(8, "passes", {5: end, 7: align}), cells(8, "", {5: outside})]}
    for name, said in wanted.items():
        test.page.run("document.querySelector('.brand')?.click(), document.body.dataset.state = 'waiting'")
        test.page.click(f"[data-example='{name}']")
        test.page.wait("document.body.dataset.state === 'ready'")
        test.tab("Overview")
        test.page.wait("document.querySelector('.overview') && !document.querySelector('.overview .pending')")
        test.same(f"{name}: errors in the overview", test.page.text(".overview .fault") is not None, name != "example.elf")
        shown = [test.page.run(CHECKS)]
        for tab in ("Sections", "Segments"):
            test.tab(tab)
            labels, (_, rows) = test.page.texts(f"{PANEL} [role=columnheader]"), test.rows()
            # A table without faults hasn't all columns.
            shown += [{index: row[labels.index(it)] for index, row in rows.items()} if it in labels else {} for it in ("Check", "Data")]
        test.same(f"{name}: checks, and those of sections and segments with their data", shown, said)
        printed = subprocess.run(["readelf", "--all", "--wide", test.site / name], capture_output=True).stderr
        test.same(f"{name}: errors by readelf", bool(printed), name != "example.elf")


def try_back(test):
    """Back and Forward lead through the views and files that were opened, and not out of the page."""
    test.open(test.example, tab="Overview")
    test.page.click(".brand")
    test.open(TOP / "crates/elfnm/data/add.o", tab="Symbols")
    test.open(test.example, tab="Notes")
    seen = """[document.body.dataset.view, document.getElementById('filename').textContent,
      document.querySelector('[role=tab][aria-selected=true] span').textContent, document.body.dataset.state].join(' ')"""
    steps = [("back", "viewer example.elf Symbols"), ("back", "viewer add.o Symbols"), ("back", "viewer add.o Overview"),
             ("back", "welcome add.o Overview"), ("forward", "viewer add.o Overview"), ("forward", "viewer add.o Symbols")]
    for step, wanted in steps:
        test.page.run(f"history.{step}()")
        test.wait(f"{seen} === '{wanted} ready'", 10)


def try_sorting(test):
    """Symbols are sorted by their names, by the keyboard alone."""
    wanted = sorted(it[6] for it in readelf.symbols(LIBM)[".dynsym"])
    test.open(LIBM, tab="Symbols")
    test.page.run(f"Array.from(document.querySelectorAll('{PANEL} select')).at(-1).focus()")
    test.page.keys(*["TAB"] * 5)
    test.same("the fifth stop after the filter", test.page.text(":focus"), "Name")
    for order, names in (("ascending", wanted), ("descending", wanted[::-1])):
        test.page.keys("ENTER")
        test.page.wait(f"document.querySelector('[aria-sort={order}]')")
        test.page.wait_text(f"{PANEL} .said", " of ")
        time.sleep(0.3)
        _, rows = test.rows()
        test.same(f"names {order}", {at: row[7] for at, row in rows.items()}, {at: names[at] for at in rows})


def try_narrow(test):
    """In 400 pixels all views fit, and in any width no number is cut off."""
    for width in (400, 1280):
        test.page.resize(width, 800)
        for path in (files.wide_numbers(test.room, test.example), LIBC):
            test.open(path)
            for tab in test.tabs():
                time.sleep(0.2)
                if tab == "Overview":
                    test.same(f"{path}: what people look for is in the first view, {width} pixels wide", test.page.run(FIRST), True)
                if tab == "Layout" and path == LIBC:
                    test.page.run(CLICK % ".text")
                    test.page.wait(INSIDE % ".text", 5)
                test.same(f"{path}: cut off in {tab}, {width} pixels wide", test.page.run(CUT), [])
    test.page.resize(*SIZE)


def try_cut(test):
    """A file without its second half: its segments are those that readelf lists, and it is said what can't be read."""
    path = files.changed(test.room, LIBC, f"cut-{LIBC.name}", lambda data: data[: len(data) // 2])
    test.open(path)
    compare_segments(test, path, holds_sections=False)
    for tab, place, words in (
            ("Overview", ".faults", ("Section headers end early", "Data of segment", "Entries of the dynamic segment")),
            ("Sections", f"{PANEL} .notice", ("can be read", "File is shorter than section header offset"))):
        test.tab(tab)
        said = test.page.text(place)
        test.same(f"{path}: {words}", [it for it in words if it not in said], [])


def try_many_symbols(test):
    """A table of 165,000 symbols scrolls, by the scroll bar and by keys, shows each row where it belongs, and is filtered."""
    count = 165_000
    test.page.resize(1440, 900)
    test.open(files.many_symbols(test.room, count), tab="Symbols")
    shown, rows = test.rows(200)
    test.same("number of symbols", shown, count)
    test.same("names of rows", {at: row[7] for at, row in rows.items() if at}, {at: f"symbol_{at}" for at in rows if at})
    test.same("the last row", count - 1 in rows, True)
    test.same("rows in the page", len(test.page.texts(f"{PANEL} .row")) < 400, True)
    test.page.keys("HOME", "PAGE_DOWN", "END", "ARROW_UP", "ENTER", at=f"{PANEL} .table")
    test.page.wait(f"document.querySelector('{PANEL} [aria-selected=true]')?.dataset.index === '{count - 2}'")
    test.page.wait_text("#place", "Symbol 164,998 symbol_164998")
    test.page.run("(() => { const it = document.querySelector('%s input[type=search]'); it.value = 'BOL_1649';"
                  " it.dispatchEvent(new Event('input')); })()" % PANEL)
    test.page.wait_text(f"{PANEL} .said", " of ")
    shown = test.page.text(f"{PANEL} .said")
    test.same("symbols with a text", int(shown.split()[0].replace(",", "")), sum("1649" in str(it)[:4] for it in range(1, count)))
    test.page.resize(*SIZE)


def try_stop(test):
    """Work on a large library stops at the button, and what is shown says so."""
    test.page.run("document.body.dataset.state = 'waiting'")
    test.page.choose_file(max((it for it in LIBRARIES.glob("*.so*") if it.is_file()), key=lambda it: it.stat().st_size))
    test.page.click("#stop")
    test.page.wait("document.body.dataset.state === 'ready'", 60)
    test.same("stopped", "was stopped" in test.page.text("#message"), True)


def unnamed(page):
    """What a screen reader meets without a name."""
    nodes = [it for it in page.send("Accessibility.getFullAXTree")["nodes"] if not it["ignored"]]
    return [it["role"]["value"] for it in nodes if it["role"]["value"] in NAMED and not it.get("name", {}).get("value", "").strip()]


def try_screen_reader(test):
    """Whatever a screen reader meets in a view has a name, and refers to what is there."""
    test.page.click(".brand")
    test.same("without a name before a file is opened", unnamed(test.page), [])
    test.open(test.example)
    for tab in test.tabs():
        test.same(f"without a name in {tab}", unnamed(test.page), [])
        test.same(f"references in {tab}", test.page.run(REFERENCES), [])
        test.same(f"headings of {tab}", len(test.page.texts(f"{PANEL} h2")), 1)


def try_keyboard(test):
    """The page by the keyboard alone: each stop has a name and is seen, tabs and tables move by arrows."""
    page = test.page
    test.open(TOP / "crates/elfnm/data/add.o", tab="Overview")
    page.run("document.activeElement?.blur(), window.getSelection()?.removeAllRanges(), document.querySelector('.skip').focus()")
    # What Tab leads to from the first stop on, until it leaves the page.
    pressed = (page.keys("TAB") or page.run(STOP) for _ in range(80))
    stops = [*itertools.takewhile(lambda it: not it["isBody"], pressed)]
    test.same("each stop of the keyboard has a name", [it for it in stops if not it["name"]], [])
    test.same("each stop of the keyboard is seen", [it for it in stops if not it["isSeen"]], [])
    order = ["Open a file", "Overview", "Bytes", "Go to", "Number in base 16", "Go", "Bytes", "Fields of the record"]
    heads = [re.split(r"\s*[\n,]", it["name"])[0] for it in stops]
    test.same("stops of the keyboard in order", [it for it in heads if it in order], order)
    page.click("#tab-overview")
    page.keys("ARROW_DOWN", "ARROW_DOWN", at="#tab-overview")
    test.same("arrows change the tab", page.text(":focus").startswith("Sections"), True)
    page.keys("HOME", "ARROW_DOWN", "ARROW_DOWN", "ENTER", at=f"{PANEL} .table")
    test.same("Enter chooses a row", page.run(f"document.querySelector('{PANEL} [aria-selected=true]').dataset.index"), "2")
    places = []
    for keys in ((), ("ARROW_RIGHT",)):
        page.keys(*keys, at="#bytes")
        places.append(int(page.run("document.getElementById('bytes').getAttribute('aria-activedescendant')").split("-")[1]))
    test.same("arrows move in the bytes", places[1], places[0] + 1)


def try_fields(test):
    """The field under the pointer is named."""
    page, path = test.page, TOP / "crates/elfsym/data/stripped.so"
    test.open(path, tab="Overview")
    page.click("table.plain button")
    x, y = page.run("(() => { const it = document.getElementById('byte-24').getBoundingClientRect(); return [it.x + 6, it.y + 6]; })()")
    page.send("Input.dispatchMouseEvent", type="mouseMoved", x=x, y=y)
    page.wait_text("#place", "e_entry", 5)
    shown = page.text(".fieldrow.current .fieldvalue")
    test.same("the value of the field", int(shown.split()[0], 16), int(readelf.header(path)["Entry point address"], 16))


def try_addresses(test):
    """Bytes are found by their address, by a record's button and by "Go to", and an address in no segment gets an error."""
    test.open(LIBC)
    entry = int(readelf.header(LIBC)["Entry point address"], 16)
    load = next(row for row in readelf.segments(LIBC) if row[0] == "LOAD" and 0 <= entry - int(row[2], 16) < int(row[4], 16))
    offset = entry - int(load[2], 16) + int(load[1], 16)
    is_at = "document.getElementById('bytes').getAttribute('aria-activedescendant') === 'byte-%d'"
    test.page.click(".follow button")
    test.wait(is_at % offset)
    test.go("address", 0xffffffffffff0000)
    test.wait("/Address is in no loaded segment/.test(document.getElementById('gosaid').textContent)")
    test.go("address", entry + 16)
    test.wait(is_at % (offset + 16))


def functions_of(path):
    """The name, the value and the size of each function that nm prints."""
    printed = subprocess.run(["nm", "--defined-only", "--print-size", path], check=True, capture_output=True, text=True).stdout
    rows = [line.split() for line in printed.splitlines()]
    return [(row[3], int(row[0], 16), int(row[1], 16)) for row in rows if len(row) == 4 and row[2] in "tT" and int(row[1], 16)]


def try_symbols_of_addresses(test):
    """The symbol of the byte under the pointer or the cursor is named: in a program by the address, in an object file by the offset in
    its section; and none where no symbol is."""
    for path in files.programs(test.room):
        test.open(path)
        text = next(it for it in readelf.sections(path) if it[1] == ".text")
        what, start = ("offset", int(text[4], 16)) if path.suffix else ("address", 0)
        for function, value, size in functions_of(path):
            test.go(what, start + value + size // 2)
            test.wait(f"document.getElementById('place').textContent.endsWith(' › {function}+{size // 2:#x}')")
    test.go("offset", 0)
    test.page.wait_text("#place", "^00000000 ›|0 › ELF header", 5)
    time.sleep(0.3)
    test.same("a symbol of the ELF header", "+0x" in test.page.text("#place"), False)


def try_pieces(test):
    """Each byte is in one piece, and the symbols of a section are as large as nm says."""
    page = test.page
    for whole in files.programs(test.room):
        path = files.changed(test.room, whole, f"longer-{whole.name}", lambda data: data + bytes(7))
        test.open(path, tab="Layout")
        shown = page.run(f"({PIECES})()")
        starts, ends = [start for start, _ in shown["pieces"]], [end for _, (_, end) in shown["pieces"]]
        test.same(f"{path.name}: pieces follow each other", [*starts, path.stat().st_size], [0, *ends])
        size_of = lambda label: sum(end - start for start, (it, end) in shown["pieces"] if it == label)
        free = {label: size_of(label) for label in ("Between parts", "Behind all parts")}
        said = re.search(r"([\d,]+) bytes of no part: ([\d,]+) between parts, ([\d,]+) behind", shown["said"])
        numbers = [int(it.replace(",", "")) for it in said.groups()]
        test.same(f"{path.name}: bytes of no part", numbers, [sum(free.values()), *free.values()])
        test.same(f"{path.name}: bytes behind all parts", free["Behind all parts"], 7)
        page.run("document.querySelector('.mapscroll').scrollTo(0, 0)")
        index = [it for _, (it, _) in shown["pieces"]].index(".text")
        page.keys("HOME", *["ARROW_DOWN"] * index, "ENTER", at=".mapscroll")
        page.wait(INSIDE % ".text", 5)
        _, rows = test.rows(200)
        sizes = {row[2]: int(row[0].replace(",", "")) for row in rows.values() if row[2] != "no symbol"}
        wanted = {it: size for it, _, size in functions_of(path) if it not in ("_init", "_fini")}
        test.same(f"{path.name}: symbols in .text", {it: sizes.get(it) for it in wanted}, wanted)


def try_contrast(test):
    """All text of each view has enough contrast, in light and in dark."""
    test.open(test.example)
    for tab in test.tabs():
        for scheme in ("dark", "light"):
            test.page.look(scheme)
            time.sleep(0.05)
            test.same(f"contrast of {tab} in {scheme}", test.page.run(CONTRAST), [])


def try_hostile_names(test):
    """Names that look like markup are shown as the text that they are, in each view, and nothing is made of them."""
    path = files.markup(test.room)
    test.open(path)
    test.same("the file's name", test.page.text("#filename"), path.name)
    wanted = {"Overview": 5, "Layout": 5, "Sections": 5, "Segments": 0, "Symbols": 5, "Relocations": 0, "Dynamic": 5, "Notes": 1,
              "Hash tables": 0}
    for tab, least in wanted.items():
        test.tab(tab)
        if tab in ("Sections", "Symbols", "Dynamic", "Notes"):
            test.rows()
        test.same(f"markup in {tab}: elements made of it", test.page.run(MADE), 0)
        shown = test.page.text(PANEL)
        test.same(f"markup in {tab}: names shown as they are", sum(it in shown for it in files.MARKUP) >= least, True)
    fault = test.page.run("(() => { try { document.createElement('p').innerHTML = '<b>x</b>'; return false; } catch { return true; } })()")
    test.same("markup of strings is forbidden", fault, True)
    test.page.faults()


def try_slow_check(test):
    """The page can be used while the check of a hash table takes long, and the check can be stopped."""
    test.open(files.slow_table(test.room), tab="Hash tables")
    test.page.wait("document.querySelector('.checked button') !== null", 5)
    test.tab("Symbols")
    count, rows = test.rows(100)
    test.same("symbols beside a running check", [count, rows[1][7]], [60000, "a"])
    test.tab("Hash tables")
    test.page.click(".checked button")
    test.wait("/was stopped/.test(document.querySelector('.checked').textContent)")


def try_old_browser(test):
    """Without memory64 the page says so, and offers no file."""
    script = test.page.send("Page.addScriptToEvaluateOnNewDocument", source="WebAssembly.validate = () => false")["identifier"]
    test.page.send("Page.reload")
    test.page.wait("document.body?.dataset.state === 'unsupported'")
    shown = test.page.run("document.getElementById('unsupported').checkVisibility() && !document.getElementById('choose').checkVisibility()")
    test.same("an old browser is told", shown, True)
    test.page.send("Page.removeScriptToEvaluateOnNewDocument", identifier=script)
    test.page.send("Page.reload")
    test.page.wait("document.body?.dataset.state === 'ready'")


def main():
    parser = argparse.ArgumentParser()
    parser.add_argument("--site", type=pathlib.Path, default=TOP / "bindings/web/out/site")
    parser.add_argument("--files", type=int, default=300, help="how many files of the system are compared")
    parser.add_argument("--only", default="")
    parser.add_argument("--screenshots", action="store_true", help="writes the pictures, and compares no others")
    options = parser.parse_args()
    http.server.SimpleHTTPRequestHandler.log_message = lambda *_: None
    handler = functools.partial(http.server.SimpleHTTPRequestHandler, directory=str(options.site))
    server = http.server.ThreadingHTTPServer(("127.0.0.1", 0), handler)
    threading.Thread(target=server.serve_forever, daemon=True).start()
    with tempfile.TemporaryDirectory() as room, Chromium(f"http://127.0.0.1:{server.server_port}/", *SIZE) as page:
        test = Test(page, options.site, options.files, pathlib.Path(room))
        test.takes_screenshots = options.screenshots
        page.wait("document.body?.dataset.state === 'ready'")
        for name, it in list(globals().items()):
            if name.startswith("try_") and options.only in name:
                began = time.monotonic()
                it(test)
                print(f"web: {name.removeprefix('try_')}: {time.monotonic() - began:.1f} s", flush=True)
                test.same(f"{name}: faults of the page", page.faults(), [])
    for difference in test.differences[:40]:
        print(f"web: {difference}")
    print(f"web: {test.compared} comparisons, {len(test.differences)} differences")
    return int(bool(test.differences))


if __name__ == "__main__":
    sys.exit(main())
