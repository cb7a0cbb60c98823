"""Compares the tables of the page with what readelf says of a file."""
import re

import readelf_rows as readelf
from comparing import build_ids

# The view that is open.
PANEL = "[role=tabpanel]:not([hidden])"


def compare_header(test, path):
    said = readelf.header(path)
    table = dict(test.page.run(
        "Array.from(document.querySelectorAll('table.plain tbody tr'), (it) => [it.children[0].textContent, it.children[1].textContent])"))
    pairs = {"e_entry": "Entry point address", "e_ehsize": "Size of this header", "e_phoff": "Start of program headers",
             "e_shoff": "Start of section headers", "e_phentsize": "Size of program headers", "e_phnum": "Number of program headers",
             "e_shentsize": "Size of section headers", "e_shnum": "Number of section headers", "e_shstrndx": "Section header string table index"}
    for field, name in pairs.items():
        test.same(f"{path}: {field}", int(table[field], 0), int(re.match(r"\w+", said[name])[0], 0))
    test.same(f"{path}: build id", test.page.text(".facts .id"), next(iter(build_ids(str(path))), None))
    needed = [text for _, name, text in readelf.dynamic(path) if name == "NEEDED"]
    test.same(f"{path}: libraries needed", test.page.texts(".libraries li"), needed)


def compare_sections(test, path):
    wanted = readelf.sections(path)
    test.tab("Sections")
    count, rows = test.rows()
    test.same(f"{path}: number of sections", count, len(wanted))
    for row in wanted:
        shown = rows.get(int(row[0]), [""] * 12)
        # readelf names the flag SHF_GNU_RETAIN in files of GNU's ABI alone, and calls it `o` in others.
        own, read = ([*it[:2], *it[3:7], it[7].replace("R", "o"), *it[8:11]] for it in (shown, row))
        test.same(f"{path}: section {row[0]}", own, read)
        kind = row[2]
        # A type that readelf doesn't know, by its number, or by the page's name for it.
        if based := re.fullmatch(r"(LOOS|LOPROC|LOUSER)\+(0x)?([0-9a-f]+)", kind):
            number = {"LOOS": 0x60000000, "LOPROC": 0x70000000, "LOUSER": 0x80000000}[based[1]] + int(based[3], 16)
            kind = {0x6fff4c03: "LLVM_ADDRSIG"}.get(number, hex(number))
        test.same(f"{path}: type of section {row[0]}", shown[2], kind)


def compare_segments(test, path, holds_sections=True):
    wanted = readelf.segments(path)
    test.tab("Segments")
    count, rows = test.rows()
    test.same(f"{path}: number of segments", count, len(wanted))
    for index, (kind, *numbers, flags, align, held) in enumerate(wanted):
        cells = rows.get(index, [""] * 11)
        _, shown_kind, *shown, shown_flags, shown_align = cells[:9]
        shown_held = cells[-1]
        test.same(f"{path}: segment {index}", [shown_kind, shown_flags], [kind, flags.replace(" ", "")])
        test.same(f"{path}: sections in segment {index}", shown_held, held if holds_sections else "")
        own, read = ([int(it, 16) for it in some] for some in ((*shown, shown_align), (*numbers, align)))
        test.same(f"{path}: numbers of segment {index}", own, read)


def compare_tables(test, path, tab, label, wanted, form):
    """Compares rows of each section's table, which readelf has by the section's name."""
    test.tab(tab)
    for name, table in wanted.items():
        if not test.choose(label, name):
            test.same(f"{path}: {tab} of {name}", "no such choice", name)
            continue
        count, rows = test.rows()
        test.same(f"{path}: number of {tab} of {name}", count, len(table))
        for index, row in rows.items():
            listed = table[index] if index < len(table) else None
            test.same(f"{path}: {tab} {index} of {name}", form(row, listed), listed)


def symbol_form(row, wanted):
    """Number, value, size, type, binding, visibility and name, and the version of a dynamic symbol. The symbols that name a
    version have none by """
    version = "" if len(row) < 9 or row[6] == "ABS" and row[8] == f"@@{row[7]}" else row[8]
    return [*row[:6], re.sub("@.*", "", row[7]), version][:len(wanted or []) or 7]


def relocation_form(row, wanted):
    """Offset, type, addend and symbol. The page has names of types for some machines, and numbers for the others."""
    number, name = wanted[1] if wanted else (None, None)
    return [row[1], wanted[1] if row[2] in (name, number) else row[2], row[3], row[4]]


def compare_dynamic(test, path):
    test.tab("Dynamic")
    wanted = readelf.dynamic(path)
    if not wanted:
        return
    count, rows = test.rows()
    test.same(f"{path}: as many dynamic entries", count >= len(wanted), True)
    for index, (tag, name, text) in enumerate(wanted):
        shown = rows.get(index, [""] * 5)
        test.same(f"{path}: dynamic entry {index}", shown[1:3], [f"0x{int(tag, 16):016x}", name])
        if text:
            test.same(f"{path}: text of dynamic entry {index}", shown[4], text)


def compare_rows(test, path, tab, columns, wanted):
    """Compares some columns of all rows of a table."""
    test.tab(tab)
    _, rows = test.rows()
    test.same(f"{path}: {tab}", [[row[it] for it in columns] for _, row in sorted(rows.items())], wanted)


def compare_file(test, path, drops=False):
    test.open(path, drops)
    test.same(f"{path}: is shown", test.page.run("document.body.dataset.view"), "viewer")
    test.tab("Overview")
    compare_header(test, path)
    compare_sections(test, path)
    compare_segments(test, path)
    compare_tables(test, path, "Symbols", "Table", readelf.symbols(path), symbol_form)
    wide = readelf.header(path)["Class"] == "ELF64"
    compare_tables(test, path, "Relocations", "Section", readelf.relocations(path, wide), relocation_form)
    compare_dynamic(test, path)
    if readelf.sections(path):
        compare_rows(test, path, "Versions", range(5), readelf.versions(path))
    compare_rows(test, path, "Notes", (2, 4), readelf.notes(path))
