"""What readelf says of a file, as rows of texts in the form in which the page has them.

    readelf_rows.sections("/usr/bin/ls")
"""
import re

from comparing import relocation_tables, run

SECTION = re.compile(
    r"^ *\[ *(\d+)\] (.*?) *(\S+) +([0-9a-f]{8,16}) ([0-9a-f]{6,}) ([0-9a-f]{6,}) ([0-9a-f]{2,}) +([A-Za-z]*)"
    r" +(\d+) +(\d+) +(\d+)$", re.M)
SEGMENT = re.compile(r"^  (\S+) +(0x[0-9a-f]+) (0x[0-9a-f]+) (0x[0-9a-f]+) (0x[0-9a-f]+) (0x[0-9a-f]+) ([RWE ]{3}) (\S+)$", re.M)
HELD = re.compile(r"^   (\d\d+) +(.*)$", re.M)
SYMBOL = re.compile(r" *(\d+): ([0-9a-f]+) +(0x[0-9a-f]+|\d+) (\S+) +(\S+) +(\S+)(?: +\[.*?\])? +(\S+) ?(.*)$")
DYNAMIC = re.compile(r"^ (0x[0-9a-f]+) \((\w+)\) +(.*)$", re.M)
DEFINED = re.compile(r"  (?:0x)?[0-9a-f]+: Rev: \d+  Flags: (.*?) +Index: (\d+)  Cnt: \d+  Name: (.*)$")
NEEDED = re.compile(r"  0x[0-9a-f]+:   Name: (.*?)  Flags: (.*?)  Version: (\d+)$")
# The tables of the dynamic segment, by readelf's names for them.
USED = {"RELA": "DT_RELA", "REL": "DT_REL", "PLT": "DT_JMPREL", "RELR": "DT_RELR"}
NOTE = re.compile(r"^  (\S.*?) +(0x[0-9a-f]{8})\t.*$", re.M)


def said(path, *options) -> str:
    return run(["readelf", "--wide", *options, str(path)], LC_ALL="C.UTF-8").output


def header(path):
    """The numbers of the header, by the names that readelf has for them."""
    found = re.findall(r"^  ([\w' /]+?): +(.*)$", said(path, "--file-header"), re.M)
    return {name: re.sub(r" \(.*", "", text) for name, text in found}


def sections(path):
    return [list(it) for it in SECTION.findall(said(path, "--section-headers"))]


def segments(path):
    """Each segment, and the names of the sections in it."""
    printed = said(path, "--program-headers")
    held = {int(index): names.strip() for index, names in HELD.findall(printed)}
    return [[*(it.strip() for it in row), held.get(index, "")] for index, row in enumerate(SEGMENT.findall(printed))]


def symbols(path):
    """For each table of symbols, by its name: number, value, size, type, binding, visibility and name, and the version of a dynamic
    symbol. Of a file without section headers these are the symbols of the dynamic segment."""
    tables, rows = {}, []
    for line in said(path, "--syms", *([] if sections(path) else ["--use-dynamic"])).split("\n"):
        if begun := re.match(r"Symbol table (?:'(.*)'|for image) contains", line):
            rows, dynamic = tables.setdefault(begun[1] or "the dynamic segment", []), begun[1] in (None, ".dynsym")
        # readelf names the binding STB_GNU_UNIQUE in files of GNU's ABI alone.
        if found := SYMBOL.match(line.replace("<OS specific>: 10", "UNIQUE")):
            number, value, size, kind, binding, visibility, _, name = found.groups()
            version = [re.sub(r"^[^@]*| \(\d+\)$", "", name)] if dynamic else []
            rows.append([number, value, str(int(size, 0)), kind, binding, visibility, re.sub("@.*", "", name), *version])
    return tables


def relocations(path, wide):
    """For each section of relocations, else for each table of the dynamic segment: offset, type, addend and index of the symbol."""
    tables, shift, digits = {}, 32 if wide else 8, 16 if wide else 8
    for table in relocation_tables(str(path), *([] if sections(path) else ["--use-dynamic"])):
        rows = tables.setdefault(USED.get(table.section, table.section), [])
        rows += [[f"{it.offset:0{it.digits}x}", (hex(it.info % (1 << shift)), it.kind), it.shown, str(it.info >> shift)] for it in table.rows]
        rows += [[f"{it:0{digits}x}", ("", "relative, packed"), "", ""] for it in table.packed]
    return tables


def dynamic(path):
    """Number and name of each tag, and the text that the value is."""
    rows = ([tag, name, re.search(r"\[(.*)\]$", value)] for tag, name, value in DYNAMIC.findall(said(path, "--dynamic")))
    return [[tag, name, text[1] if text else None] for tag, name, text in rows]


def versions(path):
    """Number, kind, name, library and flags of each version that the file defines or needs."""
    rows, library = [], ""
    for line in said(path, "--version-info").split("\n"):
        library = (re.search(r"  File: (.*)  Cnt: ", line) or ["", library])[1]
        if defined := DEFINED.match(line):
            of = "this file itself" if "BASE" in defined[1] else ""
            rows.append([defined[2], "defined", defined[3], of, defined[1].replace("none", "")])
        if needed := NEEDED.match(line):
            rows.append([needed[3], "needed", needed[1], library, needed[2].replace("none", "")])
    return rows


def notes(path):
    return [[owner, str(int(size, 16))] for owner, size in NOTE.findall(said(path, "--notes"))]


def hardening(path):
    """The rows of the page's card; none for a file without segments."""
    printed = said(path, "--file-header", "--program-headers", "--dynamic")
    if "There are no program headers" in printed:
        return []
    is_now = bool(re.search(r"\(BIND_NOW\)|\(FLAGS\) +.*BIND_NOW|\(FLAGS_1\) +Flags:.*\bNOW\b", printed))
    stack = re.search(r"^  GNU_STACK .* ([R ][W ][E ]) 0x", printed, re.M)
    is_library = "DYN (Shared object file)" in printed
    yes = {True: "yes", False: "no"}
    tables = symbols(path)
    named = [row[6] for table in tables.values() for row in table]
    checked = sum(row[6].endswith("_chk") for name, table in tables.items() if name in (".dynsym", "the dynamic segment") for row in table)
    features = re.search(r"(?:x86|AArch64) feature: (.*)", said(path, "--notes"))
    machine = header(path)["Machine"]
    titles = {"Advanced Micro Devices X86-64": "CET", "Intel 80386": "CET", "AArch64": "BTI, PAC"}
    return [
        f"Program at any address (PIE): {'shared library' if is_library else yes['Position-Independent Executable' in printed]}",
        f"Read-only after relocation (RELRO): {('full' if is_now else 'partial') if '  GNU_RELRO ' in printed else 'none'}",
        f"Stack not executable (NX): {yes[bool(stack) and 'E' not in stack[1]]}",
        f"Bound before it runs (BIND_NOW): {yes[is_now]}",
        f"Writable and executable (W+X): {yes[bool(re.search(r'^  LOAD .* RWE 0x', printed, re.M))]}",
        f"Stack protector (canary): {'found' if any('__stack_chk_' in it for it in named) else 'not found'}",
        f"Checked functions (FORTIFY): {f'{checked} found' if checked else 'none'}",
        *([f"Branches and returns ({titles[machine]}): {features[1] if features else 'none'}"] if machine in titles else []),
    ]
