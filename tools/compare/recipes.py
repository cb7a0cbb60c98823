#!/usr/bin/env python3
"""Compares what the recipes of docs/RECIPES.md print with readelf, and the symbols of addresses with nm, over real files.

    tools/compare/recipes.py [--elfrecipes PATH] [--elfbind PATH] [--elfload PATH] [--elfsize PATH] [FILE..]

Those with jq, on that page and on docs/PROGRAMS.md, must print what Python picks of the same JSON. The recipes in Python are run where
tools/exports/python.sh has built the package: that of the largest functions over each file, those of libraries over a made root and
over PACKAGE, which needs no other packages than those that dpkg says. Without files it takes the programs and libraries of
recipes.toml, and what gcc makes of a small source. Files that `elfrecipes` doesn't read count as differences.
"""
import json
import re
import shutil
import subprocess
import sys
import tempfile
from collections import Counter
from pathlib import Path

from comparing import (
    LOAD, ROOT, SECTION, Tally, build_ids, first_differing, llvm, nm, parser_of, parts, raw, relocation_tables, run, texts_of)
from pages.sources import table_of
from sizes import Symbol, runs_of

TABLE = table_of(__file__)
NO_BITS, FUNCTION, EXECUTED, NAMED = 8, 2, 4, (0, 1, 2, 10)

# The recipes with jq: the program, its words before the file, and what reads its output; which objects each is for, and the member
# that it prints.
PAGES = "".join((ROOT / it).read_text() for it in ("docs/RECIPES.md", "docs/PROGRAMS.md"))
PIPES = re.findall(r"^ *(elf\w+) (--json.*?) \S+ \| (jq .*?)(?: {2,}#.*)?$", PAGES, re.M)
PICKED = {
    "elfbind": (lambda it: it["file"] is None and not it["weak"], "name"),
    "elfload": (lambda it: it.get("by") == "glibc" and it["flags"] & 3 == 3, "file"),
    "elfsize": (lambda it: it["kind"] == "symbol" and it["size"] > 4096, "name")}

# The recipes of docs/RECIPES.md in Python.
LARGEST, STARTS, NEEDS = re.findall(r"^```python$(.*?)^```$", (ROOT / "docs/RECIPES.md").read_text(), re.M | re.S)
PYTHON = ROOT / "bindings/python"
ROOTED, NOT_STARTED = ROOT / "crates/elftree/data", "".join(
    f"/bin/{name}: no: /bin/{name}: /lib64/ld-linux-x86-64.so.2 not found\n" for name in ("filters", "prog"))
PACKAGE = "coreutils"


def symbols(said: list, is_dynamic: bool) -> list:
    found = []
    for it in said:
        # The name of a section's symbol is that of the section for readelf, and a version is no part of one.
        name = "" if raw(it["Type"]) == SECTION else it["Name"]["Value"]
        found.append((it["Value"], it["Size"], name.split("@")[0] if is_dynamic else name))
    return found


def relocations(path: str, is_wide: bool, sections: list, tables: dict) -> list:
    bits, kinds = (32, 0xFFFFFFFF) if is_wide else (8, 0xFF)
    links, names, found = {it["Name"]["Value"]: it["Link"] for it in sections}, [it["Name"]["Value"] for it in sections], []
    for table in relocation_tables(path):
        link = links.get(table.section)
        symbols = tables.get(names[link]) if link else None
        for it in table.rows:
            name = symbols[it.info >> bits][2] if symbols else "?"
            found.append(f"{it.offset:x} {it.info & kinds} {name}" + (f" {it.addend}" if table.has_addends else ""))
    return found


def wanted(path: str) -> dict:
    """What readelf says of a file, in the form in which the recipes print it."""
    said = llvm(path, "-h", "-S", "-l", "--symbols", "--dyn-syms")
    header, sections, needed = said["ElfHeader"], parts(said, "Sections", "Section"), texts_of(path, "NEEDED")
    is_wide, names = raw(header["Ident"]["Class"]) == 2, [it["Name"]["Value"] for it in sections]
    tables = {".symtab": symbols(parts(said, "Symbols", "Symbol"), False), ".dynsym": symbols(parts(said, "DynamicSymbols", "Symbol"), True)}
    loads = [it for it in parts(said, "ProgramHeaders", "ProgramHeader") if raw(it["Type"]) == LOAD]
    entry = [it for it in loads if it["VirtualAddress"] <= header["Entry"] < it["VirtualAddress"] + it["MemSize"]]
    text = [it["Size"] for it in sections if it["Name"]["Value"] == ".text" and raw(it["Type"]) != NO_BITS]
    own = tables[".symtab"] if ".symtab" in names else []
    return {
        "sections": [f"{index} {it['Size']} {it['Name']['Value']}" for index, it in enumerate(sections)],
        "symbols": [f"{value:x} {size} {name}" for value, size, name in own],
        "relocations": relocations(path, is_wide, sections, tables),
        "needed": needed if ".dynamic" in names else [],
        "needed by segments": needed if loads else [],
        "build id": build_ids(path) if is_wide and ".note.gnu.build-id" in names else [],
        "segment of the entry point": [f"{it['VirtualAddress']:x} {it['MemSize']}" for it in entry[:1]],
        "text": [str(text[0])] if text else [],
        "first symbols": [str(len(own))] if is_wide and ".symtab" in names else [],
    }


def compare(tally: Tally, program: str, path: str) -> None:
    """Compares what the recipes print of a file, each behind a line with its name."""
    tally["files"] += 1
    symbols = [] if path.endswith(".o") else nm(path)
    functions = [(value, size) for value, size, kind, _ in symbols if kind in "tTwWi" and size][:250]
    asked = [value + more for value, size in functions for more in (0, size // 2)]
    printed = re.split(r"^\[([\w ]+)\]\n", tally.output(path, program, path, *(f"{it:x}" for it in asked)), flags=re.M)
    places = [line.rpartition("+0x") for line in printed[0].splitlines()]
    values = {(name, value) for value, _, _, name in symbols}
    tally["addresses"] += len(places)
    for address, (name, _, offset) in zip(asked, places):
        if (name, address - int(offset or "0", 16)) not in values:
            tally.differ(path, f"address {address:x}", f"{name}+0x{offset}", "no such symbol there")
    if len(places) != len(asked):
        tally.differ(path, "addresses", len(places), len(asked))
    said = dict(zip(printed[1::2], (part.splitlines() for part in printed[2::2])))
    for name, lines in wanted(path).items():
        ours = said.get(name, [])
        if ours != lines:
            at = first_differing(ours, lines)
            tally.differ(path, f"{name}, line {at + 1} of {len(ours)} and {len(lines)}", ours[at : at + 1], lines[at : at + 1])


def compare_pipes(tally: Tally, programs: dict, path: str) -> None:
    """Compares what the recipes with jq print of a file."""
    for name, words, pipe in PIPES:
        picks, key = PICKED[name]
        # As if memory that is writable were executable too.
        said = run([programs[name], *words.split(), path]).output.replace('"flags":6', '"flags":7')
        printed = run(["sh", "-c", pipe], given=said.encode()).output.split("\n")[:-1]
        wanted = [it.get(key) or "null" for it in map(json.loads, said.split("\n")[:-1]) if picks(it)]
        tally["lines by jq"] += len(wanted)
        if printed != wanted:
            tally.differ(path, f"{name} {words} | {pipe}", printed, wanted)


def largest(path: str) -> list:
    """The sizes of the ten largest functions: each byte belongs to the symbol that begins last and is the smallest."""
    said = llvm(path, "-S", "--symbols", "--dyn-syms")
    kept = parts(said, "Symbols", "Symbol") or parts(said, "DynamicSymbols", "Symbol")
    found: Counter = Counter()
    for section in parts(said, "Sections", "Section"):
        if not section["Flags"]["RawFlags"] & EXECUTED:
            continue
        inside = [it for it in kept if raw(it["Section"]) == section["Index"] and raw(it["Type"]) in NAMED and it["Size"]]
        sized = [Symbol(at, 0, it["Value"], it["Size"], raw(it["Type"]), raw(it["Binding"]), True) for at, it in enumerate(inside)]
        for owner, begin, end in runs_of(sized):
            symbol = sized[int(owner.split()[1])]
            if symbol.type == FUNCTION:
                found[section["Index"], symbol.value, symbol.size] += end - begin
    return sorted(found.values(), reverse=True)[:10]


def needed_packages(package: str) -> set:
    """The packages that dpkg says that a package needs, with those that these need, and itself."""
    found, left = set(), [package]
    while left:
        name = left.pop()
        if name not in found:
            found.add(name)
            said = subprocess.run(["dpkg-query", "-W", "-f", "${Depends}, ${Pre-Depends}", name], capture_output=True, text=True, check=False).stdout
            left += re.findall(r"(?:^|[,|]) *([a-z0-9.+-]+)", said)
    return found


def compare_libraries(tally: Tally) -> None:
    """Compares what the recipes of libraries print."""
    run = lambda recipe, it: subprocess.run([sys.executable, "-c", recipe, str(it)], cwd=PYTHON, capture_output=True, text=True, check=False)
    done = run(STARTS, ROOTED)
    if done.stdout != NOT_STARTED:
        tally.differ(str(ROOTED), "what would not start", done.stdout or done.stderr[-200:], NOT_STARTED)
    if shutil.which("dpkg-query"):
        done = run(NEEDS, PACKAGE)
        ours, theirs = set(re.findall(rf"^{PACKAGE} needs ([^:\n]*)", done.stdout, re.M)), needed_packages(PACKAGE)
        if "libc6" not in ours or not ours <= theirs:
            tally.differ(PACKAGE, "needed packages", sorted(ours - theirs) or done.stderr[-200:], sorted(theirs))


if __name__ == "__main__":
    given, tally = parser_of(__doc__, "elfrecipes", *PICKED, files="*").parse_args(), Tally("elfrecipes", "files", "addresses")
    is_built = (PYTHON / "xmas_elf/libxmas_elf.so").exists()
    if not is_built:
        print("recipes: the package for Python is not built: its recipe is not run")
    else:
        compare_libraries(tally)
    with tempfile.TemporaryDirectory() as room:
        for name in ("near.c", "main.c"):
            shutil.copy(ROOT / "tools/compare/sources" / name, room)
        made = []
        for name, arguments in TABLE["made"].items():
            done = subprocess.run(["gcc", "-O1", *arguments.split(), "-o", name], cwd=room, capture_output=True, text=True)
            made += [f"{room}/{name}"] if done.returncode == 0 else []
            if done.returncode != 0:
                print(f"gcc makes no {name}: {done.stderr.strip().splitlines()[-1:]}")
        files = given.files or [*(str(ROOT / it) for it in TABLE["ours"]), *made, *(it for it in TABLE["system"] if Path(it).exists())]
        for path in files:
            compare(tally, given.elfrecipes, path)
            compare_pipes(tally, vars(given), path)
            if is_built:
                done = subprocess.run([sys.executable, "-c", LARGEST, path], cwd=PYTHON, capture_output=True, text=True)
                ours = [int(line.split()[0]) for line in done.stdout.splitlines()]
                if done.returncode or ours != largest(path):
                    tally.differ(path, "the largest functions", ours or done.stderr[-200:], largest(path))
    sys.exit(tally.ended() or int(not tally["files"]))
