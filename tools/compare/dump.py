#!/usr/bin/env python3
"""Compares what dump.cpp, dump.rs, find.c and dynamic.c of the bindings print of files with what nm and readelf print.

    tools/compare/dump.py [FILE..]

Takes FILE, else 300 files spread over the small ones of the system, and of each a copy without section headers. A file without
sections, of debugging data alone, or with a dynamic segment without symbols, is passed over. XMAS_ELF_ARCHIVE: another archive.
"""
import concurrent.futures
import functools
import itertools
import os
import re
import subprocess
import sys
import tempfile
from collections import Counter
from pathlib import Path

from comparing import (
    ABOUT, ROOT, Tally, build_ids, dynamic_symbols, files_of, llvm, parser_of, parts, raw, read_elf, relocation_tables, run, spread,
    stripped, texts_of)

FILES, LARGEST = 300, 400_000


def built(room):
    """The programs in C++ and Rust, and those in C."""
    archive = os.environ.get("XMAS_ELF_ARCHIVE", str(ROOT / "crates/elf_c/out"))
    if not os.path.exists(f"{archive}/libelf_c.a"):
        sys.exit(f"no libelf_c.a in {archive}: run `rt lib` in crates/elf_c")
    flags = ["-O2", "-Ibindings/include", f"{archive}/libelf_c.a", "-o"]
    for command in (
            ["g++", "bindings/cpp/dump.cpp", *flags, f"{room}/dump"],
            *(["gcc", f"bindings/c/{it}.c", *flags, f"{room}/{it}"] for it in ("find", "dynamic")),
            ["cargo", "build", "--quiet", "--offline", "--release", "--manifest-path", "bindings/rust/Cargo.toml", "--example", "dump"]):
        subprocess.run(command, cwd=ROOT, env={**os.environ, "XMAS_ELF_ARCHIVE": archive, "CARGO_TARGET_DIR": room}, check=True)
    return [f"{room}/dump", f"{room}/release/examples/dump"], f"{room}/find", f"{room}/dynamic"


# The lines of the dynamic entries and of relocations.
TABLES = ("entry ", "relocation ", "address ")


def relocations(path, lines, *options):
    """The lines of the relocations, by sections or by the dynamic segment (-D), beside our lines."""
    found, ours = [], [it for it in lines if it.startswith(("relocation ", "address "))]
    for table in relocation_tables(path, *options):
        found += [f"address {it:x}" for it in table.packed]
        for it in table.rows:
            said = f"relocation {it.offset:x} {it.info:x}"
            if it.addend is not None:
                said += f" {it.addend % 16**it.digits:x}"
            elif table.has_addends:
                # Of a symbol that it doesn't find readelf shows no addend: that of our line.
                said += "".join(it.removeprefix(said) for it in ours[len(found) : len(found) + 1])
            found.append(said)
    return found


def entries(path, lines):
    """The lines of the dynamic entries. Where readelf shows a text or flags, the number is that of our line."""
    said = re.findall(r"^ 0x([0-9a-f]+) \(\w+\) +(.*)$", run(["readelf", "-dW", "--", path]).output, re.M)
    number = lambda shown, ours: int(re.match(r"0x[0-9a-f]+|\d+", shown)[0], 0) if re.fullmatch(r"0x[0-9a-f]+|\d+( \(bytes\))?", shown) else ours
    values = [int(it.split()[2], 16) for it in lines if it.startswith("entry ")]
    return [f"entry {int(tag, 16):x} {number(shown, ours) or 0:x}" for (tag, shown), ours in itertools.zip_longest(said, values[: len(said)])]


class Wanted:
    """What nm and readelf say of a file."""

    def __init__(self, path):
        said, printed = llvm(path, "-SV"), run(["readelf", "-VW", "--", path]).output
        # The values of dynamic symbols, with their names and the names of their versions.
        rows = re.findall(r"^([0-9a-f]+| +) \S (.*)$", run(["nm", "-D", "--", path]).output, re.M)
        self.symbols = [(f"{int(value.strip() or '0', 16):016x}", name) for value, name in rows]
        # A number has its name in brackets, but for 1 with the mark of a hidden version.
        lines = re.findall(r"^  [0-9a-f]+:( +[0-9a-f]+(?:h| \().*)$", printed, re.M)
        self.numbers = [f"{int(number, 16)}{mark.strip()}" for line in lines for number, mark in re.findall(r" ([0-9a-f]+)(h(?=[ (]|$)| (?=\())", line)]
        needs = [(need["FileName"], it) for need in parts(said, "VersionRequirements", "Dependency") for it in parts(need, "Entries", "Entry")]
        number = lambda it: f"{it['Index'] % 0x8000}{'h' if it['Index'] >= 0x8000 else ''} {it['Flags']['RawFlags']}"
        # In no order.
        self.lines = [
            *(f"{word} {it}" for word, tag in (("needed", "NEEDED"), ("soname", "SONAME")) for it in texts_of(path, tag)),
            *(f"run path {it}" for it in texts_of(path, "RUNPATH", "RPATH")[:1]),
            *(f"need {number(it)} {library} {it['Name']}" for library, it in needs),
            *(f"definition {number(it)} {it['Name']}" for it in parts(said, "VersionDefinitions", "Definition"))]
        packed = {it.section: len(it.packed) for it in relocation_tables(path)}
        count = lambda it: it["Size"] // it["EntrySize"] if raw(it["Type"]) in (4, 9) and it["EntrySize"] else packed.get(it["Name"]["Value"], 0)
        # A file of debugging data alone has not the bytes of its dynamic segment. Guile's objects have no symbols in theirs.
        self.is_bare = any(raw(it["Type"]) == 8 and it["Name"]["Value"] == ".dynamic" for it in parts(said, "Sections", "Section"))
        dynamic = run(["readelf", "-dW", "--", path]).output
        self.is_bare |= "Dynamic section at" in dynamic and "(SYMTAB)" not in dynamic
        self.sections = [f"section {it['Index']} {it['Name']['Value']} {it['Size']} {count(it)}" for it in parts(said, "Sections", "Section")]
        # What is asked for, and the value, the version and the index that are found.
        self.found, values = {}, {name: value for value, name in self.symbols}
        places = {(it.name, it.version): index for index, it in enumerate(dynamic_symbols(path))}
        for name in [name for value, name in self.symbols if "@" in name[1:] and int(value, 16)][:200]:
            at = name.index("@", 1)
            self.found[name.replace("@@", "@")] = values[name], name[at:], places.get((name[:at], name[at:].strip("@")))
            if "@@" in name:
                # A symbol without a version comes before that of the default version.
                first = name[:at] if int(values.get(name[:at], "0"), 16) else name
                self.found[name[:at]] = values[first], first[at:], places.get((name[:at], first[at:].strip("@")))

    def dynamic(self, printed):
        """The lines for the dynamic segment. By GNU's hash table alone no symbol after the last exported one is counted, and none
        of a file that exports none."""
        counted = sum(it.startswith("version ") for it in printed)
        versions = [f"version {index} {it}" for index, it in enumerate(self.numbers[:counted])]
        is_counted = lambda value: int(value, 16) or any(it.startswith("symbol ") for it in printed)
        return [*self.lines, *versions, *(f"symbol {value} {name}" for value, name in self.symbols if is_counted(value))]


def differing(tally, path, printed, wanted):
    tally["lines"] += len(wanted)
    without = lambda one, other: sorted((Counter(one) - Counter(other)).elements())
    for ours, theirs in itertools.zip_longest(without(printed, wanted), without(wanted, printed)):
        tally.differ(path, "line", ours, theirs)


def compare(programs, find, dynamic, path):
    tally, wanted, data = Tally("dump"), Wanted(path), read_elf(path)
    if wanted.is_bare or not wanted.sections:
        return tally
    has_segments = any(data[56:58] if data[4] == 2 else data[44:46])
    tally["files"] += 1
    with tempfile.TemporaryDirectory() as room:
        cut = Path(room, "cut")
        cut.write_bytes(stripped(data))
        # Without section headers a note is found that lies in a segment.
        ids = {it: [f"build id {id}" for id in build_ids(str(it))] for it in (path, cut)}
        for program, file in itertools.product(programs, (path, cut) if has_segments else (path,)):
            lines = tally.output(path, program, file, *(wanted.found if file == path else ())).split("\n")[:-1]
            found = [f"found {name} {value} {version}" for name, (value, version, _) in wanted.found.items()]
            named = [it for it in lines if not it.startswith(("section ", *TABLES))]
            tables = [it for it in lines if it.startswith(TABLES)]
            wanted_tables = entries(file, tables) + relocations(file, tables, *(() if file == path else ("-D",)))
            differing(tally, f"{path} by {program}", tables, wanted_tables)
            differing(tally, f"{path} by {program}", named, ids[file] + wanted.dynamic(named) + (found if file == path else []))
            if file == path:
                differing(tally, f"{path} by {program}", [it for it in lines if it.startswith("section ")], wanted.sections)
        for file in (path, cut) if has_segments else ():
            lines = tally.output(path, dynamic, file).split("\n")[:-1]
            wanted_of_c = [it for it in entries(file, lines) if it != "entry 0 0"] + relocations(file, lines, "-D")
            differing(tally, f"{path} by C", lines, wanted_of_c)
        for file in (path, cut):
            first, *lines = tally.output(path, find, file, *wanted.found).split("\n")[:-1]
            # A line has bytes at its end.
            found = [f"{name} {index} {value}" for name, (value, _, index) in wanted.found.items()]
            differing(tally, f"{path} by C", [first, *(" ".join(it.split()[:3]) for it in lines)], (ids[file] or ["build id none"]) + found)
    return tally


if __name__ == "__main__":
    given, total = parser_of(__doc__ + ABOUT, files="*").parse_args(), Tally("dump", "files", "lines")
    files = filter(read_elf, files_of(given.files)) if given.files else spread(FILES, LARGEST)
    with tempfile.TemporaryDirectory() as room, concurrent.futures.ThreadPoolExecutor(os.cpu_count()) as pool:
        for tally in pool.map(functools.partial(compare, *built(room)), files):
            total.update(tally)
    sys.exit(total.ended())
