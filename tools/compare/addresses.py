#!/usr/bin/env python3
"""Compare what elfaddr names at addresses with dladdr, and with the tools that name addresses.

    tools/compare/addresses.py [--libraries N] [--addresses N] [--each N] [--stripped N] [--changed N] [FILE..]

With dladdr (elfaddr --dladdr): the first N shared libraries of /usr/lib/x86_64-linux-gnu that can be loaded (60), at up to N addresses
of each: at and beside dynamic symbols, and anywhere in the segments. With each of TOOLS that is here: the files FILE, else 15 of the
system and of this repository, at N addresses of each (--each). Names are counted by cause (`cause_of`); those of WRONG are differences.
A copy without symbols must have the same lines by its debug file; it, and files of the system with debug files, are compared with the
tools at N addresses (--stripped). --changed N: N times another byte in what leads to a debug file (`compare_changed`).
"""
import bisect
import collections
import glob
import os
import random
import re
import shutil
import sys
import tempfile
from pathlib import Path
from typing import Callable

from comparing import (
    CONTROLS, INDIRECT, LOAD, LOCAL, ROOT, Symbol, Tally, build_ids, dynamic_symbols, llvm, nm, parser_of, parts, raw, read_elf, run,
    symbol_of)
from loading import named

DEBUG = "/usr/lib/debug"
# Types of symbols that name addresses: none, an object, a function, an indirect function. A section index from RESERVED on is none.
TYPES, RESERVED = (0, 1, 2, INDIRECT), 0xFF00


class Image:
    """What the comparison reads of a file of class 64 and little-endian: names of sections, loaded segments, and symbols."""

    def __init__(self, path: str) -> None:
        self.path, said = path, llvm(path, "-h", "-S", "-l")
        if read_elf(path)[4:6] != b"\x02\x01":
            raise ValueError("class or byte order")
        self.sections = {it["Name"]["Value"] for it in parts(said, "Sections", "Section")}
        loads = (it for it in parts(said, "ProgramHeaders", "ProgramHeader") if raw(it["Type"]) == LOAD)
        self.loads = [(it["VirtualAddress"], it["VirtualAddress"] + it["MemSize"]) for it in loads]

    def symbols(self, is_dynamic: bool) -> list[Symbol]:
        """The symbols with a name, in a section, of the types that name addresses."""
        own = () if is_dynamic else parts(llvm(self.path, "--symbols"), "Symbols", "Symbol")
        found = dynamic_symbols(self.path) if is_dynamic else [symbol_of(it, it["Name"]["Value"]) for it in own]
        is_label = lambda it: it.kind == 0 and it.binding == LOCAL and it.name.startswith(".L")
        return [it for it in found if it.name and it.kind in TYPES and 0 < it.section < RESERVED and not is_label(it)]

    def addresses(self, symbols: list[Symbol], count: int, seed: str) -> list[int]:
        """Addresses at and beside symbols, and in segments."""
        some, found = random.Random(seed), set()
        for it in symbols:
            last = it.value + max(it.size, 1)
            found.update((it.value - 1, it.value, it.value + it.size // 2, last - 1, last, last + 1))
        listed = sorted(it for it in found if any(low <= it < high for low, high in self.loads))
        listed = some.sample(listed, min(len(listed), count * 3 // 4))
        while self.loads and len(listed) < count:
            low, high = some.choice(self.loads)
            listed.append(some.randrange(low, max(high, low + 1)))
        some.shuffle(listed)
        return listed


def lines_for(command: list[str], addresses: list[int], form: str = "{:x}\n") -> list[str]:
    """The lines that a program writes for addresses on its standard input."""
    return run(command, given="".join(form.format(it) for it in addresses).encode()).output.split("\n")[:-1]


def compare_dladdr(elfaddr: str, path: str, count: int, tally: Tally) -> None:
    try:
        image = Image(path)
    except ValueError:
        return
    addresses = image.addresses(image.symbols(True), count, path)
    said = named(path, addresses)
    if said is None:
        tally["libraries not loaded"] += 1
        return
    tally["libraries"] += 1
    found = lines_for([elfaddr, "--dladdr", path, "-"], addresses)
    if len(found) != len(addresses):
        tally.fault(f"{path}: elfaddr writes {len(found)} lines for {len(addresses)} addresses")
        return
    for address, one, other in zip(addresses, found, said):
        if other == "outside":
            tally["outside"] += 1
            continue
        tally["addresses"] += 1
        tally["named"] += other != "none"
        if not (one == "?" or one.rpartition("+")[0] in image.sections if other == "none" else one == other.translate(CONTROLS)):
            tally.fault(f"{path}: {address:x}: elfaddr {one}, dladdr {other}")


def by_gdb(path: str, addresses: list[int], folder: str = DEBUG) -> list[str]:
    with tempfile.NamedTemporaryFile("w", suffix=".gdb") as script:
        script.writelines(f"info symbol 0x{it:x}\n" for it in addresses)
        script.flush()
        said = run(["gdb", "-nx", "-q", "-batch", "-iex", "set debuginfod enabled off", "-iex", f"set debug-file-directory {folder}", "-iex", "set print demangle off",
            "-iex", "set print asm-demangle off", "-ex", f"source {script.name}", path])
    lines = (said.output + said.errors).split("\n")
    kept = [it for it in lines if " in section " in it or it.startswith("No symbol matches")]
    return ["" if it.startswith("No symbol") else re.split(r" \+ \d+ in section | in section ", it)[0] for it in kept]


def by_nm(path: str, addresses: list[int]) -> list[str]:
    """The last symbol of `nm -n` up to the address."""
    # Of one value they stay in the order of their names, as by `nm -n`.
    rows = sorted(((value, name) for value, _, letter, name in nm(path) if letter not in "aANU"), key=lambda row: row[0])
    places = [bisect.bisect_right(rows, it, key=lambda row: row[0]) - 1 for it in addresses]
    return [rows[place][1] if place >= 0 else "" for place in places]


def by_lines(*command: str) -> Callable[[str, list[int]], list[str]]:
    """A tool that writes two lines for each address: a name with an offset where there is one, and the source."""

    def ask(path: str, addresses: list[int]) -> list[str]:
        names = [it for it in lines_for([*command, path], addresses, "0x{:x}\n") if it][::2]
        return ["" if it == "??" or it[0] == "(" else re.sub(r"\+0x[0-9a-f]+$", "", it) for it in names]

    return ask


TOOLS = {
    "eu-addr2line": by_lines("eu-addr2line", "-S", "-e"), "gdb": by_gdb,
    "llvm-symbolizer": by_lines("llvm-symbolizer", "--functions=linkage", "--no-demangle", "--no-inlines", "--output-style=GNU", "-e"),
    "nm": by_nm, "addr2line": by_lines("addr2line", "-f", "-e")}


def covering(symbols: list[Symbol], name: str, address: int) -> Symbol | None:
    """The innermost symbol of a name that covers an address."""
    found = [it for it in symbols if it.name == name and it.value <= address < it.value + max(it.size, 1)]
    return max(found, key=innermost, default=None)


def cause_of(symbols: list[Symbol], own: str, other: str, address: int) -> str:
    """What another tool's name is beside that of elfaddr, which is empty where no symbol covers the address."""
    ours, theirs = covering(symbols, own, address), covering(symbols, other, address)
    if own and not ours:
        return "elfaddr uncovered"
    if own == other:
        return "same"
    if not theirs:
        return "uncovered" if other else "missed"
    if not ours:
        return "found"
    if (ours.value, ours.size) == (theirs.value, theirs.size):
        return "alias"
    return "outer" if innermost(theirs) < innermost(ours) else "further in"


def innermost(it: Symbol) -> tuple[bool, int, int]:
    return it.size > 0, it.value, -it.size


WRONG = ("found", "further in", "elfaddr uncovered")


def compare_others(elfaddr: list[str], path: str, image: Image, count: int, tables: dict[str, collections.Counter], tally: Tally) -> None:
    """Compares the names in a file with those of other tools, by the symbols of an image."""
    symbols, is_bare = image.symbols(False) or image.symbols(True), path != image.path
    # Addresses in code and data that the file has: tools don't agree on what isn't there.
    addresses = sorted(set(image.addresses(symbols, count, path)))
    by_name, found = collections.defaultdict(list), []
    for it in symbols:
        by_name[it.name].append(it)
    for line in lines_for([*elfaddr, path, "-"], addresses):
        name = line.rpartition("+")[0]
        found.append(name if name in by_name else "")
    tally["debug files beside tools" if is_bare else "files beside tools"] += 1
    tally["addresses by debug files beside tools" if is_bare else "addresses beside tools"] += len(addresses)
    for tool, ask in TOOLS.items():
        # nm reads no debug file.
        if not shutil.which(tool) or is_bare and tool == "nm":
            continue
        said = ask(path, addresses)
        if len(said) != len(addresses):
            tally[f"{tool} unread"] += 1
            print(f"{path}: {tool} writes {len(said)} names for {len(addresses)} addresses")
            continue
        for address, own, other in zip(addresses, found, said):
            # gdb and eu-addr2line print the version of a dynamic symbol too.
            other = other if other in by_name else other.partition("@")[0]
            cause = cause_of(by_name.get(own, []) + by_name.get(other, []), own, other, address)
            tables[tool + " by debug files" * is_bare][cause] += 1
            if cause in WRONG:
                tally.fault(f"{path}: {address:x}: {cause}: elfaddr {own or 'none'}, {tool} {other or 'none'}")


def separated(path: str, room: str) -> tuple[str, str]:
    """A copy of a file without its symbols, and its debug file."""
    bare, debug = f"{room}/bare", f"{room}/bare.debug"
    for command in (["--only-keep-debug", path, debug], ["--strip-all", f"--add-gnu-debuglink={debug}", path, bare]):
        run(["objcopy", *command])
    return bare, debug


def compare_debug_file(elfaddr: str, path: str, count: int, tables: dict[str, collections.Counter], tally: Tally) -> None:
    """Compares the lines for a file, and for a copy whose symbols are in a debug file, and these with other tools."""
    image = Image(path)
    symbols = image.symbols(False)
    if not symbols or not shutil.which("objcopy"):
        return
    addresses = image.addresses(symbols, count, path)
    with tempfile.TemporaryDirectory() as room:
        bare, debug = separated(path, room)
        whole, stripped = (lines_for([elfaddr, "--debug", room, it, "-"], addresses) for it in (path, bare))
        compare_others([elfaddr, "--debug", room], bare, Image(debug), count, tables, tally)
    for address, one, other in zip(addresses, whole, stripped, strict=True):
        if one != other:
            tally.fault(f"{path}: {address:x}: {one}, by its debug file {other}")


def by_build_id(path: str) -> str:
    """The debug file of a file of the system by its build id, if it is there."""
    places = (f"{DEBUG}/.build-id/{it[:2]}/{it[2:]}.debug" for it in build_ids(path))
    return next(filter(os.path.exists, places), "")


# What is changed of the link of a program and of the build ids of it and of its debug file.
CHANGED = (("bare", ".gnu_debuglink"), ("bare", ".note.gnu.build-id"), ("bare.debug", ".note.gnu.build-id"))


def compare_changed(elfaddr: str, count: int, tally: Tally) -> None:
    """Has elfaddr and gdb look for a debug file where a byte of the link, of its sum or of a build id is another: elfaddr takes none
    that gdb doesn't take."""
    with tempfile.TemporaryDirectory() as room:
        run(["gcc", "-O1", "-Wl,--build-id", str(ROOT / "tools/compare/sources/inner.c"), "-o", f"{room}/whole"])
        bare, debug = separated(f"{room}/whole", room)
        place, chance = next(value for value, *_, name in nm(f"{room}/whole") if name == "inner"), random.Random(count)
        kept, (own,) = {it: Path(it).read_bytes() for it in (bare, debug)}, build_ids(bare)
        by_id = Path(room, "debug/.build-id", own[:2], f"{own[2:]}.debug")
        by_id.parent.mkdir(parents=True)
        sections = {(name, section): re.search(rf"\] {section} +\w+ +[0-9a-f]+ ([0-9a-f]+) ([0-9a-f]+)", run(["readelf", "-SW", f"{room}/{name}"]).output)
                    for name, section in CHANGED}
        for _ in range(count):
            name, section = chance.choice(CHANGED)
            start, size = (int(it, 16) for it in sections[name, section].groups())
            changed = {path: bytearray(content) for path, content in kept.items()}
            changed[f"{room}/{name}"][chance.randrange(start, start + size)] = chance.randrange(256)
            for path, content in changed.items():
                Path(path).write_bytes(content)
            by_id.unlink(missing_ok=True)
            if chance.random() < 0.5:
                by_id.write_bytes(changed[debug])
            ours = lines_for([elfaddr, "--debug", f"{room}/debug", bare, "-"], [place])[:1] == ["inner+0x0"]
            theirs = by_gdb(bare, [place], f"{room}/debug") == ["inner"]
            tally["changed links and build ids"] += 1
            tally["debug files that both take"] += ours and theirs
            tally["debug files that gdb alone takes"] += theirs and not ours
            if ours and not theirs:
                tally.fault(f"a byte of {section} of {name}: elfaddr takes a debug file that gdb doesn't take")


if __name__ == "__main__":
    given = parser_of(__doc__, "elfaddr", files="*", libraries=60, addresses=20000, each=3000, stripped=8000, changed=300).parse_args()
    tally, tables = Tally("elfaddr", "libraries"), collections.defaultdict(collections.Counter)
    libraries = sorted({os.path.realpath(it) for it in glob.glob("/usr/lib/x86_64-linux-gnu/*.so.*")}, key=lambda it: (-os.path.getsize(it), it))
    for path in libraries:
        if tally["libraries"] < given.libraries:
            compare_dladdr(given.elfaddr, path, given.addresses, tally)
    built = sorted(str(it) for it in ROOT.glob("crates/elf*/out/elf*") if it.is_file() and os.access(it, os.X_OK) and read_elf(str(it)))
    for path in given.files or [*built[:5], *libraries[5:100:10]]:
        compare_others([given.elfaddr, "--no-debug"], path, Image(path), given.each, tables, tally)
        compare_debug_file(given.elfaddr, path, given.stripped, tables, tally)
    for path, debug in ((path, by_build_id(path)) for path in libraries if not given.files):
        if debug:
            compare_others([given.elfaddr], path, Image(debug), given.stripped, tables, tally)
    compare_changed(given.elfaddr, given.changed, tally)
    for tool, table in tables.items():
        print(f"{tool}: " + ", ".join(f"{table[it]} {it}" for it in ("same", "alias", "outer", "uncovered", "missed", *WRONG) if table[it]))
    sys.exit(tally.ended())
