#!/usr/bin/env python3
"""speed.py LIBRARY: microseconds of processor time for an item beside pyelftools, the least of several rounds.

Symbols and relocations are those of the library, names and values read; shared objects needed are those of the first
programs of /usr/bin, the file's opening included."""
import pathlib
import sys
import time

from elftools.elf.dynamic import DynamicSection
from elftools.elf.elffile import ELFFile
from elftools.elf.relocation import RelocationSection
from elftools.elf.sections import SymbolTableSection

from xmas_elf import ElfError, ElfFile

RELOCATIONS = 20_000


def takes(call, argument):
    """Seconds for an item, and how many items there are."""
    start = time.process_time()
    count = call(argument)
    return (time.process_time() - start) / max(count, 1), count


def rounds(ours, theirs, argument):
    """The least of each, of rounds that take turns, so that other work on the machine slows both."""
    our_rounds = [takes(ours, argument) for _ in range(4)]
    their_rounds = []
    for _ in range(4):
        their_rounds.append(takes(theirs, argument))
        our_rounds += [takes(ours, argument) for _ in range(4)]
    (our_time, count), (their_time, their_count) = min(our_rounds), min(their_rounds)
    assert count == their_count
    return our_time * 1e6, their_time * 1e6, count


def our_symbols(path):
    return sum(1 for symbol in ElfFile.load_from_path(path).symbols() if symbol.name is not None and symbol.value >= 0)


def their_symbols(path):
    with open(path, "rb") as stream:
        tables = [it for it in ELFFile(stream).iter_sections() if isinstance(it, SymbolTableSection)]
        return sum(1 for table in tables for symbol in table.iter_symbols() if symbol.name is not None and symbol["st_value"] >= 0)


def first(items):
    return sum(1 for _ in zip(range(RELOCATIONS), items))


def our_relocations(path):
    return first(it.addend for it in ElfFile.load_from_path(path).relocations())


def their_relocations(path):
    with open(path, "rb") as stream:
        tables = [it for it in ELFFile(stream).iter_sections() if isinstance(it, RelocationSection)]
        return first(it["r_addend"] for table in tables for it in table.iter_relocations())


def programs():
    found = []
    for path in sorted(pathlib.Path("/usr/bin").iterdir()):
        if path.is_file() and not path.is_symlink() and path.open("rb").read(4) == b"\x7fELF":
            found.append(path)
    return found[:100]


def our_needed(paths):
    for path in paths:
        try:
            ElfFile.load_from_path(path).needed
        except ElfError:
            pass
    return len(paths)


def their_needed(paths):
    for path in paths:
        with open(path, "rb") as stream:
            tables = [it for it in ELFFile(stream).iter_sections() if isinstance(it, DynamicSection)]
            [tag.needed for table in tables for tag in table.iter_tags("DT_NEEDED")]
    return len(paths)


def row(what, ours, theirs, argument):
    our_time, their_time, count = rounds(ours, theirs, argument)
    print(f"| {what} | {count:,} | {our_time:.2f} | {their_time:.1f} | {their_time / our_time:.0f} |")


def main():
    print("| Item | Items | xmas_elf | pyelftools | times |\n|---|---:|---:|---:|---:|")
    row("a symbol with its name", our_symbols, their_symbols, sys.argv[1])
    row("a relocation", our_relocations, their_relocations, sys.argv[1])
    row("a program's needed shared objects", our_needed, their_needed, programs())


main()
