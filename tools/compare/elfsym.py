#!/usr/bin/env python3
"""Compare what elfsym finds by the dynamic segment with the symbols that readelf lists.

    tools/compare/elfsym.py [--elfsym PATH] FILE..

It is asked for each name that `llvm-readelf --dyn-syms` lists, and for NAME@VERSION of each version listed with it, in a file and in
its copy without section headers. `wanted_of` says which symbols are right. `elfsym --needed` must print what `readelf -dW` lists as
needed. A FILE without dynamic symbols is passed over.
"""
import functools
import sys
import tempfile
from collections import defaultdict
from pathlib import Path

from comparing import (
    ABSOLUTE, LOCAL, THREAD, UNDEFINED, Symbol, Tally, asked_of, compare_all, dynamic_symbols, read_elf, run, stripped, texts_of)

# The types that a dynamic linker takes: none, an object, a function, a common block, thread-local, an indirect function.
TYPES = {0, 1, 2, 5, 6, 10}


class Listing:
    """What readelf lists: the versions of each name, the symbols that count of each, and what is needed."""

    def __init__(self, path: str) -> None:
        self.names, self.symbols, self.needed = defaultdict(set), defaultdict(list), texts_of(path, "NEEDED")
        for it in filter(lambda it: it.name, dynamic_symbols(path)):
            self.names[it.name] |= {it.version, ""}
            has_place = it.value or it.section == ABSOLUTE or (it.kind == THREAD and it.section != UNDEFINED)
            if it.kind in TYPES and has_place and it.binding != LOCAL:
                self.symbols[it.name].append(it)


def wanted_of(symbols: list[Symbol], version: str) -> set[tuple[int, int]]:
    """The values and sizes that are right for a name with these symbols, asked with a version or without one."""
    plain = {(it.value, it.size) for it in symbols if not it.version}
    if version:
        return plain | {(it.value, it.size) for it in symbols if it.version == version}
    defaults = [(it.value, it.size) for it in symbols if it.is_shown]
    return plain or set(defaults if len(defaults) == 1 else [])


def compare_file(path: str, file: str, elfsym: str, reads: Listing, tally: Tally) -> None:
    """Compares all that elfsym says of a file, which may be a copy, with what readelf lists."""
    tally["files"] += 1
    names = [f"{name}@{it}" if it else name for name in sorted(reads.names) for it in sorted(reads.names[name])]
    status, own, said = asked_of(elfsym, names, file)
    lines = own.split("\n")[:-1]
    if status != 0 or len(lines) != len(names):
        tally.differ(path, "names", f"status {status}: {said.strip()}", f"{len(names)} names")
    for reference, line in zip(names, lines):
        name, _, version = reference.partition("@")
        symbols = reads.symbols.get(name, [])
        wanted = wanted_of(symbols, version)
        tally["names without a symbol" if not wanted else "names with a version that has a symbol" if version else "names with a symbol"] += 1
        tally["of them with several values"] += bool(wanted) and not version and len({(it.value, it.size) for it in symbols}) > 1
        if line not in ({f"{reference} {value:#x} {size:#x}" for value, size in wanted} or {f"{reference}: none"}):
            tally.differ(path, reference, line, sorted(wanted) or "none")
    status, own, said = run([elfsym, "--needed", file])
    needed = own.split("\n")[:-1]
    tally["needed libraries"] += len(needed)
    if status != 0 or needed != reads.needed:
        tally.differ(path, "needed", f"{needed} {said.strip()}", reads.needed)


def compare(copy: Path, path: str, elfsym: str, tally: Tally) -> None:
    """Compares a file with dynamic symbols, and a copy of it without section headers."""
    reads = Listing(path)
    if not reads.names:
        return
    compare_file(path, path, elfsym, reads, tally)
    copy.write_bytes(stripped(read_elf(path)))
    tally["copies without section headers"] += 1
    compare_file(f"{path}, stripped", str(copy), elfsym, reads, tally)


if __name__ == "__main__":
    counted = ("files", "copies without section headers", "names with a symbol", "of them with several values",
        "names with a version that has a symbol", "names without a symbol", "needed libraries")
    with tempfile.TemporaryDirectory() as folder:
        sys.exit(compare_all(__doc__, Tally("elfsym", *counted), functools.partial(compare, Path(folder, "copy")), "elfsym"))
