#!/usr/bin/env python3
"""Compare the symbols that elfsym finds by name and version with those of dlsym and dlvsym.

    tools/compare/dlsym.py [--elfsym PATH] [--scope N] [--jobs N] [FILE..]

Takes the shared libraries FILE, else those of the system, N side by side (2), each loaded in a process of its own. Compared is for each
name without a version, with each of its versions, and with two of other names, whether it is found in the library itself, and where.
--scope N takes N programs, loaded as libraries, and compares in which file of each and its libraries a name is (elfsym --scope).
"""
import concurrent.futures
import functools
import glob
import os
import random
import sys
import tempfile
from pathlib import Path

from comparing import INDIRECT, THREAD, UNDEFINED, UNIQUE, Tally, asked_of, dynamic_symbols, parser_of, read_elf, spread
from damage import Damage
from loading import agrees, asked

# The entry DT_FLAGS_1, and its flag by which glibc doesn't load a program as a library.
FLAGS_1, PIE = 0x6FFFFFFB, 0x8000000


def queries_of(path: str, is_scope: bool) -> list[tuple[str, str]]:
    """What is asked about a file: each name, with a version or none."""
    versions: dict[str, dict[str, None]] = {}
    for it in filter(lambda it: it.name, dynamic_symbols(path)):
        of_name = versions.setdefault(it.name, {"": None})
        if it.version and (is_scope or it.section != UNDEFINED):
            of_name[it.version] = None
    listed = sorted({version for of_name in versions.values() for version in of_name})
    # The first two versions that a name with versions doesn't have.
    others = lambda of_name: [it for it in listed if it not in of_name][:2] if len(of_name) > 1 else []
    return [(name, version) for name, of_name in versions.items() for version in (*of_name, *others(of_name))]


def as_library(path: str, room: str) -> str:
    """A copy of a program that glibc loads as a library."""
    held = Damage(read_elf(path), random)
    for place, tag, value in held.dynamic():
        if tag == FLAGS_1:
            held.layout.put(held.data, place + 8, (0, "Q"), value & ~PIE)
    copy = Path(room, os.path.basename(path))
    copy.write_bytes(held.data)
    return str(copy)


@functools.lru_cache(maxsize=64)
def other_names(path: str) -> set[str]:
    """The names of symbols whose address isn't that in the file: of indirect functions, thread-local or unique."""
    return {it.name for it in dynamic_symbols(path) if it.kind in (INDIRECT, THREAD) or it.binding == UNIQUE}


def compare(elfsym: str, is_scope: bool, path: str) -> Tally:
    tally = Tally()
    with tempfile.TemporaryDirectory() as room:
        file = as_library(path, room) if is_scope else path
        queries = queries_of(file, is_scope)
        loaded = asked(file, queries)
        tally["files not loaded" if loaded is None else "files"] += 1
        if loaded is not None:
            texts = [f"{name}@{version}" if version else name for name, version in queries]
            lines = asked_of(elfsym, texts, *["--scope"] * is_scope, file).output.split("\n")[:-1]
            compare_lines(path, is_scope, queries, lines, loaded, tally)
    return tally


def compare_lines(path: str, is_scope: bool, queries: list[tuple[str, str]], lines: list[str], loaded: list[str], tally: Tally) -> None:
    if len(lines) != len(queries):
        tally.fault(f"{path}: {len(lines)} lines for {len(queries)} names")
    for (name, version), line, said in zip(queries, lines, loaded):
        kind = "names with a version" if version else "names"
        tally[kind] += 1
        tally[f"{kind} found"] += said != "none"
        place, _, found = said.rpartition(" ") if said != "none" else (said, "", "")
        # With a scope a line ends in the file that has the symbol.
        own, _, holds = line.rpartition(" ") if is_scope and not line.endswith(": none") else (line, "", found)
        if any(name in other_names(it) for it in (found, holds if is_scope else path) if it and os.path.exists(it)):
            tally["of indirect functions, thread-local or unique"] += 1
        elif not is_scope and own.endswith(": none") and place.startswith(("elsewhere", "nowhere")):
            tally[f"{kind} found in another library"] += 1
        elif not agrees(own, place, is_scope) or found and os.path.realpath(holds) != os.path.realpath(found):
            tally.fault(f"{path}: {name} {version}: elfsym {line}, {'dlvsym' if version else 'dlsym'} {said}")


if __name__ == "__main__":
    given, total = parser_of(__doc__, "elfsym", files="*", jobs=2, scope=0).parse_args(), Tally("", "files")
    libraries = sorted({os.path.realpath(path) for path in glob.glob("/usr/lib/x86_64-linux-gnu/*.so.*")})
    files = given.files or (map(str, spread(given.scope, 1 << 24)) if given.scope else filter(read_elf, libraries))
    with concurrent.futures.ThreadPoolExecutor(given.jobs) as pool:
        for tally in pool.map(functools.partial(compare, given.elfsym, bool(given.scope)), files):
            total.update(tally)
    sys.exit(total.ended())
