#!/usr/bin/env python3
"""How the time of each plural call of the package for Python, with the export below it, and of the other plural exports grows.

    bench/plural.py [SMALL LARGE]        prints the table: nanoseconds for each record of a call, over files (or lists) with SMALL and
                                         LARGE records, 2000 and 8000 where no numbers are given, and how many times as long a record
                                         takes in the large one
    bench/plural.py --write [--on MACHINE] [SMALL LARGE]
                                         puts it into docs/COSTS.md too, with the commit and the machine

The status is 1 if a record takes more than twice as long, or twice as long as it may: of the calls of SQUARE the time grows with the
square of the number of records, as their comments say. It needs the package that `tools/exports/python.sh --build` builds."""
import argparse
import ctypes
import functools
import pathlib
import platform
import re
import struct
import subprocess
import sys
import tempfile
import time
from array import array

HERE = pathlib.Path(__file__).resolve().parent
sys.path[:0] = [str(HERE.parent / folder) for folder in ("bindings/python", "tools/compare", "tools")]
import damage
import xmas_elf
from pages.sources import git
from xmas_elf import LoadObject, _declarations as declared
from xmas_elf._archive import check, library
from xmas_elf._search import MISSING, NEEDED, NOT_ASKED, Held

MOST = 2.0
PAGE = 4096
BYTE = struct.Struct("@B")
COSTS, FIRST, LAST = HERE.parent / "docs/COSTS.md", "<!-- plural -->\n", "<!-- /plural -->"
# The most segments of a plan, whose table has a page.
MOST_SEGMENTS = 72
PT_LOAD, PT_DYNAMIC = 1, 2
SHT_RELA, SHT_DYNAMIC, SHT_NOTE, SHT_RELR = 4, 6, 7, 19
TAGS = {"NEEDED": 1, "HASH": 4, "STRTAB": 5, "SYMTAB": 6, "RELA": 7, "RELASZ": 8, "RELAENT": 9, "STRSZ": 10, "SYMENT": 11, "RELRSZ": 35,
        "RELR": 36, "RELRENT": 37, "VERSYM": 0x6FFFFFF0, "VERDEF": 0x6FFFFFFC, "VERDEFNUM": 0x6FFFFFFD, "VERNEED": 0x6FFFFFFE, "VERNEEDNUM": 0x6FFFFFFF}
R_X86_64_GLOB_DAT, R_X86_64_RELATIVE = 6, 8
# The numbers of versions of symbols are below 64: those of other numbers are searched for.
VERSIONS = 32


def header(segments: int) -> bytes:
    ident = b"\x7fELF\x02\x01\x01" + bytes(9)
    return ident + struct.pack("<HHIQQQIHHHHHH", 3, 62, 1, 0, 64, 0, 0, 64, 56, segments, 64, 0, 0)


def segment(kind: int, start: int, size: int) -> bytes:
    return struct.pack("<IIQQQQQQ", kind, 6, start, start, start, size, size, PAGE if kind == PT_LOAD else 8)


def shared(count: int, letter: bytes = b"f") -> bytes:
    """A shared object without section headers, with so many needed libraries, symbols, versions of both kinds, relocations, and
    words of packed ones. The names of symbols and versions begin with a letter."""
    names = [b"lib.so", *(b"%s%d" % (letter, index) for index in range(count))]
    starts = [1]
    for name in names:
        starts.append(starts[-1] + len(name) + 1)
    texts = b"\0" + b"\0".join(names) + b"\0"
    symbols = bytes(24) + b"".join(struct.pack("<IBBHQQ", starts[1 + it], 0x12, 0, 1, 8 * it + 8, 8) for it in range(count))
    numbers = struct.pack(f"<{count + 1}H", 0, *(2 + it % VERSIONS for it in range(count)))
    last = lambda it, size: size if it < count - 1 else 0  # noqa: E731
    hashes = [damage.hash_number(it) for it in names]
    definitions = b"".join(struct.pack("<HHHHIIIII", 1, 0, 1 + it, 1, hashes[1 + it], 20, last(it, 28), starts[1 + it], 0) for it in range(count))
    needs = b"".join(struct.pack("<HHIIIIHHII", 1, 1, 1, 16, last(it, 32), hashes[1 + it], 0, count + 1 + it, starts[1 + it], 0) for it in range(count))
    tables = {"HASH": struct.pack(f"<{2 * count + 3}I", *damage.hash_words(names[1:], count)), "STRTAB": texts, "SYMTAB": symbols,
              "VERSYM": numbers, "VERDEF": definitions, "VERNEED": needs, "RELA": bytes(24 * count), "RELR": bytes(8 * count)}
    start, places = 64 + 2 * 56 + 16 * (count + len(TAGS)), {}
    entries = start - 16 * (count + len(TAGS))
    for name, table in tables.items():
        places[name] = start = -(-start // 8) * 8
        start += len(table)
    # Behind the tables are the words that relocations write.
    words = -(-start // 8) * 8
    kinds = (R_X86_64_RELATIVE, R_X86_64_GLOB_DAT)
    tables["RELA"] = b"".join(struct.pack("<QQq", words + 8 * it, (it + 1) * (it % 2) << 32 | kinds[it % 2], it) for it in range(count))
    tables["RELR"] = b"".join(struct.pack("<Q", words + 8 * (count + it)) for it in range(count))
    values = {**places, "RELASZ": 24 * count, "RELAENT": 24, "STRSZ": len(texts), "SYMENT": 24, "RELRSZ": 8 * count, "RELRENT": 8,
              "VERDEFNUM": count, "VERNEEDNUM": count}
    pairs = [(TAGS["NEEDED"], 1)] * count + [(TAGS[name], value) for name, value in values.items()] + [(0, 0)]
    data = bytearray(words + 16 * count)
    data[:176] = header(2) + segment(PT_LOAD, 0, len(data)) + segment(PT_DYNAMIC, entries, 16 * len(pairs))
    data[entries : entries + 16 * len(pairs)] = b"".join(struct.pack("<QQ", *it) for it in pairs)
    for name, table in tables.items():
        data[places[name] : places[name] + len(table)] = table
    return bytes(data)


def sectioned(count: int) -> bytes:
    """An object file with so many sections, each with a function."""
    with tempfile.TemporaryDirectory() as folder:
        path = pathlib.Path(folder, "sections.o")
        subprocess.run([HERE / "symbols.py", "each_section", str(count), path], check=True)
        return path.read_bytes()


def tables_of(count: int) -> bytes:
    """An object file with a section of so many relocations, one of packed ones, one of dynamic entries, and one of notes."""
    relocations = b"".join(struct.pack("<QQq", 8 * it, R_X86_64_RELATIVE, it) for it in range(count))
    packed = b"".join(struct.pack("<Q", 16 * it) for it in range(count))
    entries = struct.pack("<QQ", TAGS["STRSZ"], 1) * (count - 1) + bytes(16)
    notes = struct.pack("<III4s", 4, 0, 1, b"GNU\0") * count
    return damage.elf_file([(b".rela", SHT_RELA, relocations, 0, 24), (b".relr", SHT_RELR, packed, 0, 8), (b".dynamic", SHT_DYNAMIC, entries, 0, 16), (b".note", SHT_NOTE, notes, 0, 0)])


def mapped(count: int) -> bytes:
    """A file with load segments of a page each: as many of the most as the count is of 8000."""
    number = max(4, min(MOST_SEGMENTS, MOST_SEGMENTS * count // 8000))
    table = b"".join(segment(PT_LOAD, PAGE * (1 + it), PAGE) for it in range(number))
    return (header(number) + table).ljust(PAGE, b"\0") + bytes(PAGE * number)


def look_ups(file: xmas_elf.ElfFile) -> int:
    """Look-ups of all names, by a record of the hash table of the dynamic segment."""
    values = {it.tag: it.value for it in file.dynamic()}
    count = sum(1 for _ in file.dynamic_symbols())
    table = declared.HASH_TABLE.pack(values[TAGS["HASH"]], 4 * (2 * count + 1), values[TAGS["SYMTAB"]], 24 * count, values[TAGS["STRTAB"]],
                                     values[TAGS["STRSZ"]], count, 0, 2, 1, 5)
    names = [b"f%d" % it for it in range(count - 1)]
    starts = [0]
    for name in names:
        starts.append(starts[-1] + len(name))
    ranges = b"".join(declared.RANGE.pack(start, len(name)) for start, name in zip(starts, names))
    results, text = ctypes.create_string_buffer(declared.ANSWER.size * len(names)), b"".join(names)
    library.xmas_elf_look_ups(*file._input[:2], table, text, len(text), ranges, len(names), results, len(names))
    found = [declared.AnswerRecord._make(it) for it in declared.ANSWER.iter_unpack(results.raw)]
    assert all(it.found == 1 and it.index == index + 1 for index, it in enumerate(found))
    return len(names)


def check_words(file: xmas_elf.ElfFile) -> int:
    xmas_elf.check_image([LoadObject(file)], 0)
    return 2 * len(file.needed)


def write_words(file: xmas_elf.ElfFile) -> int:
    assert xmas_elf.relocate([LoadObject(file)], 0, file.load_image()) == 0
    return 2 * len(file.needed)


def write_all_words(file: xmas_elf.ElfFile) -> int:
    """Those of as many objects as there are hundreds of libraries that the file needs, up to the most of a call."""
    count = min(64, len(file.needed) // 100)
    assert xmas_elf.relocate_all([LoadObject(file)] * count).numberless == 0
    return 2 * len(file.needed) * count


def records_of(items) -> int:
    return sum(1 for _ in items)


# Each call of the package: the file that it reads, the exports that it times, and the number of its records.
CALLS = {
    "sections": (sectioned, "sections, section_names", lambda it: records_of(it.sections())),
    "symbols": (sectioned, "symbols, symbol_names", lambda it: records_of(it.symbols())),
    "symbols of addresses": (shared, "address_index, symbols_at", lambda it: records_of(it.symbols_at([symbol.value for symbol in it.dynamic_symbols()]))),
    "pieces": (sectioned, "pieces", lambda it: records_of(it.pieces())),
    "symbol pieces of all sections": (sectioned, "symbol_pieces", lambda it: sum(records_of(it.symbol_pieces(section)) for section in it.sections())),
    "changes of parts": (sectioned, "size_changes", lambda it: len(xmas_elf.size_diff(xmas_elf.ElfFile(sectioned(2)), it, symbols=True))),
    "relocations of a section": (tables_of, "relocations", lambda it: records_of(it.section(".rela").relocations())),
    "packed relocations of a section": (tables_of, "packed_relocations", lambda it: records_of(it.section(".relr").packed_relocations())),
    "dynamic entries of a section": (tables_of, "dynamics", lambda it: records_of(it.dynamic())),
    "notes, a call for each": (tables_of, "note", lambda it: records_of(it.notes())),
    "dynamic entries": (shared, "dynamic_entries", lambda it: records_of(it.dynamic())),
    "needed libraries": (shared, "dynamic_texts", lambda it: records_of(it.needed)),
    "relocations": (shared, "dynamic_relocations", lambda it: records_of(it.relocations())),
    "packed relocations": (shared, "dynamic_packed_relocations", lambda it: records_of(it.packed_relocations())),
    "symbols with their versions": (shared, "dynamic_symbol_versions", lambda it: records_of(it.versioned_symbols())),
    "versions that are defined": (shared, "version_definitions", lambda it: records_of(it.version_definitions())),
    "versions that are needed": (shared, "version_needs", lambda it: records_of(it.version_needs())),
    "look-ups": (shared, "look_ups", look_ups),
    "segments": (mapped, "segments", lambda it: records_of(it.segments())),
    "mappings": (mapped, "load_mappings", lambda it: records_of(it.load_plan().mappings())),
    "bytes of an image": (shared, "load_image", lambda it: len(it.load_image())),
    "words that are checked": (shared, "check_image", check_words),
    "words that are written": (shared, "relocate", write_words),
    "words of several objects": (shared, "relocate_all", write_all_words),
}


# The exports that no such call times: each is called with room for all that it writes.


def filled(export: str, layout: struct.Struct, room: int, *arguments) -> int:
    """Has an export write so many records, which are all."""
    out, count = ctypes.create_string_buffer(room * layout.size), ctypes.c_uint64()
    check(getattr(library, f"xmas_elf_{export}")(*arguments, 0, out, room, ctypes.byref(count)))
    assert count.value == room, f"{export}: {count.value} records, not {room}"
    return room


def naming(packed: bytes, held: Held) -> ctypes.Array:
    """Records, with what keeps the texts that they name."""
    records = ctypes.create_string_buffer(packed, len(packed))
    records.held = held
    return records


def needed_names(data: bytes):
    file = xmas_elf.ElfFile(data)
    room = len(file.needed)
    return lambda: filled("needed_names", declared.NEEDED_NAME, room, *file._input)


def missing_versions(data: bytes):
    """Those that a file needs of a library which defines as many others."""
    file = xmas_elf.ElfFile(data)
    count, name = len(file.needed), b"lib.so"
    other = xmas_elf.ElfFile(shared(count, b"g"))
    return lambda: filled("missing_versions", declared.LACKED_VERSION, count, *file._input, name, len(name), *other._input)


def folders_of(count: int) -> list:
    return [b"/d%d" % it for it in range(count)]


def searched(folders: list) -> tuple:
    """The records of a search for a name in the folders of LD_LIBRARY_PATH alone."""
    held, texts = Held(), (b"lib.so", b":".join(folders), b"", b"", b"")
    none = held.text(b"")
    search = declared.SEARCH_FOR.pack(*(part for it in texts for part in held.text(it)), *held.texts([b""]), *3 * none)
    return naming(search, held), declared.SEARCH_ASKER.pack(*5 * none, 0, 0), 1


def candidates(folders: list):
    asked = searched(folders)
    return lambda: filled("candidates", declared.CANDIDATE_PATH, len(folders), *asked)


def candidate_paths(folders: list):
    asked, size = searched(folders), sum(len(it + b"/lib.so") + 1 for it in folders)
    return lambda: filled("candidate_paths", BYTE, size, *asked) and len(folders)


def dependencies(found: list) -> tuple:
    """The records of objects by what their entries found, and room for words and edges."""
    held, words, edges = Held(), 4 * len(found), sum(map(len, found))
    kinds = [array("I", [NEEDED] * len(it)) for it in found]
    packed = b"".join(declared.DEPENDENCIES.pack(held.text(it)[0], len(it), held.text(kind)[0], len(it)) for it, kind in zip(found, kinds))
    return naming(packed, held), len(found), (ctypes.c_uint32 * words)(), words, (ctypes.c_uint32 * edges)(), edges


def next_entries(count: int):
    """Asks for each entry of a program, none of which finds a library."""
    found = array("I", [NOT_ASKED] * count)
    asked = dependencies([found])
    out = ctypes.create_string_buffer(declared.OBJECT_ENTRY.size)

    def ask() -> int:
        for entry in range(count):
            check(library.xmas_elf_next_entry(*asked, out))
            assert declared.OBJECT_ENTRY.unpack(out) == (0, entry)
            found[entry] = MISSING
        return count
    return ask


def start_order(count: int):
    """Of a program that needs all libraries, each of which needs the next."""
    found = [array("I", range(1, count)), *(array("I", [it + 1] if it + 1 < count else []) for it in range(1, count))]
    asked = dependencies(found)
    listed, starts, number = (ctypes.c_uint32 * count)(), (ctypes.c_uint32 * (3 * count))(), ctypes.c_uint64()

    def ask() -> int:
        check(library.xmas_elf_start_order(*asked, listed, count, starts, 3 * count, ctypes.byref(number)))
        assert number.value == count - 1
        return count
    return ask


def expand(count: int):
    held, text = Held(), b"$LIB/" * count
    tokens = declared.TOKENS.pack(*(part for it in (b"/bin", b"lib64", b"x86_64") for part in held.text(it)))
    asked = text, len(text), naming(tokens, held)
    return lambda: filled("expand", BYTE, count * len(b"lib64/"), *asked) and count


def cache_of(count: int) -> bytes:
    """A cache with so many libraries (glibc, dl-cache.h), whose keys fall."""
    keys = [b"f%d" % it for it in reversed(range(count))]
    texts = b"".join(it + b"\0/lib/" + it + b"\0" for it in keys)
    place, entries = 48 + 24 * count, b""
    for key in keys:
        entries += struct.pack("<iIIIQ", 0x303, place, place + len(key) + 1, 0, 0)
        place += 2 * len(key) + len(b"\0/lib/\0")
    return struct.pack("<20sIIB3xI12x", b"glibc-ld.so.cache1.1", count, len(texts), 2, 0) + entries + texts


def cached_paths(cache: bytes):
    """The path of each library, by a call for each."""
    count = struct.unpack_from("<I", cache, 20)[0]
    machine = declared.CACHE_MACHINE.pack(0, 0, 0, 0, 0x303, 0x303, 1)
    asked = [(b"f%d" % it, len(b"/lib/f%d" % it)) for it in range(count)]

    def ask() -> int:
        for name, size in asked:
            filled("cache_path", BYTE, size, cache, len(cache), name, len(name), machine)
        return count
    return ask


# Each export: what it reads, its name, and what makes a call of it, which returns the number of its records.
ALONE = {
    "names that are needed": (shared, "needed_names", needed_names),
    "versions that are missing": (shared, "missing_versions", missing_versions),
    "candidates": (folders_of, "candidates", candidates),
    "paths of candidates": (folders_of, "candidate_paths", candidate_paths),
    "entries, a call for each": (int, "next_entry", next_entries),
    "objects that start": (int, "start_order", start_order),
    "tokens": (int, "expand", expand),
    "names in a cache, a call for each": (cache_of, "cache_path", cached_paths),
}
# Of these the time grows with the square of the number of records.
SQUARE = {"versions that are missing", "candidates", "paths of candidates", "entries, a call for each"}


def of_file(call):
    """What makes a call of the package, over a file that is read anew."""
    return lambda data: functools.partial(call, xmas_elf.ElfFile(data))


def time_each(prepare, made) -> float:
    """The nanoseconds of processor time for each record of a call that is prepared anew: the least of five."""
    def once() -> float:
        call = prepare(made)
        start = time.process_time_ns()
        records = call()
        return (time.process_time_ns() - start) / max(1, records)
    return min(once() for _ in range(5))


def shown(number: float) -> str:
    return f"{number:,.0f}" if number >= 100 else f"{number:.2f}"


def measured(sizes: list) -> tuple:
    """The lines of the table, and the calls whose records take too long in the large file."""
    rows = {name: (make, exports, of_file(call)) for name, (make, exports, call) in CALLS.items()} | ALONE
    files = {make: [make(size) for size in sizes] for make in dict.fromkeys(make for make, _, _ in rows.values())}
    lines, grown = [f"|Call|Exports (`xmas_elf_`)|ns a record, {sizes[0]:,}|{sizes[1]:,}|Growth|", "|---|---|---:|---:|---:|"], []
    for name, (make, exports, prepare) in rows.items():
        first, last = (time_each(prepare, made) for made in files[make])
        lines.append(f"|{name}|{', '.join(f'`{it}`' for it in exports.split(', '))}|{shown(first)}|{shown(last)}|{last / first:.2f}|")
        grown += [name] if last > MOST * first * (sizes[1] / sizes[0] if name in SQUARE else 1) else []
    return lines, grown


def machine() -> str:
    model = re.search(r"model name\s*: (.*)", pathlib.Path("/proc/cpuinfo").read_text(encoding="utf-8"))
    return model[1] if model else platform.machine()


def put(lines: list, on: str) -> None:
    """Puts the table into the page."""
    text, commit = COSTS.read_text(encoding="utf-8"), git("rev-parse", "--short=8", "HEAD").strip()
    front, _, rest = text.partition(FIRST)
    said = f"Measured at {commit} by `bench/plural.py` on {on}."
    COSTS.write_text("\n".join([front + FIRST + said, "", *lines, LAST]) + rest.partition(LAST)[2], encoding="utf-8")


def main() -> int:
    parser = argparse.ArgumentParser(description=__doc__, formatter_class=argparse.RawDescriptionHelpFormatter)
    parser.add_argument("--write", action="store_true")
    parser.add_argument("--on", metavar="MACHINE", default=machine())
    parser.add_argument("sizes", nargs="*", type=int, metavar="SIZE")
    given = parser.parse_args()
    if len(given.sizes) not in (0, 2):
        parser.error("give two sizes, or none")
    lines, grown = measured(given.sizes or [2000, 8000])
    print("\n".join(lines))
    if given.write:
        put(lines, given.on)
    if grown:
        print("grows:", ", ".join(grown), file=sys.stderr)
    return int(bool(grown))


if __name__ == "__main__":
    sys.exit(main())
