#!/usr/bin/env python3
"""Compare elfbind and elfsym with the system's dynamic linker over small objects whose bytes were changed.

    tools/compare/fuzz_bindings.py [--elfbind PATH] [--elfsym PATH] [--seed N] [--count N]

docs/TESTS.md ("With changed bytes") says what is changed at random from the seed, and what isn't compared: bindings of N copies of a
program or of one of its libraries of each class, as far as the linker gets, and names in N copies of a library.
"""
import random
import struct
import subprocess
import sys
import tempfile
from collections import namedtuple
from pathlib import Path
from typing import Callable, Iterable

from bindings import BINDINGS, Program, read_elfbind, read_linker
from comparing import INDIRECT, LOAD, ROOT, THREAD, UNIQUE, Tally, parser_of, run
from damage import Headers
from loading import agrees, asked

DATA = ROOT / "crates"
SCOPE = ("caller", "libfirst.so", "libsecond.so")
KEPT = {True: SCOPE, False: ("caller_32", "libfirst_32.so", "libsecond_32.so")}
FIRST = DATA / "elfbind/data/libfirst.so"
LINKERS = {True: "/lib64/ld-linux-x86-64.so.2", False: "/lib/ld-linux.so.2"}

# What is compiled of tools/compare/sources, as for `worked_files::linked::versions`, whose pages are too small for a linker: a library,
# and one that it needs.
COMPILED = (("libw", ()), ("libv", ("libw.so",)))

# The flag DF_SYMBOLIC of the entry DT_FLAGS.
FLAGS, SYMBOLIC = 30, 2
# Tags of versions, and one that the linker doesn't read.
VERSYM, VERDEF, VERDEFNUM, VERNEED, VERNEEDNUM, UNREAD = 0x6FFFFFF0, 0x6FFFFFFC, 0x6FFFFFFD, 0x6FFFFFFE, 0x6FFFFFFF, 0x6FFFFEF0

# A number at a place of a file, its size in bytes, and what it becomes.
Change = namedtuple("Change", "what place size number")


class Object(Headers):
    """The dynamic parts of a little-endian file of either class, by their places."""

    def __init__(self, content: bytes) -> None:
        super().__init__(content)
        self.width = 8 if self.layout.wide else 4
        self.loads = [it for it in self.program_headers() if it.type == LOAD]
        entries = self.dynamic()
        end = next((index for index, (_, tag, _) in enumerate(entries) if tag == 0), len(entries))
        # The number of the last entry of each tag, and its place.
        self.entries = {tag: (number, place + self.width) for place, tag, number in entries[:end]}
        # GNU ld leaves room for entries behind those of a file.
        spare = [place for place, *numbers in entries[end : end + 2] if numbers == [0, 0]]
        self.spare = spare[0] if len(spare) == 2 else 0
        self.strings, self.symbols = self.offset(5), self.offset(6)
        # GNU ld puts the strings behind the symbols.
        self.count = (self.strings - self.symbols) // self.layout.symbol_size

    def number(self, place: int, form: str = "I") -> int:
        return self.layout.get(self.content, place, (0, form))

    def offset(self, tag: int) -> int:
        """The offset in the file of the address that an entry has, or 0."""
        address = self.entries.get(tag, (0, 0))[0]
        return next((it.offset + address - it.vaddr for it in self.loads if it.vaddr <= address < it.vaddr + it.filesz), 0)

    def text(self, name: int) -> str:
        place = self.strings + name
        return self.content[place : self.content.index(b"\0", place)].decode("latin-1")

    def symbol(self, index: int) -> tuple[str, int, int, int, int]:
        """The name, the information, the visibility, the section index and the value of a symbol."""
        place, fields = self.symbols + self.layout.symbol_size * index, ("name", "info", "other", "section", "value")
        name, *numbers = (self.layout.get(self.content, place, self.layout.of_symbol[it]) for it in fields)
        return self.text(name), *numbers

    def names_with(self, test: Callable[[int], bool]) -> set[str]:
        """The names of the symbols whose information passes a test."""
        return {name for name, info, *_ in map(self.symbol, range(self.count)) if test(info)}

    def chain(self, place: int, step: int, most: int = 1 << 16) -> list[int]:
        """The places of records from one on, of which each has at a place the offset of the next."""
        found = [place] if place else []
        while found and len(found) < most and (offset := self.number(found[-1] + step)):
            found.append(found[-1] + offset)
        return found

    def definitions(self) -> list[tuple[int, int]]:
        """The places of the definitions of versions, and of the first name of each."""
        return [(it, it + self.number(it + 12)) for it in self.chain(self.offset(VERDEF), 16)]

    def needs(self) -> list[int]:
        """The places of the parts of the needs of versions."""
        return [part for it in self.needed_files() for part in self.chain(it + self.number(it + 8), 12)]

    def needed_files(self) -> list[int]:
        """The places of the needs of versions, of which each names a file."""
        return self.chain(self.offset(VERNEED), 12)

    def numbers(self) -> tuple[set[int], set[int]]:
        """The numbers of versions that symbols have, and those that definitions and needs have, their low 15 bits."""
        table = self.offset(VERSYM)
        used = {self.number(table + 2 * i, "H") & 0x7FFF for i in range(self.count)} if table else set()
        places = [place + 4 for place, _ in self.definitions()] + [place + 6 for place in self.needs()]
        return used, {self.number(place, "H") & 0x7FFF for place in places}

    def has_room(self) -> bool:
        """Whether the linker's own table of versions, which has a place for each number, has all versions of the file: no two
        definitions or needs have one number, only the base has number 1, and no symbol has a greater number than all of them."""
        used, known = self.numbers()
        places = [place + 4 for place, _ in self.definitions() if not self.number(place + 2, "H") & 1] + [place + 6 for place in self.needs()]
        numbers = [self.number(place, "H") & 0x7FFF for place in places]
        # Without definitions and needs it has no versions.
        return not known or len(set(numbers)) == len(numbers) and min(numbers, default=2) >= 2 and max(used, default=0) <= max(known)


def change_of_symbol(held: Object, chance: random.Random, kinds: list[int]) -> Change:
    index = chance.randrange(1, held.count)
    name, info, other, _, value = held.symbol(index)
    what = chance.choice(("type", "binding", "visibility", "section", "value"))
    field, number = {
        "type": lambda: ("info", info // 16 * 16 + chance.choice(kinds)),
        "binding": lambda: ("info", chance.choice((0, 1, 2, 3, 10, 13)) * 16 + info % 16),
        "visibility": lambda: ("other", other // 4 * 4 + chance.randrange(4)),
        "section": lambda: ("section", chance.choice((0, 1, 5, 0xFFF1, 0xFFF2))),
        "value": lambda: ("value", chance.choice((0, value, value + 4))),
    }[what]()
    at, letter = held.layout.of_symbol[field]
    return Change(f"{what} of {name}", held.symbols + held.layout.symbol_size * index + at, struct.calcsize(letter), number)


def change_of_version(held: Object, chance: random.Random) -> Change:
    """A change of the version tables, or of a symbol's number."""
    table = held.offset(VERSYM)
    _, known = held.numbers()
    known = sorted(known | {0, 1})
    what = chance.randrange(4)
    definitions, needs = held.definitions(), held.needs()
    if what < 2 or not (definitions or needs):
        index = chance.randrange(1, held.count)
        number = chance.choice(known) | chance.choice((0, 0x8000))
        return Change(f"version number of {held.symbol(index)[0]}", table + 2 * index, 2, number)
    hashes = [held.number(place) for place in [*(place + 8 for place, _ in definitions), *needs]]
    names = [held.number(place) for place in [*(aux for _, aux in definitions), *(place + 8 for place in needs)]]
    number = chance.choice(known[1:]) | chance.choice((0, 0x8000))
    if definitions and (what == 2 or not needs):
        place, aux = chance.choice(definitions)
        return chance.choice((
            Change("flags of a definition", place + 2, 2, chance.randrange(4)), Change("number of a definition", place + 4, 2, number),
            Change("hash of a definition", place + 8, 4, chance.choice([*hashes, 0, 1])),
            Change("name of a definition", aux, 4, chance.choice(names)),
        ))
    place = chance.choice(needs)
    return chance.choice((
        Change("hash of a need", place, 4, chance.choice([*hashes, 0, 1])), Change("flags of a need", place + 4, 2, chance.randrange(4)),
        Change("number of a need", place + 6, 2, number), Change("name of a need", place + 8, 4, chance.choice(names)),
    ))


def change_of_list(held: Object, chance: random.Random) -> Change | None:
    """A change of the number of records of a list, of its end or its begin, or of the flags, by a further entry."""
    counts = [Change(f"number in {tag:#x}", held.entries[tag][1], held.width, chance.choice((0, 1, 9))) for tag in (VERDEFNUM, VERNEEDNUM) if tag in held.entries]
    counts += [Change("number of parts", place + 2, 2, chance.choice((0, 1, 9))) for place in held.needed_files()]
    lists = [(place + 16, held.number(place + 16)) for place, _ in held.definitions()]
    lists += [(place + 12, held.number(place + 12)) for place in (*held.needed_files(), *held.needs())]
    ends = [Change("next", place, 4, 0) for place, offset in lists if offset]
    firsts = [(VERDEF, [place for place, _ in held.definitions()]), (VERNEED, held.needed_files())]
    later = [(tag, held.entries[tag][0] + places[1] - places[0]) for tag, places in firsts if places[1:]]
    further = [*later, (FLAGS, held.entries.get(FLAGS, (0, 0))[0] ^ SYMBOLIC)]
    doubled = [Change(f"further entry {tag:#x}", held.spare, 2 * held.width, tag | number << 8 * held.width) for tag, number in further if held.spare]
    unread = [Change(f"no entry {tag:#x}", held.entries[tag][1] - held.width, held.width, UNREAD) for tag in (VERDEF, VERNEED) if tag in held.entries]
    kinds = [it for it in (counts, ends, doubled, unread) if it]
    return chance.choice(chance.choice(kinds)) if kinds else None


def change_of(held: Object, chance: random.Random, kinds: list[int]) -> Change:
    what = chance.random()
    if what < 0.1 and FLAGS in held.entries:
        number, place = held.entries[FLAGS]
        return Change("flag DF_SYMBOLIC", place, held.width, number ^ SYMBOLIC)
    if what < 0.3 and (found := change_of_list(held, chance)):
        return found
    return change_of_version(held, chance) if what < 0.6 and held.offset(VERSYM) else change_of_symbol(held, chance, kinds)


def changed(content: bytes, chance: random.Random, kinds: list[int]) -> tuple[bytes, str]:
    """A copy of a file with one to three changes, which the linker has room for, and what they are."""
    while True:
        copy, changes = bytearray(content), []
        for _ in range(chance.randint(1, 3)):
            change = change_of(Object(bytes(copy)), chance, kinds)
            copy[change.place : change.place + change.size] = change.number.to_bytes(change.size, "little")
            changes.append(change)
        if bytes(copy) != content and Object(bytes(copy)).has_room():
            return bytes(copy), ", ".join(f"{it.what} {it.number:#x}" for it in changes)


def unique_names(files: Iterable[bytes]) -> set[str]:
    """The names of which a file has a unique symbol."""
    return set().union(*(it.names_with(lambda info: info >> 4 == UNIQUE) for it in map(Object, files)))


class Comparison(namedtuple("Comparison", "elfbind elfsym room tally")):
    """The programs of a run, the folder of the copies, and the counts."""

    def bindings(self, files: dict[str, bytes], file: str, changes: str) -> None:
        """Compares the bindings of a program one of whose files was changed."""
        paths = [f"{self.room}/{name}" for name in SCOPE]
        Path(self.room, file).write_bytes(files[file])
        linker = LINKERS[Object(files[file]).layout.wide]
        program = Program(paths[0], linker, paths)
        said = run([self.elfbind, *paths])
        if said.errors:
            self.tally["errors of elfbind"] += 1
            return
        linked = run([linker, paths[0]], **BINDINGS, LD_LIBRARY_PATH=self.room)
        own, reads = read_elfbind(program, said), read_linker(program, linked)
        whole = linked.status == 0
        self.tally["bindings until the linker ended early"] += 0 if whole else sum(map(len, reads.bound.values()))
        unique = unique_names(list(files.values()))
        for key in sorted(reads.bound.keys() | (own.bound.keys() if whole else set())):
            says, does = own.bound.get(key, set()), reads.bound.get(key, set())
            if key[1] in unique:
                self.tally["bindings of unique names"] += 1
                continue
            self.tally["results compared"] += max(len(says) if whole else 0, len(does))
            if says != does if whole else not does <= says:
                self.tally.fault(f"{file}: {' '.join(key)}: elfbind says {sorted(says)}, the linker {sorted(does)}: {changes}")
        if whole and own.missing != reads.missing:
            self.tally.fault(f"{file}: elfbind ends with {said.status}, a missing symbol for the linker: {reads.missing}: {changes}")

    def symbols(self, path: Path, content: bytes, changes: str) -> None:
        """Compares what is found by name and version in a library that was changed."""
        copy = Path(self.room, "copy.so")
        copy.write_bytes(content)
        held = Object(content)
        names = sorted({held.symbol(i)[0] for i in range(1, held.count)} - {""})
        defined = {of.text(of.number(aux)) for of in (held, Object(path.read_bytes())) for _, aux in of.definitions()}
        versions = sorted(defined | {"ABSENT"})
        queries = [(name, version) for name in names for version in (None, *versions)]
        loaded = asked(str(copy), queries, 10, LD_LIBRARY_PATH=self.room)
        if loaded is None:
            self.tally["copies not loaded"] += 1
            return
        said = run([self.elfsym, str(copy), *(name + (f"@{version}" if version else "") for name, version in queries)])
        if said.errors:
            self.tally["errors of elfsym"] += 1
            return
        unique, threads = unique_names([content]), held.names_with(lambda info: info % 16 == THREAD)
        for (name, version), line, other in zip(queries, said.output.split("\n"), loaded):
            if name in unique:
                self.tally["results of unique names"] += 1
            elif other.startswith("elsewhere") and line.endswith(": none"):
                self.tally["results in a library that the file needs"] += 1
            else:
                self.tally["results compared"] += 1
                if not ((other == "none") == line.endswith(": none") if name in threads else agrees(line, other)):
                    asked_for, call = (f"{name}@{version}", "dlvsym") if version else (name, "dlsym")
                    self.tally.fault(f"{path.name}: {asked_for}: elfsym says {line!r}, {call} {other}: {changes}")


def compare_bindings(comparison: Comparison, chance: random.Random, count: int, wide: bool) -> None:
    """Compares bindings of changed copies of the program of a class and its libraries, which have the names of those of class 64."""
    sources = {name: (DATA / "elfbind/data" / kept).read_bytes() for name, kept in zip(SCOPE, KEPT[wide])}
    for name, content in sources.items():
        place = Path(comparison.room, name)
        place.write_bytes(content)
        place.chmod(0o755)
    for _ in range(count):
        comparison.tally["copies"] += 1
        file = chance.choice(SCOPE)
        content, changes = changed(sources[file], chance, [0, 1, 2, 3, 5, THREAD, INDIRECT, 7])
        comparison.bindings({**sources, file: content}, file, changes)
        Path(comparison.room, file).write_bytes(sources[file])


def compare_symbols(comparison: Comparison, chance: random.Random, count: int) -> None:
    """Compares what is found by name and version in changed copies of libraries."""
    sources = ROOT / "tools/compare/sources"
    for name, needed in COMPILED:
        linked = f"-Wl,--version-script={sources}/{name}.map,-soname={name}.so"
        words = ["-Os", "-fPIC", "-shared", "-nostdlib", linked, "-o", f"{name}.so", f"{sources}/{name}.c"]
        subprocess.run(["gcc", *words, *needed], cwd=comparison.room, check=True)
    for _ in range(count):
        comparison.tally["copies"] += 1
        path = chance.choice((FIRST, Path(comparison.room, "libv.so")))
        content, changes = changed(path.read_bytes(), chance, [0, 1, 2, 3, 5, THREAD, 7])
        comparison.symbols(path, content, changes)


if __name__ == "__main__":
    given = parser_of(__doc__, "elfbind", "elfsym", seed=1, count=3000).parse_args()
    tally = Tally("", "copies", "results compared")
    with tempfile.TemporaryDirectory() as room:
        comparison = Comparison(given.elfbind, given.elfsym, room, tally)
        for wide in (True, False):
            if Path(LINKERS[wide]).exists():
                compare_bindings(comparison, random.Random(given.seed), given.count, wide)
            else:
                print(f"{LINKERS[wide]} is not here: nothing of its class is compared")
        compare_symbols(comparison, random.Random(given.seed), given.count)
    sys.exit(tally.ended())
