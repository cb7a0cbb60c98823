#!/usr/bin/env python3
"""Compare the sizes of parts that elfsize prints with the definition, with readelf -S, and with the sizes of the files.

    tools/compare/sizes.py [--elfsize PATH] [--damaged N] [--seed S] [--most N] [--symbols] [FILE..]

Of each ELF file of the files and folders FILE (/usr), the owner of each byte is that of docs/SIZES.md (`Definition`), if the file has
at most 3000 sections and segments. --symbols compares `elfsize --symbols` beside `nm -S`, whose symbols with the same range and section
are counted once. --damaged N compares N damaged files (tools/compare/damage.py) of the seed S. --most N stops after N files.
"""
import collections
import heapq
import itertools
import os
import pathlib
import re
import struct
import sys
import tempfile
from typing import Iterator

import damage
from comparing import CONTROLS, Tally, files_of, llvm, parser_of, parts, read_elf, run

LINE = re.compile(
    r"^(\d+) (\d+\.\d\d)% "
    r"(?:((?:section|symbol) \d+) (.*)|(segment \d+|ELF header|(?:program|section) headers|between parts|after all parts|sum))$", re.S)
SIZED = re.compile(r"^([0-9a-f]+) ([0-9a-f]+) \S ", re.M)
HEADER = re.compile(r"^ *\[ *(\d+)\] .*? ([A-Z0-9_]+|LOOS\S*|<unknown>\S*) +[0-9a-f]{8,16} [0-9a-f]{6,} ([0-9a-f]{6,}) ", re.M)
MOST_PARTS, NO_BITS, RELRO = 3000, 8, 0x6474E552
SYMBOL_TABLE, INDICES, OBJECT_FILE, MOST_ADDRESS = 2, 18, 1, 2**64 - 1
# How the names of labels and of mapping symbols begin, these by the machine: Arm, Arm 64-bit, RISC-V and C-SKY.
LABEL, MAPPING = rb"\.L", {40: rb"\$[adt](\0|\.|\Z)", 183: rb"\$[dx](\0|\.|\Z)", 243: rb"\$x|\$d(\0|\.|\Z)", 252: rb"\$[dt](\0|\.|\Z)"}

# A part of a file and its bytes.
Part = collections.namedtuple("Part", "name begin end")
# The size and the name of each part.
Sizes = collections.namedtuple("Sizes", "sizes names")


class Symbol(collections.namedtuple("Symbol", "index section value size type binding has_name")):
    """A symbol with a section and a size."""

    @property
    def names_addresses(self) -> bool:
        return self.type in (0, 1, 2, 10) and self.has_name

    def order(self) -> tuple[int, ...]:
        """The first of several that cover an address is the least."""
        kind = {1: 1, 2: 0, 10: 0}.get(self.type, 2)
        return -self.value, self.size, kind, {1: 0, 10: 0, 2: 1}.get(self.binding, 2), self.index


def runs_of(symbols: list[Symbol]) -> list[Part]:
    """The runs of addresses that belong to one symbol, in order."""
    waiting = sorted(symbols, key=lambda it: it.value, reverse=True)
    ends = sorted({edge for it in symbols for edge in (it.value, it.value + it.size)})
    heap: list[tuple[tuple[int, ...], int]] = []
    found: list[Part] = []
    for begin, end in zip(ends, ends[1:]):
        while waiting and waiting[-1].value == begin:
            symbol = waiting.pop()
            heapq.heappush(heap, (symbol.order(), symbol.value + symbol.size))
        while heap and heap[0][1] <= begin:
            heapq.heappop(heap)
        if heap:
            found.append(Part(f"symbol {heap[0][0][-1]}", begin, end))
    return found


class Definition(damage.Headers):
    """The owner of each byte of a file, as docs/SIZES.md defines it."""

    def __init__(self, content: bytes) -> None:
        super().__init__(content)
        self.sections = self.table("section", "sh", self.layout.section, self.layout.section_size)
        self.segments = self.table("segment", "ph", self.layout.segment, self.layout.segment_size)

    def first(self, name: str, otherwise: int) -> int:
        """A field of section header 0, if there is one."""
        start, size = self.header("shoff"), self.header("shentsize")
        is_there = start and size >= self.layout.section_size and start + size <= len(self.content)
        return self.of_section(start, name) if is_there else otherwise

    def count(self, letters: str) -> int:
        number = self.header(f"{letters}num")
        return (number or self.first("size", 0)) if letters == "sh" else self.first("info", number) if number == 0xFFFF else number

    def cut(self, name: str, begin: int, size: int) -> Part:
        return Part(name, begin, begin + min(size, max(len(self.content) - begin, 0)))

    def head(self, letters: str, name: str) -> Part:
        """A table of headers; there is none if its offset is 0."""
        start = self.header(f"{letters}off")
        return self.cut(name, start, self.header(f"{letters}entsize") * self.count(letters) if start else 0)

    def table(self, kind: str, letters: str, fields: dict, least: int) -> list[Part]:
        """The parts of a table that is there and has entries that can be read."""
        start, size, count = self.header(f"{letters}off"), self.header(f"{letters}entsize"), self.count(letters)
        if not start or size < least or start + size * count > len(self.content) or count >= 2**32:
            return []
        found = []
        for index in range(count):
            names, bare = (("type", "offset", "size"), NO_BITS) if kind == "section" else (("type", "offset", "filesz"), RELRO)
            type_, offset, length = (self.layout.get(self.content, start + size * index, fields[name]) for name in names)
            found.append(self.cut(f"{kind} {index}", offset, 0 if type_ in (0, bare) else length))
        return found

    def pieces(self) -> Iterator[Part]:
        """Runs of bytes of one owner."""
        tables = [self.cut("ELF header", 0, self.layout.header_size), self.head("ph", "program headers"), self.head("sh", "section headers")]
        within = lambda part: (-part.begin, part.end - part.begin)
        order = [it for it in (*tables, *sorted(self.sections, key=within), *sorted(self.segments, key=within)) if it.begin < it.end]
        last = max((it.begin for it in order if it.name != "ELF header"), default=0)
        ends = sorted({0, len(self.content), *(it.begin for it in order), *(it.end for it in order)})
        for begin, end in zip(ends, ends[1:]):
            free = "between parts" if begin < last else "after all parts"
            yield Part(next((it.name for it in order if it.begin <= begin < it.end), free), begin, end)

    def owned(self, by_symbols: bool) -> dict[str, int]:
        """The number of bytes of each part that owns some, or with the bytes of sections by symbol."""
        by_section: dict[int, list[Symbol]] = collections.defaultdict(list)
        for symbol in self.symbols() if by_symbols else ():
            if symbol.names_addresses:
                by_section[symbol.section].append(symbol)
        runs = {f"section {section}": runs_of(all) for section, all in by_section.items()}
        found: dict[str, int] = collections.Counter()
        for name, begin, end in self.pieces():
            low, high = (self.address(name, offset) for offset in (begin, end)) if name in runs else (0, 0)
            for owner, first, last in runs.get(name, []):
                both = min(last, high) - max(first, low)
                if both > 0:
                    found[owner] += both
                    end -= both
            found[name] += end - begin
        return {name: size for name, size in found.items() if size}

    def section_field(self, index: int, name: str) -> int:
        return self.of_section(self.header("shoff") + index * self.header("shentsize"), name)

    def bytes_of(self, index: int) -> bytes:
        offset, size = self.section_field(index, "offset"), self.section_field(index, "size")
        return self.content[offset:offset + size]

    def address(self, name: str, offset: int) -> int:
        """The address of a byte of a section, as its symbols have it."""
        index = int(name.split(" ")[1])
        first = 0 if self.header("type") == OBJECT_FILE else self.section_field(index, "address")
        return min(first + offset - self.section_field(index, "offset"), MOST_ADDRESS)

    def symbols(self) -> Iterator[Symbol]:
        """The symbols of .symtab that have a section and a size."""
        types = [self.section_field(index, "type") for index in range(len(self.sections))]
        if SYMBOL_TABLE not in types:
            return
        table = types.index(SYMBOL_TABLE)
        names = self.bytes_of(self.section_field(table, "link"))
        linked = (index for index, type_ in enumerate(types) if type_ == INDICES and self.section_field(index, "link") == table)
        words = next((self.bytes_of(index) for index in linked), b"")
        mark, wide = self.layout.mark, self.layout.wide
        for index, fields in enumerate(struct.iter_unpack(mark + ("IBBHQQ" if wide else "IIIBBH"), self.bytes_of(table))):
            name, info, _, section, value, size = fields if wide else (fields[0], *fields[3:], *fields[1:3])
            if section == 0xFFFF:
                section = struct.unpack_from(mark + "I", words, 4 * index)[0] if 4 * index + 4 <= len(words) else 0
            elif section >= 0xFF00:
                section = 0
            if section and size:
                begin = names[name:name + 3]
                yield Symbol(index, section, value, size, info % 16, info // 16, self.is_name(begin, info))

    def is_name(self, begin: bytes, info: int) -> bool:
        """A name that begins so isn't empty, and neither that of a label nor that of a mapping symbol."""
        is_other = re.match(MAPPING.get(self.header("machine"), LABEL), begin) or re.match(LABEL, begin)
        return begin[:1] not in (b"", b"\0") and (info != 0 or not is_other)


def lines_of(output: str) -> Iterator[tuple[int, str, str, str]]:
    """The size, the share, the part and its name of each line, with the sum as the last."""
    for line in output.split("\n")[:-1]:
        matched = LINE.match(line)
        if not matched:
            raise ValueError(line)
        yield int(matched[1]), matched[2], matched[3] or matched[5], matched[4] or ""


def sizes_of(path: str, program: str, length: int, tally: Tally, *options: str) -> Sizes | None:
    """The sizes that elfsize prints of a file, once their order, their shares and their sum have been compared."""
    output = tally.output(path, program, *options, path)
    if not output:
        return None
    try:
        *lines, last = lines_of(output.removeprefix(f"{path}\n"))
    except ValueError as strange:
        tally.differ(path, "output", f"'{strange}'", "no such line")
        return None
    sizes = [size for size, *_ in lines]
    shares = [f"{size * 10000 // length // 100}.{size * 10000 // length % 100:02}" for size in sizes]
    for what, says, wanted in (
        ("sum", (last, sum(sizes)), ((length, "100.00", "sum", ""), length)), ("order", sizes, sorted(sizes, reverse=True)),
        ("shares", [share for _, share, *_ in lines], shares), ("parts", len({part for _, _, part, _ in lines}), len(lines))):
        if says != wanted:
            tally.differ(path, what, says, wanted)
    tally["bytes"] += length
    return Sizes({part: size for size, _, part, _ in lines}, {part: name for _, _, part, name in lines})


def compare_names(path: str, names: dict[str, str], tally: Tally) -> None:
    """The names of sections beside those of llvm-readelf."""
    for section in parts(llvm(path, "-S"), "Sections", "Section"):
        name, own = section["Name"]["Value"].translate(CONTROLS), names.get(f"section {section['Index']}")
        tally["names of sections"] += own is not None
        if own not in (None, name):
            tally.differ(path, f"name of section {section['Index']}", own, name)


def beside_definition(path: str, sizes: dict[str, int], definition: Definition, tally: Tally, by_symbols: bool = False) -> None:
    if len(definition.sections) + len(definition.segments) > MOST_PARTS:
        tally["files too large for the definition"] += 1
        return
    wanted = definition.owned(by_symbols)
    for part in sorted({*sizes, *wanted}):
        if sizes.get(part) != wanted.get(part):
            tally.differ(path, part, sizes.get(part), f"nothing, the definition {wanted.get(part)}")
    tally["parts as defined"] += len(wanted)
    for part, size in sizes.items():
        tally[f"bytes of {part.split(' ')[0] + 's' if part[-1].isdigit() else part}"] += size


def beside_readelf(path: str, sizes: dict[str, int], definition: Definition, tally: Tally) -> None:
    sections = definition.sections
    for index, kind, text in HEADER.findall(run(["readelf", "-SW", "--", path]).output):
        size, own = int(text, 16), sizes.get(f"section {int(index)}", 0)
        part = sections[int(index)] if int(index) < len(sections) else Part("", 0, 0)
        if size == own:
            tally["sections of the same size"] += 1
        elif kind in ("NOBITS", "NULL") or part.begin == part.end:
            tally["sections without bytes in the file"] += own == 0
        elif own < part.end - part.begin:
            tally["sections with bytes of other parts"] += 1
        elif own == part.end - part.begin < size:
            tally["sections cut off by the end of the file"] += 1
        else:
            tally.differ(path, f"section {index}", own, size)


def beside_nm(path: str, sizes: dict[str, int], definition: Definition, tally: Tally) -> None:
    """The sizes of symbols beside those of nm, whose aliases are taken out."""
    told = collections.Counter((int(value, 16), int(size, 16)) for value, size in SIZED.findall(run(["nm", "-S", "--", path]).output))
    tally["symbols of nm"] += sum(told.values())
    tally["bytes of these symbols"] += sum(size * count for (_, size), count in told.items())
    aliases: dict[tuple[int, int, int], list[Symbol]] = collections.defaultdict(list)
    for symbol in definition.symbols():
        if (symbol.value, symbol.size) in told:
            aliases[symbol.section, symbol.value, symbol.size].append(symbol)
    tally["distinct ranges of nm"] += len(aliases)
    for (section, value, size), all in aliases.items():
        own = sum(sizes.get(f"symbol {it.index}", 0) for it in all)
        tally["bytes of these ranges"] += size
        tally["bytes that their symbols own"] += own
        cause = "ranges of the same size" if own == size else cause_of(definition, section, value, size, all)
        if cause:
            tally[cause] += 1
        else:
            tally.differ(path, f"symbols {[it.index for it in all]}", own, size)


def cause_of(definition: Definition, section: int, value: int, size: int, all: list[Symbol]) -> str | None:
    """Why the symbols of a range own fewer bytes than it has."""
    part = definition.sections[section] if section < len(definition.sections) else Part("", 0, 0)
    if part.begin == part.end:
        return "ranges in sections without bytes"
    if not any(it.type in (0, 1, 2, 10) for it in all):
        return "ranges of symbols of other types"
    if not any(it.names_addresses for it in all):
        return "ranges of symbols without a name"
    first = 0 if definition.header("type") == OBJECT_FILE else definition.section_field(section, "address")
    if value < first or value + size > first + part.end - part.begin:
        return "ranges past the end of the section"
    crossing = (it for it in definition.symbols() if it.section == section and it.names_addresses)
    if any(value < it.value + it.size and it.value < value + size and (it.value, it.size) != (value, size) for it in crossing):
        return "ranges with bytes of other symbols"
    inside = (it for index, it in enumerate(definition.sections) if index != section and it.begin < it.end)
    return "ranges with bytes of other symbols" if any(it.begin < part.end and part.begin < it.end for it in inside) else None


def compare(path: str, program: str, by_symbols: bool, tally: Tally) -> None:
    content = read_elf(path)
    found = sizes_of(path, program, len(content), tally, *(["--no-debug", "--symbols"] if by_symbols else []))
    if found is not None:
        tally["files"] += 1
        definition = Definition(content)
        beside_definition(path, found.sizes, definition, tally, by_symbols)
        (beside_nm if by_symbols else beside_readelf)(path, found.sizes, definition, tally)
        compare_names(path, found.names, tally)


def compare_damaged(program: str, count: int, seed: int, tally: Tally) -> None:
    """Compares damaged files that are accepted with the definition."""
    with tempfile.TemporaryDirectory() as room:
        path = os.path.join(room, "damaged")
        for index in range(count):
            content = damage.damaged(seed, index)
            pathlib.Path(path).write_bytes(content)
            done, tally["damaged files"] = run([program, path], seconds=10), tally["damaged files"] + 1
            if done.status == 1 and done.errors.startswith("elfsize: "):
                tally["of them not read"] += 1
                continue
            found = sizes_of(path, program, len(content), tally)
            if found is not None:
                beside_definition(f"damaged file {index}", found.sizes, Definition(content), tally)


if __name__ == "__main__":
    parser = parser_of(__doc__, "elfsize", files="*", damaged=0, seed=1, most=sys.maxsize)
    parser.add_argument("--symbols", action="store_true")
    given = parser.parse_args()
    tally = Tally("elfsize")
    has_symbols = lambda path: (content := read_elf(path)) and any(Definition(content).symbols())
    asked = filter(has_symbols if given.symbols else read_elf, files_of(given.files or ["/usr"]))
    for path in itertools.islice(asked, given.most):
        compare(path, given.elfsize, given.symbols, tally)
    compare_damaged(given.elfsize, given.damaged, given.seed, tally)
    first = ("files", "bytes", "parts as defined", *(() if given.symbols else ("sections of the same size",)))
    tally.names = (*first, *(name for name in tally if name not in (*first, "differences")), "differences")
    sys.exit(tally.ended())
