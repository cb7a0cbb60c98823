"""Small ELF files with everything that the library reads, and seeded damage of them.

`worked(wide, order, hostile)` is such a file; `damaged(seed, index)` is one with some of its fields, names,
tables and sizes changed, the same for the same two numbers; `mutated(data, random)` damages any ELF file. `Headers(content)` reads the
headers and the dynamic segment of a file.
"""
import random as randoms
import struct
from collections import namedtuple

EDGES_16 = (0, 1, 2, 3, 0x1f, 0x20, 0x27, 0x28, 0x37, 0x38, 0x3f, 0x40, 0x41, 0x7fff, 0x8000, 0xfeff, 0xff00, 0xfff1, 0xfffe, 0xffff)
EDGES_32 = (0, 1, 2, 3, 4, 8, 12, 16, 24, 0x7fffffff, 0x80000000, 0xfffffffc, 0xffffffff)
EDGES_64 = (*EDGES_32, 2**32, 2**63 - 1, 2**63, 2**64 - 8, 2**64 - 1)
EDGES = {"B": range(256), "H": EDGES_16, "I": EDGES_32, "Q": EDGES_64}

TYPES = (*range(0, 22), 0x5fffffff, 0x60000000, 0x6ffffff6, 0x6fffffff, 0x70000000, 0x7fffffff, 0x80000000, 0xffffffff)

# The fields of the headers: their names, each with its struct letter (P is the width of an address).
FILE_HEADER = "type H machine H version I entry P phoff P shoff P flags I ehsize H phentsize H phnum H shentsize H shnum H shstrndx H"
SECTION = "name I type I flags P address P offset P size P link I info I align P entsize P"
SEGMENT_32 = "type I offset I vaddr I paddr I filesz I memsz I flags I align I"
SEGMENT_64 = "type I flags I offset Q vaddr Q paddr Q filesz Q memsz Q align Q"
SYMBOL_32 = "name I value I size I info B other B section H"
SYMBOL_64 = "name I info B other B section H value Q size Q"


class Layout:
    """Where the fields of one class and order are."""

    def __init__(self, wide: bool, order: str):
        self.wide, self.order, self.mark, self.address = wide, order, "<" if order == "little" else ">", "Q" if wide else "I"
        self.header_size, self.section_size, self.segment_size, self.symbol_size = (64, 64, 56, 24) if wide else (52, 40, 32, 16)
        self.header, self.section = self.places(FILE_HEADER, 16), self.places(SECTION, 0)
        self.segment = self.places(SEGMENT_64 if wide else SEGMENT_32, 0)
        self.of_symbol = self.places(SYMBOL_64 if wide else SYMBOL_32, 0)

    def places(self, fields: str, start: int) -> dict:
        found, words = {}, fields.replace("P", self.address).split()
        for name, letter in zip(words[::2], words[1::2]):
            found[name] = (start, letter)
            start += struct.calcsize("<" + letter)
        return found

    def put(self, data: bytearray, base: int, field, value: int):
        place, letter = field
        size = struct.calcsize("<" + letter)
        if 0 <= base + place and base + place + size <= len(data):
            struct.pack_into(self.mark + letter, data, base + place, value % 2 ** (8 * size))

    def fill(self, data: bytearray, base: int, fields: dict, **values: int):
        for name, value in values.items():
            self.put(data, base, fields[name], value)

    def get(self, data: bytes, base: int, field) -> int:
        place, letter = field
        is_inside = 0 <= base + place and base + place + struct.calcsize("<" + letter) <= len(data)
        return struct.unpack_from(self.mark + letter, data, base + place)[0] if is_inside else 0

    def words(self, *values):
        return struct.pack(f"{self.mark}{len(values)}I", *(value % 2**32 for value in values))

    def addresses(self, *values):
        return struct.pack(f"{self.mark}{len(values)}{self.address}", *values)

    def symbol(self, name, info, index, value, other=0):
        data = bytearray(self.symbol_size)
        self.fill(data, 0, self.of_symbol, name=name, info=info, other=other, section=index, value=value, size=8)
        return bytes(data)


# A program header, by the names of its fields.
Segment = namedtuple("Segment", "type flags offset vaddr filesz memsz align")


class Headers:
    """The headers of a file of either class and order, by its own numbers."""

    def __init__(self, content):
        self.content = content
        self.layout = Layout(content[4:5] == b"\2", "big" if content[5:6] == b"\2" else "little")

    def header(self, name: str) -> int:
        return self.layout.get(self.content, 0, self.layout.header[name])

    def places(self, letters: str, most: int = 2**16) -> list:
        """Where the section headers (`sh`) or the program headers (`ph`) are, as many as the ELF header says."""
        start, size, count = (self.header(letters + it) for it in ("off", "entsize", "num"))
        return [start + size * index for index in range(min(count, most))]

    def of_section(self, place: int, name: str) -> int:
        return self.layout.get(self.content, place, self.layout.section[name])

    def program_headers(self) -> list:
        get, fields = self.layout.get, self.layout.segment
        return [Segment(*(get(self.content, place, fields[it]) for it in Segment._fields)) for place in self.places("ph")]

    def dynamic(self) -> list:
        """The place, the tag and the value of each entry of the dynamic segment, if there is one."""
        segment = next((it for it in self.program_headers() if it.type == 2), None)
        held, form = self.content[segment.offset :][: segment.filesz] if segment else b"", self.layout.mark + 2 * self.layout.address
        size = struct.calcsize(form)
        return [(segment.offset + at, *struct.unpack_from(form, held, at)) for at in range(0, len(held) - size + 1, size)]


def hash_number(name: bytes) -> int:
    number = 0
    for byte in name:
        number = (number * 16 + byte) % 2**32
        high = number & 0xf0000000
        number = (number ^ (high >> 24)) & ~high
    return number


def hash_words(names, buckets):
    """The words of a good hash table of these names, which are the symbols from 1 on."""
    first, chain = [0] * buckets, [0] * (len(names) + 1)
    for index in range(len(names), 0, -1):
        bucket = hash_number(names[index - 1]) % buckets
        chain[index], first[bucket] = first[bucket], index
    return [buckets, len(chain), *first, *chain]


def texts(names):
    """A string table of these names, and the places of each."""
    held, places = bytearray(b"\0"), []
    for name in names:
        places.append(len(held))
        held += name + b"\0"
    return bytes(held), places


def contents(layout: Layout):
    """Name, type, data, link, info and size of an entry of each section from index 1 on, but for the names."""
    wide = layout.wide
    names = [b"alpha", b"beta", b"gamma", b"delta", b"\xc3\xa9psilon", b"zeta"]
    held, places = texts(names)
    symbols = layout.symbol(0, 0, 0, 0) + b"".join(
        layout.symbol(place, 0x12 + 0x10 * (k % 2), (1, 2, 0xfff1, 0xffff, 3, 0)[k], 0x1000 + k, k % 4)
        for k, place in enumerate(places))
    entry = layout.symbol_size
    note = layout.words(4, 20, 3) + b"GNU\0" + bytes(range(20)) + layout.words(5, 3, 1) + b"LINK\0\0\0\0abc\0"
    big = 32 if wide else 8
    relocations = [(0x10, 1 << big | 7, 5), (0x20, 2 << big | 255, 2**31)]
    tags = [(1, 1), (5, 0x100), (6, 0x200), (10, 30), (14, 9), (0x6ffffffb, 1), (0x6ffffef5, 3), (0x70000001, 4), (31, 1), (0, 0)]
    return [
        (b".strtab", 3, held, 0, 0, 0),
        (b".symtab", 2, symbols, 1, 1, entry),
        (b".dynstr", 3, held, 0, 0, 0),
        (b".dynsym", 11, symbols, 3, 1, entry),
        (b".hash", 5, layout.words(*hash_words(names, 3)), 4, 0, 4),
        (b".text", 1, bytes(range(48)), 0, 0, 0),
        (b".note.gnu.build-id", 7, note, 0, 0, 0),
        (b".gnu_debuglink", 1, b"a.debug\0" + layout.words(0x12345678), 0, 0, 0),
        (b".gnu_debugaltlink", 1, b"b.debug\0" + bytes(range(20)), 0, 0, 0),
        (b".rela.text", 4, b"".join(layout.addresses(*it) for it in relocations), 2, 6, 24 if wide else 12),
        (b".rel.text", 9, b"".join(layout.addresses(*it[:2]) for it in relocations), 2, 6, 16 if wide else 8),
        (b".init_array", 14, layout.addresses(0x1000, 0x1008), 0, 0, 0),
        (b".group", 17, layout.words(1, 6, 10), 2, 1, 4),
        (b".symtab_shndx", 18, layout.words(0, 0, 0, 0, 6, 0, 0), 2, 0, 4),
        (b".dynamic", 6, b"".join(layout.addresses(*tag) for tag in tags), 3, 0, 16 if wide else 8),
        (b".bss", 8, b"", 0, 0, 0),
        (b".relr.dyn", 19, layout.addresses(0x1000, 3), 0, 0, 8),
        (b".comment", 1, b"a comment\0", 0, 0, 1),
        (b".gnu.hash", 0x6ffffff6, layout.words(1, 1, 1, 0, 0, 0, 0, 0), 4, 0, 0),
        (b".texts", 3, b"one\0two\0three\0\0four\0", 0, 0, 0),
    ]


def chosen(sections, only):
    """The sections of these names alone, with links to their new indices."""
    kept = [it for it in sections if it[0].decode() in only]
    index = {0: 0, **{sections.index(it) + 1: k + 1 for k, it in enumerate(kept)}}
    return [(name, kind, held, index.get(link, 0), info, size) for name, kind, held, link, info, size in kept]


def assembled(layout: Layout, sections, segments: int, **values: int):
    """A file of these sections and of the one of their names, with room for some segments; and the offset of each section."""
    names, places = texts([*(it[0] for it in sections), b".shstrtab"])
    sections, where = [*sections, (b"", 3, names, 0, 0, 0)], []
    data = bytearray(layout.header_size + segments * layout.segment_size)
    for _, _, held, *_ in sections:
        data += bytes(-len(data) % 8)
        where.append(len(data))
        data += held
    data += bytes(-len(data) % 8)
    start = len(data)
    data += bytes(layout.section_size * (len(sections) + 1))
    data[:7] = b"\x7fELF" + bytes([2 if layout.wide else 1, 1 if layout.order == "little" else 2, 1])
    layout.fill(
        data, 0, layout.header, type=3, machine=62, version=1, shoff=start, ehsize=layout.header_size, phentsize=layout.segment_size,
        phnum=segments, shentsize=layout.section_size, shnum=len(sections) + 1, shstrndx=len(sections), **values)
    for k, ((_, kind, held, link, info, entry), place, offset) in enumerate(zip(sections, places, where), 1):
        layout.fill(
            data, start + layout.section_size * k, layout.section, name=place, type=kind, flags=2, offset=offset,
            size=64 if kind == 8 else len(held), link=link, info=info, align=4, entsize=entry)
    return data, where


def worked(wide: bool, order: str, hostile: str = "", only=()) -> bytes:
    """A file whose every item is good, of these sections alone where there are any; `hostile` makes its hash table `looped` or `shared`."""
    layout = Layout(wide, order)
    sections = contents(layout)
    if hostile:
        words = {"looped": [2, 7, 1, 2, 0, 3, 4, 5, 6, 1, 2], "shared": [7, 7, *[1] * 7, 0, 2, 3, 4, 5, 6, 0]}[hostile]
        sections[4] = (b".hash", 5, layout.words(*words), 4, 0, 4)
    if only:
        sections = chosen(sections, only)
    data, where = assembled(layout, sections, 7, entry=0x1000, phoff=layout.header_size)
    start = layout.get(data, 0, layout.header["shoff"])
    for k, offset in enumerate(where, 1):
        layout.fill(data, start + layout.section_size * k, layout.section, address=offset, align=8)
    ranges = {it[0]: (offset, len(it[2])) for it, offset in zip(sections, where)}
    dynamic, notes = ranges.get(b".dynamic", (0, 0)), ranges.get(b".note.gnu.build-id", (0, 0))
    parts = [(6, layout.header_size, 100), (1, 0, len(data) - 8), (2, *dynamic), (4, *notes), (0, 0, 0), (0x6474e552, 0, 64), (7, 0, 0)]
    for k, (kind, offset, size) in enumerate(parts):
        layout.fill(
            data, layout.header_size + layout.segment_size * k, layout.segment, type=kind, offset=offset, vaddr=offset, paddr=offset,
            filesz=size, memsz=size, flags=k, align=8)
    return bytes(data)


def elf_file(contents, segments=()):
    """A file of class 64 of these sections from index 1 on, each with name, type, data, link and size of an entry, and of
    program headers with these fields."""
    layout = Layout(True, "little")
    data, _ = assembled(layout, [(*it[:4], 0, it[4]) for it in contents], len(segments), phoff=64 if segments else 0)
    for index, fields in enumerate(segments):
        layout.fill(data, 64 + 56 * index, layout.segment, **fields)
    return bytes(data)


class Damage(Headers):
    """One way to damage an ELF file a call."""

    def __init__(self, data: bytes, random: randoms.Random):
        super().__init__(bytearray(data))
        self.data, self.random, self.pick = self.content, random, random.choice
        self.sections, self.segments = self.places("sh", 200), self.places("ph", 40)

    def edge(self, letter: str) -> int:
        """A number at an edge of its field, of the file, or any."""
        length = len(self.data)
        near = (length, length - 1, length + 1, length // 2, self.random.randrange(length + 1))
        return self.pick((self.pick(EDGES[letter]), self.pick(EDGES[letter]), self.pick(near)))

    def set_field(self, base: int, fields):
        name = self.pick(list(fields))
        value = self.pick(TYPES) if name == "type" and fields[name][1] == "I" else self.edge(fields[name][1])
        self.layout.put(self.data, base, fields[name], value)

    def file_header(self):
        self.set_field(0, self.layout.header)

    def section_header(self):
        if self.sections:
            self.set_field(self.pick(self.sections), self.layout.section)

    def segment_header(self):
        if self.segments:
            self.set_field(self.pick(self.segments), self.layout.segment)

    def put_in(self, base: int, **values: int):
        """Changes fields of a section header."""
        self.layout.fill(self.data, base, self.layout.section, **values)

    def links(self):
        if self.sections:
            base, name = self.pick(self.sections), self.pick(("link", "info"))
            self.put_in(base, **{name: self.pick((self.edge("I"), self.random.randrange(len(self.sections) + 2)))})

    def places_of(self, kinds):
        """Where sections of these types lie: the place of the header, the offset and the size."""
        kept = [it for it in self.sections if self.of_section(it, "type") in kinds]
        found = [(it, self.of_section(it, "offset"), self.of_section(it, "size")) for it in kept]
        return [it for it in found if it[2] and it[1] + it[2] <= len(self.data)]

    def words_of(self, kinds, count):
        for _, offset, size in self.places_of(kinds):
            for _ in range(count):
                place = offset + 4 * self.random.randrange(max(size // 4, 1))
                self.layout.put(self.data, place, (0, "I"), self.pick((self.edge("I"), self.random.randrange(12))))

    def hash_table(self):
        self.words_of((5,), self.pick((1, 2, 12)))

    def notes(self):
        for base, offset, size in self.places_of((7,)):
            place = offset + 4 * self.random.randrange(3)
            self.layout.put(self.data, place, (0, "I"), self.pick((self.edge("I"), self.random.randrange(size + 8))))
            if self.random.random() < 0.3:
                self.put_in(base, size=self.random.randrange(40))

    def tables(self):
        self.words_of((2, 4, 6, 9, 11, 14, 17, 18), 2)

    def names(self):
        """A zero byte of a string table that is none, or a byte that is no text."""
        for _, offset, size in self.places_of((3,)):
            if self.random.random() < 0.5:
                place = offset + self.pick((size - 1, self.random.randrange(size)))
                self.data[place] = self.pick((0, 0x41, 0x80, 0xc3, 0xff))

    def cut(self):
        """The end of the file, or of a section."""
        if self.random.random() < 0.4:
            ends = [self.random.randrange(len(self.data) + 1), len(self.data) - 1, self.layout.header_size]
            ends += [self.pick(self.sections)] if self.sections else []
            del self.data[max(0, self.pick(ends)):]
        elif self.sections:
            base = self.pick(self.sections)
            size = self.of_section(base, "size")
            self.put_in(base, size=size - self.pick((1, 2, 3, 4, 8, size // 2, size - 1, -1)))

    def moved(self):
        """A section that lies elsewhere, over others or at an odd place."""
        if self.sections:
            base = self.pick(self.sections)
            self.put_in(base, offset=self.of_section(base, "offset") + self.pick((-8, -1, 1, 2, 4, 64)))

    def numbering(self):
        """Counts and the index of the names in section header 0."""
        first, which = self.sections[0] if self.sections else 0, self.random.randrange(3)
        if which == 0:
            self.put_in(first, size=self.pick((len(self.sections), self.edge("I"), self.edge("Q"))))
        elif which == 1:
            self.put_in(first, info=self.pick((len(self.segments), self.edge("I"))))
        else:
            self.put_in(first, link=self.pick((self.header("shstrndx"), self.edge("I"))))
        self.layout.fill(self.data, 0, self.layout.header, **({"shnum": 0}, {"phnum": 0xffff}, {"shstrndx": 0xffff})[which])

    def bytes(self):
        for _ in range(self.pick((1, 1, 8))):
            if self.data:
                self.data[self.random.randrange(len(self.data))] = self.random.randrange(256)

    def front(self):
        """The class, the order and the version."""
        if len(self.data) > 6:
            self.data[self.pick((4, 5, 6))] = self.pick((0, 1, 2, 3, 255))

    ALL = (file_header, file_header, section_header, section_header, section_header, segment_header, segment_header,
        links, hash_table, hash_table, notes, tables, names, cut, moved, numbering, bytes, front)

    # Those that leave each number at its place, so that they do the same in both orders.
    IN_PLACE = (links, hash_table, hash_table, notes, names, cut)


def missing(data: bytes, seed: int, count: int = 50):
    """Copies of a file of which parts are missing, so that a reader of these parts can say so: cut off, or with headers that name bytes
    past the end, more headers than there are, or addresses of no segment; or without the number of sections, which section 0 has where
    the ELF header has 0, and with section 0 past the end. The same for the same seed."""
    random = randoms.Random(f"{seed} missing")
    whole = Damage(data, random)
    layout = whole.layout
    end = whole.sections[-1] + layout.section_size
    kept = lambda bases, fields, types: [it for it in bases if layout.get(data, it, fields["type"]) in types]
    tables = kept(whole.sections, layout.section, (2, 3, 4, 5, 6, 7, 9, 11, 19, 0x6ffffff6, 0x6ffffffd, 0x6ffffffe, 0x6fffffff))
    parts = kept(whole.segments, layout.segment, (1, 2, 4))
    ends = (len(data), 2**40, 2**63, 2**64 - 1) if layout.wide else (len(data), 2**31, 2**32 - 1)
    past = lambda: random.choice(ends)
    for index in range(count):
        copy, which = bytearray(data), index % 5
        if which == 0:
            del copy[random.randrange(64, end) :]
        elif which == 1:
            heads = ({"shoff": past()}, {"shnum": 0x7fff}, {"shentsize": 1}, {"phoff": past()}, {"phnum": 0x7fff}, {"phentsize": 1},
                     {"shnum": 0, "shoff": ends[0]}, {"shnum": 0, "shoff": ends[1]})
            layout.fill(copy, 0, layout.header, **heads[index // 5 % len(heads)])
        elif which == 2:
            layout.fill(copy, random.choice(parts), layout.segment, **{random.choice(("offset", "filesz", "vaddr")): past()})
        else:
            name = random.choice(("offset", "size", "link"))
            layout.fill(copy, random.choice(tables), layout.section, **{name: len(whole.sections) + random.randrange(9) if name == "link" else past()})
        yield bytes(copy)


def mutated(data: bytes, random: randoms.Random, ways=Damage.ALL) -> bytes:
    damage = Damage(data, random)
    for way in random.choices(ways, k=random.choice((1, 1, 2, 3, 5))):
        way(damage)
    return bytes(damage.data)


def damaged(seed: int, index: int) -> bytes:
    random = randoms.Random(f"{seed}/{index}")
    wide, hostile = random.random() < 0.6, random.choice(("", "", "", "looped", "shared"))
    order = "big" if random.random() < 0.2 else "little"
    return mutated(worked(wide, order, hostile), random)


def twins(seed: int, index: int):
    """A damaged little-endian file, and the same file in the other order."""
    random = randoms.Random(f"{seed}/{index} twins")
    wide, hostile = random.random() < 0.5, random.choice(("", "", "looped", "shared"))
    for order in ("little", "big"):
        yield mutated(worked(wide, order, hostile), randoms.Random(f"{seed}/{index}"), Damage.IN_PLACE)
