"""Small ELF files, field by field, and the forms in which `crates/elfanswers` prints what is wanted of them.

The places are those of the standard (gABI, "ELF Header", "Sections", "Program Header", "Symbol Table").
"""
import pathlib
import re
import struct

ERRORS = pathlib.Path(__file__).resolve().parent.parent.parent / "crates" / "elf_base" / "src" / "error.rt"

LITTLE, BIG = "little", "big"
ORDERS = (LITTLE, BIG)

U32 = 2**32 - 1
U64 = 2**64 - 1


def layout(wide: bool, *fields) -> dict:
    """The place and the width of each field, by its name; an address is `P`."""
    places, start = {}, 0
    for name, letter in fields:
        width = {"B": 1, "H": 2, "I": 4, "Q": 8, "P": 8 if wide else 4}[letter]
        places[name] = (start, width)
        start += width
    return places


HEADER = (
    *((f"magic_{k}", "B") for k in range(4)), ("class", "B"), ("encoding", "B"), ("version_1", "B"), ("os_abi", "B"),
    ("abi_version", "B"), *((f"padding_{k}", "B") for k in range(7)), ("type", "H"), ("machine", "H"), ("version", "I"),
    ("entry_point", "P"), ("ph_offset", "P"), ("sh_offset", "P"), ("flags", "I"), ("header_size", "H"), ("ph_entry_size", "H"),
    ("ph_count", "H"), ("sh_entry_size", "H"), ("sh_count", "H"), ("sh_str_index", "H"),
)
SECTION = (
    ("name", "I"), ("type", "I"), ("flags", "P"), ("address", "P"), ("offset", "P"), ("size", "P"), ("link", "I"), ("info", "I"),
    ("align", "P"), ("entry_size", "P"),
)
SYMBOL_32 = (("name", "I"), ("value", "I"), ("size", "I"), ("info", "B"), ("other", "B"), ("shndx", "H"))
SYMBOL_64 = (("name", "I"), ("info", "B"), ("other", "B"), ("shndx", "H"), ("value", "Q"), ("size", "Q"))
PROGRAM_32 = (
    ("type", "I"), ("offset", "I"), ("virtual_addr", "I"), ("physical_addr", "I"), ("file_size", "I"), ("mem_size", "I"),
    ("flags", "I"), ("align", "I"),
)
PROGRAM_64 = (
    ("type", "I"), ("flags", "I"), ("offset", "Q"), ("virtual_addr", "Q"), ("physical_addr", "Q"), ("file_size", "Q"),
    ("mem_size", "Q"), ("align", "Q"),
)

# By the kind of a record and its class.
FIELDS = {
    ("header", 32): layout(False, *HEADER), ("header", 64): layout(True, *HEADER),
    ("section", 32): layout(False, *SECTION), ("section", 64): layout(True, *SECTION),
    ("symbol", 32): layout(False, *SYMBOL_32), ("symbol", 64): layout(True, *SYMBOL_64),
    ("program", 32): layout(False, *PROGRAM_32), ("program", 64): layout(True, *PROGRAM_64),
    ("word", 32): {"word": (0, 4)}, ("word", 64): {"word": (0, 4)},
    ("byte", 32): {"byte": (0, 1)}, ("byte", 64): {"byte": (0, 1)},
}
SIZES = {("header", 32): 52, ("header", 64): 64, ("section", 32): 40, ("section", 64): 64, ("symbol", 32): 16, ("symbol", 64): 24,
    ("program", 32): 32, ("program", 64): 56}


class File(bytearray):
    """A file of one class and order, zeros at first, whose fields are set by name."""

    def __init__(self, bits: int, size: int, order: str = LITTLE):
        super().__init__(size)
        self.bits, self.order = bits, order

    def set(self, kind: str, start: int, **numbers) -> "File":
        """Sets fields of the record of this kind that begins at a place, as far as they lie in the file."""
        for name, number in numbers.items():
            place, width = FIELDS[kind, self.bits][name.rstrip("_")]
            number %= 2 ** (8 * width)
            self.put(start + place, number.to_bytes(width, self.order))
        return self

    def put(self, start: int, data: bytes) -> "File":
        data = data[: max(len(self) - start, 0)]
        self[start : start + len(data)] = data
        return self

    def copy(self) -> "File":
        other = File(self.bits, len(self), self.order)
        other[:] = self
        return other


def record(kind: str, bits: int, order: str = LITTLE, **numbers) -> bytes:
    """The bytes of a record with these fields; all others are 0."""
    return bytes(File(bits, SIZES[kind, bits], order).set(kind, 0, **numbers))


def with_header(bits: int, size: int, count: int, order: str = LITTLE) -> File:
    """A file with so many section headers behind its ELF header, the first of which holds the names."""
    file = File(bits, size, order)
    file.put(0, bytes([0x7f, *b"ELF", 1 if bits == 32 else 2, 1 if order == LITTLE else 2, 1]))
    own, entry = (52, 40) if bits == 32 else (64, 64)
    return file.set("header", 0, sh_offset=own, header_size=own, sh_entry_size=entry, sh_count=count, sh_str_index=1)


def plain_header(number: int, size: int) -> File:
    """The first seven bytes of a header of this class, and zeros."""
    return File(32 if number == 1 else 64, size).put(0, bytes([0x7f, *b"ELF", number, 1, 1]))


def strtab(order: str = LITTLE) -> File:
    """Class 32: section 1, `.strtab`, names itself and holds `ab`."""
    file = with_header(32, 144, 2, order).set("section", 92, name=1, type=3, offset=132, size=12, align=1)
    return file.put(132, b"\0.strtab\0ab\0")


def wide_strtab(order: str = LITTLE) -> File:
    """The same of class 64: the section headers are at 64 and 128, and the names at 192."""
    file = with_header(64, 204, 2, order).set("section", 128, name=1, type=3, offset=192, size=12, align=1)
    return file.put(192, b"\0.strtab\0ab\0")


def dynstr(order: str = LITTLE) -> File:
    """`strtab` with the names `.dynstr` and `ab`."""
    return strtab(order).put(133, b".dynstr")


def shndx(order: str = LITTLE) -> File:
    """Class 32: section 1, `.strtab`, holds the names, and section 2, `.symtab_shndx`, the words 0 and 1, from 195 on."""
    file = with_header(32, 203, 3, order).set("section", 92, name=1, type=3, offset=172, size=23, align=1)
    file.set("section", 132, name=9, type=18, offset=195, size=8).put(172, b"\0.strtab\0.symtab_shndx\0")
    return file.set("word", 195, word=0).set("word", 199, word=1)


def debug_link(order: str = LITTLE) -> File:
    """Class 64: the names, a link to debug information and a build id."""
    file = with_header(64, 397, 4, order).set("section", 128, name=1, type=3, offset=320, size=45)
    file.set("section", 192, name=11, type=1, offset=365, size=12).set("section", 256, name=26, type=7, offset=377, size=20)
    file.put(320, b"\0.shstrtab\0.gnu_debuglink\0.note.gnu.build-id\0").put(365, b"a.debug\0")
    file.set("word", 373, word=0x12345678).set("word", 377, word=4).set("word", 381, word=4).set("word", 385, word=3)
    return file.put(389, b"GNU\0\xde\xad\xbe\xef")


def alternate_link() -> File:
    """Class 32: the names, and a link to debug information that several files share."""
    file = with_header(32, 197, 3).set("section", 92, type=3, offset=172, size=19)
    file.set("section", 132, name=1, type=1, offset=191, size=6)
    return file.put(172, b"\0.gnu_debugaltlink\0").put(191, b"x\0\x01\x02\x03\x04")


def segment() -> File:
    """Class 32, without sections: one segment that holds all but the last byte of the file."""
    file = plain_header(1, 84).set("header", 0, ph_offset=52, header_size=52, ph_entry_size=32, ph_count=1)
    return file.set("program", 52, type=1, file_size=83, mem_size=83, flags=5, align=1)


def overlaid() -> File:
    """`strtab` with two program headers that lie over its section headers."""
    return strtab().set("header", 0, ph_offset=52, ph_entry_size=32, ph_count=2)


def words(*numbers) -> bytes:
    return struct.pack(f"<{len(numbers)}I", *numbers)


def hash_file() -> File:
    """Class 32: section 2 is a hash table, whose link is section 3, its two symbols; one is called `ab`."""
    file = with_header(32, 276, 4).set("section", 92, name=1, type=3, offset=212, size=12, align=1)
    file.set("section", 132, name=9, type=5, offset=224, size=20, link=3)
    file.set("section", 172, name=9, type=2, offset=244, size=32, link=1)
    file.put(212, b"\0.strtab\0ab\0").put(224, words(1, 2, 1, 0, 0))
    return file.set("symbol", 260, name=9, info=0x12)


def ascending(bits: int, order: str = LITTLE) -> File:
    """A plain header, and 60 bytes from 64 on that go up from 0."""
    file = plain_header(1 if bits == 32 else 2, 124)
    file.order = order
    return file.put(5, b"\1" if order == LITTLE else b"\2").put(64, bytes(range(60)))


# The data of the `.strtab` of an object file, whose symbols are in `symbols.py`.
OBJECT_NAMES = b"\0s.c\0pad\0start\0maybe\0table\0shared\0outside\0"


def object_names() -> File:
    """Class 64: section 1, `.strtab`, holds those names, and its own behind them."""
    size = len(OBJECT_NAMES) + 8
    file = with_header(64, 192 + size, 2).set("section", 128, name=len(OBJECT_NAMES), type=3, offset=192, size=size, align=1)
    return file.put(192, OBJECT_NAMES + b".strtab\0")


# The files that rows are of, by their names.
BASES = {
    **{f"strtab-{order}": strtab(order) for order in ORDERS},
    **{f"wide-strtab-{order}": wide_strtab(order) for order in ORDERS},
    **{f"dynstr-{order}": dynstr(order) for order in ORDERS},
    **{f"shndx-{order}": shndx(order) for order in ORDERS},
    **{f"debug-link-{order}": debug_link(order) for order in ORDERS},
    **{f"ascending-{bits}-{order}": ascending(bits, order) for bits in (32, 64) for order in ORDERS},
    "alternate-link": alternate_link(), "segment": segment(), "overlaid": overlaid(), "hash": hash_file(),
    "object-names": object_names(), "plain-32": plain_header(1, 52), "plain-64": plain_header(2, 64),
}

TEXTS = dict(re.findall(r'Self::(\w+) => "([^"]*)"', ERRORS.read_text(encoding="utf-8")))

NONE = "none"


def ok(*values) -> str:
    return " ".join(["ok", *map(str, values)])


def err(name: str) -> str:
    """A error by the name of the error."""
    return f"err {TEXTS[name]}"


def quoted(text: str) -> str:
    return "".join("\\\\" if c == "\\" else c if " " <= c <= "~" else f"\\{ord(c):x};" for c in text)


def text(value: str) -> str:
    """An result that is a text."""
    return ok(quoted(value))


def told(data: bytes) -> str:
    """Bytes: how many there are, and a number of them, twice, as of the first and of the last 4096."""
    number = 0
    for byte in data:
        number = (number * 31 + byte) % 2**32
    assert len(data) <= 4096
    return f"{len(data)} {number} {number}"
