"""Sections, segments and what they hold."""
from __future__ import annotations

from itertools import chain, repeat
from reprlib import Repr
from struct import Struct
from typing import Any, Callable, Iterable, Iterator, List, NamedTuple, Tuple, Type, TypeVar

from . import _declarations as declared
from ._archive import check, library
from ._declarations import _document
from ._numbers import unsigned
from ._rows import NUMBER, Row, batches, of_segment, one, rows
from .constants import DT, DT_NULL, EM_386, EM_AARCH64, EM_X86_64, PF, PF_R, PF_W, PF_X, PT, R_386, R_AARCH64, R_X86_64
from .constants import SHF, SHN, SHN_LORESERVE, SHN_UNDEF, SHT, SHT_NOBITS, SHT_NULL, STB, STT, STV

_Record = TypeVar("_Record", bound=Tuple[Any, ...])

# Shortens names: those of C++ have hundreds of characters.
_short = Repr()
_short.maxstring = 100

# The names of the numbers that symbols have, by the numbers.
_TYPES, _BINDINGS = tuple(map(STT, range(16))), tuple(map(STB, range(16)))
_VISIBILITIES = tuple(map(STV, range(4)))


def permissions(flags: int) -> str:
    """The permissions of a segment as three letters."""
    return "".join(letter if flags & flag else "-" for letter, flag in zip("RWX", (PF_R, PF_W, PF_X)))


class Header(declared.HeaderRecord):
    """The ELF header of a file."""

    __slots__ = ()

    def __repr__(self) -> str:
        return f"<Header {self.type} {self.machine}, entry point {self.entry_point:#x}>"


class Symbol(declared.SymbolRecord):
    """A symbol of a symbol table."""

    __slots__ = ()

    def __repr__(self) -> str:
        section = SHN(self.shndx) if self.shndx >= SHN_LORESERVE or not self.shndx else f"section {self.shndx}"
        return f"<Symbol {_short.repr(self.name)} {self.type} {self.binding} {section} at {self.value:#x}, {self.size} bytes>"

    @property
    def binding(self) -> STB:
        """The binding (st_info)."""
        return _BINDINGS[self.info >> 4]

    @property
    def type(self) -> STT:
        """The type (st_info)."""
        return _TYPES[self.info & 15]

    @property
    def visibility(self) -> STV:
        """The visibility (st_other)."""
        return _VISIBILITIES[self.other & 3]

    @property
    def is_defined(self) -> bool:
        """Whether the symbol belongs to a section, or has a reserved index of one: it isn't SHN_UNDEF."""
        return self.shndx != SHN_UNDEF


class Relocation(declared.RelocationRecord):
    """A relocation. Its addend is a signed number of the width of the file's class, and 0 in a table without addends. In a
    file for x86-64, 386 or AArch64 its type has a name: `relocation.type == R_X86_64_RELATIVE`, `relocation.type.name`."""

    __slots__ = ()

    def __repr__(self) -> str:
        return f"<Relocation at {self.offset:#x} of type {self.type}, symbol {self.symbol}, addend {self.addend:#x}>"


class RelocationX86_64(Relocation):
    """A relocation for x86-64."""

    __slots__ = ()

    @property
    def type(self) -> R_X86_64:
        """How to compute the value that is stored (r_info)."""
        return R_X86_64(self[3])


class Relocation386(Relocation):
    """A relocation for 386."""

    __slots__ = ()

    @property
    def type(self) -> R_386:
        """How to compute the value that is stored (r_info)."""
        return R_386(self[3])


class RelocationAArch64(Relocation):
    """A relocation for AArch64."""

    __slots__ = ()

    @property
    def type(self) -> R_AARCH64:
        """How to compute the value that is stored (r_info)."""
        return R_AARCH64(self[3])


_OF_MACHINES = {EM_X86_64: RelocationX86_64, EM_386: Relocation386, EM_AARCH64: RelocationAArch64}


def relocation_kind(file: Any) -> Type[Relocation]:
    """The class of the relocations of a file."""
    return _OF_MACHINES.get(file.header.machine, Relocation)


class Dynamic(declared.DynamicRecord):
    """A dynamic entry."""

    __slots__ = ()

    def __repr__(self) -> str:
        return f"<Dynamic {self.tag} {self.value:#x}>"


class Note(NamedTuple):
    """A note."""

    name: memoryview
    type: int
    desc: memoryview

    def __repr__(self) -> str:
        return f"<Note {bytes(self.name[:40])!r} {self.type!r}, {len(self.desc)} bytes>"


_document(
    Note,
    name='Who defines the type, without the zero byte that ends it: it compares with bytes, as `note.name == b"GNU"`.',
    type="The type, whose meaning depends on the name: NT_.. for GNU.",
    desc="The description.",
)

# The addend is signed, and of the width of the class: an archive for x86-64 has its lower half first.
_RELOCATIONS = {
    64: Struct(declared.RELOCATION.format.replace("QQ", "Qq", 1)),
    32: Struct(declared.RELOCATION.format.replace("QQ", "Qi4x", 1)),
}


def _as(kind: Type[_Record], records: Iterator[Row]) -> Iterator[_Record]:
    """Records as tuples of a kind, by calls in C alone."""
    make: Callable[[Type[_Record], Row], _Record] = tuple.__new__
    return map(make, repeat(kind), records)


def entries_of_segment(file: Any) -> Iterator[Dynamic]:
    """The dynamic entries of the segment of type PT_DYNAMIC, those after the entry with tag 0 too."""
    return (Dynamic(DT(tag), value) for tag, value in of_segment(file, "xmas_elf_dynamic_entries", declared.DYNAMIC))


def up_to_null(entries: Iterable[Dynamic]) -> Iterator[Dynamic]:
    """The dynamic entries up to that with tag 0 (DT_NULL), which is the last."""
    for entry in entries:
        yield entry
        if entry.tag == DT_NULL:
            return


def relocations_of_segment(file: Any) -> Iterator[Relocation]:
    """Those of the tables DT_RELA, DT_REL and DT_JMPREL, in this order."""
    return _as(relocation_kind(file), of_segment(file, "xmas_elf_dynamic_relocations", _RELOCATIONS[file.elfclass]))


def packed_relocations_of_segment(file: Any) -> Iterator[int]:
    """The addresses in the table DT_RELR."""
    return (address for (address,) in of_segment(file, "xmas_elf_dynamic_packed_relocations", NUMBER))


def _symbols_of_batch(view: memoryview, records: Iterator[Row], names: Iterator[Row]) -> List[Symbol]:
    new = tuple.__new__
    return [
        new(Symbol, (None if status else str(view[offset : offset + size], "utf-8"), status) + fields)
        for fields, (offset, size, status) in zip(records, names)
    ]


def symbols_of(file: Any, table: Any) -> Iterator[Symbol]:
    """The symbols of a table that the archive found, with their names."""
    records = batches("xmas_elf_symbols", declared.SYMBOL, *file._input[:2], table)
    names, view = batches("xmas_elf_symbol_names", declared.NAME, *file._input[:2], table), file._view
    return chain.from_iterable(_symbols_of_batch(view, *both) for both in zip(records, names))


class Section(declared.SectionRecord):
    """A section: the fields of its header, its name, and what it holds."""

    __slots__ = ()

    def __repr__(self) -> str:
        return f"<Section {self.index} {_short.repr(self.name)} {self.type} {self.flags}, {self.size} bytes at offset {self.offset:#x}>"

    def check(self) -> None:
        """Raises if the reader doesn't know the type."""
        check(library.xmas_elf_check_section(*self.file._input, self.index))

    def data(self) -> memoryview:
        """The bytes in the file: none for types SHT_NOBITS and SHT_NULL. An error for types that the reader doesn't know."""
        offset, size = self._data_range()
        return self.file._view[offset : offset + size]

    def _data_range(self) -> Row:
        if self.type in (SHT_NOBITS, SHT_NULL):
            return 0, 0
        return self.file._asked("xmas_elf_section_data", declared.RANGE, self.index)

    def text(self, index: int) -> str:
        """The text that begins at an index of a string table, in bytes."""
        return self.file._text(self._data_range(), unsigned(index))

    def symbols(self) -> Iterator[Symbol]:
        """The symbols with their names, from index 0 on. An error if the section isn't a symbol table."""
        return symbols_of(self.file, self.file._table("xmas_elf_symbols_open", self.index))

    def symbol(self, index: int) -> Symbol:
        """The symbol at an index."""
        table = self.file._table("xmas_elf_symbols_open", self.index)
        fields = one("xmas_elf_symbols", declared.SYMBOL, *self.file._input[:2], table, unsigned(index))
        offset, size, status = one("xmas_elf_symbol_names", declared.NAME, *self.file._input[:2], table, index)
        return Symbol(None if status else self.file._text_in((offset, size)), status, *fields)

    def relocations(self) -> Iterator[Relocation]:
        """The relocations. An error if the section has none by its type."""
        layout = _RELOCATIONS[self.file.elfclass]
        return _as(relocation_kind(self.file), rows("xmas_elf_relocations", layout, *self.file._input, self.index))

    def packed_relocations(self) -> Iterator[int]:
        """The addresses in the packed relative relocations. An error if the section isn't of type SHT_RELR."""
        return (address for (address,) in rows("xmas_elf_packed_relocations", NUMBER, *self.file._input, self.index))

    def dynamic(self) -> Iterator[Dynamic]:
        """The dynamic entries, those after the entry with tag 0 too. An error if the section has none by its type."""
        entries = rows("xmas_elf_dynamics", declared.DYNAMIC, *self.file._input, self.index)
        return (Dynamic(DT(tag), value) for tag, value in entries)

    def notes(self) -> Iterator[Note]:
        """The notes that the data is."""
        return (Note(*fields) for fields in self.file._notes(self._data_range(), self.align))


class Segment(declared.SegmentRecord):
    """A segment: the fields of its program header, and its data."""

    __slots__ = ()

    def __repr__(self) -> str:
        return f"<Segment {self.index} {self.type} {permissions(self.flags)}, {self.file_size} bytes at offset {self.offset:#x}>"

    def check(self) -> None:
        """Raises where the header doesn't agree with the input: the size of the table's entries, the end of the segment, its
        type and its alignment. A segment that ends where the input ends is an error too."""
        check(library.xmas_elf_check_segment(*self.file._input, self.index))

    def data(self) -> memoryview:
        """The data. An error for type PT_NULL and for types that the reader doesn't know."""
        return self.file._slice("xmas_elf_segment_data", self.index)

    def notes(self) -> Iterator[Note]:
        """The notes that the data is."""
        data = self.file._asked("xmas_elf_segment_data", declared.RANGE, self.index)
        return (Note(*fields) for fields in self.file._notes(data, self.align))


def section_of(file: Any, index: int, name: Any, status: int, fields: Row) -> Section:
    """A section whose numbers have their names."""
    section = Section(file, index, name, status, *fields)
    return section._replace(type=SHT(section.type), flags=SHF(section.flags))


def segment_of(file: Any, index: int, fields: Row) -> Segment:
    """A segment whose numbers have their names."""
    segment = Segment(file, index, *fields)
    return segment._replace(type=PT(segment.type), flags=PF(segment.flags))

