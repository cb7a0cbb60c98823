"""Which bytes of a file belong to what, and which addresses of a section to which symbol."""
from __future__ import annotations

from ctypes import byref, c_uint64, create_string_buffer
from enum import IntEnum
from struct import Struct
from typing import Any, Callable, Dict, Iterator, List, NamedTuple, Optional, Tuple

from . import _declarations as declared
from ._archive import ElfError, check, library
from ._declarations import Status, _document
from ._parts import Section, Symbol
from ._rows import Row
from .constants import ET_REL


# A piece of a section belongs to a symbol.
_SYMBOL = 7
# The section of the symbol is the word at its index in another section (SHN_XINDEX).
_WIDE_INDEX = 0xFFFF


class Owner(IntEnum):
    """What a piece of a file belongs to: a header, a section, a segment and no section, or nothing, between parts or behind
    all of them."""

    ELF_HEADER = 0
    PROGRAM_HEADERS = 1
    SECTION_HEADERS = 2
    SECTION = 3
    SEGMENT = 4
    BETWEEN = 5
    BEHIND = 6


class Piece(NamedTuple):
    """A longest run of bytes of a file that belong to one part."""

    begin: int
    end: int
    owner: Owner
    index: Optional[int]  # type: ignore[assignment]

    @property
    def size(self) -> int:
        """The number of bytes."""
        return self.end - self.begin


class SymbolPiece(NamedTuple):
    """A longest run of addresses of a section in one symbol, or in none."""

    begin: int
    end: int
    index: Optional[int]  # type: ignore[assignment]
    symbol: Optional[Symbol]

    @property
    def size(self) -> int:
        """The number of addresses."""
        return self.end - self.begin


_document(
    Piece,
    begin="The offset of the first byte.",
    end="The offset after the last byte.",
    owner="What the bytes belong to.",
    index="The index of the section or the segment, or None.",
)
_document(
    SymbolPiece,
    begin="The first address; in an object file the offset in the section.",
    end="The address after the last.",
    index="The index of the symbol in its table, or None.",
    symbol="The symbol, or None.",
)


def _stored(call: Callable[[Any, int], int], room: int) -> Iterator[Row]:
    """The pieces that a call stores, which returns their number. It is asked again if there was too little room."""
    while True:
        pieces = create_string_buffer(room * declared.PIECE.size)
        count = call(pieces, room)
        if count <= room:
            return declared.PIECE.iter_unpack(pieces.raw[: count * declared.PIECE.size])
        room = count


def pieces_of(file: Any) -> Iterator[Piece]:
    def sizes(*arguments: Any) -> Any:
        return declared.PieceSizesRecord._make(file._asked("xmas_elf_pieces", declared.PIECE_SIZES, 0, *arguments))

    needed = sizes(None, 0, None, 0, None, 0)
    memory = create_string_buffer(4 * needed.words), needed.words, create_string_buffer(8 * needed.numbers), needed.numbers
    for begin, end, index, number in _stored(lambda pieces, room: int(sizes(*memory, pieces, room).count), needed.words + 7):
        owner = Owner(number)
        yield Piece(begin, end, owner, index if owner in (Owner.SECTION, Owner.SEGMENT) else None)


class SectionSymbols:
    """The symbols of a file by section: a copy of their table in which those of each section lie one after the other, so
    that the pieces of a section take no pass over the symbols of others."""

    def __init__(self, file: Any, table: Any, indices: Tuple[int, int]) -> None:
        it = declared.SymbolTableRecord._make(declared.SYMBOL_TABLE.unpack(table))
        records, words, strings = (
            bytes(file._view[offset : offset + size])
            for offset, size in ((it.symbols_offset, it.symbols_size), indices, (it.strings_offset, it.strings_size))
        )
        if len(words) != indices[1] or len(words) % 4:
            raise ElfError(Status.NOT_MULTIPLE if len(words) == indices[1] else Status.DATA_RANGE)
        layout, order = _index_layout(it.file_class, it.encoding), "<" if it.encoding != 2 else ">"
        wide = [word for (word,) in Struct(order + "I").iter_unpack(words)]
        sections = [
            (wide[index] if index < len(wide) else 0) if section == _WIDE_INDEX else section
            for index, (section,) in enumerate(layout.iter_unpack(records))
        ]
        # The order of the table stays within a section.
        self._order = sorted(range(len(sections)), key=sections.__getitem__)
        self._size, self._record = layout.size, it
        copied = b"".join(_item(records, layout.size, place) for place in self._order)
        words = b"".join(_item(words, 4, place) for place in self._order) if words else b""
        self._words_at, self._strings_at = len(copied), len(copied) + len(words)
        self._has_words, self._input, self._machine = bool(words), copied + words + strings, int(file.header.machine)
        self._groups: Dict[int, Tuple[int, int]] = {}
        for place, index in enumerate(self._order):
            first, count = self._groups.get(sections[index], (place, 0))
            self._groups[sections[index]] = first, count + 1

    def pieces(self, section: int, begin: int, end: int) -> List[Row]:
        """The pieces of addresses of a section, with the indices of symbols in the table of the file."""
        first, count = self._groups.get(section, (0, 0))
        table = (self._size * first, self._size * count, self._strings_at, self._record.strings_size, count, *self._record[5:])
        part = (self._words_at + 4 * first, 4 * count) if self._has_words else (0, 0)
        index = declared.ADDRESS_INDEX.pack(*table, *part, 0, 0, 0, 0, section, self._machine)
        total, words, numbers = c_uint64(), create_string_buffer(8 * count), create_string_buffer(16 * count)

        def call(pieces: Any, room: int) -> int:
            arguments = index, begin, end, 0, words, 2 * count, numbers, 2 * count, pieces, room, byref(total)
            check(library.xmas_elf_symbol_pieces(self._input, len(self._input), *arguments))
            return total.value

        found = _stored(call, 2 * count + 1)
        return [(one, last, self._order[first + place] if owner == _SYMBOL else 0, owner) for one, last, place, owner in found]


def _item(data: bytes, size: int, index: int) -> bytes:
    """The record of a size at an index; zeros past the end."""
    return data[size * index : size * (index + 1)].ljust(size, b"\0")


def _index_layout(file_class: int, encoding: int) -> Struct:
    """Of a symbol in the file its section index (st_shndx)."""
    return Struct(("<" if encoding != 2 else ">") + ("14xH" if file_class == 1 else "6xH16x"))


def symbol_pieces_of(file: Any, section: Section) -> Iterator[SymbolPiece]:
    begin = 0 if file.header.type == ET_REL else section.address
    end = min(begin + section.size, 2**64 - 1)
    # Section 0 has no symbols, and would ask for those of all sections.
    symbols = file._section_symbols if section.index and not section.index >> 32 else None
    if symbols is None:
        return iter([SymbolPiece(begin, end, None, None)] if begin < end else [])
    index = file._address_index(0)
    return (
        SymbolPiece(first, last, number, index.symbol(number)) if owner == _SYMBOL else SymbolPiece(first, last, None, None)
        for first, last, number, owner in symbols.pieces(section.index, begin, end)
    )
