"""The difference of the sizes of two files."""
from __future__ import annotations

from collections import defaultdict
from ctypes import byref, c_uint64, create_string_buffer
from enum import IntEnum
from struct import Struct
from typing import Any, Dict, Iterator, List, NamedTuple, Optional, Tuple

from . import _declarations as declared
from ._archive import ElfError, check, library
from ._declarations import _document
from ._input import address_of
from ._pieces import Owner
from .constants import ET_REL, SHT_SYMTAB

# Where a part is: in the old file alone, or in the new one alone.
_GONE, _NEW = 0, 1
# A piece of a section belongs to a symbol.
_IN_SYMBOL = 7


class PartKind(IntEnum):
    """What a part of a file is. A part is matched with one of the same kind and name in the other file."""

    SECTION = 0
    SEGMENT = 1
    SYMBOL = 2
    ELF_HEADER = 3
    PROGRAM_HEADERS = 4
    SECTION_HEADERS = 5
    BETWEEN = 6
    BEHIND = 7


_TEXTS = ("section", "segment", "symbol", "ELF header", "program headers", "section headers", "between parts", "after all parts")
_KINDS = {
    Owner.SECTION: PartKind.SECTION, Owner.SEGMENT: PartKind.SEGMENT, Owner.ELF_HEADER: PartKind.ELF_HEADER,
    Owner.PROGRAM_HEADERS: PartKind.PROGRAM_HEADERS, Owner.SECTION_HEADERS: PartKind.SECTION_HEADERS,
    Owner.BETWEEN: PartKind.BETWEEN, Owner.BEHIND: PartKind.BEHIND,
}


class SizeChange(NamedTuple):
    """A part of a file whose size in another file differs. Its text is the line of `elfsize --diff`."""

    kind: PartKind
    name: str
    old_index: Optional[int]
    new_index: Optional[int]
    old_size: int
    new_size: int

    @property
    def difference(self) -> int:
        """By how many bytes the part grew; below 0 if it shrank."""
        return self.new_size - self.old_size

    def __str__(self) -> str:
        mark = "gone " if self.new_index is None else "new " if self.old_index is None else ""
        index = self.old_index if self.new_index is None else self.new_index
        name = f" {index}" if self.kind == PartKind.SEGMENT else f" {self.name}" if self.kind <= PartKind.SYMBOL else ""
        return f"{self.difference:+d} -> {self.new_size} {mark}{_TEXTS[self.kind]}{name}"


_document(
    SizeChange,
    kind="What the part is.",
    name="The name of the section or the symbol; else empty. Bytes that are not UTF-8 are kept as `os.fsdecode` keeps them.",
    old_index="The index of the section, the segment or the symbol in the old file, or None if the part isn't there. For other parts 0.",
    new_index="The same in the new file.",
    old_size="The number of bytes in the old file.",
    new_size="The number of bytes in the new file.",
)

# A part: its kind, and its index among those of the kind, or 0.
_Part = Tuple[PartKind, int]


def _has_symtab(file: Any) -> bool:
    rows, failed = file._section_rows
    return not failed and any(section.type == SHT_SYMTAB for section in map(file._section_at, range(len(rows))))


def _pieces(file: Any, symbols: bool) -> Iterator[Tuple[_Part, int]]:
    """The pieces of a file, those of sections by symbol where these are asked for: their parts and sizes."""
    by_section = file._section_symbols if symbols and _has_symtab(file) else None
    for piece in file.pieces():
        if by_section is None or piece.owner != Owner.SECTION:
            yield (_KINDS[piece.owner], piece.index or 0), piece.size
            continue
        section = file.section(piece.index)
        start = 0 if file.header.type == ET_REL else section.address
        begin, end = (min(start + it - section.offset, 2**64 - 1) for it in (piece.begin, piece.end))
        for first, last, index, owner in by_section.pieces(piece.index, begin, end):
            yield (PartKind.SYMBOL, index) if owner == _IN_SYMBOL else (PartKind.SECTION, piece.index), last - first
        yield (PartKind.SECTION, piece.index), piece.size - (end - begin)


def _text(strings: bytes, index: int) -> bytes:
    """The bytes up to a zero."""
    end = strings.find(b"\0", index)
    return strings[index:end] if 0 <= index < len(strings) and end >= 0 else b"?"


class _Names:
    """The names of the parts of a file; `?` for one that can't be read."""

    def __init__(self, file: Any, symbols: bool) -> None:
        self._file = file
        self._strings, self._symbols, self._layout = b"", memoryview(b""), Struct("<I20x")
        if symbols and _has_symtab(file):
            it = declared.SymbolTableRecord._make(declared.SYMBOL_TABLE.unpack(file._address_table[0]))
            self._strings = bytes(file._view[it.strings_offset : it.strings_offset + it.strings_size])
            self._symbols = file._view[it.symbols_offset : it.symbols_offset + it.symbols_size]
            self._layout = Struct((">" if it.encoding == 2 else "<") + ("I12x" if it.file_class == 1 else "I20x"))

    def of(self, part: _Part) -> bytes:
        kind, index = part
        if kind == PartKind.SECTION:
            return self._section_name(self._file.section(index))
        if kind == PartKind.SYMBOL:
            return _text(self._strings, self._layout.unpack_from(self._symbols, index * self._layout.size)[0])
        return b""

    def _section_name(self, section: Any) -> bytes:
        if section.name is not None:
            return bytes(section.name, "utf-8")
        try:
            offset, size = self._file._asked("xmas_elf_names", declared.RANGE)
        except ElfError:
            return b"?"
        return _text(bytes(self._file._view[offset : offset + size]), section.name_index)


class _Parts:
    """The parts of a file that have bytes, as the archive takes them."""

    def __init__(self, file: Any, symbols: bool) -> None:
        sizes: Dict[_Part, int] = defaultdict(int)
        for part, size in _pieces(file, symbols):
            sizes[part] += size
        names = _Names(file, symbols)
        self.parts = {_place(part): (part, names.of(part)) for part, size in sizes.items() if size}
        # The names stay in memory for the call.
        self._names = address_of(memoryview(b"".join(name for _, name in self.parts.values())))
        rows, begin = bytearray(), int(self._names)
        for place, (part, name) in self.parts.items():
            rows += declared.SIZE_PART.pack(begin, len(name), part[0], place, sizes[part])
            begin += len(name)
        self.rows = create_string_buffer(bytes(rows), max(1, len(rows)))

    def at(self, index: int) -> Tuple[_Part, bytes]:
        """The part at an index of the sorted list, and its name."""
        return self.parts[declared.SIZE_PART.unpack_from(self.rows, index * declared.SIZE_PART.size)[3]]


def _place(part: _Part) -> int:
    """The place of a part, as `elfsize` has it."""
    kind, index = part
    return 4 * index + kind if kind <= PartKind.SYMBOL else 4 * (kind - PartKind.ELF_HEADER) + PartKind.ELF_HEADER


def size_diff(old: Any, new: Any, symbols: bool = False) -> List[SizeChange]:
    """The parts of two files whose sizes differ, the greatest difference first: what `elfsize --diff` prints, with `symbols`
    what it prints with `--symbols`. The n-th part of a kind and a name of the old file is matched with the n-th of the new
    one; segments have no names. A file whose section headers can't all be read has no sections and no symbols there. The
    differences sum to the difference of the sizes of the files."""
    olds, news = _Parts(old, symbols), _Parts(new, symbols)
    room, count = len(olds.parts) + len(news.parts), c_uint64()
    changes = create_string_buffer(max(1, room * declared.SIZE_CHANGE.size))
    check(library.xmas_elf_size_changes(olds.rows, len(olds.parts), news.rows, len(news.parts), changes, room, byref(count)))
    rows = declared.SIZE_CHANGE.iter_unpack(changes.raw[: count.value * declared.SIZE_CHANGE.size])
    found = (_change(olds, news, *row) for row in rows)
    return [change for change in found if change.difference]


def _change(olds: _Parts, news: _Parts, old_index: int, new_index: int, old_size: int, new_size: int, files: int) -> SizeChange:
    old = None if files == _NEW else olds.at(old_index)
    new = None if files == _GONE else news.at(new_index)
    (kind, _), name = new or old  # type: ignore[misc]
    indices = [None if it is None else it[0][1] for it in (old, new)]
    return SizeChange(kind, name.decode("utf-8", "surrogateescape"), indices[0], indices[1], old_size, new_size)
