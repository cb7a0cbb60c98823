"""What a file and its parts share: the bytes, and the archive's results for them."""
from __future__ import annotations

from ctypes import c_uint64, create_string_buffer
from struct import Struct
from typing import Any, Iterator, Tuple

from . import _declarations as declared
from ._archive import ElfError, check, library
from ._declarations import Status
from ._input import address_of, view_of
from ._rows import Row
from .constants import NT


class Reading:
    """The bytes of a file with their header, and calls over them."""

    def __init__(self, source: Any) -> None:
        self._view = view_of(source)
        header = create_string_buffer(declared.HEADER.size)
        bytes_of_file = address_of(self._view), len(self._view)
        check(library.xmas_elf_open(*bytes_of_file, header))
        # What each call begins with.
        self._input: Tuple[int, int, Any] = (*bytes_of_file, header)

    def __getattr__(self, name: str) -> Any:
        if name in ("_input", "_view"):
            raise ValueError("the file is closed")
        raise AttributeError(f"{type(self).__name__!r} object has no attribute {name!r}")

    def _asked(self, export: str, layout: Struct, *arguments: Any) -> Row:
        """The record that a call fills."""
        out = create_string_buffer(layout.size)
        check(getattr(library, export)(*self._input, *arguments, out))
        return layout.unpack(out)

    def _has_no_dynamic(self, error: ElfError) -> bool:
        """Whether the error says that there is no dynamic segment. Raises if there may be one, since the program headers can't be
        read."""
        if error.status != Status.LINK_NO_DYNAMIC:
            return False
        count = declared.CountsRecord._make(self._asked("xmas_elf_counts", declared.COUNTS)).segments
        if count:
            self._asked("xmas_elf_segment", declared.SEGMENT, count - 1)
        return True

    def _table(self, export: str, *arguments: Any) -> Any:
        """The symbols that a call finds: numbers that other calls take back."""
        table = create_string_buffer(declared.SYMBOL_TABLE.size)
        check(getattr(library, export)(*self._input, *arguments, table))
        return table

    def _slice(self, export: str, *arguments: Any) -> memoryview:
        """The bytes whose range a call returns."""
        offset, size = self._asked(export, declared.RANGE, *arguments)
        return self._view[offset : offset + size]

    def _text_in(self, part: Row) -> str:
        offset, size = part
        return str(self._view[offset : offset + size], "utf-8")

    def _text(self, part: Row, index: int) -> str:
        """The text at an index of a string table."""
        out = create_string_buffer(declared.RANGE.size)
        check(library.xmas_elf_text(*self._input[:2], declared.RANGE.pack(*part), index, out))
        return self._text_in(declared.RANGE.unpack(out))

    def _named(self, offset: int, size: int, status: int) -> str:
        """The text of one name of many."""
        check(status)
        return self._text_in((offset, size))

    def _notes(self, rest: Row, align: int) -> Iterator[Tuple[memoryview, int, memoryview]]:
        """The name, the type and the description of each note of a range."""
        while True:
            try:
                fields = self._asked("xmas_elf_note", declared.NOTE, declared.RANGE.pack(*rest), c_uint64(align))
            except ElfError as error:
                if error.status == Status.NO_RECORD:
                    return
                raise
            note = declared.NoteRecord._make(fields)
            name = self._view[note.name_offset : note.name_offset + note.name_size]
            desc = self._view[note.desc_offset : note.desc_offset + note.desc_size]
            name = name[:-1] if name[-1:] == b"\0" else name
            yield name, NT(note.type) if name == b"GNU" else note.type, desc
            rest = note.rest_offset, note.rest_size
