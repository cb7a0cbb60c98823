"""The symbols of addresses."""
from __future__ import annotations

from array import array
from ctypes import create_string_buffer
from typing import Any, Dict, Iterable, List, NamedTuple, Optional, Tuple

from . import _declarations as declared
from ._archive import ElfError, check, library
from ._declarations import _document
from ._parts import Symbol
from ._rows import one

# The integer types of 32 and 64 bits.
_WORD = next(letter for letter in "IL" if array(letter).itemsize == 4)
_NUMBER = next(letter for letter in "LQ" if array(letter).itemsize == 8)


class SymbolAt(NamedTuple):
    """The symbol of an address."""

    symbol: Symbol
    index: int  # type: ignore[assignment]
    offset: int

    def __str__(self) -> str:
        return f"{self.symbol.name}+{self.offset:#x}"


_document(
    SymbolAt,
    symbol="The symbol.",
    index="The index of the symbol in its table.",
    offset="The address less the value of the symbol.",
)


class AddressIndex:
    """The index of the symbols of a table by their addresses, with its words and numbers."""

    def __init__(self, file: Any, table: Any, indices: Tuple[int, int], within: int) -> None:
        self._file, self._table = file, table
        part = declared.RANGE.pack(*indices)
        self._index = create_string_buffer(declared.ADDRESS_INDEX.size)
        for is_known in (False, True):
            # The first call says how many words and numbers the index takes.
            words, numbers = (self.sizes.words, self.sizes.numbers) if is_known else (0, 0)
            self._words, self._numbers = create_string_buffer(4 * words), create_string_buffer(8 * numbers)
            memory = self._words, words, self._numbers, numbers
            check(library.xmas_elf_address_index(*file._input, table, part, within, *memory, self._index))
        self._names: Dict[int, Tuple[Optional[str], int]] = {}

    @property
    def sizes(self) -> Any:
        """The record of the index."""
        return declared.AddressIndexRecord._make(declared.ADDRESS_INDEX.unpack(self._index))

    def symbols_at(self, addresses: Iterable[int]) -> List[Optional[SymbolAt]]:
        """The symbols of addresses, in their order, by one call of the archive."""
        numbers = array(_NUMBER, addresses)
        count, sizes = len(numbers), self.sizes
        found = create_string_buffer(count * declared.SYMBOL_AT.size)
        numbers_at, _ = numbers.buffer_info()
        memory = self._words, sizes.words, self._numbers, sizes.numbers
        check(library.xmas_elf_symbols_at(*self._file._input[:2], self._index, *memory, numbers_at, count, found, count))
        return [self._of(fields) for fields in declared.SYMBOL_AT.iter_unpack(found.raw[: count * declared.SYMBOL_AT.size])]

    def symbol(self, index: int) -> Symbol:
        """The symbol at an index of the table."""
        fields = one("xmas_elf_symbols", declared.SYMBOL, *self._file._input[:2], self._table, index)
        return Symbol(*self._name(fields[2]), *fields)

    def _of(self, fields: Tuple[int, ...]) -> Optional[SymbolAt]:
        *symbol, index, offset, found, _ = fields
        return SymbolAt(Symbol(*self._name(symbol[2]), *symbol), index, offset) if found else None

    def _name(self, index: int) -> Tuple[Optional[str], int]:
        """The text at an index of the string table, with its status."""
        if index not in self._names:
            sizes = self.sizes
            try:
                self._names[index] = self._file._text((sizes.table_strings_offset, sizes.table_strings_size), index), 0
            except ElfError as error:
                self._names[index] = None, int(error.status)
        return self._names[index]
