"""The records of a table, from the archive's memory to tuples."""
from __future__ import annotations

from ctypes import byref, c_uint64, create_string_buffer
from itertools import chain
from struct import Struct
from typing import Any, Iterator, Tuple

from ._archive import ElfError, check, library
from ._declarations import Status

Row = Tuple[Any, ...]
# A number of 64 bits.
NUMBER = Struct("@Q")
# How many records the first call fills.
ROOM = 512


def batches(export: str, layout: Struct, *arguments: Any, room: int = ROOM) -> Iterator[Iterator[Row]]:
    """The records of a table from index 0 on, call by call. They are copied out of the memory that a call fills: an iterator
    over a view of it, kept by an error's traceback, can end CPython 3.11 in its garbage collector. A call after one that had
    too little room has twice as much: some read the records from the first on."""
    call, first, filled = getattr(library, export), 0, c_uint64()
    records = create_string_buffer(room * layout.size)
    while True:
        status = call(*arguments, first, records, room, byref(filled))
        if status == Status.NO_RECORD:
            return
        check(status)
        yield layout.iter_unpack(bytes(memoryview(records)[: filled.value * layout.size]))
        first += filled.value
        if filled.value == room:
            room *= 2
            records = create_string_buffer(room * layout.size)


def one(export: str, layout: Struct, *arguments: Any) -> Row:
    """The record of a table at an index, which is the last argument."""
    record, filled = create_string_buffer(layout.size), c_uint64()
    check(getattr(library, export)(*arguments, record, 1, byref(filled)))
    return layout.unpack(record)


def rows(export: str, layout: Struct, *arguments: Any, room: int = ROOM) -> Iterator[Row]:
    """The records of a table from index 0 on."""
    return chain.from_iterable(batches(export, layout, *arguments, room=room))


def of_segment(file: Any, export: str, layout: Struct) -> Iterator[Row]:
    """The records of a table of the dynamic segment; none if there is no such segment. Some calls read the records from the
    first on, so they are given room for many."""
    try:
        yield from rows(export, layout, *file._input, room=min(1 << 16, 1 + len(file._view) // 8))
    except ElfError as error:
        if not file._has_no_dynamic(error):
            raise
