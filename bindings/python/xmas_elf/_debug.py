"""Separate debug files, in which the symbols of a stripped file are (gdb's manual, "Separate Debug Files")."""
from __future__ import annotations

import os
from ctypes import byref, c_uint32, create_string_buffer
from enum import IntEnum
from itertools import count
from typing import Any, Callable, Iterator, NamedTuple, Optional, Sequence, Tuple, Union

from . import _declarations as declared
from ._archive import ElfError, check, library
from ._declarations import Status, _document
from ._input import address_of

SEARCH = ("/usr/lib/debug",)


class DebugHow(IntEnum):
    """How a debug file is found: by the build id, or by the name in `.gnu_debuglink` in the folder of the file, in `.debug`
    there, or in the same folder under the directory."""

    BUILD_ID = 0
    FOLDER = 1
    SUBFOLDER = 2
    DIRECTORY = 3


class DebugCandidate(NamedTuple):
    """A path at which a debug file may be."""

    path: str
    how: DebugHow
    status: Union[None, Status, int]


_document(
    DebugCandidate,
    path="The path.",
    how="How the file is found.",
    status="None where no file can be read; `Status.OK` for the debug file; else why it is another file.",
)


def debug_crc(data: Any) -> int:
    """The CRC-32 of the bytes of a debug file, which `.gnu_debuglink` has."""
    address, found = address_of(memoryview(data).cast("B")), c_uint32()
    check(library.xmas_elf_debug_crc(address, len(address.view), byref(found)))
    return found.value


def _candidates(file: Any, path: bytes, directory: bytes) -> Iterator[Tuple[DebugHow, bytes]]:
    found = create_string_buffer(declared.DEBUG_CANDIDATE.size)
    for index in count():
        room = 0
        while True:
            text = create_string_buffer(room + 1)
            arguments = path, len(path), directory, len(directory), index, text, room, found
            status = library.xmas_elf_debug_path(*file._input, *arguments)
            if status == Status.NO_RECORD:
                return
            check(status)
            size, how = declared.DEBUG_CANDIDATE.unpack(found)
            if size <= room:
                yield DebugHow(how), text.raw[:size]
                break
            room = size


def debug_paths_of(file: Any, search: Sequence[str], path: Optional[str]) -> Iterator[Tuple[DebugHow, str]]:
    """The paths at which the debug file may be: by the build id in each directory, and then by the link."""
    place = os.path.realpath(path) if path is not None else ""
    found = [it for directory in search or ("",) for it in _candidates(file, os.fsencode(place), os.fsencode(directory))]
    # Without directories there are the folders of the file; bytes have no folder.
    wanted = {DebugHow.BUILD_ID, DebugHow.DIRECTORY} if search else set()
    wanted = wanted | {DebugHow.FOLDER, DebugHow.SUBFOLDER} if place else wanted - {DebugHow.DIRECTORY}
    for how, one in sorted(dict.fromkeys(found), key=lambda it: it[0]):
        if how in wanted:
            yield how, os.fsdecode(one)


def check_sources(file: Any, search: Sequence[str], path: Optional[str]) -> None:
    """Raises if a part of the file that may name its debug file can't be read: the notes, where directories are searched; the section
    headers, their names and the link, where the file has a path."""
    if search:
        _ = file.build_id
    for section in file.sections() if path is not None else ():
        # A name that isn't UTF-8 is that of another section.
        if section.name is None and section.name_status != Status.TEXT_UTF_8:
            raise ElfError(section.name_status)
        if section.name == ".gnu_debuglink":
            section.data()


def opened_candidate(file: Any, how: DebugHow, path: str, load: Callable[[str], Any]) -> Tuple[Union[None, Status, int], Any]:
    """Whether the debug file is at a path, and the file if it is; None if no file is there."""
    if not os.path.isfile(path):
        return None, None
    try:
        debug = load(path)
    except OSError:
        return None, None
    except ElfError as error:
        return error.status, None
    status = library.xmas_elf_check_debug(*file._input, how, *debug._input)
    if status == 0:
        return Status.OK, debug
    debug.close()
    return ElfError(status).status, None
