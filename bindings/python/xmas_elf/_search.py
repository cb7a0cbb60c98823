"""The rules by which the loader of glibc finds libraries, as the archive has them."""
from __future__ import annotations

from array import array
from ctypes import byref, c_uint32, c_uint64, create_string_buffer
from struct import Struct
from typing import Any, Dict, Iterable, Iterator, List, NamedTuple, Optional, Sequence, Tuple

from . import _declarations as declared
from ._archive import ElfError, check, library
from ._declarations import Status
from ._input import Address, address_of
from ._rows import rows
from ._systems import Processor, System

# What an entry found that is missing, and that was not asked for.
MISSING, NOT_ASKED = 0xFFFFFFFF, 0xFFFFFFFE
NEEDED, AUXILIARY, FILTER = 1, 2, 3
HOW = ("", "path", "rpath", "library-path", "runpath", "cache", "conf", "default")
DT_SONAME, DT_RPATH, DT_RUNPATH, DT_FLAGS_1 = 14, 15, 29, 0x6FFFFFFB
_TEXT = Struct("@PN")


class Held:
    """Bytes that records name; they stay in memory as long as this does."""

    def __init__(self) -> None:
        self.kept: List[Address] = []

    def text(self, content: Any) -> Tuple[int, int]:
        view = memoryview(content)
        self.kept.append(address_of(view))
        return self.kept[-1], len(view)

    def texts(self, contents: Sequence[bytes]) -> Tuple[int, int]:
        return self.text(b"".join(_TEXT.pack(*self.text(it)) for it in contents))[0], len(contents)


class Values(NamedTuple):
    """The values of the dynamic string tokens for an object; an empty one is not known."""

    origin: bytes
    lib: bytes
    platform: bytes


def _filled(export: str, *arguments: Any) -> bytes:
    """The bytes that calls write, from the first on."""
    call, room, parts, first, count = getattr(library, export), 1 << 12, [], 0, c_uint64()
    while True:
        out = create_string_buffer(room)
        status = call(*arguments, first, out, room, byref(count))
        if status == Status.NO_RECORD:
            break
        check(status)
        parts.append(out.raw[: count.value])
        first += count.value
        if count.value < room:
            break
        room *= 2
    return b"".join(parts)


def expanded(text: bytes, values: Values) -> Optional[bytes]:
    """A text with its tokens replaced; None if a value is not known."""
    held = Held()
    tokens = declared.TOKENS.pack(*(part for value in values for part in held.text(value)))
    try:
        return _filled("xmas_elf_expand", text, len(text), tokens)
    except ElfError as error:
        if error.status != Status.SEARCH_EMPTY_TOKEN:
            raise
        return None


def needed_names(file: Any) -> Iterator[Tuple[bytes, int]]:
    """The names that a file asks for, with their kinds; none if it has no dynamic segment."""
    try:
        for offset, size, status, kind in rows("xmas_elf_needed_names", declared.NEEDED_NAME, *file._input):
            check(status)
            yield bytes(file._view[offset : offset + size]), kind
    except ElfError as error:
        if error.status != Status.LINK_NO_DYNAMIC:
            raise


def last_text(file: Any, tag: int) -> Optional[bytes]:
    """The text that the last dynamic entry with a tag names, if there is one."""
    try:
        offset, size = file._asked("xmas_elf_last_text", declared.RANGE, c_uint64(tag))
    except ElfError as error:
        if error.status not in (Status.NOT_FOUND, Status.LINK_NO_DYNAMIC):
            raise
        return None
    return bytes(file._view[offset : offset + size])


def has_flag(file: Any, flag: int) -> bool:
    """Whether the last entry DT_FLAGS_1 has a flag."""
    try:
        (flags,) = file._asked("xmas_elf_last_entry", Struct("@Q"), c_uint64(DT_FLAGS_1))
    except ElfError:
        return False
    return bool(flags & flag)


def fits(head: bytes, size: int, file_class: int, machine: int) -> bool:
    """Whether a file with these first bytes is taken, or else passed over. An error ends the search."""
    found = c_uint32()
    check(library.xmas_elf_fits(head, len(head), size, file_class, machine, byref(found)))
    return bool(found.value)


def check_library(file: Any) -> None:
    check(library.xmas_elf_check_library(*file._input))


class Cache:
    """The bytes of ld.so.cache, as a machine reads them."""

    def __init__(self, content: bytes, system: System, processor: Processor) -> None:
        self.content, self._held = content, Held()
        self._machine = declared.CACHE_MACHINE.pack(
            *self._held.texts(processor.names), system.bits | processor.bits, processor.platform_bit,
            system.flags, system.other_flags, processor.levels,
        )

    def path_of(self, name: bytes) -> bytes:
        """The path for a name; empty if there is none."""
        try:
            return _filled("xmas_elf_cache_path", self.content, len(self.content), name, len(name), self._machine)
        except ElfError as error:
            if error.status not in (Status.NOT_FOUND, *_UNUSABLE):
                raise
            return b""


_UNUSABLE = (Status.SEARCH_NOT_A_CACHE, Status.SEARCH_CACHE_COUNT, Status.SEARCH_CACHE_ORDER)


def is_cache(content: bytes) -> bool:
    """Whether the loader reads these bytes as a cache."""
    machine = declared.CACHE_MACHINE.pack(0, 0, 0, 0, 0, 0, 0)
    out, count = create_string_buffer(1), c_uint64()
    return library.xmas_elf_cache_path(content, len(content), b"", 0, machine, 0, out, 1, byref(count)) not in _UNUSABLE


class Asker(NamedTuple):
    """What an object says about the search."""

    r_path: Optional[bytes]
    run_path: Optional[bytes]
    values: Values
    no_default: bool


class Around(NamedTuple):
    """What a search depends on, apart from the objects that ask."""

    library_path: bytes
    conf: bytes
    defaults: bytes
    subdirectories: List[bytes]
    program: Values


def candidates(name: bytes, cached: bytes, askers: Sequence[Asker], around: Around) -> Iterator[Tuple[bytes, int, int, int]]:
    """The paths to try for a name, each with the list that it is of: a number, and the index of the asker; and the size of its
    subdirectory."""
    held = Held()
    search = declared.SEARCH_FOR.pack(
        *(part for text in (name, around.library_path, cached, around.conf, around.defaults) for part in held.text(text)),
        *held.texts(around.subdirectories), *(part for value in around.program for part in held.text(value)),
    )
    chain = b"".join(
        declared.SEARCH_ASKER.pack(
            *held.text(it.r_path or b""), *held.text(it.run_path or b""), *(part for value in it.values for part in held.text(value)),
            it.run_path is not None, it.no_default,
        )
        for it in askers
    )
    asked = search, chain, len(askers)
    numbers = rows("xmas_elf_candidates", declared.CANDIDATE_PATH, *asked, room=64)
    for path, (how, asker, size) in zip(_paths(asked), numbers):
        yield path, how, asker, size


def _paths(asked: Tuple[Any, ...]) -> Iterator[bytes]:
    rest = bytearray()
    for (byte,) in rows("xmas_elf_candidate_paths", Struct("@B"), *asked, room=1 << 12):
        if byte:
            rest.append(byte)
        else:
            yield bytes(rest)
            rest.clear()


class Order:
    """What the entries of the objects found, in the order in which these are loaded."""

    def __init__(self) -> None:
        self.found: List["array[int]"] = []
        self.kinds: List["array[int]"] = []
        self._held = Held()

    def add(self, kinds: Iterable[int]) -> None:
        """Adds an object with entries of these kinds, none of which was asked for."""
        self.kinds.append(array("I", kinds))
        self.found.append(array("I", [NOT_ASKED] * len(self.kinds[-1])))

    @property
    def is_plain(self) -> bool:
        """Whether all entries are of libraries that are needed."""
        return all(kind == NEEDED for kinds in self.kinds for kind in kinds)

    def _asked(self) -> Tuple[Any, ...]:
        """What both calls begin with: the records of the objects, and words."""
        self._held = Held()
        both = zip(self.found, self.kinds)
        packed = b"".join(declared.DEPENDENCIES.pack(*self._numbers(found), *self._numbers(kinds)) for found, kinds in both)
        words, edges = 4 * len(self.found) + 4, sum(map(len, self.found)) + 1
        return packed, len(self.found), (c_uint32 * words)(), words, (c_uint32 * edges)(), edges

    def _numbers(self, numbers: "array[int]") -> Tuple[int, int]:
        return self._held.text(numbers.tobytes())[0], len(numbers)

    def next(self) -> Optional[Tuple[int, int]]:
        """The object and the index of its entry that is to be asked for next; None if all were."""
        out = create_string_buffer(declared.OBJECT_ENTRY.size)
        status = library.xmas_elf_next_entry(*self._asked(), out)
        if status == Status.NO_RECORD:
            return None
        check(status)
        number, entry = declared.OBJECT_ENTRY.unpack(out)
        return number, entry

    def orders(self) -> Tuple[List[int], List[int]]:
        """The numbers of the objects in the order in which symbols are looked up, and those of the libraries in the order in which
        they start."""
        size, count = len(self.found), c_uint64()
        listed, starts = (c_uint32 * size)(), (c_uint32 * (3 * size))()
        check(library.xmas_elf_start_order(*self._asked(), listed, size, starts, 3 * size, byref(count)))
        return list(listed), list(starts)[: count.value]


def missing_versions(file: Any, name: bytes, provider: Any) -> Iterator[Tuple[Any, int]]:
    """The needs of versions of a file that call an object by a name and that it doesn't fulfil, each with why; those of other names
    are left out."""
    given = name, len(name), *provider._input
    for *version, lack in rows("xmas_elf_missing_versions", declared.LACKED_VERSION, *file._input, *given):
        found = declared.VersionRecord._make(version)
        if found.status != Status.SEARCH_NO_PROVIDER:
            yield found, lack


def needed_versions(file: Any) -> Dict[Any, int]:
    """The needs of versions of a file, each with its place among them; none if it has no dynamic segment."""
    try:
        found = list(rows("xmas_elf_version_needs", declared.VERSION, *file._input))
    except ElfError as error:
        if error.status != Status.LINK_NO_DYNAMIC:
            raise
        return {}
    return {declared.VersionRecord._make(fields): place for place, fields in reversed(list(enumerate(found)))}
