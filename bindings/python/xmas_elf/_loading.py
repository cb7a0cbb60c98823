"""What Linux and glibc put into memory for a file."""
from __future__ import annotations

from enum import IntEnum
from typing import Any, Dict, Iterable, List, NamedTuple, Optional

from . import _declarations as declared
from ._archive import ElfError, check, library
from ._declarations import Status, _document
from ._parts import Dynamic, entries_of_segment, permissions, up_to_null
from ._rows import rows
from .constants import DF_1, DT_DEBUG, DT_FLAGS_1, ET_DYN, PF, PT_DYNAMIC


class Loader(IntEnum):
    """Whose way of mapping: that of Linux, which maps programs, or of glibc, which maps libraries."""

    LINUX = 0
    GLIBC = 1


class Contents(IntEnum):
    """What a mapping holds: nothing that can be read, pages of the file, or zeros."""

    NO_ACCESS = 0
    FILE = 1
    ZERO = 2


class Mapping(NamedTuple):
    """Pages that are mapped at once."""

    start: int
    end: int
    offset: int
    flags: PF
    contents: Contents

    def __repr__(self) -> str:
        return f"<Mapping {self.start:#x} to {self.end:#x} {permissions(self.flags)} {self.contents.name}, offset {self.offset:#x}>"


class Addresses(NamedTuple):
    """Addresses from `start` on and before `end`."""

    start: int
    end: int


class TlsTemplate(NamedTuple):
    """The template of thread-local storage."""

    address: int
    file_size: int
    mem_size: int
    align: int


class Verdict(NamedTuple):
    """Whether a file, or a program with its libraries, is loaded: true or false, and as a text `yes`, or `no` with the reason."""

    loads: bool
    status: int
    text: str
    of: Optional[int] = None
    by: Optional[Loader] = None

    def __bool__(self) -> bool:
        return self.loads

    def __str__(self) -> str:
        return "yes" if self.loads else f"no: {self.text}"


class LoadPlan(NamedTuple):
    """What Linux and glibc put into memory for a file. Addresses are relative to a base, which is 0 for type ET_EXEC."""

    span: Addresses
    relro: Optional[Addresses]
    tls: Optional[TlsTemplate]
    interpreter: Optional[str]
    entry: int
    stack_flags: Optional[PF]
    linux: List[Mapping]
    glibc: List[Mapping]

    def mappings(self, by: Loader = Loader.LINUX) -> List[Mapping]:
        """What a loader maps before relocation, in the order of addresses. No mapping is empty or overlaps another."""
        return self.glibc if by == Loader.GLIBC else self.linux


_LOAD_MAPPING = declared.LoadMappingRecord
_document(
    Mapping,
    start=_LOAD_MAPPING.start.__doc__ or "",
    end=_LOAD_MAPPING.end.__doc__ or "",
    offset=_LOAD_MAPPING.offset.__doc__ or "",
    flags=_LOAD_MAPPING.flags.__doc__ or "",
    contents="What the pages hold.",
)
_document(Addresses, start="The first address.", end="The first address after the last.")
_document(
    TlsTemplate,
    address="The address of the bytes that the file has.",
    file_size="The number of these bytes.",
    mem_size="The size of the storage in bytes; zeros follow the bytes of the file.",
    align="The alignment of the storage in bytes.",
)
_document(
    Verdict,
    loads="Whether it is loaded.",
    status="The status: OK, or why it isn't.",
    text="The text of the status; of a program with its libraries after the file that it is about, and before the name.",
    of="Of a program with its libraries the index of the file that the reason is about; otherwise None.",
    by="The loader that the verdict is about: of one file that of `ElfFile.loader`; None if the reason isn't one loader's.",
)
_document(
    LoadPlan,
    span="The pages from the first of the first load segment (PT_LOAD) to the last of the last one.",
    relro="The pages that are only readable after relocation (PT_GNU_RELRO), or None.",
    tls="The template of thread-local storage: the last PT_TLS that is not empty, or None.",
    interpreter="The path of the program interpreter (PT_INTERP), or None.",
    entry=declared.LoadPlanRecord.entry.__doc__ or "",
    stack_flags="The permissions of the stack (PT_GNU_STACK); None if the file says none.",
    linux="What Linux maps.",
    glibc="What glibc maps: also the pages between load segments, without access.",
)


def _mappings(file: Any, page: int, limit: int, by: Loader) -> List[Mapping]:
    found = rows("xmas_elf_load_mappings", declared.LOAD_MAPPING, *file._input, page, limit, int(by))
    return [Mapping(start, end, offset, PF(flags), Contents(contents)) for start, end, offset, flags, contents in found]


def marks_program(values: Dict[int, int]) -> bool:
    """Whether one of the dynamic entries, values by their tags, is there in programs alone: DF_1_PIE, or DT_DEBUG."""
    return bool(DF_1(values.get(DT_FLAGS_1, 0)) & DF_1.DF_1_PIE) or DT_DEBUG in values


def _dynamic_values(file: Any) -> Dict[int, int]:
    """The dynamic entries as values by their tags: those of the section, or else of the segment, as far as they can be read."""
    readers: Iterable[Iterable[Dynamic]] = (file.dynamic(), up_to_null(entries_of_segment(file)))
    for entries in readers:
        try:
            values = {int(entry.tag): entry.value for entry in entries}
        except ElfError:
            continue
        if values:
            return values
    return {}


def _has_dynamic_segment(file: Any) -> bool:
    try:
        return any(it.type == PT_DYNAMIC for it in file.segments())
    except ElfError:
        # The program headers that can be read have none.
        return False


def loader_of(file: Any) -> Loader:
    if file.header.type != ET_DYN:
        return Loader.LINUX
    values = _dynamic_values(file)
    is_library = not marks_program(values) and (bool(values) or _has_dynamic_segment(file))
    return Loader.GLIBC if is_library else Loader.LINUX


def check_load(file: Any, by: Loader, page: int = 0, limit: int = 0) -> None:
    """Raises if a loader doesn't map the file."""
    check(library.xmas_elf_check_load(*file._input, page, limit, int(by)))


def _check_kind(file: Any, by: Loader, page: int, limit: int) -> None:
    """Raises if the loader of its kind doesn't map the file."""
    try:
        check_load(file, by, page, limit)
    except ElfError as error:
        # The check of a library is that of glibc on little-endian machines.
        if error.status != Status.LOAD_BYTE_ORDER or file.little_endian:
            raise
        file._asked("xmas_elf_load_plan", declared.LOAD_PLAN, page, limit)


def verdict_of(file: Any, page: int, limit: int) -> Verdict:
    by = loader_of(file)
    try:
        _check_kind(file, by, page, limit)
    except ElfError as error:
        return Verdict(False, error.status, str(error), by=by)
    return Verdict(True, Status.OK, "", by=by)


def load_plan_of(file: Any, page: int, limit: int) -> LoadPlan:
    it = declared.LoadPlanRecord._make(file._asked("xmas_elf_load_plan", declared.LOAD_PLAN, page, limit))
    path = bytes(file._view[it.interpreter_offset : it.interpreter_offset + it.interpreter_size])
    return LoadPlan(
        span=Addresses(it.span_start, it.span_end),
        relro=Addresses(it.relro_start, it.relro_end) if it.has_relro else None,
        tls=TlsTemplate(it.tls_address, it.tls_file_size, it.tls_mem_size, it.tls_align) if it.tls_mem_size else None,
        interpreter=path.decode("utf-8", "surrogateescape") if it.has_interpreter else None,
        entry=it.entry,
        stack_flags=PF(it.stack_flags) if it.has_stack else None,
        linux=_mappings(file, page, limit, Loader.LINUX),
        glibc=_mappings(file, page, limit, Loader.GLIBC),
    )
