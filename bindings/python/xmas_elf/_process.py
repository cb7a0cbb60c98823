"""The objects of a process, and what relocations write to their images."""
from __future__ import annotations

import os
from ctypes import byref, c_uint64
from typing import Any, Callable, Container, Iterator, List, NamedTuple, Optional, Sequence, Tuple

from . import _declarations as declared
from ._archive import ElfError, check, library
from ._declarations import Status, _document
from ._input import address_of, view_of
from ._loading import Loader, Verdict
from ._parts import relocations_of_segment
from ._versions import Version, VersionKind
from .constants import EM_386, EM_X86_64, PT_DYNAMIC, STB_LOCAL, STB_WEAK

# The most objects that a call of the archive takes.
MOST_OBJECTS = 64

# The index of none.
NONE = 2**64 - 1


class LoadObject(NamedTuple):
    """An object of a process. Objects are in the order in which they are loaded, the program first."""

    file: Any
    base: int = 0
    module: int = 0
    thread: int = 0
    image: Any = b""


_document(
    LoadObject,
    file="The file, an `ElfFile`.",
    base=declared.LoadObjectRecord.base.__doc__ or "",
    module=declared.LoadObjectRecord.module.__doc__ or "",
    thread=declared.LoadObjectRecord.thread.__doc__ or "",
    image=declared.LoadObjectRecord.image.__doc__ or "",
)


class _Told:
    """The indices of the object and of the relocation that a call tells if it has an error; before that those of none."""

    def __init__(self) -> None:
        self.object, self.relocation = c_uint64(NONE), c_uint64(NONE)
        self.arguments = byref(self.object), byref(self.relocation)

    def check(self, status: int, objects: Sequence[LoadObject]) -> None:
        """Raises if a call has an error, with the index of the object that has it, if one has, and that of the relocation."""
        if not status:
            return
        of, relocation = (None if it.value == NONE else it.value for it in (self.object, self.relocation))
        about = _unresolved(objects, of) if status == Status.LOAD_UNRESOLVED and of is not None else None
        raise ElfError(status, about, of, relocation)


class _Packed:
    """The records of objects; they and the bytes that they name stay in memory as long as this does."""

    def __init__(self, objects: Sequence[LoadObject]) -> None:
        self.images = [address_of(view_of(it.image)) for it in objects]
        records = (
            declared.LOAD_OBJECT.pack(*it.file._input[:2], image, len(image.view), it.base, it.module, it.thread)
            for it, image in zip(objects, self.images)
        )
        self.arguments = b"".join(records), len(objects)


def load_image_of(file: Any, by: int, page: int, limit: int) -> bytearray:
    span = file.load_plan(page, limit).span
    image = bytearray(span.end - span.start)
    check(library.xmas_elf_load_image(*file._input, page, limit, by, address_of(view_of(image)), len(image)))
    return image


def check_image(objects: Sequence[LoadObject], of: int, page: int = 0, limit: int = 0) -> None:
    """Raises if the words of the object at index `of` can't be written before the program runs. The error has the index of its
    object in `of`: this one, or the first whose file can't be read or has no `load_plan`, and in `relocation` the index of its
    relocation, if one has the error."""
    packed, told = _Packed(objects), _Told()
    marks = bytearray(_size(objects, of, page, limit) // 8 + 1)
    status = library.xmas_elf_check_image(*packed.arguments, of, page, limit, address_of(view_of(marks)), len(marks), *told.arguments)
    told.check(status, objects)


def relocate(objects: Sequence[LoadObject], of: int, image: bytearray, lazy: bool = False, page: int = 0, limit: int = 0) -> int:
    """Writes the words of the object at index `of` to its image, which `ElfFile.load_image` gave, and returns how many have no
    number: what functions return, and descriptors of thread-local storage. The error has the index of its object in `of`: this one,
    or the first whose file can't be read or has no `load_plan`; LOAD_UNRESOLVED has the name of the first symbol that is in no
    object."""
    packed, count, told = _Packed(objects), c_uint64(), _Told()
    status = library.xmas_elf_relocate(
        *packed.arguments, of, int(lazy), page, limit, address_of(view_of(image)), len(image), byref(count), *told.arguments
    )
    told.check(status, objects)
    return count.value


def _size(objects: Sequence[LoadObject], of: int, page: int, limit: int) -> int:
    """The size of the image of an object; an error has its index."""
    try:
        span = objects[of].file.load_plan(page, limit).span
    except ElfError as error:
        raise ElfError(error.status, error.about, of) from None
    return int(span.end - span.start)


class Relocated(NamedTuple):
    """The images of the objects of a process after relocation."""

    images: List[memoryview]
    numberless: int


_document(
    Relocated,
    images="The bytes of each object in memory, from the start of its span on.",
    numberless="How many words have no number: what functions return, and descriptors of thread-local storage.",
)


def relocate_all(objects: Sequence[LoadObject], lazy: bool = False, page: int = 0, limit: int = 0) -> Relocated:
    """The images of all objects, with the words of all of them, the last object's first, as the dynamic linker writes them. Each
    file is read once; the images of the objects are not read. An error has the index of the object in `of`, and LOAD_UNRESOLVED the
    name of the first symbol that is in no object."""
    images = _images(objects, page, limit)
    memory: Any = images[0].obj if images else bytearray()
    packed, left, told = _Packed(objects), c_uint64(), _Told()
    status = library.xmas_elf_relocate_all(
        *packed.arguments, int(lazy), page, limit, address_of(view_of(memory)), len(memory), byref(left), *told.arguments
    )
    told.check(status, objects)
    return Relocated(images, left.value)


def _images(objects: Sequence[LoadObject], page: int, limit: int) -> List[memoryview]:
    """The images of all objects before relocation, one after another in one `bytearray`."""
    ends = [0]
    for index in range(len(objects)):
        ends.append(ends[-1] + _size(objects, index, page, limit))
    memory = memoryview(bytearray(ends[-1]))
    images = [memory[start:end] for start, end in zip(ends, ends[1:])]
    for index, (it, image) in enumerate(zip(objects, images)):
        by = Loader.GLIBC if index else Loader.LINUX
        check(library.xmas_elf_load_image(*it.file._input, page, limit, by, address_of(image), len(image)))
    return images


def _is_in(file: Any, name: str, version: str) -> bool:
    try:
        return file._found(name, version) is not None
    except ElfError:
        return False


def _unresolved(objects: Sequence[LoadObject], of: int) -> Optional[str]:
    """The first symbol of the relocations of an object that is in none of the objects, with its version."""
    file = objects[of].file
    symbols = list(file.versioned_symbols())
    for index in dict.fromkeys(it.symbol for it in relocations_of_segment(file)):
        symbol, version = symbols[index] if index < len(symbols) else (None, None)
        if symbol is None or not symbol.name or symbol.binding in (STB_LOCAL, STB_WEAK):
            continue
        if not any(_is_in(it.file, symbol.name, _wanted(version)) for it in objects):
            return f"{symbol.name}{version or ''}"
    return None


def _wanted(version: Optional[Version]) -> str:
    return version.name or "" if version is not None and version.kind != VersionKind.UNNAMED else ""


def with_thread_storage(objects: Sequence[LoadObject]) -> List[LoadObject]:
    """The objects with the numbers that glibc on x86-64 and 386 gives the thread-local storage of those that it loads when a
    program starts: modules in their order from 1 on, each at the first place below the thread pointer that it fits in."""
    found, number, end, free, free_end = [], 0, 0, 0, 0
    for it in objects:
        if it.file.header.machine not in (EM_X86_64, EM_386):
            raise ElfError(Status.LOAD_MACHINE)
        tls = it.file.load_plan().tls
        if tls is None:
            found.append(it)
            continue
        size, align = tls.mem_size, max(tls.align, 1)
        first = -tls.address % align
        offset, is_between = _place(free, size, align, first), False
        if offset <= free_end:
            free, is_between = offset, True
        if not is_between:
            offset = _place(end, size, align, first)
            if offset - size - end > free_end - free:
                free, free_end = end, offset - size
            end = offset
        number += 1
        found.append(it._replace(module=number, thread=-offset % (1 << 64)))
    return found


def _place(end: int, size: int, align: int, first: int) -> int:
    """How far below an aligned address storage begins that ends at least so far below it, and has its aligned byte at `first`."""
    return -(-(end + size - first) // align) * align + first


def loads(files: Sequence[Any], lazy: bool = False, page: int = 0, limit: int = 0) -> Verdict:
    """Whether a program loads with its libraries, each an `ElfFile`, in the order in which they are loaded, the program first: true
    or false, and the text `yes`, or `no` with the file and the reason. The first of these is the reason: a file has no
    `load_plan`, since what memory holds must be known; a library that a file needs is not among the files; the tables or the
    words of a file can't be read or written; a symbol is in no file. Some files that Linux and glibc load have no plan, so a
    program with this reason may start all the same: `Tree.loads` says what they do. With `lazy` jump slots get their symbols
    later. It takes up to 64 files."""
    if not 0 < len(files) <= MOST_OBJECTS:
        raise ValueError(f"between 1 and {MOST_OBJECTS} files are wanted")
    for index, step in _steps([LoadObject(it) for it in files], lazy, page, limit):
        try:
            step()
        except ElfError as error:
            of = index if error.of is None else error.of
            return Verdict(False, error.status, f"{_shown(files[of], of)}: {error}", of)
    return Verdict(True, Status.OK, "")


def _shown(file: Any, index: int) -> str:
    return file.path or f"file {index}"


def _steps(objects: List[LoadObject], lazy: bool, page: int, limit: int) -> Iterator[Tuple[int, Callable[[], object]]]:
    """What must pass, each with the index of the object that it is about."""
    for index, it in enumerate(objects):
        yield index, lambda: it.file.load_plan(page, limit)
    # A static program relocates itself, if it does.
    if len(objects) == 1 and all(it.type != PT_DYNAMIC for it in objects[0].file.segments()):
        return
    names = {name for it in objects for name in _names(it.file)}
    for index in range(len(objects)):
        yield index, lambda: _check_needed(objects[index].file, names)
    for index in range(len(objects)):
        yield index, lambda: check_image(objects, index, page, limit)
    yield 0, lambda: relocate_all(objects, lazy, page, limit)


def _names(file: Any) -> Iterator[str]:
    """The names by which a library is needed: its path, the last part of it, or its own name."""
    if file.path:
        yield from (file.path, os.path.basename(file.path))
    try:
        yield file.soname or ""
    except ElfError:
        pass


def _check_needed(file: Any, names: Container[str]) -> None:
    for name in file.needed:
        if name not in names:
            raise ElfError(Status.NOT_FOUND, name)

