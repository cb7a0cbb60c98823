"""How a file is hardened, in the words of checksec."""
from __future__ import annotations

import os
from functools import lru_cache
from itertools import chain
from struct import Struct
from typing import TYPE_CHECKING, FrozenSet, Iterator, List, NamedTuple, Optional, Tuple, Union

from ._archive import ElfError
from ._declarations import Status, _document
from ._overview import overview_of
from .constants import EM_386, EM_AARCH64, EM_X86_64, ET_DYN, ET_EXEC, ET_REL, NT_GNU_PROPERTY_TYPE_0, SHT_DYNSYM, SHT_SYMTAB

if TYPE_CHECKING:
    from ._file import ElfFile


class Hardening(NamedTuple):
    """How a file is hardened."""

    relro: str
    canary: bool
    nx: bool
    pie: str
    rpath: Optional[str]
    runpath: Optional[str]
    symbols: bool
    fortify_source: bool
    fortified: Optional[int]
    fortifiable: Optional[int]
    ibt: bool
    shstk: bool
    bti: bool
    pac: bool


_document(
    Hardening,
    relro="`full`: what relocations change is read-only before the program runs; `partial`: but for what is resolved later; `none`.",
    canary="Whether functions test a value beside their return address: a symbol has `__stack_chk_fail`, `__stack_chk_guard` or "
    "`__intel_security_cookie` in its name.",
    nx="Whether the stack isn't executable: a segment PT_GNU_STACK without PF_X.",
    pie="`yes`: a program at any address; `no`: at fixed addresses (ET_EXEC); `dso`: a shared object; `rel`: an object file; `none`.",
    rpath="The folders of DT_RPATH.",
    runpath="The folders of DT_RUNPATH.",
    symbols="Whether it has a section of type SHT_SYMTAB.",
    fortify_source="Whether a dynamic symbol has a name that ends in `_chk`.",
    fortified="How many dynamic symbols are checked forms of functions of the C library, as `__memcpy_chk`; None without a C library.",
    fortifiable="How many are checked forms, or functions that have one.",
    ibt="Whether indirect branches lead to marked instructions only (CET of x86): IBT in its property note.",
    shstk="Whether return addresses are compared with a shadow stack (CET of x86): SHSTK in its property note.",
    bti="Whether indirect branches lead to marked instructions only (AArch64): BTI in its property note.",
    pac="Whether return addresses are signed (AArch64): PAC in its property note.",
)

_CANARY = ("__stack_chk_fail", "__stack_chk_guard", "__intel_security_cookie")
# The types of properties whose bits all of a linked file's objects have, with the machines, and the first two bits.
_X86_FEATURES, _AARCH64_FEATURES = 0xC0000002, 0xC0000000
# Where a C library is, the first of which is this system's.
_LIBRARIES = (
    "/lib/libc.so.6", "/lib/libc.so.7", "/lib/libc.so", "/lib64/libc.so.6", "/lib/i386-linux-gnu/libc.so.6",
    "/lib/x86_64-linux-gnu/libc.so.6", "/lib/arm-linux-gnueabihf/libc.so.6", "/lib/aarch64-linux-gnu/libc.so.6",
)


def _names(file: "ElfFile", *types: int) -> Iterator[str]:
    """The names of the symbols of sections of these types; of a file without sections, of those of the dynamic segment."""
    tables = [section.symbols() for section in file._sections_of(*types)]
    for symbol in chain.from_iterable(tables if file.num_sections() else [file.dynamic_symbols()]):
        if symbol.name is not None:
            yield symbol.name
        elif symbol.name_status != Status.TEXT_UTF_8:
            # A name that isn't UTF-8 is none of these.
            raise ElfError(symbol.name_status)


def _has_canary(file: "ElfFile") -> bool:
    return any(word in name for name in _names(file, SHT_SYMTAB, SHT_DYNSYM) if "_" in name for word in _CANARY)


@lru_cache(maxsize=16)
def _checked(libc: str) -> FrozenSet[str]:
    """The checked forms of functions that a C library exports, without the underscores in front."""
    from ._file import ElfFile

    with ElfFile.load_from_path(libc) as file:
        named = ((symbol.name or "", version) for symbol, version in file.versioned_symbols())
        return frozenset(name.lstrip("_") for name, version in named if name.endswith("_chk") and version and version.is_default)


def _fortified(names: List[str], libc: Optional[str]) -> Tuple[Optional[int], Optional[int]]:
    if libc is None:
        return None, None
    checked = _checked(libc)
    functions = {name[: -len("_chk")] for name in checked}
    fortified = sum(name in checked for name in names)
    return fortified, fortified + sum(name in functions for name in names)


def _property_bits(file: "ElfFile", wanted: int) -> int:
    """The bits of a property in the notes of type NT_GNU_PROPERTY_TYPE_0 by GNU."""
    order, align = "<" if file.little_endian else ">", file.elfclass // 8
    head, number = Struct(order + "II"), Struct(order + "I")
    for note in file.notes():
        if note.type != NT_GNU_PROPERTY_TYPE_0 or note.name != b"GNU":
            continue
        data, at = bytes(note.desc), 0
        while at + head.size <= len(data):
            kind, size = head.unpack_from(data, at)
            at += head.size
            if kind == wanted and size == number.size and at + size <= len(data):
                return int(number.unpack_from(data, at)[0])
            at += -(-size // align) * align
    return 0


def _pie(file: "ElfFile", is_program: bool) -> str:
    kinds = {int(ET_EXEC): "no", int(ET_DYN): "yes" if is_program else "dso", int(ET_REL): "rel"}
    return kinds.get(int(file.header.type), "none")


def hardening_of(file: "ElfFile", libc: Union[None, str, "os.PathLike[str]"]) -> Hardening:
    overview, machine = overview_of(file), file.header.machine
    names = [name.lstrip("_") for name in _names(file, SHT_DYNSYM)]
    path = next(filter(os.path.exists, _LIBRARIES), None) if libc is None else os.fspath(libc)
    x86 = _property_bits(file, _X86_FEATURES) if machine in (EM_X86_64, EM_386) else 0
    aarch64 = _property_bits(file, _AARCH64_FEATURES) if machine == EM_AARCH64 else 0
    return Hardening(
        overview.relro, _has_canary(file), overview.nx, _pie(file, overview.pie), overview.rpath, overview.runpath,
        bool(file._sections_of(SHT_SYMTAB)), any(name.endswith("_chk") for name in names), *_fortified(names, path),
        bool(x86 & 1), bool(x86 & 2), bool(aarch64 & 1), bool(aarch64 & 2),
    )
