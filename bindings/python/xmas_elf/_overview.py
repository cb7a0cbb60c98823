"""What a first look at a file asks for."""
from __future__ import annotations

from typing import TYPE_CHECKING, Any, List, NamedTuple, Optional, Tuple

from ._archive import ElfError
from ._declarations import _document
from ._loading import marks_program
from .constants import DF, DF_1, DT_BIND_NOW, DT_FLAGS, DT_FLAGS_1, DT_RPATH, DT_RUNPATH
from .constants import EM, ET, ET_DYN, PF, PF_W, PF_X, PT_GNU_RELRO, PT_GNU_STACK, PT_INTERP, PT_LOAD

if TYPE_CHECKING:
    from ._file import ElfFile


class Overview(NamedTuple):
    """What a first look at a file asks for. `overview._asdict()` is a dictionary."""

    type: ET
    machine: EM
    elfclass: int
    soname: Optional[str]
    interpreter: Optional[str]
    needed: List[str]
    build_id: Optional[str]
    pie: bool
    relro: str
    nx: bool
    bind_now: bool
    wx: bool
    rpath: Optional[str]
    runpath: Optional[str]
    loads: str

    def __str__(self) -> str:
        return "\n".join(f"{name:12}{_shown(value)}" for name, value in zip(self._fields, self))


_document(
    Overview,
    type="The kind of file.",
    machine="The processor that it is for.",
    elfclass="32 or 64.",
    soname="Its name as a shared object (DT_SONAME).",
    interpreter="The path of the dynamic linker (PT_INTERP).",
    needed="The names of the shared objects that it needs (DT_NEEDED).",
    build_id="The build id in hexadecimal.",
    pie="Whether it is a program at any address: of type ET_DYN, with DF_1_PIE or an entry DT_DEBUG.",
    relro="`full`: what relocations change is read-only before the program runs (the pages of PT_GNU_RELRO, and BIND_NOW); "
    "`partial`: but for what is resolved later; `none`.",
    nx="Whether the stack isn't executable: a segment PT_GNU_STACK without PF_X.",
    bind_now="Whether all references are resolved before the program runs (DT_BIND_NOW, DF_BIND_NOW or DF_1_NOW).",
    wx="Whether memory is mapped writable and executable.",
    rpath="The folders of DT_RPATH.",
    runpath="The folders of DT_RUNPATH.",
    loads="What `ElfFile.loads` says: whether Linux maps it as a program, or glibc as a library, by its kind: `yes`, or `no` with the "
    "reason.",
)


def _shown(value: Any) -> str:
    if isinstance(value, list):
        return " ".join(value) or "-"
    if isinstance(value, bool):
        return "yes" if value else "no"
    return "-" if value is None else str(value)


def _protection_of(file: "ElfFile") -> Tuple[bool, Optional[PF], List[PF]]:
    """Whether pages are only readable after relocation, the permissions of the stack, and those of the mappings: by the plan
    of the load, or by the program headers of a file without a plan."""
    try:
        plan = file.load_plan()
    except ElfError:
        segments = list(file.segments())
        stack = next((it.flags for it in reversed(segments) if it.type == PT_GNU_STACK), None)
        return any(it.type == PT_GNU_RELRO for it in segments), stack, [it.flags for it in segments if it.type == PT_LOAD]
    has_relro = plan.relro is not None and plan.relro.start < plan.relro.end
    return has_relro, plan.stack_flags, [it.flags for it in plan.mappings()]


def overview_of(file: "ElfFile") -> Overview:
    segments = list(file.segments())
    has_relro, stack, mapped = _protection_of(file)
    values = {int(entry.tag): entry.value for entry in file.dynamic()}
    flags, flags_1 = DF(values.get(DT_FLAGS, 0)), DF_1(values.get(DT_FLAGS_1, 0))
    bind_now = DT_BIND_NOW in values or bool(flags & DF.DF_BIND_NOW or flags_1 & DF_1.DF_1_NOW)
    build_id = file.build_id
    interpreter = next((bytes(it.data()).rstrip(b"\0").decode("utf-8", "surrogateescape") for it in segments if it.type == PT_INTERP), None)
    return Overview(
        type=file.header.type,
        machine=file.header.machine,
        elfclass=file.elfclass,
        soname=file.soname,
        interpreter=interpreter,
        needed=file.needed,
        build_id=None if build_id is None else build_id.hex(),
        pie=file.header.type == ET_DYN and marks_program(values),
        relro=("full" if bind_now else "partial") if has_relro else "none",
        nx=stack is not None and not stack & PF_X,
        bind_now=bind_now,
        wx=any(flags & PF_W and flags & PF_X for flags in mapped),
        rpath=file._dynamic_text(DT_RPATH),
        runpath=file._dynamic_text(DT_RUNPATH),
        loads=str(file.loads()),
    )
