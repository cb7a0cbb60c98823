"""The versions of symbols, and those that a file defines and needs."""
from __future__ import annotations

from enum import IntEnum
from typing import Any, Dict, Iterator, NamedTuple, Optional

from . import _declarations as declared
from ._archive import ElfError, check
from ._declarations import Status, _document
from ._reading import Reading
from ._rows import Row, rows
from .constants import VER_FLG


class VersionKind(IntEnum):
    """What has the number of a version: nothing, a definition of the file, or a need."""

    UNNAMED = 0
    DEFINED = 1
    NEEDED = 2


class Version(NamedTuple):
    """The version of a symbol, or one that a file defines or needs."""

    name: Optional[str]
    library: Optional[str]
    number: int
    is_hidden: bool
    kind: VersionKind
    flags: VER_FLG
    name_status: int
    library_status: int

    @property
    def is_base(self) -> bool:
        """Whether it is the definition that names the file itself, and no version of a symbol."""
        return self.kind == VersionKind.DEFINED and bool(self.flags & VER_FLG.VER_FLG_BASE)

    @property
    def is_default(self) -> bool:
        """Whether a reference without a version gets the symbol: the file defines the version, and it isn't hidden."""
        return self.kind == VersionKind.DEFINED and not self.is_hidden

    def __str__(self) -> str:
        """As it is written after a symbol's name: `@@V` for the default version, `@V` for others, and else nothing."""
        if self.kind == VersionKind.UNNAMED:
            return ""
        return f"{'@@' if self.is_default else '@'}{self.name}"

    def __repr__(self) -> str:
        of = f" of {self.library}" if self.library else ""
        return f"<Version {self.number} {self}{of}>"


_document(
    Version,
    name="The name; None if nothing has the number, or the name can't be read.",
    library="The name of the library that it is needed of; None if it is no need, or the name can't be read.",
    number="The number by which symbols refer to it: 0 is local, 1 is global.",
    is_hidden="Whether only a reference with the version finds the symbol.",
    kind="What has the number.",
    flags="The flags of the definition or the need (vd_flags, vna_flags).",
    name_status="The status of the name.",
    library_status="The status of the library's name.",
)


def versions(file: Reading, export: str, room: int) -> Iterator[Version]:
    """The versions that a call gives; none if the file has no such table."""
    # Many symbols have the same version.
    known: Dict[Row, Version] = {}
    try:
        for fields in rows(export, declared.VERSION, *file._input, room=room):
            if fields not in known:
                known[fields] = _version(file, declared.VersionRecord._make(fields))
            yield known[fields]
    except ElfError as error:
        if error.status != Status.NOT_FOUND and not file._has_no_dynamic(error):
            raise


def _version(file: Reading, it: Any) -> Version:
    check(it.status)
    kind = VersionKind(it.kind)
    name = None if kind == VersionKind.UNNAMED or it.name_status else file._text_in((it.name_offset, it.name_size))
    library = None if kind != VersionKind.NEEDED or it.file_status else file._text_in((it.file_offset, it.file_size))
    flags = VER_FLG(it.flags)
    return Version(name, library, it.number, bool(it.hidden), kind, flags, it.name_status, it.file_status)
