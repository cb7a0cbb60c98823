"""The exports of the archive, as a shared object beside this file."""
from __future__ import annotations

import ctypes
import pathlib
from typing import Optional, Union

from ._declarations import EXPORTS, LONGEST_MESSAGE, Status

_PATH = pathlib.Path(__file__).with_name("libxmas_elf.so")


def _loaded() -> ctypes.CDLL:
    try:
        library = ctypes.CDLL(str(_PATH))
        for name, (result, parameters) in EXPORTS.items():
            export = getattr(library, name)
            export.restype, export.argtypes = result, parameters
    except (OSError, AttributeError) as error:
        wanted = "install the wheel for this system, or build it by tools/exports/python.sh of the repository"
        raise ImportError(f"{_PATH} can't be loaded ({error}): {wanted}", path=str(_PATH)) from error
    return library


library = _loaded()


class ElfError(Exception):
    """A file, or a part of it, can't be read. The text is that of the status, and then what it is about, if that is known."""

    status: Union[Status, int]
    """The reason; a number alone if the package doesn't know the status."""

    about: Optional[str]
    """What it is about, as the name of the symbol that is in no object; or None."""

    of: Optional[int]
    """The index of the file that it is about, where several are read; or None."""

    relocation: Optional[int]
    """The index of the relocation of this file that has the error, in the order in which words are written: those of DT_RELR, then those
    of DT_RELA, of DT_REL and of DT_JMPREL; or None."""

    def __init__(self, status: int, about: Optional[str] = None, of: Optional[int] = None, relocation: Optional[int] = None) -> None:
        super().__init__(status)
        self.about, self.of, self.relocation = about, of, relocation
        try:
            self.status = Status(status)
        except ValueError:
            self.status = status

    def __repr__(self) -> str:
        return f"ElfError({getattr(self.status, 'name', self.status)})"

    def __str__(self) -> str:
        text = ctypes.create_string_buffer(LONGEST_MESSAGE)
        size = library.xmas_elf_message(int(self.status), text, LONGEST_MESSAGE)
        reason = text.raw[:size].decode("ascii") or f"status {int(self.status)}"
        return f"{reason}: {self.about}" if self.about else reason


def check(status: int) -> None:
    """Raises if a call returns an error."""
    if status:
        raise ElfError(status)
