"""Numbers that have names, and arguments that are tested."""
from __future__ import annotations

from enum import IntEnum, IntFlag
from operator import index
from typing import Any, Optional, Type, TypeVar

_Named = TypeVar("_Named", bound="Number")


class Number(IntEnum):
    """A number that the standard may have a name for: one without has its hexadecimal digits as its name."""

    @classmethod
    def _missing_(cls: Type[_Named], value: object) -> Optional[_Named]:
        if not isinstance(value, int):
            return None
        member = int.__new__(cls, value)
        member._name_, member._value_ = hex(value), value
        return member

    def __repr__(self) -> str:
        return self._name_

    def __str__(self) -> str:
        return self._name_

    def __format__(self, layout: str) -> str:
        return format(int(self), layout) if layout else self._name_


class Flags(IntFlag):
    """A sum of flags; the rest, which no flag has, is allowed."""

    def __repr__(self) -> str:
        rest, names = int(self), []
        for flag in type(self):
            if flag and rest & flag == flag:
                names.append(str(flag._name_))
                rest &= ~int(flag)
        if rest or not names:
            names.append(hex(rest))
        return "|".join(names)

    def __str__(self) -> str:
        return repr(self)

    def __format__(self, layout: str) -> str:
        return format(int(self), layout) if layout else repr(self)


def unsigned(value: Any, bits: int = 64) -> int:
    """The number that an argument is. A TypeError if it is none, an OverflowError if it is negative or too large."""
    number = index(value)
    if not 0 <= number < 1 << bits:
        raise OverflowError(f"{number} isn't between 0 and 2**{bits} - 1")
    return number


def utf_8(text: Any) -> bytes:
    """The bytes of an argument that is a text; those of a name that isn't UTF-8, as `os.fsdecode` gives it."""
    if not isinstance(text, str):
        raise TypeError(f"a str is wanted, not {type(text).__name__}")
    return text.encode("utf-8", "surrogateescape")
