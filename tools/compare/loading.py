"""What the C library says of the names and the addresses of a library, which is loaded in a process of its own.

    asked("/usr/lib/x86_64-linux-gnu/libm.so.6", [("exp", "GLIBC_2.29"), ("exp", None)])
    named("/usr/lib/x86_64-linux-gnu/libm.so.6", [0x10000])

`asked` calls dlsym and dlvsym. For each name the result is `none`, or where it is found (`here`, `elsewhere` in another
library, or `nowhere`), its offset in that library, its address, and the path of the library. `named` calls dladdr. For each address of the file the
result is a name with an offset, `none`, or `outside` where the address is in no or in another library. Of a library that can't
be loaded, or whose process doesn't end by itself, both are None.
"""
import ctypes
import os
import resource
import subprocess
import sys
import tempfile
from typing import Iterator, Sequence

# The numbers RTLD_DI_LINKMAP and RTLD_DL_LINKMAP.
LINK_MAP = 2


class Found(ctypes.Structure):
    """Dl_info of the C library."""

    _fields_ = [("path", ctypes.c_char_p), ("base", ctypes.c_void_p), ("name", ctypes.c_char_p), ("address", ctypes.c_void_p)]


def asked(path: str, names: Sequence[tuple[str, str | None]], seconds: int = 240, **variables: str) -> list[str] | None:
    return said_of(path, [f"{name} {version or ''}" for name, version in names], seconds, variables)


def named(path: str, addresses: Sequence[int]) -> list[str] | None:
    return said_of(path, [f"{it:x}" for it in addresses], 300, {})


def said_of(path: str, lines: list[str], seconds: int, variables: dict) -> list[str] | None:
    """What the process says of each line: a name with a blank and its version, or an address."""
    text = "".join(f"{it}\n" for it in lines).encode("utf-8", "surrogateescape")
    with tempfile.TemporaryDirectory() as room:
        environment = {"PATH": os.environ.get("PATH", ""), "HOME": room, "LC_ALL": "C", **variables}
        try:
            done = subprocess.run(
                [sys.executable, "-IS", __file__, path], input=text, cwd=room, env=environment, timeout=seconds,
                capture_output=True, check=False)
        except subprocess.TimeoutExpired:
            return None
    said = done.stdout.decode("utf-8", "surrogateescape").split("\n")
    return said[: len(lines)] if said[len(lines) :] == ["end", ""] else None


def agrees(line: str, said: str, is_anywhere: bool = False) -> bool:
    """Whether a line of elfsym and what dlsym says are the same: that of the library itself, or of any."""
    if said == "none" or line.endswith(": none"):
        return said == "none" and line.endswith(": none")
    place, *numbers = said.split()[:3]
    # The value of an absolute symbol is its address.
    return (is_anywhere or place != "elsewhere") and int(line.rsplit(" ", 2)[1], 16) in [int(it, 16) for it in numbers]


class Library:
    """A library that is loaded."""

    def __init__(self, path: str) -> None:
        self.libc, found = ctypes.CDLL(None), ctypes.c_void_p()
        self.libc.dlopen.restype = self.libc.dlsym.restype = self.libc.dlvsym.restype = self.libc.dlerror.restype = ctypes.c_void_p
        self.library = ctypes.c_void_p(self.libc.dlopen(os.fsencode(path), os.RTLD_NOW | os.RTLD_LOCAL))
        if not self.library or self.libc.dlinfo(self.library, LINK_MAP, ctypes.byref(found)):
            os._exit(3)
        self.map, self.start = found.value, ctypes.c_ulong.from_address(found.value or 0).value

    def at(self, address: int) -> tuple[Found, bytes, int]:
        """What dladdr finds at an address, where, and the base there."""
        info, other = Found(), ctypes.c_void_p()
        if not self.libc.dladdr1(ctypes.c_void_p(address), ctypes.byref(info), ctypes.byref(other), LINK_MAP):
            return info, b"nowhere", self.start
        return info, b"here" if other.value == self.map else b"elsewhere", ctypes.c_ulong.from_address(other.value or 0).value

    def line_of(self, line: bytes) -> bytes:
        name, is_name, version = line.partition(b" ")
        if not is_name:
            address = self.start + int(name, 16)
            info, place, _ = self.at(address)
            return b"outside" if place != b"here" else b"none" if info.name is None else info.name + b"+0x%x" % (address - info.address)
        self.libc.dlerror()
        address = (self.libc.dlvsym(self.library, name, version) if version else self.libc.dlsym(self.library, name)) or 0
        if self.libc.dlerror():
            return b"none"
        info, place, base = self.at(address)
        return b"%s %x %x %s" % (place, (address - base) % 2**64, address, info.path or b"")


def lines_of(path: str) -> Iterator[bytes]:
    """Loads a library, and writes a line for each of the standard input."""
    library = Library(path)
    yield from map(library.line_of, sys.stdin.buffer.read().split(b"\n")[:-1])
    yield b"end"


if __name__ == "__main__":
    # Libraries may write to the standard output when they are loaded.
    output = os.fdopen(os.dup(1), "wb")
    os.dup2(os.open(os.devnull, os.O_WRONLY), 1)
    resource.setrlimit(resource.RLIMIT_CORE, (0, 0))
    output.writelines(it + b"\n" for it in lines_of(sys.argv[1]))
    output.flush()
    os._exit(0)
