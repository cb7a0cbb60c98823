#!/usr/bin/env python3
"""Which tables glibc's linker reads where a file has two of them, or where its counts and chains disagree.

    oracle/tables.py [--elfsym PATH]    prints what the linker finds in each file, and fails where it isn't what is written here

A library and one that calls it are made by gcc, and changed in one place of their tables. Each is loaded by `dlopen`, and what its
functions return tells which symbols were found. elfsym is asked for the same names. It needs x86-64. The rows of
`dynamic_tests::twice` and `dynamic_tests::versions` are such changes of smaller files.
"""
import pathlib
import struct
import subprocess
import sys
import tempfile
from typing import Callable

LOAD, DYNAMIC, STACK = 1, 2, 0x6474E551
STRTAB, SYMTAB, DEBUG = 5, 6, 21
VERSYM, VERDEF, VERDEFNUM, VERNEED, VERNEEDNUM = 0x6FFFFFF0, 0x6FFFFFFC, 0x6FFFFFFD, 0x6FFFFFFE, 0x6FFFFFFF
# A tag that the linker doesn't read.
UNREAD = 0x6FFFFEF0

LIBRARY = """
__asm__(".symver old_name, name@V1");
__asm__(".symver new_name, name@@V2");
int old_name(void) { return 1; }
int new_name(void) { return 2; }
int first(void) { return 10; }
int second(void) { return 20; }
__attribute__((aligned(4096))) char space[8192] = {1};
"""
SCRIPT = "V1 { global: name; first; second; space; local: *; }; V2 { name; } V1;"
CALLER = '__asm__(".symver name, name@V1"); extern int name(void); int call(void) { return name(); }'
ASKED = """
import ctypes, sys
held = ctypes.CDLL(sys.argv[1], mode=2)
libc = ctypes.CDLL(None)
libc.dlsym.restype = libc.dlvsym.restype = ctypes.c_void_p
for asked in sys.argv[2:]:
    name, _, version = asked.partition("@")
    known = (ctypes.c_void_p(held._handle), name.encode())
    found = libc.dlvsym(*known, version.encode()) if version else libc.dlsym(*known)
    print(ctypes.CFUNCTYPE(ctypes.c_int)(found)() if found else "none")
"""


class File:
    """A file of class 64 whose tables are changed."""

    def __init__(self, content: bytes) -> None:
        self.held = bytearray(content)

    def get(self, form: str, place: int) -> int:
        return struct.unpack_from("<" + form, self.held, place)[0]

    def put(self, form: str, place: int, *values: int) -> None:
        struct.pack_into("<" + form, self.held, place, *values)

    def segments(self, kind: int) -> list[int]:
        """The places of the program headers of a type."""
        start, count = self.get("Q", 32), self.get("H", 56)
        return [it for it in range(start, start + 56 * count, 56) if self.get("I", it) == kind]

    def offset(self, address: int) -> int:
        """The offset in the file of an address."""
        for it in self.segments(LOAD):
            start, size = self.get("Q", it + 16), self.get("Q", it + 32)
            if start <= address < start + size:
                return self.get("Q", it + 8) + address - start
        raise ValueError(hex(address))

    def entries(self, *tags: int) -> list[int]:
        """The places of the dynamic entries with some tags."""
        segment = self.segments(DYNAMIC)[0]
        start, size = self.get("Q", segment + 8), self.get("Q", segment + 32)
        return [it for it in range(start, start + size, 16) if self.get("Q", it) in tags]

    def entry(self, tag: int) -> int:
        """The place of the first of them."""
        return self.entries(tag)[0]

    def remove(self, *tags: int) -> None:
        """Gives the entries with some tags one that the linker doesn't read."""
        for place in self.entries(*tags):
            self.put("Q", place, UNREAD)

    def table(self, tag: int) -> int:
        """The place of the table whose address a dynamic entry has."""
        return self.offset(self.get("Q", self.entry(tag) + 8))

    def symbol(self, name: str) -> int:
        """The place of the first dynamic symbol with a name."""
        place, strings = self.table(SYMTAB), self.table(STRTAB)
        while not self.held.startswith(name.encode() + b"\0", strings + self.get("I", place)):
            place += 24
        return place

    def swapped(self, content: bytes, start: int) -> bytearray:
        """A copy of bytes from a place on in which the symbols `first` and `second` have each other's values."""
        copy, places = bytearray(content), [self.symbol(name) + 8 - start for name in ("first", "second")]
        for place, other in zip(places, reversed(places)):
            copy[place : place + 8] = content[other : other + 8]
        return copy

    def space(self) -> int:
        """The address of `space`."""
        return self.get("Q", self.symbol("space") + 8)

    def fill_space(self, offset: int, content: bytes) -> int:
        """Puts bytes at an offset of `space`, and returns their address."""
        place = self.offset(self.space()) + offset
        self.held[place : place + len(content)] = content
        return self.space() + offset

    def other_symbols(self) -> int:
        """The address of a copy of the symbol table in which `first` and `second` are swapped."""
        start, end = self.table(SYMTAB), self.table(STRTAB)
        return self.fill_space(0, self.swapped(self.held[start:end], start))

    def other_entries(self) -> int:
        """The address of a copy of the dynamic entries that leads to such a symbol table."""
        symbols, segment = self.other_symbols(), self.segments(DYNAMIC)[0]
        start, size = self.get("Q", segment + 8), self.get("Q", segment + 32)
        copy = File(self.held[start : start + size])
        copy.put("Q", self.entry(SYMTAB) - start + 8, symbols)
        return self.fill_space(4096, copy.held)

    def set_segment(self, place: int, kind: int, flags: int, offset: int, address: int, size: int) -> None:
        self.put("IIQQQQQQ", place, kind, flags, offset, address, address, size, size, 8 if kind == DYNAMIC else 4096)


def plain(file: File) -> None:
    """The file as gcc made it."""


def doubled_entry(file: File) -> None:
    """Two entries DT_SYMTAB, the second leads to a table with swapped symbols."""
    file.put("QQ", file.entry(0), SYMTAB, file.other_symbols())


def second_dynamic(file: File) -> None:
    """Two segments PT_DYNAMIC, the second has entries that lead to swapped symbols."""
    address, size = file.other_entries(), file.get("Q", file.segments(DYNAMIC)[0] + 32)
    file.set_segment(file.segments(STACK)[0], DYNAMIC, 6, file.offset(address), address, size)


def second_dynamic_without_bytes(file: File) -> None:
    """The same, where the second has no bytes in the file (p_filesz 0)."""
    second_dynamic(file)
    file.put("Q", file.segments(DYNAMIC)[1] + 32, 0)


def dynamic_at_another_offset(file: File) -> None:
    """The address of PT_DYNAMIC is that of such entries, its offset is unchanged."""
    address = file.other_entries()
    file.put("Q", file.segments(DYNAMIC)[0] + 16, address)


def dynamic_offset(file: File) -> None:
    """The offset of PT_DYNAMIC is that of such entries, its address is unchanged."""
    offset = file.offset(file.other_entries())
    file.put("Q", file.segments(DYNAMIC)[0] + 8, offset)


def with_load(file: File, index: int) -> None:
    """A further load, at an index of the loads, for the pages of the first one: with swapped symbols, behind the file."""
    rows = bytearray()
    start, count = file.get("Q", 32), file.get("H", 56)
    old, first = file.held[start : start + 56 * count], file.segments(LOAD)[0]
    size = file.get("Q", first + 32)
    pages = file.swapped(file.held[:size], 0)
    file.held += bytes(-len(file.held) % 4096)
    place = len(file.held)
    file.held += pages + bytes(-len(pages) % 4096)
    rows = [old[it : it + 56] for it in range(0, len(old), 56)]
    added = bytearray(56)
    struct.pack_into("<IIQQQQQQ", added, 0, LOAD, 4, place, 0, 0, size, size, 4096)
    loads = [it for it, row in enumerate(rows) if struct.unpack_from("<I", row)[0] == LOAD]
    rows.insert(loads[0] + index, added)
    file.put("Q", 32, len(file.held))
    file.put("H", 56, count + 1)
    file.held += b"".join(rows)


def later_load(file: File) -> None:
    """Two loads of the same pages, the second has swapped symbols."""
    with_load(file, 1)


def earlier_load(file: File) -> None:
    """The same, where the first has them."""
    with_load(file, 0)


def no_records(file: File) -> None:
    """DT_VERSYM without DT_VERDEF and DT_VERNEED."""
    file.remove(VERDEF, VERNEED)


def few_definitions(file: File) -> None:
    """DT_VERDEFNUM is 1."""
    file.put("Q", file.entry(VERDEFNUM) + 8, 1)


def no_count_of_definitions(file: File) -> None:
    """There is no DT_VERDEFNUM."""
    file.remove(VERDEFNUM)


def skipped_definition(file: File) -> None:
    """The chain of definitions passes over V1 (vd_next)."""
    base = file.table(VERDEF)
    first = base + file.get("I", base + 16)
    file.put("I", base + 16, first - base + file.get("I", first + 16))


def no_needs(file: File) -> None:
    """DT_VERNEEDNUM is 0."""
    file.put("Q", file.entry(VERNEEDNUM) + 8, 0)


def no_count_of_needs(file: File) -> None:
    """There is no DT_VERNEEDNUM."""
    file.remove(VERNEEDNUM)


def no_parts(file: File) -> None:
    """vn_cnt of the first need is 0."""
    file.put("H", file.table(VERNEED) + 2, 0)


def many_parts(file: File) -> None:
    """vn_cnt of the first need is 9."""
    file.put("H", file.table(VERNEED) + 2, 9)


NAMES = ("first", "name", "name@V1", "name@V2", "name@V3")
SAME, SWAPPED = "10 2 1 2 none", "20 2 1 2 none"
NO_DYNAMIC, CRASHED = "object file has no dynamic section", "signal 11"
Change = Callable[[File], None]
# A change of the library, and what is found for NAMES.
ROWS: list[tuple[Change, str]] = [
    (plain, SAME), (doubled_entry, SWAPPED), (second_dynamic, SWAPPED), (second_dynamic_without_bytes, NO_DYNAMIC),
    (dynamic_at_another_offset, SWAPPED), (dynamic_offset, SAME), (later_load, SWAPPED), (earlier_load, SAME),
    (no_records, "10 1 1 1 1"), (few_definitions, SAME), (no_count_of_definitions, SAME), (skipped_definition, "10 2 none 2 none"),
]
# A change of the caller, and what it calls. A reference with a number of a version is read past a missing table.
CALLS: list[tuple[Change, str]] = [
    (plain, "1"), (no_needs, "1"), (no_count_of_needs, "1"), (no_parts, "1"), (many_parts, "1"), (no_records, CRASHED),
]


def build(room: pathlib.Path, name: str, source: str, *words: str) -> bytes:
    command = ["gcc", "-Os", "-fPIC", "-shared", "-nostdlib", "-Wl,--hash-style=gnu", f"-Wl,-soname={name}", "-o", name, "-x", "c", "-", "-x", "none"]
    subprocess.run([*command, *words], cwd=room, input=source.encode(), check=True)
    return pathlib.Path(room, name).read_bytes()


def asked(path: pathlib.Path, names: tuple[str, ...], room: pathlib.Path) -> str:
    """What the functions return that the linker finds, or why the file isn't loaded."""
    command, variables = [sys.executable, "-c", ASKED, path, *names], {"LD_LIBRARY_PATH": str(room)}
    done = subprocess.run(command, capture_output=True, text=True, check=False, env=variables)
    if done.returncode < 0:
        return f"signal {-done.returncode}"
    return " ".join(done.stdout.split()) if done.returncode == 0 else done.stderr.strip().rsplit(": ", 1)[-1]


def said(elfsym: str, path: pathlib.Path, file: File) -> str:
    """What the functions return at the values that elfsym prints for NAMES, or its error."""
    done = subprocess.run([elfsym, path, *NAMES], capture_output=True, text=True, check=False)
    lines = [line.split() for line in done.stdout.splitlines()]
    if done.stderr or len(lines) != len(NAMES):
        return done.stderr.strip().rsplit(": ", 1)[-1]
    # A function is one instruction with its number, after a byte.
    return " ".join("none" if line[-1] == "none" else str(file.get("I", file.offset(int(line[-2], 16)) + 1)) for line in lines)


def main() -> int:
    elfsym = sys.argv[2] if sys.argv[1:2] == ["--elfsym"] else ""
    faults = 0
    with tempfile.TemporaryDirectory() as folder:
        room = pathlib.Path(folder)
        (room / "script").write_text(SCRIPT, encoding="utf-8")
        library = build(room, "libtables.so", LIBRARY, "-Wl,--version-script=script")
        caller = build(room, "libcaller.so", CALLER, "libtables.so")
        for rows, content, names in ((ROWS, library, NAMES), (CALLS, caller, ("call",))):
            for change, wanted in rows:
                file = File(content)
                change(file)
                path = room / "copy.so"
                path.write_bytes(file.held)
                path.chmod(0o755)
                found = [asked(path, names, room)]
                if elfsym and names == NAMES:
                    found.append(said(elfsym, path, File(library)))
                faults += found[0] != wanted
                print(f"{change.__name__:30} {'   '.join(found):40} {'' if found[0] == wanted else 'wanted ' + wanted}")
    return faults


if __name__ == "__main__":
    sys.exit(main() > 0)
