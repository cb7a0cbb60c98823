#!/usr/bin/env python3
"""Whether Linux and glibc load files for which `LoadPlan::check_load` returns an error: the table of docs/LOADING.md, and the rows
of `loading_tests::loaders`.

    oracle/loaders.py     prints what each loader does with each file, and fails where it isn't what is written here
    oracle/loaders.py --elfload crates/elfload/out/elfload     compares the statuses of `--kernel` and `--glibc` too

The tests of the page and of the Python package take files and outcomes from here.
Programs and a library are made by gcc, and changed in one place of their headers or in two. A program is run under ptrace, the library
is loaded by `dlopen`, or by LD_PRELOAD with a program that doesn't use it. It needs x86-64, and a process that may be traced.
"""
import argparse
import os
import pathlib
import signal
import subprocess
import sys
import tempfile

sys.path.insert(0, str(pathlib.Path(__file__).resolve().parents[1] / "tools" / "compare"))
import damage
from processes import Stopped, can_trace

PAGE, END = 4096, 1 << 47
LOAD, DYNAMIC, INTERPRETER, HEADERS, STORAGE, FRAMES, RELRO = 1, 2, 3, 6, 7, 0x6474E550, 0x6474E552
LAYOUT = damage.Layout(True, "little")
DATA = "int table[5000] = {1, 2, 3}, zeros[9000]; __thread int own = 5;"
PROGRAM = DATA + "int main(void) { return 40 + table[1] + zeros[5] + own - 5; }"
LIBRARY = DATA + "int *of = zeros; int call(void) { return 40 + table[1] + zeros[5] + own - 5; }"
ASKED = "import ctypes, sys; sys.exit(ctypes.CDLL(sys.argv[1], mode=2).call())"


class File:
    """A file whose headers are changed."""

    def __init__(self, content: bytes) -> None:
        self.held = bytearray(content)

    def header(self, **values: int) -> None:
        LAYOUT.fill(self.held, 0, LAYOUT.header, **values)

    def places(self, kind: int) -> list[int]:
        start, count = (LAYOUT.get(self.held, 0, LAYOUT.header[name]) for name in ("phoff", "phnum"))
        found = (start + LAYOUT.segment_size * index for index in range(count))
        return [it for it in found if LAYOUT.get(self.held, it, LAYOUT.segment["type"]) == kind]

    def get(self, kind: int, which: int, name: str) -> int:
        return LAYOUT.get(self.held, self.places(kind)[which], LAYOUT.segment[name])

    def put(self, kind: int, which: int, **values: int) -> None:
        LAYOUT.fill(self.held, self.places(kind)[which], LAYOUT.segment, **values)

    def add(self, kind: int, which: int, **values: int) -> None:
        """Adds to fields of a segment."""
        self.put(kind, which, **{name: self.get(kind, which, name) + value for name, value in values.items()})

    def count(self, count: int) -> None:
        """Puts so many program headers behind the file, of which those that are more than before are of no type."""
        start, old = (LAYOUT.get(self.held, 0, LAYOUT.header[name]) for name in ("phoff", "phnum"))
        self.held += bytes(-len(self.held) % 8)
        place, rows = len(self.held), self.held[start : start + LAYOUT.segment_size * old]
        self.held += rows.ljust(LAYOUT.segment_size * count, b"\0")
        self.header(phoff=place, phnum=count)

    def another(self, inside: int) -> None:
        """Makes a load segment without bytes of the segment of the frames, so far inside the second page behind the last."""
        end = self.get(LOAD, -1, "vaddr") + self.get(LOAD, -1, "memsz")
        address = -(-end // PAGE) * PAGE + PAGE + inside
        self.put(FRAMES, 0, type=LOAD, flags=6, offset=inside, vaddr=address, paddr=address, filesz=0, memsz=0, align=PAGE)

    def dynamic(self, **values: int) -> None:
        """Makes a segment of type Dynamic of the segment of the frames, behind the other and like it but for these fields."""
        fields = ("flags", "offset", "vaddr", "paddr", "filesz", "memsz", "align")
        self.put(FRAMES, 0, type=DYNAMIC, **{**{name: self.get(DYNAMIC, 0, name) for name in fields}, **values})

    def low(self, **values: int) -> None:
        """Makes a load segment without bytes of the segment of the frames, which is behind the others."""
        self.put(FRAMES, 0, **{"type": LOAD, "flags": 6, "offset": 0, "vaddr": 0, "paddr": 0, "filesz": 0, "memsz": 0, "align": PAGE, **values})

    def byte(self, place: int, value: int) -> None:
        self.held[place] = value

    def empty(self, address: int) -> None:
        for which in range(len(self.places(LOAD))):
            self.put(LOAD, which, offset=0, vaddr=address, filesz=0, memsz=0)

    def none(self, kind: int) -> None:
        for _ in self.places(kind):
            self.put(kind, 0, type=0)


# The error, the change, and what Linux and glibc do.
CASES = (
    ("Type", lambda it: it.header(type=1), "error", "error"),
    ("EntrySize", lambda it: it.header(phentsize=64), "error", "error"),
    ("Count: none", lambda it: it.header(phnum=0), "error", "error"),
    ("Count: more than a page", lambda it: it.count(74), "mapped", "loaded"),
    ("Count: more than 65,536 bytes", lambda it: it.count(1171), "error", "loaded"),
    ("Table", lambda it: it.header(phoff=len(it.held) - 100), "error", "error"),
    ("FileSize", lambda it: it.put(LOAD, 0, memsz=it.get(LOAD, 0, "filesz") - 8), "killed", "loaded"),
    ("Empty: the first", lambda it: it.put(LOAD, 0, filesz=0), "mapped", "error"),
    ("Empty: another", lambda it: it.another(8), "loaded", "loaded"),
    ("Misaligned", lambda it: it.add(LOAD, -1, offset=8), "killed", "error"),
    ("Alignment", lambda it: it.put(LOAD, -1, align=3 * PAGE), "loaded", "loaded"),
    ("Range", lambda it: it.put(LOAD, -1, memsz=END), "killed", "error"),
    ("Range: an address wraps", lambda it: it.put(LOAD, -1, memsz=2**64 - PAGE), "killed", "crash"),
    ("Data", lambda it: it.add(LOAD, 2, offset=1 << 20), "loaded", "loaded"),
    ("Data: zeros behind", lambda it: it.add(LOAD, -1, offset=1 << 20), "killed", "crash"),
    ("Overlap", lambda it: it.add(LOAD, 0, filesz=PAGE, memsz=PAGE), "loaded", "loaded"),
    ("Zeros", lambda it: it.add(LOAD, 1, memsz=8), "loaded", "loaded"),
    ("NoLoad", lambda it: it.none(LOAD), "mapped", "error"),
    ("Headers", lambda it: it.add(HEADERS, 0, vaddr=8), "mapped", ""),
    ("Interpreter: short", lambda it: it.put(INTERPRETER, 0, filesz=1), "error", ""),
    ("Interpreter: long", lambda it: it.put(INTERPRETER, 0, filesz=5000), "error", ""),
    ("Interpreter: no zero", lambda it: it.add(INTERPRETER, 0, filesz=-1), "error", ""),
    ("Interpreter: past the end", lambda it: it.put(INTERPRETER, 0, offset=len(it.held) - 4), "error", ""),
    ("Relro", lambda it: it.put(RELRO, 0, memsz=1 << 20), "mapped", "crash"),
    ("Tls: size", lambda it: it.put(STORAGE, 0, filesz=64), "mapped", "crash"),
    ("Tls: place", lambda it: it.put(STORAGE, 0, vaddr=1 << 28), "mapped", "crash"),
    ("Tls: alignment", lambda it: it.put(STORAGE, 0, align=3), "mapped", "loaded"),
    ("Entry, with an interpreter", lambda it: it.header(entry=1 << 63), "mapped", "loaded"),
    ("OsAbi, and padding", lambda it: (it.byte(7, 9), it.byte(9, 1)), "loaded", "error"),
    ("IdentVersion", lambda it: it.byte(6, 2), "loaded", "error"),
    ("AbiVersion, and padding", lambda it: (it.byte(8, 1), it.byte(15, 1)), "loaded", "error"),
    ("AbiVersion of GNU", lambda it: (it.byte(7, 3), it.byte(8, 3)), "loaded", "loaded"),
    ("Padding, and version", lambda it: (it.byte(15, 1), it.byte(20, 2)), "loaded", "error"),
    ("Version", lambda it: it.byte(20, 2), "loaded", "error"),
    ("Executable", lambda it: it.header(type=2), "loaded", "error"),
    ("Misaligned: no bytes", lambda it: (it.another(8), it.put(LOAD, -1, offset=16, memsz=8)), "loaded", "error"),
    ("Range: at the limit", lambda it: (it.another(0), it.put(LOAD, -1, vaddr=END - PAGE)), "killed", "error"),
    ("Data: an offset of 2^63", lambda it: it.add(LOAD, 2, offset=1 << 63), "killed", "error"),
    ("Data: the last page of 2^63", lambda it: it.add(LOAD, 2, offset=(1 << 63) - PAGE - (it.get(LOAD, 2, "offset") & -PAGE)), "killed", "error"),
    ("Data: the page before", lambda it: it.add(LOAD, 2, offset=(1 << 63) - 2 * PAGE - (it.get(LOAD, 2, "offset") & -PAGE)), "loaded", "loaded"),
    ("Data: zeros behind, not writable", lambda it: it.add(LOAD, 2, offset=1 << 20, memsz=8), "loaded", "crash"),
    ("Data: zeros behind, no bytes", lambda it: (it.another(8), it.put(LOAD, -1, memsz=8, offset=(1 << 20) + 8)), "loaded", "crash"),
    ("Data: zeros behind at a page", lambda it: (it.another(0), it.put(LOAD, -1, memsz=8, offset=1 << 20)), "loaded", "loaded"),
    ("Overlap: the last before others", lambda it: it.low(vaddr=0x2000), "loaded", "crash"),
    ("Range: the last at 0", lambda it: it.low(), "loaded", "error"),
    ("Overlap: the last over all", lambda it: it.low(memsz=0x12000), "mapped", "error"),
    ("Range: the first after the last", lambda it: it.put(LOAD, 0, vaddr=0x20000), "mapped", "error"),
    ("Empty: all", lambda it: it.empty(0), "killed", "error"),
    ("Empty: all, inside a page", lambda it: it.empty(8), "mapped", "error"),
    ("NoDynamic", lambda it: it.none(DYNAMIC), "mapped", "error"),
    ("NoDynamic: at 0", lambda it: it.put(DYNAMIC, 0, vaddr=0), "", "error"),
    ("NoDynamic: no bytes", lambda it: it.put(DYNAMIC, 0, filesz=0), "", "error"),
    ("NoDynamic: no bytes of the last", lambda it: it.dynamic(filesz=0), "", "error"),
    ("NoDynamic: no bytes of the first", lambda it: (it.dynamic(), it.put(DYNAMIC, 0, filesz=0)), "", "error"),
    ("NoDynamic: two", lambda it: it.dynamic(), "", "loaded"),
    ("NoDynamic: the last at 0", lambda it: it.dynamic(vaddr=0), "", "error"),
    ("NoDynamic: the first at 0", lambda it: (it.dynamic(), it.put(DYNAMIC, 0, vaddr=0)), "", "loaded"),
    ("Range: an alignment of 2^45", lambda it: it.put(LOAD, 1, align=1 << 45), "loaded", "loaded"),
    ("Range: an alignment of 2^46", lambda it: it.put(LOAD, 1, align=1 << 46), "loaded", "error"),
    ("Range: an alignment of 2^63, of the last", lambda it: it.put(LOAD, -1, align=1 << 63), "", "error"),
    ("Range: an alignment of 3 * 2^46", lambda it: it.put(LOAD, 1, align=3 << 46), "loaded", "loaded"),
    ("Range: 3 * 2^45 bytes, an alignment of 2^45", lambda it: (it.low(vaddr=3 << 45, memsz=PAGE), it.put(LOAD, 1, align=1 << 45)), "", "error"),
    ("Data: the offsets of all pages", lambda it: it.put(LOAD, 0, offset=(1 << 63) - 4 * PAGE), "", "error"),
    ("Data: the first without bytes", lambda it: it.put(LOAD, 0, offset=1 << 63, filesz=0), "mapped", "error"),
    ("Relro: far", lambda it: it.put(RELRO, 0, vaddr=1 << 40, memsz=PAGE), "", "error"),
    ("Relro: less than a page", lambda it: it.put(RELRO, 0, vaddr=1 << 40, memsz=16), "", "loaded"),
    ("Relro: between loads", lambda it: (it.low(vaddr=0x100000, memsz=16), it.put(RELRO, 0, vaddr=0x40000, memsz=0x10000)), "", "loaded"),
)

# What Linux does with a program without an interpreter, at a fixed address and at any.
STATIC = (
    ("Entry: 2^63", lambda it: it.header(entry=1 << 63), "killed", "killed"),
    ("Entry: the limit", lambda it: it.header(entry=END - PAGE), "killed", "killed"),
    ("Entry: before it", lambda it: it.header(entry=END - PAGE - 1), "mapped", ""),
    ("Empty: all", lambda it: it.empty(0), "mapped", "killed"),
)

# What Linux does with a program for whose span there is room at the addresses that it chooses, or not: with an interpreter, and without.
SPANS = (
    ("Span: 2^45", lambda it: it.low(vaddr=1 << 45, memsz=PAGE), "loaded", "loaded"),
    ("Span: a third of the addresses", lambda it: it.low(vaddr=0x2AAAAAAAB000, memsz=PAGE), "killed", "loaded"),
    ("Span: almost all addresses", lambda it: it.low(vaddr=0x7FFFF0000000, memsz=PAGE), "killed", "killed"),
    ("Span: in offsets", lambda it: it.put(LOAD, 0, offset=(1 << 63) - 4 * PAGE), "killed", ""),
)

# What a program does that starts with a library and doesn't use it.
STARTED = (
    ("Tls: the alignment of the file", lambda it: None, "loaded"),
    ("Tls: alignment 0", lambda it: it.put(STORAGE, 0, align=0), "crash"),
    ("Tls: size", lambda it: it.put(STORAGE, 0, filesz=64), "error"),
    ("Tls: place", lambda it: it.put(STORAGE, 0, vaddr=1 << 28), "crash"),
)

# Files that the loader maps, and then gives up for what its mappings hold; and those of which this library doesn't know it.
LATER = ("Empty: the first", "Span: a third of the addresses", "Span: almost all addresses", "Span: in offsets")


def by_linux(path: str) -> str:
    """Whether Linux maps a program, and whether that then ends as it should."""
    process = Stopped(path)
    is_mapped, is_ended = process.signal() == signal.SIGTRAP, os.WIFEXITED(process.status)
    process.end()
    if not is_mapped:
        return "error" if is_ended else "killed"
    return "loaded" if subprocess.run([path], capture_output=True, check=False).returncode == 42 else "mapped"


def by_glibc(path: str) -> str:
    status = subprocess.run([sys.executable, "-c", ASKED, path], capture_output=True, check=False).returncode
    return {42: "loaded", 1: "error"}.get(status, "crash" if status < 0 else "mapped")


def by_start(path: str) -> str:
    started = subprocess.run(["/bin/true"], env={"LD_PRELOAD": path}, capture_output=True, check=False)
    return "crash" if started.returncode < 0 else "error" if started.returncode or started.stderr else "loaded"


def status_wanted(error: str, outcome: str) -> int:
    """The status of `elfload` for a loader that did this."""
    return int(outcome in ("error", "killed", "crash") and error not in LATER)


class Room:
    """A folder with the files, and the program whose statuses are compared, if there is one."""

    def __init__(self, folder: str, elfload: str) -> None:
        self.folder, self.elfload, self.faults, self.count = pathlib.Path(folder), elfload, 0, 0
        made = (("program", PROGRAM, ()), ("library", LIBRARY, ("-shared", "-fPIC")), ("fixed", PROGRAM, ("-static",)), ("moved", PROGRAM, ("-static-pie",)))
        for name, source, words in made:
            command = ["gcc", "-O1", "-Wl,-z,now", *words, "-x", "c", "-", "-o", name]
            subprocess.run(command, cwd=folder, input=source.encode(), check=True)

    def changed(self, change, name: str) -> pathlib.Path:
        """A copy of a file that is changed, in the place of the last one."""
        file, copy = File((self.folder / name).read_bytes()), self.folder / f"changed_{name}"
        change(file)
        copy.unlink(missing_ok=True)
        copy.write_bytes(file.held)
        copy.chmod(0o755)
        return copy

    def tried(self, error: str, change, name: str, by, wanted: str) -> str:
        """What a loader does with a changed file, and whether that is wanted."""
        if not wanted:
            return "not asked"
        copy = self.changed(change, name)
        did, option = by(str(copy)), "--kernel" if by is by_linux else "--glibc"
        # What is overwritten depends on the addresses, which are other ones each time.
        for _ in range(8 if wanted == "crash" != did else 0):
            did = wanted if by(str(copy)) == wanted else did
        told = f"{did}: NOT {wanted}" if did != wanted else did
        if self.elfload:
            status = subprocess.run([self.elfload, option, copy], capture_output=True, check=False).returncode
            told += f": STATUS {status}" if status != status_wanted(error, wanted) else ""
        self.faults += told != did
        self.count += 1
        return told


def main() -> int:
    parser = argparse.ArgumentParser(description=__doc__, formatter_class=argparse.RawDescriptionHelpFormatter)
    parser.add_argument("--elfload", default="")
    elfload = parser.parse_args().elfload
    if not can_trace():
        print("no process can be stopped by ptrace here")
        return 0
    with tempfile.TemporaryDirectory() as folder:
        room = Room(folder, elfload and os.path.abspath(elfload))
        for error, change, linux, glibc in CASES:
            did = room.tried(error, change, "program", by_linux, linux), room.tried(error, change, "library", by_glibc, glibc)
            print(f"{error}: Linux {did[0]}, glibc {did[1]}")
        for error, change, fixed, moved in STATIC:
            did = room.tried(error, change, "fixed", by_linux, fixed), room.tried(error, change, "moved", by_linux, moved)
            print(f"{error}: Linux, at a fixed address {did[0]}, at any {did[1]}")
        for error, change, asking, moved in SPANS:
            did = room.tried(error, change, "program", by_linux, asking), room.tried(error, change, "moved", by_linux, moved)
            print(f"{error}: Linux, with an interpreter {did[0]}, without {did[1]}")
        for error, change, wanted in STARTED:
            print(f"{error}: a program that starts with it {room.tried(error, change, 'library', by_start, wanted)}")
    print(f"{room.count} files, {room.faults} otherwise than is written here")
    return 1 if room.faults else 0


if __name__ == "__main__":
    sys.exit(main())
