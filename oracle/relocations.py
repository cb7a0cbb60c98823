#!/usr/bin/env python3
"""What glibc does with a file whose relocations can't be applied, by the errors that `check_image` has for them.

    oracle/relocations.py     prints what `dlopen` and a call do with each library, and fails where it isn't what is written here
    oracle/relocations.py --elfload crates/elfload/out/elfload     wants its status to be 1 for those that `check_image` has an error for
    oracle/relocations.py --elfload PATH --random 4000 --seed 1    tries so many changed copies of libraries: fails where a status is 0, and
                                                                   glibc doesn't load the file, for a cause that no page lists

Libraries of gcc are changed in one entry of the dynamic segment, in one relocation, or in a symbol. Programs write what their jump slots
are before they are called, which `elfload --lazy` is to say too. It needs x86-64 and glibc; without that of 386 it leaves programs out.
"""
import argparse
import itertools
import os
import pathlib
import re
import struct
import subprocess
import sys
import tempfile

import changes

SOURCE = """int table[4] = {1, 2, 3}, *places[3] = {table, table + 1, table + 2};
extern int atoi(const char *); const char *volatile text = "7";
__attribute__((weak)) extern int absent; int *weak = &absent;
int other(const char *text) { return 1; }
int call(void) { return 33 + table[1] + atoi(text); }"""
# All relocations of this one are relative, and the call needs the last.
RELATIVE = """static int table[4] = {1, 2}, *volatile places[3] = {table, table, table + 1};
int call(void) { return 40 + *places[2]; }"""
# A program copies a number of this one, beside which another is.
COPIED = "int number[2] = {40, 42}, other[2] = {1, 7}; int *resolver(void) { return other; }"
PROGRAM = "extern int number[2]; int main(void) { return number[1]; }"
# A relocation of this one calls a function.
CALLING = """static int real(void) { return 42; } static void *pick(void) { return real; }
static int chosen(void) __attribute__((ifunc("pick"))); __attribute__((weak)) extern int absent;
int *volatile weak = &absent; int call(void) { return chosen(); }"""
# A program of 386, with room for relocations with addends.
SMALL = """const char interpreter[] __attribute__((section(".interp"))) = "/lib/ld-linux.so.2";
int table[2] = {1, 42}; const unsigned room[3] = {0x12345678, 0, 0};
void _start(void) { __asm__ volatile("int $0x80" :: "a"(1), "b"(*table)); __builtin_unreachable(); }"""
# A program that writes its two jump slots, which are the fourth and fifth word at DT_PLTGOT, and the address of its header.
SLOTS = """void other(void) {} void third(void) {}
extern unsigned long table[] __asm__("_GLOBAL_OFFSET_TABLE_") __attribute__((visibility("hidden")));
extern char header[] __asm__("__ehdr_start") __attribute__((visibility("hidden")));
#ifdef __x86_64__
const char interpreter[] __attribute__((section(".interp"))) = "/lib64/ld-linux-x86-64.so.2";
#define CALL(number, one, two, three) __asm__ volatile("syscall" :: "a"(number), "D"(one), "S"(two), "d"(three) : "rcx", "r11", "memory")
#define WRITE 1
#define EXIT 60
#else
const char interpreter[] __attribute__((section(".interp"))) = "/lib/ld-linux.so.2"; const unsigned room[6] = {0x12345678, 1};
#define CALL(number, one, two, three) __asm__ volatile("int $0x80" :: "a"(number), "b"(one), "c"(two), "d"(three) : "memory")
#define WRITE 4
#define EXIT 1
#endif
void _start(void) { unsigned long words[3] = {table[3], table[4], (unsigned long)header};
CALL(WRITE, 1, words, sizeof words); CALL(EXIT, 0, 0, 0); other(); third(); __builtin_unreachable(); }"""
ASKED = "import ctypes, sys; sys.exit(ctypes.CDLL(sys.argv[1], mode=int(sys.argv[2])).call())"
NOW, LAZY = "2", "1"
SAID = re.compile(r"word 0x\w+ (\d) JU?MP_SLOT = base\(0\) \+ 0x(\w+)")
SMALL_LINKER = pathlib.Path("/lib/ld-linux.so.2")
LIBRARIES = ("/lib/x86_64-linux-gnu/libc.so.6", "/lib64/ld-linux-x86-64.so.2")
RELA, RELASZ, REL, PLTREL, JMPREL, RELR, RELACOUNT, RELCOUNT, UNKNOWN = 7, 8, 17, 20, 23, 36, 0x6FFFFFF9, 0x6FFFFFFA, 0x6FFFFF00
SYMTAB, STRTAB, PLTGOT, PLTRELSZ, VERSYM = 6, 5, 3, 2, 0x6FFFFFF0


class Library:
    """A library whose dynamic segment and relocations are changed."""

    def __init__(self, content: bytes) -> None:
        self.held, (start,), (count,) = bytearray(content), struct.unpack_from("<Q", content, 32), struct.unpack_from("<H", content, 56)
        rows = [struct.unpack_from("<IIQQQQ", content, start + 56 * index) for index in range(count)]
        self.loads = [(address, offset, size) for kind, _, offset, address, _, size in rows if kind == 1]
        self.dynamic = next((offset, size) for kind, _, offset, _, _, size in rows if kind == 2)

    def entry(self, tag: int) -> int:
        """The offset of an entry."""
        start, size = self.dynamic
        return next(it for it in range(start, start + size, 16) if struct.unpack_from("<Q", self.held, it)[0] == tag)

    def number(self, tag: int) -> int:
        return struct.unpack_from("<Q", self.held, self.entry(tag) + 8)[0]

    def put(self, tag: int, number: int) -> None:
        struct.pack_into("<Q", self.held, self.entry(tag) + 8, number)

    def rename(self, tag: int, other: int) -> None:
        struct.pack_into("<Q", self.held, self.entry(tag), other)

    def table(self, tag: int) -> int:
        """The offset of the table of an entry."""
        address = self.number(tag)
        return next(address - first + offset for first, offset, size in self.loads if first <= address < first + size)

    def symbol(self, name: bytes) -> int:
        """The offset of the symbol with a name."""
        start, texts = self.table(SYMTAB), self.table(STRTAB)
        return next(it for it in itertools.count(start, 24) if self.held[texts + struct.unpack_from("<I", self.held, it)[0] :].startswith(name + b"\0"))

    def indirect(self) -> None:
        """The number is what a function returns."""
        number, resolver = self.symbol(b"number"), self.symbol(b"resolver")
        self.held[number + 4], self.held[number + 8 : number + 16] = 0x1A, self.held[resolver + 8 : resolver + 16]

    def absolute(self) -> None:
        """The number is at the address of the program's header."""
        struct.pack_into("<HQ", self.held, self.symbol(b"number") + 6, 0xFFF1, 0x400000)

    def count(self, more: int, tag: int = RELACOUNT) -> None:
        """The number of relative relocations is another, or that of another kind."""
        self.put(RELACOUNT, self.number(RELACOUNT) + more)
        self.rename(RELACOUNT, tag)

    def retype(self, start: int, kind: int) -> None:
        struct.pack_into("<I", self.held, start + 8, kind)

    def odd(self) -> None:
        self.held[self.table(RELR)] |= 1

    def prelink(self, name: bytes) -> None:
        """The second word at DT_PLTGOT is the address of a function: the first slot gets it, and the n-th 16 * n more."""
        symbol, words = self.symbol(name), self.table(PLTGOT)
        self.held[words + 8 : words + 16] = self.held[symbol + 8 : symbol + 16]

    def call_with(self, name: bytes, binding: int) -> None:
        """The relocation that calls a function names a symbol, and nothing else does."""
        start, symbol = self.table(JMPREL), self.symbol(name)
        struct.pack_into("<I", self.held, start + 12, (symbol - self.table(SYMTAB)) // 24)
        self.held[symbol + 4] = self.held[symbol + 4] % 16 + 16 * binding
        self.retype(self.last(), 0)

    def last(self) -> int:
        """The last relocation of type 64 with a name: that of the missing weak symbol."""
        start, size = self.table(RELA), self.number(RELASZ)
        return max(it for it in range(start, start + size, 24) if struct.unpack_from("<I", self.held, it + 8)[0] == 1)

    def sizes(self) -> None:
        """The relocation of the missing weak symbol asks for its size."""
        self.retype(self.last(), 33)


# The error of `check_image` or none, the library, the change, and what glibc does if it binds at once and lazily.
CASES = (
    ("", "lazy", lambda it: None, "loaded", "loaded"),
    ("NoAddends", "lazy", lambda it: it.put(PLTREL, REL), "assertion", "assertion"),
    ("NoAddends", "lazy", lambda it: it.rename(RELACOUNT, REL), "loaded", "loaded"),
    ("NoSlots", "lazy", lambda it: it.rename(JMPREL, UNKNOWN), "crash", "crash"),
    ("SlotKind", "lazy", lambda it: it.rename(PLTREL, UNKNOWN), "crash", "crash"),
    ("FirstPacked", "packed", lambda it: it.odd(), "crash", "crash"),
    ("RelativeCount", "lazy", lambda it: it.count(1), "assertion", "assertion"),
    ("RelativeCount", "relative", lambda it: it.count(1), "assertion", "assertion"),
    ("RelativeCount", "relative", lambda it: it.put(RELASZ, 48), "loaded", "loaded"),
    ("", "relative", lambda it: it.count(-1), "loaded", "loaded"),
    ("", "lazy", lambda it: it.count(99, RELCOUNT), "loaded", "loaded"),
    ("SlotType", "lazy", lambda it: it.retype(it.table(JMPREL), 1), "loaded", "error"),
    ("SlotType", "lazy", lambda it: it.retype(it.table(JMPREL), 6), "loaded", "error"),
    ("", "at once", lambda it: it.retype(it.table(JMPREL), 1), "loaded", "loaded"),
    ("NoSize", "lazy", lambda it: it.sizes(), "crash", "crash"),
    ("NoEntry", "lazy", lambda it: it.rename(PLTGOT, UNKNOWN), "loaded", "crash"),
    ("NoEntry", "lazy", lambda it: it.rename(VERSYM, UNKNOWN), "crash", "crash"),
    ("", "at once", lambda it: it.rename(PLTGOT, UNKNOWN), "loaded", "loaded"),
    ("", "lazy", lambda it: it.prelink(b"other"), "loaded", "otherwise"),
    ("", "calling", lambda it: None, "loaded", "loaded"),
    ("CallSymbol", "calling", lambda it: it.call_with(b"absent", 1), "error", "loaded"),
    ("CallSymbol", "calling", lambda it: it.call_with(b"absent", 2), "loaded", "loaded"),
    ("CallSymbol", "calling", lambda it: it.call_with(b"call", 1), "loaded", "loaded"),
)

# The same for a library of which a program copies a number, and the number that it has then.
COPIES = (("", lambda it: None, 42), ("CopyKind", lambda it: it.indirect(), 7), ("CopyKind", lambda it: it.absolute(), 2))


class Program:
    """A program of x86-64 or 386 whose dynamic segment is changed."""

    def __init__(self, content: bytes) -> None:
        self.held, is_wide = bytearray(content), content[4] == 2
        self.form, self.size = ("<Q", 8) if is_wide else ("<I", 4)
        (start,), (count,) = struct.unpack_from(self.form, content, 32 if is_wide else 28), struct.unpack_from("<H", content, 56 if is_wide else 44)
        rows = [struct.unpack_from("<IIQQQQ" if is_wide else "<5I", content, start + (56 if is_wide else 32) * index) for index in range(count)]
        # The type, the offset, the address and the size in the file of each segment.
        self.segments = [(row[0], *row[2:4], row[5]) if is_wide else (*row[:3], row[4]) for row in rows]
        entry, size = next((offset, size) for kind, offset, _, size in self.segments if kind == 2)
        self.tags = {self.at(it): it + self.size for it in range(entry, entry + size, 2 * self.size)}

    def at(self, place: int) -> int:
        return struct.unpack_from(self.form, self.held, place)[0]

    def set(self, place: int, number: int) -> None:
        struct.pack_into(self.form, self.held, place, number % 256**self.size)

    def rename(self, tag: int, other: int, number: int) -> None:
        """An entry has another tag and number."""
        self.set(self.tags[tag] - self.size, other)
        self.set(self.tags[tag], number)

    def offset(self, address: int) -> int:
        return next(address - first + start for kind, start, first, size in self.segments if kind == 1 and first <= address < first + size)

    def prelink(self, first: int, more: int = 0) -> None:
        """DT_PLTGOT is as many words further on, and the second word there is this number."""
        table = self.at(self.tags[PLTGOT]) + more * self.size
        self.set(self.offset(table + self.size), first)
        self.set(self.tags[PLTGOT], table)

    def with_addends(self, tag: int, count: int, addend: int) -> int:
        """The relocations of 386 at an entry are in the room of the program, with this addend: the address of the room."""
        room, table = self.held.index(struct.pack("<I", 0x12345678)), self.offset(self.at(self.tags[tag]))
        for index in range(count):
            record = self.held[table + 8 * index : table + 8 * index + 8] + struct.pack("<I", addend)
            self.held[room + 12 * index : room + 12 * index + 12] = record
        return next(room - start + first for kind, start, first, size in self.segments if kind == 1 and start <= room < start + size)

    def moved(self, addend: int) -> None:
        """The one relocation of a program, of type GLOB_DAT, has this addend."""
        address = self.with_addends(REL, 1, addend)
        for tag, other, number in ((REL, RELA, address), (REL + 1, RELASZ, 12), (REL + 2, RELASZ + 1, 12)):
            self.rename(tag, other, number)

    def slots_with_addends(self) -> None:
        address = self.with_addends(JMPREL, 2, 0)
        for tag, number in ((JMPREL, address), (PLTRELSZ, 24), (PLTREL, RELA)):
            self.set(self.tags[tag], number)


def outcome(path: pathlib.Path, mode: str) -> str:
    ran = subprocess.run([sys.executable, "-c", ASKED, path, mode], capture_output=True, check=False)
    if ran.returncode == 127 and b"Assertion" in ran.stderr:
        return "assertion"
    return {42: "loaded", 1: "error"}.get(ran.returncode, "crash" if ran.returncode < 0 else "otherwise")


# The same for a program of 386, which ends with the number that it reads.
SMALLS = (("", lambda it: None, 1), ("Addends", lambda it: it.moved(4), 42))

# The same for the slots of a program: what they are before they are called, less the base.
SLOT_CASES = (
    ("", "slots", lambda it: None, [0x1016, 0x1026]),
    ("", "slots", lambda it: it.prelink(0x5000), [0x5000, 0x5010]),
    ("", "slots", lambda it: it.prelink(-16), [-16, 0]),
    ("", "slots", lambda it: it.prelink(0x5000, -1), [0x5010, 0x5020]),
    ("", "slots", lambda it: it.prelink(0x5000, 3), [0x4FD0, 0x4FE0]),
    ("", "small slots", lambda it: None, [0x1016, 0x1026]),
    ("", "small slots", lambda it: it.prelink(0x5000), [0x5000, 0x5010]),
    ("", "small slots", lambda it: it.prelink(-16), [-16, 0]),
    ("", "small slots", lambda it: it.prelink(0x5000, -1), [0x5010, 0x5020]),
    ("", "small slots", lambda it: it.prelink(0x5000, 3), [0x4FD0, 0x4FE0]),
    # those of the functions
    ("Addends", "small slots", lambda it: it.slots_with_addends(), [0x1030, 0x1031]),
)


def changed(path: pathlib.Path, copy: pathlib.Path, change, kind=Library) -> None:
    """Writes a copy of a library or program with a change."""
    changed_file = kind(path.read_bytes())
    change(changed_file)
    copy.unlink(missing_ok=True)
    copy.write_bytes(changed_file.held)
    copy.chmod(0o755)


def slots_of(program: pathlib.Path, is_small: bool) -> list[int]:
    """The slots of a program that writes them, less its base."""
    form, bits = ("<3I", 32) if is_small else ("<3Q", 64)
    *slots, base = struct.unpack(form, subprocess.run([program], capture_output=True, check=True).stdout)
    return [(it - base + 2 ** (bits - 1)) % 2**bits - 2 ** (bits - 1) for it in slots]


def said_slots(elfload: str, files: list) -> list[int]:
    """The slots of the first file that elfload says, less its base."""
    said = subprocess.run([os.path.abspath(elfload), "--lazy", *files], capture_output=True, check=False, text=True).stdout
    found = [(int(width), int(number, 16)) for width, number in SAID.findall(said)]
    return [(number + 2 ** (8 * width - 1)) % 2 ** (8 * width) - 2 ** (8 * width - 1) for width, number in found]


def built(folder: pathlib.Path) -> None:
    """Libraries, a program that copies a number, and programs that write their slots."""
    shared = ["gcc", "-O1", "-shared", "-fPIC"]
    for name, source, words in (
        ("lazy", SOURCE, ["-Wl,-z,lazy"]),
        ("at once", SOURCE, ["-Wl,-z,now"]),
        ("packed", SOURCE, ["-Wl,-z,now", "-Wl,-z,pack-relative-relocs"]),
        ("relative", RELATIVE, ["-nostdlib"]),
        ("copied", COPIED, ["-Wl,-soname,changed"]),
        ("calling", CALLING, ["-Wl,-z,lazy"]),
    ):
        subprocess.run([*shared, *words, "-x", "c", "-", "-o", name], cwd=folder, input=source.encode(), check=True)
    if SMALL_LINKER.exists():
        small = [*shared, "-m32", "-nostdlib", "-Wl,-e,_start", "-x", "c", "-", "-o", "small"]
        subprocess.run(small, cwd=folder, input=SMALL.encode(), check=True)
    for name, words in (("slots", []), ("small slots", ["-m32"])) if SMALL_LINKER.exists() else (("slots", []),):
        slots = [*shared, *words, "-nostdlib", "-fno-stack-protector", "-Wl,-e,_start,-z,lazy,-z,norelro", "-x", "c", "-", "-o", name]
        subprocess.run(slots, cwd=folder, input=SLOTS.encode(), check=True)
    program = ["gcc", "-O1", "-no-pie", "-fno-pie", "-Wl,-rpath,$ORIGIN", "-x", "c", "-", "-x", "none", "./copied", "-o", "program"]
    subprocess.run(program, cwd=folder, input=PROGRAM.encode(), check=True)


def main() -> int:
    parser = argparse.ArgumentParser(description=__doc__, formatter_class=argparse.RawDescriptionHelpFormatter)
    parser.add_argument("--elfload", default="")
    parser.add_argument("--random", type=int, default=0, metavar="COUNT")
    parser.add_argument("--seed", type=int, default=1)
    asked = parser.parse_args()
    elfload = asked.elfload
    if asked.random:
        return 1 if changes.tried(os.path.abspath(elfload), Library, asked.random, asked.seed, LIBRARIES) else 0
    faults = 0
    with tempfile.TemporaryDirectory() as folder:
        room = pathlib.Path(folder)
        built(room)
        copy = room / "changed"

        def told(error: str, did: list, wanted: list, files: list) -> bool:
            """Prints what glibc did, and whether it or elfload differs from what stands here."""
            other = "" if did == wanted else f": NOT {wanted}"
            if elfload:
                status = subprocess.run([os.path.abspath(elfload), *files], capture_output=True, check=False).returncode
                other += f": STATUS {status}" if status != bool(error) else ""
            print(f"{error or 'no error'}: {', lazily '.join(map(str, did))}{other}")
            return bool(other)

        for error, name, change, *wanted in CASES:
            changed(room / name, copy, change)
            faults += told(error, [outcome(copy, mode) for mode in (NOW, LAZY)], wanted, [copy, *LIBRARIES])
        for error, change, number in COPIES:
            changed(room / "copied", copy, change)
            did = subprocess.run([room / "program"], check=False).returncode
            faults += told(error, [did], [number], [room / "program", copy, *LIBRARIES])
        for error, change, number in SMALLS if SMALL_LINKER.exists() else ():
            changed(room / "small", copy, change, Program)
            faults += told(error, [subprocess.run([copy], check=False).returncode], [number], [copy, SMALL_LINKER])
        for error, name, change, wanted in SLOT_CASES:
            is_small = name != "slots"
            if is_small and not SMALL_LINKER.exists():
                continue
            changed(room / name, copy, change, Program)
            files = [copy, SMALL_LINKER if is_small else LIBRARIES[1]]
            faults += told(error, [slots_of(copy, is_small)], [wanted], files)
            if elfload and not error and (said := said_slots(elfload, files)) != wanted:
                print(f"elfload says {said}, {wanted} is wanted")
                faults += 1
    print(f"{len(CASES) + len(COPIES) + len(SMALLS) + len(SLOT_CASES)} files, {faults} otherwise than is written here")
    return 1 if faults else 0


if __name__ == "__main__":
    sys.exit(main())
