#!/usr/bin/env python3
"""Compare what elfload says of memory with that of programs that Linux and the dynamic linker have loaded.

    tools/compare/memory.py [--elfload PATH] [--lazy 1] [--root FOLDER] [--step N] PROGRAM..

Each dynamically linked program among the files and folders, with --step each Nth, is stopped by ptrace before the first constructor
(`to_relocated`). Compared are each word that elfload prints of the files of the linker's list, and each byte of memory (`image_of`).
With --lazy 1 jump slots get their symbols when they are called first. --root names a folder with the files of another system. The
causes by which differences are counted are in docs/TESTS.md. Where processes can't be traced, the script says so, and passes.
"""
import functools
import os
import re
import shutil
import struct
import sys
from collections import namedtuple
from typing import Iterator

from comparing import LOAD, UNIQUE, Tally, dynamic_symbols, parser_of, run
from damage import Headers, Segment
from processes import (
    EMULATOR, PAGE, Emulated, Stopped, can_trace, content_of, is_narrow, linker_in, linker_of, programs_in,
    real, to_debug_state, value_of)

WORD = re.compile(r"word 0x([0-9a-f]+) (\d+) (\w+) = (.*)")
NUMBER = re.compile(r"(?:(base|thread)\((\d+)\) \+ )?0x([0-9a-f]+)(?: - (base|thread)\((\d+)\))?")
MODULE = re.compile(r"module\((\d+)\)")
COPY = re.compile(r"copy\((\d+), 0x([0-9a-f]+), (\d+)\)")
NO_NUMBER = re.compile(r"call\((?:base\(\d+\) \+ )?0x[0-9a-f]+\) \+ 0x[0-9a-f]+|descriptor\((?:\d+, )?0x[0-9a-f]+\)")

# Types of segments, and tags of entries of a dynamic segment.
DYNAMIC, THREAD_LOCAL, RELRO = 2, 7, 0x6474E552
PLT_GOT, DEBUG = 3, 21
WRITABLE = 2
# The most bytes that the resolvers of a file may leave: __cpu_model of libgcc, and the features beside it.
RESOLVED = 32
# The machine AArch64 in an ELF header, and how far above the thread pointer its first thread-local storage begins.
AARCH64, BLOCK = 183, 16
# The folders of libraries of 386.
LIBRARIES = ("lib/i386-linux-gnu", "usr/lib/i386-linux-gnu")

# A file in a process: its path, its base, and whether Linux has mapped it.
File = namedtuple("File", "path base is_by_kernel")
# A word that elfload prints.
Word = namedtuple("Word", "address width kind value")
# The thread-local storage of a file: its index, its size and alignment, and how far its start is below an aligned address.
Storage = namedtuple("Storage", "index size align first")
# A process that is stopped where relocation is done, and the words of its files if all slots get their symbols at once.
Process = namedtuple("Process", "program process files linker numbers at_once")


def address_size(path: str) -> int:
    return 4 if is_narrow(path) else 8


def is_aarch64(path: str) -> bool:
    return int.from_bytes(content_of(path)[18:20], "little") == AARCH64


@functools.lru_cache(maxsize=None)
def segments_of(path: str) -> tuple[Segment, ...]:
    return tuple(Headers(content_of(path)).program_headers())


def last_of(path: str, kind: int) -> Segment | None:
    return next((it for it in reversed(segments_of(path)) if it.type == kind and it.memsz), None)


@functools.lru_cache(maxsize=None)
def entries_of(path: str) -> tuple[tuple[int, int], ...]:
    """The tags and values of the dynamic segment."""
    return tuple((tag, value) for _, tag, value in Headers(content_of(path)).dynamic())


def down(address: int) -> int:
    return address // PAGE * PAGE


def up(address: int) -> int:
    return -(-address // PAGE) * PAGE


def image_of(file: File, load: Segment) -> bytearray:
    """What a load segment has in memory, in whole pages, before relocation."""
    start, inside = down(load.vaddr), load.vaddr % PAGE
    held = bytearray(up(load.vaddr + load.memsz) - start)
    if load.filesz:
        part = content_of(file.path)[down(load.offset) :][: up(load.vaddr + load.filesz) - start]
        held[: len(part)] = part
    # Behind the zeros, glibc leaves the bytes of the file, and Linux none.
    end = len(held) if file.is_by_kernel and load.memsz > load.filesz else inside + load.memsz
    held[inside + load.filesz : end] = bytes(end - inside - load.filesz)
    return held


def thread_offsets(files: list[File]) -> dict[int, int]:
    """How far above the thread pointer glibc puts thread-local storage, by the index of its file (_dl_determine_tlsoffset); below it,
    as a negative number, but for AArch64."""
    is_above = is_aarch64(files[0].path)

    def place(after: int, of: Storage) -> tuple[int, int]:
        """Where a storage begins and ends that comes after others, as distances from the thread pointer."""
        if not is_above:
            end = -(-(after + of.size - of.first) // of.align) * of.align + of.first
            return end - of.size, end
        aligned = -(-after // of.align) * of.align
        begin = aligned + (of.align if aligned - after < of.first else 0) - of.first
        return begin, begin + of.size

    found, end, free, free_end = {}, BLOCK if is_above else 0, 0, 0
    held = ((index, it, max(it.align, 1)) for index, file in enumerate(files) if (it := last_of(file.path, THREAD_LOCAL)))
    for of in (Storage(index, it.memsz, align, -it.vaddr % align) for index, it, align in held):
        begin, last = place(free, of)
        if of.size <= free_end - free and last <= free_end:
            free = last
        else:
            begin, last = place(end, of)
            if begin - end > free_end - free:
                free, free_end = end, begin
            end = last
        found[of.index] = begin if is_above else -last
    return found


class Numbers:
    """The numbers of words by the files of a process."""

    def __init__(self, files: list[File]) -> None:
        threads = thread_offsets(files)
        self.files, self.modules = files, {index: number for number, index in enumerate(threads, 1)}
        self.terms = {"base": [it.base for it in files], "thread": threads}

    def of(self, word: Word) -> int | None:
        """The number of a word, if it has one."""
        if found := NUMBER.fullmatch(word.value):
            plus, minus = ((self.terms[name][int(index)] if name else 0) for name, index in (found.group(1, 2), found.group(4, 5)))
            return (plus + int(found[3], 16) - minus) % 2 ** (8 * word.width)
        if found := MODULE.fullmatch(word.value):
            return self.modules[int(found[1])]
        if not NO_NUMBER.fullmatch(word.value):
            raise ValueError(word.value)
        return None

    def bytes_of(self, process: Stopped, word: Word) -> bytes | None:
        """The bytes of a word, if they are known; of a copy those that the process has at its source."""
        if copied := COPY.fullmatch(word.value):
            return process.memory(self.terms["base"][int(copied[1])] + int(copied[2], 16), int(copied[3]))
        number = self.of(word)
        return None if number is None else number.to_bytes(word.width, "little")


def words_of(text: str) -> list[list[Word]]:
    """The words of each file that elfload prints."""
    found: list[list[Word]] = []
    for line in text.split("\n"):
        if line.startswith("words "):
            found.append([])
        elif word := WORD.fullmatch(line):
            found[-1].append(Word(int(word[1], 16), int(word[2]), *word.group(3, 4)))
    return found


class Root(namedtuple("Root", "path")):
    """The folder of the system in which programs are: that of this one is empty."""

    def start(self, program: str, is_lazy: bool) -> Stopped:
        """Starts a process, which stops before its first instruction."""
        variables = {} if is_lazy else {"LD_BIND_NOW": "1"}
        if self.path and is_aarch64(program):
            return Emulated(program, self.path, **variables)
        if self.path:
            variables["LD_LIBRARY_PATH"] = ":".join(os.path.join(self.path, it) for it in LIBRARIES)
        return Stopped(program, **variables)

    def holds(self, path: str) -> bool:
        return not self.path or path.startswith(self.path + "/")


def file_of(process: Stopped, name: str) -> str:
    """The path of a file that a process calls by a name: qemu looks for it in the folder of the system first."""
    own = process.root + name if isinstance(process, Emulated) else name
    return real(own if os.path.isfile(own) else name)


def to_relocated(process: Stopped, program: str) -> tuple[str, int] | None:
    """Runs up to where relocation is done and no constructor has run; the linker and its base, if the process gets there."""
    if isinstance(process, Emulated):
        return process.to_relocated(file_of(process, linker_of(program) or ""))
    if not process.is_stopped() or not process.to_read_only() or not to_debug_state(process):
        return None
    return linker_in(process, process.maps())


def files_of(process: Stopped, program: str, linker: str, base: int) -> Iterator[File]:
    """The files in the linker's list (`struct link_map`)."""
    form, size = "I" if is_narrow(linker) else "Q", address_size(linker)
    (at,) = struct.unpack(f"<{form}", process.memory(base + value_of(linker, "_r_debug") + size, size))
    while at:
        moved, name, _, at = struct.unpack(f"<4{form}", process.memory(at, 4 * size))
        called = process.memory(name, PAGE).split(b"\0")[0].decode("utf-8", "surrogateescape")
        path = file_of(process, called) if called else program
        if os.path.isfile(path):
            yield File(path, moved, path in (program, linker))


def is_early(file: File) -> bool:
    """Whether __libc_early_init of the C library writes data of a file."""
    return os.path.basename(file.path).startswith("libc.so")


def cause_of_word(files: list[File], of: int, word: Word, linker: str) -> str | None:
    found = NUMBER.fullmatch(word.value)
    if found and found[1] == "base":
        symbols = dynamic_symbols(files[int(found[2])].path)
        if any(it.binding == UNIQUE and it.value <= int(found[3], 16) < it.value + max(it.size, 1) for it in symbols):
            return "unique"
    return "linker" if files[of].path == linker else "early libc" if is_early(files[of]) else None


def cause_of_byte(file: File, address: int, is_writable: bool, held: bytes, linker: str) -> str | None:
    """Why a byte that is of no word is another; `held` are the bytes of the address in whose middle it may be."""
    entries, dynamic, size = dict(entries_of(file.path)), last_of(file.path, DYNAMIC), len(held)
    if dynamic and dynamic.vaddr <= address < dynamic.vaddr + dynamic.memsz:
        tag, value = entries_of(file.path)[(address - dynamic.vaddr) // (2 * size)]
        return "dynamic" if tag == DEBUG or int.from_bytes(held, "little") == (value + file.base) % 256**size else None
    got = entries.get(PLT_GOT)
    if got is not None and got + size <= address < got + 3 * size:
        return "lazy"
    return "linker" if file.path == linker else "early libc" if is_writable and is_early(file) else None


def compare_words(of: Process, index: int, words: list[Word], tally: Tally) -> dict[int, bytes]:
    """Compares the words of a file, and returns the bytes that memory has for each, by its address."""
    file, found = of.files[index], {}
    at_once = {it.address: it for it in of.at_once[index]} if of.at_once else {}
    for word in words:
        held = of.process.memory(file.base + word.address, word.width)
        wanted = of.numbers.bytes_of(of.process, word)
        found[word.address] = held
        tally["words"] += 1
        if wanted is None:
            tally["words without a number"] += 1
        elif held == wanted:
            tally["words equal"] += 1
        elif word.address in at_once and held == of.numbers.bytes_of(of.process, at_once[word.address]):
            tally["words of slots bound already"] += 1
        elif cause := cause_of_word(of.files, index, word, of.linker):
            tally[f"words: {cause}"] += 1
        else:
            tally.fault(f"{of.program}: {file.path}: {word}: elfload says {wanted.hex()}, memory has {held.hex()}")
    return found


def differing(one: bytes, other: bytes) -> Iterator[int]:
    for start in range(0, len(one), PAGE):
        parts = one[start : start + PAGE], other[start : start + PAGE]
        if parts[0] != parts[1]:
            yield from (start + place for place, (left, right) in enumerate(zip(*parts)) if left != right)


def compare_load(
    of: Process, file: File, load: Segment, words: dict[int, bytes], calls: bool, compared: set[tuple[str, int]], tally: Tally
) -> None:
    """Compares the bytes of a load segment; of one without words that can't be written once for all processes."""
    start, wanted, size = down(load.vaddr), image_of(file, load), address_size(file.path)
    is_writable = bool(load.flags & WRITABLE)
    inside = {at: held for at, held in words.items() if load.vaddr <= at < load.vaddr + load.memsz}
    if not inside and not is_writable and (file.path, start) in compared:
        return
    compared.add((file.path, start))
    for at, held in inside.items():
        wanted[at - start : at - start + len(held)] = held
    memory = of.process.memory(file.base + start, len(wanted))
    # Of pages of a file past its end there are no bytes.
    tally["bytes"] += len(memory)
    if len(memory) != len(wanted):
        tally.fault(f"{of.program}: {file.path}: of {load} memory has {len(memory)} bytes")
    resolved = 0
    for place in differing(memory, bytes(wanted)):
        relro = last_of(file.path, RELRO)
        is_open = is_writable and not (relro and down(relro.vaddr) <= start + place < down(relro.vaddr + relro.memsz))
        first = (start + place) // size * size - start
        cause = cause_of_byte(file, start + place, is_open, memory[first : first + size], of.linker)
        if calls and is_open and not cause and start + place >= load.vaddr + load.filesz and resolved < RESOLVED:
            cause, resolved = "resolver", resolved + 1
        if cause:
            tally[f"bytes: {cause}"] += 1
        else:
            tally.fault(f"{of.program}: {file.path}: byte at {start + place:x}: {wanted[place]:02x} is wanted, memory has {memory[place]:02x}")


def compare_memory(of: Process, text: str, compared: set[tuple[str, int]], tally: Tally) -> None:
    words = words_of(text)
    if len(words) != len(of.files):
        tally.fault(f"{of.program}: {len(of.files)} files, elfload says words of {len(words)}")
        return
    for index, file in enumerate(of.files):
        found = compare_words(of, index, words[index], tally)
        # Whether the linker calls a function of the file for one of its words.
        calls = any(it.value.startswith("call(") for it in words[index])
        for load in segments_of(file.path):
            if load.type == LOAD:
                compare_load(of, file, load, found, calls, compared, tally)
    tally["programs"] += 1
    tally["files"] += len(of.files)


def compare(program: str, root: Root, is_lazy: bool, compared: set[tuple[str, int]], tally: Tally) -> None:
    process = root.start(program, is_lazy)
    try:
        linker = to_relocated(process, program)
        if linker is None:
            tally["programs not loaded"] += 1
            return
        files = list(files_of(process, program, *linker))
        paths = [it.path for it in files]
        said = run([tally.program, *(["--lazy"] if is_lazy else []), *paths])
        if said.status != 0:
            tally.fault(f"{program}: elfload: status {said.status}: {said.errors.strip()}")
            return
        at_once = words_of(run([tally.program, *paths]).output) if is_lazy else []
        compare_memory(Process(program, process, files, linker[0], Numbers(files), at_once), said.output, compared, tally)
    finally:
        process.end()


if __name__ == "__main__":
    parser = parser_of(__doc__, "elfload", files="+", lazy=0, step=1)
    parser.add_argument("--root", default="", metavar="FOLDER")
    given = parser.parse_args()
    if not can_trace():
        print("0 programs, 0 differences: no process can be stopped by ptrace here")
        sys.exit(0)
    root = Root(given.root and real(given.root))
    tally = Tally(given.elfload, "programs", "programs not loaded", "files", "words", "words equal", "words without a number", "bytes")
    compared: set[tuple[str, int]] = set()
    for program in [it for it in programs_in(given.files) if root.holds(it)][:: given.step]:
        if is_aarch64(program) and not shutil.which(EMULATOR):
            tally["left for want of an emulator"] += 1
        else:
            compare(program, root, bool(given.lazy), compared, tally)
    sys.exit(tally.ended())
