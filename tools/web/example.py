#!/usr/bin/env python3
"""Writes the examples that the page offers: `example.elf`, a program without faults, and `example-with-faults.elf`.

    tools/web/example.py FOLDER
"""
import collections
import hashlib
import pathlib
import random
import struct
import sys

sys.path.insert(0, str(pathlib.Path(__file__).resolve().parents[1]))
from compare import damage

LAYOUT = damage.Layout(True, "little")
NAMES = (b"puts", b"table", b"run")
LIBRARY, VERSION = b"libc.so.6", b"GLIBC_2.2.5"
ALLOC, WRITE, EXECUTE = 2, 1, 4
# The flags of sections that are executed, written or not loaded; the others are only read.
FLAGS = {b".text": ALLOC | EXECUTE, **dict.fromkeys((b".dynamic", b".got", b".data"), ALLOC | WRITE),
         **dict.fromkeys((b".comment", b".symtab", b".strtab", b".shstrtab"), 0)}


def tables(at, size):
    """The sections in order, each with its name, type, data, link, info and size of an entry: `at` and `size` give the
    addresses and sizes of all."""
    held, places = damage.texts([*NAMES, LIBRARY, VERSION])
    symbols = [LAYOUT.symbol(0, 0, 0, 0), LAYOUT.symbol(places[0], 0x12, 0, 0), LAYOUT.symbol(places[1], 0x11, 14, at[b".data"]),
               LAYOUT.symbol(places[2], 0x12, 10, at[b".text"])]
    local, names = damage.texts([b"example.c", *NAMES])
    own = [symbols[0], LAYOUT.symbol(names[0], 4, 0xfff1, 0), *(LAYOUT.words(name) + it[4:] for name, it in zip(names[1:], symbols[1:]))]
    needs = struct.pack("<HHIII", 1, 1, places[3], 16, 0) + struct.pack("<IHHII", damage.hash_number(VERSION), 0, 2, places[4], 0)
    entries = [(1, places[3]), (4, at[b".hash"]), (5, at[b".dynstr"]), (6, at[b".dynsym"]), (10, size[b".dynstr"]), (11, 24),
               (21, 0), (7, at[b".rela.dyn"]), (8, size[b".rela.dyn"]), (9, 24), (36, at[b".relr.dyn"]), (35, size[b".relr.dyn"]),
               (37, 8), (30, 8), (0x6ffffffb, 0x8000001), (0x6ffffff0, at[b".gnu.version"]), (0x6ffffffe, at[b".gnu.version_r"]),
               (0x6fffffff, 1), (0, 0)]
    return [
        (b".interp", 1, b"/lib64/ld-linux-x86-64.so.2\0", 0, 0, 0),
        (b".note.gnu.build-id", 7, LAYOUT.words(4, 20, 3) + b"GNU\0" + hashlib.sha1(b"example").digest(), 0, 0, 0),
        (b".hash", 5, LAYOUT.words(*damage.hash_words(NAMES, 2)), 4, 0, 4),
        (b".dynsym", 11, b"".join(symbols), 5, 1, 24),
        (b".dynstr", 3, held, 0, 0, 0),
        (b".gnu.version", 0x6fffffff, struct.pack("<4H", 0, 2, 1, 1), 4, 0, 2),
        (b".gnu.version_r", 0x6ffffffe, needs, 5, 1, 0),
        (b".rela.dyn", 4, LAYOUT.addresses(at[b".got"], 1 << 32 | 6, 0), 4, 0, 24),
        (b".relr.dyn", 19, LAYOUT.addresses(at[b".data"], 3), 0, 0, 8),
        (b".text", 1, b"\xf3\x0f\x1e\xfa\xc3" + b"\xcc" * 27, 0, 0, 0),
        (b".rodata", 1, b"one\0two\0", 0, 0, 0),
        (b".dynamic", 6, b"".join(LAYOUT.addresses(*it) for it in entries), 5, 0, 16),
        (b".got", 1, bytes(8), 0, 0, 8),
        (b".data", 1, LAYOUT.addresses(at[b".rodata"], at[b".rodata"] + 4), 0, 0, 0),
        (b".comment", 1, b"an example\0", 0, 0, 1),
        (b".symtab", 2, b"".join(own), 17, 2, 24),
        (b".strtab", 3, local, 0, 0, 0),
    ]


def example():
    """A program at any address whose items all are good; written sections lie a page behind their offsets."""
    at, size, offset = collections.defaultdict(int), collections.defaultdict(int), {}
    for _ in range(2):
        sections = tables(at, size)
        data, places = damage.assembled(LAYOUT, sections, 8, phoff=64, entry=at[b".text"])
        for (name, _, held, *_), place in zip(sections, places):
            flags, offset[name], size[name] = FLAGS.get(name, ALLOC), place, len(held)
            at[name] = place + (0x1000 if flags & WRITE else 0) if flags else 0
    headers = LAYOUT.get(data, 0, LAYOUT.header["shoff"])
    for index, (name, kind, *_) in enumerate([*sections, (b".shstrtab", 3)], 1):
        LAYOUT.fill(data, headers + 64 * index, LAYOUT.section, flags=FLAGS.get(name, ALLOC), address=at[name], align=4 if kind == 7 else 8)
    part = lambda first, last: (offset[first], at[first], offset[last] + size[last] - offset[first])
    note, dynamic = b".note.gnu.build-id", b".dynamic"
    segments = [(6, 4, 64, 64, 448), (3, 4, *part(b".interp", b".interp")), (1, 5, 0, 0, offset[b".rodata"] + size[b".rodata"]),
                (1, 6, *part(dynamic, b".data")), (2, 6, *part(dynamic, dynamic)), (4, 4, *part(note, note)),
                (0x6474e551, 6, 0, 0, 0), (0x6474e552, 4, *part(dynamic, b".got"))]
    for index, (kind, flags, start, address, length) in enumerate(segments):
        LAYOUT.fill(data, 64 + 56 * index, LAYOUT.segment, type=kind, flags=flags, offset=start, vaddr=address, paddr=address,
                    filesz=length, memsz=length, align={1: 0x1000, 4: 4}.get(kind, 8))
    return bytes(data)


def with_faults(whole):
    """The same with another size of its header, a bucket past its hash table, section 15 of a type that nothing has, section 11
    and segment 5 past the end of the file, and segment 7 at an address that its alignment doesn't allow."""
    held = damage.Damage(whole, random)
    section, segment = LAYOUT.section, LAYOUT.segment
    for fault in ((0, LAYOUT.header["ehsize"], 52), (held.of_section(held.sections[3], "offset"), (8, "I"), 99),
                  (held.sections[15], section["type"], 12), (held.sections[11], section["offset"], 1 << 40),
                  (held.segments[5], segment["offset"], 1 << 40), (held.segments[7], segment["vaddr"], 4)):
        LAYOUT.put(held.data, *fault)
    return bytes(held.data)


if __name__ == "__main__":
    if len(sys.argv) != 2:
        sys.exit(__doc__)
    folder = pathlib.Path(sys.argv[1])
    (folder / "example.elf").write_bytes(example())
    (folder / "example-with-faults.elf").write_bytes(with_faults(example()))
