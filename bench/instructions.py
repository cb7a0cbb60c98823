#!/usr/bin/env python3
"""Counts the instructions of passes over files, of the search for addresses also its branches, and compares them with
those that bench/instructions.toml has.

    bench/instructions.py            fails where an item of a pass takes 3 % more or less than stored
    bench/instructions.py --write    stores the counts

The passes are those of bindings/c/speed.c, through the exports for C, and that of the built `elfnm` over
sections. The files are made here. valgrind's callgrind counts what the library's code executes, which is the same in each run
of the same library. A pass that takes less fails too, as a later loss would hide in the gain: store it.
Counts that another kit's code gave are printed and fail nothing.

Run it once `tools/exports/bindings.sh` and `rt ci` have built both. XMAS_ELF_ARCHIVE: another folder that holds libelf_c.a.
"""
import os
import re
import shutil
import subprocess
import sys
import tempfile
import tomllib
from pathlib import Path

ROOT = Path(__file__).resolve().parents[1]
sys.path.insert(1, str(ROOT / "tools"))
from compare import damage
from hostile import NAME, gnu_number, gnu_table

STORED = ROOT / "bench" / "instructions.toml"
SPEED = ROOT / "bindings" / "c" / "speed.c"
ARCHIVE = Path(os.environ.get("XMAS_ELF_ARCHIVE") or ROOT / "crates" / "elf_c" / "out").resolve() / "libelf_c.a"
ELFNM = ROOT / "crates" / "elfnm" / "out" / "elfnm"
OF_SECTIONS = "section headers with their names, and their lines (elfnm)"

# The pass whose conditional branches are counted too: its search compares without any, unless a compiler undoes that.
OF_ADDRESSES = "symbols of addresses, 64 by one call"

# How much a count may differ from the stored one.
SHARE = 0.03

# What is stored of a pass.
KINDS = ("items", "instructions", "branches")

# How many sections without symbols the file has, and the larger one that elfnm reads too.
PARTS, MORE_PARTS = 200, 700
SYMBOLS, EXPORTS, SEGMENTS = 400, 300, 100

# What the archive calls of the C library, which has other code for other processors.
COPIES = """
.text
.globl memcpy, memmove, memset
memmove: cmp %rsi, %rdi
    jbe memcpy
    mov %rdi, %rax
    mov %rdx, %rcx
    lea -1(%rdi,%rdx), %rdi
    lea -1(%rsi,%rdx), %rsi
    std
    rep movsb
    cld
    ret
memcpy: mov %rdi, %rax
    mov %rdx, %rcx
    rep movsb
    ret
memset: mov %rdi, %r8
    mov %esi, %eax
    mov %rdx, %rcx
    rep stosb
    mov %r8, %rax
    ret
.section .note.GNU-stack, "", @progbits
"""


def named(layout: damage.Layout, names: list) -> tuple:
    """The bytes of a string table and of a symbol table of these names."""
    held, places = damage.texts(names)
    return held, bytes(24) + b"".join(layout.symbol(place, 0x12, 1, 16 * index) for index, place in enumerate(places))


def made(parts: int) -> bytes:
    """A file of class 64 and little order: program headers, symbols, a table of GNU's tools, and so many other sections."""
    layout = damage.Layout(True, "little")
    strings, symbols = named(layout, [b"symbol_number_%d" % (37 * index) for index in range(SYMBOLS)])
    names = [(NAME % index).encode() for index in range(EXPORTS)]
    names.sort(key=lambda name: gnu_number(name) % (EXPORTS // 4))
    exported, exports = named(layout, names)
    sections = [(b".strtab", 3, strings, 0), (b".symtab", 2, symbols, 1), (b".dynstr", 3, exported, 0), (b".dynsym", 11, exports, 3)]
    if parts == PARTS:
        sections.append((b".gnu.hash", 0x6ffffff6, gnu_table("gnu_ordinary", names), 4))
    # Of each eight one has no bytes in the file, and one a type without a meaning.
    kinds = (1, 1, 8, 14, 1, 0x20, 16, 1)
    # In the files for the iterator they have no names, which would take more than it does.
    titles = [b".text.part_%d" % index if parts == PARTS else b"" for index in range(parts)]
    sections += [(title, kinds[index % 8], bytes(range(1, 17)), 0) for index, title in enumerate(titles)]
    segments = [dict(type=1 + index % 4, offset=16 * index, filesz=index, memsz=index) for index in range(SEGMENTS)]
    return damage.elf_file([(*it, 24 if it[1] in (2, 11) else 0) for it in sections], segments)


def watched(room: Path, *command) -> tuple:
    """What the program prints, and callgrind's lines about its run."""
    flags = ["--tool=callgrind", "--callgrind-out-file=counts", "--branch-sim=yes", "--compress-strings=no", "--compress-pos=no"]
    done = subprocess.run(["valgrind", *flags, *command], cwd=room, capture_output=True, text=True, env={"PATH": os.environ["PATH"]})
    if done.returncode != 0:
        sys.exit(f"{command} ends with {done.returncode}: {done.stderr[-2000:]}")
    return done.stdout, (room / "counts").read_text().splitlines()


def costs(line: str) -> list:
    """The instructions and the conditional branches in a line of callgrind; zeros at its end are left out."""
    return [*map(int, line.split()[1:3]), 0, 0][:2]


def export_counts(lines: list) -> dict:
    """For each function of speed.c the instructions and the branches of the exports that it calls, with what they call."""
    found, caller, called = {}, "", ""
    for before, line in zip(["", *lines], lines):
        if line.startswith("fn="):
            caller = line[3:]
        elif line.startswith("cfn="):
            called = line[4:]
        elif before.startswith("calls=") and called.startswith("xmas_elf_"):
            found[caller] = [one + other for one, other in zip(found.get(caller, [0, 0]), costs(line))]
    return found


def own_count(lines: list, program: Path) -> int:
    """The instructions of the program's own code, without those of libraries."""
    total, is_own = 0, False
    for before, line in zip(["", *lines], lines):
        if line.startswith("ob="):
            is_own = line[3:] == str(program)
        elif is_own and re.match(r"[\d+*-]", line) and not before.startswith("calls="):
            total += costs(line)[0]
    return total


def counts(room: Path) -> dict:
    """Of each pass how many items it sees, how many instructions it takes, and for addresses how many branches."""
    (room / "copies.s").write_text(COPIES)
    flags = ["-std=c11", "-O1", "-fno-inline", "-fno-ipa-cp", f"-I{ROOT}/bindings/include"]
    subprocess.run(["gcc", *flags, SPEED, "copies.s", ARCHIVE, "-o", "speed"], cwd=room, check=True)
    (room / "short").write_bytes(made(PARTS))
    printed, lines = watched(room, "./speed", "--once", "short")
    items = {name: int(number) for name, number in (line.split("\t") for line in printed.splitlines())}
    functions = dict(re.findall(r'measure\("(.*)", (\w+), ', SPEED.read_text()))
    taken = export_counts(lines)
    found = {name: (number, *taken[functions[name]][:1 + (name == OF_ADDRESSES)]) for name, number in items.items()}
    # What the program takes else is the same for both files, so a section more takes the difference.
    own = []
    for parts in (PARTS + 1, MORE_PARTS + 1):
        (room / "sections").write_bytes(made(parts))
        own.append(own_count(watched(room, ELFNM, "sections")[1], ELFNM))
    return {**found, OF_SECTIONS: (MORE_PARTS - PARTS, own[1] - own[0])}


def kit() -> str:
    return subprocess.run(["rt", "version"], capture_output=True, text=True, check=True).stdout.splitlines()[0]


def write(found: dict) -> None:
    lines = ["# Written by `bench/instructions.py --write`: how many items each pass sees, and what it takes."]
    lines += [f'kit = "{kit()}"']
    for name, numbers in found.items():
        lines += ["", "[[pass]]", f'name = "{name}"', *(f"{kind} = {number}" for kind, number in zip(KINDS, numbers))]
    STORED.write_text("\n".join(lines) + "\n", encoding="utf-8")


def differing(found: dict) -> int:
    """Prints each pass, and returns how many aren't as stored."""
    stored = tomllib.loads(STORED.read_text(encoding="utf-8"))
    known = {it["name"]: tuple(it[kind] for kind in KINDS if kind in it) for it in stored["pass"]}
    failed = 0
    for name in {**found, **known}:
        (items, *now), (old_items, *old) = found.get(name, (0, 0)), known.get(name, (0, 0))
        is_well = items == old_items and len(now) == len(old) and all(abs(one - other) <= SHARE * other for one, other in zip(now, old))
        failed += not is_well
        each = [" and ".join(f"{number / (count or 1):.1f} {kind}" for number, kind in zip(numbers, KINDS[1:]))
                for numbers, count in ((old, old_items), (now, items))]
        print(f"{'' if is_well else 'FAILED: '}{name}: {each[1]} an item, stored {each[0]}")
    if failed and stored["kit"] != kit():
        print(f"stored by {stored['kit']}, counted by {kit()}, which makes other code: not compared; store its counts by --write")
        return 0
    if failed:
        print("what is right so is stored by bench/instructions.py --write")
    return failed


def main() -> int:
    if shutil.which("valgrind") is None:
        print("no valgrind here: instructions aren't counted")
        return 0
    missing = [str(it) for it in (ARCHIVE, ELFNM) if not it.exists()]
    if missing:
        sys.exit(f"not built: {', '.join(missing)}: run `rt lib` in crates/elf_c and `rt run` in crates/elfnm first")
    with tempfile.TemporaryDirectory() as folder:
        found = counts(Path(folder))
    if sys.argv[1:] == ["--write"]:
        write(found)
        return 0
    return 1 if differing(found) else 0


if __name__ == "__main__":
    sys.exit(main())
