#!/usr/bin/env python3
"""Tasks of new users by the programs in C, C++ and Rust, beside the tools that they know, and over damaged files.

    bindings/c/tests/tasks.py FOLDER [--files N]

FOLDER has the programs, as tools/exports/bindings.sh builds them; N files of the system are compared, 300 where no number is given, and
a library of class 32 with a build id: which symbols a file has (readelf), which names a backtrace has (addr2line), how large functions
are (nm), how files are hardened (checksec, if it is installed), and whether one loads, which C and Rust say. Of fifty copies of a program, and of that library, of which parts
are missing each program ends with a message and a status, or prints all that it prints of the whole. Sizes are those of the copy: they
sum to its size.
"""
import argparse
import collections
import concurrent.futures
import functools
import os
import pathlib
import re
import shutil
import sys
import tempfile

ROOT = pathlib.Path(__file__).resolve().parents[3]
sys.path[1:1] = [str(ROOT / "tools/compare")]
import damage
from comparing import Tally, addr2line, is_other_name, nm, run, spread

LARGEST, MOST = 400_000, 50
LIBC, LINKER = "/lib/x86_64-linux-gnu/libc.so.6", "/lib64/ld-linux-x86-64.so.2"
SOURCE = """__attribute__((weak)) int puts(const char *);
int one, two, *both[] = {&one, &two};
__attribute__((visibility("hidden"))) int main(void) { return puts("") + *both[one]; }
"""
# How gcc links the two files of which parts are missing: a program, and a library of class 32.
KINDS = {"program": (), "library": ("-m32", "-shared", "-fPIC", "-nostdlib")}
EXAMPLES = "target/release/examples"
# Programs of one task in several languages, in the folder.
SYMBOLS = ("nm_c", "nm_g++", f"{EXAMPLES}/nm")
ADDRESSES = ("addresses_c", "memory", f"{EXAMPLES}/addresses")
SIZES = ("sizes_c", "sizes", f"{EXAMPLES}/sizes")
DIFFERENCES = ("differences", f"{EXAMPLES}/differences")
# Each program that reads a file, and what it is asked. FILE is the path of the file, which is on the standard input too, WHOLE that of
# the file with all its parts, and MIDDLE an address in the middle of `main`.
ASKED = (
    *((it, ("FILE",)) for it in (*SYMBOLS, *SIZES, "symbols_c", "symbols_cpp", "symbols_rs", "names_c", "names_cpp", "names_rs", "dynamic_c")),
    *((it, ("FILE", "MIDDLE")) for it in ADDRESSES),
    *((it, ("FILE", "main", "puts")) for it in ("find_c", f"{EXAMPLES}/find", "dump", f"{EXAMPLES}/dump")),
    *((it, (*option, "WHOLE", "FILE")) for it in DIFFERENCES for option in ((), ("--symbols",))),
    (f"{EXAMPLES}/hardening", (LIBC, "FILE")),
)
# Those that look for the libraries of a program.
LOADS = ("loads_c", f"{EXAMPLES}/loads")
OF_PROGRAMS = (("search", ("FILE",)), *((it, ("FILE", LIBC, LINKER)) for it in LOADS))


def readelf_symbols(path):
    """The value and the name of each symbol that readelf prints; a symbol of a section has no name there."""
    word = r"(?:<[^>]*>: \w+|\S+)"
    rows = re.findall(rf"^ +\d+: ([0-9a-f]+) +\S+ ({word}) +{word} +\S+ +(?:\[[^\]]*\] +)?\S+(?: +(\S+)(?: \(\d+\))?)?$", run(["readelf", "-sW", "--", path]).output, re.M)
    return collections.Counter((int(value, 16), name.partition("@")[0]) for value, kind, name in rows if name and kind != "SECTION")


def compare_symbols(folder, path, tally):
    shown = [tally.output(path, f"{folder}/{it}", path) for it in SYMBOLS]
    rows = re.findall(r"^([0-9a-f]+) +\d+ (.+)$", shown[0], re.M)
    ours = collections.Counter((int(value, 16), name.partition("@")[0]) for value, name in rows)
    theirs = readelf_symbols(path)
    tally["symbols"] += sum(theirs.values())
    # readelf names symbols of sections by their sections, which a few files name too.
    if theirs - ours or any(name for (_, name), _ in (ours - theirs).items() if not name.startswith(".")):
        tally.differ(path, "symbols", ours - theirs, theirs - ours)
    for program, other in zip(SYMBOLS[1:], shown[1:]):
        if other != shown[0]:
            tally.differ(path, "symbols", f"{program} something else", "that of the program in C")


def compare_names(folder, path, tally):
    rows = [it for it in nm(path) if it[2] in "tTwWi" and it[1]][:MOST]
    middles = [value + size // 2 for value, size, *_ in rows]
    theirs = addr2line(path, middles)
    # An object file has no mappings to print.
    for program in [it for it in ADDRESSES if it != "memory" or path.suffix not in (".o", ".a")] if middles else ():
        lines = tally.output(path, f"{folder}/{program}", path, *(f"{it:x}" for it in middles)).splitlines()[-len(middles) :]
        for address, line, name in zip(middles, lines, theirs):
            own, _, offset = line.rpartition("+")
            own = own.partition("@")[0]
            sizes = [size for value, size, _, it in nm(path) if value == address - int(offset or "0", 16) and it.partition("@")[0] == own]
            if not sizes or not any(is_other_name(path, (address - int(offset, 16), size, own), name, address) for size in sizes):
                tally.fault(f"{path}: {address:x}: {program} says {line}, addr2line {name}")
            tally["addresses"] += 1


def split_sizes(output):
    """The lines of the pieces of a file, and those of its symbols."""
    lines = output.splitlines()
    pieces = [it for it in lines if re.fullmatch(r"\d+ [a-zE][A-Za-z ]+ \d+", it)]
    return pieces, lines[len(pieces) :]


def compare_sizes(folder, path, tally):
    """The pieces sum to the size of the file; a function that shares no address with another symbol is as large as nm says."""
    shown = [tally.output(path, f"{folder}/{it}", path) for it in SIZES]
    for program, other in zip(SIZES[1:], shown[1:]):
        if other != shown[0]:
            tally.differ(path, "sizes", f"{program} something else", "that of the program in C")
    pieces, symbols = split_sizes(shown[0])
    total = sum(int(it.split()[0]) for it in pieces)
    if total != path.stat().st_size:
        tally.fault(f"{path}: pieces of {total} bytes, the file has {path.stat().st_size}")
    rows = sorted((value, size, name) for value, size, letter, name in nm(path) if letter in "tT" and size)
    alone = [it for it, before, after in zip(rows[1:-1], rows, rows[2:]) if before[0] + before[1] <= it[0] and it[0] + it[1] <= after[0]]
    sections = run(["readelf", "-SW", "--", path]).output
    text = re.search(r" \.text +PROGBITS +([0-9a-f]+) [0-9a-f]+ ([0-9a-f]+)", sections)
    start, size = (int(it, 16) for it in text.groups()) if text else (0, 0)
    # In an object file each section has such addresses.
    for value, own, name in alone if start else ():
        if start <= value and value + own <= start + size:
            tally["functions"] += 1
            if f"{own} {name.partition('@')[0]}" not in {it.partition("@")[0] for it in symbols}:
                tally.fault(f"{path}: no function {name} of {own} bytes")


def as_text(value):
    if isinstance(value, bool):
        return "yes" if value else "no"
    return "" if value is None else str(value)


def compare_hardening(folder, path, tally):
    from hardening import checksec, wanted

    names, line = tally.output(path, f"{folder}/{EXAMPLES}/hardening", LIBC, path).splitlines()[:2]
    ours = dict(zip(names.split(","), line.split(",", names.count(","))))
    for name, value in wanted(str(path), checksec(str(path))).items():
        own = "yes" if name in ("rpath", "runpath") and ours[name] else ours[name] or "no"
        tally["words"] += 1
        if own != as_text(value):
            tally.fault(f"{path}: {name}: the crate says {own}, checksec {value}")


def compare_loads(folder, path, tally):
    """Whether a file loads with the C library and the linker alone, or why not, is the same in both languages."""
    in_c, in_rust = (run([f"{folder}/{it}", path, LIBC, LINKER]).output for it in LOADS)
    if not in_c or in_c != in_rust:
        tally.differ(path, "loads", in_rust, in_c)


def compare(folder, path):
    tally = Tally("the programs")
    tally["files"] += 1
    compare_symbols(folder, path, tally)
    compare_names(folder, path, tally)
    compare_sizes(folder, path, tally)
    compare_loads(folder, path, tally)
    if shutil.which("checksec"):
        compare_hardening(folder, path, tally)
    return tally


def linked(room, kind):
    """A file of a kind, with packed relocations and a build id."""
    (room / "a.c").write_text(SOURCE)
    words = ("-O0", "-Wl,-z,pack-relative-relocs,--build-id", *KINDS[kind])
    done = run(["gcc", str(room / "a.c"), "-o", str(room / kind), *words])
    if done.status != 0:
        sys.exit(f"gcc makes no {kind}: {done.errors}")
    return room / kind


def is_all(program, whole, done, path, size):
    """Whether a program has printed all of a file. Sizes are those of the file itself, of which parts of the other file are missing."""
    if program in DIFFERENCES:
        return sum(int(it.split()[0]) for it in done.output.splitlines()) == path.stat().st_size - size
    if program in SIZES:
        (pieces, symbols), (_, wanted) = split_sizes(done.output), split_sizes(whole.output)
        return symbols == wanted and sum(int(it.split()[0]) for it in pieces) == path.stat().st_size
    # Sections are printed with the sizes of their headers, whatever these are.
    printed = lambda it: [line for line in it.output.splitlines() if not line.startswith("section ")]
    return printed(done) == printed(whole) and done.errors == whole.errors


def compare_damaged(folder, path, asked, tally):
    main = next(value + size // 2 for value, size, _, name in nm(str(path)) if name == "main")
    names = {"WHOLE": str(path), "MIDDLE": f"{main:x}"}
    copies = [path.with_name(f"{path.name}-{index}") for index in range(50)]
    for copy, data in zip(copies, damage.missing(path.read_bytes(), 1)):
        copy.write_bytes(data)

    def ended(program, words, file):
        done = run([f"{folder}/{program}", *({**names, "FILE": str(file)}.get(it, it) for it in words)], given=file.read_bytes())
        return done._replace(output=done.output.replace(str(file), "FILE"))

    for program, words in asked:
        whole, errors = ended(program, words, path), 0
        for copy in copies:
            done = ended(program, words, copy)
            tally["damaged files"] += 1
            is_said = done.status == 1 and (done.errors or done.output.startswith("no: "))
            errors += bool(is_said)
            if not is_said and (done.status != 0 or not is_all(program, whole, done, copy, path.stat().st_size)):
                tally.fault(f"{program} {copy.name}: status {done.status}, {done.errors.strip() or 'no message'}, {len(done.output)} bytes for {len(whole.output)}")
        if whole.status != 0 or not errors and program not in DIFFERENCES:
            tally.fault(f"{program} {path.name}: status {whole.status} of the whole file, {errors} errors")


def compare_cut(folder, path, tally):
    """Of a file whose last section header is cut off, which is that of names, programs that read section by section print the symbols
    of those before, and then the error."""
    cut = path.with_name(f"{path.name}-cut")
    cut.write_bytes(path.read_bytes()[:-1])
    for program in SYMBOLS[:2]:
        whole, done = (run([f"{folder}/{program}", str(it)]) for it in (path, cut))
        tally["damaged files"] += 1
        if (done.status, done.output) != (1, whole.output) or str(cut) not in done.errors or not whole.output:
            tally.fault(f"{program} {cut.name}: status {done.status}, {len(done.output)} bytes for {len(whole.output)}, {done.errors.strip()}")


def compare_large(folder, path, tally):
    """Of a file whose section headers are above 64 MiB, behind bytes that take no place on the disk, the symbols are those of the file."""
    held = damage.Headers(bytearray(path.read_bytes()))
    places, size, start = held.places("sh"), held.layout.section_size, 65 << 20
    table = b"".join(bytes(held.content[it : it + size]) for it in places)
    held.layout.fill(held.content, 0, held.layout.header, shoff=start)
    large = path.with_name(f"{path.name}-large")
    with open(large, "wb") as file:
        file.write(held.content)
        file.seek(start)
        file.write(table)
    for program in SYMBOLS:
        whole, done = (tally.output(it, f"{folder}/{program}", str(it)) for it in (path, large))
        tally["large files"] += 1
        if done != whole:
            tally.fault(f"{program} {large.name}: {len(done)} bytes for {len(whole)}")


if __name__ == "__main__":
    parser = argparse.ArgumentParser(description=__doc__, formatter_class=argparse.RawDescriptionHelpFormatter)
    parser.add_argument("folder")
    parser.add_argument("--files", type=int, default=300)
    given, total = parser.parse_args(), Tally("the programs", "files", "symbols", "addresses", "functions", "words", "damaged files", "large files")
    with tempfile.TemporaryDirectory() as room:
        program, library = (linked(pathlib.Path(room), it) for it in KINDS)
        compare_damaged(given.folder, program, (*ASKED, *OF_PROGRAMS), total)
        compare_damaged(given.folder, library, ASKED, total)
        compare_cut(given.folder, program, total)
        compare_large(given.folder, program, total)
        total.update(compare(given.folder, library))
    files = spread(given.files, LARGEST)
    if len(files) < given.files:
        total.fault(f"the system has only {len(files)} such files")
    with concurrent.futures.ThreadPoolExecutor(os.cpu_count()) as pool:
        for tally in pool.map(functools.partial(compare, given.folder), files):
            total.update(tally)
    sys.exit(total.ended())
