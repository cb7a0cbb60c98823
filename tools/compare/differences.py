#!/usr/bin/env python3
"""Compare what `elfsize --diff` prints of two files with the difference of its reports of each, and with `size -A` and `nm`.

    tools/compare/differences.py [--elfsize PATH] [--pairs N] [--versions N] [--seed S] [FILE..]

Pairs are N builds of three C programs with two sets of options, the libraries in two versions of the first N of PACKAGES, and each
FILE beside the next one. `size -A` names the sections whose sizes differ, `nm` the symbols with names and places of their own.
"""
import collections
import pathlib
import random
import re
import shutil
import subprocess
import sys
import tempfile

from comparing import ROOT, Tally, parser_of, read_elf, run
from pages.sources import table_of

OPTIONS, PACKAGES = (it.split() for it in table_of(__file__).values())
KINDS = ["section", "segment", "symbol", "ELF header", "program headers", "section headers", "between parts", "after all parts"]


def sized(report: bytes) -> dict:
    """The size and the label of each part of a report, by its kind, its name and which of that name it is, and last their sum."""
    found, seen = {}, {}
    lines = [(int(size), label, re.fullmatch(r"(section|segment|symbol) (\d+)(?: (.*))?", label))
             for size, _share, label in (line.split(" ", 2) for line in report.decode("utf-8", "surrogateescape").split("\n")[1:-1])]
    for size, label, parts in sorted(lines, key=lambda line: int(line[2][2]) if line[2] else 0):
        kind, index, name = (parts[1], int(parts[2]), parts[3] or "") if parts else (label, 0, "")
        place = seen[kind, name] = seen.get((kind, name), -1) + 1
        found[kind, name, place] = size, f"{kind} {name}" if kind in ("section", "symbol") else label, (KINDS + ["sum"]).index(kind), name, index
    return found


def difference(old: bytes, new: bytes) -> str:
    """What elfsize --diff writes of two files with these reports."""
    olds, news = sized(old), sized(new)
    changes, kinds = [], [[0, 0] for _ in KINDS]
    for key in {**olds, **news}:
        one, other = olds.get(key), news.get(key)
        sizes = one[0] if one else 0, other[0] if other else 0
        size, text, kind, name, index = other or one
        if text == "sum":
            sums = sizes
            continue
        for side in (0, 1):
            kinds[kind if kind != 2 else 0][side] += sizes[side]
        mark = "gone " if not other else "new " if not one else ""
        if sizes[0] != sizes[1]:
            changes.append((-abs(sizes[1] - sizes[0]), kind, name, index, f"{sizes[1] - sizes[0]:+} -> {sizes[1]} {mark}{text}\n"))
    names = ["sections", "segments", "ELF headers", *KINDS[4:]]
    totals = [(*pair, name) for pair, name in zip(kinds[:2] + kinds[3:], names)] + [(*sums, "sum")]
    return "".join(line for *_, line in sorted(changes)) + "all parts\n" + "".join(
        f"{after - before:+} -> {after} {name}\n" for before, after, name in totals)


def built(room: pathlib.Path, chance: random.Random) -> list:
    """Two builds of an object of three sources of this repository, which have static functions of the same name."""
    sources, found = chance.sample(sorted(ROOT.glob("bindings/c/*.c")), 3), []
    for name in ("old.o", "new.o"):
        parts, options = [room / f"{place}.{name}" for place in range(3)], chance.sample(OPTIONS, 4)
        for place, (part, source) in enumerate(zip(parts, sources)):
            subprocess.run(["gcc", "-c", *options, f"-Dmain=main_{place}", "-I", ROOT / "bindings/include", "-o", part, source], check=True)
        subprocess.run(["ld", "-r", "-o", room / name, *parts], check=True)
        found.append(str(room / name))
    return found


# Where packages are kept.
KEPT = pathlib.Path(tempfile.gettempdir(), "xmas-elf-versions")


def unpacked(package: str, version: str) -> dict:
    """The libraries of a version of a package, by their names up to the first number."""
    folder = KEPT / f"{package}={version}"
    if not folder.exists():
        folder.mkdir(parents=True)
        subprocess.run(["apt-get", "download", "-qq", folder.name], cwd=folder, capture_output=True, check=False)
        for archive in folder.glob("*.deb"):
            subprocess.run(["dpkg-deb", "-x", archive, folder], check=True)
    return {re.sub(r"(\.so\.\d+).*", r"\1", it.name): it for it in sorted(folder.rglob("*.so*")) if not it.is_symlink() and read_elf(str(it))}


def versions(package: str) -> list:
    """The libraries in the oldest and in the newest version of a package that apt-get offers, in pairs."""
    there = re.findall(r"^ *\S+ \| *(\S+) \|", run(["apt-cache", "madison", package]).output, re.M)
    if len(set(there)) < 2:
        return []
    new, old = unpacked(package, there[0]), unpacked(package, there[-1])
    return [(str(old[name]), str(new[name])) for name in old if name in new]


def once(pairs) -> dict:
    """The sizes of names that are given once."""
    counts = collections.Counter(name for name, _ in pairs)
    return {name: size for name, size in pairs if counts[name] == 1}


def listed(text: str, kind: str) -> dict:
    """By the name of a part of a kind: its growth and its new size."""
    lines = re.findall(rf"^([+-]\d+) -> (\d+) (?:new |gone )?{kind} (.*)$", text, re.M)
    return once([(name, (int(growth), int(size))) for growth, size, name in lines])


def sections(path: str) -> tuple:
    """The sizes of sections with bytes by `size -A`, and the names of all."""
    said = re.findall(r"^(\.\S+) +(\d+) +\d+$", run(["size", "-A", "-d", path]).output, re.M)
    none = re.findall(r"\] (\S+) +NOBITS ", run(["readelf", "-SW", path]).output)
    return {name: int(size) for name, size in once(said).items() if name not in none}, {name for name, _ in said}


def symbols(path: str) -> tuple:
    """The sizes of symbols with bytes and a place of their own by `nm`, and the names of all."""
    said = re.findall(r"^(\S+) *\|([0-9a-f]+)\| +(\S) +\|[^|]*\|([0-9a-f]+)\|[^|]*\|(\S+)$", run(["nm", "--format=sysv", path]).output, re.M)
    places = collections.Counter((value, section) for _, value, _, _, section in said)
    own = {name for name, value, letter, _, section in said if letter not in "bB" and places[value, section] == 1}
    return {name: size for name, size in once([(it[0], int(it[3], 16)) for it in said]).items() if name in own}, {it[0] for it in said}


def outside(tally: Tally, pair: str, text: str, kind: str, old: tuple, new: tuple) -> None:
    """Compares the parts of a kind whose sizes differ in lines, and by another tool; those that it knows of both files."""
    lines, (olds, all_old), (news, all_new) = listed(text, kind), old, new
    for name in olds.keys() | news.keys():
        is_known = all(name in some or name not in all for some, all in ((olds, all_old), (news, all_new)))
        wanted = news.get(name, 0) - olds.get(name, 0), news.get(name, 0)
        if is_known and wanted[0]:
            tally[f"{kind}s"] += 1
            if lines.get(name) != wanted:
                tally.fault(f"{pair}: {kind} {name}: elfsize says {lines.get(name)}, and wanted is {wanted}")


def compare(tally: Tally, program: str, old: str, new: str) -> None:
    for options in ([], ["--segments"], ["--symbols", "--no-debug"]):
        reports = [run([program, *options, path]).output.encode("utf-8", "surrogateescape") for path in (old, new)]
        text = run([program, "--diff", *options, old, new]).output
        if text != difference(*reports):
            tally.fault(f"{old} {new} {options}: not the difference of the reports")
        if not options:
            outside(tally, f"{old} {new}", text, "section", sections(old), sections(new))
        if "--symbols" in options:
            outside(tally, f"{old} {new}", text, "symbol", symbols(old), symbols(new))


if __name__ == "__main__":
    given = parser_of(__doc__, "elfsize", files="*", pairs=30, versions=30, seed=1).parse_args()
    tally, chance = Tally("elfsize", "pairs of builds", "pairs of versions", "sections", "symbols"), random.Random(given.seed)
    for _ in range(given.pairs):
        tally["pairs of builds"] += 1
        with tempfile.TemporaryDirectory() as room:
            compare(tally, given.elfsize, *built(pathlib.Path(room), chance))
    for package in PACKAGES[: given.versions]:
        for pair in versions(package) if shutil.which("apt-get") else ():
            tally["pairs of versions"] += 1
            compare(tally, given.elfsize, *pair)
    for pair in zip(given.files, given.files[1:]):
        tally["pairs of files"] += 1
        compare(tally, given.elfsize, *pair)
    sys.exit(tally.ended())
