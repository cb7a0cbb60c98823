#!/usr/bin/env python3
"""Runs elfinfo and elfanswers on damaged files, under limits of time and memory (docs/TESTS.md, "Damaged files").

    tools/compare/fuzz.py --seed S --count N

File K of a seed is `damage.damaged(S, K)`; the long files of `long_files` come first, of which three may take longer.
"""
import os
import pathlib
import resource
import sys
import tempfile

import damage
from comparing import ROOT, Tally, parser_of
from pages.sources import timed

ROOM = 512 * 2**20
SECONDS = 2.0
# A run that takes longer is ended.
GIVEN_UP = 60
# The cause of a run that may take longer, in the name of its file.
SLOW = ", where the check without memory takes buckets and symbols times chains"
# So many files at once go to elfanswers.
AT_ONCE = 50


def hash_file(count, buckets, last=0, words=()) -> bytes:
    """Class 64: so many symbols, and so many buckets that all lead to one chain of all symbols upwards, which ends in a number;
    or a hash table of these words."""
    layout, chain = damage.Layout(True, "little"), [0, *range(2, count + 1), last]
    held, places = damage.texts(b"n%05d" % k for k in range(count))
    symbols = bytes(24) + b"".join(layout.symbol(place, 0x12, 1, 1) for place in places)
    table = layout.words(*(words or [buckets, count + 1, *[1] * buckets, *chain]))
    return damage.elf_file([(b".dynstr", 3, held, 0, 0), (b".dynsym", 11, symbols, 1, 24), (b".hash", 5, table, 2, 4)])


def long_files():
    """Files a little below 1 MB whose work is as much as their bytes allow, each with its name."""
    count = 20_000
    good = damage.hash_words([b"n%05d" % k for k in range(count)], count // 2)
    yield "a good hash table of 20,000 names", hash_file(count, 0, words=good)
    yield f"20,000 names on the chain of one bucket{SLOW}", hash_file(count, 1)
    yield f"20,000 buckets that share one chain of 20,000 names{SLOW}", hash_file(count, count)
    yield f"20,000 buckets that share one looped chain{SLOW}", hash_file(count, count, last=1)
    layout, data = damage.Layout(True, "little"), bytearray(damage.worked(True, "little"))
    start, old = len(data), layout.get(data, 0, layout.header["shoff"])
    data += data[old : old + 64 * 22] + bytes(64 * (15_000 - 22))
    for k in range(22, 15_000):
        layout.fill(data, start + 64 * k, layout.section, type=2, size=960_000 // 24 * 24)
    layout.fill(data, 0, layout.header, shoff=start, shnum=15_000)
    yield "15,000 section headers, of which each is a table of 40,000 symbols", bytes(data)


class Fuzzing(Tally):
    def __init__(self, room):
        super().__init__("", "files")
        self.room = room
        # Each program as LLVM builds it, and as Rattle's own compiler does.
        built = {name: [ROOT / "crates" / name / "out" / it for it in (name, f"{name}.by-rattle")] for name in ("elfinfo", "elfanswers")}
        if missing := [it.name for some in built.values() for it in some if not it.exists()]:
            print(f"not built, so not run: {', '.join(missing)}")
        self.programs = {name: [it for it in some if it.exists()] for name, some in built.items()}

    def check(self, program, names, paths):
        """Runs each build on these files at once, and each of them alone where something isn't as it must."""
        ends = [timed([it, *paths], GIVEN_UP, env={}) for it in self.programs[program]]
        if not ends:
            return
        worst = ends[0][2]
        well = {status for status, _, _ in ends} <= {0, 1} and worst <= SECONDS
        same = len({(status, written) for status, written, _ in ends}) == 1
        if len(paths) > 1 and not (well and same):
            for name, path in zip(names, paths):
                self.check(program, [name], [path])
            return
        self[f"files in runs of {program} with status {ends[0][0]}"] += len(paths)
        for build, (status, _, seconds) in zip(self.programs[program], ends):
            took = f"{build.name} took {seconds:.2f} s"
            if status not in (0, 1):
                self.fault(f"{names[0]}: {build.name} ended with {status}")
            if seconds > SECONDS and build.suffix != ".by-rattle":
                if SLOW in names[0] and program != "elfinfo":
                    print(f"{took}: {names[0]}", flush=True)
                else:
                    self.fault(f"{names[0]}: {took}")
        if not same:
            self.fault(f"{names[0]}: the two builds of {program} differ")

    def files_at_once(self, held):
        paths = [pathlib.Path(self.room, str(k)) for k in range(len(held))]
        for path, (name, data) in zip(paths, held):
            path.write_bytes(data)
            self.check("elfinfo", [name], [path])
        self.check("elfanswers", [name for name, _ in held], paths)
        self["files"] += len(held)


if __name__ == "__main__":
    options = parser_of(__doc__, seed=1, count=500).parse_args()
    resource.setrlimit(resource.RLIMIT_AS, (ROOM, ROOM))
    with tempfile.TemporaryDirectory(dir="/dev/shm" if os.path.isdir("/dev/shm") else None) as room:
        fuzzing = Fuzzing(room)
        if not any(fuzzing.programs.values()):
            sys.exit("no program is built: run `rt run` in crates/elfinfo and crates/elfanswers first")
        for name, data in long_files():
            fuzzing.files_at_once([(name, data)])
        # A check that follows the chain for each name would take minutes.
        pathlib.Path(room, "shared").write_bytes(hash_file(200_000, 200_000))
        fuzzing.check("elfinfo", ["200,000 buckets that share one chain of 200,000 names"], [f"{room}/shared"])
        for some in (range(options.count)[at : at + AT_ONCE] for at in range(0, options.count, AT_ONCE)):
            fuzzing.files_at_once([(f"damage.damaged({options.seed}, {k})", damage.damaged(options.seed, k)) for k in some])
    sys.exit(fuzzing.ended())
