#!/usr/bin/env python3
"""Has each request for memory, and each read and write, of the built programs fail in turn.

    tools/gate/little_memory.py [PROGRAM..]     at the top of the repository, once the programs are built

Over some files and each build of a program, until a run makes no more such calls. `is_well` says how a run may end. The runs make as
few reads and writes as they like, or a few bytes each. gcc makes a library of `failing.c` that takes the C library's calls.
"""
import collections
import itertools
import os
import pathlib
import subprocess
import sys
import tempfile

import program_ends
from pages.sources import table_of
from program_ends import FILES, builds_of, data, filled, words_of


class Program(collections.namedtuple("Program", "name words files first few options begun")):
    """A program: its words behind the path of the file, the files, the output that is wanted of the first, how many bytes a
    read and a write takes where it takes few, its options, and what it may have written where memory is short."""

    def texts(self) -> list:
        """What it says where it can't read its arguments, can't read the file, lacks memory, and can't write."""
        ends = ("cannot read the arguments", "cannot read a.elf", "not enough memory", "cannot write")
        return [f"{self.name}: {it}\n".encode() for it in ends]


def program_of(row: dict) -> Program:
    """A program of the table."""
    output_of = lambda text: filled(text).replace(row.get("called", "a.elf").encode(), b"a.elf")
    files = {what: data(name) if "/" in name else FILES[name] for what, name in row["files"].items()}
    words, options = (words_of(row.get(it, "")) for it in ("words", "options"))
    begun = tuple(map(output_of, row.get("begun", [""])))
    return Program(row["name"], words, files, output_of(row["output"]), row["few"], options, begun)


TABLE = table_of(__file__)
PROGRAMS = [program_of(it) for it in TABLE["programs"]]

# More calls of a kind than the program makes.
MOST = 120

def run(built, program, room, **failing):
    """How the run ends whose call of this kind and number fails: status, output and error text."""
    words = [*program.options, "a.elf", *program.words]
    failed = {name: str(number) for name, number in failing.items()}
    return tuple(program_ends.run(built, words, room, env={"LD_PRELOAD": f"{room}/failing.so", **failed}))


def is_well(kind, end, whole, texts, before, begun):
    """Whether a run with such a call failed may end so, where the whole one ends with `whole`: `before` is how much was written
    before a write that failed, if each takes so few bytes, and `begun` what may have been written where memory is short."""
    status, output, said = end
    _, read, _, write = texts
    if kind == "FAIL_MEMORY":
        return status == 1 and output in begun and said in texts[:3]
    if kind == "FAIL_READ":
        return end == (1, b"", read)
    if whole[0] == 0:
        is_front = whole[1].startswith(output) and output != whole[1] and before in (None, len(output))
        return (status, said) == (1, write) and is_front
    # What can't be said on standard error is passed over.
    return (status, output) == (1, b"") and whole[2].startswith(said) and said != whole[2]


def unlike(built, program, room, name) -> int:
    """Prints how many calls were failed, and returns how many runs didn't end as they must."""
    texts = program.texts()
    whole, count = run(built, program, room), 0
    for kind, is_few in TABLE["ways"]:
        few = dict(zip(("FEW_READ", "FEW_WRITE"), program.few)) if is_few else {}
        runs = (run(built, program, room, **{kind: number}, **few) for number in range(1, MOST))
        ends = list(itertools.takewhile(lambda end: end != whole, runs))
        before = lambda at: at * program.few[1] if is_few else None
        wrong = [end for at, end in enumerate(ends) if not is_well(kind, end, whole, texts, before(at), program.begun)]
        said = [texts.index(it[2]) for it in ends if it not in wrong and kind == "FAIL_MEMORY"]
        # A file with an error has no output that could fail.
        is_tried = ends or (kind == "FAIL_OUTPUT" and whole[0])
        how = kind[5:].lower() + (", of a few bytes" if is_few else "")
        # A search asks for memory before it reads the file too, so its messages alternate.
        is_in_order = said == sorted(said) or "--no-cache" in program.options
        if len(ends) == MOST - 1 or wrong or not is_in_order or not is_tried:
            count += 1
            print(f"{built.name} NOT AS IT MUST: {name}, {kind}: {wrong[:2]}, and last {ends[-1:]}, not {whole}"[:900])
        else:
            print(f"{built.name} ends as it must: {name}, each of {len(ends)} calls failed in turn: {how}")
    return count


if __name__ == "__main__":
    builds, count = builds_of(sorted({it.name for it in PROGRAMS})), 0
    with tempfile.TemporaryDirectory() as room:
        os.environ.pop("LD_PRELOAD", None)
        # The library whose calls fail.
        subprocess.run(["gcc", "-shared", "-fPIC", "-O1", "-o", f"{room}/failing.so", pathlib.Path(__file__).with_name("failing.c")], check=True)
        for program in PROGRAMS:
            for at, (name, held) in enumerate(program.files.items()):
                pathlib.Path(room, "a.elf").write_bytes(held)
                for built in builds[program.name]:
                    count += unlike(built, program, room, name)
                    count += at == 0 and run(built, program, room) != (0, program.first, b"")
    sys.exit(1 if count else 0)
