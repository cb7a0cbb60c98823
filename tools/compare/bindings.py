#!/usr/bin/env python3
"""Compare what elfbind says of references with what the system's dynamic linker does.

    tools/compare/bindings.py [--elfbind PATH] [--elfload PATH] [--times N] FILE..

elfbind is run on each dynamically linked program among the files and folders, with its libraries in the order in which the linker
lists them; the linker binds all references, prints each (BINDINGS), and runs nothing. elfbind and elfload must end with the program
alone, whose libraries they find, as with this list. Another binding is a line with its cause:
`unique`, a symbol that glibc merges by name over the process, `ifunc`, or `unexplained`, which is a difference. --times N prints for
the N programs with most bindings the least time of five runs of elfbind, and of the linker with and without binding.
"""
import os
import re
import sys
import timeit
from collections import defaultdict, namedtuple

from comparing import INDIRECT, UNIQUE, Finished, Tally, dynamic_symbols, parser_of, run
from processes import linker_of, programs_in, real

LISTED = re.compile(r"^\t(?:.* => )?(/.*) \(0x[0-9a-f]+\)$", re.M)
BOUND = re.compile(r"^ *\d+:\tbinding file (.*) \[\d+\] to (.*) \[\d+\]: \w+ symbol `(.*)'(?: \[(.*)\])?$", re.M)
LINE = re.compile(r"^(.*?) (\S*) -> (?:(.*) 0x[0-9a-f]+|unresolved(?: \(weak\))?)$", re.M)
OWN_NAMES = {"calloc", "free", "malloc", "realloc"}
TRACE = {"LD_TRACE_LOADED_OBJECTS": "1"}
BINDINGS = {**TRACE, "LD_DEBUG": "bindings", "LD_BIND_NOW": "1", "LD_WARN": "1"}

Key = tuple[str, str, str]

# A program, the linker that it names, and its files in the order of the scope.
Program = namedtuple("Program", "path linker files")
# The files to which each name of a file with its version is bound, how many references are unresolved, and whether a symbol is missing.
Bindings = namedtuple("Bindings", "bound unresolved missing")


def read_program(path: str) -> Program | None:
    """A program with its files, if it is dynamically linked and the linker finds each library."""
    linker = linker_of(path)
    if not linker or not os.path.exists(linker):
        return None
    listed = run([linker, path], **TRACE)
    if listed.status != 0 or "not found" in listed.output:
        return None
    return Program(path, linker, [path, *LISTED.findall(listed.output)])


def bound_in(program: Program, rows) -> dict[Key, set[str]]:
    """The files to which names are bound, by rows of a file, the one that it is bound to, a name and its version; without the
    linker's own look-ups."""
    bound: dict[Key, set[str]] = defaultdict(set)
    for file, to, name, version in rows:
        is_of_linker = "linux-vdso" in file or "linux-gate" in file or real(file) == real(program.linker)
        is_own = is_of_linker or name == "__libc_early_init" or (file == program.path and name in OWN_NAMES)
        if not is_own:
            bound[real(file), name, version].add(real(to))
    return bound


def read_elfbind(program: Program, said: Finished) -> Bindings:
    lines = LINE.findall(said.output)
    bound = bound_in(program, ((file, to, *reference.partition("@")[::2]) for file, reference, to in lines if to))
    return Bindings(bound, sum(not to for _, _, to in lines), said.status != 0)


def read_linker(program: Program, said: Finished) -> Bindings:
    text = said.errors + said.output
    return Bindings(bound_in(program, BOUND.findall(text)), 0, "undefined symbol" in text or "symbol lookup error" in text)


def compare(program: Program, elfbind: str, elfload: str, tally: Tally) -> int:
    said = run([elfbind, *program.files])
    for name, of_list in (elfbind, said), (elfload, run([elfload, *program.files])):
        if run([name, program.path]) != of_list:
            tally.fault(f"{program.path}: {name} ends otherwise with the libraries that it finds than with {program.files[1:]}")
    own = read_elfbind(program, said)
    if said.errors:
        tally.fault(f"{program.path}: {said.errors.strip()}")
        return 0
    reads = read_linker(program, run([program.linker, program.path], **BINDINGS))
    count = sum(map(len, own.bound.values()))
    tally.update({"programs": 1, "bindings compared": count, "unresolved": own.unresolved})
    for key in sorted(own.bound.keys() | reads.bound.keys()):
        says, does = own.bound.get(key, set()), reads.bound.get(key, set())
        if says != does:
            held = [it for file in says | does if os.path.isfile(file) for it in dynamic_symbols(file) if it.name == key[1]]
            is_unique, is_indirect = (any(it.binding == UNIQUE for it in held), any(it.kind == INDIRECT for it in held))
            cause = "unique" if is_unique else "ifunc" if is_indirect else "unexplained"
            line = f"{program.path}: {' '.join(key)}: elfbind says {sorted(says)}, the linker {sorted(does)}: {cause}"
            if cause == "unexplained":
                tally.fault(line)
            else:
                print(line)
                tally[cause] += 1
    if own.missing != reads.missing:
        tally.fault(f"{program.path}: elfbind ends with {said.status}, a missing symbol for the linker: {reads.missing}")
    return count


def print_times(programs: list[tuple[int, Program]], elfbind: str) -> None:
    """Prints the least time of five runs of elfbind on some programs, beside that in which the linker binds them."""
    least = lambda command, **variables: f"{1000 * min(timeit.repeat(lambda: run(command, **variables), number=1)):.1f} ms"
    for count, program in programs:
        size, command = sum(os.path.getsize(file) for file in program.files), [program.linker, program.path]
        binding = {name: held for name, held in BINDINGS.items() if name != "LD_DEBUG"}
        print(f"{program.path}: {count} bindings, {len(program.files)} files of {size / 1e6:.1f} MB: elfbind {least([elfbind, *program.files])},"
              f" the linker {least(command, **binding)}, of which {least(command, **TRACE)} without binding")


if __name__ == "__main__":
    given = parser_of(__doc__, "elfbind", "elfload", files="*", times=0).parse_args()
    tally, most = Tally("elfbind", "programs", "programs left out", "bindings compared", "unresolved"), []
    for path in programs_in(given.files):
        if program := read_program(path):
            most.append((compare(program, given.elfbind, given.elfload, tally), program))
        else:
            tally["programs left out"] += 1
            print(f"{path}: left out, since the linker does not load it")
    most.sort(key=lambda it: -it[0])
    print_times(most[: given.times], given.elfbind)
    sys.exit(tally.ended())
