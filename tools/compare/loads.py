#!/usr/bin/env python3
"""Compare what elfload prints of programs and libraries with what Linux and the dynamic linker map.

    tools/compare/loads.py [--elfload PATH] [--damaged N] [--seed N] FILE..

Each dynamically linked program among the files and folders is stopped by ptrace at exec, before the linker makes anything read-only,
and before the first constructor. At each stop the mappings of each file must be those of elfload, as /proc/PID/maps shows them, and
read-only bytes, at exec all bytes, those of the file or zero; at exec the last bytes of writable pages may be zero. Then it runs to its
entry point, and the functions of `elfload --start` must be those that memory and the linker's messages (LD_DEBUG=files) have, in their order.

--damaged N runs elfload on N copies of the smallest program and of its smallest library with bytes of headers changed. It must end
within two seconds with status 0 or 1. The copies that it accepts are run, or loaded by LD_PRELOAD, and stopped in the same way; one
may fail to load only for the causes of loads.toml. Where processes can't be traced, the script says so, and passes.
"""
import bisect
import dataclasses
import functools
import itertools
import os
import random
import re
import signal
import struct
import sys
import tempfile
import time
from collections import namedtuple
from pathlib import Path
from typing import Dict, Iterator, List, Optional, Set, Tuple

import memory
from comparing import Finished, Tally, first_differing, parser_of, read_elf, run
from pages.sources import table_of
from processes import (
    ENTRY, PAGE, Mapping, Stopped, can_trace, content_of, linker_in, linker_of, mapping_of, programs_in, real,
    to_debug_state)

LONGEST = 2.0
LINE = re.compile(r"^([0-9a-f]+)-([0-9a-f]+) (...)p ([0-9a-f]+) (file|zero|none)$")
is_elf = functools.lru_cache(maxsize=None)(lambda path: bool(read_elf(path)))
# Why a damaged copy that elfload accepts isn't loaded.
ALLOWED = table_of(__file__)

# A function that elfload --start prints, and the messages of the linker before it calls those of a file.
FUNCTION = re.compile(r"^(.*) (preinit_array|init|init_array|entry)(?:\[\d+\])? = (.*)$", re.M)
CALLED = re.compile(r"^ *\d+:\tcalling (preinit|init): (.*)$", re.M)
# The parts of a file that each of them is about, and the tags of dynamic entries with the address and the size of each.
PARTS = {"preinit": ("preinit_array",), "init": ("init", "init_array")}
TAGS = {"init": (12, None), "init_array": (25, 27), "preinit_array": (32, 33)}

# What elfload prints of a file: the range that is read-only, or None, the first address, and the mappings by their loader.
Plan = namedtuple("Plan", "relro start by")


def plan_of(text: str) -> Plan:
    heads, by, lines = {}, {}, None
    for line in text.split("\n")[1:-1]:
        if line.startswith("words "):
            break
        if line in ("kernel", "glibc"):
            lines = by.setdefault(line, [])
        elif lines is None:
            name, _, held = line.partition(" ")
            heads[name] = held
        else:
            lines.append(mapping_of(LINE.match(line)))
    relro, span = ([int(it, 16) for it in heads[name].split("-")] if heads[name] != "none" else None for name in ("relro", "span"))
    return Plan(relro and tuple(relro), span[0], by)


def said_of(elfload: str, path: str) -> Tuple[Finished, Optional[Plan]]:
    """How a run of elfload ended, and the plan if it printed one."""
    done = run([elfload, "--alone", path])
    return done, plan_of(done.output) if done.status == 0 else None


class Plans(Tally):
    """Counts what was compared, and keeps the plan of each file."""

    def __init__(self, elfload: str) -> None:
        super().__init__(elfload)
        self.plans: Dict[str, Optional[Plan]] = {}
        # The files and stops whose bytes were compared.
        self.compared: Set[Tuple[str, str]] = set()

    def plan(self, path: str) -> Optional[Plan]:
        """The plan of a file; one with an error is a difference."""
        if path not in self.plans:
            said, self.plans[path] = said_of(self.program, path)
            if said.status != 0:
                self.fault(f"{path}: elfload: status {said.status}: {said.errors.strip()}")
            self["files"] += 1
        return self.plans[path]


@dataclasses.dataclass
class Loaded:
    """A file in a process: its plan, who loads it, its base, and whether its relro is read-only."""

    path: str
    plan: Plan
    by: str
    base: int
    is_protected: bool = False

    def parts(self, line: Mapping) -> Iterator[Mapping]:
        """A mapping of the plan at its addresses in the process, with the pages of relro apart."""
        relro = self.plan.relro if self.is_protected and self.plan.relro else (0, 0)
        places = sorted({line.start, line.end, *(it for it in relro if line.start < it < line.end)})
        for start, end in zip(places, places[1:]):
            flags = "r--" if relro[0] <= start < relro[1] else line.flags
            yield Mapping(self.base + start, self.base + end, flags, line.offset + start - line.start, line.holds)


def as_mapped(mapping: Mapping, path: str, part: Mapping) -> bool:
    """Whether a mapping is as a part of the plan of a file says."""
    if part.holds == "file":
        is_same = mapping.holds == path and mapping.offset - mapping.start == part.offset - part.start
    else:
        is_same = part.holds == "none" or mapping.holds in ("", "[heap]")
    return is_same and mapping.flags == part.flags


def compare_line(maps: List[Mapping], loaded: Loaded, line: Mapping, name: str, tally: Plans) -> None:
    starts = [it.start for it in maps]
    for part in loaded.parts(line):
        at = part.start
        while at < part.end:
            index = bisect.bisect_right(starts, at) - 1
            mapping = maps[index] if index >= 0 and at < maps[index].end else None
            if mapping is None or not as_mapped(mapping, loaded.path, part):
                tally.fault(f"{name}: {loaded.path}: elfload says {line} at {at - loaded.base:x} ({part.flags}), maps say {mapping}")
                return
            at = min(part.end, mapping.end)
    tally["mappings"] += 1


def compare_bytes(process: Stopped, loaded: Loaded, line: Mapping, all_bytes: bool, name: str, tally: Plans) -> None:
    """Compares the bytes of a line that is not writable, or of any line at exec."""
    for part in loaded.parts(line):
        size, is_writable = part.end - part.start, "w" in line.flags
        if part.holds == "none" or part.flags[0] != "r" or (is_writable and not all_bytes):
            continue
        held, wanted = process.memory(part.start, size), bytes(size)
        if part.holds == "file":
            wanted = content_of(loaded.path)[part.offset : part.offset + size]
            # Of pages of the file past its end there are no bytes.
            wanted = wanted.ljust(min(-(-len(wanted) // PAGE) * PAGE, size), b"\0")
        # In writable pages of a file zeros may begin before its bytes end.
        last = len(held.rstrip(b"\0")) if is_writable and part.holds == "file" else len(held)
        if len(held) != len(wanted) or held[:last] != wanted[:last]:
            tally.fault(f"{name}: {loaded.path}: bytes of {line} are others")
        tally["bytes"] += len(held)


def compare_loaded(process: Stopped, maps: List[Mapping], loaded: Loaded, at_exec: bool, name: str, tally: Plans) -> None:
    lines = loaded.plan.by[loaded.by]
    stop = name.rpartition(": ")[2]
    is_new = (loaded.path, stop) not in tally.compared
    tally.compared.add((loaded.path, stop))
    for line in lines:
        compare_line(maps, loaded, line, name, tally)
        if is_new:
            compare_bytes(process, loaded, line, at_exec, name, tally)
    for mapping in maps:
        if mapping.holds == loaded.path and not any(it.start <= mapping.start - loaded.base < it.end for it in lines):
            tally.fault(f"{name}: {loaded.path}: elfload has no mapping at {mapping}")


def base_of(maps: List[Mapping], path: str, plan: Plan) -> Optional[int]:
    """The base of a file in a process, by its first mapping."""
    first = min((it.start for it in maps if it.holds == path), default=None)
    return None if first is None else first - plan.start


def files_of(process: Stopped, maps: List[Mapping], program: str, tally: Plans, is_protected: bool) -> List[Loaded]:
    """The files that a process has mapped."""
    found, linker = [], linker_in(process, maps)[0]
    for path in dict.fromkeys(it.holds for it in maps if it.holds.startswith("/") and is_elf(it.holds)):
        by = "kernel" if path in (program, linker) else "glibc"
        plan = tally.plan(path)
        if plan is not None:
            found.append(Loaded(path, plan, by, base_of(maps, path, plan), is_protected))
    return found


def compare_stop(process: Stopped, program: str, stop: str, tally: Plans) -> None:
    maps = process.maps()
    for loaded in files_of(process, maps, program, tally, stop == "after RELRO"):
        compare_loaded(process, maps, loaded, stop == "at exec", f"{program}: {stop}", tally)
        tally[f"files {stop}"] += 1


def functions_of(process: Stopped, file: memory.File) -> Dict[str, List[int]]:
    """The functions of a file by part, those of an array as memory has them."""
    entries, width, found = dict(memory.entries_of(file.path)), memory.address_size(file.path), {}
    for part, (place, size) in TAGS.items():
        address = file.base + entries.get(place, 0)
        held = process.memory(address, entries.get(size, 0) // width * width)
        found[part] = [it for it, in struct.iter_unpack("<I" if width == 4 else "<Q", held)] if size else [address] * (place in entries)
    return found


def compare_start(process: Stopped, program: str, room: str, tally: Plans) -> None:
    """Compares the functions that run when a program starts, and runs it through them up to its entry point."""
    files, entry = list(memory.files_of(process, program, *linker_in(process, process.maps()))), process.auxiliary(ENTRY)
    said, numbers = run([tally.program, "--start", program]), memory.Numbers(files)
    says = [(real(file), part, numbers.of(memory.Word(0, 8, "", value))) for file, part, value in FUNCTION.findall(said.output)]
    held = {it.path: functions_of(process, it) for it in files}
    held[program]["entry"] = [entry]
    # Whichever functions it comes to, it stops there.
    process.stop_at(entry)
    before = itertools.takewhile(lambda it: it[1] != "entry", says)
    is_reached = all(process.to_address(it) for it in [*(address for _, _, address in before), entry])
    messages = Path(f"{room}/said.{process.pid}")
    if not messages.exists():
        tally["starts without messages"] += 1
        return
    called = [(real(name), part) for kind, name in CALLED.findall(messages.read_text("utf-8", "surrogateescape")) for part in PARTS[kind]]
    own = [(program, part) for part in ("entry", "init", "init_array")]
    wanted = [(path, part, it) for path, part in [*called, *own] for it in held[path][part]]
    if says != wanted or len(says) != said.output.count("\n") or said.status or not is_reached:
        at = first_differing(says, wanted)
        tally.fault(f"{program}: elfload --start: status {said.status}, function {at}: {says[at : at + 1]}, the linker calls {wanted[at : at + 1]}")
    tally["starts"] += 1
    tally["functions"] += len(wanted)


def compare(path: str, room: str, tally: Plans) -> None:
    process = Stopped(path, LD_DEBUG="files", LD_DEBUG_OUTPUT=f"{room}/said")
    try:
        if process.signal() != signal.SIGTRAP:
            tally["not run"] += 1
            return
        tally["programs"] += 1
        compare_stop(process, path, "at exec", tally)
        if not process.to_read_only():
            tally["programs without RELRO"] += 1
            return
        compare_stop(process, path, "before RELRO", tally)
        if not to_debug_state(process):
            tally["not relocated"] += 1
            return
        compare_stop(process, path, "after RELRO", tally)
        compare_start(process, path, room, tally)
    finally:
        process.end()
        # A later process may have the same number.
        Path(f"{room}/said.{process.pid}").unlink(missing_ok=True)


# Fields of the ELF header and of a program header: their offset and size.
HEADER = ((16, 2), (18, 2), (24, 8), (32, 8), (54, 2), (56, 2))
SEGMENT = ((0, 4), (4, 4), (8, 8), (16, 8), (32, 8), (40, 8), (48, 8))


def number_of(chance: random.Random, content: bytes, place: int, size: int) -> int:
    was = int.from_bytes(content[place : place + size], "little")
    other = chance.choice((
        0, 1, 2, 3, 4, 6, 7, PAGE, 16 * PAGE, 2**47 - PAGE, 0x6474E551, 0x6474E552, len(content), chance.getrandbits(8 * size)))
    near = was + chance.choice((-PAGE, -8, -1, 1, 8, PAGE, 16 * PAGE))
    return chance.choice((other, near, near)) % 2 ** (8 * size)


def changed(content: bytes, chance: random.Random) -> bytes:
    """A copy with one to three numbers of headers changed."""
    copy, start, count = bytearray(content), *struct.unpack_from("<Q16xH", content, 32)[:1], struct.unpack_from("<H", content, 56)[0]
    for _ in range(chance.choice((1, 1, 2, 3))):
        base, fields = (0, HEADER) if chance.random() < 0.1 else (start + 56 * chance.randrange(count), SEGMENT)
        offset, size = chance.choice(fields)
        number = number_of(chance, content, base + offset, size)
        copy[base + offset : base + offset + size] = number.to_bytes(size, "little")
    return bytes(copy)


def load_copy(copy: str, plan: Plan, program: str, by: str, tally: Plans) -> None:
    """Has a copy loaded that elfload accepts, and compares its mappings."""
    is_program = by == "kernel"
    process = Stopped(copy if is_program else program, **({} if is_program else {"LD_PRELOAD": copy}))
    before = tally["differences"]
    try:
        is_there = process.signal() == signal.SIGTRAP
        if is_there and not is_program:
            process.to_read_only()
            is_there = process.is_stopped()
        maps = process.maps() if is_there else []
        base = base_of(maps, copy, plan)
        if base is None:
            text = process.end()
            cause = next((name for name, words in ALLOWED.items() if re.search(words, text)), "killed at exec" if is_program else None)
            tally[f"damaged {'programs' if is_program else 'libraries'} not loaded: {cause or 'unexplained'}"] += 1
            if cause is None:
                tally.fault(f"damaged copy {copy}: accepted and not loaded: {text.strip()}")
            return
        compare_loaded(process, maps, Loaded(copy, plan, by, base), is_program, "damaged copy", tally)
        tally[f"damaged {'programs' if is_program else 'libraries'} mapped as planned"] += tally["differences"] == before
    finally:
        if not process.errors.closed:
            process.end()


def try_damaged(files: Dict[str, str], program: str, copies: int, seed: int, tally: Plans) -> None:
    """Runs elfload on damaged copies of a program and of a library, and has those loaded that it accepts."""
    chance, longest = random.Random(seed), 0.0
    with tempfile.TemporaryDirectory() as room:
        for by, source in files.items():
            content = Path(source).read_bytes()
            for number in range(copies):
                copy = os.path.join(room, f"{by}_{number}")
                Path(copy).write_bytes(changed(content, chance))
                os.chmod(copy, 0o755)
                began = time.monotonic()
                said, plan = said_of(tally.program, copy)
                longest = max(longest, time.monotonic() - began)
                if said.status not in (0, 1) or longest > LONGEST or (said.status == 1) != bool(said.errors):
                    tally.fault(f"damaged copy {number} of {source}: status {said.status}, {longest:.1f} s at most")
                tally["damaged copies"] += 1
                if plan is not None:
                    tally["of them accepted"] += 1
                    load_copy(copy, plan, program, by, tally)
                os.unlink(copy)
    print(f"damaged copies: {longest:.2f} s at most")


if __name__ == "__main__":
    given = parser_of(__doc__, "elfload", files="*", damaged=0, seed=1).parse_args()
    if not can_trace():
        print("0 programs, 0 differences: processes can't be traced here")
        sys.exit(0)
    tally, programs = Plans(given.elfload), programs_in(given.files)
    with tempfile.TemporaryDirectory() as room:
        for path in programs:
            compare(path, room, tally)
    if given.damaged and programs:
        program = min(programs, key=os.path.getsize)
        libraries = [it for it in tally.plans if ".so" in os.path.basename(it) and real(linker_of(program) or "") != it]
        try_damaged({"kernel": program, "glibc": min(libraries, key=os.path.getsize)}, program, given.damaged, given.seed, tally)
    sys.exit(tally.ended())
