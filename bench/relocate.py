#!/usr/bin/env python3
"""Relocation beside the dynamic linker's own, in cycles of the time stamp counter (x86-64, glibc).

    bench/relocate.py [--runs N] PROGRAM..

Each program is started with LD_BIND_NOW=1 and LD_DEBUG=statistics, by which glibc's linker prints how long its relocation took.
`relocate.c`, linked with crates/elf_c/out/libelf_c.a, takes the same files in the same order. A time is the least of the runs, in
millions of cycles. The call for all objects reads each file once; each call of the check reads all files, which is not part of its time.
"""
import argparse
import os
import pathlib
import re
import subprocess
import tempfile

ROOT = pathlib.Path(__file__).resolve().parents[1]
LIBRARY = re.compile(r"^\s*(?:\S+ => )?(/\S+) \(0x", re.M)
OWN = re.compile(r"time needed for relocation: (\d+) cycles")


def libraries(program: str) -> list:
    """The libraries of a program, in the order in which they are loaded."""
    environment = {**os.environ, "LD_TRACE_LOADED_OBJECTS": "1"}
    return LIBRARY.findall(subprocess.run([program], env=environment, capture_output=True, text=True, check=False).stdout)


def own(program: str) -> int:
    """The cycles of the dynamic linker's relocation before the program runs."""
    environment = {**os.environ, "LD_BIND_NOW": "1", "LD_DEBUG": "statistics"}
    ran = subprocess.run([program, "--version"], env=environment, capture_output=True, text=True, errors="replace", check=False)
    return int(OWN.search(ran.stderr)[1])


def main():
    parser = argparse.ArgumentParser(description=__doc__, formatter_class=argparse.RawDescriptionHelpFormatter)
    parser.add_argument("--runs", type=int, default=5)
    parser.add_argument("programs", nargs="+", metavar="PROGRAM")
    given = parser.parse_args()
    print("|Program|objects|the linker|`xmas_elf_relocate_all`|to the linker|of it reading files|`xmas_elf_check_image`|\n|---|---:|---:|---:|---:|---:|---:|")
    with tempfile.TemporaryDirectory() as room:
        bench = f"{room}/relocate"
        sources = [ROOT / "bench/relocate.c", ROOT / "crates/elf_c/out/libelf_c.a"]
        subprocess.run(["gcc", "-O2", f"-I{ROOT}/bindings/include", *sources, "-o", bench], check=True)
        for program in given.programs:
            files = [program, *libraries(program)]
            ran = subprocess.run([bench, str(given.runs), *files], capture_output=True, text=True, check=True)
            objects, calls, reading, checks = map(int, ran.stdout.split())
            linker = min(own(program) for _ in range(given.runs))
            times = "".join(f"{it / 1e6:.2f}|" for it in (linker, calls))
            print(f"|`{program}`|{objects}|{times}{calls / linker:.1f}|{reading / 1e6:.2f}|{(checks - objects * reading) / 1e6:.2f}|")


if __name__ == "__main__":
    main()
