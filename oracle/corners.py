#!/usr/bin/env python3
"""What glibc does in the corners of corners.toml, and what elfload or elfbind says there.

    oracle/corners.py     prints what the dynamic linker does with each file of corners.toml, and fails where it isn't what is written there
    oracle/corners.py --elfload crates/elfload/out/elfload --elfbind crates/elfbind/out/elfbind     compares what these programs say too
    oracle/corners.py --write FOLDER     writes the files of each row into a folder of its number

A program is run; a library is opened by `dlopen`, and its function is called. It needs x86-64 and glibc 2.36; without the dynamic linker
of 386 it leaves rows out.
"""
import argparse
import os
import pathlib
import re
import subprocess
import sys
import tempfile
import tomllib

TOP = pathlib.Path(__file__).resolve().parents[1]
BINDING = re.compile(r"^ *\d+:\tbinding file \./(\S+) \[0\] to \./(\S+) \[0\]: \w+ symbol `(.*)'(?: \[(.*)\])?$", re.M)
TRACED = re.compile(r"^ *\d+:\t.*\n", re.M)
ASKED = "import ctypes, sys; print(ctypes.CDLL(sys.argv[1], mode=2).call())"

# A status, or the number of a signal below 0, and what is written.
Outcome = tuple[int, str]


def edited(content: bytes, edits: list[list[str]]) -> bytes:
    """The bytes with these edits; those that copy take bytes as they were before."""
    copy = bytearray(content)
    for offset, *words in edits:
        start = int(offset, 0)
        held = content[int(words[1], 0) : int(words[2], 0)] if words[0] == "=" else bytes.fromhex("".join(words))
        copy += bytes(max(0, start - len(copy)))
        copy[start : start + len(held)] = held
    return bytes(copy)


def write(row: dict, base: dict, room: pathlib.Path) -> None:
    """Writes the files of a row."""
    room.mkdir(parents=True, exist_ok=True)
    edits = [it.split() for it in row["edits"]]
    for name in base["files"]:
        content = (TOP / base["folder"] / name).read_bytes()
        (room / name).write_bytes(edited(content, [words for of, *words in edits if of == name]))
        (room / name).chmod(0o755)


def by_glibc(base: dict, room: pathlib.Path) -> Outcome:
    """What the dynamic linker and the program do, with each binding that is traced as elfbind writes it."""
    first = f"./{base['files'][0]}"
    command = [sys.executable, "-c", ASKED, first] if first.endswith(".so") else [first]
    ran = subprocess.run(command, cwd=room, env=base.get("variables", {}), capture_output=True, check=False)
    text = (ran.stderr + ran.stdout).decode(errors="replace")
    bindings = [f"{of} {name}{'@' + version if version else ''} -> {to}" for of, to, name, version in BINDING.findall(text)]
    return ran.returncode, "\n".join([*bindings, TRACED.sub("", text)])


def by_program(program: str, base: dict, room: pathlib.Path) -> Outcome:
    command = [os.path.abspath(program), *base["files"], *base.get("also", [])]
    ran = subprocess.run(command, cwd=room, capture_output=True, check=False)
    return ran.returncode, (ran.stdout + ran.stderr).decode(errors="replace")


def is_other(name: str, did: Outcome, wanted: list) -> bool:
    """Prints what was done, and whether it isn't what is wanted."""
    other = did[0] != wanted[0] or wanted[1] not in did[1]
    told = " | ".join(wanted[1].splitlines())
    print(f"  {name}: {wanted[0]} {told}" + (f": NOT SO, but {did[0]}\n{did[1]}" if other else ""))
    return other


def main() -> int:
    parser = argparse.ArgumentParser(description=__doc__, formatter_class=argparse.RawDescriptionHelpFormatter)
    for name in ("elfload", "elfbind", "write"):
        parser.add_argument(f"--{name}", default="")
    asked = vars(parser.parse_args())
    table, faults, count = tomllib.loads((TOP / "oracle" / "corners.toml").read_text(encoding="utf-8")), 0, 0
    with tempfile.TemporaryDirectory() as folder:
        for number, row in enumerate(table["corner"]):
            base, room = table["base"][row["base"]], pathlib.Path(asked["write"] or folder) / str(number)
            if not os.path.exists(base.get("linker", "/")):
                continue
            write(row, base, room)
            print(row["name"])
            faults += is_other("glibc", by_glibc(base, room), row["glibc"])
            if program := asked[base["asked"]]:
                faults += is_other(base["asked"], by_program(program, base, room), row["here"])
            count += 1
    print(f"{count} rows, {faults} outcomes otherwise than is written here")
    return 1 if faults else 0


if __name__ == "__main__":
    sys.exit(main())
