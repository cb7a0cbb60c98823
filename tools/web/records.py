#!/usr/bin/env python3
"""Writes the JavaScript module that says how the records of bindings/include/xmas_elf.h lie in memory.

    tools/web/records.py OUT

The module has the layout of each struct and the parameters of each function, of bindings/exports.toml, and the numbers of
the statuses. The C compiler of this machine lays the structs out: wasm64 aligns as x86-64 does.
"""
import json
import pathlib
import re
import subprocess
import sys
import tempfile

sys.path.insert(0, str(pathlib.Path(__file__).resolve().parents[1]))
from exports import listing
from exports.listing import FILLED, ROOT, SIZES, SLICE, VALUE

HEADER = ROOT / "bindings" / "include" / "xmas_elf.h"


def records_of(listed):
    """The layout of each struct: its size, and the place and the size of each member, and which record it is."""
    names = {struct.name for struct in listed.structs}
    lines = []
    for struct in listed.structs:
        lines.append(f'printf("%zu\\n", sizeof({struct.c_type}));')
        for it in struct.fields:
            lines.append(f'printf("%zu %zu\\n", offsetof({struct.c_type}, {it.c_name}), sizeof((({struct.c_type} *)0)->{it.c_name}));')
    # What C prints of the structs, by these lines.
    source = '#include "xmas_elf.h"\n#include <stddef.h>\n#include <stdio.h>\nint main(void) {\n' + "\n".join(lines) + "\nreturn 0; }\n"
    with tempfile.TemporaryDirectory() as room:
        program = f"{room}/layout"
        subprocess.run(["cc", "-x", "c", f"-I{HEADER.parent}", "-", "-o", program], input=source, text=True, check=True)
        printed = subprocess.run([program], capture_output=True, text=True, check=True).stdout
    numbers, records = map(int, printed.split()), {}
    for struct in listed.structs:
        records[struct.name] = {"size": next(numbers), "members": [
            {"name": it.c_name, "at": next(numbers), "size": next(numbers), "record": it.type if it.type in names else None}
            for it in struct.fields]}
    return records


def parameters_of(one):
    """What C takes for a parameter: for each its name and the record that it points to, if any."""
    wide, record = one.type in ("u64", "usize"), None if one.type in SIZES else one.type
    found = [{"name": one.name, "pointer": one.kind != VALUE, "record": record, "wide": wide}]
    if one.kind in (SLICE, FILLED):
        count = f"{one.name}_{'size' if one.type == 'u8' else 'count'}"
        found.append({"name": count, "pointer": False, "record": None, "wide": True})
    return found


if __name__ == "__main__":
    if len(sys.argv) != 2:
        sys.exit(__doc__)
    listed, header = listing.read(), HEADER.read_text()
    functions = {it.name: {"parameters": [part for one in it.parameters for part in parameters_of(one)]} for it in listed.functions}
    statuses = {name: int(number) for name, number in re.findall(r"XMAS_ELF_(\w+) = (\d+)", header)}
    longest = int(re.search(r"#define XMAS_ELF_LONGEST_MESSAGE (\d+)", header)[1])
    parts = {"RECORDS": records_of(listed), "FUNCTIONS": functions, "STATUS": statuses, "LONGEST_MESSAGE": longest}
    lines = ["// Written by tools/web/records.py from bindings/include/xmas_elf.h: not to be edited.\n"]
    pathlib.Path(sys.argv[1]).write_text("".join(lines + [f"export const {name} = {json.dumps(part, indent=1)};\n" for name, part in parts.items()]))
