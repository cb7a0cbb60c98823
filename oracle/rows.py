#!/usr/bin/env python3
"""Writes the rows that `crates/elfanswers` reads: small files, and the results that are wanted of them.

    oracle/rows.py            writes crates/elfanswers/data/*.rows and the files that they are of, and what args and
                              stdout say of them
    oracle/rows.py --check    fails where those are others

`oracle/wanted` has the rows. Each result there is worked out by hand from the format, and none is the program's.
`crates/elfanswers/src/rows.rt` says how they are read; `rt ci` runs the program, which names each row whose
result is another on standard error.
"""
import pathlib
import sys

TOP = pathlib.Path(__file__).resolve().parent.parent
CRATE = TOP / "crates" / "elfanswers"
sys.path.insert(0, str(pathlib.Path(__file__).resolve().parent))
from wanted import counts, data, hash_tables, headers, links, names, prefixes, reports, sections, segments, symbols
from wanted.files import BASES
from wanted.rows import Rows

PARTS = (headers, sections, names, symbols, segments, data, links, hash_tables, counts, prefixes, reports)


def written() -> dict:
    """Each file by its path in the crate, with what is to be there."""
    files = {f"data/{name}.elf": bytes(base) for name, base in BASES.items()}
    parts = {}
    for part in PARTS:
        rows = Rows()
        part.write(rows)
        parts[part.__name__.partition(".")[2] + ".rows"] = rows
    files |= {f"data/{name}": rows.text().encode() for name, rows in parts.items()}
    lines = {"args": [f"{name}\n" for name in parts], "stdout": [f"{name}: {rows.count} rows\n" for name, rows in parts.items()]}
    for name, own in lines.items():
        kept = [line for line in (CRATE / name).read_text().splitlines(True) if ".rows" not in line]
        files[name] = "".join([*kept, *own]).encode()
    return files


def main() -> int:
    files = written()
    stale = [CRATE / name for name, data in files.items() if not (CRATE / name).is_file() or (CRATE / name).read_bytes() != data]
    stale += [path for path in (CRATE / "data").glob("*.rows") if f"data/{path.name}" not in files]
    if "--check" in sys.argv[1:]:
        for path in stale:
            print(f"{path.relative_to(TOP)}: not what oracle/rows.py writes")
        if not stale:
            count = sum(data.count(b"\nis ") for name, data in files.items() if name.endswith(".rows"))
            print(f"the rows of elfanswers are what oracle/rows.py writes: {count}")
        return 1 if stale else 0
    for path in stale:
        path.unlink(missing_ok=True)
    for name, data in files.items():
        (CRATE / name).write_bytes(data)
    return 0


if __name__ == "__main__":
    sys.exit(main())
