#!/usr/bin/env python3
"""questions.py FOLDER..: the usual questions about the files of a distribution, each a function over the rows of a survey."""
import collections
import sys

import xmas_elf


def needing(rows, library):
    """The files that need a library."""
    return [row["path"] for row in rows if library in (row["needed"] or ())]


def needing_version(rows, version):
    """The files that need a version, as `GLIBC_2.34`, of any library."""
    return [row["path"] for row in rows if any(it.endswith(f":{version}") for it in row["imported_versions"] or ())]


def importing(rows, symbol):
    """The files that take a symbol of another file. It reads them again."""
    found = []
    for path in (row["path"] for row in rows if not row["error"]):
        with xmas_elf.ElfFile.load_from_path(path) as file:
            if any(it.name == symbol and not it.is_defined for it in file.dynamic_symbols()):
                found.append(path)
    return found


def unmet(rows):
    """The pairs of a file and a needed library that none of the files is."""
    names = {row["soname"] for row in rows} | {row["path"].rsplit("/", 1)[-1] for row in rows}
    return [(row["path"], name) for row in rows for name in row["needed"] or () if name not in names]


def weak(rows):
    """The programs and shared objects that aren't hardened, with what they lack."""
    lacks = {
        "PIE": lambda row: row["type"] == "ET_EXEC",
        "RELRO": lambda row: row["relro"] != "full",
        "NX": lambda row: not row["nx"],
        "W^X": lambda row: row["wx"],
        "no RPATH": lambda row: row["rpath"] is not None,
    }
    linked = [row for row in rows if row["type"] in ("ET_EXEC", "ET_DYN")]
    found = [(row["path"], [name for name, is_lacking in lacks.items() if is_lacking(row)]) for row in linked]
    return [(path, names) for path, names in found if names]


def with_one_build_id(rows):
    """The build ids that several files have, with their paths."""
    paths = collections.defaultdict(list)
    for row in rows:
        if row["build_id"]:
            paths[row["build_id"]].append(row["path"])
    return {build_id: found for build_id, found in paths.items() if len(found) > 1}


def main():
    rows = xmas_elf.survey(sys.argv[1:], processes=None)
    print(f"{len(needing(rows, 'libm.so.6'))} need libm.so.6, {len(needing_version(rows, 'GLIBC_2.34'))} need GLIBC_2.34")
    print(f"{len(importing(rows, 'gets'))} call gets, {len(unmet(rows))} needed libraries are not here")
    for path, names in weak(rows):
        print(f"{path}: {', '.join(names)}")
    for build_id, paths in with_one_build_id(rows).items():
        print(f"{build_id}: {' '.join(paths)}")


if __name__ == "__main__":
    main()
