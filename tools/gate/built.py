#!/usr/bin/env python3
"""Has other commands take the libraries that `rt ci` has just proved and built, behind which `.ci/run` calls this.

    tools/gate/built.py

`rt ci` of some kits leaves a library in out/rlib without its stamp, the sum of its sources, and `rt check` of a crate above
builds it once more then. This writes the stamps of libraries that are newer than their sources; none of a kit that has none.
"""
import importlib
import os
import pathlib
import shutil
import sys

ROOT = pathlib.Path(__file__).resolve().parents[2]


def kit():
    """The part of the kit that knows crates and their stamps."""
    sys.dont_write_bytecode = True
    sys.path.append(str(pathlib.Path(shutil.which("rt")).resolve().parent))
    return importlib.import_module("rtlib")


if __name__ == "__main__":
    os.chdir(ROOT)
    written = []
    try:
        for crate in kit().crates_below(str(ROOT)):
            folder, built = pathlib.Path(crate.folder), pathlib.Path(crate.rlib)
            parts = [pathlib.Path(it.folder, part) for it in [crate, *crate.below()] for part in ("src", "specs", "proofs")]
            sources = max((file.stat().st_mtime for part in parts for file in part.rglob("*") if file.is_file()), default=0)
            # Files that an earlier run on this machine built and kept are older than the folder that they were put into.
            if (built / "format").is_file() and built.stat().st_mtime > sources and not crate.is_built():
                (folder / "out" / "rlib" / "stamp").write_text(crate.stamp(), encoding="utf-8")
                written.append(crate.name)
    except (AttributeError, OSError, TypeError) as why:
        print(f"this kit has no stamps that are known here: {why}")
    print(f"stamps of {', '.join(written) or 'no library'}")
