#!/usr/bin/env python3
"""Compares what the package for Python says of the hardening of files with what checksec prints, and the features of the property
note (CET, BTI, PAC) with those of readelf; and what the example hardening.rs of the Rust crate prints with the package.

    tools/compare/hardening.py FILE..

It needs Debian's package checksec, and the package as tools/exports/python.sh builds it. The words are those of docs/HARDENING.md.
At the end it says how many files were compared, and the processor seconds of the package and of checksec."""
import concurrent.futures
import json
import os
import re
import resource
import subprocess
import sys
import tempfile

from comparing import ABOUT, ROOT, Tally, files_of, parser_of, read_elf, run

LIBC = "/lib/x86_64-linux-gnu/libc.so.6"
FEATURES = {"ibt": "IBT", "shstk": "SHSTK", "bti": "BTI", "pac": "PAC"}


def checksec(path: str) -> str:
    return run(["checksec", "--format=json", f"--file={path}"]).output.replace("\n", "")


def wanted(path: str, line: str) -> dict:
    """What checksec and readelf say of a file, in the words of the package."""
    (said,) = json.loads(line).values()
    features = re.findall(r"(?:x86|AArch64) feature: (.*)", run(["readelf", "-nW", "--", path]).output)
    return {
        **{name: said[name] == "yes" for name in ("canary", "nx", "rpath", "runpath", "symbols", "fortify_source")},
        "relro": {"no": "none"}.get(said["relro"], said["relro"]),
        "pie": {"not_elf": "none"}.get(said["pie"], said["pie"]),
        "fortified": int(said["fortified"]),
        "fortifiable": int(said["fortify-able"]),
        **{name: any(re.search(rf"\b{word}\b", it) for it in features) for name, word in FEATURES.items()},
    }


def by_crate(paths: list[str]) -> dict:
    """What the example of the Rust crate prints, by the path."""
    archive = os.environ.get("XMAS_ELF_ARCHIVE", str(ROOT / "crates/elf_c/out"))
    rows = {}
    with tempfile.TemporaryDirectory() as room:
        command = ["cargo", "build", "--quiet", "--offline", "--release", "--manifest-path", "bindings/rust/Cargo.toml", "--example", "hardening"]
        subprocess.run(command, cwd=ROOT, env={**os.environ, "XMAS_ELF_ARCHIVE": archive, "CARGO_TARGET_DIR": room}, check=True)
        for first in range(0, len(paths), 200):
            printed = run([f"{room}/release/examples/hardening", LIBC, *paths[first : first + 200]]).output
            names, *lines = printed.splitlines()
            for line in lines:
                values = dict(zip(names.split(","), line.split(",", names.count(","))))
                rows[values["path"]] = values
    return rows


def as_text(value: object) -> str:
    if isinstance(value, bool):
        return "yes" if value else "no"
    return "" if value is None else str(value)


def processor_seconds(of: int) -> float:
    used = resource.getrusage(of)
    return used.ru_utime + used.ru_stime


if __name__ == "__main__":
    # Who asks for checksec's words alone needs no package.
    sys.path.insert(0, str(ROOT / "bindings/python"))
    from xmas_elf import hardening_row

    given, tally = parser_of((__doc__ or "") + ABOUT, files="+").parse_args(), Tally("the package", "files", "words")
    paths = [it for it in files_of(given.files) if read_elf(it)]
    with concurrent.futures.ThreadPoolExecutor() as pool:
        kept = dict(zip(paths, pool.map(checksec, paths)))
    theirs, ours = processor_seconds(resource.RUSAGE_CHILDREN), processor_seconds(resource.RUSAGE_SELF)
    rows = {path: hardening_row(path) for path in paths}
    ours = processor_seconds(resource.RUSAGE_SELF) - ours
    crate = by_crate(list(rows))
    for path, row in rows.items():
        tally["files"] += 1
        for name, value in wanted(path, kept[path]).items():
            tally["words"] += 1
            own = bool(row[name]) if name in ("rpath", "runpath") else row[name]
            if row["error"] or own != value:
                tally.fault(f"{path}: {name}: the package says {row['error'] or own}, checksec says {value}")
        for name, value in crate.get(path, {}).items():
            tally["words of the crate"] += 1
            if as_text(row[name]) != value:
                tally.fault(f"{path}: {name}: the package says {row[name]}, the crate says {value}")
    print(f"processor seconds: {ours:.1f} of the package, {theirs:.1f} of checksec")
    sys.exit(tally.ended())
