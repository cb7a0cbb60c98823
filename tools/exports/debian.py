#!/usr/bin/env python3
"""Writes a Debian package of a release folder: the programs with a manual page for each, made from its `--help`; the static library
with its headers and its file for pkg-config; the Rust crate and the Python wheel.

    tools/exports/debian.py [FOLDER]    FOLDER is dist where it isn't named, and gets xmas-elf_VERSION_amd64.deb
    tools/exports/debian.py --built     writes nothing: fails where a program isn't built, or a source of it is newer

The programs are those that `rt ci` leaves in crates/*/out. debian.toml has their exit statuses. The same files give the same package,
byte by byte.
"""
import gzip
import os
import pathlib
import re
import shutil
import subprocess
import sys
import tempfile

sys.path.insert(0, str(pathlib.Path(__file__).resolve().parents[1]))
from pages.sources import ROOT, below, crates, git, table_of

PROGRAMS = ["elfaddr", "elfbind", "elfinfo", "elfload", "elfsize", "elfsym", "elftree"]
STATUSES = table_of(__file__)
LIBRARIES, SHARED = "usr/lib/x86_64-linux-gnu", "usr/share/xmas-elf"
SUMMARY = "reader of ELF files whose every result is proved"


def output(*command) -> str:
    return subprocess.run(command, check=True, capture_output=True, text=True, env={**os.environ, "LC_ALL": "C"}).stdout


def program_of(name: str) -> pathlib.Path:
    return ROOT / "crates" / name / "out" / name


def unfit(name: str) -> str:
    """Why a program can't be packaged; nothing if it can."""
    program = program_of(name)
    if not program.is_file():
        return f"{program.relative_to(ROOT)} is missing: `rt ci` builds it"
    folders = (ROOT / "crates" / crate / part for crate in [*below(crates(), name), name] for part in ("src", "specs", "proofs"))
    newest = max((file for folder in folders for file in folder.rglob("*") if file.is_file()), key=lambda file: file.stat().st_mtime)
    # A program that `rt ci` kept from an earlier run has the time of that run, and was put here later.
    if newest.stat().st_mtime <= program.stat().st_ctime:
        return ""
    return f"{program.relative_to(ROOT)} is older than {newest.relative_to(ROOT)}: `rt ci` builds it again"


def help_parts(text: str) -> tuple:
    """The usage in what a program prints for `--help`, what it does, and its options with what each does. A line that begins with
    blanks belongs to the option above."""
    usage, *lines = text.removeprefix("usage: ").rstrip("\n").split("\n")
    does, options = [], []
    for line in lines:
        if line.startswith(" "):
            options[-1].append(line.strip())
        elif line.startswith("--"):
            options.append(re.split(r" {2,}", line, maxsplit=1))
        else:
            does.append(line)
    return usage, " ".join(does), [(option, " ".join(what)) for option, *what in options]


def roff(text: str) -> str:
    """A text in a manual page, whose dashes are those of options, and where a point at the start begins no command."""
    text = text.replace("\\", r"\e").replace("-", r"\-")
    return r"\&" + text if text.startswith((".", "'")) else text


def tagged(rows) -> list:
    return [f".TP\n.B {roff(tag)}\n{roff(text)}" for tag, text in rows]


def manual(name: str, version: str, text: str) -> str:
    """The manual page of a program by what it prints for `--help`, and its exit statuses, of which 1 is for all other cases."""
    usage, does, options = help_parts(text)
    short = re.split(r"[.;]( |$)", does)[0]
    statuses = {**STATUSES["all"], **STATUSES.get(name, {})}
    page = [f'.TH {name.upper()} 1 "" "xmas_elf {version}"', ".SH NAME", roff(f"{name} - {short[0].lower()}{short[1:]}"), ".SH SYNOPSIS"]
    page += ["\n.br\n".join(f".B {roff(form)}" for form in re.split(rf" \| (?={name} )", usage)), ".SH DESCRIPTION", roff(does)]
    page += [".SH OPTIONS", *tagged(options)] if options else []
    page += [".SH EXIT STATUS", *tagged(sorted(statuses.items(), key=lambda row: (row[0] == "1", int(row[0]))))]
    return "\n".join(page) + "\n"


def put(root: pathlib.Path, place: str, data: bytes, mode: int = 0o644) -> None:
    file = root / place
    file.parent.mkdir(parents=True, exist_ok=True)
    file.write_bytes(data)
    file.chmod(mode)


def put_programs(root: pathlib.Path, version: str) -> bool:
    """Puts the programs and their pages; whether one of them needs the C library of the system."""
    needs = False
    for name in PROGRAMS:
        program = program_of(name)
        put(root, f"usr/bin/{name}", program.read_bytes(), 0o755)
        needs |= "(NEEDED)" in output("readelf", "--wide", "--dynamic", program)
        page = manual(name, version, output(program, "--help"))
        put(root, f"usr/share/man/man1/{name}.1.gz", gzip.compress(page.encode(), mtime=0))
    return needs


def put_library(root: pathlib.Path, dist: pathlib.Path) -> None:
    put(root, f"{LIBRARIES}/libelf_c.a", (dist / "lib/libelf_c.a").read_bytes())
    found = (dist / "lib/pkgconfig/xmas_elf.pc").read_text()
    found = re.sub(r"^prefix=.*", "prefix=/usr", found, flags=re.M).replace("-L${prefix}/lib ", "")
    put(root, f"{LIBRARIES}/pkgconfig/xmas_elf.pc", found.encode())
    for header in sorted((dist / "include").iterdir()):
        put(root, f"usr/include/{header.name}", header.read_bytes())
    shutil.copytree(dist / "rust", root / SHARED / "rust")
    for wheel in sorted((dist / "python").glob("*.whl")):
        put(root, f"{SHARED}/{wheel.name}", wheel.read_bytes())
    licenses = b"".join((ROOT / name).read_bytes() for name in ("LICENSE-APACHE", "LICENSE-MIT"))
    put(root, "usr/share/doc/xmas-elf/copyright", licenses)


if __name__ == "__main__":
    if sys.argv[1:] == ["--built"]:
        sys.exit("\n".join(filter(None, map(unfit, PROGRAMS))) or None)
    os.umask(0o022)
    dist = pathlib.Path(sys.argv[1] if len(sys.argv) > 1 else ROOT / "dist")
    version = re.search(r'^version = "(.*)"', (ROOT / "bindings/rust/Cargo.toml").read_text(), re.M)[1]
    with tempfile.TemporaryDirectory() as folder:
        root = pathlib.Path(folder)
        root.chmod(0o755)
        needs = put_programs(root, version)
        put_library(root, dist)
        control = [("Package", "xmas-elf"), ("Version", version), ("Architecture", "amd64"), ("Section", "devel"), ("Priority", "optional"),
            ("Maintainer", "the developers of xmas_elf <xmas-elf@localhost>"), *([("Depends", "libc6")] if needs else []), ("Description", SUMMARY)]
        put(root, "DEBIAN/control", "".join(f"{key}: {value}\n" for key, value in control).encode())
        package = dist / f"xmas-elf_{version}_amd64.deb"
        date = git("log", "-1", "--format=%ct").strip()
        subprocess.run(["dpkg-deb", "--build", "--root-owner-group", folder, str(package)], check=True, stdout=subprocess.DEVNULL,
            env={**os.environ, "SOURCE_DATE_EPOCH": date})
    print(f"package: {package.name}, {package.stat().st_size} bytes")
