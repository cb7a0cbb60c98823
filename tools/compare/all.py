#!/usr/bin/env python3
"""Runs every comparison with another program, and the runs on damaged files.

    tools/compare/all.py --write      all, whole: hours; writes what each counted into docs/TESTS.md
    tools/compare/all.py --sample     each over a few files, some seconds each
    tools/compare/all.py .. NAME..    these alone, as `readelf dlsym`

The comparisons are those of all.toml. XMAS_ELF_CRATE: a folder with the files of the Rust crate, where Cargo has no registry. One that
needs what isn't here is skipped, and one that was skipped or failed keeps its table in the page.
"""
import collections
import os
import pathlib
import platform
import re
import shutil
import subprocess
import sys
import time

sys.path.insert(0, str(pathlib.Path(__file__).resolve().parents[1]))
from pages.sources import ROOT, git, parser_of, table_of, unfolded

PAGE = ROOT / "docs" / "TESTS.md"
ROOM = re.compile(r"(?<=<!-- oracles -->\n).*?(?=<!-- /oracles -->)", re.S)

TABLE = table_of(__file__)
CRATE = os.environ.get("XMAS_ELF_CRATE", "")
LISTS = {**TABLE["lists"], "folder": CRATE, "crate": CRATE and f"--crate {CRATE}"}
LISTS = {name: text.split() for name, text in LISTS.items()}


class Oracle(collections.namedtuple("Oracle", "script runs whole sample needs first", defaults=[""] * 4)):
    """A comparison of all.toml."""

    def missing(self) -> str:
        """What it needs and isn't here, or nothing."""
        for name in self.runs.split():
            if not (ROOT / (path := f"crates/{name}/out/{'libelf_c.a' if name == 'elf_c' else name}")).exists():
                return path
        for name in self.needs.split():
            if not shutil.which(name):
                return name
        first = unfolded(self.first.split(), LISTS)
        failed = first and subprocess.run(first, cwd=ROOT, capture_output=True, text=True, check=False).returncode
        return f"what {first[0]} makes" if failed else ""


ORACLES = {name: Oracle(**{"script": name, **row}) for name, row in TABLE["comparisons"].items()}


def counts_of(said: str) -> str:
    """A table of the counts of a line as `3 files, 0 differences`."""
    counts = [re.fullmatch(r"(\d+) (.*)", it).groups() for it in re.split(r", (?=\d)", said)]
    rows = [name for _, name in counts], ["---:"] * len(counts), [f"{int(count):,}" for count, _ in counts]
    return "\n".join(f"|{'|'.join(row)}|" for row in rows)


def write(name: str, said: str, command: str) -> None:
    """Puts what a comparison counted into the page, in place of the table that it has of it."""
    text, system = PAGE.read_text(encoding="utf-8"), platform.freedesktop_os_release()
    machine = f"{system['NAME'].split()[0]} {system.get('VERSION_ID', '')} ({platform.machine().replace('_', '-')})"
    parts = dict(re.findall(r"^\*\*`(\w+)`\*\* (.*?)\n*(?=^\*\*`|\Z)", ROOM.search(text)[0], re.M | re.S))
    parts[name] = f"Measured at {git('rev-parse', '--short', 'HEAD').strip()} by `{command}` on {machine}.\n\n{counts_of(said)}"
    held = "\n\n".join(f"**`{it}`** {parts[it]}" for it in ORACLES if it in parts)
    PAGE.write_text(ROOM.sub(lambda _: held + "\n", text, count=1), encoding="utf-8")


if __name__ == "__main__":
    parser = parser_of(__doc__, {"sample": "over a few files", "write": "write the counts into the page"})
    parser.add_argument("names", nargs="*", metavar="NAME", help=", ".join(ORACLES))
    given = parser.parse_args()
    if given.sample and given.write:
        parser.error("a sample is not written")
    if unknown := set(given.names) - set(ORACLES):
        parser.error(f"{', '.join(unknown)}: there is no such comparison")
    if given.write and git("status", "--porcelain", "--", "crates", "tools/compare"):
        parser.error("crates/ or tools/compare differs from the last commit, which the page would name")
    failed = []
    for name in given.names or ORACLES:
        oracle = ORACLES[name]
        if missing := oracle.missing():
            print(f"{name}: skipped, since {missing} is not here", flush=True)
            continue
        words, began = (oracle.sample if given.sample else oracle.whole).split(), time.monotonic()
        command = [f"tools/compare/{oracle.script}.py", *unfolded(words, LISTS)]
        ran = subprocess.run(command, cwd=ROOT, capture_output=True, text=True, errors="replace", check=False)
        lines = ran.stdout.strip().split("\n")
        said = next((it for it in reversed(lines) if re.match(r"\d+ .*(differences|left over)", it)), lines[-1])
        print(f"{name}: {'FAILED: ' if ran.returncode else ''}{said} ({time.monotonic() - began:.0f} s)", flush=True)
        if ran.returncode:
            failed.append(name)
            print("\n".join([*lines[-20:], ran.stderr.strip()[-2000:]]))
        elif given.write:
            write(name, said, " ".join("FOLDER" if it == CRATE else it for it in command))
    print(f"{len(failed)} comparisons failed" + (f": {', '.join(failed)}" if failed else ""))
    sys.exit(1 if failed else 0)
