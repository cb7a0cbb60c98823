#!/usr/bin/env python3
"""Warns of each figure of the pages that is of a commit before its code, with the number of commits since that touched what it
measures (PATHS, by the first word of the command). The gate runs it last, and fails at none.

    tools/pages/figures.py

A figure is a line "Measured at COMMIT by `COMMAND` on MACHINE.", after which more may come.
"""
import pathlib
import re
import sys

sys.path.insert(0, str(pathlib.Path(__file__).resolve().parents[1]))
from compare.all import ORACLES
from pages.sources import below, crates, git, table_of

PAGES = ("README.md", "CONTRIBUTING.md", "CALLING.md", "docs/*.md", "bindings/*.md", "bench/*.md")


def of(crate: str = "", others: tuple = ()) -> tuple:
    """The sources of a crate and of those below it, and other files."""
    own = (*(f"crates/{it}/src" for it in [*below(crates(), crate), crate]), f"crates/{crate}/data") if crate else ()
    return (*own, *others)


# What each command measures, besides a script itself.
MEASURED = {f"tools/compare/{it.script}.py": {"crate": it.runs.split()[0]} for it in ORACLES.values()}
MEASURED |= table_of(__file__)
PATHS = {command: of(**it) for command, it in MEASURED.items()}

FIGURE = re.compile(r"Measured at ([0-9a-f]{7,40}) by `([^`]+)` on (.+?)(?=[.:;](?:\s|$)| \(|$)")
OTHER = r"\b[Mm]easured (at|by)\b"


def age(commit: str, command: str) -> str:
    """What has changed since a figure was measured, as a warning; nothing where nothing has."""
    script = command.split()[0]
    if script not in PATHS:
        return f"tools/pages/figures.py doesn't know what `{command}` measures"
    # A commit of this history is its own common one with the last.
    if git("merge-base", commit, "HEAD", check=False) != git("rev-parse", commit, check=False):
        return f"{commit} is not in this history"
    count = int(git("rev-list", "--count", f"{commit}..HEAD", "--", script, *PATHS[script]))
    return f"{count} commit{'' if count == 1 else 's'} since touched what it measures" if count else ""


if __name__ == "__main__":
    figures = warnings = 0
    for it in git("grep", "--untracked", "-nE", OTHER, "--", *PAGES, check=False).splitlines():
        place, line = re.match(r"(.*?:\d+):(.*)", it).groups()
        found = FIGURE.findall(line)
        for commit, command, machine in found:
            warning = age(commit, command)
            figures, warnings = figures + 1, warnings + bool(warning)
            print(f"{place}: {commit}, `{command}`, {machine}: WARNING: {warning}\n" if warning else "", end="")
        if not found:
            warnings += 1
            print(f"{place}: WARNING: no commit, command and machine in the form of tools/pages/figures.py: {line[:90]}")
    print(f"{figures} figures, {warnings} warnings")
