#!/usr/bin/env python3
"""Wants each code block of the pages to be in a file of the repository that the gate proves, and each link to lead somewhere.

The paragraphs of a block, `rust` or `antt`, must all be in one source file of crates/, but for how their lines are broken; of imports
the file must import each name by that path. The pages of docs/api have a script of their own. A path to a caller that a page names, as
`callers::first::data_named`, must lead to one, by default of elf_callers. Each caller has a doc of its own, which says what it shows.
"""
import pathlib
import re
import sys

from sources import CALLERS, ROOT, anchor, ended, read

BLOCK = re.compile(r"^ *```(rust|antt)\n(.*?)^ *```$", re.MULTILINE | re.DOTALL)
ENDS = {"rust": ".rt", "antt": ".antt"}
LINK = re.compile(r"\]\(([^)\s]+)\)")
IMPORT = re.compile(r"ghost use ([\w.]+)\.\{([^}]*)\};")
HEADING = re.compile(r"^#+ (.*)$", re.MULTILINE)
CALLER = re.compile(r"`((?:elf_callers::|linking_callers::)?(?:callers(?:::[a-z]\w*)+|recipes::\w+))`")


def one_line(text: str) -> str:
    return " ".join(text.split())


def paragraphs(text: str) -> list:
    """Runs of lines with no empty one between, less a first line that only names a file."""
    return [one_line(it) for it in re.split(r"\n\s*\n", re.sub(r"\A-- \S+\.antt\n", "", text)) if it.strip()]


def stands_in(part: str, text: str) -> bool:
    """Whether a file has a paragraph, or all the imports of one that has nothing else: each name for clauses, with its path."""
    imports = lambda it: {(path, name.strip()) for path, names in IMPORT.findall(it) for name in names.split(",")}
    return part in text or not IMPORT.sub("", part).strip() and imports(part) <= imports(text)


def leads(page: pathlib.Path, link: str) -> bool:
    """Whether a link of a page leads to a file, and there to a heading, in small letters with dashes for blanks, or a line."""
    path, _, inside = link.partition("#")
    target = (page.parent / path).resolve() if path else page
    if not target.exists() or not inside:
        return target.exists()
    text = target.read_text(encoding="utf-8")
    if line := re.fullmatch(r"L(\d+)", inside):
        return int(line[1]) <= text.count("\n")
    return inside in map(anchor, HEADING.findall(text))


if __name__ == "__main__":
    files = [it for it in ROOT.glob("crates/*/*/**/*") if it.suffix in ENDS.values() and "out" not in it.parts]
    texts = {it: one_line(it.read_text(encoding="utf-8")) for it in files}
    pages = [ROOT / "README.md", ROOT / "CONTRIBUTING.md", ROOT / "CALLING.md", *sorted((ROOT / "docs").rglob("*.md"))]
    # The paths of the modules and items of the crates of callers, and the items without a doc of their own.
    known, faults, count = set(), [], 0
    for source in (it for it in read().values() if it.crate in CALLERS):
        known |= {source.path_of, *(f"{source.path_of}::{name}" for name in source.items)}
        docs = [it.doc for it in source.items.values()]
        faults += [f"{source.path_of}: {it.name} has no doc of its own" for it in source.items.values() if not it.doc or docs.count(it.doc) > 1]
    for page in pages:
        said, name = page.read_text(encoding="utf-8"), page.relative_to(ROOT)
        links = (it for it in LINK.findall(said) if "://" not in it)
        faults += [f"{name}: the link {it} leads nowhere" for it in links if not leads(page, it)]
        faults += [f"{name}: {it} is nowhere" for it in sorted(set(CALLER.findall(said))) if not {it, f"elf_callers::{it}"} & known]
        for language, block in BLOCK.findall(said if page.parent.name != "api" else ""):
            count += 1
            parts = paragraphs(block)
            if not any(it.suffix == ENDS[language] and all(stands_in(part, text) for part in parts) for it, text in texts.items()):
                faults.append(f"{name}: NOT QUOTED from one file: {parts[0][:90]}")
    sys.exit(ended(faults, f"{count} code blocks, {len(faults)} faults"))
