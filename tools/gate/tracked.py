#!/usr/bin/env python3
"""Fails for a tracked file above 300 kB whose name is on no page, and for a folder at the top that `docs/README.md` and
CONTRIBUTING.md don't name: such files are mostly the output of a tool, committed by mistake. Fails for a line that git writes where
two branches can't be merged.

    tools/gate/tracked.py
"""
import pathlib
import re
import sys

sys.path.insert(0, str(pathlib.Path(__file__).resolve().parents[1]))
from pages.sources import ROOT, ended, git

LIMIT = 300_000
CONFLICT = re.compile(rb"^(<{7}|>{7}) ", re.M)


if __name__ == "__main__":
    files = [pathlib.Path(it) for it in git("ls-files", "-z").split("\0") if it and (ROOT / it).is_file()]
    pages = {it: (ROOT / it).read_text(encoding="utf-8") for it in files if it.suffix == ".md"}
    large = [it for it in files if (ROOT / it).stat().st_size > LIMIT and not any(it.name in text for text in pages.values())]
    guides = pages[pathlib.Path("docs/README.md")] + pages[pathlib.Path("CONTRIBUTING.md")]
    folders = sorted({it.parts[0] for it in files if len(it.parts) > 1})
    found = [f"{it}: more than {LIMIT} bytes, and no page names it" for it in large]
    found += [f"{it}/: neither docs/README.md nor CONTRIBUTING.md names it" for it in folders if f"{it}/" not in guides]
    found += [f"{it}: a merge is not finished" for it in files if CONFLICT.search((ROOT / it).read_bytes())]
    sys.exit(ended(found, f"{len(found)} of {len(files)} files and {len(folders)} folders shouldn't be tracked"))
