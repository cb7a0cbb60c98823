#!/usr/bin/env python3
"""Fails where a page or a comment of the crates and exports has a word of words.toml, and prints each with its line. Code blocks, text in
backquotes, link targets, comments and the generated parts of pages are not counted, since a word may be a name there.

    tools/pages/words.py
"""
import re
import sys

from sources import ROOT, ended, table_of

TABLE = table_of(__file__)
WORDS, COMMENT = re.compile(TABLE["words"], re.IGNORECASE), re.compile(TABLE["comment"])


if __name__ == "__main__":
    pages = [it for names in TABLE["pages"] for it in sorted(ROOT.glob(names)) if not {*TABLE["others"]} & set(it.relative_to(ROOT).parts)]
    sources = sorted([*ROOT.glob("crates/*/specs/**/*.antt"), *ROOT.glob("crates/*/src/**/*.rt"), ROOT / "bindings/exports.toml"])
    texts = []
    for page in pages:
        text = page.read_text(encoding="utf-8")
        for part in TABLE["parts"]:
            text = re.sub(part, lambda found: re.sub(r"[^\n]", " ", found[0]), text)
        texts.append((page, text))
    for path in sources:
        # The comments on their lines, but for names in backquotes.
        lines = [COMMENT.match(line) for line in path.read_text(encoding="utf-8").splitlines()]
        texts.append((path, "\n".join(re.sub(r"`[^`]*`", "", line[1] or line[2] or "") if line else "" for line in lines)))
    found = [f"{path.relative_to(ROOT)}:{number}: {word[0]}" for path, text in texts
             for number, line in enumerate(text.splitlines(), 1) for word in WORDS.finditer(line)]
    sys.exit(ended(found, f"{len(found)} of the words on {len(pages)} pages and in comments"))
