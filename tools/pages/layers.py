#!/usr/bin/env python3
"""Draws the crates of crates.txt, and what uses what, in CONTRIBUTING.md between `<!-- layers -->` and `<!-- /layers -->`.

    tools/pages/layers.py            writes the picture
    tools/pages/layers.py --check    fails where the page has another; writes nothing

A comment of crates.txt begins a group; the crates of tests are left out.
"""
import re
import sys

from sources import ROOT, below, differing, ended, parser_of

PAGE = ROOT / "CONTRIBUTING.md"
PLACE = re.compile(r"(?<=<!-- layers -->\n).*(?=\n<!-- /layers -->)", re.S)
# A crate's line: its name, `staticlib` for an archive, and what it uses.
CRATE = re.compile(r"(\w+)( staticlib)?:(.*)")
# The folders of bindings/ that call the archive, by what their users write.
LANGUAGES = {"c": "C", "cpp": "C++", "rust": "Rust", "python": "Python", "web": "a page in the browser"}
LEFT_OUT = "Tests"
# What is said above the picture.
SAID = """The arrows from a crate lead to all that it uses. The kit's crates and those of tests are left out. `tools/pages/layers.py` draws this from `crates.txt`."""


if __name__ == "__main__":
    text = PAGE.read_text(encoding="utf-8")
    if len(PLACE.findall(text)) != 1:
        sys.exit("CONTRIBUTING.md: no room between <!-- layers --> and <!-- /layers -->")
    groups, uses, archives, group = {}, {}, [], "Crates"
    for line in (ROOT / "crates.txt").read_text(encoding="utf-8").splitlines():
        if line.startswith("#"):
            group = re.split(r"[,.:]", line.lstrip("# "))[0]
        elif (match := CRATE.match(line)) and group != LEFT_OUT:
            groups.setdefault(group, []).append(match[1])
            uses[match[1]] = match[3].split()
            archives += [match[1]] if match[2] else []
    lines = ["```mermaid", "flowchart TB"]
    for group, names in groups.items():
        if len(names) > 1:
            lines += [f"  subgraph {group}", f"    {' & '.join(names)}", "  end"]
    languages = ", ".join(said for folder, said in LANGUAGES.items() if (ROOT / "bindings" / folder).is_dir())
    lines += [f'  languages(["{languages}"]) -.-> {" & ".join(archives)}']
    used = {name: [it for it in own if it in uses and not any(it in below(uses, other) for other in own)] for name, own in uses.items()}
    lines += [f"  {name} --> {' & '.join(own)}" for name, own in used.items() if own]
    picture = "\n".join([SAID, "", *lines, "```"])
    faults = differing({PAGE: PLACE.sub(lambda _: picture, text)}, parser_of(__doc__).parse_args().check)
    sys.exit(ended(faults, f"CONTRIBUTING.md: the picture of the layers, {len(faults)} faults"))
