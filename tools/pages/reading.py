#!/usr/bin/env python3
"""Writes the definitions of docs/READING.md: those that must be believed for a claim, each after those that it uses.

    tools/pages/reading.py            writes the definitions and the bytes into the page
    tools/pages/reading.py --check    fails where they aren't what the sources give; writes nothing

Both fail where the contract of a call leads to more definitions than in reading.toml, and where none leads to a definition of specs/.
`<!-- read CRATE::MODULE CALL .. -->` takes each definition that the clauses of these calls lead to, and links to those above;
`<!-- bytes FILE FIRST COUNT -->` bytes of a file, up to `<!-- end -->`.
"""
import pathlib
import re
import sys

sys.path.insert(0, str(pathlib.Path(__file__).resolve().parents[1]))
from pages.definitions import Reader
from pages.sources import ROOT, anchor, differing, ended, parser_of, table_of

PAGE = ROOT / "docs" / "READING.md"

BOUNDS = table_of(__file__)
ROOM = re.compile(r"(<!-- (read|bytes) ([^>]*) -->\n).*?(<!-- end -->)", re.S)


def place(path, line: int) -> str:
    return f"../{path.relative_to(ROOT)}#L{line}"


class Lists:
    """The definitions of a page, in order: each is in the first room that needs it, and has a number."""

    def __init__(self):
        self.reader, self.above = Reader(), {}

    def read(self, named: str) -> str:
        """The list of some calls, each named by `CRATE::MODULE CALL`."""
        words = named.split()
        contracts = {call: self.reader.named(whole, call) for whole, call in zip(words[::2], words[1::2])}
        found = self.reader.reached([*contracts.values()])
        of = " and ".join(f"[`{call}`]({place(path, line)})" for call, (_, _, path, line) in contracts.items())
        above = [one for one in found if (one.path, one.line) in self.above]
        lines = [f"By {of}: {self.sizes(found)}.", ""]
        if above:
            links = ", ".join(f"[`{one.name}`](#{self.above[one.path, one.line]}-{anchor(one.name)})" for one in above)
            lines += [f"<details><summary>{self.sizes(above)}, which an earlier claim has too</summary>", "", links, "", "</details>", ""]
        for one in (it for it in found if it not in above):
            number = self.above[one.path, one.line] = len(self.above) + 1
            source = f"[{one.path.relative_to(ROOT)}]({place(one.path, one.line)})"
            lines += [f"##### {number} `{one.name}`", "", f"{' '.join(one.about.split())} ({source})".strip(), "", "```text", one.text, "```", ""]
        return "\n".join([*lines, f"Words of std: {', '.join(f'`{it}`' for it in self.reader.std)}.", ""])

    @staticmethod
    def sizes(found: list) -> str:
        counts = (len(found), "definition"), (sum(one.size for one in found), "line"), (len({one.path for one in found}), "file")
        return "{}, {} in {}".format(*(f"{count} {one}{'' if count == 1 else 's'}" for count, one in counts))


def bytes_of(named: str) -> str:
    """Some bytes of a file in hexadecimal, sixteen in a line, each line behind the offset of its first."""
    path, first, count = named.split()
    data = (ROOT / path).read_bytes()[int(first, 0) : int(first, 0) + int(count, 0)]
    halves = [(at, data[at : at + 8].hex(" "), data[at + 8 : at + 16].hex(" ")) for at in range(0, len(data), 16)]
    rows = [f"{int(first, 0) + at:04x}  {one}  {other}".rstrip() for at, one, other in halves]
    return "\n".join(["```text", *rows, "```", ""])


def closures() -> int:
    """Prints the definitions and the lines of each call beside its bounds, and each definition of the libraries to which no contract
    leads, but for the names of types that other crates import; how many are above their bounds or led to by none."""
    reader, above = Reader(), 0
    for one in (it for it in reader.unreached() if it.path.name != "Types.antt"):
        above += 1
        print(f"{one.path.relative_to(ROOT)}:{one.line}: no contract leads to {one.name}: move it to proofs/, or delete it")
    for named, (most, most_lines) in BOUNDS.items():
        whole, call = named.split()
        found = reader.reached([reader.named(whole, call)])
        fits = len(found) <= most and sum(one.size for one in found) <= most_lines
        above += not fits
        print(f"{whole} {call}: {Lists.sizes(found)}, of at most {most} and {most_lines}{'' if fits else ': TOO MANY'}")
    return above


if __name__ == "__main__":
    given, lists, text = parser_of(__doc__).parse_args(), Lists(), PAGE.read_text(encoding="utf-8")
    wanted = ROOM.sub(lambda room: room[1] + (lists.read(room[3]) if room[2] == "read" else bytes_of(room[3])) + room[4], text)
    faults = differing({PAGE: wanted}, given.check)
    status = ended(faults, f"docs/READING.md: {len(ROOM.findall(text))} rooms, {len(lists.above)} definitions, {len(faults)} faults")
    sys.exit(1 if closures() else status)
