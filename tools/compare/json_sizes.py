#!/usr/bin/env python3
"""Compare the JSON of elfsize with its text: each line is an object for Python's json and for jq, with the facts of a line of text.

    tools/compare/json_sizes.py [--elfsize PATH] FILE..
"""
import sys

from comparing import ROOT, Tally, compare_all
from json_lines import compare_lines, name_text

# What a file is compared with by --diff.
OTHER = str(ROOT / "crates/elfaddr/data/places.so")


def part_of(row: dict) -> str:
    """A kind of parts, with the index and the name of one, which is in hexadecimal digits where it isn't UTF-8."""
    index, name = (f" {row['index']}" if row["index"] is not None else ""), ("" if row.get("name", "") is None else f" {name_text(row, 'name')}")
    return row["kind"] + index + name


def sizes_text(rows: list) -> str:
    """What elfsize prints as text, by its lines as JSON: those of a file, of all files and of all parts of a kind have one above them."""
    text, before = "", {"kind": "sum", "total": False}
    for row in rows:
        if "difference" in row:
            text += "all parts\n" if row["total"] and not before["total"] else ""
            text += f"{row['difference']:+} -> {row['size']} {row['state'] + ' ' if row['state'] else ''}{part_of(row)}\n"
        else:
            if before["kind"] == "sum" or before["file"] != row["file"]:
                text += "all files\n" if row["file"] is None else f"{row['file']}\n"
            share = "" if row["share"] is None else f" {row['share'] // 100}.{row['share'] % 100:02}%"
            text += f"{row['size']}{share} {part_of(row)}\n"
        before = row
    return text


def compare(path: str, elfsize: str, tally: Tally) -> None:
    tally["files"] += 1
    for words in ([path], ["--segments", path], ["--symbols", path, OTHER], ["--diff", path, OTHER], ["--diff", "--symbols", OTHER, path]):
        compare_lines(tally, path, elfsize, *words, text_of=sizes_text)


if __name__ == "__main__":
    sys.exit(compare_all(__doc__, Tally("elfsize", "files", "lines"), compare, "elfsize"))
