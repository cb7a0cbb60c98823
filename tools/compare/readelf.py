#!/usr/bin/env python3
"""Compares the reports of elfinfo with what llvm-readelf says.

    tools/compare/readelf.py [--elfinfo PATH] FILE..

What is an error of elfinfo by design is counted as an expected error. Its own checks aren't compared. With extended numbering the fields
of the ELF header are compared as they are there, and the lists go by section 0.
"""
import re
import sys

from comparing import Tally, compare_all, llvm, parts, raw, run
from pages.sources import table_of

TABLE = table_of(__file__)
NAMES = {field: {int(number, 0): name for number, name in names.items()} for field, names in TABLE["names"].items()}
SECTIONS, SEGMENTS, WORDS = (NAMES[it] for it in ("section", "segment", "word"))
IDENT, FIELDS = TABLE["ident"], TABLE["fields"]
# The word for another number.
OTHER = {"type": "ProcessorSpecific"}


def wanted_fields(reads: dict) -> dict[str, str]:
    """The fields as elfinfo must print them."""
    found = {}
    for label, value in ((label, (reads["Ident"] if label in IDENT else reads)[name]) for label, name in {**IDENT, **FIELDS}.items()):
        number = value["RawFlags"] if label == "flags" else raw(value.split(" (")[0] if label in ("sh_count", "sh_str_index") else value)
        names = NAMES.get(label, {number: str(number)})
        found[label] = names.get(number, f"{OTHER.get(label, 'Other')}({number})")
    return found


def kind_of(number: int, names: dict[int, str], last: int, error: str) -> str:
    """How elfinfo must print a type, of those below `last`."""
    word = next((word for first, word in reversed(WORDS.items()) if number >= first), None)
    name = names.get(number) or (f"{word}({number})" if word and number < last else None)
    return f"Ok({name})" if name else f'Err("{error}")'


def wanted_section(it: dict) -> str:
    """The line of a section, which ends in its name, or in the reason why there is none."""
    kind, name = kind_of(raw(it["Type"]), SECTIONS, 1 << 32, "Invalid sh type"), it["Name"]["Value"]
    # llvm-readelf writes U+FFFD for bytes that aren't UTF-8.
    reason = "Invalid sh type" if kind[0] == "E" else "Attempt to get name of null section" if kind == "Ok(Null)" else \
        "Text is not valid UTF-8" if "\ufffd" in name else ""
    return f"{it['Index']} {kind} ! {reason}" if reason else f"{it['Index']} {kind} = {name}"


def compare(path: str, elfinfo: str, tally: Tally) -> None:
    tally["files"] += 1
    status, own, errors = run([elfinfo, path])
    reads = llvm(path, "-h", "-S", "-l")
    if status != 0 or "ElfHeader" not in reads:
        # Where elfinfo has an error, llvm-readelf has to have one, in whole or in part.
        if status == 1 and not {"Sections", "ProgramHeaders"} <= reads.keys():
            tally["expected errors"] += 1
        else:
            tally.differ(path, "file", f"status {status} ({errors.strip()})", f"{sorted(reads)}")
        return
    head, sections, segments, *_ = re.split(r"^(?:sections|program headers|hash: .*)\n", own + "\n\n", flags=re.M)
    # The fields of the ELF header that elfinfo prints, by their labels.
    says, wanted = {}, wanted_fields(reads["ElfHeader"])
    for label, value in re.findall(r"^    (.+?): +(.*)$", head, re.M):
        says[label if label not in says else f"{label} (2)"] = value.rstrip()
    for label in (it for it in wanted if says.get(it) != wanted[it]):
        tally.differ(path, label, says.get(label, "nothing"), wanted[label])
    lines = {
        "sections": (sections, [wanted_section(it) for it in parts(reads, "Sections", "Section") if it["Index"]]),
        # The front of the line of a segment, up to its type.
        "segments": (segments, [f"{index} {kind_of(raw(it['Type']), SEGMENTS, 0x80000000, 'Invalid type')} "
                                for index, it in enumerate(parts(reads, "ProgramHeaders", "ProgramHeader"))])}
    for (what, (text, wanted)), name in zip(lines.items(), ("Sections", "ProgramHeaders")):
        if name not in reads:
            print(f"{path}: {what} not compared: llvm-readelf can't read their headers")
            continue
        says = [it for it in text.split("\n") if it]
        if len(says) != len(wanted):
            tally.differ(path, what, len(says), len(wanted))
        for one, other in zip(says, wanted):
            tally[what] += 1
            tally["expected errors"] += " ! " in other or " Err(" in other
            # elfinfo takes a name by the offset of the string table alone, and llvm-readelf prints `<?>` for one beyond its size.
            is_front = what == "segments" or other.endswith("= <?>")
            if not one.startswith(other.removesuffix("<?>")) if is_front else one.rstrip(" ") != other.rstrip(" "):
                tally.differ(path, what, one, other)


if __name__ == "__main__":
    sys.exit(compare_all(__doc__, Tally("elfinfo", "files", "sections", "segments", "expected errors"), compare, "elfinfo"))
