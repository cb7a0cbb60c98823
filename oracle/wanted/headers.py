"""Which inputs are accepted, what their headers hold, and the check of the ELF header."""
from wanted.files import BASES, ORDERS, U64, err, ok, plain_header
from wanted.rows import Rows


def write(rows: Rows):
    accepted(rows)
    numbers(rows)
    checks(rows)


def header_of(rows: Rows, number: int, size: int):
    """The first bytes of a plain header of this class, or zeros for class None."""
    file = plain_header(number or 0, 64)
    if number is None:
        file.put(0, bytes(8))
    rows.file("plain-64", file)
    rows.cut(size)


def accepted(rows: Rows):
    rows.case("headers::accepts_two_classes")
    for number, size, result in [(0, 16, err("InvalidClass")), (1, 52, "ok"), (2, 64, "ok"), (42, 16, err("InvalidClass"))]:
        header_of(rows, number, size)
        rows.want("file new", result)
        rows.want("parse_header", ok("()") if result == "ok" else result)
    rows.case("headers::rejects_by_the_first_condition")
    for number, size, result in [
        (1, 0, err("ShortPart1")), (1, 3, err("ShortPart1")), (1, 15, err("ShortPart1")), (1, 16, err("ShortHeaders")),
        (1, 51, err("ShortHeaders")), (1, 52, "ok"), (1, 53, "ok"), (2, 15, err("ShortPart1")), (2, 16, err("ShortHeaders")),
        (2, 63, err("ShortHeaders")), (2, 64, "ok"), (None, 15, err("ShortPart1")), (None, 16, err("NoMagic")),
        (None, 64, err("NoMagic")), (7, 16, err("InvalidClass")), (7, 64, err("InvalidClass")),
    ]:
        header_of(rows, number, size)
        rows.want("file new", result)
    rows.case("headers::each_byte_of_the_magic_counts")
    for k in range(4):
        file = BASES["plain-64"].copy()
        file[k] ^= 1
        rows.file("plain-64", file)
        rows.want("file new", err("NoMagic"))


NUMBERS = (
    "size", "type_", "machine", "pt2_version", "entry_point", "ph_offset", "sh_offset", "header_size", "ph_entry_size", "ph_count",
    "sh_entry_size", "sh_count", "sh_str_index",
)


def numbers(rows: Rows):
    rows.case("headers::reads_both_widths_and_orders")
    narrow = (36, "None", "None", 0, 0, 0, 52, 52, 0, 0, 40, 2, 1)
    wide = (48, "None", "None", 0, 0, 0, 64, 64, 0, 0, 64, 4, 1)
    for base, wanted in [*((f"strtab-{order}", narrow) for order in ORDERS), ("debug-link-little", wide)]:
        rows.file(base)
        for name, number in zip(NUMBERS, wanted):
            rows.want(f"header {name}", number)


def checks(rows: Rows):
    rows.case("checks::checks_the_sizes")
    good, sections, segments = ok("()"), err("ShTableRange"), err("PhTableRange")
    for field, number, result in [
        ("header_size", 63, err("HeaderSize")), ("header_size", 64, good), ("header_size", 65, err("HeaderSize")),
        ("sh_offset", 140, good), ("sh_offset", 141, good), ("sh_offset", 142, sections), ("sh_count", 5, good),
        ("sh_count", 6, sections), ("ph_offset", 397, good), ("ph_offset", 398, segments), ("ph_offset", U64, segments),
        ("sh_offset", U64, sections),
    ]:
        rows.of("debug-link-little", ("header", 0, {field: number}))
        rows.want("header sanity_check", result)
    rows.of("debug-link-little", ("header", 0, {"ph_offset": U64, "ph_entry_size": 56, "ph_count": 1}))
    rows.want("header sanity_check", segments)
    rows.want("program_header 0", err("ShortProgramHeader"))
    rows.case("checks::checks_places_last")
    for ph_offset, sh_offset, result in [(145, 65, segments), (144, 65, sections), (144, 64, good)]:
        rows.of("strtab-little", ("header", 0, {"ph_offset": ph_offset, "sh_offset": sh_offset}))
        rows.want("header sanity_check", result)
    rows.file("plain-64")
    rows.want("header sanity_check", err("HeaderSize"))
