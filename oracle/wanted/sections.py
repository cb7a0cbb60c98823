"""Sections by index, by iterator and by name."""
from wanted.files import BASES, LITTLE, NONE, U64, err, ok, record, text, told
from wanted.names import STRTAB_NAMES
from wanted.rows import Rows

SHORT = err("ShortSectionHeader")
GOOD = ok("()")


def write(rows: Rows):
    whole_file(rows)
    made(rows)
    places(rows)
    entries(rows)
    classes(rows)
    cut(rows)
    other_headers(rows)


def whole_file(rows: Rows):
    rows.case("sections::reads_the_strtab_file_in_both_orders")
    for base, encoding in (("strtab-little", 1), ("strtab-big", 2), ("strtab-little", 7)):
        rows.of(base, ("header", 0, {"encoding": encoding}))
        rows.want_all({
            "section_iter count": 2, "section_iter": "true", "section 0 get_name": err("NullName"), "section 1 get_name": text(".strtab"),
            "section 1 get_type": ok("StrTab"), "header sanity_check": GOOD, "section_header 2": SHORT,
            "section_header 65280": err("ReservedIndex"), "find_section_by_name .strtab\\0;ab": NONE,
            "find_section_by_name .strtab": ok(1, 132),
        })
        rows.want_all({f"get_shstr {index}": name for index, name in STRTAB_NAMES.items()})
    rows.case("sections::reads_each_field_of_a_section_header")
    rows.file("strtab-little")
    want_numbers(rows, "section 1", (1, 0, 0, 132, 12, 0, 0, 1, 0))
    rows.want("section 1 get_type", ok("StrTab"))


NUMBERS = ("name", "flags", "address", "offset", "size", "link", "info", "align", "entry_size")


def want_numbers(rows: Rows, place: str, numbers: tuple):
    for name, number in zip(NUMBERS, numbers):
        rows.want(f"{place} {name}", number)


def made(rows: Rows):
    # Bytes that go up from 0x60, so that the type is one of an operating system's.
    rows.case("sections::decodes_each_field_at_its_place")
    for bits, size, base, wanted in (
        (32, 40, "strtab-big", (
            0x60616263, 0x68696a6b, 0x6c6d6e6f, 0x70717273, 0x74757677, 0x78797a7b, 0x7c7d7e7f, 0x80818283, 0x84858687,
        )),
        (64, 64, "strtab-little", (
            0x63626160, 0x6f6e6d6c6b6a6968, 0x7776757473727170, 0x7f7e7d7c7b7a7978, 0x8786858483828180, 0x8b8a8988, 0x8f8e8d8c,
            0x9796959493929190, 0x9f9e9d9c9b9a9998,
        )),
    ):
        rows.file(base)
        rows.record(f"section{bits}", bytes(range(0x60, 0x60 + size)))
        want_numbers(rows, "made 0", wanted)
        rows.want("made 0 get_type", ok(f"OsSpecific({0x64656667 if bits == 32 else 0x67666564})"))
    # By type and size, the range of the data that begins at 2.
    rows.case("sections::data_lies_in_the_input")
    rows.file("debug-link-little")
    whole = BASES["debug-link-little"]
    for kind, size, result in (
        (1, U64, err("DataRange")), (8, U64, err("DataRange")), (12, U64, err("InvalidShType")), (0, U64, err("NullData")),
        (0, 0, err("NullData")), (1, 0, ok(told(b""))), (1, 2, ok(told(whole[2:4]))), (1, 394, ok(told(whole[2:396]))),
        (1, 395, ok(told(whole[2:397]))), (1, 396, err("DataRange")),
    ):
        rows.record("section64", record("section", 64, type=kind, offset=2, size=size))
        rows.want("made 0 raw_data", result)
    for kind, result in ((1, GOOD), (12, err("InvalidShType"))):
        rows.record("section64", record("section", 64, type=kind, offset=2))
        rows.want("made 0 sanity_check", result)


def places(rows: Rows):
    # One entry less than is there, as many, and one more, over inputs of each length around the end.
    rows.case("sections::headers_lie_in_the_input")
    for base, lengths in (
        ("strtab-little", ((91, SHORT), (131, SHORT), (132, ok(132)), (133, ok(132)))),
        ("debug-link-little", ((191, SHORT), (192, ok(320)), (193, ok(320)))),
    ):
        rows.file(base)
        rows.under(base)
        for length, result in lengths:
            rows.cut(length)
            rows.want("parse_section_header 1", result)
    rows.case("sections::headers_lie_at_their_index")
    rows.file("debug-link-little")
    # The bytes behind the fourth header, from 320 on, have room for a fifth, whose offset is at 344.
    offset = int.from_bytes(BASES["debug-link-little"][344:352], LITTLE)
    for index, result in ((3, ok(377)), (4, ok(offset)), (5, SHORT), (0xfeff, SHORT)):
        rows.want(f"parse_section_header {index}", result)
    for index in (0xff00, 0xff01, 0xffff):
        rows.want(f"parse_section_header {index}", err("ReservedIndex"))
    # Sums of 64 bits don't wrap.
    rows.case("sections::places_are_whole_numbers")
    rows.of("debug-link-little", ("header", 0, {"sh_offset": U64}))
    rows.want_all({
        "section_header 0": SHORT, f"section_header {0xfeff}": SHORT, "section_iter count": 0, "get_shstr 1": SHORT,
        "header sanity_check": err("ShTableRange"),
    })


def entries(rows: Rows):
    small = err("SmallEntry")
    rows.case("sections::entries_are_large_enough")
    for base, sizes in (
        ("strtab-little", ((0, small), (39, small), (40, ok(0)), (41, ok(0)))),
        ("debug-link-little", ((0, small), (63, small), (64, ok(0)), (65, ok(0)))),
    ):
        for size, result in sizes:
            rows.of(base, ("header", 0, {"sh_entry_size": size}))
            rows.want("section_header 0", result)
    rows.file("plain-32")
    rows.want("section_header 0", small)
    # Larger entries are read at their front.
    rows.case("sections::entries_may_be_larger")
    rows.of("strtab-little", ("header", 0, {"sh_offset": 12, "sh_entry_size": 80}))
    rows.want("section_header 1", SHORT)
    rows.of("strtab-little", ("header", 0, {"sh_entry_size": 44}))
    rows.want("section 1 name", 3)


def classes(rows: Rows):
    rows.case("sections::the_class_of_part_1_decides")
    rows.file("strtab-little")
    rows.class_(7)
    rows.want_all({"section_header 0": err("UnknownClass"), "section_header 2": SHORT, "header sanity_check": err("ClassMismatch")})
    rows.class_(2)
    rows.want_all({"section_header 0": err("SmallEntry"), "header sanity_check": err("ClassMismatch")})
    rows.class_(0)
    rows.want("header sanity_check", err("NoClass"))


def cut(rows: Rows):
    # How many sections are there, as bytes are cut off the end.
    rows.case("sections::counts_what_is_left_of_a_file")
    rows.file("strtab-little")
    for first, last, count in ((52, 91, 0), (92, 131, 1), (132, 144, 2)):
        rows.cut(first, last)
        rows.want("section_iter count", count)
    # What the check says then, and which name the second section has.
    rows.case("sections::reads_what_is_left_of_a_file")
    rows.cut(52, 131)
    rows.want("header sanity_check", err("ShTableRange"))
    rows.cut(132, 144)
    rows.want("header sanity_check", GOOD)
    for first, last, result in ((132, 132, err("TextStart")), (133, 140, err("TextEnd")), (141, 144, text(".strtab"))):
        rows.cut(first, last)
        rows.want("section 1 get_name", result)
    rows.case("sections::counts_what_is_left_of_a_wide_file")
    rows.file("debug-link-little")
    for length, count in ((64, 0), (127, 0), (128, 1), (192, 2), (256, 3), (319, 3), (320, 4), (397, 4)):
        rows.cut(length)
        rows.want("section_iter count", count)


def other_headers(rows: Rows):
    rows.case("sections::reads_by_the_header_that_is_there")
    rows.file("strtab-little")
    rows.under("debug-link-little")
    rows.want_all({
        "section 0 get_type": ok("Null"), "section_iter count": 1, "section_iter": "true", "section_header 1": SHORT,
        "header sanity_check": err("ShTableRange"),
    })
    rows.case("sections::reads_by_a_narrower_header")
    rows.file("debug-link-little")
    rows.under("strtab-little")
    rows.want_all({
        "section_iter count": 2, "section 0 get_name": err("InvalidShType"), "section 1 get_name": err("NullName"),
        "get_shstr 1": text("ELF\x02\x01\x01"), "header sanity_check": GOOD,
    })
