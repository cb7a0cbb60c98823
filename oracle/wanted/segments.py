"""Segments by index and by iterator, their data and checks."""
from wanted.files import BASES, U32, U64, err, ok, record, told
from wanted.rows import Rows

SHORT = err("ShortProgramHeader")
NO_HEADERS = err("NoProgramHeaders")
SMALL = err("SmallEntry")
GOOD = ok("()")


def write(rows: Rows):
    whole(rows)
    tables(rows)
    classes(rows)
    made(rows)
    fields(rows)


def want_numbers(rows: Rows, place: str, numbers: tuple):
    names = ("offset", "virtual_addr", "physical_addr", "file_size", "mem_size", "align")
    for name, number in zip(names, numbers):
        rows.want(f"{place} {name}", number)


def whole(rows: Rows):
    rows.case("segments::reads_a_segment")
    rows.file("segment")
    rows.want("header sanity_check", GOOD)
    rows.want("segment 0 get_type", ok("Load"))
    rows.want("segment 0 flags", "5 X R")
    want_numbers(rows, "segment 0", (0, 0, 0, 83, 83, 1))
    rows.want("segment 0 sanity_check", GOOD)
    rows.want("segment 0 raw_data", ok(told(BASES["segment"][:83])))
    rows.case("segments::iterates_over_a_segment")
    rows.want("program_iter count", 1)
    rows.case("segments::data_may_end_past_a_segment_that_fails")
    changed = rows.of("segment", ("program", 52, {"file_size": 84}))
    rows.want("segment 0 raw_data", ok(told(changed)))
    rows.case("segments::says_what_is_wrong_with_a_segment")
    for numbers, kind, result in (
        ({"file_size": 84}, ok("Load"), err("EntryPointRange")), ({"type": 5}, ok("ShLib"), err("ShLibUsed")),
        ({"type": 8}, err("InvalidPhType"), err("InvalidPhType")), ({"align": 4, "virtual_addr": 1}, ok("Load"), err("BadAlign")),
        ({"align": 4, "virtual_addr": 8}, ok("Load"), GOOD),
    ):
        rows.of("segment", ("program", 52, numbers))
        rows.want("segment 0 get_type", kind)
        rows.want("segment 0 sanity_check", result)


def tables(rows: Rows):
    rows.case("segments::headers_lie_in_the_input")
    rows.of("segment", ("header", 0, {"ph_entry_size": 40}))
    rows.want("program_header 0", SHORT)
    rows.want("program_iter count", 0)
    rows.of("segment", ("header", 0, {"ph_entry_size": 31}))
    rows.want("program_header 0", SMALL)
    rows.of("segment", ("header", 0, {"ph_count": 2}))
    rows.want_all({
        "program_iter count": 1, "program_header 1": SHORT, "program_header 2": NO_HEADERS, "header sanity_check": err("PhTableRange"),
    })
    rows.case("segments::a_table_has_a_place_and_entries")
    # One byte before its place are the zero after the ELF header and three bytes of the type: the offset is 0x100 times 0.
    for numbers, result in (
        ({"ph_offset": 51}, None), ({"ph_offset": 53}, SHORT), ({"ph_offset": 0}, NO_HEADERS), ({"ph_entry_size": 0}, NO_HEADERS),
        ({"ph_count": 0}, NO_HEADERS),
    ):
        changed = rows.of("segment", ("header", 0, numbers))
        if result is None:
            offset, align = (int.from_bytes(changed[51 + place : 55 + place], "little") for place in (4, 28))
            result = ok(offset, align)
        rows.want("program_header 0", result)
    rows.file("plain-32")
    rows.want("program_header 0", NO_HEADERS)


def classes(rows: Rows):
    rows.case("segments::the_class_of_part_1_decides")
    rows.file("segment")
    rows.cut(83)
    rows.want("program_header 0", SHORT)
    rows.class_(7)
    rows.want("program_header 0", err("UnknownClass"))
    rows.want("program_header 1", NO_HEADERS)
    rows.case("segments::wide_entries_are_large_enough")
    for size, is_read in ((55, False), (56, True), (57, True)):
        changed = rows.of("debug-link-little", ("header", 0, {"ph_offset": 1, "ph_entry_size": size, "ph_count": 1}))
        offset, align = (int.from_bytes(changed[1 + place : 9 + place], "little") for place in (8, 48))
        rows.want("program_header 0", ok(offset, align) if is_read else SMALL)


def made(rows: Rows):
    # By type, offset and file size, how many bytes of the file from its start are the data.
    rows.case("segments::an_empty_segment_may_lie_anywhere")
    plain = rows.of("plain-32", ("header", 0, {"ph_entry_size": 32}))
    for kind, offset, size, result in (
        (1, U32, 0, ok(told(b""))), (1, U32, 2, err("DataRange")), (1, 0, 52, ok(told(plain))), (1, 0, 53, err("DataRange")),
        (0, 0, 53, err("NullData")), (8, 0, 53, err("InvalidPhType")),
    ):
        rows.record("segment32", record("program", 32, type=kind, offset=offset, file_size=size))
        rows.want("made 0 raw_data", result)
    rows.want("made 0 get_type", err("InvalidPhType"))
    rows.case("segments::a_segment_ends_before_the_end_of_the_input")
    for offset, size, result in ((U32, 2, err("EntryPointRange")), (0, 52, err("EntryPointRange")), (0, 51, GOOD)):
        rows.record("segment32", record("program", 32, type=1, offset=offset, file_size=size))
        rows.want("made 0 sanity_check", result)
    rows.case("segments::sums_of_64_bits_do_not_wrap")
    rows.of("debug-link-little", ("header", 0, {"ph_entry_size": 56}))
    for size, result in ((1, err("DataRange")), (0, ok(told(b"")))):
        rows.record("segment64", record("program", 64, type=1, offset=U64, file_size=size))
        rows.want("made 0 raw_data", result)
        rows.want("made 0 sanity_check", err("EntryPointRange"))
    rows.case("segments::a_segment_has_the_class_of_its_file")
    rows.record("segment32", record("program", 32))
    rows.want("made 0 sanity_check", err("PhSizeMismatch"))
    rows.case("other_headers::a_segment_whose_end_passes_64_bits_has_no_data")
    rows.file("debug-link-little")
    rows.record("segment64", record("program", 64, type=1, offset=2, file_size=U64))
    rows.want("made 0 raw_data", err("DataRange"))
    rows.want("made 0 get_data", err("DataRange"))


def fields(rows: Rows):
    rows.case("segments::decodes_each_field_at_its_place")
    rows.file("ascending-64-big")
    numbers = (
        0x0102030405060708, 0x1112131415161718, 0x2122232425262728, 0x3132333435363738, 0x4142434445464748, 0x5152535455565758,
    )
    offset, virtual, physical, file_size, mem_size, align = numbers
    rows.record("segment64", record(
        "program", 64, "big", type=0x6474e552, flags=6, offset=offset, virtual_addr=virtual, physical_addr=physical,
        file_size=file_size, mem_size=mem_size, align=align,
    ))
    rows.want("made 0 get_type", ok("GnuRelro"))
    rows.want("made 0 flags", "6  WR")
    want_numbers(rows, "made 0", numbers)
    rows.case("segments::prints_flags")
    for number, text in ((0, "   "), (1, "X  "), (2, " W "), (4, "  R"), (5, "X R"), (7, "XWR"), (8, "   ")):
        rows.record("segment64", record("program", 64, "big", flags=number))
        rows.want("made 0 flags", f"{number} {text}")
