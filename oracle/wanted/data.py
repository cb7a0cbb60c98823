"""The data of sections and segments, by their types: of files of ascending bytes, from 64 on."""
from wanted.files import U64, err, ok, record, text, told
from wanted.rows import Rows

START = 64

RANGE = err("DataRange")
NO_CLASS = err("UnknownClass")
CUT = err("NotMultiple")
SHORT = err("ShortData")

# Types whose records differ by class: what 48 bytes are in class 32 and in class 64.
BY_CLASS = (
    (2, "SymbolTable32", 3, "SymbolTable64", 2), (11, "DynSymbolTable32", 3, "DynSymbolTable64", 2), (14, "FnArray32", 12, "FnArray64", 6),
    (15, "FnArray32", 12, "FnArray64", 6), (16, "FnArray32", 12, "FnArray64", 6), (4, "Rela32", 4, "Rela64", 2),
    (9, "Rel32", 6, "Rel64", 3), (6, "Dynamic32", 6, "Dynamic64", 3),
)

# Types whose data is the same in every class: what 48 bytes are.
ALIKE = (
    (0, "Empty"), (8, "Empty"), *((kind, "Undefined") for kind in (
        1, 10, 0x60000000, 0x6fffffff, 0x70000000, 0x7fffffff, 0x80000000, 0xffffffff,
    )), (3, "StrArray"), (17, "Group"), (18, "SymTabShIndex"), (5, "HashTable"),
)


def write(rows: Rows):
    by_types(rows)
    cut_tables(rows)
    other_sizes(rows)
    past_the_input(rows)
    by_link(rows)
    of_segments(rows)


def alike(shape: str, order: str, size: int) -> str:
    """What so many of the bytes are as data of this shape."""
    data = bytes(range(size))
    if shape == "Empty" or shape == "HashTable":
        return ok(shape)
    if shape == "Group":
        return ok(shape, int.from_bytes(data[:4], order), size // 4 - 1)
    return ok(shape, size // 4 if shape == "SymTabShIndex" else told(data))


def section(rows: Rows, kind: int, size: int, offset: int = START, order: str = "little"):
    rows.record("section64", record("section", 64, order, type=kind, offset=offset, size=size))


def by_types(rows: Rows):
    rows.case("data::reads_the_data_of_each_type_in_each_class")
    # The third file has a data byte that is neither 1 nor 2, and is read as little-endian.
    for order, data_byte in (("little", 1), ("big", 2), ("little", 7)):
        for bits, number in ((32, None), (64, None), (64, 7)):
            rows.of(f"ascending-{bits}-{order}", ("header", 0, {"encoding": data_byte}))
            if number is not None:
                rows.class_(number)
            for kind, narrow, narrow_count, wide, wide_count in BY_CLASS:
                section(rows, kind, 48, order=order)
                known = ok(narrow, narrow_count) if bits == 32 else ok(wide, wide_count)
                rows.want("made 0 get_data", NO_CLASS if number else known)
            for kind, shape in ALIKE:
                section(rows, kind, 48, order=order)
                rows.want("made 0 get_data", alike(shape, order, 48))
            section(rows, 7, 48, order=order)
            note = err("Note32") if bits == 32 else ok("Note64", told(bytes(range(12, 48))))
            rows.want("made 0 get_data", NO_CLASS if number else note)
    # The first function of an array.
    rows.case("data::reads_numbers_in_the_order_of_the_file")
    for bits, order, number in (
        (32, "little", 0x03020100), (32, "big", 0x00010203), (64, "little", 0x0706050403020100), (64, "big", 0x0001020304050607),
    ):
        rows.file(f"ascending-{bits}-{order}")
        section(rows, 14, 8, order=order)
        rows.want("made 0 word 0", number)


def cut_tables(rows: Rows):
    rows.case("data::rejects_tables_that_are_cut")
    for bits, number in ((32, None), (64, None), (64, 0)):
        rows.file(f"ascending-{bits}-little")
        if number is not None:
            rows.class_(number)
        for kind, narrow, _, wide, _ in BY_CLASS:
            for size in (1, 47, 49):
                section(rows, kind, size)
                rows.want("made 0 get_data", CUT if number is None else NO_CLASS)
            section(rows, kind, 0 if number is None else 61)
            rows.want("made 0 get_data", ok(narrow if bits == 32 else wide, 0) if number is None else RANGE)
    # Types whose records have one size, by the size of the section, in a file of an unknown class.
    rows.case("data::rejects_groups_and_indices_that_are_cut")
    for number in (0, 3):
        rows.file("ascending-64-little")
        rows.class_(number)
        for kind, size, result in (
            (18, 0, ok("SymTabShIndex", 0)), (18, 47, CUT), (18, 60, ok("SymTabShIndex", 15)), (18, 61, RANGE), (17, 0, SHORT),
            (17, 1, SHORT), (17, 3, SHORT), (17, 4, ok("Group", 0x03020100, 0)), (17, 5, CUT), (17, 8, ok("Group", 0x03020100, 1)),
        ):
            section(rows, kind, size)
            rows.want("made 0 get_data", result)


def other_sizes(rows: Rows):
    rows.case("data::rejects_notes_and_hash_tables_that_are_short")
    for bits, number, note in ((32, None, err("Note32")), (64, None, SHORT), (64, 3, NO_CLASS)):
        rows.file(f"ascending-{bits}-little")
        if number is not None:
            rows.class_(number)
            for size, result in ((0, SHORT), (11, SHORT), (12, ok("HashTable"))):
                section(rows, 5, size)
                rows.want("made 0 get_data", result)
        for size in (0, 11):
            section(rows, 7, size)
            rows.want("made 0 get_data", note)
    rows.file("ascending-64-little")
    section(rows, 7, 12)
    rows.want("made 0 get_data", ok("Note64", told(b"")))
    rows.file("ascending-32-little")
    section(rows, 7, 61)
    rows.want("made 0 get_data", RANGE)


def past_the_input(rows: Rows):
    rows.file("ascending-64-little")
    rows.case("data::rejects_data_past_the_input")
    for kind, shape in ALIKE:
        for size in (U64,) if shape == "Empty" else (61, U64):
            section(rows, kind, size)
            rows.want("made 0 get_data", ok("Empty") if shape == "Empty" else RANGE)
    rows.case("data::rejects_unknown_types")
    for kind in (12, 13, 19, 0x5fffffff):
        section(rows, kind, U64)
        rows.want("made 0 get_data", err("InvalidShType"))


def by_link(rows: Rows):
    # The link to debug information, read as a section of this type and size.
    rows.case("data::reads_the_link_to_debug_information_by_its_type")
    for kind, size, result in (
        (17, 11, CUT), (17, 3, SHORT), (2, 12, CUT), (12, 12, err("InvalidShType")), (8, U64, ok("Empty")), (0, U64, ok("Empty")),
    ):
        rows.of("debug-link-little", ("section", 192, {"type": kind, "size": size}))
        rows.want("section 2 get_data", result)
    rows.case("data::reads_the_link_to_debug_information_as_a_group")
    rows.of("debug-link-little", ("section", 192, {"type": 17}))
    rows.want_all({
        "section 2 get_data": ok("Group", 0x65642e61, 2), "section 2 word 0": 0x00677562, "section 2 word 1": 0x12345678,
    })
    rows.case("data::reads_a_note_with_its_name_and_description")
    rows.file("debug-link-little")
    rows.want_all({
        "section 3 note type_": 3, "section 3 note name": text("GNU"), "section 3 note desc": ok(told(b"\xde\xad\xbe\xef")),
    })
    rows.case("data::reads_the_data_of_a_string_table")
    rows.file("strtab-big")
    rows.want("section 1 get_data", ok("StrArray", told(b"\0.strtab\0ab\0")))
    rows.case("data::an_ordinary_string_table_gives_no_text")
    rows.file("strtab-little")
    rows.want("section 1 string 0", "none")


def segment(rows: Rows, kind: int, size: int, order: str = "little"):
    rows.record("segment32", record("program", 32, order, type=kind, offset=START, file_size=size))


def of_segments(rows: Rows):
    rows.case("data::reads_the_data_of_segments_as_bytes")
    for kind in (1, 3, 5, 6, 7, 0x6474e552, 0x60000000, 0x70000000):
        for bits, order, number, size in ((32, "little", None, 47), (64, "big", 9, 60), (64, "big", None, 61)):
            rows.file(f"ascending-{bits}-{order}")
            if number is not None:
                rows.class_(number)
            segment(rows, kind, size, order)
            rows.want("made 0 get_data", RANGE if size == 61 else ok("Undefined", told(bytes(range(size)))))
    rows.case("data::reads_the_data_of_segments")
    narrow = ((2, 48, ok("Dynamic32", 6)), (2, 47, CUT), (4, 11, err("Note32")), (4, 61, RANGE))
    wide = (
        (0, 61, ok("Empty")), (8, 61, err("InvalidPhType")), (2, 48, ok("Dynamic64", 3)), (2, 56, CUT), (4, 11, SHORT),
        (4, 12, ok("Note64", told(b""))), (4, 48, ok("Note64", told(bytes(range(12, 48))))),
    )
    unknown = ((2, 47, NO_CLASS), (2, 61, RANGE), (4, 11, NO_CLASS))
    for bits, order, number, results in ((32, "little", None, narrow), (64, "big", None, wide), (64, "big", 9, unknown)):
        rows.file(f"ascending-{bits}-{order}")
        if number is not None:
            rows.class_(number)
        for kind, size, result in results:
            segment(rows, kind, size, order)
            rows.want("made 0 get_data", result)
