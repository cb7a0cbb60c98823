"""Names of sections, compared and read, and the texts of `.strtab` and `.dynstr`."""
from wanted.files import BASES, NONE, ORDERS, U32, err, ok, quoted, text, told
from wanted.rows import Rows

# What is at places of the name table of `strtab` and `wide_strtab`.
STRTAB_NAMES = {0: text(""), 1: text(".strtab"), 9: text("ab"), 12: err("TextEnd"), 13: err("TextStart")}

# Names at places of that table, and how they compare: whether they are equal, and how many bytes were compared.
STRTAB_COMPARED = [
    (1, ".strtab", True, 8), (1, ".strtax", False, 7), (1, ".str", False, 5), (9, "abc", False, 3), (9, "ab", True, 3), (0, "", True, 1),
    (12, "", False, 0), (13, "ab", False, 0), (1, ".strtab\0ab", False, 0), (U32, "", False, 0),
]


def compared(index: int, name: str, is_equal: bool, count: int) -> tuple:
    return f"shstr_is {index} {quoted(name)}", f"{str(is_equal).lower()} {count}"


def want_compared(rows: Rows):
    for row in STRTAB_COMPARED:
        rows.want(*compared(*row))


def write(rows: Rows):
    in_place(rows)
    names(rows)
    texts(rows)
    texts_by_section(rows)


def in_place(rows: Rows):
    rows.case("compared::names_are_compared_in_place")
    for order in ORDERS:
        for base, size in ((f"strtab-{order}", 143), (f"wide-strtab-{order}", 203)):
            rows.file(base)
            want_compared(rows)
            rows.cut(size)
            rows.want(*compared(9, "ab", False, 2))
    rows.case("compared::names_are_compared_where_they_stand")
    rows.file("strtab-little", BASES["strtab-little"].copy().put(133, b"\xff"))
    rows.want(*compared(1, ".strtab", False, 1))
    rows.of("strtab-little", ("section", 92, {"size": 0}))
    want_compared(rows)
    for offset in (144, 145):
        rows.of("strtab-little", ("section", 92, {"size": 0, "offset": offset}))
        rows.want(*compared(0, "", False, 0))
    rows.case("compared::no_name_is_compared_without_its_section")
    for index in (2, 0xfeff, 0xff00, 0xff05, 0xfffe):
        rows.of("strtab-little", ("header", 0, {"sh_str_index": index}))
        rows.want(*compared(0, "", False, 0))
        rows.want("find_section_by_name .strtab", NONE)
    # Only a section of a valid type that is not Null has its name.
    rows.case("compared::a_section_is_found_by_its_type_too")
    for kind, is_found in ((0, False), (1, True), (12, False), (13, False), (14, True)):
        rows.of("strtab-little", ("section", 92, {"type": kind}))
        rows.want("find_section_by_name .strtab", ok(1, 132) if is_found else NONE)


def names(rows: Rows):
    # The name table runs to the end of the input, whatever the section says of its size and type.
    rows.case("names::names_run_past_their_section")
    for base, encoding in (("strtab-little", 1), ("strtab-big", 2), ("strtab-little", 7)):
        for numbers in ({"size": 11}, {"size": 0, "type": 1}):
            rows.of(base, ("header", 0, {"encoding": encoding}), ("section", 92, numbers))
            rows.want("get_shstr 9", text("ab"))
    rows.case("names::names_fail")
    rows.file("strtab-little", BASES["strtab-little"].copy().put(133, b"\xff"))
    rows.want("get_shstr 1", err("TextUtf8"))
    rows.file("strtab-little", BASES["strtab-little"].copy().put(143, b"A"))
    rows.want("get_shstr 9", err("TextEnd"))
    rows.case("names::names_lie_at_an_offset")
    for offset, result in ((143, text("")), (144, err("TextEnd")), (145, err("ShortSectionOffset")), (U32, err("ShortSectionOffset"))):
        rows.of("strtab-little", ("section", 92, {"offset": offset}))
        rows.want("get_shstr 0", result)
    rows.case("names::names_lie_in_a_section")
    whole = text("\x7fELF\x01\x01\x01")
    for index, result in (
        (0, whole), (1, text("")), (2, err("ShortSectionHeader")), (0xff00, err("ReservedIndex")), (0xfffe, err("ReservedIndex")),
        # the link of section header 0, which is 0
        (0xffff, whole),
    ):
        rows.of("strtab-little", ("header", 0, {"sh_str_index": index}))
        rows.want("get_shstr 0", result)
    # The data of a section may be the whole file, and names are then read from its start.
    rows.case("names::data_may_be_the_whole_file")
    file = rows.of("strtab-little", ("section", 92, {"offset": 0, "size": 144}))
    rows.want("section 1 raw_data", ok(told(file)))
    rows.want("section 1 get_name", text("ELF\x01\x01\x01"))
    rows.want("find_section_by_name .strtab", NONE)


# The texts of `.strtab` in `strtab` and `wide_strtab`.
TEXTS = {
    0: text(""), 1: text(".strtab"), 2: text("strtab"), 9: text("ab"), 11: text(""), 12: err("TextEnd"), 13: err("TextStart"),
    U32: err("TextStart"),
}


def texts(rows: Rows):
    rows.case("string_tables::texts_stand_at_their_index")
    bases = (("strtab-little", 1), ("strtab-big", 2), ("strtab-little", 7), ("wide-strtab-little", 1), ("wide-strtab-big", 2))
    for base, encoding in bases:
        rows.of(base, ("header", 0, {"encoding": encoding}))
        for index, result in TEXTS.items():
            rows.want(f"get_string {index}", result)
            rows.want(f"get_dyn_string {index}", err("NoDynstr"))
    # A text ends in its section, though the names of sections go on behind it.
    rows.case("string_tables::texts_end_in_their_section")
    sizes = ((12, text("ab")), (11, err("TextEnd")), (9, err("TextEnd")), (8, err("TextStart")), (13, err("DataRange")))
    for size, result in sizes:
        for order in ORDERS:
            rows.of(f"strtab-{order}", ("section", 92, {"size": size}))
            rows.want("get_string 9", result)
            rows.want("get_shstr 9", text("ab"))
            rows.of(f"dynstr-{order}", ("section", 92, {"size": size}))
            rows.want("get_dyn_string 9", result)


def texts_by_section(rows: Rows):
    # `.strtab` is of type StrTab; what has no valid type, or type Null, has no name.
    rows.case("string_tables::the_type_of_strtab_is_asked")
    for kind, size, result in (
        (3, 12, text("ab")), (1, 12, err("StrtabType")), (1, 13, err("StrtabType")), (8, 12, err("StrtabType")),
        (0, 12, err("NoStrtab")), (12, 12, err("NoStrtab")),
    ):
        rows.of("strtab-little", ("section", 92, {"type": kind, "size": size}))
        rows.want("get_string 9", result)
    # `.dynstr` may be of any type.
    rows.case("string_tables::the_type_of_dynstr_is_not_asked")
    for kind, result in ((3, text("ab")), (1, text("ab")), (8, text("ab")), (0, err("NoDynstr")), (12, err("NoDynstr"))):
        rows.of("dynstr-little", ("section", 92, {"type": kind}))
        rows.want("get_dyn_string 9", result)
        rows.want("get_string 9", err("NoStrtab"))
    rows.case("string_tables::texts_of_files_that_are_cut")
    rows.file("strtab-little")
    for first, last, result in ((52, 140, err("NoStrtab")), (141, 143, err("DataRange")), (144, 144, text("ab"))):
        rows.cut(first, last)
        rows.want("get_string 9", result)
    rows.case("string_tables::texts_of_damaged_files")
    for place, byte, error in ((133, b"\xff", "NoStrtab"), (141, b"\xff", "TextUtf8"), (143, b"A", "TextEnd")):
        rows.file("strtab-little", BASES["strtab-little"].copy().put(place, byte))
        rows.want("get_string 9", err(error))
