"""Counts and indices of more than 16 bits, which are in section header 0."""
from wanted.files import BASES, NONE, ORDERS, U32, U64, File, err, ok, text
from wanted.names import STRTAB_NAMES, want_compared
from wanted.rows import Rows

GOOD = ok("()")
SHORT = err("ShortSectionHeader")
SECTION_RANGE = err("ShTableRange")
SEGMENT_RANGE = err("PhTableRange")
NO_HEADERS = err("NoProgramHeaders")
RESERVED = err("ReservedIndex")


class Kind:
    """`strtab` or `wide_strtab`: where section header 0 and the names begin, and the sizes of its records."""

    def __init__(self, base: str, first: int, names: int, section: int, program: int):
        self.base, self.first, self.names, self.section, self.program = base, first, names, section, program


KINDS = (Kind("strtab", 52, 132, 40, 32), Kind("wide-strtab", 64, 192, 64, 56))


def each_file():
    for order in ORDERS:
        for kind in KINDS:
            yield kind, f"{kind.base}-{order}"


def write(rows: Rows):
    section_counts(rows)
    string_indices(rows)
    program_counts(rows)
    segments_by_count(rows)
    unreadable(rows)
    missing(rows)
    indices(rows)


def want_names(rows: Rows, kind: Kind):
    """The names, each read, compared and searched for."""
    rows.want_all({f"get_shstr {index}": name for index, name in STRTAB_NAMES.items()})
    want_compared(rows)
    rows.want("find_section_by_name .strtab", ok(1, kind.names))
    rows.want("find_section_by_name .strtab\\0;ab", NONE)


def want_no_names(rows: Rows):
    rows.want("shstr_is 1 .strtab", "false 0")
    rows.want("find_section_by_name .strtab", NONE)


def section_counts(rows: Rows):
    # The count of the ELF header and the size of section header 0; how many sections there are then,
    # how many of them can be read, and what the check says.
    rows.case("wide::section_0_has_the_count_of_sections")
    for kind, base in each_file():
        for count, size, sections, read, check in (
            (0, 0, 0, 0, GOOD), (0, 1, 1, 1, GOOD), (0, 2, 2, 2, GOOD), (0, 3, 3, 2, SECTION_RANGE),
            (0, 0x10000, 0x10000, 2, SECTION_RANGE),
            (0, U32, U32, 2, SECTION_RANGE), (1, 2, 1, 1, GOOD), (2, 0, 2, 2, GOOD), (2, 3, 2, 2, GOOD), (3, 2, 3, 2, SECTION_RANGE),
        ):
            rows.of(base, ("header", 0, {"sh_count": count}), ("section", kind.first, {"size": size}))
            rows.want_all({"section_count": sections, "section_iter count": read, "header sanity_check": check})
            if read == 2:
                want_names(rows, kind)
    rows.case("wide::section_0_has_a_count_of_64_bits")
    for order in ORDERS:
        rows.of(f"wide-strtab-{order}", ("header", 0, {"sh_count": 0}), ("section", 64, {"size": U64}))
        rows.want_all({"section_count": U64, "section_iter count": 2, "header sanity_check": SECTION_RANGE})


def string_indices(rows: Rows):
    # The index of the ELF header and the link of section header 0; which index it is then, and the name at 1.
    rows.case("wide::section_0_has_the_index_of_the_names")
    for kind, base in each_file():
        for index, link, result, name in (
            (1, 0, ok(1), text(".strtab")), (0xffff, 1, ok(1), text(".strtab")),
            *((0xffff, link, ok(link), SHORT) for link in (2, 0xff05, 0xffff, 0x10000, 0x10001, U32)), (0xfeff, 1, ok(0xfeff), SHORT),
            *((index, 1, RESERVED, RESERVED) for index in (0xff00, 0xff05, 0xfffe)),
        ):
            rows.of(base, ("header", 0, {"sh_str_index": index}), ("section", kind.first, {"link": link}))
            rows.want_all({"shstr_index": result, "get_shstr 1": name})
            if name.startswith("ok"):
                want_names(rows, kind)
            else:
                want_no_names(rows)


def over_sections(base: str, first: int, program: int, count: int, info: int) -> tuple:
    """Program headers that lie over the section headers: this count in the ELF header, and this info in section header 0."""
    return base, ("header", 0, {"ph_offset": first, "ph_entry_size": program, "ph_count": count}), ("section", first, {"info": info})


def program_counts(rows: Rows):
    # How many segments there are then, how many of them can be read, and what the check says.
    rows.case("wide::section_0_has_the_count_of_segments")
    for kind, base in each_file():
        for count, info, segments, read, check in (
            (0xffff, 0, 0, 0, GOOD), (0xffff, 1, 1, 1, GOOD), (0xffff, 2, 2, 2, GOOD), (0xffff, 3, 3, 2, SEGMENT_RANGE),
            (0xffff, 0x10000, 0x10000, 2, SEGMENT_RANGE), (0xffff, U32, U32, 2, SEGMENT_RANGE), (0xfffe, 2, 0xfffe, 2, SEGMENT_RANGE),
            (0, 2, 0, 0, GOOD), (2, 3, 2, 2, GOOD),
        ):
            rows.of(*over_sections(base, kind.first, kind.program, count, info))
            rows.want_all({
                "program_count": segments, "program_iter count": read, "header sanity_check": check,
                f"program_header_at {segments}": NO_HEADERS,
            })


def segments_by_count(rows: Rows):
    # An index is compared with the wider count, and by the older call with that of the ELF header.
    # Program header 1 begins at 84: its alignment, at 112, is the size of section 1.
    short = err("ShortProgramHeader")
    rows.case("wide::segments_by_either_count")
    for order in ORDERS:
        changed = rows.of(*over_sections(f"strtab-{order}", 52, 32, 0xffff, 2))
        second = ok(int.from_bytes(changed[88:92], order), 12)
        rows.want_all({
            "program_header_at 1": second, "program_header 1": second, "program_header_at 2": NO_HEADERS, "program_header 2": short,
            "program_header 65535": NO_HEADERS,
        })
    rows.case("wide::segments_by_the_widest_count")
    for order in ORDERS:
        rows.of(*over_sections(f"strtab-{order}", 52, 32, 0xffff, U32))
        rows.want_all({f"program_header_at {index}": short for index in (2, 1 << 27, 0xfffffffe)})
        rows.want(f"program_header_at {U32}", NO_HEADERS)


def want_without_section_0(rows: Rows):
    """What a file results whose ELF header points to section header 0, which can't be read."""
    rows.want_all({
        "section_count": 0, "program_count": 0xffff, "shstr_index": RESERVED, "get_shstr 1": RESERVED, "section_iter count": 0,
    })
    want_no_names(rows)


def pointed(kind: Kind, base: str, **changes) -> File:
    """The ELF header points to section header 0, which has a count of 2 sections, index 1 and a count of 3 segments."""
    file = BASES[base].copy().set("header", 0, ph_count=0xffff, sh_count=0, sh_str_index=0xffff)
    return file.set("section", kind.first, size=2, link=1, info=3).set("header", 0, **changes)


def unreadable(rows: Rows):
    # By other places and entry sizes of the table of section headers, each of which stays in the next.
    rows.case("wide::section_0_may_be_unreadable")
    for kind, base in each_file():
        rows.file(base, pointed(kind, base))
        rows.want_all({"section_count": 2, "program_count": 3, "shstr_index": ok(1)})
        rows.class_(7)
        want_without_section_0(rows)
        last, changes = len(BASES[base]) - kind.section, {}
        for field, number, is_read in (
            ("sh_offset", last, True), ("sh_offset", last + 1, False), ("sh_offset", U32, False), ("sh_offset", 0, False),
            ("sh_offset", kind.first, True), ("sh_entry_size", kind.section - 1, False), ("sh_entry_size", 0, False),
            ("sh_entry_size", 0xffff, False),
        ):
            changes[field] = number
            changed = pointed(kind, base, **changes)
            rows.file(base, changed)
            if is_read:
                place = changes["sh_offset"] + (24 if kind.section == 40 else 40)
                rows.want("shstr_index", ok(int.from_bytes(changed[place : place + 4], changed.order)))
            else:
                want_without_section_0(rows)


def missing(rows: Rows):
    rows.case("wide::section_0_may_be_missing")
    rows.of("plain-32", ("header", 0, {"ph_count": 0xffff, "sh_str_index": 0xffff}))
    want_without_section_0(rows)
    rows.of("segment", ("header", 0, {"ph_count": 0xffff}))
    rows.want_all({"program_count": 0xffff, "program_iter count": 1, "header sanity_check": SEGMENT_RANGE})


def indices(rows: Rows):
    # The place of an entry is a whole number, which no index makes wrap.
    rows.case("wide::places_of_wide_indices_do_not_wrap")
    for kind, base in each_file():
        for size, index, result in (
            (kind.section, 0, ok(0)), (kind.section, 1, ok(kind.names)), (kind.section, 2, SHORT), (kind.section, 0xff00, SHORT),
            (40, 1 << 61, SHORT), (64, 1 << 58, SHORT), (0, U64, err("SmallEntry")), (40, U64, SHORT), (64, U64, SHORT),
            (0xffff, U64, SHORT),
        ):
            rows.of(base, ("header", 0, {"sh_entry_size": size}))
            rows.want(f"section_header_at {index}", result)
        rows.of(base, ("header", 0, {"sh_entry_size": 0xffff, "sh_offset": U64}))
        rows.want_all({f"section_header_at {index}": SHORT for index in (0, 1, U64)})
