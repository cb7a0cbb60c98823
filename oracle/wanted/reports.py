"""Reports, each written out by hand."""
from wanted.files import BASES, U32, U64, File, quoted, words
from wanted.rows import Rows


def header_lines(class_: str, **numbers) -> str:
    """The lines of the ELF header of a file; what isn't given is as in the files here."""
    lines = {
        "magic": "[127, 69, 76, 70]", "class": class_, "data": "LittleEndian", "version": "Current", "os abi": "SystemV", "abi version": 0,
        "padding": "[0, 0, 0, 0, 0, 0, 0]", "type": "None", "machine": "None", "version ": 0, "entry_point": 0, "ph_offset": 0,
        "sh_offset": 0, "flags": 0, "header_size": 0, "ph_entry_size": 0, "ph_count": 0, "sh_entry_size": 0, "sh_count": 0,
        "sh_str_index": 1,
    } | {name.replace("abi_v", "abi v").replace("os_", "os "): number for name, number in numbers.items()}
    return "ELF header:\n" + "".join(f"    {name.strip() + ':':<18}{value}\n" for name, value in lines.items())


STRTAB_HEADER = header_lines("ThirtyTwo", sh_offset=52, header_size=52, sh_entry_size=40, sh_count=2)
DEBUG_LINK_HEADER = header_lines("SixtyFour", sh_offset=64, header_size=64, sh_entry_size=64, sh_count=4)
HASH_HEADER = header_lines("ThirtyTwo", sh_offset=52, header_size=52, sh_entry_size=40, sh_count=4)
SEGMENT_HEADER = header_lines("ThirtyTwo", ph_offset=52, header_size=52, ph_entry_size=32, ph_count=1, sh_str_index=0)


def report_text(header: str, check: str, sections: str, segments: str = "", table: str = "none") -> str:
    """A whole report, by its lines."""
    return f"{header}check: {check}\nsections\n{sections}\nprogram headers\n{segments}hash: {table}\n"


def report(*lines) -> str:
    return f"ok {quoted(report_text(*lines))}"


def write(rows: Rows):
    headers(rows)
    names(rows)
    segments(rows)
    hash_tables(rows)


WIDE = """ELF header:
    magic:            [127, 69, 76, 70]
    class:            SixtyFour
    data:             Other(3)
    version:          Other(2)
    os abi:           OpenBSD
    abi version:      5
    padding:          [1, 2, 3, 4, 5, 6, 255]
    type:             SharedObject
    machine:          X86_64
    version:          16909060
    entry_point:      18446744073709551615
    ph_offset:        72623859790382856
    sh_offset:        18446744073709551614
    flags:            4294967295
    header_size:      65535
    ph_entry_size:    56
    ph_count:         257
    sh_entry_size:    64
    sh_count:         258
    sh_str_index:     259
"""

BIG_ENDIAN = """ELF header:
    magic:            [127, 69, 76, 70]
    class:            ThirtyTwo
    data:             BigEndian
    version:          None
    os abi:           Other(255)
    abi version:      128
    padding:          [7, 6, 5, 4, 3, 2, 1]
    type:             ProcessorSpecific(65280)
    machine:          Sparc
    version:          1
    entry_point:      65536
    ph_offset:        4294967295
    sh_offset:        4294967294
    flags:            305419896
    header_size:      53
    ph_entry_size:    33
    ph_count:         2
    sh_entry_size:    41
    sh_count:         3
    sh_str_index:     65535
"""


def headers(rows: Rows):
    mismatch = "! header_size does not match size of header"
    rows.case("reports::reports_a_wide_header")
    file = File(64, 64).put(0, b"\x7fELF\2\3\2\x0c\5\1\2\3\4\5\6\xff")
    rows.file("plain-64", file.set(
        "header", 0, type=3, machine=0x3e, version=0x01020304, entry_point=U64, ph_offset=0x0102030405060708, sh_offset=U64 - 1, flags=U32,
        header_size=0xffff, ph_entry_size=56, ph_count=257, sh_entry_size=64, sh_count=258, sh_str_index=259,
    ))
    rows.want("report", report(WIDE, mismatch, ""))
    rows.case("reports::reports_a_big_endian_header")
    file = File(32, 52, "big").put(0, b"\x7fELF\1\2\0\xff\x80\7\6\5\4\3\2\1")
    rows.file("plain-32", file.set(
        "header", 0, type=0xff00, machine=2, version=1, entry_point=0x10000, ph_offset=U32, sh_offset=U32 - 1, flags=0x12345678,
        header_size=53, ph_entry_size=33, ph_count=2, sh_entry_size=41, sh_count=3, sh_str_index=0xffff,
    ))
    rows.want("report", report(BIG_ENDIAN, mismatch, ""))


DEBUG_LINK_SECTIONS = "1 Ok(StrTab) = .shstrtab\n2 Ok(ProgBits) = .gnu_debuglink\n3 Ok(Note) = .note.gnu.build-id\n"


def names(rows: Rows):
    rows.case("reports::reports_the_strtab_file")
    rows.file("strtab-little")
    rows.want("report", report(STRTAB_HEADER, "ok", "1 Ok(StrTab) = .strtab\n"))
    # A past name doesn't leave the section out.
    rows.case("reports::reports_names_that_are_cut")
    for length, lines in (
        (132, "1 Ok(StrTab) ! Text starts past the end of its data\n"), (133, "1 Ok(StrTab) ! Text has no terminating zero\n"),
        (140, "1 Ok(StrTab) ! Text has no terminating zero\n"), (141, "1 Ok(StrTab) = .strtab\n"),
    ):
        rows.cut(length)
        rows.want("report", report(STRTAB_HEADER, "ok", lines))
    rows.case("reports::reports_each_section")
    rows.file("debug-link-little")
    rows.want("report", report(DEBUG_LINK_HEADER, "ok", DEBUG_LINK_SECTIONS))
    # An empty name is one.
    rows.case("reports::reports_failed_names")
    rows.of("debug-link-little", ("section", 128, {"name": 0}), ("section", 192, {"type": 12}), ("section", 256, {"type": 0}))
    rows.want("report", report(DEBUG_LINK_HEADER, "ok", (
        '1 Ok(StrTab) = \n2 Err("Invalid sh type") ! Invalid sh type\n3 Ok(Null) ! Attempt to get name of null section\n'
    )))


def segments(rows: Rows):
    rows.case("segments::reads_a_segment")
    rows.file("segment")
    rows.want("report", report(SEGMENT_HEADER, "ok", "", "0 Ok(Load) ok\n"))
    rows.case("segments::says_what_is_wrong_with_a_segment")
    for numbers, line in (
        ({"file_size": 84}, "0 Ok(Load) ! entry point out of range\n"), ({"type": 5}, "0 Ok(ShLib) ! Shouldn't use ShLib\n"),
        ({"type": 8}, '0 Err("Invalid type") ! Invalid type\n'),
        ({"align": 4, "virtual_addr": 1}, "0 Ok(Load) ! Invalid combination of virtual_addr, offset, and align\n"),
        ({"align": 4, "virtual_addr": 8}, "0 Ok(Load) ok\n"),
    ):
        rows.of("segment", ("program", 52, numbers))
        rows.want("report", report(SEGMENT_HEADER, "ok", "", line))
    rows.case("segments::reports_sections_and_segments")
    own = {"sh_offset": 52, "header_size": 52, "sh_entry_size": 40, "sh_count": 2, "ph_offset": 52, "ph_entry_size": 32}
    lines = "0 Ok(Null) ok\n1 Ok(Null) ! Invalid combination of virtual_addr, offset, and align\n"
    rows.file("overlaid")
    rows.want("report", report(header_lines("ThirtyTwo", ph_count=2, **own), "ok", "1 Ok(StrTab) = .strtab\n", lines))
    # The count of segments is in section header 0.
    rows.case("wide::segments_by_either_count")
    for order, name in (("little", "LittleEndian"), ("big", "BigEndian")):
        rows.of(f"strtab-{order}", ("header", 0, {"ph_offset": 52, "ph_entry_size": 32, "ph_count": 0xffff}), ("section", 52, {"info": 2}))
        header = header_lines("ThirtyTwo", data=name, ph_count=0xffff, **own)
        rows.want("report", report(header, "ok", "1 Ok(StrTab) = .strtab\n", lines))


def hash_tables(rows: Rows):
    def want(line: str, table: str = "2 Ok(Hash) = ab\n"):
        rows.want("report", report(HASH_HEADER, "ok", f"1 Ok(StrTab) = .strtab\n{table}3 Ok(SymTab) = ab\n", "", line))

    rows.case("reports_of_hash::reports_a_hash_table")
    rows.file("hash")
    want("ok")
    # The place of a word of the hash table, and what it becomes.
    rows.case("reports_of_hash::reports_what_is_wrong_with_a_hash_table")
    for place, word, line in (
        (4, 1, "! Hash chain never ends"), (2, 2, "! Chain index is out of range"), (2, 0, "! Symbol is missing from the hash table"),
    ):
        rows.file("hash", BASES["hash"].copy().put(224 + 4 * place, words(word)))
        want(line)
    # A field of section 2, the hash table, or of section 3, its symbols, has another number.
    rows.case("reports_of_hash::reports_a_hash_table_without_symbols")
    for start, field, number, line in (
        (172, "size", 16, "! Symbol index is out of range"), (132, "size", 11, "! Data is too short"),
        (132, "size", 53, "! Data is out of range"), (132, "link", 1, "no symbols"), (132, "link", 2, "no symbols"),
        (132, "link", 0x10000, "no symbols"), (172, "size", 31, "no symbols"),
    ):
        rows.of("hash", ("section", start, {field: number}))
        want(line)
    rows.of("hash", ("section", 132, {"type": 1}))
    want("none", "2 Ok(ProgBits) = ab\n")
