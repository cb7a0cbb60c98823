"""Symbols, which are in no file here: their numbers, meanings and names, and the sections that they belong to."""
from wanted.files import ORDERS, err, ok, record, text
from wanted.rows import Rows

WIDE = bytes([0, 0, 0, 9, 0x12, 2, 0, 1, 0, 0, 0, 0, 0, 0, 0, 1, 0, 0, 0, 0, 0, 0, 0, 2])
NARROW = bytes([0, 0, 0, 9, 0, 0, 0, 1, 0, 0, 0, 2, 0x12, 2, 0, 1])

FIRST = "made 0 symbol 0"

# The data of the `.symtab` of an object file, which `as --64` of GNU binutils made from a few lines of assembly.
OBJECT = bytes.fromhex("""
    000000000000000000000000000000000000000000000000
    010000000400f1ff00000000000000000000000000000000
    050000000000020000000000000000000000000000000000
    090000001200010000000000000000000100000000000000
    0f0000002000000000000000000000000000000000000000
    150000001102020008000000000000001000000000000000
    1b0000001100f2ff08000000000000000800000000000000
    220000001000000000000000000000000000000000000000
""")

# What `readelf -sW` says of it.
READELF = """
   Num:    Value          Size Type    Bind   Vis      Ndx Name
     0: 0000000000000000     0 NOTYPE  LOCAL  DEFAULT  UND
     1: 0000000000000000     0 FILE    LOCAL  DEFAULT  ABS s.c
     2: 0000000000000000     0 NOTYPE  LOCAL  DEFAULT    2 pad
     3: 0000000000000000     1 FUNC    GLOBAL DEFAULT    1 start
     4: 0000000000000000     0 NOTYPE  WEAK   DEFAULT  UND maybe
     5: 0000000000000008    16 OBJECT  GLOBAL HIDDEN     2 table
     6: 0000000000000008     8 OBJECT  GLOBAL DEFAULT  COM shared
     7: 0000000000000000     0 NOTYPE  GLOBAL DEFAULT  UND outside
"""

# The names of readelf, as the library has them.
MEANINGS = {"NOTYPE": "NoType", "FILE": "File", "FUNC": "Func", "OBJECT": "Object", "LOCAL": "Local", "GLOBAL": "Global", "WEAK": "Weak"}
INDICES = {"UND": 0, "ABS": 0xfff1, "COM": 0xfff2}


def write(rows: Rows):
    object_symbols(rows)
    numbers(rows)
    meanings(rows)
    names(rows)
    sections(rows)
    wide_indices(rows)


def object_symbols(rows: Rows):
    rows.case("object_symbols::symbols_are_those_of_readelf")
    rows.file("object-names")
    rows.record("symbols64", OBJECT)
    rows.want("made 0 get_data", ok("symbols", 8))
    for line in READELF.splitlines()[2:]:
        number, value, size, kind, binding, visibility, index, *name = line.split()
        place = f"made 0 symbol {number.rstrip(':')}"
        rows.want_all({
            f"{place} value": int(value, 16), f"{place} size": size, f"{place} get_type": ok(MEANINGS[kind]),
            f"{place} get_binding": ok(MEANINGS[binding]), f"{place} get_other": visibility.capitalize(),
            f"{place} shndx": INDICES.get(index, index), f"{place} get_name": text("".join(name)),
        })


def numbers(rows: Rows):
    rows.case("symbols::reads_symbols_in_both_orders")
    big = (9, 0x12, 1, 1, 2)
    wide, narrow = (0x09000000, 0x12, 0x100, 1 << 56, 1 << 57), (0x09000000, 0x12, 0x100, 1 << 24, 1 << 25)
    for bits, data, little in ((64, WIDE, wide), (32, NARROW, narrow)):
        for kind in ("symbols", "dynamic_symbols"):
            for order, wanted in (("big", big), ("little", little)):
                rows.file(f"strtab-{order}")
                rows.record(f"{kind}{bits}", data)
                rows.want("made 0 get_data", ok("symbols", 1))
                for name, number in zip(("name", "info", "shndx", "value", "size"), wanted):
                    rows.want(f"{FIRST} {name}", number)
                rows.want(f"{FIRST} get_other", "Hidden")
    rows.case("symbols::reads_whole_symbols")
    for order in ORDERS:
        rows.file(f"strtab-{order}")
        rows.record("symbols64", WIDE[:23])
        rows.want("made 0 get_data", err("NotMultiple"))


def meanings(rows: Rows):
    rows.file("strtab-little")
    rows.case("symbols::info_holds_the_binding_and_the_type")
    bad_binding, bad_type = err("InvalidBinding"), err("InvalidSymbolType")
    for info, binding, kind in (
        (0x00, ok("Local"), ok("NoType")), (0x12, ok("Global"), ok("Func")), (0x21, ok("Weak"), ok("Object")),
        (0x37, bad_binding, bad_type), (0x96, bad_binding, ok("Tls")), (0x29, ok("Weak"), bad_type),
        (0xad, ok("OsSpecific(10)"), ok("ProcessorSpecific(13)")), (0xfc, ok("ProcessorSpecific(15)"), ok("OsSpecific(12)")),
    ):
        rows.record("symbols32", record("symbol", 32, info=info))
        rows.want(f"{FIRST} get_binding", binding)
        rows.want(f"{FIRST} get_type", kind)
    rows.case("symbols::visibility_is_a_remainder_by_four")
    for other, visibility in (
        (0, "Default"), (1, "Internal"), (2, "Hidden"), (3, "Protected"), (4, "Default"), (6, "Hidden"), (0xff, "Protected"),
    ):
        rows.record("dynamic_symbols64", record("symbol", 64, other=other))
        rows.want(f"{FIRST} get_other", visibility)


def names(rows: Rows):
    rows.case("symbols::symbols_have_names")
    for place, name in ((0, text("")), (9, text("ab")), (12, err("TextEnd")), (13, err("TextStart"))):
        for kind, base, without, error in (
            ("symbols", "strtab-little", "dynstr-little", err("NoStrtab")),
            ("dynamic_symbols", "dynstr-little", "strtab-little", err("NoDynstr")),
        ):
            for bits in (32, 64):
                for own, result in ((base, name), (without, error)):
                    rows.file(own)
                    rows.record(f"{kind}{bits}", record("symbol", bits, name=place))
                    rows.want(f"{FIRST} get_name", result)


def want_section(rows: Rows, index: int, result: str):
    """The section of symbol 1 with this section index, by an entry of either class."""
    for kind, bits in (("symbols", 32), ("dynamic_symbols", 64)):
        size = len(record("symbol", bits))
        rows.record(f"{kind}{bits}", bytes(size) + record("symbol", bits, shndx=index))
        rows.want("made 0 symbol 1 get_section_header", result)


def sections(rows: Rows):
    rows.case("symbol_sections::symbols_belong_to_the_section_at_their_index")
    rows.file("strtab-little")
    reserved, symbol = err("ReservedIndex"), err("ReservedSymbolIndex")
    for index, result in (
        (1, ok(1, 132)), (2, err("ShortSectionHeader")), (0xfeff, err("ShortSectionHeader")), (0, symbol), (0xfff1, symbol),
        (0xfff2, symbol), (0xff00, reserved), (0xff05, reserved), (0xfff0, reserved), (0xfff3, reserved), (0xfffe, reserved),
    ):
        want_section(rows, index, result)
    want_section(rows, 0xffff, err("NoShIndex"))


def wide_indices(rows: Rows):
    rows.case("symbol_sections::wide_indices_stand_at_the_place_of_the_symbol")
    for order in ORDERS:
        rows.file(f"shndx-{order}")
        for place, result in ((0, err("ReservedSymbolIndex")), (1, ok(1, 172)), (2, err("SymbolIndex"))):
            for kind, bits in (("symbols", 32), ("dynamic_symbols", 64)):
                rows.record(f"{kind}{bits}", record("symbol", bits, order, shndx=0xffff) * 3)
                rows.want(f"made 0 symbol {place} get_section_header", result)
    rows.case("symbol_sections::wide_indices_are_not_cut")
    short = err("ShortSectionHeader")
    for word, result in (
        (1, ok(1, 172)), (2, ok(9, 195)), (0xff00, short), (0xfff1, short), (0x10000, short), (0x10001, short), (0xffffffff, short),
    ):
        rows.of("shndx-little", ("word", 199, {"word": word}))
        want_section(rows, 0xffff, result)
    # By the type and the size of the section of wide indices; the type is asked before the data is read.
    rows.case("symbol_sections::wide_indices_fail")
    expected = err("ExpectedShIndex")
    for kind, size, result in (
        (18, 8, ok(1, 172)), (18, 7, err("NotMultiple")), (18, 4, err("SymbolIndex")), (18, 9, err("DataRange")), (1, 8, expected),
        (1, 9, expected), (8, 8, expected), (0, 8, err("NoShIndex")),
    ):
        rows.of("shndx-little", ("section", 132, {"type": kind, "size": size}))
        want_section(rows, 0xffff, result)
