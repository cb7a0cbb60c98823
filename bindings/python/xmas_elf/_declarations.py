"""The records, exports and statuses of the archive. Written by tools/exports/declarations.py."""
from __future__ import annotations

from ctypes import c_size_t, c_uint16, c_uint32, c_uint64, c_uint8, c_void_p
from enum import IntEnum
from struct import Struct
from typing import TYPE_CHECKING, Any, Dict, NamedTuple, Optional, Tuple

from .constants import DT, ELFOSABI, EM, ET, PF, PT, SHF, SHT

if TYPE_CHECKING:
    from ._file import ElfFile


def _document(record: Any, **fields: str) -> None:
    """Gives the fields the texts that `help` shows."""
    for name, text in fields.items():
        getattr(record, name).__doc__ = text



class HeaderRecord(NamedTuple):
    """The ELF header of a file (gABI, "ELF Header")."""

    entry_point: int
    ph_offset: int
    sh_offset: int
    version: int
    flags: int
    type: ET
    machine: EM
    header_size: int
    ph_entry_size: int
    ph_count: int
    sh_entry_size: int
    sh_count: int
    sh_str_index: int
    file_class: int
    encoding: int
    header_version: int
    os_abi: ELFOSABI
    abi_version: int


_document(
    HeaderRecord,
    entry_point="The address at which a program begins to run, or 0 (e_entry).",
    ph_offset="The offset of the program header table in the file, in bytes, or 0 (e_phoff).",
    sh_offset="The offset of the section header table in the file, in bytes, or 0 (e_shoff).",
    version="The version of the file (e_version).",
    flags="Flags of the processor (e_flags).",
    type="The kind of file (e_type).",
    machine="The processor that the file is for (e_machine).",
    header_size="The size of the ELF header in bytes, as the file says (e_ehsize).",
    ph_entry_size="The size of an entry of the program header table in bytes (e_phentsize).",
    ph_count="The number of program headers, or 0xffff where it needs more than 16 bits (e_phnum).",
    sh_entry_size="The size of an entry of the section header table in bytes (e_shentsize).",
    sh_count="The number of section headers, or 0 where it needs more than 16 bits (e_shnum).",
    sh_str_index=
        "The index of the section with the names of sections, or 0xffff where it needs more than 16 bits "
        "(e_shstrndx).",
    file_class="1: class 32, 2: class 64 (EI_CLASS).",
    encoding="2: big-endian; any other number is read as little-endian (EI_DATA).",
    header_version="The version of the header (EI_VERSION).",
    os_abi="The operating system whose extensions the file uses (EI_OSABI).",
    abi_version="The version of these extensions (EI_ABIVERSION).",
)


HEADER = Struct("@QQQIIHHHHHHHHBBBBB7x0Q")


class CountsRecord(NamedTuple):
    """The numbers of sections and segments, also those that need more than 16 bits."""

    sections: int
    segments: int


_document(
    CountsRecord,
    sections="The number of sections.",
    segments="The number of segments.",
)


COUNTS = Struct("@QI0Q")


class RangeRecord(NamedTuple):
    """A byte range of the input: `input[offset .. offset + size]`. A range that a call returns lies in the input."""

    offset: int
    size: int


_document(
    RangeRecord,
    offset="The offset of the first byte, in bytes from the start of the input.",
    size="The number of bytes.",
)


RANGE = Struct("@QQ0Q")


class NameRecord(NamedTuple):
    """The range of one name of many."""

    range_offset: int
    range_size: int
    status: int


_document(
    NameRecord,
    range_offset=
        "The bytes of the name without the zero byte that ends it; offset and size are 0 if the name can't be"
        " read. The offset of the first byte, in bytes from the start of the input.",
    range_size=
        "The bytes of the name without the zero byte that ends it; offset and size are 0 if the name can't be"
        " read. The number of bytes.",
    status="The status of this name.",
)


NAME = Struct("@QQI0Q")


class SectionRecord(NamedTuple):
    """A section header (gABI, "Sections")."""

    file: ElfFile
    index: int  # type: ignore[assignment]
    name: Optional[str]
    name_status: int
    flags: SHF
    address: int
    offset: int
    size: int
    align: int
    entry_size: int
    name_index: int
    type: SHT
    link: int
    info: int


_document(
    SectionRecord,
    file="The file.",
    index="The index of the section.",
    name="The name, or None if it can't be read.",
    name_status="The status of the name.",
    flags="The flags of the section (sh_flags).",
    address="The address of the section in memory, or 0 (sh_addr).",
    offset="The offset of the section's data in the file, in bytes (sh_offset).",
    size="The size of the section in bytes (sh_size).",
    align="The alignment of the section's address, in bytes (sh_addralign).",
    entry_size="The size of an entry of the section in bytes, or 0 (sh_entsize).",
    name_index="The index of the section's name in the name table, in bytes (sh_name).",
    type="The type of the section (sh_type).",
    link="The index of a linked section; its meaning depends on the type (sh_link).",
    info="More about the section; its meaning depends on the type (sh_info).",
)


SECTION = Struct("@QQQQQQIIII0Q")


class SegmentRecord(NamedTuple):
    """A program header (gABI, "Program Header")."""

    file: ElfFile
    index: int  # type: ignore[assignment]
    offset: int
    virtual_addr: int
    physical_addr: int
    file_size: int
    mem_size: int
    align: int
    type: PT
    flags: PF


_document(
    SegmentRecord,
    file="The file.",
    index="The index of the segment.",
    offset="The offset of the segment's data in the file, in bytes (p_offset).",
    virtual_addr="The address of the segment in memory (p_vaddr).",
    physical_addr="The physical address of the segment, where that matters (p_paddr).",
    file_size="The size of the segment in the file, in bytes (p_filesz).",
    mem_size="The size of the segment in memory, in bytes (p_memsz).",
    align="The alignment of the segment in memory and in the file, in bytes; 0 and 1 mean none (p_align).",
    type="The type of the segment (p_type).",
    flags="The permissions of the segment's memory (p_flags).",
)


SEGMENT = Struct("@QQQQQQII0Q")


class SymbolRecord(NamedTuple):
    """A symbol (gABI, "Symbol Table")."""

    name: Optional[str]
    name_status: int
    value: int
    size: int
    name_index: int
    shndx: int
    info: int
    other: int


_document(
    SymbolRecord,
    name="The name, or None if it can't be read.",
    name_status="The status of the name.",
    value="The address of the symbol, or an offset in its section (st_value).",
    size="The size of the function or object in bytes, or 0 (st_size).",
    name_index="The index of the symbol's name in its string table, in bytes; 0 where it has none (st_name).",
    shndx="The index of the section that the symbol belongs to, or a reserved index (st_shndx).",
    info="The binding times 16, plus the type (st_info).",
    other="The visibility: the remainder of this number by 4 (st_other).",
)


SYMBOL = Struct("@QQIHBB0Q")


class SymbolTableRecord(NamedTuple):
    """Symbols found once: the numbers that `xmas_elf_symbols_open` or `xmas_elf_dynamic_symbols_open` fills, and that
    other calls take back."""

    symbols_offset: int
    symbols_size: int
    strings_offset: int
    strings_size: int
    count: int  # type: ignore[assignment]
    strings_status: int
    file_class: int
    encoding: int


_document(
    SymbolTableRecord,
    symbols_offset="The bytes of the symbols. The offset of the first byte, in bytes from the start of the input.",
    symbols_size="The bytes of the symbols. The number of bytes.",
    strings_offset=
        "The bytes of the string table of their names; offset and size are 0 if it can't be read. The offset "
        "of the first byte, in bytes from the start of the input.",
    strings_size=
        "The bytes of the string table of their names; offset and size are 0 if it can't be read. The number "
        "of bytes.",
    count="The number of symbols.",
    strings_status="The status of the string table.",
    file_class="1: symbols of class 32, any other number: of class 64 (EI_CLASS).",
    encoding="2: big-endian; any other number is read as little-endian (EI_DATA).",
)


SYMBOL_TABLE = Struct("@QQQQQIHH0Q")


class RelocationRecord(NamedTuple):
    """A relocation (gABI, "Relocation")."""

    offset: int
    addend: int
    symbol: int
    type: int
    has_addend: int


_document(
    RelocationRecord,
    offset="The place that is changed: an offset in its section, or an address (r_offset).",
    addend="The addend; 32 bits of it count in class 32, and it is 0 in a table without addends (r_addend).",
    symbol="The index of the symbol (r_info).",
    type="The type of the relocation, by the processor (r_info).",
    has_addend="1 in a table with addends (SHT_RELA), 0 in one without (SHT_REL).",
)


RELOCATION = Struct("@QQIII0Q")


class DynamicRecord(NamedTuple):
    """A dynamic entry (gABI, "Dynamic Section")."""

    tag: DT
    value: int


_document(
    DynamicRecord,
    tag="The tag (d_tag).",
    value="A value or an address, by the tag (d_un).",
)


DYNAMIC = Struct("@QQ0Q")


class NoteRecord(NamedTuple):
    """A note (gABI, "Note Section"), and the notes that follow it."""

    name_offset: int
    name_size: int
    desc_offset: int
    desc_size: int
    rest_offset: int
    rest_size: int
    type: int


_document(
    NoteRecord,
    name_offset=
        "The name, with the zero byte that ends it (namesz bytes). The offset of the first byte, in bytes "
        "from the start of the input.",
    name_size="The name, with the zero byte that ends it (namesz bytes). The number of bytes.",
    desc_offset="The description (descsz bytes). The offset of the first byte, in bytes from the start of the input.",
    desc_size="The description (descsz bytes). The number of bytes.",
    rest_offset=
        "The bytes after the note and its padding: the next notes. The offset of the first byte, in bytes "
        "from the start of the input.",
    rest_size="The bytes after the note and its padding: the next notes. The number of bytes.",
    type="The type of the note; its meaning depends on the name.",
)


NOTE = Struct("@QQQQQQI0Q")


class AnswerRecord(NamedTuple):
    """The result of one look-up of many."""

    status: int
    found: int
    index: int  # type: ignore[assignment]
    looked_at: int


_document(
    AnswerRecord,
    status="The status of this look-up; where it is not OK, the numbers after it are 0.",
    found="1 where a symbol is found, and else 0.",
    index="The index of the symbol, or 0.",
    looked_at="The number of chain entries that the look-up read.",
)


ANSWER = Struct("@IIII0I")


class HashTableRecord(NamedTuple):
    """A hash table of a section with its symbols, found once: the numbers that `xmas_elf_hash_open` fills, and that
    other calls take back."""

    table_offset: int
    table_size: int
    symbols_symbols_offset: int
    symbols_symbols_size: int
    symbols_strings_offset: int
    symbols_strings_size: int
    symbols_count: int
    symbols_strings_status: int
    symbols_file_class: int
    symbols_encoding: int
    kind: int


_document(
    HashTableRecord,
    table_offset="The bytes of the hash table. The offset of the first byte, in bytes from the start of the input.",
    table_size="The bytes of the hash table. The number of bytes.",
    symbols_symbols_offset=
        "Its symbols, with the string table in which look-ups compare their names. The bytes of the symbols. "
        "The offset of the first byte, in bytes from the start of the input.",
    symbols_symbols_size=
        "Its symbols, with the string table in which look-ups compare their names. The bytes of the symbols. "
        "The number of bytes.",
    symbols_strings_offset=
        "Its symbols, with the string table in which look-ups compare their names. The bytes of the string "
        "table of their names; offset and size are 0 if it can't be read. The offset of the first byte, in "
        "bytes from the start of the input.",
    symbols_strings_size=
        "Its symbols, with the string table in which look-ups compare their names. The bytes of the string "
        "table of their names; offset and size are 0 if it can't be read. The number of bytes.",
    symbols_count="Its symbols, with the string table in which look-ups compare their names. The number of symbols.",
    symbols_strings_status=
        "Its symbols, with the string table in which look-ups compare their names. The status of the string "
        "table.",
    symbols_file_class=
        "Its symbols, with the string table in which look-ups compare their names. 1: symbols of class 32, "
        "any other number: of class 64 (EI_CLASS).",
    symbols_encoding=
        "Its symbols, with the string table in which look-ups compare their names. 2: big-endian; any other "
        "number is read as little-endian (EI_DATA).",
    kind="The type of the section: 0x6ffffff6 (SHT_GNU_HASH) for GNU's table, any other number for the gABI's.",
)


HASH_TABLE = Struct("@QQQQQQQIHHI0Q")


class VersionRecord(NamedTuple):
    """The version of a symbol, or one that a file defines or needs (LSB, "Symbol Versioning")."""

    name_offset: int
    name_size: int
    file_offset: int
    file_size: int
    status: int
    name_status: int
    file_status: int
    kind: int
    number: int
    hidden: int
    flags: int
    hash: int


_document(
    VersionRecord,
    name_offset=
        "The bytes of the version's name without the zero byte that ends it; offset and size are 0 where it "
        "has none. The offset of the first byte, in bytes from the start of the input.",
    name_size=
        "The bytes of the version's name without the zero byte that ends it; offset and size are 0 where it "
        "has none. The number of bytes.",
    file_offset=
        "The bytes of the name of the library that the version is needed of; offset and size are 0 where "
        "there is none. The offset of the first byte, in bytes from the start of the input.",
    file_size=
        "The bytes of the name of the library that the version is needed of; offset and size are 0 where "
        "there is none. The number of bytes.",
    status="The status of this version; where it is not OK, the other fields are 0.",
    name_status="The status of the version's name.",
    file_status="The status of the library's name.",
    kind="What has the number: 0 nothing, 1 a definition of the file, 2 a need.",
    number=
        "The number of the version, by which symbols refer to it (vd_ndx; bits 0 to 14 of a symbol's number "
        "and of vna_other): 0 is local, 1 is global.",
    hidden="1 where the symbol or the need is hidden (bit 15 of its number), and else 0.",
    flags=
        "The flags of the definition or the need (vd_flags, vna_flags); the lowest marks the definition that "
        "names the file itself.",
    hash="The hash number of the version's name (vd_hash, vna_hash).",
)


VERSION = Struct("@QQQQIIIIIIII0Q")


class FoundSymbolRecord(NamedTuple):
    """The symbol that a reference gets."""

    symbol_value: int
    symbol_size: int
    symbol_name_index: int
    symbol_shndx: int
    symbol_info: int
    symbol_other: int
    found: int
    index: int  # type: ignore[assignment]


_document(
    FoundSymbolRecord,
    symbol_value=
        "The symbol; its fields are 0 where none is found. The address of the symbol, or an offset in its "
        "section (st_value).",
    symbol_size=
        "The symbol; its fields are 0 where none is found. The size of the function or object in bytes, or 0 "
        "(st_size).",
    symbol_name_index=
        "The symbol; its fields are 0 where none is found. The index of the symbol's name in its string "
        "table, in bytes; 0 where it has none (st_name).",
    symbol_shndx=
        "The symbol; its fields are 0 where none is found. The index of the section that the symbol belongs "
        "to, or a reserved index (st_shndx).",
    symbol_info="The symbol; its fields are 0 where none is found. The binding times 16, plus the type (st_info).",
    symbol_other=
        "The symbol; its fields are 0 where none is found. The visibility: the remainder of this number by 4 "
        "(st_other).",
    found="1 where a symbol is found, and else 0.",
    index="The index of the symbol among those of the dynamic segment, or 0.",
)


FOUND_SYMBOL = Struct("@QQIHBBII0Q")


class AddressIndexRecord(NamedTuple):
    """An index of symbols by their addresses: the numbers that `xmas_elf_address_index` fills, and that
    `xmas_elf_symbols_at` takes back."""

    table_symbols_offset: int
    table_symbols_size: int
    table_strings_offset: int
    table_strings_size: int
    table_count: int
    table_strings_status: int
    table_file_class: int
    table_encoding: int
    indices_offset: int
    indices_size: int
    words: int
    numbers: int
    sized_count: int
    open_count: int
    within: int
    machine: int


_document(
    AddressIndexRecord,
    table_symbols_offset=
        "The symbols, and the string table of their names. The bytes of the symbols. The offset of the first "
        "byte, in bytes from the start of the input.",
    table_symbols_size="The symbols, and the string table of their names. The bytes of the symbols. The number of bytes.",
    table_strings_offset=
        "The symbols, and the string table of their names. The bytes of the string table of their names; "
        "offset and size are 0 if it can't be read. The offset of the first byte, in bytes from the start of "
        "the input.",
    table_strings_size=
        "The symbols, and the string table of their names. The bytes of the string table of their names; "
        "offset and size are 0 if it can't be read. The number of bytes.",
    table_count="The symbols, and the string table of their names. The number of symbols.",
    table_strings_status="The symbols, and the string table of their names. The status of the string table.",
    table_file_class=
        "The symbols, and the string table of their names. 1: symbols of class 32, any other number: of class"
        " 64 (EI_CLASS).",
    table_encoding=
        "The symbols, and the string table of their names. 2: big-endian; any other number is read as little-"
        "endian (EI_DATA).",
    indices_offset=
        "The bytes of the section of type SHT_SYMTAB_SHNDX; its size is 0 if there is none. The offset of the"
        " first byte, in bytes from the start of the input.",
    indices_size=
        "The bytes of the section of type SHT_SYMTAB_SHNDX; its size is 0 if there is none. The number of "
        "bytes.",
    words="The number of words that the index takes.",
    numbers="The number of numbers of 64 bits that the index takes.",
    sized_count="The number of symbols with a size in the index; 0 if it is not built.",
    open_count="The number of symbols of size 0 in the index; 0 if it is not built.",
    within="The index of the section whose symbols alone are asked for, or 0.",
    machine="The processor that the file is for (e_machine).",
)


ADDRESS_INDEX = Struct("@QQQQQIHHQQQQQQIH0Q")


class SymbolAtRecord(NamedTuple):
    """The symbol of an address."""

    symbol_value: int
    symbol_size: int
    symbol_name_index: int
    symbol_shndx: int
    symbol_info: int
    symbol_other: int
    index: int  # type: ignore[assignment]
    offset: int
    found: int
    is_open: int


_document(
    SymbolAtRecord,
    symbol_value=
        "The symbol; its fields are 0 where none is found. The address of the symbol, or an offset in its "
        "section (st_value).",
    symbol_size=
        "The symbol; its fields are 0 where none is found. The size of the function or object in bytes, or 0 "
        "(st_size).",
    symbol_name_index=
        "The symbol; its fields are 0 where none is found. The index of the symbol's name in its string "
        "table, in bytes; 0 where it has none (st_name).",
    symbol_shndx=
        "The symbol; its fields are 0 where none is found. The index of the section that the symbol belongs "
        "to, or a reserved index (st_shndx).",
    symbol_info="The symbol; its fields are 0 where none is found. The binding times 16, plus the type (st_info).",
    symbol_other=
        "The symbol; its fields are 0 where none is found. The visibility: the remainder of this number by 4 "
        "(st_other).",
    index="The index of the symbol in its table, or 0.",
    offset="The address less the value of the symbol, or 0.",
    found="1 where a symbol covers the address, and else 0.",
    is_open="1 where the size of the symbol is 0, so that its end is unknown, and else 0.",
)


SYMBOL_AT = Struct("@QQIHBBQQII0Q")


class SpanRecord(NamedTuple):
    """Addresses from `start` on and before `end`, relative to the base at which a file is loaded."""

    start: int
    end: int


_document(
    SpanRecord,
    start="The first address.",
    end="The first address after the last.",
)


SPAN = Struct("@QQ0Q")


class TlsTemplateRecord(NamedTuple):
    """The template of thread-local storage (gABI, "Thread-Local Storage"); 0 in each field where a file has none."""

    address: int
    file_size: int
    mem_size: int
    align: int


_document(
    TlsTemplateRecord,
    address="The address of the bytes that the file has.",
    file_size="The number of these bytes.",
    mem_size="The size of the storage in bytes; zeros follow the bytes of the file.",
    align="The alignment of the storage in bytes.",
)


TLS_TEMPLATE = Struct("@QQQQ0Q")


class LoadPlanRecord(NamedTuple):
    """What Linux and glibc put into memory for a file. Addresses are relative to a base, which is 0 for a file of
    type ET_EXEC."""

    span_start: int
    span_end: int
    relro_start: int
    relro_end: int
    tls_address: int
    tls_file_size: int
    tls_mem_size: int
    tls_align: int
    interpreter_offset: int
    interpreter_size: int
    entry: int
    stack_flags: int
    has_stack: int
    has_relro: int
    has_interpreter: int


_document(
    LoadPlanRecord,
    span_start="The pages from the first of the first load segment to the last of the last one. The first address.",
    span_end=
        "The pages from the first of the first load segment to the last of the last one. The first address "
        "after the last.",
    relro_start=
        "The pages that are only readable after relocation: those of the last PT_GNU_RELRO, both ends rounded"
        " down; 0 where there is none. The first address.",
    relro_end=
        "The pages that are only readable after relocation: those of the last PT_GNU_RELRO, both ends rounded"
        " down; 0 where there is none. The first address after the last.",
    tls_address="The last PT_TLS that is not empty. The address of the bytes that the file has.",
    tls_file_size="The last PT_TLS that is not empty. The number of these bytes.",
    tls_mem_size=
        "The last PT_TLS that is not empty. The size of the storage in bytes; zeros follow the bytes of the "
        "file.",
    tls_align="The last PT_TLS that is not empty. The alignment of the storage in bytes.",
    interpreter_offset=
        "The bytes of the path of the program interpreter, up to the first zero byte of the first PT_INTERP; "
        "offset and size are 0 where there is none. The offset of the first byte, in bytes from the start of "
        "the input.",
    interpreter_size=
        "The bytes of the path of the program interpreter, up to the first zero byte of the first PT_INTERP; "
        "offset and size are 0 where there is none. The number of bytes.",
    entry="The address at which a program begins to run, or 0 (e_entry).",
    stack_flags=
        "The permissions of the stack, those of the last PT_GNU_STACK; 0 where there is none: then they are "
        "those of the processor.",
    has_stack="1 where the file has a PT_GNU_STACK, and else 0.",
    has_relro="1 where the file has a PT_GNU_RELRO, and else 0.",
    has_interpreter="1 where the file has a PT_INTERP, and else 0.",
)


LOAD_PLAN = Struct("@QQQQQQQQQQQIIII0Q")


class LoadMappingRecord(NamedTuple):
    """Pages that are mapped at once."""

    start: int
    end: int
    offset: int
    flags: int
    contents: int


_document(
    LoadMappingRecord,
    start="The first address, relative to the base.",
    end="The first address after the pages.",
    offset="The offset of the first byte in the file; 0 where the pages are not of the file.",
    flags="The permissions: those of the load segment (p_flags), or 0.",
    contents="What the pages hold: 0 nothing that can be read, 1 pages of the file, 2 zeros.",
)


LOAD_MAPPING = Struct("@QQQII0Q")


class PieceRecord(NamedTuple):
    """A longest run of bytes of a file, or of addresses, that belong to one part."""

    begin: int
    end: int
    index: int  # type: ignore[assignment]
    owner: int


_document(
    PieceRecord,
    begin="The offset of the first byte, or the first address.",
    end="The offset after the last byte, or the address after the last; it is above `begin`.",
    index="The index of the section, the segment or the symbol, or 0.",
    owner=
        "What it belongs to: 0 the ELF header, 1 the program header table, 2 the section header table, 3 a "
        "section, 4 a segment and no section, 5 nothing, and a part begins after it, 6 nothing, and no part "
        "begins after it; of `xmas_elf_symbol_pieces` 7 a symbol, 8 no symbol.",
)


PIECE = Struct("@QQQI0Q")


class PieceSizesRecord(NamedTuple):
    """The sizes of the pieces of a file."""

    words: int
    numbers: int
    count: int  # type: ignore[assignment]


_document(
    PieceSizesRecord,
    words="The number of words that the call takes.",
    numbers="The number of numbers of 64 bits that the call takes.",
    count="The number of all pieces of the file; 0 if the call only found how many words and numbers it takes.",
)


PIECE_SIZES = Struct("@QQQ0Q")


class SizePartRecord(NamedTuple):
    """A part of a file, and its number of bytes."""

    name: int
    name_size: int
    kind: int
    place: int
    size: int


_document(
    SizePartRecord,
    name="The bytes of its name, which may be empty. Their address.",
    name_size="How many they are.",
    kind="The number of its kind, as the caller numbers kinds.",
    place=
        "Its place in the file, such as an index: of parts with one kind and one name, the one with the "
        "smallest place is the first.",
    size="Its number of bytes.",
)


SIZE_PART = Struct("@PNQQQ0Q")


class SizeChangeRecord(NamedTuple):
    """What became of a part from one file to another."""

    old_index: int
    new_index: int
    old_size: int
    new_size: int
    files: int


_document(
    SizeChangeRecord,
    old_index="The index of the part of the old file in its list, as the call sorts it; 0 where `files` is 1.",
    new_index="The index of the part of the new file in its list, as the call sorts it; 0 where `files` is 0.",
    old_size="The number of bytes in the old file; 0 if the part isn't there.",
    new_size="The number of bytes in the new file; 0 if the part isn't there.",
    files="Where it is: 0 in the old file alone, 1 in the new file alone, 2 in both.",
)


SIZE_CHANGE = Struct("@QQQQI0Q")


class DebugCandidateRecord(NamedTuple):
    """A path at which a debug file may be."""

    size: int
    how: int


_document(
    DebugCandidateRecord,
    size="The number of bytes of the path.",
    how=
        "How the file is found: 0 by the build id, 1 by the name in the link in the folder of the file, 2 in "
        "`.debug` there, 3 in the same folder under the directory.",
)


DEBUG_CANDIDATE = Struct("@QI0Q")


class LoadObjectRecord(NamedTuple):
    """An object of a process: its file, and where it is loaded. Objects are in the order in which they are loaded,
    the program first."""

    file: int
    file_size: int
    image: int
    image_size: int
    base: int
    module: int
    thread: int


_document(
    LoadObjectRecord,
    file="The bytes of the file. Their address.",
    file_size="How many they are.",
    image=
        "Its image after relocation, where bytes of it are copied to another object; else it may be empty. "
        "Their address.",
    image_size="How many they are.",
    base="The number that is added to its addresses.",
    module="The number of its module of thread-local storage.",
    thread="The offset of its thread-local storage from the thread pointer, modulo 2^64.",
)


LOAD_OBJECT = Struct("@PNPNQQQ0Q")


class NeededNameRecord(NamedTuple):
    """A name that an object asks for."""

    range_offset: int
    range_size: int
    status: int
    kind: int


_document(
    NeededNameRecord,
    range_offset=
        "The bytes of the name, with its dynamic string tokens, without the zero byte that ends it; offset "
        "and size are 0 if the name can't be read. The offset of the first byte, in bytes from the start of "
        "the input.",
    range_size=
        "The bytes of the name, with its dynamic string tokens, without the zero byte that ends it; offset "
        "and size are 0 if the name can't be read. The number of bytes.",
    status="The status of this name.",
    kind=
        "What the object asks for: 1 a library that it needs (DT_NEEDED), 2 one that is searched before it, "
        "if there is one (DT_AUXILIARY), 3 one that is searched in its place (DT_FILTER).",
)


NEEDED_NAME = Struct("@QQII0Q")


class TokensRecord(NamedTuple):
    """The values of the dynamic string tokens for an object. An empty value is not known."""

    origin: int
    origin_size: int
    lib: int
    lib_size: int
    platform: int
    platform_size: int


_document(
    TokensRecord,
    origin="The folder of the object (`$ORIGIN`). Their address.",
    origin_size="How many they are.",
    lib="The folder of libraries for the machine, as `lib64` (`$LIB`). Their address.",
    lib_size="How many they are.",
    platform="The kind of the processor, as `x86_64` (`$PLATFORM`). Their address.",
    platform_size="How many they are.",
)


TOKENS = Struct("@PNPNPN0P")


class SearchAskerRecord(NamedTuple):
    """What an object says about the search for libraries."""

    r_path: int
    r_path_size: int
    run_path: int
    run_path_size: int
    tokens_origin: int
    tokens_origin_size: int
    tokens_lib: int
    tokens_lib_size: int
    tokens_platform: int
    tokens_platform_size: int
    has_run_path: int
    no_default: int


_document(
    SearchAskerRecord,
    r_path="The text of its last DT_RPATH; empty if it has none. Their address.",
    r_path_size="How many they are.",
    run_path="The text of its last DT_RUNPATH. Their address.",
    run_path_size="How many they are.",
    tokens_origin="The values of its tokens. The folder of the object (`$ORIGIN`). Their address.",
    tokens_origin_size="The values of its tokens. How many they are.",
    tokens_lib=
        "The values of its tokens. The folder of libraries for the machine, as `lib64` (`$LIB`). Their "
        "address.",
    tokens_lib_size="The values of its tokens. How many they are.",
    tokens_platform="The values of its tokens. The kind of the processor, as `x86_64` (`$PLATFORM`). Their address.",
    tokens_platform_size="The values of its tokens. How many they are.",
    has_run_path="1 if it has a DT_RUNPATH, even an empty one: its DT_RPATH then does not count.",
    no_default="1 if it has the flag 0x800 (DF_1_NODEFLIB): no library is looked for in the default folders.",
)


SEARCH_ASKER = Struct("@PNPNPNPNPNII0P")


class SearchForRecord(NamedTuple):
    """A name that is looked for, and what the search depends on. No text may have a zero byte."""

    name: int
    name_size: int
    library_path: int
    library_path_size: int
    cache: int
    cache_size: int
    conf: int
    conf_size: int
    defaults: int
    defaults_size: int
    subdirectories: int
    subdirectories_count: int
    program_origin: int
    program_origin_size: int
    program_lib: int
    program_lib_size: int
    program_platform: int
    program_platform_size: int


_document(
    SearchForRecord,
    name="The name, with its tokens replaced. Their address.",
    name_size="How many they are.",
    library_path="The value of LD_LIBRARY_PATH. Their address.",
    library_path_size="How many they are.",
    cache=
        "The path that the cache has for the name (`xmas_elf_cache_path`); empty if it has none. Their "
        "address.",
    cache_size="How many they are.",
    conf="The folders of ld.so.conf, one in each line, where there is no cache. Their address.",
    conf_size="How many they are.",
    defaults="The default folders, with colons between them. Their address.",
    defaults_size="How many they are.",
    subdirectories=
        "The subdirectories of each folder that are tried, each with a slash at its end; the last is the "
        "empty text. Their address.",
    subdirectories_count="How many they are.",
    program_origin="The values of the tokens for the program. The folder of the object (`$ORIGIN`). Their address.",
    program_origin_size="The values of the tokens for the program. How many they are.",
    program_lib=
        "The values of the tokens for the program. The folder of libraries for the machine, as `lib64` "
        "(`$LIB`). Their address.",
    program_lib_size="The values of the tokens for the program. How many they are.",
    program_platform=
        "The values of the tokens for the program. The kind of the processor, as `x86_64` (`$PLATFORM`). "
        "Their address.",
    program_platform_size="The values of the tokens for the program. How many they are.",
)


SEARCH_FOR = Struct("@PNPNPNPNPNPNPNPNPN0P")


class CandidatePathRecord(NamedTuple):
    """A path at which a library is looked for."""

    how: int
    asker: int
    subdirectory_size: int


_document(
    CandidatePathRecord,
    how=
        "Why it is tried: 1 the name has a slash and is the path, 2 the DT_RPATH of an object, 3 "
        "LD_LIBRARY_PATH, 4 the DT_RUNPATH of the object that asks, 5 the cache, 6 ld.so.conf, 7 the default "
        "folders.",
    asker="For a DT_RPATH the index of its object among the askers, otherwise 0.",
    subdirectory_size="The size of its subdirectory in bytes; 0 for the folder itself.",
)


CANDIDATE_PATH = Struct("@IQQ0Q")


class CacheMachineRecord(NamedTuple):
    """What a machine can use of a cache."""

    names: int
    names_count: int
    bits: int
    platform: int
    flags: int
    other_flags: int
    levels: int


_document(
    CacheMachineRecord,
    names="The active names of subdirectories of `glibc-hwcaps`, the best first. Their address.",
    names_count="How many they are.",
    bits=
        "The capabilities that it has, other than platforms: on x86-64 bits 1 (x86_64), 2 (avx512_1) and 63 "
        "(tls), on 32-bit x86 0 (sse2) and 63.",
    platform="The bit of its platform, 0 if it has none: haswell is bit 50, i686 bit 49.",
    flags="The flags of its entries: 0x303 of x86-64, 0xa03 of AArch64, 3 of 32-bit x86.",
    other_flags="Other flags that it takes, of 32-bit x86 1; else the same.",
    levels=
        "The levels that it has, level k as bit k: bit 0, and on x86-64 bits 1 to 3 for the levels 2 to 4 of "
        "the processor.",
)


CACHE_MACHINE = Struct("@PNQQIII0Q")


class DependenciesRecord(NamedTuple):
    """What the entries of an object ask for and found."""

    found: int
    found_count: int
    kinds: int
    kinds_count: int


_document(
    DependenciesRecord,
    found=
        "For each entry the number of the object that it found, 0xffffffff if that is missing, 0xfffffffe if "
        "it was not asked for. Their address.",
    found_count="How many they are.",
    kinds=
        "The kind of each, as in `xmas_elf_needed_name_t`; 1 for those that are left out at the end. Their "
        "address.",
    kinds_count="How many they are.",
)


DEPENDENCIES = Struct("@PNPN0P")


class ObjectEntryRecord(NamedTuple):
    """An entry of an object."""

    object: int
    entry: int


_document(
    ObjectEntryRecord,
    object="The number of the object.",
    entry="The index of the entry among the names that it asks for.",
)


OBJECT_ENTRY = Struct("@QQ0Q")


class LackedVersionRecord(NamedTuple):
    """A version that an object lacks."""

    version_name_offset: int
    version_name_size: int
    version_file_offset: int
    version_file_size: int
    version_status: int
    version_name_status: int
    version_file_status: int
    version_kind: int
    version_number: int
    version_hidden: int
    version_flags: int
    version_hash: int
    lack: int


_document(
    LackedVersionRecord,
    version_name_offset=
        "The version that is needed. The bytes of the version's name without the zero byte that ends it; "
        "offset and size are 0 where it has none. The offset of the first byte, in bytes from the start of "
        "the input.",
    version_name_size=
        "The version that is needed. The bytes of the version's name without the zero byte that ends it; "
        "offset and size are 0 where it has none. The number of bytes.",
    version_file_offset=
        "The version that is needed. The bytes of the name of the library that the version is needed of; "
        "offset and size are 0 where there is none. The offset of the first byte, in bytes from the start of "
        "the input.",
    version_file_size=
        "The version that is needed. The bytes of the name of the library that the version is needed of; "
        "offset and size are 0 where there is none. The number of bytes.",
    version_status="The version that is needed. The status of this version; where it is not OK, the other fields are 0.",
    version_name_status="The version that is needed. The status of the version's name.",
    version_file_status="The version that is needed. The status of the library's name.",
    version_kind="The version that is needed. What has the number: 0 nothing, 1 a definition of the file, 2 a need.",
    version_number=
        "The version that is needed. The number of the version, by which symbols refer to it (vd_ndx; bits 0 "
        "to 14 of a symbol's number and of vna_other): 0 is local, 1 is global.",
    version_hidden=
        "The version that is needed. 1 where the symbol or the need is hidden (bit 15 of its number), and "
        "else 0.",
    version_flags=
        "The version that is needed. The flags of the definition or the need (vd_flags, vna_flags); the "
        "lowest marks the definition that names the file itself.",
    version_hash="The version that is needed. The hash number of the version's name (vd_hash, vna_hash).",
    lack=
        "Why it is missing: 1 the object has no versions, 2 it is needed weakly, 3 otherwise: then the "
        "program does not start. 0 if its status is an error.",
)


LACKED_VERSION = Struct("@QQQQIIIIIIIII0Q")


# What each export returns, and its parameters: a slice is a pointer and a count.
EXPORTS: Dict[str, Tuple[Any, Tuple[Any, ...]]] = {
    "xmas_elf_open": (c_uint32, (c_void_p, c_size_t, c_void_p,)),
    "xmas_elf_check_header": (c_uint32, (c_void_p, c_size_t, c_void_p,)),
    "xmas_elf_counts": (c_uint32, (c_void_p, c_size_t, c_void_p, c_void_p,)),
    "xmas_elf_names_index": (c_uint32, (c_void_p, c_size_t, c_void_p, c_void_p,)),
    "xmas_elf_section": (c_uint32, (c_void_p, c_size_t, c_void_p, c_uint64, c_void_p,)),
    "xmas_elf_check_section": (c_uint32, (c_void_p, c_size_t, c_void_p, c_uint64,)),
    "xmas_elf_sections": (c_uint32, (c_void_p, c_size_t, c_void_p, c_uint64, c_void_p, c_size_t, c_void_p,)),
    "xmas_elf_find_section": (c_uint32, (c_void_p, c_size_t, c_void_p, c_void_p, c_size_t, c_void_p,)),
    "xmas_elf_find_section_index": (c_uint32, (c_void_p, c_size_t, c_void_p, c_void_p, c_size_t, c_void_p,)),
    "xmas_elf_section_data": (c_uint32, (c_void_p, c_size_t, c_void_p, c_uint64, c_void_p,)),
    "xmas_elf_section_names": (c_uint32, (c_void_p, c_size_t, c_void_p, c_uint64, c_void_p, c_size_t, c_void_p,)),
    "xmas_elf_names": (c_uint32, (c_void_p, c_size_t, c_void_p, c_void_p,)),
    "xmas_elf_text": (c_uint32, (c_void_p, c_size_t, c_void_p, c_uint64, c_void_p,)),
    "xmas_elf_segment": (c_uint32, (c_void_p, c_size_t, c_void_p, c_uint32, c_void_p,)),
    "xmas_elf_check_segment": (c_uint32, (c_void_p, c_size_t, c_void_p, c_uint32,)),
    "xmas_elf_segments": (c_uint32, (c_void_p, c_size_t, c_void_p, c_uint64, c_void_p, c_size_t, c_void_p,)),
    "xmas_elf_segment_data": (c_uint32, (c_void_p, c_size_t, c_void_p, c_uint32, c_void_p,)),
    "xmas_elf_symbols": (c_uint32, (c_void_p, c_size_t, c_void_p, c_uint64, c_void_p, c_size_t, c_void_p,)),
    "xmas_elf_symbol_names": (c_uint32, (c_void_p, c_size_t, c_void_p, c_uint64, c_void_p, c_size_t, c_void_p,)),
    "xmas_elf_symbols_open": (c_uint32, (c_void_p, c_size_t, c_void_p, c_uint64, c_void_p,)),
    "xmas_elf_relocations": (c_uint32, (c_void_p, c_size_t, c_void_p, c_uint64, c_uint64, c_void_p, c_size_t, c_void_p,)),
    "xmas_elf_packed_relocations": (c_uint32, (c_void_p, c_size_t, c_void_p, c_uint64, c_uint64, c_void_p, c_size_t, c_void_p,)),
    "xmas_elf_dynamics": (c_uint32, (c_void_p, c_size_t, c_void_p, c_uint64, c_uint64, c_void_p, c_size_t, c_void_p,)),
    "xmas_elf_dynamic_entries": (c_uint32, (c_void_p, c_size_t, c_void_p, c_uint64, c_void_p, c_size_t, c_void_p,)),
    "xmas_elf_dynamic_relocations": (c_uint32, (c_void_p, c_size_t, c_void_p, c_uint64, c_void_p, c_size_t, c_void_p,)),
    "xmas_elf_dynamic_packed_relocations": (c_uint32, (c_void_p, c_size_t, c_void_p, c_uint64, c_void_p, c_size_t, c_void_p,)),
    "xmas_elf_note": (c_uint32, (c_void_p, c_size_t, c_void_p, c_void_p, c_uint64, c_void_p,)),
    "xmas_elf_bytes_at": (c_uint32, (c_void_p, c_size_t, c_void_p, c_uint64, c_uint64, c_void_p,)),
    "xmas_elf_dynamic_texts": (c_uint32, (c_void_p, c_size_t, c_void_p, c_uint64, c_uint64, c_void_p, c_size_t, c_void_p,)),
    "xmas_elf_dynamic_symbols_open": (c_uint32, (c_void_p, c_size_t, c_void_p, c_void_p,)),
    "xmas_elf_file_symbols_open": (c_uint32, (c_void_p, c_size_t, c_void_p, c_void_p,)),
    "xmas_elf_dynamic_symbol_versions": (c_uint32, (c_void_p, c_size_t, c_void_p, c_uint64, c_void_p, c_size_t, c_void_p,)),
    "xmas_elf_version_definitions": (c_uint32, (c_void_p, c_size_t, c_void_p, c_uint64, c_void_p, c_size_t, c_void_p,)),
    "xmas_elf_version_needs": (c_uint32, (c_void_p, c_size_t, c_void_p, c_uint64, c_void_p, c_size_t, c_void_p,)),
    "xmas_elf_find_symbol": (c_uint32, (c_void_p, c_size_t, c_void_p, c_void_p, c_size_t, c_void_p, c_size_t, c_void_p,)),
    "xmas_elf_look_ups": (None, (c_void_p, c_size_t, c_void_p, c_void_p, c_size_t, c_void_p, c_size_t, c_void_p, c_size_t,)),
    "xmas_elf_hash_open": (c_uint32, (c_void_p, c_size_t, c_void_p, c_uint64, c_void_p,)),
    "xmas_elf_check_hash": (c_uint32, (c_void_p, c_size_t, c_void_p,)),
    "xmas_elf_address_index": (c_uint32, (c_void_p, c_size_t, c_void_p, c_void_p, c_void_p, c_uint32, c_void_p, c_size_t, c_void_p, c_size_t, c_void_p,)),
    "xmas_elf_symbols_at": (c_uint32, (c_void_p, c_size_t, c_void_p, c_void_p, c_size_t, c_void_p, c_size_t, c_void_p, c_size_t, c_void_p, c_size_t,)),
    "xmas_elf_pieces": (c_uint32, (c_void_p, c_size_t, c_void_p, c_uint64, c_void_p, c_size_t, c_void_p, c_size_t, c_void_p, c_size_t, c_void_p,)),
    "xmas_elf_symbol_pieces": (c_uint32, (c_void_p, c_size_t, c_void_p, c_uint64, c_uint64, c_uint64, c_void_p, c_size_t, c_void_p, c_size_t, c_void_p, c_size_t, c_void_p,)),
    "xmas_elf_size_changes": (c_uint32, (c_void_p, c_size_t, c_void_p, c_size_t, c_void_p, c_size_t, c_void_p,)),
    "xmas_elf_debug_path": (c_uint32, (c_void_p, c_size_t, c_void_p, c_void_p, c_size_t, c_void_p, c_size_t, c_uint64, c_void_p, c_size_t, c_void_p,)),
    "xmas_elf_check_debug": (c_uint32, (c_void_p, c_size_t, c_void_p, c_uint32, c_void_p, c_size_t, c_void_p,)),
    "xmas_elf_debug_crc": (c_uint32, (c_void_p, c_size_t, c_void_p,)),
    "xmas_elf_load_plan": (c_uint32, (c_void_p, c_size_t, c_void_p, c_uint64, c_uint64, c_void_p,)),
    "xmas_elf_load_mappings": (c_uint32, (c_void_p, c_size_t, c_void_p, c_uint64, c_uint64, c_uint32, c_uint64, c_void_p, c_size_t, c_void_p,)),
    "xmas_elf_load_image": (c_uint32, (c_void_p, c_size_t, c_void_p, c_uint64, c_uint64, c_uint32, c_void_p, c_size_t,)),
    "xmas_elf_check_image": (c_uint32, (c_void_p, c_size_t, c_uint64, c_uint64, c_uint64, c_void_p, c_size_t, c_void_p, c_void_p,)),
    "xmas_elf_relocate": (c_uint32, (c_void_p, c_size_t, c_uint64, c_uint32, c_uint64, c_uint64, c_void_p, c_size_t, c_void_p, c_void_p, c_void_p,)),
    "xmas_elf_relocate_all": (c_uint32, (c_void_p, c_size_t, c_uint32, c_uint64, c_uint64, c_void_p, c_size_t, c_void_p, c_void_p, c_void_p,)),
    "xmas_elf_message": (c_size_t, (c_uint32, c_void_p, c_size_t,)),
    "xmas_elf_needed_names": (c_uint32, (c_void_p, c_size_t, c_void_p, c_uint64, c_void_p, c_size_t, c_void_p,)),
    "xmas_elf_last_entry": (c_uint32, (c_void_p, c_size_t, c_void_p, c_uint64, c_void_p,)),
    "xmas_elf_last_text": (c_uint32, (c_void_p, c_size_t, c_void_p, c_uint64, c_void_p,)),
    "xmas_elf_fits": (c_uint32, (c_void_p, c_size_t, c_uint64, c_uint8, c_uint16, c_void_p,)),
    "xmas_elf_check_library": (c_uint32, (c_void_p, c_size_t, c_void_p,)),
    "xmas_elf_check_load": (c_uint32, (c_void_p, c_size_t, c_void_p, c_uint64, c_uint64, c_uint32,)),
    "xmas_elf_expand": (c_uint32, (c_void_p, c_size_t, c_void_p, c_uint64, c_void_p, c_size_t, c_void_p,)),
    "xmas_elf_candidates": (c_uint32, (c_void_p, c_void_p, c_size_t, c_uint64, c_void_p, c_size_t, c_void_p,)),
    "xmas_elf_candidate_paths": (c_uint32, (c_void_p, c_void_p, c_size_t, c_uint64, c_void_p, c_size_t, c_void_p,)),
    "xmas_elf_cache_path": (c_uint32, (c_void_p, c_size_t, c_void_p, c_size_t, c_void_p, c_uint64, c_void_p, c_size_t, c_void_p,)),
    "xmas_elf_next_entry": (c_uint32, (c_void_p, c_size_t, c_void_p, c_size_t, c_void_p, c_size_t, c_void_p,)),
    "xmas_elf_start_order": (c_uint32, (c_void_p, c_size_t, c_void_p, c_size_t, c_void_p, c_size_t, c_void_p, c_size_t, c_void_p, c_size_t, c_void_p,)),
    "xmas_elf_missing_versions": (c_uint32, (c_void_p, c_size_t, c_void_p, c_void_p, c_size_t, c_void_p, c_size_t, c_void_p, c_uint64, c_void_p, c_size_t, c_void_p,)),
}


class Status(IntEnum):
    """The status of a call: OK, or an error. The numbers never change."""

    OK = 0
    """No error."""
    SHORT_PART_1 = 1
    """File is shorter than the first ELF header part."""
    NO_MAGIC = 2
    """Did not find ELF magic number."""
    INVALID_CLASS = 3
    """Invalid ELF class."""
    SHORT_HEADERS = 4
    """File is shorter than ELF headers."""
    RESERVED_INDEX = 5
    """Attempt to get section for a reserved index."""
    SHORT_SECTION_HEADER = 6
    """File is shorter than section header offset."""
    UNKNOWN_CLASS = 7
    """Unknown ELF class."""
    SMALL_ENTRY = 8
    """Entry size is smaller than the record."""
    NO_PROGRAM_HEADERS = 9
    """There are no program headers in this file."""
    SHORT_PROGRAM_HEADER = 10
    """File is shorter than program header offset."""
    INVALID_SH_TYPE = 11
    """Invalid sh type."""
    NULL_NAME = 12
    """Attempt to get name of null section."""
    SHORT_SECTION_OFFSET = 13
    """File is shorter than section offset."""
    TEXT_START = 14
    """Text starts past the end of its data."""
    TEXT_END = 15
    """Text has no terminating zero."""
    TEXT_UTF_8 = 16
    """Text is not valid UTF-8."""
    NULL_DATA = 17
    """Attempt to get data of a null header."""
    DATA_RANGE = 18
    """Data is out of range."""
    NOT_MULTIPLE = 19
    """Data is not a whole number of records."""
    SHORT_DATA = 20
    """Data is too short."""
    NOTE_32 = 21
    """32-bit binaries not implemented."""
    NOTE_NAME = 22
    """Note name does not match its size."""
    NOTE_DESC = 23
    """Note description is out of range."""
    NO_STRTAB = 24
    """no .strtab section."""
    STRTAB_TYPE = 25
    """expected .strtab to be StrTab."""
    NO_DYNSTR = 26
    """no .dynstr section."""
    INVALID_PH_TYPE = 27
    """Invalid type."""
    INVALID_TAG = 28
    """Invalid tag value."""
    INVALID_VALUE = 29
    """Invalid value."""
    INVALID_PTR = 30
    """Invalid ptr."""
    INVALID_BINDING = 31
    """Invalid value for binding."""
    INVALID_SYMBOL_TYPE = 32
    """Invalid value for type."""
    RESERVED_SYMBOL_INDEX = 33
    """Reserved section header index."""
    NO_SH_INDEX = 34
    """no .symtab_shndx section."""
    EXPECTED_SH_INDEX = 35
    """Expected SymTabShIndex."""
    SYMBOL_INDEX = 36
    """Symbol index is out of range."""
    WIDE_INDEX = 37
    """Section index does not fit in 16 bits."""
    BAD_MAGIC = 38
    """bad magic number."""
    HEADER_SIZE = 39
    """header_size does not match size of header."""
    NO_CLASS = 40
    """No class."""
    CLASS_MISMATCH = 41
    """Mismatch between specified and actual class."""
    NO_VERSION = 42
    """no version."""
    NO_DATA_FORMAT = 43
    """no data format."""
    PH_TABLE_RANGE = 44
    """program header table out of range."""
    SH_TABLE_RANGE = 45
    """section header table out of range."""
    PH_SIZE_MISMATCH = 46
    """program header size mismatch."""
    ENTRY_POINT_RANGE = 47
    """entry point out of range."""
    SH_LIB_USED = 48
    """Shouldn't use ShLib."""
    BAD_ALIGN = 49
    """Invalid combination of virtual_addr, offset, and align."""
    BUCKET_INDEX = 50
    """Bucket index is out of range."""
    CHAIN_INDEX = 51
    """Chain index is out of range."""
    CHAIN_SUM = 52
    """Chain position does not fit in 32 bits."""
    HASH_DATA = 53
    """Hash table data is too short."""
    HASH_CYCLE = 54
    """Hash chain never ends."""
    HASH_MISSING = 55
    """Symbol is missing from the hash table."""
    LINK_SHORT_TABLE = 101
    """GNU hash table is too short."""
    LINK_UNKNOWN_CLASS = 102
    """Class is neither 1 nor 2."""
    LINK_BLOOM_COUNT = 103
    """Number of Bloom words is not a power of two."""
    LINK_BUCKET_INDEX = 104
    """Bucket index is out of range."""
    LINK_CHAIN_INDEX = 105
    """Symbol index is before the first of the table."""
    LINK_CHAIN_DATA = 106
    """Chain is not in the data."""
    LINK_SYMBOL_INDEX = 107
    """Symbol index is out of range."""
    LINK_MISSING = 108
    """Symbol is missing from the GNU hash table."""
    LINK_NO_DYNAMIC = 109
    """No dynamic segment."""
    LINK_NO_ENTRY = 110
    """Dynamic segment has no such entry."""
    LINK_ADDRESS = 111
    """Address is in no loaded segment."""
    LINK_SHORT_NOTE = 112
    """Note is cut off."""
    LINK_NOT_MULTIPLE = 113
    """Data is not a whole number of words."""
    LINK_SHORT_VERSION = 114
    """Version record is cut off."""
    LINK_VERSION_COUNT = 115
    """Version needs have more parts than bytes."""
    LINK_RELOCATION_KIND = 116
    """Kind of relocations is neither Rel nor Rela."""
    LINK_OBJECT_INDEX = 117
    """Object index is out of range."""
    LINK_VERSION_CHAIN = 118
    """Version records are more or fewer than told."""
    OTHER_DATA = 201
    """A section holds other data than what is asked for."""
    NO_RECORD = 202
    """A table has no record with this index."""
    NOT_FOUND = 203
    """Nothing has this name."""
    MANY_OBJECTS = 204
    """There are more than 64 objects."""
    NO_BUILD_ID = 211
    """A debug file has no build id."""
    OTHER_BUILD_ID = 212
    """A debug file has another build id."""
    OTHER_CHECKSUM = 213
    """A debug file has another CRC."""
    LOAD_TYPE = 301
    """Type is neither executable nor shared object."""
    LOAD_ENTRY_SIZE = 302
    """Program headers are not of the size of the class."""
    LOAD_COUNT = 303
    """Program header table is empty or larger than a page."""
    LOAD_TABLE = 304
    """Program header table is past the end of the file."""
    LOAD_FILE_SIZE = 305
    """Load segment is larger in the file than in memory."""
    LOAD_EMPTY = 306
    """Load segment is empty."""
    LOAD_MISALIGNED = 307
    """Address and offset of a load segment differ modulo the page size."""
    LOAD_ALIGNMENT = 308
    """Alignment of a load segment is not a power of two."""
    LOAD_RANGE = 309
    """Load segment is past the address limit."""
    LOAD_DATA = 310
    """Load segment is past the end of the file."""
    LOAD_OVERLAP = 311
    """Load segment begins before the end of the one before it."""
    LOAD_ZEROS = 312
    """Load segment has zeros but is not readable and writable."""
    LOAD_NO_LOAD = 313
    """No load segment."""
    LOAD_HEADERS = 314
    """Program headers are not where the file says they are in memory."""
    LOAD_INTERPRETER = 315
    """Path of the interpreter is not valid."""
    LOAD_RELRO = 316
    """Part that is read-only after relocation is in no load segment."""
    LOAD_TLS = 317
    """Thread-local storage is not valid."""
    LOAD_IMAGE_SIZE = 318
    """Image is not of the size of the span."""
    LOAD_DYNAMIC = 319
    """Dynamic segment is in no readable load segment."""
    LOAD_NO_ENTRY = 320
    """No string table or no symbols."""
    LOAD_RELOCATION_SIZE = 321
    """Size of relocations is not that of the class."""
    LOAD_NOT_MULTIPLE = 322
    """Table of relocations is not a whole number of them."""
    LOAD_UNREADABLE = 323
    """Table of the dynamic segment is in no readable load segment."""
    LOAD_SLOT_KIND = 324
    """Kind of relocations of the procedure linkage table is neither Rel nor Rela."""
    LOAD_MACHINE = 325
    """Machine is not supported."""
    LOAD_FEW_MARKS = 326
    """Marks have fewer bits than the load segments have bytes."""
    LOAD_WORD_TYPE = 327
    """Type of a relocation is not supported."""
    LOAD_WORD_ADDRESS = 328
    """Word is in no load segment."""
    LOAD_READ_ONLY = 329
    """Word is in a load segment that is not writable."""
    LOAD_WORDS_OVERLAP = 330
    """Words overlap."""
    LOAD_WORD_IN_TABLE = 331
    """Word is in a table of the dynamic segment."""
    LOAD_UNRESOLVED = 332
    """Symbol is in no object."""
    LOAD_COPY_SOURCE = 333
    """Bytes to copy are not in the image of their object."""
    LOAD_BYTE_ORDER = 334
    """Byte order is not little-endian."""
    LOAD_IDENT_VERSION = 335
    """Version in the first bytes is not 1."""
    LOAD_OS_ABI = 336
    """ABI of the operating system is neither System V nor GNU."""
    LOAD_ABI_VERSION = 337
    """Version of the ABI is not known."""
    LOAD_PADDING = 338
    """Bytes 9 to 15 are not zero."""
    LOAD_VERSION = 339
    """Version of the file is not 1."""
    LOAD_EXECUTABLE = 340
    """Program at a fixed address is no library."""
    LOAD_NO_DYNAMIC = 341
    """No dynamic segment."""
    LOAD_ENTRY = 342
    """Entry point is past the address limit."""
    LOAD_NO_ADDENDS = 343
    """Relocations without addends in a file of class 64."""
    LOAD_NO_SLOTS = 344
    """No table of the procedure linkage table for its kind of relocations."""
    LOAD_FIRST_PACKED = 345
    """First packed relocation is not an address."""
    LOAD_RELATIVE_COUNT = 346
    """Fewer relative relocations than are counted."""
    LOAD_SLOT_TYPE = 347
    """Type of a relocation is not for the procedure linkage table."""
    LOAD_NO_SIZE = 348
    """Size of a symbol that is in no object."""
    LOAD_COPY_KIND = 349
    """Symbol to copy is absolute or an indirect function."""
    LOAD_CALL_SYMBOL = 350
    """Relocation by a function that names a symbol."""
    LOAD_ADDENDS = 351
    """Relocations with addends in a file of class 32."""
    INDEX_MANY_SYMBOLS = 401
    """Table has 2^32 symbols or more."""
    INDEX_FEW_WORDS = 402
    """Too few words for the index."""
    SEARCH_FILE_DATA = 501
    """cannot read file data."""
    SEARCH_SHORT_FILE = 502
    """file too short."""
    SEARCH_MAGIC = 503
    """invalid ELF header."""
    SEARCH_BYTE_ORDER = 504
    """ELF file data encoding not little-endian."""
    SEARCH_IDENT_VERSION = 505
    """ELF file version ident does not match current one."""
    SEARCH_OS_ABI = 506
    """ELF file OS ABI invalid."""
    SEARCH_ABI_VERSION = 507
    """ELF file ABI version invalid."""
    SEARCH_PADDING = 508
    """nonzero padding in e_ident."""
    SEARCH_VERSION = 509
    """ELF file version does not match current one."""
    SEARCH_TYPE = 510
    """only ET_DYN and ET_EXEC can be loaded."""
    SEARCH_ENTRY_SIZE = 511
    """ELF file's phentsize not the expected size."""
    SEARCH_NO_LOAD = 512
    """object file has no loadable segments."""
    SEARCH_EXECUTABLE = 513
    """cannot dynamically load executable."""
    SEARCH_NO_DYNAMIC = 514
    """object file has no dynamic section."""
    SEARCH_SHARED_EXECUTABLE = 515
    """cannot dynamically load position-independent executable."""
    SEARCH_EMPTY_TOKEN = 516
    """empty dynamic string token substitution."""
    SEARCH_NOT_A_CACHE = 517
    """not a cache of libraries."""
    SEARCH_CACHE_COUNT = 518
    """entries extend past the end of the cache."""
    SEARCH_CACHE_ORDER = 519
    """cache is of another byte order."""
    SEARCH_FEW_WORDS = 520
    """too few words for the objects."""
    SEARCH_NO_OBJECT = 521
    """no such object or entry."""
    SEARCH_CACHE_ENTRY = 522
    """key or value past the end of the cache."""
    SEARCH_CACHE_NUMBER = 523
    """number in a key of the cache is too large."""
    SEARCH_CACHE_ENTRY_ORDER = 524
    """entries of the cache are not in order."""
    SEARCH_CACHE_EXTENSION = 525
    """extension of the cache is damaged."""
    SEARCH_HWCAPS_NAME = 526
    """name of hwcaps past the end of the cache."""
    SEARCH_HWCAPS_ORDER = 527
    """names of hwcaps are not in order."""
    SEARCH_NO_PROVIDER = 530
    """file of a need of versions is no object."""


# The size of the longest text of a status, in bytes.
LONGEST_MESSAGE = 74
