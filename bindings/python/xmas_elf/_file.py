"""A file, and the parts that it has."""
from __future__ import annotations

import os
from functools import cached_property
from itertools import chain
from typing import Any, BinaryIO, Dict, Iterable, Iterator, List, Optional, Sequence, Tuple, Union

from . import _declarations as declared
from ._addresses import AddressIndex, SymbolAt
from ._archive import ElfError, check, library
from ._debug import SEARCH, DebugCandidate, check_sources, debug_paths_of, opened_candidate
from ._declarations import Status
from ._hardening import Hardening, hardening_of
from ._loading import Loader, LoadPlan, Verdict, load_plan_of, loader_of, verdict_of
from ._numbers import unsigned, utf_8
from ._overview import Overview, overview_of
from ._parts import Dynamic, Header, Note, Relocation, Section, Segment, Symbol
from ._parts import entries_of_segment, packed_relocations_of_segment, relocations_of_segment, section_of, segment_of, symbols_of
from ._parts import up_to_null
from ._pieces import Piece, SectionSymbols, SymbolPiece, pieces_of, symbol_pieces_of
from ._process import load_image_of
from ._reading import Reading
from ._rows import Row, batches, one, rows
from ._versions import Version, versions
from .constants import DT, DT_NEEDED, DT_RPATH, DT_RUNPATH, DT_SONAME, DT_SYMTAB, ELFOSABI, EM, ET
from .constants import NT_GNU_BUILD_ID, PT_LOAD, PT_NOTE
from .constants import SHT_DYNAMIC, SHT_DYNSYM, SHT_NOTE, SHT_REL, SHT_RELA, SHT_RELR, SHT_SYMTAB, SHT_SYMTAB_SHNDX

# Where the type is in the row of a section header.
_TYPE = declared.SectionRecord._fields.index("type") - declared.SectionRecord._fields.index("flags")


class ElfFile(Reading):
    """An ELF file: bytes, a `bytearray`, an `mmap`, a `memoryview`, or a binary file, which is mapped.

        with ElfFile.load_from_path("/bin/ls") as file:
            print(file.overview())

    The bytes must not change while they are read, and a mapped file must not be cut off: a read past its end ends the
    process (SIGBUS). For a file that others write to, pass what `read()` gives."""

    _path: Optional[str] = None

    def __init__(self, source: Union[bytes, bytearray, memoryview, BinaryIO, Any]) -> None:
        super().__init__(source)

    @classmethod
    def load_from_path(cls, path: Union[str, "os.PathLike[str]"]) -> "ElfFile":
        """The file at a path, which is mapped."""
        with open(os.fspath(path), "rb") as stream:
            file = cls(stream)
        file._path = os.fspath(path)
        return file

    @property
    def path(self) -> Optional[str]:
        """The path that the file was loaded from; None for another source."""
        return self._path

    def close(self) -> None:
        """Gives the file back. Its parts that are in use stay readable; other calls of the file raise ValueError."""
        self.__dict__.clear()

    def __enter__(self) -> "ElfFile":
        return self

    def __exit__(self, *raised: object) -> None:
        self.close()

    def __repr__(self) -> str:
        if "_view" not in self.__dict__:
            return "<ElfFile, closed>"
        return f"<ElfFile {self.header.type} {self.header.machine}, {len(self._view)} bytes>"

    @cached_property
    def header(self) -> Header:
        """The ELF header."""
        header = Header._make(declared.HEADER.unpack(self._input[2]))
        return header._replace(type=ET(header.type), machine=EM(header.machine), os_abi=ELFOSABI(header.os_abi))

    @property
    def input(self) -> memoryview:
        """The bytes of the file."""
        return self._view[:]

    @property
    def elfclass(self) -> int:
        """32 or 64."""
        return 64 if self.header.file_class == 2 else 32

    @property
    def little_endian(self) -> bool:
        """The byte order."""
        return self.header.encoding != 2

    def check_header(self) -> None:
        """Raises where the header doesn't agree with the input: its size, class, version, byte order and tables."""
        check(library.xmas_elf_check_header(*self._input))

    def overview(self) -> Overview:
        """What a first look at a file asks for: what it needs, its build id, how it is hardened, and what `loads` says."""
        return overview_of(self)

    def hardening(self, libc: Union[None, str, "os.PathLike[str]"] = None) -> Hardening:
        """How the file is hardened, in the words of `checksec`. The functions that have a checked form are those of the C
        library at the path, of this system's where none is given."""
        return hardening_of(self, libc)

    @property
    def loader(self) -> Loader:
        """The loader that `loads` asks: glibc about a shared library, which is a file of type ET_DYN with dynamic entries, none
        of which marks a program (DF_1_PIE or DT_DEBUG), also if it has an interpreter, as libc.so.6; and Linux about any other
        file."""
        return loader_of(self)

    def loads(self, page: int = 0, limit: int = 0) -> Verdict:
        """Whether one loader maps the file, that of `loader`: Linux as a program, or glibc as a library that a program starts
        with. It is true or false, and the text `yes`, or `no` with the reason. Its header and program headers decide;
        libraries and symbols aren't looked for. A file that is loaded may have no `load_plan`. What glibc tests is known of
        little-endian libraries; a big-endian one must have a plan. `page` and `limit` are those of `load_plan`."""
        return verdict_of(self, unsigned(page), unsigned(limit))

    def load_plan(self, page: int = 0, limit: int = 0) -> LoadPlan:
        """What Linux and glibc put into memory for the file. An error if it has no plan, as some files for which `loads` is
        true. `page` is the size of a page, a power of two, and `limit` the end of the addresses that a loader may use; 0 means
        4096, and for the limit that of Linux: on x86-64, on AArch64 for its files, and on 386 for a file of class 32."""
        return load_plan_of(self, unsigned(page), unsigned(limit))

    def load_image(self, by: Loader = Loader.LINUX, page: int = 0, limit: int = 0) -> bytearray:
        """The bytes that a loader maps before relocation, from the start of the span of the plan on; 0 where nothing is
        mapped."""
        return load_image_of(self, int(by), unsigned(page), unsigned(limit))

    def pieces(self) -> Iterator[Piece]:
        """Which bytes belong to what, in the order of their offsets. Every byte is in exactly one piece, so the sizes sum to
        the size of the file. A byte that several parts cover belongs to a header before a section before a segment, and of
        several sections or segments to the one that begins last, then the smallest, then the first."""
        return pieces_of(self)

    def symbol_pieces(self, section: Union[int, str, Section]) -> Iterator[SymbolPiece]:
        """Which addresses of a section belong to which symbol: that of `symbol_at` with the section as `within`, if its size
        is not 0. Every address is in exactly one piece."""
        return symbol_pieces_of(self, section if isinstance(section, Section) else self.section(section))

    # Separate debug files.

    def debug_file(self, search: Sequence[str] = SEARCH, path: Optional[str] = None) -> Optional["ElfFile"]:
        """The separate debug file of the file, or None: the first of `debug_candidates` that is the debug file. A file that is
        another's, or none, is skipped: `debug_candidates` says why. An error if there is none, and a part of the file that may
        name it can't be read."""
        for how, place in debug_paths_of(self, search, path or self.path):
            _, debug = opened_candidate(self, how, place, ElfFile.load_from_path)
            if debug is not None:
                return debug  # type: ignore[no-any-return]
        check_sources(self, search, path or self.path)
        return None

    def debug_candidates(self, search: Sequence[str] = SEARCH, path: Optional[str] = None) -> Iterator[DebugCandidate]:
        """The paths at which the debug file may be, in the order in which gdb tries them, and what is at each: by the build id
        in the directories of `search`; by the name in `.gnu_debuglink` in the folder of the file at `path`, in `.debug` there,
        and in the same folder under the directories. `path` is that of the file, where it was loaded from a path. A part of the
        file that may name one and can't be read raises after the last path."""
        for how, place in debug_paths_of(self, search, path or self.path):
            status, debug = opened_candidate(self, how, place, ElfFile.load_from_path)
            if debug is not None:
                debug.close()
            yield DebugCandidate(place, how, status)
        check_sources(self, search, path or self.path)

    # Sections.

    def num_sections(self) -> int:
        """How many sections the file says that it has."""
        return self._counts.sections

    def sections(self) -> Iterator[Section]:
        """The sections, from index 0 on. A table that is cut off raises after the last section that is there."""
        rows, failed = self._section_rows
        yield from (self._section_at(index) for index in range(len(rows)))
        check(failed)

    @cached_property
    def _section_rows(self) -> Tuple[List[Tuple[Row, Row]], int]:
        """The fields and the name of each section that can be read, and why not all can be; they are read once."""
        headers = batches("xmas_elf_sections", declared.SECTION, *self._input)
        names = batches("xmas_elf_section_names", declared.NAME, *self._input)
        rows = list(zip(chain.from_iterable(headers), chain.from_iterable(names)))
        # A number of sections that needs more than 16 bits is in the header of section 0, which may be missing.
        if len(rows) == self.num_sections() and (rows or not self.header.sh_offset):
            return rows, 0
        try:
            self._asked("xmas_elf_section", declared.SECTION, len(rows))
        except ElfError as error:
            return rows, int(error.status)
        return rows, 0

    def _section_at(self, index: int) -> Section:
        fields, (offset, size, status) = self._section_rows[0][index]
        return self._section(index, fields, (offset, size), status)

    def section(self, wanted: Union[int, str]) -> Section:
        """The section at an index, or the first with a name: an error if there is none."""
        if isinstance(wanted, str):
            for section in self.sections():
                if section.name == wanted:
                    return section
            raise ElfError(Status.NOT_FOUND)
        if unsigned(wanted) >= self.num_sections():
            raise ElfError(Status.NO_RECORD)
        if wanted >= len(self._section_rows[0]):
            check(self._section_rows[1])
        return self._section_at(wanted)

    def _section(self, index: int, fields: Row, name: Row, status: int) -> Section:
        return section_of(self, index, None if status else self._text_in(name), status, fields)

    # Segments.

    def num_segments(self) -> int:
        """How many segments the file says that it has."""
        return self._counts.segments

    def segments(self) -> Iterator[Segment]:
        """The segments, from index 0 on. A table that is cut off raises after the last segment that is there."""
        yield from (segment_of(self, index, fields) for index, fields in enumerate(self._segment_rows))
        if len(self._segment_rows) < self.num_segments():
            self._asked("xmas_elf_segment", declared.SEGMENT, len(self._segment_rows))

    @cached_property
    def _segment_rows(self) -> List[Row]:
        return list(rows("xmas_elf_segments", declared.SEGMENT, *self._input))

    def segment(self, index: int) -> Segment:
        """The segment at an index."""
        if unsigned(index) >= self.num_segments():
            raise ElfError(Status.NO_RECORD)
        return segment_of(self, index, self._asked("xmas_elf_segment", declared.SEGMENT, index))

    # Symbols and relocations.

    def symbols(self) -> Iterator[Symbol]:
        """The symbols of all symbol tables, in the order of the sections; without such sections, `dynamic_symbols`."""
        tables = self._sections_of(SHT_SYMTAB, SHT_DYNSYM)
        return chain.from_iterable(it.symbols() for it in tables) if tables else self.dynamic_symbols()

    def dynamic_symbols(self) -> Iterator[Symbol]:
        """The symbols of the dynamic segment with their names (DT_SYMTAB), as many as its hash tables count: GNU's alone
        doesn't count symbols after the last exported one. None if there is no such segment, or no DT_SYMTAB in it. It needs
        no sections."""
        table = self._dynamic_table
        if table is not None:
            yield from symbols_of(self, table)

    def relocations(self) -> Iterator[Relocation]:
        """The relocations of all tables, in the order of the sections. The index of a symbol is one of the symbol table
        that is the section `link` of the table: see `Section.relocations`. Without such sections, those of the dynamic
        segment, whose symbols are `dynamic_symbols`."""
        tables = self._sections_of(SHT_RELA, SHT_REL)
        return chain.from_iterable(it.relocations() for it in tables) if tables else relocations_of_segment(self)

    def packed_relocations(self) -> Iterator[int]:
        """The addresses in the packed relative relocations of sections of type SHT_RELR, or else of the dynamic segment."""
        tables = self._sections_of(SHT_RELR)
        return chain.from_iterable(it.packed_relocations() for it in tables) if tables else packed_relocations_of_segment(self)

    # Versions.

    def dynamic_symbol_versions(self) -> Iterator[Version]:
        """The versions of the symbols of the dynamic segment, in the order of `dynamic_symbols`; none if they have none."""
        table = self._dynamic_table
        if table is None:
            return iter(())
        # Each call counts the symbols anew, so give room for all. No symbol takes fewer than 16 bytes of the input.
        count = declared.SymbolTableRecord._make(declared.SYMBOL_TABLE.unpack(table)).count
        return versions(self, "xmas_elf_dynamic_symbol_versions", max(1, min(count, len(self._view) // 16)))

    def versioned_symbols(self) -> Iterator[Tuple[Symbol, Optional[Version]]]:
        """The symbols of the dynamic segment, each with its version; None for each if they have none."""
        found = list(self.dynamic_symbol_versions())
        return ((symbol, found[index] if found else None) for index, symbol in enumerate(self.dynamic_symbols()))

    def version_definitions(self) -> Iterator[Version]:
        """The versions that the file defines (DT_VERDEF), that of the file itself included. It needs no sections."""
        return versions(self, "xmas_elf_version_definitions", self._all)

    def version_needs(self) -> Iterator[Version]:
        """The versions that the file needs of libraries (DT_VERNEED). It needs no sections."""
        return versions(self, "xmas_elf_version_needs", self._all)

    # Notes.

    def notes(self) -> Iterator[Note]:
        """The notes of all sections of type SHT_NOTE; of a file without such sections, of all segments of type PT_NOTE."""
        sections = self._sections_of(SHT_NOTE)
        return chain.from_iterable(it.notes() for it in sections) if sections else self._notes_of_segments()

    def _notes_of_segments(self) -> Iterator[Note]:
        return chain.from_iterable(it.notes() for it in self.segments() if it.type == PT_NOTE)

    @property
    def build_id(self) -> Optional[memoryview]:
        """The build id: the description of the first note of GNU with type 3 in the sections of type SHT_NOTE, or else in
        the segments of type PT_NOTE. `build_id.hex()` is what `readelf --notes` prints."""
        failed = 0
        for notes in (self.notes, self._notes_of_segments):
            try:
                for note in notes():
                    if note.type == NT_GNU_BUILD_ID and note.name == b"GNU":
                        return note.desc
            except ElfError as error:
                failed = failed or int(error.status)
        check(failed)
        return None

    # The dynamic segment.

    def dynamic(self) -> Iterator[Dynamic]:
        """The dynamic entries up to that with tag 0 (DT_NULL), which is the last: those of the section of type SHT_DYNAMIC,
        or else of the segment of type PT_DYNAMIC. None if the file has neither."""
        table = next(iter(self._sections_of(SHT_DYNAMIC)), None)
        yield from up_to_null(table.dynamic() if table else entries_of_segment(self))

    @property
    def needed(self) -> List[str]:
        """The names of the shared objects that the file needs (DT_NEEDED). It needs no sections."""
        try:
            return [self._named(*name) for name in rows("xmas_elf_dynamic_texts", declared.NAME, *self._input, DT_NEEDED)]
        except ElfError as error:
            if self._has_no_dynamic(error):
                return []
            raise

    @property
    def soname(self) -> Optional[str]:
        """The name of the shared object (DT_SONAME). It needs no sections."""
        return self._dynamic_text(DT_SONAME)

    @property
    def run_path(self) -> Optional[str]:
        """The folders where the dynamic linker looks for shared objects (DT_RUNPATH, or else DT_RPATH). It needs no
        sections."""
        folders = self._dynamic_text(DT_RUNPATH)
        return self._dynamic_text(DT_RPATH) if folders is None else folders

    # Look-ups.

    def symbol_at(self, address: int, within: int = 0) -> Optional[SymbolAt]:
        """The innermost symbol that covers an address: of several one with a size, then the one that begins last, the
        smallest, a function before an object, a global one before a weak one, and the first of its table. The symbols are
        those of the first section of type SHT_SYMTAB, or else of SHT_DYNSYM, or else of the dynamic segment.

        In an object file, where values are offsets in sections, `within` is the index of the section. The first call builds
        an index of the symbols, which the file keeps."""
        return self.symbols_at((address,), within)[0]

    def symbols_at(self, addresses: Iterable[int], within: int = 0) -> List[Optional[SymbolAt]]:
        """The symbols of many addresses, each that of `symbol_at`, in their order; None if no symbol covers one."""
        numbers = [unsigned(address) for address in addresses]
        index = self._address_index(within)
        return index.symbols_at(numbers) if index else [None] * len(numbers)

    def _address_index(self, within: int) -> Optional[AddressIndex]:
        if within not in self._address_indexes:
            self._address_indexes[within] = self._new_address_index(within)
        return self._address_indexes[within]

    def _new_address_index(self, within: int) -> Optional[AddressIndex]:
        # No section has an index of more than 32 bits.
        if self._address_table is None or unsigned(within) >> 32:
            return None
        return AddressIndex(self, *self._address_table, within)

    @cached_property
    def _address_table(self) -> Optional[Tuple[Any, Tuple[int, int]]]:
        """The symbols that name addresses, and the range of their section indices that need more than 16 bits."""
        sections = list(self.sections())
        symbols = next((it for type in (SHT_SYMTAB, SHT_DYNSYM) for it in sections if it.type == type), None)
        table = self._table("xmas_elf_symbols_open", symbols.index) if symbols else self._dynamic_table
        if table is None:
            return None
        # A symbol without a name names no address.
        check(declared.SymbolTableRecord._make(declared.SYMBOL_TABLE.unpack(table)).strings_status)
        wide = next((it for it in sections if symbols and it.type == SHT_SYMTAB_SHNDX and it.link == symbols.index), None)
        return table, (wide.offset, wide.size) if wide else (0, 0)

    @cached_property
    def _section_symbols(self) -> Optional[SectionSymbols]:
        return None if self._address_table is None else SectionSymbols(self, *self._address_table)

    @cached_property
    def _address_indexes(self) -> Dict[int, Optional[AddressIndex]]:
        return {}

    def bytes_at(self, address: int, count: int) -> memoryview:
        """The bytes for `count` addresses from `address` on, as a loader maps them: those of the last segment of type PT_LOAD
        that has them all in the file; else those of the first that has them all in memory, where zeros follow the bytes of
        the file (`.bss`). An error if no segment has them."""
        try:
            return self._stored_at(unsigned(address), unsigned(count))
        except ElfError as error:
            segment = self._segment_in_memory(address, count) if error.status == Status.LINK_ADDRESS else None
            if segment is None:
                raise
        stored = max(0, segment.virtual_addr + segment.file_size - address)
        return memoryview(bytes(self._stored_at(address, stored) if stored else b"") + bytes(count - stored))

    def _stored_at(self, address: int, count: int) -> memoryview:
        """The bytes of the file for addresses."""
        return self._slice("xmas_elf_bytes_at", address, count)

    def _segment_in_memory(self, address: int, count: int) -> Optional[Segment]:
        loads = (it for it in self.segments() if it.type == PT_LOAD)
        return next((it for it in loads if it.virtual_addr <= address and address + count <= it.virtual_addr + it.mem_size), None)

    def symbol(self, name: str, version: Optional[str] = None) -> Optional[Symbol]:
        """The symbol that `dlsym` gets by a name, or `dlvsym` by a name and a version. It needs no sections. Of several with the
        name and no version asked for it is the first without a version (of number 0 or 1), and else that of the default
        version.

        If there is none, and no version is asked for, it is the first of the symbols that `dlsym` can't get: those of
        sections of type SHT_SYMTAB, and those that aren't defined here. One that is defined comes first."""
        failed: Optional[ElfError] = None
        try:
            symbol = self._found(name, "" if version is None else version)
        except ElfError as error:
            symbol, failed = None, error
        if symbol is None and version is None:
            symbol = self._by_name.get(name)
            # One of those without a name may be it.
            if symbol is None and failed is None:
                check(self._nameless)
        if symbol is None and failed is not None and not self._has_no_dynamic(failed):
            raise failed
        return symbol

    def _found(self, name: str, version: str) -> Optional[Symbol]:
        sought, wanted = utf_8(name), utf_8(version)
        try:
            fields = self._asked("xmas_elf_find_symbol", declared.FOUND_SYMBOL, sought, len(sought), wanted, len(wanted))
        except ElfError as error:
            if error.status == Status.TEXT_UTF_8:
                return None
            raise
        return Symbol(name, 0, *fields[:-2]) if fields[-2] else None

    @cached_property
    def _by_name(self) -> Dict[str, Symbol]:
        found: Dict[str, Symbol] = {}
        for symbol in self._not_served():
            if symbol.name and (symbol.name not in found or symbol.is_defined > found[symbol.name].is_defined):
                found[symbol.name] = symbol
        return found

    @cached_property
    def _nameless(self) -> int:
        """Why the name of the first symbol without one can't be read; 0 if there is none."""
        return next((it.name_status for it in self._not_served() if it.name_status), 0)

    def _not_served(self) -> Iterator[Symbol]:
        """The symbols that a look-up in the dynamic segment doesn't find; all if it can't be read."""
        try:
            dynamic = self._dynamic_table is not None
        except ElfError:
            dynamic = False
        for table in self._sections_of(SHT_SYMTAB, SHT_DYNSYM):
            for symbol in table.symbols():
                if table.type == SHT_SYMTAB or not dynamic or not symbol.is_defined:
                    yield symbol

    # The archive's results.

    def _sections_of(self, *types: int) -> List[Section]:
        rows, failed = self._section_rows
        check(failed)
        return [self._section_at(index) for index, (fields, _) in enumerate(rows) if fields[_TYPE] in types]

    def _dynamic_text(self, tag: int) -> Optional[str]:
        """The text that the first dynamic entry with a tag names."""
        try:
            return self._named(*one("xmas_elf_dynamic_texts", declared.NAME, *self._input, tag, 0))
        except ElfError as error:
            if error.status == Status.NO_RECORD or self._has_no_dynamic(error):
                return None
            raise

    @property
    def _dynamic_table(self) -> Any:
        """The symbols of the dynamic segment, found once; None without a segment, and without an entry DT_SYMTAB in it."""
        try:
            return self._table("xmas_elf_dynamic_symbols_open")
        except ElfError as error:
            if self._has_no_dynamic(error):
                return None
            if error.status == Status.LINK_NO_ENTRY and all(it.tag != DT_SYMTAB for it in entries_of_segment(self)):
                return None
            raise

    @property
    def _all(self) -> int:
        """Room for the versions of most files at once, since each call reads the records from the first on."""
        return min(4096, 1 + len(self._view) // 16)

    @cached_property
    def _counts(self) -> declared.CountsRecord:
        return declared.CountsRecord._make(self._asked("xmas_elf_counts", declared.COUNTS))
