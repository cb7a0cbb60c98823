"""Reads ELF files by the proved library `elf_c`.

    with ElfFile.load_from_path("/bin/ls") as file:
        print(file.overview())
        for symbol in file.symbols():
            print(hex(symbol.value), symbol.name)

Data is a `memoryview` of the input. A part that can't be read raises `ElfError`, with the status that says why. Numbers
have the names of the standard: `constants.SHT(11)` is `SHT_DYNSYM`. `survey` makes a table of many files.
"""
from ._addresses import SymbolAt
from ._archive import ElfError
from ._debug import DebugCandidate, DebugHow, debug_crc
from ._declarations import Status
from ._differences import PartKind, SizeChange, size_diff
from ._file import ElfFile
from ._hardening import Hardening
from ._loading import Addresses, Contents, Loader, LoadPlan, Mapping, TlsTemplate, Verdict
from ._overview import Overview
from ._parts import Dynamic, Header, Note, Relocation, Section, Segment, Symbol
from ._pieces import Owner, Piece, SymbolPiece
from ._process import LoadObject, Relocated, check_image, loads, relocate, relocate_all, with_thread_storage
from ._survey import elf_files, hardening, hardening_row, survey, survey_row, write_csv
from ._tree import Lack, MissingName, MissingVersion, Tree, TreeObject
from ._versions import Version, VersionKind

__version__ = "0.1.0"

__all__ = [
    "Addresses", "Contents", "DebugCandidate", "DebugHow", "Dynamic", "ElfError", "ElfFile", "Hardening", "Header", "Lack",
    "LoadObject", "LoadPlan", "Loader", "Mapping", "MissingName", "MissingVersion", "Note", "Overview", "Owner", "PartKind",
    "Piece", "Relocated", "Relocation", "Section", "Segment", "SizeChange", "Status", "Symbol", "SymbolAt", "SymbolPiece",
    "TlsTemplate", "Tree", "TreeObject", "Verdict", "Version", "VersionKind", "check_image", "debug_crc", "elf_files",
    "hardening", "hardening_row", "loads", "relocate", "relocate_all", "size_diff", "survey", "survey_row",
    "with_thread_storage", "write_csv",
]
