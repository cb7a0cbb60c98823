"""Tables of many files."""
from __future__ import annotations

import csv
import os
import sys
from concurrent.futures import ProcessPoolExecutor
from functools import partial
from typing import Any, Callable, Dict, Iterable, Iterator, List, Optional, Sequence, TextIO, Union

from ._archive import ElfError
from ._file import ElfFile
from ._hardening import Hardening
from ._overview import Overview
from ._versions import VersionKind

Path = Union[str, "os.PathLike[str]"]
Row = Dict[str, Any]

COLUMNS = ("path", *Overview._fields, "imported_versions", "exported_versions", "error")
"""The columns of a row of `survey`."""

HARDENING_COLUMNS = ("path", *Hardening._fields, "error")
"""The columns of a row of `hardening`."""


def elf_files(paths: Union[Path, Iterable[Path]]) -> Iterator[str]:
    """The ELF files among paths, and in the folders among them, in the order of their names. Symbolic links in folders
    aren't followed. A path that isn't there raises OSError."""
    for path in [paths] if isinstance(paths, (str, os.PathLike)) else paths:
        path = os.fspath(path)
        if not os.path.isdir(path):
            os.stat(path)
            yield path
            continue
        for folder, folders, names in os.walk(path):
            folders.sort()
            yield from (it for name in sorted(names) for it in [os.path.join(folder, name)] if _is_elf(it))


def _is_elf(path: str) -> bool:
    if os.path.islink(path) or not os.path.isfile(path):
        return False
    try:
        with open(path, "rb") as stream:
            return stream.read(4) == b"\x7fELF"
    except OSError:
        # `survey_row` says why it can't be read.
        return True


def _row(path: Path, columns: Sequence[str], read: Callable[[ElfFile], Row]) -> Row:
    """A row with the columns that are read of a file, or with the reason why it can't be."""
    row: Row = dict.fromkeys(columns)
    row["path"] = os.fspath(path)
    try:
        with ElfFile.load_from_path(path) as file:
            row.update(read(file))
    except (ElfError, OSError) as error:
        row["error"] = str(error)
    return row


def survey_row(path: Path) -> Row:
    """The row of a file: its path, the fields of `ElfFile.overview`, the versions that it needs, as `libc.so.6:GLIBC_2.4`,
    and those that it defines. If the file can't be read, `error` says why, and the other values are None."""
    return _row(path, COLUMNS, _columns)


def hardening_row(path: Path, libc: Optional[Path] = None) -> Row:
    """The row of a file: its path, the fields of `ElfFile.hardening`, and `error`."""
    return _row(path, HARDENING_COLUMNS, lambda file: file.hardening(libc)._asdict())


def _columns(file: ElfFile) -> Row:
    overview = file.overview()
    # Plain texts, for tables.
    named = {"type": str(overview.type), "machine": str(overview.machine)}
    needs = sorted({f"{it.library}:{it.name}" for it in file.version_needs()})
    definitions = {str(it.name) for it in file.version_definitions() if it.kind == VersionKind.DEFINED and not it.is_base}
    return {**overview._asdict(), **named, "imported_versions": needs, "exported_versions": sorted(definitions)}


def _rows(read: Callable[[str], Row], paths: Union[Path, Iterable[Path]], processes: Optional[int], progress: bool) -> List[Row]:
    files = list(elf_files(paths))
    lines = _Progress(len(files), sys.stderr if progress else None)
    if processes == 1:
        return lines.done([lines.counted(read(path)) for path in files])
    with ProcessPoolExecutor(processes) as pool:
        return lines.done([lines.counted(row) for row in pool.map(read, files, chunksize=16)])


def survey(paths: Union[Path, Iterable[Path]], processes: Optional[int] = 1, progress: bool = True) -> List[Row]:
    """The rows of all files of `elf_files(paths)`, in their order, by as many processes; by one for each processor if it
    is None. A progress line and the number of files that couldn't be read are written to the standard error."""
    return _rows(survey_row, paths, processes, progress)


def hardening(
    paths: Union[Path, Iterable[Path]], processes: Optional[int] = 1, progress: bool = True, libc: Optional[Path] = None
) -> List[Row]:
    """The rows of `hardening_row` of all files, as `survey` reads them."""
    return _rows(partial(hardening_row, libc=libc), paths, processes, progress)


def _cell(value: Any) -> Any:
    if isinstance(value, (list, tuple)):
        return ";".join(value)
    return ("yes" if value else "no") if isinstance(value, bool) else value


def write_csv(rows: Iterable[Row], stream: TextIO) -> None:
    """Writes rows as comma-separated values, the names of the columns first. The parts of a list have `;` between them, a
    truth value is `yes` or `no`, and None is empty."""
    table: Any = None
    for row in rows:
        if table is None:
            table = csv.DictWriter(stream, list(row), lineterminator="\n")
            table.writeheader()
        table.writerow({name: _cell(value) for name, value in row.items()})


class _Progress:
    """The line that says how many files are read."""

    def __init__(self, total: int, stream: Optional[TextIO]) -> None:
        self.total, self.stream = total, stream
        self.read = self.failed = 0

    def counted(self, row: Row) -> Row:
        self.read += 1
        self.failed += row["error"] is not None
        if self.stream and self.stream.isatty() and self.read % 16 == 0:
            self.stream.write(f"\r{self}")
        return row

    def done(self, rows: List[Row]) -> List[Row]:
        if self.stream:
            self.stream.write(f"\r{self}\n" if self.stream.isatty() else f"{self}\n")
        return rows

    def __str__(self) -> str:
        return f"{self.read} of {self.total} files, {self.failed} couldn't be read"
