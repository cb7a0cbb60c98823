"""The difference of the sizes of two files beside `elfsize --diff`, and separate debug files that `objcopy` makes."""
import pathlib
import shutil
import subprocess
import zlib

import pytest
from conftest import ROOT, system_files

import xmas_elf
from xmas_elf import DebugHow, ElfFile, PartKind, Status, size_diff

ELFSIZE = ROOT / "crates/elfsize/out/elfsize"
SOURCE = """
int used(int it) { return it * 3; }
static int table[SIZE] = {1, 2, 3};
int value(int it) { return table[it % 4] + used(it); }
#ifdef MORE
int more(int it) { return value(it) + 1; }
#endif
int main(int count, char **words) { (void)words; return value(count) & 1; }
"""


def compiled(folder, name, *flags):
    path = folder / name
    command = ["gcc", "-x", "c", "-", "-g", "-Wl,--build-id", "-o", str(path), *flags]
    subprocess.run(command, input=SOURCE, text=True, check=True)
    return path


def objcopy(*words):
    subprocess.run(["objcopy", *map(str, words)], check=True)


def lines_of_elfsize(*words):
    said = subprocess.run([ELFSIZE, "--diff", *map(str, words)], capture_output=True, check=True).stdout.decode()
    return said.partition("all parts\n")[0].splitlines()


def compare(old, new, symbols):
    with ElfFile.load_from_path(old) as one, ElfFile.load_from_path(new) as other:
        changes = size_diff(one, other, symbols)
        assert sum(it.difference for it in changes) == len(other.input) - len(one.input)
        assert [abs(it.difference) for it in changes] == sorted((abs(it.difference) for it in changes), reverse=True)
    if ELFSIZE.exists():
        assert [str(it) for it in changes] == lines_of_elfsize(*["--symbols", "--no-debug"] * symbols, old, new), (old, new)
    return changes


@pytest.mark.parametrize("symbols", [False, True])
def test_differences_of_two_builds(tmp_path, symbols):
    old, new = compiled(tmp_path, "old", "-DSIZE=8"), compiled(tmp_path, "new", "-DSIZE=4000", "-DMORE")
    changes = {(it.kind, it.name): it for it in compare(old, new, symbols)}
    grown = changes[(PartKind.SYMBOL, "table") if symbols else (PartKind.SECTION, ".data")]
    assert grown.difference == 4 * (4000 - 8) and grown.old_index and grown.new_index
    if symbols:
        more = changes[PartKind.SYMBOL, "more"]
        assert (more.old_index, more.old_size) == (None, 0) and str(more) == f"+{more.new_size} -> {more.new_size} new symbol more"
    gone = compare(new, old, symbols)
    assert [-it.difference for it in gone] == [it.difference for it in changes.values()]
    assert compare(old, old, symbols) == []


@pytest.mark.parametrize("symbols", [False, True])
def test_differences_of_files_of_the_system(symbols):
    files = system_files(60)
    for old, new in zip(files, files[1:]):
        compare(old, new, symbols)


def test_parts_of_one_name_are_matched_in_their_order(tmp_path):
    text = '.section .a,"a",unique,{}\n.fill {}\n'
    for name, sizes in (("old", (10, 20, 30)), ("new", (10, 25))):
        source = "".join(text.format(*it) for it in enumerate(sizes))
        subprocess.run(["as", "-o", tmp_path / name, "-"], input=source, text=True, check=True)
    changes = [it for it in compare(tmp_path / "old", tmp_path / "new", False) if it.name == ".a"]
    assert [(it.old_size, it.new_size) for it in changes] == [(30, 0), (20, 25)]


@pytest.fixture
def stripped(tmp_path):
    """A program without symbols, and its debug file with a link to it."""
    whole, program, debug = compiled(tmp_path, "whole", "-DSIZE=8"), tmp_path / "bin/program", tmp_path / "bin/program.debug"
    program.parent.mkdir()
    objcopy("--only-keep-debug", whole, debug)
    objcopy("--strip-all", whole, program)
    objcopy(f"--add-gnu-debuglink={debug}", program)
    return program, debug


def found(program, *search):
    with ElfFile.load_from_path(program) as file:
        debug = file.debug_file(search=tuple(map(str, search)))
        return debug and debug.path


def test_debug_file_by_link(stripped, tmp_path):
    program, debug = stripped
    assert found(program, tmp_path / "none") == str(debug)
    with ElfFile.load_from_path(program) as file, file.debug_file() as symbols:
        assert "value" in {it.name for it in symbols.symbols()}
        assert next(iter(file.debug_candidates())).how == DebugHow.BUILD_ID
    for folder in (debug.parent / ".debug", tmp_path / "store" / str(debug.parent)[1:]):
        folder.mkdir(parents=True)
        moved = folder / debug.name
        debug.rename(moved)
        assert found(program, tmp_path / "store") == str(moved)
        moved.rename(debug)
    link = tmp_path / "link"
    link.symlink_to(program)
    assert found(link) == str(debug)


def test_debug_file_by_build_id(stripped, tmp_path):
    program, debug = stripped
    with ElfFile.load_from_path(program) as file:
        build_id = file.build_id.hex()
    place = tmp_path / "store/.build-id" / build_id[:2] / f"{build_id[2:]}.debug"
    place.parent.mkdir(parents=True)
    debug.rename(place)
    assert found(program, tmp_path / "none", tmp_path / "store") == str(place)
    with ElfFile(program.read_bytes()) as file, file.debug_file(search=(str(tmp_path / "store"),)) as symbols:
        assert symbols.path == str(place)


def test_why_a_file_is_no_debug_file(stripped, tmp_path):
    """A byte more changes the CRC; of another program the build id is another; a text is no ELF file; and one has no build id."""
    program, debug = stripped
    with ElfFile.load_from_path(program) as file:
        place = pathlib.Path(next(iter(file.debug_candidates((str(tmp_path / "store"),)))).path)
        place.parent.mkdir(parents=True)
        for write, status in (
            (lambda: shutil.copy(compiled(tmp_path, "other", "-DSIZE=9"), place), Status.OTHER_BUILD_ID),
            (lambda: shutil.copy(compiled(tmp_path, "plain", "-DSIZE=9", "-Wl,--build-id=none"), place), Status.NO_BUILD_ID),
            (lambda: place.write_bytes(b"a text that is longer than a header"), Status.NO_MAGIC),
        ):
            write()
            debug.write_bytes(debug.read_bytes() + b"\0")
            said = list(file.debug_candidates((str(tmp_path / "store"),)))
            assert [it.status for it in said] == [status, Status.OTHER_CHECKSUM, None, None]
            assert file.debug_file((str(tmp_path / "store"),)) is None
        assert [it.how for it in said] == list(DebugHow)


def test_crc_is_that_of_zlib():
    for data in (b"", b"a", b"123456789", bytes(range(256)) * 77):
        assert xmas_elf.debug_crc(data) == zlib.crc32(data)
