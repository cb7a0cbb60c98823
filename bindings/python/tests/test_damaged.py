"""Damaged files: each call returns, or raises ElfError, and nothing else."""
import gc
import re
import shutil
import subprocess
import sys

import damage
import pytest
from conftest import PYTHON, ROOT

from xmas_elf import ElfError, ElfFile, LoadObject, Tree, relocate, size_diff
from xmas_elf._archive import check


def tried(call):
    """What a call gives, or None where it returns an error."""
    try:
        return call()
    except ElfError as error:
        assert str(error) and error.status
        return None


def spent(items):
    """The items up to the first error."""
    found = []
    tried(lambda: found.extend(items()))
    return found


def read_section(section):
    tried(section.check)
    tried(section.data)
    for items in (section.symbols, section.relocations, section.dynamic, section.notes):
        spent(items)
    for index in (0, 1, 1 << 40):
        tried(lambda: section.symbol(index))
        tried(lambda: section.text(index))


def read_all(data):
    file = tried(lambda: ElfFile(data))
    if file is None:
        return 0
    tried(file.check_header)
    for section in spent(file.sections):
        read_section(section)
    for segment in spent(file.segments):
        tried(segment.check)
        tried(segment.data)
        spent(segment.notes)
    for items in (file.symbols, file.relocations, file.packed_relocations, file.notes, file.dynamic, file.dynamic_symbols):
        spent(items)
    for property in ("needed", "soname", "run_path", "build_id"):
        tried(lambda: getattr(file, property))
    for name in ("malloc", "one", "", "\udcff", "ä"):
        tried(lambda: file.symbol(name))
        tried(lambda: file.section(name))
    tried(lambda: file.bytes_at(1 << 63, 1 << 63))
    for within in (0, 1, 0xffff):
        found = tried(lambda: file.symbols_at((0, 0x401000, 1 << 63), within))
        assert all(it is None or it.offset < max(it.symbol.size, 1) for it in found or ())
    pieces = list(file.pieces())
    assert [it.begin for it in pieces] + [len(data)] == [0] + [it.end for it in pieces]
    for section in spent(file.sections):
        inside = spent(lambda: file.symbol_pieces(section))
        assert all(one.end == other.begin for one, other in zip(inside, inside[1:]))
    plan = tried(file.load_plan)
    assert plan is None or all(plan.span.start <= it.start < it.end <= plan.span.end for it in plan.mappings())
    return 1


@pytest.mark.parametrize("seed", (1, 2))
def test_damaged_files(seed):
    opened = sum(read_all(damage.damaged(seed, index)) for index in range(300))
    assert opened > 200


@pytest.mark.parametrize("size", (0, 1, 4, 16, 51, 52, 63, 64, 65))
def test_short_files(size):
    whole = damage.worked(True, "little")
    read_all(whole[:size])


def test_file_cut_in_its_sections():
    whole = damage.worked(True, "little")
    file = ElfFile(whole[:-1])
    sections = iter(file.sections())
    for _ in range(file.num_sections() - 1):
        next(sections)
    with pytest.raises(ElfError, match="section header offset"):
        next(sections)


def program_of_the_page():
    """The first program of the package's page, of a path that is given, without what the overview says of the loader."""
    program = re.search(r"^```python$(.*?)^```$", (PYTHON / "README.md").read_text(), re.M | re.S)[1]
    changed = program.replace('"/usr/lib/x86_64-linux-gnu/libc.so.6"', "sys.argv[1]").replace("file.overview()", 'file.overview()._replace(loads="")')
    assert changed.count("sys.argv") == changed.count("_replace") == 1
    return "import sys\n" + changed


@pytest.mark.parametrize("program", ["the example", "the page"])
def test_a_program_says_what_is_lost(program, tmp_path, whole):
    """Of fifty files of which parts are missing a program prints all of the file, or why it can't."""
    command = [ROOT / "bindings/examples/symbols.py"] if program == "the example" else ["-c", program_of_the_page()]

    def ended(data):
        (tmp_path / "file").write_bytes(data)
        return subprocess.run([sys.executable, *command, tmp_path / "file"], cwd=PYTHON, env={"PYTHONPATH": str(PYTHON)}, capture_output=True, text=True)

    wanted, found = ended(whole), [ended(data) for data in damage.missing(whole, 1)]
    assert wanted.returncode == 0 and len(found) == 50 and {it.returncode for it in found} == {0, 1}
    for it in found:
        if it.returncode == 0:
            assert (it.stdout, it.stderr) == (wanted.stdout, "")
        elif program == "the example":
            assert str(tmp_path / "file") in it.stderr and "Traceback" not in it.stderr
        else:
            assert re.search(r"^xmas_elf\S*ElfError: \w", it.stderr, re.M)


def named(items, *fields):
    """Names, and fields; an error for the first name that can't be read."""
    found = []
    for it in items:
        check(it.name_status)
        found.append((it.name, *(getattr(it, field) for field in fields)))
    return found


def relocated(file):
    """The words of a program with its libraries, and how many have no number. Its headers aren't among them."""
    files = [file, *(ElfFile.load_from_path(it) for it in LIBRARIES)]
    image = file.load_image()
    numberless = relocate([LoadObject(it, index << 32) for index, it in enumerate(files, 1)], 0, image)
    return bytes(image[PLACES["words"] :]), numberless


def libraries(file):
    PLACES["copy"].write_bytes(file.input)
    tree = Tree(PLACES["copy"])
    if tree.error:
        raise tree.error
    return [[(it.name, it.path, it.how) for it in tree.objects], tree.missing, tree.missing_versions, [it.path for it in tree.start_order]]


LIBRARIES = ("/lib/x86_64-linux-gnu/libc.so.6", "/lib64/ld-linux-x86-64.so.2")
# What new users ask for of a file: each either is an error, or all that the whole file has.
CALLS = {
    "sections": lambda file: named(file.sections(), "type"),
    "segments": lambda file: [it.type for it in file.segments()],
    "symbols": lambda file: named(file.symbols(), "value", "size"),
    "dynamic symbols": lambda file: named(file.dynamic_symbols(), "value", "size"),
    "symbols with their versions": lambda file: [(named([it]), str(version)) for it, version in file.versioned_symbols()],
    "the symbols of addresses": lambda file: [str(it) for it in file.symbols_at(ADDRESSES)],
    "a symbol": lambda file: [file.symbol(it) for it in ("one", "main", "puts")],
    "relocations": lambda file: list(file.relocations()),
    "packed relocations": lambda file: list(file.packed_relocations()),
    "dynamic entries": lambda file: list(file.dynamic()),
    "needed libraries": lambda file: file.needed,
    "versions": lambda file: [str(it) for it in (*file.version_needs(), *file.version_definitions())],
    "notes": lambda file: [(bytes(it.name), bytes(it.desc)) for it in file.notes()],
    "the build id": lambda file: bytes(file.build_id),
    "overview": lambda file: file.overview()._replace(loads=""),
    "hardening": lambda file: file.hardening(),
    "bytes of memory": lambda file: bytes(file.bytes_at(ADDRESSES[0], 64)),
    "the symbols of a section": lambda file: [(it.begin, it.end, it.symbol and named([it.symbol])) for it in file.symbol_pieces(".text")],
    "the plan of a load": lambda file: file.load_plan(),
    "words of memory": relocated,
    "the debug file by its link": lambda file: file.debug_file((), PLACES["whole"]).path,
    "the debug file by its build id": lambda file: file.debug_file((PLACES["store"],)).path,
    "libraries": libraries,
}
# Addresses in the symbols of the whole file. Its path, that of the folder with its debug file and that of a copy, and where words are in memory.
ADDRESSES, PLACES = [], {}
# The build id is in a section and in a segment.
SAFE = ("the build id", "the debug file by its build id")


@pytest.mark.parametrize("call", CALLS)
def test_nothing_is_lost_silently(call, whole):
    """Of fifty files of which parts are missing the call raises, or returns what it does of the whole file. What it asks for may
    be elsewhere in the file."""
    wanted, raised = CALLS[call](ElfFile(whole)), 0
    assert wanted
    for index, data in enumerate(damage.missing(whole, 1)):
        try:
            assert CALLS[call](ElfFile(data)) == wanted, index
        except ElfError:
            raised += 1
    assert index == 49 and (raised or call in SAFE)


@pytest.mark.parametrize("symbols", [False, True])
def test_sizes_are_those_of_the_file(symbols, whole):
    """Each byte of a file of which parts are missing is in one piece, and the differences of the sizes sum to that of the files."""
    summed = 0
    for data in damage.missing(whole, 1):
        file = tried(lambda: ElfFile(data))
        if file is None:
            continue
        assert sum(it.size for it in file.pieces()) == len(data)
        changes = tried(lambda: size_diff(ElfFile(whole), file, symbols))
        assert changes is not None or symbols
        summed += changes is not None
        assert changes is None or sum(it.difference for it in changes) == len(data) - len(whole)
    assert summed > 20


@pytest.fixture(scope="module")
def whole(tmp_path_factory):
    """A program, whose debug file has a link in it, and is in the folder for its build id too."""
    folder = tmp_path_factory.mktemp("whole")
    (folder / "a.c").write_text("#include <stdio.h>\nint one, two, *both[] = {&one, &two}; int main(void) { return puts(\"\") + *both[one]; }\n")
    for command in (
        ["gcc", "a.c", "-o", "a", "-g", "-Wl,-z,pack-relative-relocs,--build-id"], ["objcopy", "--only-keep-debug", "a", "a.debug"],
        ["objcopy", "--strip-debug", "--add-gnu-debuglink=a.debug", "a"],
    ):
        subprocess.run(command, check=True, cwd=folder)
    data = (folder / "a").read_bytes()
    file = ElfFile(data)
    ADDRESSES[:] = [it.value + it.size // 2 for it in file.symbols() if it.size and it.is_defined]
    PLACES.update(whole=str(folder / "a"), store=str(folder / "store"), copy=folder / "copy", words=file.load_plan().relro.start)
    stored = folder / "store/.build-id" / file.build_id.hex()[:2] / f"{file.build_id.hex()[2:]}.debug"
    stored.parent.mkdir(parents=True)
    shutil.copy(folder / "a.debug", stored)
    return data


def test_a_number_of_sections_that_is_lost_is_an_error():
    data = bytearray(damage.worked(True, "little"))
    layout = damage.Layout(True, "little")
    layout.fill(data, 0, layout.header, shnum=0, shoff=len(data) - 20)
    with pytest.raises(ElfError, match="section header offset"):
        list(ElfFile(bytes(data)).sections())


def read_notes(file):
    for part in (*file.sections(), *file.segments()):
        for segment in file.segments():
            list(segment.notes())
        list(part.notes())


def test_kept_errors_are_collected():
    """Errors whose tracebacks keep iterators and views alive, in cycles that only the garbage collector frees."""
    kept = []
    for index in range(300):
        try:
            read_notes(ElfFile(damage.damaged(1, index)))
        except ElfError as error:
            error.cycle = [error]
            kept.append(error)
    assert len(kept) > 100
    kept.clear()
    gc.collect()
