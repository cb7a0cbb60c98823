"""Which loader is asked about a file, and what it says: beside what Linux and glibc did with the files of `oracle/loaders.py`."""
import subprocess

import loaders
import pytest

import xmas_elf
from xmas_elf import ElfError, ElfFile, Loader, Status, Tree, constants

LIBC = "/lib/x86_64-linux-gnu/libc.so.6"
# Errors of files that Linux and glibc load, each the first error of the plan.
OF_PLANS = {"Alignment": Status.LOAD_ALIGNMENT, "Overlap": Status.LOAD_OVERLAP, "Zeros": Status.LOAD_ZEROS, "Data": Status.LOAD_DATA}


def made():
    """Each file: the error, the change, which file is changed, the loader of this kind of file, and what it did."""
    for error, change, linux, glibc in loaders.CASES:
        yield error, change, "program", Loader.LINUX, linux
        yield error, change, "library", Loader.GLIBC, glibc
    for error, change, fixed, moved in loaders.STATIC:
        yield error, change, "fixed", Loader.LINUX, fixed
        yield error, change, "moved", Loader.LINUX, moved
    for error, change, asking, moved in loaders.SPANS:
        yield error, change, "program", Loader.LINUX, asking
        yield error, change, "moved", Loader.LINUX, moved
    for error, change, did in loaders.STARTED:
        yield error, change, "library", Loader.GLIBC, did


# A library of type ET_EXEC is a program by its kind, which Linux wasn't asked about.
MADE = [it for it in made() if it[-1] and it[:3:2] != ("Executable", "library")]


@pytest.fixture(scope="module")
def room(tmp_path_factory):
    return loaders.Room(str(tmp_path_factory.mktemp("made")), "")


@pytest.mark.parametrize("error, change, name, by, did", MADE, ids=[f"{it[0]}, {it[2]}" for it in MADE])
def test_made_files_beside_their_loaders(room, error, change, name, by, did):
    file = ElfFile.load_from_path(room.changed(change, name))
    by = by if file.header.type == constants.ET_DYN else Loader.LINUX
    verdict = file.loads()
    assert (file.loader, verdict.by) == (by, by)
    assert bool(verdict) == (not loaders.status_wanted(error, did)), str(verdict)
    assert str(verdict) == ("yes" if verdict else f"no: {ElfError(verdict.status)}")


def test_all_made_files_are_taken():
    assert len(MADE) == 133


@pytest.mark.parametrize("error", OF_PLANS)
def test_a_file_that_loads_may_have_no_plan(room, error):
    change = next(it[1] for it in loaders.CASES if it[0] == error)
    for name in ("program", "library"):
        path = room.changed(change, name)
        file = ElfFile.load_from_path(path)
        assert file.loads() and xmas_elf.survey_row(path)["loads"] == "yes"
        with pytest.raises(ElfError) as raised:
            file.load_plan()
        assert raised.value.status == OF_PLANS[error]
        # Memory of the whole program must be known here.
        assert xmas_elf.loads([file]).status == OF_PLANS[error]


def test_trees_ask_linux_about_the_program(room):
    changes = {it[0]: it[1] for it in loaders.CASES}
    for error in OF_PLANS:
        path = str(room.changed(changes[error], "program"))
        assert str(Tree(path).loads()) == "yes" and subprocess.run([path], check=False).returncode == 42
    path = str(room.changed(changes["Misaligned"], "program"))
    verdict = Tree(path).loads()
    assert (verdict.status, verdict.of, verdict.by) == (Status.LOAD_MISALIGNED, 0, Loader.LINUX)
    assert str(verdict) == f"no: {path}: Address and offset of a load segment differ modulo the page size"
    assert subprocess.run([path], check=False).returncode < 0


SOURCE = """
#ifdef INTERPRETER
const char interpreter[] __attribute__((section(".interp"))) = INTERPRETER;
#endif
int main(void) { return 0; }
"""
SHARED = ["-shared", "-fPIC"]


@pytest.mark.parametrize("words, by", [
    (["-no-pie"], Loader.LINUX), (["-pie"], Loader.LINUX), (["-static"], Loader.LINUX), (["-static-pie"], Loader.LINUX),
    (SHARED, Loader.GLIBC), ([*SHARED, "-s"], Loader.GLIBC), ([*SHARED, "-Wl,-soname,a"], Loader.GLIBC),
    ([*SHARED, '-DINTERPRETER="/lib64/ld-linux-x86-64.so.2"'], Loader.GLIBC),
])
def test_the_loader_of_each_kind(tmp_path, words, by):
    subprocess.run(["gcc", "-x", "c", "-", "-o", tmp_path / "a", *words], input=SOURCE, text=True, check=True)
    data = (tmp_path / "a").read_bytes()
    cut = loaders.File(data)
    cut.header(shoff=0, shnum=0, shstrndx=0)
    for file in (ElfFile(data), ElfFile(bytes(cut.held))):
        assert (file.loader, str(file.loads()), file.loads().by) == (by, "yes", by)
        assert (file.overview().pie, file.overview().loads) == (words[0] in ("-pie", "-static-pie"), "yes")
        has_path = any(it.type == constants.PT_INTERP for it in file.segments())
        assert has_path == (words[0] in ("-no-pie", "-pie") or "INTERPRETER" in words[-1])


def test_a_library_that_is_a_program_too():
    file = ElfFile.load_from_path(LIBC)
    assert any(it.type == constants.PT_INTERP for it in file.segments())
    assert (file.loader, str(file.loads())) == (Loader.GLIBC, "yes")
    assert str(Tree(LIBC).loads()) == "yes" and subprocess.run([LIBC], capture_output=True, check=False).returncode == 0


def test_a_program_without_a_dynamic_segment(tmp_path):
    """Of type ET_DYN, at any address: as those that are packed. Linux starts it, and no library is without dynamic entries."""
    source = ".globl _start\n_start: mov $60, %eax\n mov $42, %edi\n syscall\n"
    command = ["gcc", "-nostdlib", "-static", "-no-pie", "-s", "-x", "assembler", "-", "-o", tmp_path / "a"]
    subprocess.run(command, input=source, text=True, check=True)
    file = loaders.File((tmp_path / "a").read_bytes())
    file.header(type=3)
    (tmp_path / "a").write_bytes(file.held)
    assert subprocess.run([tmp_path / "a"], check=False).returncode == 42
    file = ElfFile.load_from_path(tmp_path / "a")
    assert file.header.type == constants.ET_DYN and not list(file.dynamic())
    assert (file.loader, str(file.loads())) == (Loader.LINUX, "yes")


def test_a_big_endian_library_is_taken_by_its_plan(tmp_path):
    command = ["clang", "--target=powerpc64-linux-gnu", "-shared", "-nostdlib", "-fuse-ld=lld", "-x", "c", "-", "-o", tmp_path / "a.so"]
    if subprocess.run(command, input="int one(void) { return 1; }", text=True, capture_output=True).returncode:
        pytest.skip("no clang and lld")
    file = ElfFile.load_from_path(tmp_path / "a.so")
    try:
        wanted = file.load_plan() and Status.OK
    except ElfError as error:
        wanted = error.status
    assert (file.loader, file.loads().status) == (Loader.GLIBC, wanted)


def test_pages_and_limits_are_those_of_the_plan():
    file = ElfFile.load_from_path(LIBC)
    assert file.loads(page=4096, limit=1 << 47) and file.loads(limit=4096).status == Status.LOAD_RANGE
