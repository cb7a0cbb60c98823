"""Whether programs load with their libraries, beside `ldd -r`, and the same words by the example in C."""
import pathlib
import re
import subprocess

import pytest
from comparing import spread
from conftest import PYTHON, ROOT

import xmas_elf
from xmas_elf import ElfFile, Status, constants

FILES = 300
# The files of the list that `ldd` prints, and what it says of a file that doesn't load.
LISTED = re.compile(r"^\t(?:\S+ => )?(/\S+) \(0x[0-9a-f]+\)$", re.M)
WRONG = re.compile(r"undefined symbol|symbol \S+, version \S+ not defined|=> not found|version .* not found")

PROGRAM = "extern int number; int twice(void); int main(void) { return number += twice(); }\n"
LIBRARY = "int number = 7; int *number_at = &number; int twice(void) { return 2 * *number_at; }\n"


def ldd(path):
    """The files of a program or a library in the order in which they are loaded, and whether all that they need is there; nothing
    if the linker loads none."""
    done = subprocess.run(["ldd", "-r", path], capture_output=True, text=True, errors="surrogateescape")
    printed = done.stdout + done.stderr
    return None if "not a dynamic executable" in printed else ([str(path), *LISTED.findall(printed)], not WRONG.search(printed))


@pytest.fixture(scope="module")
def program(tmp_path_factory):
    """The example in C."""
    path = tmp_path_factory.mktemp("loads") / "loads"
    library = PYTHON / "xmas_elf/libxmas_elf.so"
    subprocess.run(["gcc", "-std=c11", "-O2", f"-I{ROOT}/bindings/include", ROOT / "bindings/examples/loads.c", library, f"-Wl,-rpath,{library.parent}", "-o", path], check=True)
    return path


def said_of(program, paths):
    """What both say of a program with its libraries."""
    verdict = xmas_elf.loads([ElfFile.load_from_path(it) for it in paths])
    done = subprocess.run([program, *paths], capture_output=True, text=True, errors="surrogateescape")
    assert done.returncode == (0 if verdict else 1), done.stderr
    assert str(verdict) == done.stdout.rstrip("\n"), paths
    assert bool(verdict) == (str(verdict) == "yes") and (verdict.of is None) == bool(verdict)
    return verdict


def candidates():
    """Modules of Python, which ask for symbols of a program that isn't there; and files of the system, each half of them spread over
    all."""
    modules = sorted(pathlib.Path("/usr/lib").glob("python3*/lib-dynload/*.so"))
    files = spread(2 * FILES, 2_000_000)
    return [*modules[:20], *files[::2], *files[1::2]]


def test_programs_of_the_system_beside_ldd(program):
    """So many that `ldd` lists, each of a program or a library with its libraries."""
    found = {True: 0, False: 0}
    for path in candidates():
        files, is_whole = ldd(path) or ([], True)
        if not 0 < len(files) <= 64:
            continue
        verdict = said_of(program, files)
        assert bool(verdict) == is_whole, (files, str(verdict))
        found[is_whole] += 1
        if sum(found.values()) == FILES:
            break
    print(found)
    assert sum(found.values()) == FILES


def built(tmp_path, *words):
    (tmp_path / "a.c").write_text(PROGRAM)
    (tmp_path / "b.c").write_text(LIBRARY)
    subprocess.run(["gcc", "-shared", "-fPIC", "b.c", "-o", "libb.so", "-Wl,-soname,libb.so.1"], check=True, cwd=tmp_path)
    (tmp_path / "libb.so.1").symlink_to("libb.so")
    subprocess.run(["gcc", "a.c", "-o", "a", "-L.", "-lb", f"-Wl,-rpath,{tmp_path}", *words], check=True, cwd=tmp_path)
    files, is_whole = ldd(tmp_path / "a")
    assert is_whole and len(files) == 4
    return [str(tmp_path / "a"), str(tmp_path / "libb.so"), *files[2:]]


@pytest.mark.parametrize("words", [["-pie"], ["-no-pie"], ["-static-pie", "b.c"], ["-static", "b.c"]])
def test_a_whole_program_loads(program, tmp_path, words):
    if "static" in words[0]:
        (tmp_path / "a.c").write_text(PROGRAM)
        (tmp_path / "b.c").write_text(LIBRARY)
        subprocess.run(["gcc", "a.c", *words, "-o", "a"], check=True, cwd=tmp_path)
        files = [str(tmp_path / "a")]
    else:
        files = built(tmp_path, *words)
    assert str(said_of(program, files)) == "yes"


def test_each_reason(program, tmp_path):
    files = built(tmp_path)
    main, library, *others = files
    verdict = said_of(program, [main, *others])
    assert (verdict.status, verdict.of, str(verdict)) == (Status.NOT_FOUND, 0, f"no: {main}: Nothing has this name: libb.so.1")
    # The library without the symbols of the program, under its name.
    (tmp_path / "other").mkdir()
    subprocess.run(["gcc", "-shared", "-x", "c", "/dev/null", "-o", tmp_path / "other/libb.so.1"], check=True)
    verdict = said_of(program, [main, str(tmp_path / "other/libb.so.1"), *others])
    assert (verdict.status, verdict.of) == (Status.LOAD_UNRESOLVED, 0)
    assert re.fullmatch(f"no: {re.escape(main)}: Symbol is in no object: (number|twice)", str(verdict))
    # A library that is cut off, and one for another machine.
    whole = (tmp_path / "libb.so").read_bytes()
    cut = tmp_path / "cut.so"
    cut.write_bytes(whole[: len(whole) // 5])
    verdict = said_of(program, [main, library, *others, str(cut)])
    assert (verdict.status, verdict.of) == (Status.LOAD_DATA, len(files))
    assert str(verdict) == f"no: {cut}: {ElfFile.load_from_path(cut).loads().text}"
    other = bytearray(whole)
    other[18:20] = int(constants.EM_S390).to_bytes(2, "little")
    cut.write_bytes(other)
    verdict = said_of(program, [main, library, *others, str(cut)])
    assert (verdict.status, verdict.of) == (Status.LOAD_MACHINE, len(files))
    # One whose dynamic segment is empty is named before the words of any file.
    dynamic = next(it for it in ElfFile(whole).segments() if it.type == constants.PT_DYNAMIC)
    cut.write_bytes(whole[: dynamic.offset] + bytes(dynamic.file_size) + whole[dynamic.offset + dynamic.file_size :])
    verdict = said_of(program, [main, library, *others, str(cut)])
    assert (verdict.status, verdict.of) == (Status.LINK_NO_ENTRY, len(files))


def test_numbers_of_files(tmp_path):
    file = ElfFile(open("/proc/self/exe", "rb").read())
    for count in (0, 65):
        with pytest.raises(ValueError, match="between 1 and 64"):
            xmas_elf.loads([file] * count)


def test_verdict_of_one_file_is_that_of_the_file(program, tmp_path):
    subprocess.run(["gcc", "-c", "-x", "c", "/dev/null", "-o", tmp_path / "a.o"], check=True)
    verdict = said_of(program, [str(tmp_path / "a.o")])
    assert verdict.text == f"{tmp_path}/a.o: {ElfFile.load_from_path(tmp_path / 'a.o').loads().text}"
    data = (tmp_path / "a.o").read_bytes()
    assert str(xmas_elf.loads([ElfFile(data)])) == "no: file 0: Type is neither executable nor shared object"
