"""How files are hardened, beside what readelf prints of them, and files that are built with and without each protection."""
import csv
import io
import json
import re
import subprocess
import sys

import pytest
from conftest import PYTHON, system_files

import xmas_elf
from xmas_elf import ElfError, ElfFile

PROGRAM = """#include <stdio.h>
#include <string.h>
int main(int count, char **words) { char text[64]; strcpy(text, words[0]); return puts(text) + count; }
"""


def said(*command):
    return subprocess.run(command, capture_output=True, text=True, errors="surrogateescape", check=True).stdout


def built(tmp_path, *words):
    (tmp_path / "a.c").write_text(PROGRAM)
    subprocess.run(["gcc", "-O2", tmp_path / "a.c", "-o", tmp_path / "a", *words], check=True, capture_output=True)
    return ElfFile.load_from_path(tmp_path / "a")


@pytest.mark.parametrize("words, field, value", [
    (["-fno-stack-protector"], "canary", False), (["-fstack-protector-all"], "canary", True),
    (["-U_FORTIFY_SOURCE"], "fortify_source", False), (["-U_FORTIFY_SOURCE"], "fortified", 0), (["-U_FORTIFY_SOURCE"], "fortifiable", 1),
    (["-D_FORTIFY_SOURCE=2"], "fortify_source", True), (["-D_FORTIFY_SOURCE=2"], "fortified", 1), (["-D_FORTIFY_SOURCE=2"], "fortifiable", 1),
    (["-no-pie"], "pie", "no"), (["-pie"], "pie", "yes"), (["-shared", "-fPIC"], "pie", "dso"), (["-c"], "pie", "rel"),
    (["-z", "execstack"], "nx", False), (["-z", "noexecstack"], "nx", True), (["-s"], "symbols", False), ([], "symbols", True),
    (["-Wl,-z,norelro"], "relro", "none"), (["-Wl,-z,relro,-z,lazy"], "relro", "partial"), (["-Wl,-z,relro,-z,now"], "relro", "full"),
    (["-Wl,-rpath,/a", "-Wl,--disable-new-dtags"], "rpath", "/a"), (["-Wl,-rpath,/a", "-Wl,--enable-new-dtags"], "runpath", "/a"),
    (["-c", "-fcf-protection=full"], "ibt", True), (["-c", "-fcf-protection=full"], "shstk", True),
    (["-c", "-fcf-protection=branch"], "shstk", False), (["-c", "-fcf-protection=none"], "ibt", False), (["-c"], "pac", False),
])
def test_each_protection(words, field, value, tmp_path):
    # Debian's gcc 12 calls puts where the text is short enough: strcpy stays.
    assert getattr(built(tmp_path, *words).hardening(), field) == value


def test_branches_of_aarch64(tmp_path):
    (tmp_path / "a.s").write_text("""
.section .note.gnu.property, "a"
.balign 8
.long 4, 16, 5
.asciz "GNU"
.long 0xc0000000, 4, 3, 0
""")
    if subprocess.run(["clang", "--target=aarch64-linux-gnu", "-c", tmp_path / "a.s", "-o", tmp_path / "a.o"], capture_output=True).returncode:
        pytest.skip("no clang")
    found = ElfFile.load_from_path(tmp_path / "a.o").hardening()
    assert (found.bti, found.pac, found.ibt, found.shstk) == (True, True, False, False)
    assert "AArch64 feature: BTI, PAC" in said("readelf", "--notes", tmp_path / "a.o")


def test_features_are_those_of_readelf(path):
    printed = re.findall(r"x86 feature: (.*)", said("readelf", "--wide", "--notes", path))
    found = ElfFile.load_from_path(path).hardening()
    assert (found.ibt, found.shstk) == tuple(any(re.search(rf"\b{word}\b", it) for it in printed) for word in ("IBT", "SHSTK"))


def test_counts_of_another_c_library():
    """A file without versions has no checked forms; without a C library nothing is counted."""
    file = ElfFile.load_from_path("/bin/bash")
    own = file.hardening()
    assert own.fortifiable >= own.fortified > 5
    assert file.hardening("/bin/true")[8:10] == (0, 0)


def test_a_file_that_cannot_be_read_is_an_error():
    data = open("/bin/bash", "rb").read()
    with pytest.raises(ElfError):
        ElfFile(data[:-100]).hardening()


def test_tables():
    files = [str(it) for it in system_files(20)]
    rows = xmas_elf.hardening(files, progress=False)
    assert xmas_elf.hardening(files, processes=2, progress=False) == rows
    command = [sys.executable, "-m", "xmas_elf", "--hardening", *files]
    table = list(csv.DictReader(io.StringIO(subprocess.run(command, cwd=PYTHON, capture_output=True, text=True, check=True).stdout)))
    assert [(it["path"], it["relro"], it["canary"] == "yes", int(it["fortified"])) for it in table] == [
        (it["path"], it["relro"], it["canary"], it["fortified"]) for it in rows]
    assert json.loads(subprocess.run([*command, "--json"], cwd=PYTHON, capture_output=True, text=True, check=True).stdout) == rows
