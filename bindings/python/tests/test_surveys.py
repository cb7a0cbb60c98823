"""Overviews, surveys and the command of the package, beside what readelf says of the same files."""
import collections
import csv
import io
import json
import re
import subprocess
import sys

import pytest
from conftest import PYTHON, system_files
from test_new_users import FOLDER, path_of, said

import xmas_elf
from xmas_elf import ElfFile


def readelf_overview(path):
    """The fields of an overview as readelf prints them."""
    printed = said("readelf", "--wide", "--file-header", "--program-headers", "--dynamic", path)
    only = lambda pattern: next(iter(re.findall(pattern, printed)), None)  # noqa: E731
    bind_now = bool(re.search(r"\(BIND_NOW\)|\(FLAGS\) +.*BIND_NOW|\(FLAGS_1\) +Flags:.*\bNOW\b", printed))
    relro = re.search(r"^  GNU_RELRO ", printed, re.M)
    stack = only(r"  GNU_STACK .* ([R ][W ][E ]) 0x")
    return {
        "soname": only(r"\(SONAME\).*\[(.*)\]"),
        "interpreter": only(r"Requesting program interpreter: (.*)\]"),
        "needed": re.findall(r"\(NEEDED\).*\[(.*)\]", printed),
        "pie": "Position-Independent Executable" in printed,
        "relro": ("full" if bind_now else "partial") if relro else "none",
        "nx": stack is not None and "E" not in stack,
        "bind_now": bind_now,
        "wx": bool(re.search(r"^  LOAD .* RWE 0x", printed, re.M)),
        "rpath": only(r"\(RPATH\).*\[(.*)\]"),
        "runpath": only(r"\(RUNPATH\).*\[(.*)\]"),
    }


def test_overview_is_that_of_readelf(path):
    ours = ElfFile.load_from_path(path).overview()._asdict()
    theirs = readelf_overview(path)
    assert {name: ours[name] for name in theirs} == theirs


@pytest.mark.parametrize("words, field, value", [
    (["-no-pie"], "pie", False), (["-pie"], "pie", True), (["-z", "execstack"], "nx", False), (["-Wl,-z,norelro"], "relro", "none"),
    (["-Wl,-z,relro,-z,lazy"], "relro", "partial"), (["-Wl,-z,relro,-z,now"], "relro", "full"), (["-Wl,-z,now"], "bind_now", True),
    (["-no-pie", "-nostdlib", "-Wl,-N,-e,main"], "wx", True), (["-Wl,-rpath,/a", "-Wl,--disable-new-dtags"], "rpath", "/a"), (["-Wl,-rpath,/a"], "runpath", "/a"),
])
def test_overview_of_each_option(words, field, value, tmp_path):
    (tmp_path / "a.c").write_text("int main(void) { return 0; }\n")
    subprocess.run(["gcc", tmp_path / "a.c", "-o", tmp_path / "a", "-Wl,--enable-new-dtags", *words], check=True, capture_output=True)
    overview = ElfFile.load_from_path(tmp_path / "a").overview()
    assert getattr(overview, field) == value == readelf_overview(tmp_path / "a")[field]
    assert str(overview).count("\n") == len(overview) - 1


def test_survey(capsys):
    files = system_files(300)
    rows = xmas_elf.survey(files)
    assert "300 of 300 files, 0 couldn't be read" in capsys.readouterr().err
    assert xmas_elf.survey(files, processes=2, progress=False) == rows and not capsys.readouterr().err
    for path, row in list(zip(files, rows))[::10]:
        theirs = readelf_overview(path)
        assert row["path"] == str(path) and {name: row[name] for name in theirs} == theirs
        needs = re.findall(r"Name: (\S+) +Flags", said("readelf", "--wide", "--version-info", path))
        assert sorted(it.split(":")[1] for it in row["imported_versions"]) == sorted(needs)
    printed = said("readelf", "--wide", "--version-info", path_of("libc.so.6"))
    defined = re.findall(r"Flags: (?:none|WEAK) .* Name: (\S+)", printed)
    assert len(defined) > 30 and xmas_elf.survey_row(FOLDER / "libc.so.6")["exported_versions"] == sorted(defined)


def test_survey_counts_what_cannot_be_read(tmp_path, capsys):
    (tmp_path / "b").mkdir()
    (tmp_path / "b/cut").write_bytes(path_of("libm.so.6").read_bytes()[:5000])
    (tmp_path / "a").write_bytes(path_of("libm.so.6").read_bytes())
    (tmp_path / "text").write_text("no ELF file")
    rows = xmas_elf.survey(tmp_path)
    assert [(row["path"], bool(row["error"])) for row in rows] == [(f"{tmp_path}/a", False), (f"{tmp_path}/b/cut", True)]
    assert "2 of 2 files, 1 couldn't be read" in capsys.readouterr().err
    with pytest.raises(FileNotFoundError):
        xmas_elf.survey(tmp_path / "none")


def test_survey_reads_headers_once(monkeypatch):
    """Each row of a survey reads the section headers, the names and the program headers by one call for all."""
    from xmas_elf import _file

    asked = collections.Counter()

    def counted(export, *arguments, room=512, given=_file.batches):
        asked[export] += 1
        return given(export, *arguments, room=room)

    monkeypatch.setattr(_file, "batches", counted)
    assert not xmas_elf.survey_row(path_of("libc.so.6"))["error"]
    assert asked["xmas_elf_sections"] == asked["xmas_elf_section_names"] == 1


def command(*words):
    return subprocess.run([sys.executable, "-m", "xmas_elf", *words], cwd=PYTHON, capture_output=True, text=True)


def test_table_of_the_command(tmp_path):
    done = command(path_of("libm.so.6"), path_of("libstdc++.so.6"))
    assert done.returncode == 0
    rows = list(csv.DictReader(io.StringIO(done.stdout)))
    assert [(row["soname"], row["type"], row["pie"]) for row in rows] == [("libm.so.6", "ET_DYN", "no"), ("libstdc++.so.6", "ET_DYN", "no")]
    # No list of Python, and no parts with a space between them.
    needed = ElfFile.load_from_path(path_of("libstdc++.so.6")).needed
    assert len(needed) > 1 and rows[1]["needed"] == ";".join(needed)
    assert not re.search(r"[\[\]' ]", done.stdout.replace(str(FOLDER), ""))
    assert json.loads(command("--json", path_of("libm.so.6")).stdout) == json.loads(json.dumps([xmas_elf.survey_row(FOLDER / "libm.so.6")]))


def test_help_and_errors_of_the_command(tmp_path):
    done = command("--help")
    assert done.returncode == 0 and all(it in done.stdout for it in ("usage: python3 -m xmas_elf", "--hardening", "--json", "PATH"))
    assert command("--version").stdout == f"xmas_elf {xmas_elf.__version__}\n"
    done = command(tmp_path / "none")
    assert done.returncode == 1 and "No such file or directory" in done.stderr and "Traceback" not in done.stderr
    (tmp_path / "text").write_text("no ELF file, and long enough\n" * 9)
    done = command(tmp_path / "text")
    assert done.returncode == 1 and "Did not find ELF magic number" in done.stdout
    closed = subprocess.run(f"{sys.executable} -m xmas_elf /usr/bin | head -n 1", shell=True, cwd=PYTHON, capture_output=True, text=True)
    assert closed.stdout.startswith("path,type") and "Error" not in closed.stderr


def test_version_is_that_of_the_project():
    assert f'version = "{xmas_elf.__version__}"' in (PYTHON / "pyproject.toml").read_text()
