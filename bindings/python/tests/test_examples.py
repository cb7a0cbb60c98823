"""The examples: their output beside those of readelf and nm, and a cluster's rows beside those of one process."""
import importlib.util
import pathlib
import re
import subprocess
import sys

import pytest
from conftest import PYTHON, system_files

import xmas_elf

FOLDERS = ("/usr/bin", "/usr/lib")


def example(name):
    specification = importlib.util.spec_from_file_location(name, PYTHON / f"examples/{name}.py")
    module = importlib.util.module_from_spec(specification)
    specification.loader.exec_module(module)
    return module


def said(*command):
    return subprocess.run(command, capture_output=True, text=True, errors="replace", check=False).stdout


def test_questions():
    questions = example("questions")
    files = [str(it) for it in system_files(150)]
    rows = xmas_elf.survey(files, progress=False)
    printed = {it: said("readelf", "--wide", "--dynamic", "--version-info", "--file-header", "--program-headers", it) for it in files}
    assert questions.needing(rows, "libm.so.6") == [it for it in files if "Shared library: [libm.so.6]" in printed[it]]
    assert questions.needing_version(rows, "GLIBC_2.34") == [it for it in files if re.search(r"Name: GLIBC_2\.34 +Flags", printed[it])]
    assert questions.importing(rows, "strlen") == [it for it in files if re.search(r" U strlen(@|$)", said("nm", "-D", it), re.M)]
    linked = [it for it in files if re.search(r"Type: +(EXEC|DYN)", printed[it])]
    partial = [it for it in linked if "GNU_RELRO" not in printed[it] or not re.search(r"BIND_NOW|Flags:.*\bNOW\b", printed[it])]
    assert [path for path, names in questions.weak(rows) if "RELRO" in names] == partial
    pairs = questions.unmet(rows)
    assert pairs and all(f"Shared library: [{name}]" in printed[path] for path, name in pairs)
    assert all(len(paths) > 1 for paths in questions.with_one_build_id(rows).values())


def test_programs_of_the_page(tmp_path):
    pytest.importorskip("pandas")
    programs = re.findall(r"^```python$(.*?)^```$", (PYTHON / "README.md").read_text(), re.M | re.S)
    assert len(programs) == 3
    # That of the memory of a process is run by test_memory.py.
    for program in programs[:2]:
        done = subprocess.run([sys.executable, "-c", program], cwd=PYTHON, capture_output=True, text=True, check=True)
        assert len(done.stdout) > 100


def test_rows_of_a_cluster_are_those_of_one_process():
    """Over all ELF files of the system."""
    distributed = pytest.importorskip("dask.distributed")
    cluster = example("cluster")
    paths = list(xmas_elf.elf_files([it for it in FOLDERS if pathlib.Path(it).is_dir()]))
    with distributed.Client(n_workers=2, threads_per_worker=1, dashboard_address=None) as client:
        client.wait_for_workers(2, timeout=60)
        rows = cluster.rows_of(paths, 16)
    assert len(rows) > 1000 and rows == xmas_elf.survey(paths, progress=False)
