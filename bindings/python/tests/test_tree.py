"""Libraries that programs get, beside the loader of this system and the lines of `elftree`."""
import glob
import os
import pathlib
import re
import shutil
import subprocess

import pytest

import xmas_elf
from xmas_elf import Lack, Tree

ROOT = pathlib.Path(__file__).resolve().parents[3]
DATA = ROOT / "crates/elftree/data"
LINKER = "/lib64/ld-linux-x86-64.so.2"
LISTED = re.compile(r"^\t(?:(.*) => )?(.*?)(?: \(0x[0-9a-f]+\))?$", re.M)
PROGRAM = """\
/bin/prog
  liba.so => /bin/../lib/liba.so (rpath) #1
    libc1.so => /bin/../lib/libc1.so (rpath) #3
  libb.so => /bin/../lib/libb.so (rpath) #2
  libnone.so => not found
/bin/../lib/libc1.so: version `V2' not found (required by /bin/../lib/libb.so)
start /bin/../lib/libb.so
start /bin/../lib/liba.so
start /bin/../lib/libc1.so"""


def programs(count: int) -> list:
    """So many of the programs of this system that have a dynamic segment, from all of /usr/bin."""
    found = []
    for path in sorted({os.path.realpath(it) for it in glob.glob("/usr/bin/*")}):
        try:
            with xmas_elf.ElfFile.load_from_path(path) as file:
                if file.elfclass == 64 and file.header.machine == 62 and file.needed:
                    found.append(path)
        except (OSError, ValueError, xmas_elf.ElfError):
            continue
    return found[:: max(1, len(found) // count)][:count]


def listed(path: str):
    """The paths and the missing names that the loader lists, which runs nothing; None where it can't."""
    done = subprocess.run([LINKER, path], env={"LD_TRACE_LOADED_OBJECTS": "1"}, capture_output=True, text=True, check=False)
    rows = [(name, it) for name, it in LISTED.findall(done.stdout) if not re.match(r"linux-(?:vdso|gate)\.so", it)]
    return [it for _, it in rows if it != "not found"], sorted(name for name, it in rows if it == "not found")


@pytest.mark.skipif(not os.path.exists(LINKER), reason="there is no loader for x86-64 here")
def test_programs_get_the_libraries_that_the_loader_lists():
    paths = programs(60)
    assert paths
    for path in paths:
        tree, (wanted, missing) = Tree(path), listed(path)
        assert ([it.path for it in tree.objects[1:]], sorted(it.name for it in tree.missing)) == (wanted, missing), path
        assert tree.loads() or missing or tree.missing_versions, path
        assert {it.path for it in tree.start_order} == set(wanted), path


def elftree(*arguments: str) -> str:
    program = ROOT / "crates/elftree/out/elftree"
    if not program.exists():
        pytest.skip("elftree is not built")
    return subprocess.run([program, "--start", *arguments], capture_output=True, text=True, check=False).stdout.rstrip("\n")


def test_lines_are_those_of_elftree():
    for path in programs(20):
        assert str(Tree(path)) == elftree(path)
        assert str(Tree(path, no_cache=True)) == elftree("--no-cache", path)
        assert str(Tree(path, library_path="/usr/lib:")) == elftree("--library-path", "/usr/lib:", path)
    assert str(Tree("/bin/prog", root=DATA)) == elftree("--root", str(DATA), "/bin/prog")


def test_a_tree_under_a_root():
    tree = Tree("/bin/prog", root=DATA)
    assert str(tree) == PROGRAM
    program, a, b, c = tree.objects
    assert [(it.name, it.how, it.soname) for it in tree.objects] == [
        (None, "program", None), ("liba.so", "rpath", a.soname), ("libb.so", "rpath", b.soname), ("libc1.so", "rpath", c.soname)]
    assert (program.asked_by, a.asked_by, c.asked_by) == (None, program, a)
    assert dict(program.needs) == {"liba.so": a, "libb.so": b, "libnone.so": None}
    assert tree.missing == [("libnone.so", "/bin/prog", False)]
    assert tree.missing_versions == [("/bin/../lib/libc1.so", "V2", "/bin/../lib/libb.so", Lack.STRONG)]
    assert tree.start_order == [b, a, c] and tree.error is None
    assert not tree.loads() and tree.loads().text.startswith("/bin/prog: ")


def test_no_link_leads_out_of_the_root(tmp_path):
    shutil.copytree(DATA, tmp_path / "image")
    library = tmp_path / "image/lib/liba.so"
    library.rename(tmp_path / "outside.so")
    for target in ("../../outside.so", "/../outside.so", str(tmp_path / "outside.so")):
        library.symlink_to(target)
        assert ("liba.so", "/bin/prog", False) in Tree("/bin/prog", root=tmp_path / "image").missing
        library.unlink()
    # A link within the root is followed from its root.
    (tmp_path / "image/other").mkdir()
    shutil.copy(tmp_path / "outside.so", tmp_path / "image/other/real.so")
    library.symlink_to("/other/real.so")
    assert Tree("/bin/prog", root=tmp_path / "image").objects[1].path == "/bin/../lib/liba.so"


def test_verdicts_name_the_first_reason(tmp_path):
    image = tmp_path / "image"
    shutil.copytree(DATA, image)
    (image / "lib64").mkdir()
    shutil.copy(LINKER, image / "lib64/ld-linux-x86-64.so.2")
    library = image / "lib/libb.so"
    content = library.read_bytes()
    verdict = lambda: Tree("/bin/prog", root=image).loads()
    interpreted = any(it.type == 3 for it in Tree("/bin/prog", root=image).objects[0].file.segments())
    if not verdict().text.startswith("/bin/prog: libnone.so"):
        # Linux doesn't map the made program as it is.
        assert not interpreted or verdict().status
    # A library of another byte order ends the loader.
    library.write_bytes(content[:5] + b"\2" + content[6:])
    tree = Tree("/bin/prog", root=image)
    assert tree.error is not None and tree.error.about == "/bin/../lib/libb.so"
    assert not tree.loads()
    # One of another class is passed over.
    library.write_bytes(content[:4] + b"\1" + content[5:])
    assert ("libb.so", "/bin/prog", False) in Tree("/bin/prog", root=image).missing


def test_what_is_no_program():
    with pytest.raises(OSError):
        Tree("/none")
    with pytest.raises(xmas_elf.ElfError):
        Tree(__file__)
