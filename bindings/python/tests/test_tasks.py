"""Tasks of new users, over 300 files of the system beside the tools that they know: which names a backtrace has (addr2line), which
functions a file has (nm), and how files are hardened (checksec). Which programs miss a symbol (ldd) is in test_loads."""
import collections
import concurrent.futures
import os
import shutil

import pytest
from comparing import addr2line, is_other_name, nm, spread

import xmas_elf
from hardening import checksec, wanted
from xmas_elf import ElfFile
from xmas_elf.constants import SHT, STT

# The files, their largest size, and the most functions of each whose names are asked for.
FILES, LARGEST, MOST = 300, 400_000, 50


def compare_names(path):
    """How many functions of a file have the name of addr2line in their middle, and how many there are."""
    rows, file = [it for it in nm(path) if it[2] in "tTwWi" and it[1]][:MOST], ElfFile.load_from_path(path)
    middles = [value + size // 2 for value, size, *_ in rows]
    same = 0
    for address, found, name in zip(middles, file.symbols_at(middles), addr2line(path, middles)):
        assert found and found.symbol.value <= address < found.symbol.value + found.symbol.size, (path, address)
        own = found.symbol.name.partition("@")[0]
        assert is_other_name(path, (found.symbol.value, found.symbol.size, own), name, address), (path, address, own, name)
        same += own == name
    return same, len(rows)


def test_names_of_a_backtrace_beside_addr2line():
    files = spread(FILES, LARGEST)
    with concurrent.futures.ThreadPoolExecutor(os.cpu_count()) as pool:
        same, count = map(sum, zip(*pool.map(compare_names, files)))
    print(f"{len(files)} files: {same} of {count} names are those of addr2line")
    assert len(files) == FILES and count > 3 * FILES and same > count // 2


def test_symbols_and_their_sizes_beside_nm():
    """What `nm -S` lists: the symbols of `.symtab`, else those for dynamic linking, that are defined, but for sections and files."""
    compared = 0
    for path in spread(FILES, LARGEST):
        file = ElfFile.load_from_path(path)
        table = next((it for it in file.sections() if it.type == SHT.SHT_SYMTAB), None)
        symbols = table.symbols() if table else file.dynamic_symbols()
        shown = (it for it in symbols if it.name and it.is_defined and it.type not in (STT.STT_SECTION, STT.STT_FILE))
        ours = collections.Counter((it.value, it.size, it.name.partition("@")[0]) for it in shown)
        assert ours == collections.Counter((value, size, name.partition("@")[0]) for value, size, _, name in nm(path)), path
        compared += sum(ours.values())
    print(f"{compared} symbols of nm")
    assert compared > 10 * FILES


@pytest.mark.skipif(not shutil.which("checksec"), reason="checksec is not installed")
def test_hardening_beside_checksec():
    files = [str(it) for it in spread(FILES, LARGEST)]
    with concurrent.futures.ThreadPoolExecutor(os.cpu_count()) as pool:
        said = list(pool.map(lambda it: wanted(it, checksec(it)), files))
    for path, theirs in zip(files, said):
        ours = xmas_elf.hardening_row(path)
        own = {name: bool(ours[name]) if name in ("rpath", "runpath") else ours[name] for name in theirs}
        assert own == theirs and not ours["error"], path
    assert len(files) == FILES
