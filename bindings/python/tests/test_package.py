"""What the package adds to the archive: inputs, errors, types and the records' layout."""
import io
import mmap
import re
import subprocess
import sys

import damage
import pytest

import xmas_elf
from xmas_elf import ElfError, ElfFile, Status
from xmas_elf import _declarations as declared

DATA = damage.worked(True, "little")


@pytest.fixture
def stored(tmp_path):
    path = tmp_path / "worked"
    path.write_bytes(DATA)
    return path


def mapped(path):
    with open(path, "rb") as stream:
        return mmap.mmap(stream.fileno(), 0, access=mmap.ACCESS_READ)


INPUTS = {
    "bytes": lambda path: DATA,
    "bytearray": lambda path: bytearray(DATA),
    "memoryview": lambda path: memoryview(b"x" + DATA)[1:],
    "mmap": mapped,
    "file": lambda path: open(path, "rb"),
    "BytesIO": lambda path: io.BytesIO(DATA),
}


@pytest.mark.parametrize("kind", INPUTS)
def test_each_kind_of_input(kind, stored):
    file = ElfFile(INPUTS[kind](stored))
    assert file.input == DATA
    assert [it.name for it in file.section(".symtab").symbols()] == [it.name for it in ElfFile(DATA).section(".symtab").symbols()]
    assert file.section(".text").data() == bytes(range(48))


def test_file_may_be_closed(stored):
    with open(stored, "rb") as stream:
        data = ElfFile(stream).section(".text").data()
    assert data == bytes(range(48))


def test_path(stored):
    assert ElfFile.load_from_path(stored).header == ElfFile(DATA).header


@pytest.mark.parametrize("other", (5, None, "path", [1]))
def test_other_objects_are_no_input(other):
    with pytest.raises(TypeError):
        ElfFile(other)


def test_bytes_with_gaps_are_no_input():
    with pytest.raises((BufferError, TypeError)):
        ElfFile(memoryview(DATA)[::2])


def test_data_is_no_copy():
    held = bytearray(DATA)
    section = ElfFile(held).section(".text")
    held[section.offset] = 99
    assert section.data()[0] == 99


def test_input_cannot_be_resized_while_it_is_read():
    held = bytearray(DATA)
    file = ElfFile(held)
    with pytest.raises(BufferError):
        held.clear()
    assert file.num_sections()


def test_error_has_the_text_of_its_status():
    with pytest.raises(ElfError, match="^Did not find ELF magic number$") as caught:
        ElfFile(bytes(64))
    assert caught.value.status is Status.NO_MAGIC


def test_error_of_a_status_that_is_not_known():
    assert (ElfError(9999).status, str(ElfError(9999))) == (9999, "status 9999")


def test_texts_of_statuses_are_those_of_the_archive():
    source = open(declared.__file__).read()
    texts = dict(re.findall(r'^    (\w+) = \d+\n    """(.*)\."""$', source, re.M))
    assert [str(ElfError(it)) for it in Status if it] == [texts[it.name] for it in Status if it]


def test_parts_that_are_not_there():
    file = ElfFile(DATA)
    for call in (lambda: file.section(".none"), lambda: file.section(99), lambda: file.segment(7), lambda: file.section(2**64 - 1)):
        with pytest.raises(ElfError):
            call()
    with pytest.raises(ElfError) as caught:
        list(file.section(".text").symbols())
    assert caught.value.status is Status.OTHER_DATA
    with pytest.raises(ElfError) as caught:
        file.symbol("none")
    # Its dynamic segment names no hash table, so the name may be there.
    assert caught.value.status is Status.LINK_BLOOM_COUNT
    assert file.symbol("alpha") == file.section(".symtab").symbol(1)
    assert file.symbol("\udcff") is None


def test_checks():
    file = ElfFile(DATA)
    file.check_header()
    assert all(it.check() is None for it in file.sections())
    assert all(it.check() is None for it in file.segments())
    # The address of segment 1 is odd, and segment 2 goes on past the input.
    changed, layout = bytearray(DATA), damage.Layout(True, "little")
    starts = [layout.header_size + at * layout.segment_size for at in (1, 2)]
    layout.put(changed, starts[0], layout.segment["vaddr"], 1)
    layout.put(changed, starts[1], layout.segment["filesz"], len(DATA))
    layout.put(changed, file.header.sh_offset + layout.section_size, layout.section["type"], 12)
    damaged = ElfFile(changed)
    wanted = {Status.INVALID_SH_TYPE: damaged.section(1), Status.BAD_ALIGN: damaged.segment(1), Status.ENTRY_POINT_RANGE: damaged.segment(2)}
    for status, part in wanted.items():
        with pytest.raises(ElfError) as caught:
            part.check()
        assert caught.value.status is status


def test_worked_file():
    file = ElfFile(DATA)
    assert list(file.symbols())[1] == file.section(".symtab").symbol(1)
    assert len(list(file.symbols())) == 2 * len(list(file.section(".symtab").symbols()))
    narrow = ElfFile(damage.worked(False, "little"))
    assert min(it.addend for it in narrow.section(".rela.text").relocations()) == -(2**31)
    assert len(list(file.relocations())) == 2 * len(list(file.section(".rel.text").relocations()))
    assert next(file.notes()).name == b"GNU"
    assert file.section(".relr.dyn").name == ".relr.dyn"
    assert file.bytes_at(file.section(".text").address, 48) == bytes(range(48))


def test_layout_is_the_compilers(tmp_path):
    """The sizes and offsets that a C compiler gives the structs of the header."""
    listing = pytest.importorskip("listing")
    from conftest import ROOT

    asked = [(struct, field) for struct in listing.read().structs for field in struct.fields]
    lines = [f'printf("%zu %zu\\n", sizeof({s.c_type}), offsetof({s.c_type}, {f.c_name}));' for s, f in asked]
    (tmp_path / "layout.c").write_text('#include "xmas_elf.h"\n#include <stdio.h>\nint main(void) {' + "\n".join(lines) + "}\n")
    subprocess.run(["gcc", f"-I{ROOT}/bindings/include", tmp_path / "layout.c", "-o", tmp_path / "layout"], check=True)
    results = subprocess.run([tmp_path / "layout"], check=True, capture_output=True, text=True).stdout.split("\n")
    for (struct, field), result in zip(asked, results):
        layout = getattr(declared, struct.name.upper())
        size, offset = map(int, result.split())
        assert layout.size == size, struct.name
        values = layout.unpack(bytes(range(size)))
        names = getattr(declared, "".join(map(str.capitalize, struct.name.split("_"))) + "Record")._fields[-len(values) :]
        # The field begins with the byte at its offset: each byte of this memory has its own number.
        begins = [it for it in names if it == field.c_name or it.startswith(field.c_name + "_")]
        if field.c_name != "padding":
            assert values[names.index(begins[0])] % 256 == offset, (struct.name, field.name)


def test_threads():
    from concurrent.futures import ThreadPoolExecutor

    file = ElfFile.load_from_path(sys.executable)
    wanted = list(file.symbols())
    with ThreadPoolExecutor(4) as pool:
        assert all(found == wanted for found in pool.map(lambda _: list(file.symbols()), range(8)))


def test_all_is_documented():
    for name in xmas_elf.__all__:
        assert getattr(xmas_elf, name).__doc__
    for kind in (ElfFile, xmas_elf.Section, xmas_elf.Segment, xmas_elf.Symbol, xmas_elf.Note, xmas_elf.Version, xmas_elf.Overview):
        for name in dir(kind):
            if not name.startswith("_"):
                assert getattr(kind, name).__doc__, name
