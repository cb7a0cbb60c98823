"""All parts of files beside what pyelftools reads, and dynamic symbols beside those of readelf."""
import pathlib
import re
import subprocess

import beside
import pytest
from elftools.elf.sections import NoteSection
from elftools.elf.segments import NoteSegment

from xmas_elf import ElfError, ElfFile, Status

# Types whose data the archive doesn't give: PT_NULL, and those that it doesn't know.
ERRORS = (Status.NULL_DATA, Status.INVALID_SH_TYPE, Status.INVALID_PH_TYPE)


def header(ours):
    it = ours.header
    sizes = (it.header_size, it.ph_entry_size, it.ph_count, it.sh_entry_size, it.sh_count, it.sh_str_index)
    return (it.entry_point, it.ph_offset, it.sh_offset, it.flags, *sizes, it.type, it.machine, it.os_abi, it.abi_version)


def section(it):
    return (it.name, it.type, it.flags, it.address, it.offset, it.size, it.align, it.entry_size, it.name_index, it.link, it.info)


def segment(it):
    return (it.type, it.offset, it.virtual_addr, it.physical_addr, it.file_size, it.mem_size, it.align, it.flags)


def symbol(it):
    return (it.name, it.value, it.size, it.name_index, it.shndx, it.binding, it.type, it.visibility)


def relocation(it):
    return (it.offset, it.symbol, it.type, it.addend, it.has_addend)


def note(it):
    return (it.name.tobytes().decode("latin-1"), it.type, it.desc)


def compare_data(ours, theirs, errors):
    try:
        data = ours.data()
    except ElfError as error:
        assert error.status in errors
    else:
        assert data == theirs.data()


def compare_section(ours, theirs):
    assert section(ours) == beside.section(theirs)
    if ours.type == 8:  # SHT_NOBITS has no bytes in the file: pyelftools gives zero bytes.
        assert ours.data() == b"" and not any(theirs.data())
    else:
        compare_data(ours, theirs, ERRORS)
    if ours.type in (2, 11):
        assert list(map(symbol, ours.symbols())) == list(map(beside.symbol, theirs.iter_symbols()))
    elif ours.type in (4, 9):
        assert list(map(relocation, ours.relocations())) == list(map(beside.relocation, theirs.iter_relocations()))
    elif ours.type == 7:
        # pyelftools pads each note to four bytes, also where the section's alignment is 8.
        shared = 1 if ours.align == 8 else None
        assert list(map(note, ours.notes()))[:shared] == list(map(beside.note, theirs.iter_notes()))[:shared]


def compare_dynamic(ours, theirs):
    table = next((it for it in theirs.iter_sections() if it["sh_type"] == "SHT_DYNAMIC"), None)
    tags = list(table.iter_tags()) if table else []
    assert list(ours.dynamic()) == list(map(beside.dynamic, tags))
    assert ours.needed == [tag.needed for tag in tags if tag.entry.d_tag == "DT_NEEDED"]
    assert ours.soname == next((tag.soname for tag in tags if tag.entry.d_tag == "DT_SONAME"), None)
    paths = {tag.entry.d_tag: getattr(tag, tag.entry.d_tag[3:].lower()) for tag in tags if tag.entry.d_tag in ("DT_RUNPATH", "DT_RPATH")}
    assert ours.run_path == paths.get("DT_RUNPATH", paths.get("DT_RPATH"))


def build_id(theirs):
    tables = [it for it in (*theirs.iter_sections(), *theirs.iter_segments()) if isinstance(it, (NoteSection, NoteSegment))]
    notes = (note for table in tables for note in table.iter_notes() if note["n_type"] == "NT_GNU_BUILD_ID")
    return next((note["n_desc"] for note in notes), None)


def compare(data):
    ours, theirs = ElfFile(data), beside.opened(data)
    assert header(ours) == beside.header(theirs)
    assert (ours.elfclass, ours.little_endian) == (theirs.elfclass, theirs.little_endian)
    assert (ours.num_sections(), ours.num_segments()) == (theirs.num_sections(), theirs.num_segments())
    sections = list(ours.sections())
    assert len(sections) == theirs.num_sections()
    for one, other in zip(sections, theirs.iter_sections()):
        compare_section(one, other)
        assert ours.section(one.index) == one
    for one, other in zip(ours.segments(), theirs.iter_segments()):
        assert segment(one) == beside.segment(other)
        compare_data(one, other, ERRORS)
    compare_dynamic(ours, theirs)
    assert (ours.build_id.hex() if ours.build_id is not None else None) == build_id(theirs)


def test_file_of_the_system(path):
    compare(path.read_bytes())


def with_entries(data, *entries):
    """The file with other dynamic entries at some indices: each an index, a tag, and a value or the name of the section
    whose address it is."""
    file, changed = ElfFile(data), bytearray(data)
    dynamic, width, order = file.section(".dynamic"), file.elfclass // 8, "little" if file.little_endian else "big"
    for index, tag, value in entries:
        value = file.section(value).address if isinstance(value, str) else value
        place = dynamic.offset + 2 * index * width
        changed[place : place + 2 * width] = tag.to_bytes(width, order) + value.to_bytes(width, order)
    return bytes(changed)


def with_string_table(data):
    """The file with the address and the size of its string table in the dynamic entries 1 and 3."""
    return with_entries(data, (1, 5, ".dynstr"), (3, 10, ElfFile(data).section(".dynstr").size))


def test_file_of_each_class_and_order(worked):
    compare(with_string_table(worked))


def test_packed_relocations(tmp_path):
    """The addresses in a section of type SHT_RELR, which few files of the system have."""
    source, built = tmp_path / "packed.c", tmp_path / "packed"
    source.write_text("int a; int *p[200] = {&a, 0, &a, [9] = &a, [150] = &a, [199] = &a}; int main(void) { return 0; }\n")
    subprocess.run(["gcc", source, "-o", built, "-Wl,-z,pack-relative-relocs"], check=True)
    ours = ElfFile(built.read_bytes()).section(".relr.dyn")
    theirs = beside.opened(built.read_bytes()).get_section_by_name(".relr.dyn")
    addresses = list(ours.packed_relocations())
    assert addresses == [it["r_offset"] for it in theirs.iter_relocations()] and len(addresses) > 5


def test_dynamic_texts_without_sections(tmp_path):
    built = tmp_path / "libnamed.so"
    words = ["-Wl,-soname,libnamed.so.1", "-Wl,-rpath,/a:/b", "-Wl,--enable-new-dtags"]
    subprocess.run(["gcc", "-shared", "-fPIC", "-x", "c", "/dev/null", "-o", built, "-Wl,--no-as-needed", "-lm", *words], check=True)
    data = bytearray(built.read_bytes())
    whole = ElfFile(bytes(data))
    data[40:48] = bytes(8)  # e_shoff
    cut = ElfFile(data)
    assert (cut.needed, cut.soname, cut.run_path) == (whole.needed, "libnamed.so.1", "/a:/b") and whole.needed


def without_sections(data):
    """The file with no section header table in its header of class 64 (e_shoff, e_shnum and e_shstrndx)."""
    changed = bytearray(data)
    changed[40:48], changed[60:64] = bytes(8), bytes(4)
    return changed


def readelf_symbols(path):
    """The dynamic symbols that readelf prints, without the versions that it adds to names."""
    printed = subprocess.run(["readelf", "--wide", "--dyn-syms", path], check=True, capture_output=True, text=True).stdout
    found = []
    for line in printed.splitlines():
        if words := re.fullmatch(r" *(\d+): (.*)", line):
            value, size, kind, binding, visibility, section, *name = words[2].split()
            section = {"UND": 0, "ABS": 0xFFF1}.get(section, section)
            found.append((int(value, 16), int(size, 0), int(section), name[0].split("@")[0] if name else ""))
    return found


@pytest.mark.parametrize("name", ("libc.so.6", "libm.so.6", "libz.so.1"))
def test_dynamic_symbols_without_sections(name):
    path = pathlib.Path("/lib/x86_64-linux-gnu") / name
    if not path.exists():
        pytest.skip(f"{path} is missing")
    data, wanted = path.read_bytes(), readelf_symbols(path)
    assert len(wanted) > 20
    whole, cut = ElfFile(data), ElfFile(without_sections(data))
    assert not list(cut.sections()) and list(cut.symbols()) == list(cut.dynamic_symbols())
    for file in (whole, cut):
        assert [(it.value, it.size, it.shndx, it.name) for it in file.dynamic_symbols()] == wanted
    assert list(cut.dynamic_symbols()) == list(whole.section(".dynsym").symbols())


def test_dynamic_symbols_of_each_class_and_order(worked):
    """By a table of the gABI, which the dynamic entry 5 names; the symbols are those that the worked file is made of."""
    data = with_entries(with_string_table(worked), (2, 6, ".dynsym"), (5, 4, ".hash"))
    symbols = list(ElfFile(data).dynamic_symbols())
    assert [it.name for it in symbols] == ["", "alpha", "beta", "gamma", "delta", "\xe9psilon", "zeta"]
    assert [it.value for it in symbols] == [0, 0x1000, 0x1001, 0x1002, 0x1003, 0x1004, 0x1005]
    assert [it.shndx for it in symbols] == [0, 1, 2, 0xFFF1, 0xFFFF, 3, 0]


def test_dynamic_symbols_that_nothing_counts(worked, tmp_path):
    """An error where no entry names a hash table; none where there is no dynamic segment."""
    with pytest.raises(ElfError) as caught:
        list(ElfFile(with_entries(worked, (6, 0x6FFFFEF6, 0))).dynamic_symbols())
    assert caught.value.status == Status.LINK_NO_ENTRY
    source = tmp_path / "one.c"
    source.write_text("int one;\n")
    subprocess.run(["gcc", "-c", source, "-o", tmp_path / "one.o"], check=True)
    assert list(ElfFile((tmp_path / "one.o").read_bytes()).dynamic_symbols()) == []
