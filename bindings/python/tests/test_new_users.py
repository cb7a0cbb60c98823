"""What new users ask for, beside what nm, readelf, pyelftools and dlsym say of the same files."""
import collections
import ctypes
import pathlib
import re
import subprocess
import sys

import beside
import pydoc
from itertools import islice
import pytest
from conftest import LIBRARIES, PYTHON
from elftools.elf.gnuversions import GNUVerDefSection, GNUVerNeedSection

import xmas_elf
from xmas_elf import Contents, ElfError, ElfFile, Loader, LoadObject, Owner, Status, VersionKind, check_image, constants, relocate, relocate_all
from xmas_elf.constants import SHF, SHT, STB, STT

FOLDER = pathlib.Path("/lib/x86_64-linux-gnu")


def said(*command):
    done = subprocess.run(command, capture_output=True, text=True, errors="surrogateescape", check=True)
    return done.stdout


def path_of(library):
    path = FOLDER / library
    if not path.exists():
        pytest.skip(f"{path} is missing")
    return path


def without_sections(data):
    """The file with no section header table (e_shoff, e_shnum and e_shstrndx of class 64), and the table's bytes zero."""
    changed, header = bytearray(data), ElfFile(data).header
    changed[header.sh_offset :] = bytes(len(data) - header.sh_offset)
    changed[40:48], changed[60:64] = bytes(8), bytes(4)
    return bytes(changed)


# The right symbol.

# The address that dlsym or dlvsym gets for each name, less that of the library; nothing if it is in another library.
LOADED = """
import ctypes, sys
library = ctypes.CDLL(sys.argv[1])
start, process = ctypes.c_size_t.from_address(library._handle).value, ctypes.CDLL(None)
class Found(ctypes.Structure):
    _fields_ = [("path", ctypes.c_char_p), ("base", ctypes.c_size_t), ("name", ctypes.c_char_p), ("address", ctypes.c_size_t)]
for get in (process.dlsym, process.dlvsym):
    get.restype = ctypes.c_size_t
for line in sys.stdin.read().split():
    name, _, version = line.partition("@")
    handle, found = ctypes.c_void_p(library._handle), Found()
    address = process.dlvsym(handle, name.encode(), version.encode()) if version else process.dlsym(handle, name.encode())
    here = address and process.dladdr(ctypes.c_void_p(address), ctypes.byref(found)) and found.base == start
    print(line, address - start if here else "-")
"""


def loaded(path, names):
    """What the dynamic linker gets for names, or names and versions."""
    command = [sys.executable, "-c", LOADED, path]
    done = subprocess.run(command, input="\n".join(names), capture_output=True, text=True, check=True)
    return dict(line.split() for line in done.stdout.splitlines())


def nm(path):
    """The value, the letter, the name and the version (with its `@`s) of each dynamic symbol."""
    for line in said("nm", "-D", path).splitlines():
        value, letter, name = re.fullmatch(r"([0-9a-f]+| +) (\S) (\S+)", line).groups()
        name, at, version = name.partition("@")
        yield int(value.strip() or "0", 16), letter, name, at + version


def test_symbol_is_that_of_dlsym(library):
    path = path_of(library)
    # Not compared: functions that choose a function, and thread-local symbols.
    symbols = [row for row in nm(path) if row[1] not in "iUwvA"]
    asked = list(dict.fromkeys(it for _, _, name, version in symbols for it in (name, f"{name}@{version.strip('@')}".rstrip("@"))))
    addresses = loaded(path, asked)
    data, compared = path.read_bytes(), 0
    for file in (ElfFile(data), ElfFile(without_sections(data))):
        for line in asked:
            name, _, version = line.partition("@")
            found = file.symbol(name, version or None)
            if found is not None and found.type in (STT.STT_TLS, STT.STT_GNU_IFUNC):
                continue
            assert str(found.value if found else "-") == addresses[line], line
            compared += 1
    assert compared > 50


def test_exp_is_the_default_version():
    file = ElfFile.load_from_path(path_of("libm.so.6"))
    values = {version: value for value, _, name, version in nm(FOLDER / "libm.so.6") if name == "exp"}
    assert len(values) == 2 and len(set(values.values())) == 2
    default = next(version for version in values if version.startswith("@@"))
    assert file.symbol("exp").value == values[default] == file.symbol("exp", default.strip("@")).value
    old = next(version for version in values if not version.startswith("@@"))
    assert file.symbol("exp", old.strip("@")).value == values[old]
    assert file.symbol("exp", "GLIBC_1.0") is None and file.symbol("no such name") is None


def test_symbols_that_are_not_dynamic(tmp_path):
    (tmp_path / "a.c").write_text("static int hidden_one(int n) { return n + 1; } int main(int n, char **v) { return hidden_one(n); }\n")
    subprocess.run(["gcc", "-O0", tmp_path / "a.c", "-o", tmp_path / "a"], check=True)
    file = ElfFile.load_from_path(tmp_path / "a")
    values = {line.split()[2]: int(line.split()[0], 16) for line in said("nm", "--defined-only", tmp_path / "a").splitlines()}
    assert file.symbol("hidden_one").value == values["hidden_one"] and file.symbol("main").value == values["main"]
    assert not file.symbol("__libc_start_main").is_defined and file.symbol("none") is None


def test_a_symbol_without_a_version_comes_before_the_default_version():
    """libfuse2 has `fuse_new` with three versions and without one: dlsym takes the last."""
    path = path_of("libfuse.so.2")
    values = {version: value for value, _, name, version in nm(path) if name == "fuse_new"}
    assert len(values) > 2 and "" in values and any(it.startswith("@@") for it in values)
    assert str(ElfFile.load_from_path(path).symbol("fuse_new").value) == loaded(path, ["fuse_new"])["fuse_new"] == str(values[""])


# Versions, over the files of the system.


def test_versions_of_symbols_are_those_of_nm(path):
    # nm leaves out the symbol 0, sections and file names, and adds versions only to names.
    ours = collections.Counter()
    for symbol, version in ElfFile.load_from_path(path).versioned_symbols():
        if symbol.name and symbol.type not in (STT.STT_SECTION, STT.STT_FILE):
            # A version's own symbol is printed without it.
            shown = str(version) if version and version.name != symbol.name else ""
            ours[symbol.value if symbol.is_defined else 0, symbol.name, shown] += 1
    printed = subprocess.run(["nm", "-D", path], capture_output=True, text=True)
    theirs = collections.Counter((value, name, version) for value, _, name, version in nm(path)) if printed.returncode == 0 else {}
    # GNU's hash table alone counts no symbol of a file that exports none.
    assert ours == theirs or not ours and not any(value for value, *_ in theirs)


def test_needs_and_definitions_are_those_of_pyelftools(path):
    data = path.read_bytes()
    theirs = list(beside.opened(data).iter_sections())
    needs = [
        (need.name, one.name, one["vna_other"] & 0x7FFF, one["vna_flags"])
        for table in theirs if isinstance(table, GNUVerNeedSection) for need, all in table.iter_versions() for one in all
    ]
    definitions = [
        (next(all).name, one["vd_ndx"], one["vd_flags"])
        for table in theirs if isinstance(table, GNUVerDefSection) for one, all in table.iter_versions()
    ]
    for file in (ElfFile(data), ElfFile(without_sections(data))) if theirs else ():
        assert [(it.library, it.name, it.number, it.flags) for it in file.version_needs()] == needs
        assert [(it.name, it.number, it.flags) for it in file.version_definitions()] == definitions
        assert all(it.kind == VersionKind.NEEDED for it in file.version_needs())


# Without sections.


def test_parts_by_segments(path):
    data = path.read_bytes()
    whole, cut = ElfFile(data), ElfFile(without_sections(data))
    if whole.header.type == constants.ET_REL:
        assert not list(cut.symbols()) and not list(cut.dynamic()) and not list(cut.notes()) and cut.build_id is None
        return
    printed = said("readelf", "--wide", "--notes", path)
    ids = re.findall(r"Build ID: ([0-9a-f]+)", printed)
    for file in (whole, cut):
        assert (file.build_id.hex() if file.build_id is not None else None) == (ids[0] if ids else None)
    assert list(cut.dynamic()) == list(whole.dynamic())
    assert len(list(cut.dynamic())) == len(re.findall(r"^ 0x[0-9a-f]+ \(", said("readelf", "--wide", "--dynamic", path), re.M))
    assert cut.overview() == whole.overview()
    segment = next((it for it in beside.opened(cut.input.tobytes()).iter_segments() if it["p_type"] == "PT_DYNAMIC"), None)
    tables = segment.get_relocation_tables() if segment else {}
    theirs = [beside.relocation(it) for name in ("RELA", "REL", "JMPREL") if name in tables for it in tables[name].iter_relocations()]
    assert [(it.offset, it.symbol, it.type, it.addend, it.has_addend) for it in cut.relocations()] == theirs
    packed = [address for it in whole.sections() if it.type == SHT.SHT_RELR for address in it.packed_relocations()]
    assert list(whole.packed_relocations()) == list(cut.packed_relocations()) == packed


def test_types_of_relocations_have_the_names_of_readelf(path):
    file = ElfFile.load_from_path(path)
    if file.header.machine not in (constants.EM_X86_64, constants.EM_386):
        pytest.skip("a file for another machine")
    printed = re.findall(r"^[0-9a-f]{8,} +[0-9a-f]{8,} (R_\w+)", said("readelf", "--wide", "--relocs", path), re.M)
    # readelf prints 17 signs of a name.
    assert [it.type.name[:17] for it in file.relocations()] == [it[:17] for it in printed]


def test_sections_without_bytes_in_the_file():
    file = ElfFile.load_from_path(path_of("libc.so.6"))
    empty = [it for it in file.sections() if it.type in (SHT.SHT_NULL, SHT.SHT_NOBITS)]
    assert len(empty) > 2 and any(it.size for it in empty) and all(it.data() == b"" for it in empty)
    with pytest.raises(ElfError):
        file.section(".bss").text(0)


def test_zeros_in_memory():
    """The addresses of `.bss`, and those over the end of the bytes of the file, as a process has them."""
    for name in ("libc.so.6", "libm.so.6"):
        file = ElfFile.load_from_path(path_of(name))
        load = next(it for it in file.segments() if it.type == constants.PT_LOAD and it.mem_size > it.file_size)
        end = load.virtual_addr + load.file_size
        assert file.bytes_at(end, load.mem_size - load.file_size) == bytes(load.mem_size - load.file_size)
        assert file.bytes_at(end - 4, 8) == bytes(file.bytes_at(end - 4, 4)) + bytes(4)
        image = file.load_image(Loader.GLIBC)
        start = file.load_plan().span.start
        assert file.bytes_at(load.virtual_addr, load.mem_size) == image[load.virtual_addr - start :][: load.mem_size]
        for count in (load.mem_size - load.file_size + 1, 1 << 63):
            with pytest.raises(ElfError, match="Address is in no loaded segment"):
                file.bytes_at(end, count)


def test_build_id_of_a_section_with_another_name(tmp_path):
    (tmp_path / "a.c").write_text("int main(void) { return 0; }\n")
    subprocess.run(["gcc", "-Wl,--build-id", tmp_path / "a.c", "-o", tmp_path / "a"], check=True)
    wanted = re.search(r"Build ID: ([0-9a-f]+)", said("readelf", "--notes", tmp_path / "a"))[1]
    said("objcopy", "--rename-section", ".note.gnu.build-id=.other", tmp_path / "a", tmp_path / "b")
    assert ElfFile.load_from_path(tmp_path / "b").build_id.hex() == wanted


# Arguments.


def test_numbers_that_are_too_large_or_no_numbers():
    file = ElfFile.load_from_path(path_of("libm.so.6"))
    table = file.section(".dynsym")
    calls = (
        lambda it: file.bytes_at(it, 4), lambda it: file.bytes_at(0, it), table.symbol, file.section(".dynstr").text,
        file.section, file.segment,
    )
    for call in calls:
        for number in (2**64, 2**64 + 5, -1, -(2**64)):
            with pytest.raises(OverflowError):
                call(number)
        for value in (None, 1.0, b"1", [1]):
            with pytest.raises(TypeError):
                call(value)
    for name in (None, 1, b"exp"):
        with pytest.raises(TypeError):
            file.symbol(name)
    for call in (lambda: file.symbol("exp", 5), lambda: file.symbol("exp", b""), lambda: ElfFile.load_from_path(0)):
        with pytest.raises(TypeError):
            call()
    for call in (table.symbol, file.section, file.segment):
        with pytest.raises(ElfError) as caught:
            call(2**64 - 1 if call != file.segment else 2**32 + 1)
        assert caught.value.status is Status.NO_RECORD


# Relative relocations.


def test_relr_is_no_error(tmp_path):
    (tmp_path / "a.c").write_text("int a; int *p[200] = {&a, 0, &a, [9] = &a, [150] = &a}; int main(void) { return 0; }\n")
    subprocess.run(["gcc", tmp_path / "a.c", "-o", tmp_path / "a", "-Wl,-z,pack-relative-relocs"], check=True)
    file = ElfFile.load_from_path(tmp_path / "a")
    section = file.section(".relr.dyn")
    section.check()
    theirs = beside.opened((tmp_path / "a").read_bytes()).get_section_by_name(".relr.dyn")
    assert (section.name, section.type.name) == (".relr.dyn", "SHT_RELR")
    assert section.data() == theirs.stream.getvalue()[theirs["sh_offset"] :][: theirs["sh_size"]]
    for it in (section, file, ElfFile(without_sections(file.input))):
        assert list(it.packed_relocations()) == [it["r_offset"] for it in theirs.iter_relocations()]


# Names, help and closing.


def test_names_of_numbers_and_back():
    assert (SHT(11), SHT(11).name, SHT["SHT_DYNSYM"], str(SHT(11)), f"{SHT(11):#x}") == (11, "SHT_DYNSYM", 11, "SHT_DYNSYM", "0xb")
    assert (SHT(0x12345), SHT(0x12345).name, repr(SHT(0x12345))) == (0x12345, "0x12345", "0x12345")
    assert repr(SHF(3)) == "SHF_WRITE|SHF_ALLOC" and repr(SHF(1 << 40)) == hex(1 << 40) and STB(7).name == "0x7"
    assert isinstance(constants.EM_X86_64, constants.EM) and constants.DF_1_PIE in constants.DF_1(0x8000001)
    with pytest.raises(ValueError):
        SHT("SHT_DYNSYM")


def test_each_number_is_that_of_elf_h(tmp_path):
    names = [name for name in dir(constants) if re.fullmatch(r"[A-Z]+_\w+", name) and not isinstance(getattr(constants, name), type)]
    assert len(names) > 300
    lines = "".join(f'_Static_assert({name} == {int(getattr(constants, name))}, "");\n' for name in names)
    (tmp_path / "names.c").write_text("#include <elf.h>\n" + lines)
    subprocess.run(["gcc", "-std=c11", "-fsyntax-only", tmp_path / "names.c"], check=True)


def test_texts_are_short_and_name_numbers(path):
    file = ElfFile.load_from_path(path)
    parts = [file, file.header, *file.sections(), *file.segments(), *file.dynamic(), *file.notes(), *file.version_needs()]
    for part in parts + list(file.symbols())[:100] + list(file.relocations())[:100]:
        assert len(repr(part)) < 300
    assert all(str(it.type) in repr(it) for it in file.sections())
    assert "SHT_STRTAB" in {it.type.name for it in file.sections()}


def test_help_shows_what_fields_are():
    shown = pydoc.render_doc(xmas_elf.Section, renderer=pydoc.plaintext)
    assert "The size of the section in bytes (sh_size)." in shown and "Alias for field" not in shown
    shown = pydoc.render_doc(ElfFile, renderer=pydoc.plaintext)
    assert "The build id: the description of the first note of GNU" in shown


def test_file_closes_while_parts_are_in_use():
    path = path_of("libm.so.6")
    with ElfFile.load_from_path(path) as file:
        section, symbols = file.section(".dynstr"), file.symbols()
        data, first = section.data(), next(symbols)
    assert bytes(data[:1]) == b"\0" and first.name == "" and len(list(symbols)) > 100
    for call in (file.sections, file.symbols, section.data, lambda: file.needed):
        with pytest.raises(ValueError, match="closed"):
            list(call())
    relocations = ElfFile.load_from_path(path).section(".rela.dyn").relocations()
    assert len(list(relocations)) > 5
    with pytest.raises(FileNotFoundError, match="no_such_file"):
        ElfFile.load_from_path("/no_such_file")


# Addresses and loads.

PROGRAM = """
static int inner(int number) { return number * 3 + 1; }
int (*volatile outer)(int) = inner;
int numbers[5000];
int main(int count, char **words) { return outer(count) + words[0][0] + numbers[count]; }
"""


def compiled(tmp_path, *words):
    (tmp_path / "a.c").write_text(PROGRAM)
    subprocess.run(["gcc", "-O0", tmp_path / "a.c", "-o", tmp_path / "a", *words], check=True)
    return tmp_path / "a"


def sized(path):
    """The name, the value and the size of each function that nm prints, and of `numbers`."""
    rows = [line.split() for line in said("nm", "--defined-only", "--print-size", path).splitlines()]
    return [(row[3], int(row[0], 16), int(row[1], 16)) for row in rows if len(row) == 4 and (row[2] in "tT" or row[3] == "numbers")]


@pytest.mark.parametrize("words", (["-no-pie"], ["-pie"], ["-static"]))
def test_symbols_of_addresses(words, tmp_path):
    path = compiled(tmp_path, *words)
    symbols = sized(path)
    assert {"inner", "main", "numbers"} <= {name for name, _, _ in symbols}
    with ElfFile.load_from_path(path) as file:
        for name, value, size in symbols[:: max(1, len(symbols) // 300)]:
            # Another name for the same range, or a symbol further in.
            found = file.symbol_at(value + size // 2)
            assert found.symbol.name == name or found.symbol.value >= value and found.symbol.size <= size
            assert found.symbol.value + found.offset == value + size // 2
        main = next(value for name, value, _ in symbols if name == "main")
        assert str(file.symbol_at(main + 3)) == "main+0x3" and file.symbol_at((1 << 64) - 1) is None
        assert file.symbols_at([main, main + 1, 1]) == [file.symbol_at(main), file.symbol_at(main + 1), None]
        assert file.symbols_at([]) == []
        with pytest.raises(OverflowError):
            file.symbol_at(1 << 64)
    with pytest.raises(ValueError, match="closed"):
        file.symbol_at(main)


def test_symbols_of_offsets_in_an_object_file(tmp_path):
    path = compiled(tmp_path, "-c", "-ffunction-sections")
    with ElfFile.load_from_path(path) as file:
        for name, _, size in (it for it in sized(path) if it[0] in ("inner", "main")):
            section = file.section(f".text.{name}")
            assert str(file.symbol_at(size - 1, section.index)) == f"{name}+{size - 1:#x}"
            assert file.symbol_at(size, section.index) is None


def test_symbols_of_addresses_without_sections(tmp_path):
    path = compiled(tmp_path, "-rdynamic")
    value = next(value for name, value, _ in sized(path) if name == "main")
    file = ElfFile(without_sections(path.read_bytes()))
    assert file.num_sections() == 0 and str(file.symbol_at(value + 1)) == "main+0x1"


# Which bytes belong to what.


def owner_of(file, offset):
    """The part that a byte belongs to, by passes over headers, sections and segments."""
    header = file.header
    wide, sections, segments = file.elfclass == 64, list(file.sections()), list(file.segments())
    tables = [(0, 64 if wide else 52), (header.ph_offset, header.ph_entry_size * len(segments)), (header.sh_offset, header.sh_entry_size * len(sections))]
    for owner, (begin, size) in enumerate(tables):
        if (begin or not owner) and begin <= offset < begin + size:
            return Owner(owner), None
    empty = constants.SHT_NULL, constants.SHT_NOBITS
    claims = [[(it.offset, it.size, it.index) for it in sections if it.type not in empty]]
    claims.append([(it.offset, it.file_size, it.index) for it in segments if it.type not in (constants.PT_NULL, constants.PT_GNU_RELRO)])
    for owner, parts in zip((Owner.SECTION, Owner.SEGMENT), claims):
        covering = [it for it in parts if it[0] <= offset < it[0] + it[1]]
        if covering:
            return owner, min(covering, key=lambda it: (-it[0], it[1], it[2]))[2]
    ends = [begin + size for begin, size, *_ in (*tables, *claims[0], *claims[1]) if size]
    return (Owner.BETWEEN if max(ends) > offset else Owner.BEHIND), None


def test_each_byte_is_in_one_piece(path):
    data = path.read_bytes()
    for file in (ElfFile(data), ElfFile(data + bytes(5)), ElfFile(without_sections(data)) if data[4] == 2 else ElfFile(data)):
        pieces = list(file.pieces())
        assert [it.begin for it in pieces] + [len(file.input)] == [0] + [it.end for it in pieces]
        assert sum(it.size for it in pieces) == len(file.input)
        for piece in pieces[:: max(1, len(pieces) // 8)]:
            for offset in (piece.begin, piece.end - 1):
                assert (piece.owner, piece.index) == owner_of(file, offset)


def test_symbols_of_sections(tmp_path):
    for words in (["-no-pie"], ["-c"], ["-static"]):
        path = compiled(tmp_path, *words)
        with ElfFile.load_from_path(path) as file:
            for section in file.sections():
                pieces = list(file.symbol_pieces(section))
                assert sum(it.size for it in pieces) == section.size and all(one.end == other.begin for one, other in zip(pieces, pieces[1:]))
                for piece in pieces[:: max(1, len(pieces) // 20)]:
                    found = file.symbol_at(piece.begin, section.index)
                    assert (found.symbol if found and found.symbol.size else None) == piece.symbol
            text = {it.symbol.name: it.size for it in file.symbol_pieces(".text") if it.symbol}
            assert {"inner", "main"} <= set(text) and all(text[name] == size for name, _, size in sized(path) if name in ("inner", "main"))


def test_symbols_of_many_sections(tmp_path):
    """Each of 66,000 sections has its function, also where the index of the section needs more than 16 bits."""
    path = tmp_path / "many.o"
    subprocess.run([PYTHON.parent.parent / "bench/symbols.py", "each_section", "66000", path], check=True)
    with ElfFile.load_from_path(path) as file:
        for section in islice(file.sections(), 1, 66001, 97):
            (piece,) = file.symbol_pieces(section)
            assert (piece.begin, piece.end, piece.symbol.name) == (0, 1, f"function_number_{section.index - 1:07}")


def test_the_largest_functions(tmp_path):
    """The recipe beside nm, which counts other names of a function again."""
    recipe = re.search(r"^```python$(.*?)^```$", (PYTHON.parent.parent / "docs/RECIPES.md").read_text(), re.M | re.S)[1]
    path = compiled(tmp_path, "-static")
    printed = subprocess.run([sys.executable, "-c", recipe, path], cwd=PYTHON, capture_output=True, text=True, check=True).stdout
    rows = [line.split(maxsplit=1) for line in printed.splitlines()]
    sizes = sorted({(size, value) for name, value, size in sized(path) if name != "numbers"}, reverse=True)
    assert [int(row[0]) for row in rows] == [size for size, _ in sizes[:10]]


def maps_of(path):
    """What Linux maps of a program that prints its own maps; memory for zeros has no path there."""
    printed = subprocess.run([path], check=True, capture_output=True, text=True).stdout
    rows = [line.split() for line in printed.splitlines() if line.endswith(str(path))]
    numbers = [[int(it, 16) for it in (*row[0].split("-"), row[2])] for row in rows]
    return [(start, end, offset, row[1][:3]) for (start, end, offset), row in zip(numbers, rows)]


@pytest.mark.parametrize("words", (["-no-pie"], ["-pie"]))
def test_mappings_are_those_of_the_process(words, tmp_path):
    (tmp_path / "a.c").write_text("""#include <stdio.h>
int numbers[40000];
int main(void) { FILE *f = fopen("/proc/self/maps", "r"); char s[512]; while (fgets(s, sizeof s, f)) fputs(s, stdout); return numbers[0]; }
""")
    path = tmp_path / "a"
    subprocess.run(["gcc", tmp_path / "a.c", "-o", path, "-Wl,-z,norelro", *words], check=True)
    mapped = maps_of(path)
    with ElfFile.load_from_path(path) as file:
        plan = file.load_plan()
        base = 0 if words == ["-no-pie"] else mapped[0][0] - plan.span.start
        letters = lambda flags: "".join(letter if flags & flag else "-" for letter, flag in zip("rwx", (4, 2, 1)))  # noqa: E731
        planned = [(base + it.start, base + it.end, it.offset, letters(it.flags)) for it in plan.mappings() if it.contents == Contents.FILE]
        assert planned == mapped
        assert plan.relro is None and plan.interpreter == "/lib64/ld-linux-x86-64.so.2" and plan.entry == file.header.entry_point
        assert plan.mappings()[-1].contents == Contents.ZERO and plan.mappings()[-1].end == plan.span.end
        glibc = plan.mappings(Loader.GLIBC)
        assert all(one.end == other.start for one, other in zip(glibc, glibc[1:]))


def test_plans_of_libraries(library):
    path = path_of(library)
    with ElfFile.load_from_path(path) as file:
        plan = file.load_plan()
        loads = [it for it in file.segments() if it.type == constants.PT_LOAD]
        assert plan.span.start == loads[0].virtual_addr // 4096 * 4096
        assert plan.span.end == -(-(loads[-1].virtual_addr + loads[-1].mem_size) // 4096) * 4096
        relro = next((it for it in file.segments() if it.type == constants.PT_GNU_RELRO), None)
        assert plan.relro == (relro and (relro.virtual_addr // 4096 * 4096, (relro.virtual_addr + relro.mem_size) // 4096 * 4096))
        assert not any(it.flags & constants.PF_W and it.flags & constants.PF_X for it in plan.mappings(Loader.GLIBC))


def test_why_a_file_is_not_loaded(tmp_path):
    with pytest.raises(ElfError) as raised:
        ElfFile.load_from_path(compiled(tmp_path, "-c")).load_plan()
    assert raised.value.status == Status.LOAD_TYPE and str(raised.value) == "Type is neither executable nor shared object"
    verdict = ElfFile.load_from_path(tmp_path / "a").loads()
    assert not verdict and verdict.status == Status.LOAD_TYPE and str(verdict) == "no: Type is neither executable nor shared object"
    whole = path_of("libc.so.6").read_bytes()
    assert ElfFile(whole).loads() and str(ElfFile(whole).loads()) == ElfFile(whole).overview().loads == "yes"
    assert str(ElfFile(whole[: len(whole) // 2]).loads()) == "no: Load segment is past the end of the file"
    file = ElfFile.load_from_path(path_of("libc.so.6"))
    for words, status in (({"page": 1 << 40}, Status.LOAD_OVERLAP), ({"limit": 4096}, Status.LOAD_RANGE)):
        with pytest.raises(ElfError) as raised:
            file.load_plan(**words)
        assert raised.value.status == status


def build(folder, *words):
    """Compiles without the C library."""
    subprocess.run(["gcc", "-O1", "-nostdlib", *words], check=True, cwd=folder)


def program_and_library(folder):
    """A program with a copy of its library's number, the library, and both as objects."""
    (folder / "b.c").write_text("int number = 7; int *number_at = &number; int twice(void) { return 2 * *number_at; }\n")
    (folder / "a.c").write_text("extern int number; int twice(void); void _start(void) { number += twice(); }\n")
    build(folder, "-shared", "-fPIC", "b.c", "-o", "libb.so")
    build(folder, "-pie", "-fno-stack-protector", "a.c", "-o", "a", "-L.", "-lb")
    program, library = (ElfFile.load_from_path(folder / it) for it in ("a", "libb.so"))
    objects = [LoadObject(program, 0x10000), LoadObject(library, 0x20000)]
    return program, library, objects


def first_relocation(path, names):
    """The index of the first relocation that readelf prints for one of these symbols."""
    printed = subprocess.run(["readelf", "--wide", "--relocs", path], check=True, capture_output=True, text=True).stdout
    rows = [line.split() for line in printed.splitlines() if re.match("[0-9a-f]{16} ", line)]
    return next(index for index, row in enumerate(rows) if len(row) > 4 and row[4].partition("@")[0] in names)


def test_words_of_a_program_and_its_library(tmp_path):
    """The library's function is called by the program, which has a copy of its number."""
    program, library, objects = program_and_library(tmp_path)
    for index in (0, 1):
        check_image(objects, index)
    images = [program.load_image(), library.load_image(Loader.GLIBC)]
    assert relocate(objects, 1, images[1]) == 0
    objects[1] = objects[1]._replace(image=images[1])
    assert relocate(objects, 0, images[0]) == 0
    value = lambda file, name: file.symbol(name).value  # noqa: E731
    number_at = value(library, "number_at")
    # The library uses the copy of the program.
    assert int.from_bytes(images[1][number_at : number_at + 8], "little") == 0x10000 + value(program, "number")
    assert images[0][value(program, "number")] == 7
    with pytest.raises(ElfError) as raised:
        relocate(objects, 2, images[0])
    assert (raised.value.status, raised.value.of, raised.value.relocation) == (Status.LINK_OBJECT_INDEX, None, None)
    # Without the library the program's symbols are in no object.
    with pytest.raises(ElfError, match="^Symbol is in no object: (number|twice)$") as raised:
        relocate(objects[:1], 0, images[0])
    assert (raised.value.status, raised.value.of) == (Status.LOAD_UNRESOLVED, 0) and raised.value.about in ("number", "twice")
    assert raised.value.relocation == first_relocation(tmp_path / "a", ("number", "twice"))


def test_words_of_all_objects_in_one_call(tmp_path):
    """The images are those of one call for each object, the last first; an error names its object."""
    program, library, objects = program_and_library(tmp_path)
    one_by_one = [program.load_image(), library.load_image(Loader.GLIBC)]
    left = relocate(objects, 1, one_by_one[1])
    left += relocate([objects[0], objects[1]._replace(image=one_by_one[1])], 0, one_by_one[0])
    found = relocate_all(objects)
    assert [bytes(it) for it in found.images] == [bytes(it) for it in one_by_one] and found.numberless == left
    # The program's copy of the number is that of the library.
    at = program.symbol("number").value
    assert int.from_bytes(found.images[0][at : at + 4], "little") == 7
    with pytest.raises(ElfError, match="^Symbol is in no object: (number|twice)$") as raised:
        relocate_all([LoadObject(program)])
    assert (raised.value.status, raised.value.of) == (Status.LOAD_UNRESOLVED, 0)
    # A library that needs what no object has is the third.
    (tmp_path / "c.c").write_text("int none(void); int asks(void) { return none(); }\n")
    build(tmp_path, "-shared", "-fPIC", "c.c", "-o", "libnone.so", "-Wl,-z,undefs")
    with pytest.raises(ElfError, match="^Symbol is in no object: none$") as raised:
        relocate_all([*objects, LoadObject(ElfFile.load_from_path(tmp_path / "libnone.so"))])
    assert (raised.value.status, raised.value.of) == (Status.LOAD_UNRESOLVED, 2)
    assert raised.value.relocation == first_relocation(tmp_path / "libnone.so", ("none",))
    for wrong, status in (([], Status.LINK_OBJECT_INDEX), ([objects[0]] + [objects[1]] * 64, Status.MANY_OBJECTS)):
        with pytest.raises(ElfError) as raised:
            relocate_all(wrong)
        assert (raised.value.status, raised.value.of) == (status, None)
    with pytest.raises(ElfError) as raised:
        relocate([objects[0]] + [objects[1]] * 64, 0, program.load_image())
    assert (raised.value.status, raised.value.of) == (Status.MANY_OBJECTS, None)


def test_errors_of_words_have_the_index_of_their_object(tmp_path):
    """That of the first file that can't be read or has no plan, whichever object the words are of."""
    program, library, objects = program_and_library(tmp_path)
    image, whole = program.load_image(), (tmp_path / "libb.so").read_bytes()
    dynamic = next(it for it in library.segments() if it.type == constants.PT_DYNAMIC)
    empty = whole[: dynamic.offset] + bytes(dynamic.file_size) + whole[dynamic.offset + dynamic.file_size :]
    object_file = whole[:16] + bytes([constants.ET_REL]) + whole[17:]
    for data, status in ((empty, Status.LINK_NO_ENTRY), (object_file, Status.LOAD_TYPE)):
        several = [*objects, LoadObject(ElfFile(data)), LoadObject(ElfFile(data))]
        for of in (0, 1):
            for call in (lambda: check_image(several, of), lambda: relocate(several, of, image)):
                with pytest.raises(ElfError) as raised:
                    call()
                assert (raised.value.status, raised.value.of) == (status, 2)
    for call, status, of in (
        (lambda: check_image(objects, 1, limit=4096), Status.LOAD_RANGE, 1),
        (lambda: relocate(objects, 0, image[1:]), Status.LOAD_IMAGE_SIZE, None),
    ):
        with pytest.raises(ElfError) as raised:
            call()
        assert (raised.value.status, raised.value.of, raised.value.relocation) == (status, of, None)


def test_a_missing_symbol_is_named_with_its_version(tmp_path):
    (tmp_path / "a.c").write_text("#include <stdio.h>\nint main(void) { return puts(\"\"); }\n")
    subprocess.run(["gcc", tmp_path / "a.c", "-o", tmp_path / "a"], check=True)
    file = ElfFile.load_from_path(tmp_path / "a")
    with pytest.raises(ElfError, match=r"^Symbol is in no object: (puts|__libc_start_main)@GLIBC_2\.\d+(\.\d+)?$"):
        relocate([LoadObject(file)], 0, file.load_image())


def test_libraries_are_here():
    assert sum((FOLDER / it).exists() for it in LIBRARIES) >= 3 and ctypes.sizeof(ctypes.c_void_p) == 8
