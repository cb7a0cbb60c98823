"""What the scripts share that compare a program of this repository with others over many files."""
import collections
import contextlib
import functools
import json
import os
import pathlib
import re
import subprocess
import sys
from collections import namedtuple
from typing import Callable, Iterator

from damage import Headers

sys.path.append(str(pathlib.Path(__file__).resolve().parents[1]))
from pages import sources
from pages.sources import ROOT

MAGIC = b"\x7fELF"

# Said of each script by --help.
ABOUT = """
A FILE may be a folder, whose files are then compared, but for links. What doesn't begin with the ELF magic number is passed
over silently. The program is that of crates/*/out where PATH isn't given. Each difference is a line, as `FILE: what: PROGRAM
says X, readelf says Y`, and the last line holds the counts. The exit status is 0 if there is no difference, 1 if there is
one, and 2 if the comparison couldn't be run.
"""

# The numbers of a symbol's section, type and binding that scripts ask for.
UNDEFINED, ABSOLUTE = 0, 0xFFF1
SECTION, THREAD, INDIRECT = 3, 6, 10
LOCAL, UNIQUE = 0, 10
# The type of a segment that is loaded, and how many names a program is asked for in one run.
LOAD, AT_ONCE = 1, 300
# Control characters as the programs write them in names: the byte 0xbf behind the sign of the last is no UTF-8.
CONTROLS = {**{it: f"^{chr(it + 64)}" for it in range(32)}, 127: "^\udcbf"}

# What a program that ran to its end has left.
Finished = namedtuple("Finished", "status output errors")


class Tally(collections.Counter):
    """Counts what was compared, by its name, and prints each difference as it is met."""

    def __init__(self, program: str = "", *names: str) -> None:
        super().__init__()
        # These names are told first, and also where nothing was counted.
        self.program, self.names = program, names

    def fault(self, line: str) -> None:
        self["differences"] += 1
        print(line[:1200])

    def differ(self, path: str, what: str, says: object, reads: object) -> None:
        """Counts a difference between what the program says of a file and what readelf says."""
        self.fault(f"{path}: {what}: {self.program} says {says}"[:600] + f", readelf says {reads}"[:600])

    def output(self, path: str, *command: str) -> str:
        """What a program says of a file; a status other than 0 is a difference."""
        done = run([*command])
        if done.status != 0:
            self.differ(path, "file", f"status {done.status} ({done.errors.strip()})", "a file")
        return done.output if done.status == 0 else ""

    def __str__(self) -> str:
        names = dict.fromkeys((*self.names, *self))
        return ", ".join(f"{self[name]} {name}" for name in (*(it for it in names if it != "differences"), "differences"))

    def ended(self) -> int:
        print(self)
        return 1 if self["differences"] else 0


def run(command: list[str], seconds=600, given=b"", **variables: str) -> Finished:
    """Runs a command in the C locale, without what it would hand to a dynamic linker, and with these bytes on its standard input;
    ends the script where it can't be run."""
    clean = {name: held for name, held in os.environ.items() if not name.startswith("LD_")}
    try:
        done = subprocess.run(
            command, input=given, capture_output=True, env={**clean, "LC_ALL": "C", **variables}, timeout=seconds)
    except OSError as error:
        print(f"cannot run {command[0]}: {error.strerror}", file=sys.stderr)
        sys.exit(2)
    return Finished(done.returncode, *(it.decode("utf-8", "surrogateescape") for it in (done.stdout, done.stderr)))


def first_differing(one: list, other: list) -> int:
    """The index of the first item that isn't the same in two lists."""
    return next((at for at, (a, b) in enumerate(zip(one, other)) if a != b), min(len(one), len(other)))


def read_elf(path: str) -> bytes:
    """The bytes of a file that begins with the ELF magic number, and else none."""
    with contextlib.suppress(OSError), open(path, "rb") as file:
        start = file.read(len(MAGIC))
        return start + file.read() if start == MAGIC else b""
    return b""


def listed(pairs: list) -> dict:
    """An object of JSON; of several members with one name the value is a list."""
    found: dict = {}
    for name, value in pairs:
        found.setdefault(name, []).append(value)
    return {name: values if len(values) > 1 else values[0] for name, values in found.items()}


def llvm(path: str, *options: str) -> dict:
    """What llvm-readelf says of a file in JSON; nothing where it comes to no end. Debian's version 14 writes no JSON of
    relocations and dynamic entries."""
    said = run(["llvm-readelf", "--elf-output-style=JSON", *options, path]).output
    # It writes the predecessors of a version beside the JSON.
    said = re.sub(r'(?<=")Predecessors: \[.*\]\n', "", said)
    # Where it meets a fault, it ends behind the part that it has written.
    for end in ("", "}}]"):
        with contextlib.suppress(IndexError, json.JSONDecodeError):
            return next(iter(json.loads(said + end, object_pairs_hook=listed)[0].values()))
    return {}


def raw(value) -> int:
    """The number of a field that llvm-readelf names too: `{"Value": "SHT_NULL", "RawValue": 0}`, `Core (0x4)` or `12`."""
    if isinstance(value, dict):
        return value["RawValue"]
    return value if isinstance(value, int) else int(re.search(r"\((0x[0-9A-Fa-f]+)\)$|^\d+", value)[0].strip("()"), 0)


def parts(said: dict, name: str, inner: str) -> list:
    """The items of a list, as `Sections` of `Section`."""
    return [it[inner] for it in said.get(name, [])]


# A symbol: its name and version, whether the version is a default or needed (and so not hidden), and its fields as numbers.
Symbol = namedtuple("Symbol", "name version is_shown value size kind binding section")


def symbol_of(said: dict, name: str, version: str = "", is_shown: bool = True) -> Symbol:
    return Symbol(name, version, is_shown, said["Value"], said["Size"], *(raw(said[field]) for field in ("Type", "Binding", "Section")))


@functools.lru_cache(maxsize=8)
def dynamic_symbols(path: str) -> tuple[Symbol, ...]:
    """The dynamic symbols that llvm-readelf lists."""
    said = llvm(path, "--dyn-syms", "-V")
    needs = {it["Index"] % 0x8000 for need in parts(said, "VersionRequirements", "Dependency") for it in parts(need, "Entries", "Entry")}
    numbers = [it["Version"] for it in parts(said, "VersionSymbols", "Symbol")]
    found = []
    for index, it in enumerate(parts(said, "DynamicSymbols", "Symbol")):
        name, at, version = it["Name"]["Value"].partition("@")
        is_shown = "@@" in it["Name"]["Value"] or bool(at) and numbers[index] in needs
        found.append(symbol_of(it, name, version.lstrip("@"), is_shown))
    return tuple(found)


def texts_of(path: str, *tags: str) -> list[str]:
    """The texts of the dynamic entries with these tags that GNU's readelf lists, as those of NEEDED."""
    return re.findall(rf"\((?:{'|'.join(tags)})\) +[^\[]*\[(.*)\]$", run(["readelf", "-dW", "--", path]).output, re.M)


@functools.lru_cache(maxsize=8)
def nm(path: str) -> list[tuple]:
    """The value, the size, the letter of the type and the name of each symbol that has a value; those for dynamic linking of a
    stripped file."""
    for options in ([], ["-D"]):
        said = run(["nm", "-S", "--without-symbol-versions", *options, "--", path]).output
        if found := re.findall(r"^([0-9a-f]+)(?: ([0-9a-f]+))? (\S) (\S+)$", said, re.M):
            return [(int(value, 16), int(size or "0", 16), letter, name) for value, size, letter, name in found]
    return []


def addr2line(path: str, addresses: list[int]) -> list[str]:
    """The name of the function at each address, without its version."""
    printed = run(["addr2line", "-f", "-e", path, *(f"{it:#x}" for it in addresses)]).output if addresses else ""
    return [it.partition("@")[0] for it in printed.splitlines()[::2]]


def is_other_name(path: str, symbol: tuple, name: str, address: int) -> bool:
    """Whether a name of addr2line is none of what covers the address, or one of the same or an outer range than a symbol, which is
    its value, size and name."""
    value, size, own = symbol
    covers = [(it[0], it[1]) for it in nm(path) if it[3].partition("@")[0] == name and it[0] <= address < it[0] + it[1]]
    return own == name or not covers or (value, size) in covers or value >= max(covers)[0]


def build_ids(path: str) -> list[str]:
    """The build id that llvm-readelf shows, in a list, if there is one."""
    return re.findall(r"'Build ID': '([0-9a-f]+)'", str(llvm(path, "-n").get("Notes")))[:1]


# A relocation: how many digits its offset has, the offset, its type and symbol as one number, the name of its type, its addend,
# if the table has addends and readelf shows this one, and the text of that.
Relocation = namedtuple("Relocation", "digits offset info kind addend shown")
# A table of relocations: the name of its section, or readelf's for one of the dynamic segment, whether it has addends, its
# relocations, and the addresses of packed ones.
RelocationTable = namedtuple("RelocationTable", "section has_addends rows packed")


def relocation_tables(path: str, *options: str) -> list[RelocationTable]:
    """The tables that GNU's readelf lists, of sections or (-D) of the dynamic segment: llvm-readelf writes none in JSON."""
    found: list[RelocationTable] = []
    for line in run(["readelf", "-rW", *options, "--", path]).output.splitlines():
        if start := re.match(r"Relocation section '(.*)' at |'(\w+)' relocation section at ", line):
            found.append(RelocationTable(start[1] or start[2], False, [], []))
        elif re.match(" +Offset ", line):
            found[-1] = found[-1]._replace(has_addends=line.endswith("Addend"))
        elif re.fullmatch("[0-9a-f]{16}|[0-9a-f]{8}", line):
            found[-1].packed.append(int(line, 16))
        elif row := re.match(r"([0-9a-f]{8,16}) +([0-9a-f]{8,16}) (\S+)(.*)$", line):
            digits, addend, text = len(row[1]), None, ""
            # An addend comes last, after a sign where there is a symbol, and else as a number of the width of an address.
            if found[-1].has_addends and (shown := re.search(r"(?:([+-]) |\s)(-?[0-9a-f]+)$", row[4])):
                addend = int((shown[1] or "") + shown[2], 16)
                text = ("-" if shown[1] == "-" and addend else "") + shown[2]
                addend -= 16**digits if not shown[1] and addend >= 16**digits // 2 else 0
            found[-1].rows.append(Relocation(digits, int(row[1], 16), int(row[2], 16), row[3], addend, text))
    return found


def files_of(paths: list[str]) -> Iterator[str]:
    """The files, and those in the folders, but for links."""
    for path in paths:
        if not os.path.isdir(path):
            yield path
            continue
        for folder, _, names in sorted(os.walk(path)):
            inside = (os.path.join(folder, name) for name in sorted(names))
            yield from (it for it in inside if os.path.isfile(it) and not os.path.islink(it))


def spread(count: int, largest: int) -> list[pathlib.Path]:
    """So many files of class 64 that are spread over those of /usr/bin and of the folder of libraries, below a size."""
    files = (it for folder in ("/usr/bin", "/usr/lib/x86_64-linux-gnu") for it in sorted(pathlib.Path(folder).iterdir()))
    found = [it for it in files if it.is_file() and not it.is_symlink() and it.stat().st_size < largest and read_elf(it)[4:5] == b"\2"]
    return found[:: max(1, len(found) // count)][:count]


def asked_of(elfsym: str, names: list[str], *words: str) -> Finished:
    """What elfsym says of names behind these words; it ends where a run fails."""
    found = Finished(0, "", "")
    for some in (names[at : at + AT_ONCE] for at in range(0, len(names), AT_ONCE)):
        said = run([elfsym, *words, *some])
        found = Finished(said.status, found.output + said.output, found.errors + said.errors)
        if said.status:
            break
    return found


def stripped(content: bytes) -> bytes:
    """The same file without section headers."""
    copy = Headers(bytearray(content))
    copy.layout.fill(copy.content, 0, copy.layout.header, shoff=0, shnum=0, shstrndx=0)
    return bytes(copy.content)


def parser_of(doc: str | None, *programs: str, files: str = "", **numbers: int):
    """A reader of arguments, with an option for the path of each of these programs and for each of these numbers, and with files
    where their number is given, as `*`."""
    # Names that aren't UTF-8 go out as they came in.
    sys.stdout.reconfigure(encoding="utf-8", errors="surrogateescape", line_buffering=True)
    parser = sources.parser_of(doc, {})
    for name in programs:
        parser.add_argument(f"--{name}", default=str(ROOT / "crates" / name / "out" / name), metavar="PATH")
    for name, number in numbers.items():
        parser.add_argument(f"--{name}", type=int, default=number, metavar="N")
    if files:
        parser.add_argument("files", nargs=files, metavar="FILE")
    return parser


def compare_all(doc: str | None, tally: Tally, compare: Callable[..., None], *programs: str) -> int:
    """Compares each file that is given by its path, by that of the program, if one is named, and the tally."""
    given = parser_of((doc or "") + ABOUT, *programs, files="+").parse_args()
    for path in filter(read_elf, files_of(given.files)):
        try:
            compare(path, *(vars(given)[it] for it in programs), tally)
        except ValueError as strange:
            tally.differ(path, "output", f"'{strange}'", "no such line")
    return tally.ended()
