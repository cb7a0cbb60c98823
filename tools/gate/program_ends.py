#!/usr/bin/env python3
"""Wants the output, the error text and the status of each way in which the built programs of program_ends.toml end.

    tools/gate/program_ends.py [PROGRAM..]     at the top of the repository, once they are built; or of other builds of them

Each build runs on files that are good, with an error, missing or unreadable, and into outputs that fail. elfsym must also write names of any
bytes with the escapes of `readelf`, and elfnm as they are.
"""
import json
import os
import pathlib
import re
import resource
import signal
import subprocess
import sys
import tempfile

TOP = pathlib.Path(__file__).resolve().parents[2]
CRATES = TOP / "crates"
sys.path[:0] = [str(TOP / "oracle"), str(TOP / "tools/compare")]
from comparing import CONTROLS
from differences import difference
from json_lines import text_of
from json_sizes import sizes_text
from pages.sources import table_of
from wanted.files import debug_link, hash_file
from wanted.reports import DEBUG_LINK_HEADER, DEBUG_LINK_SECTIONS, HASH_HEADER, report_text


def data(path: str) -> bytes:
    """A file of a crate, as `elfnm/stdout`."""
    return (CRATES / path).read_bytes()


STRTAB, REPORT = data("elfinfo/data/strtab.elf"), data("elfinfo/stdout")
PLACES, SIZES = data("elfaddr/data/places.so"), data("elfsize/stdout")
# The debug file of bare.so, by its build id.
BY_ID = ".build-id/ab/cdef1234567890.debug"
PLACES_SIZES = SIZES[: SIZES.index(b"counter\n")]
# The same of counter alone, before the sums over both.
COUNTER_SIZES = SIZES[len(PLACES_SIZES) : SIZES.index(b"all files\n")]
PLANS = data("elfload/stdout")
COUNTER_PLAN = PLANS[: PLANS.index(b"library.so\n")]
# The symbol of its slot is in the library.
COUNTER_ALONE = COUNTER_PLAN + b"words counter\nword 0x1ff8 8 JUMP_SLOT = 0x0\n"

# The version of the packages is that of the programs.
VERSION = re.search(r'^version = "(.*)"', (TOP / "bindings/rust/Cargo.toml").read_text(), re.M)[1]

# A program as LLVM builds it, and as Rattle's own compiler does.
BUILDS = ("", ".by-rattle")

# Where the section headers are of a file that a reader doesn't take at once, and how many there are in a long one.
FAR, MANY = (1 << 20) + 4096, 1000


def with_number(file: bytes, place: int, size: int, number: int) -> bytes:
    return file[:place] + number.to_bytes(size, "little") + file[place + size :]


def larger(start: int, count: int) -> bytes:
    """The file of strtab.elf with its section headers at an offset, and more of them, of type ProgBits and with an empty name."""
    sections = with_number(STRTAB[52:132], 56, 4, start + 40 * count) + (bytes(4) + b"\1" + bytes(35)) * (count - 2)
    header = with_number(with_number(STRTAB[:52], 32, 4, start), 48, 2, count)
    return header + bytes(start - len(header)) + sections + STRTAB[132:]


def larger_report(start: int, count: int) -> bytes:
    first = b"1 Ok(StrTab) = .strtab\n"
    lines = first + b"".join(b"%d Ok(ProgBits) = \n" % index for index in range(2, count))
    report = REPORT.replace(b"sh_count:         2\n", b"sh_count:         %d\n" % count)
    return report.replace(b"sh_offset:        52\n", b"sh_offset:        %d\n" % start).replace(first, lines)


def escaped(name: bytes) -> bytes:
    """The bytes of a name with its control characters escaped, as `readelf` shows names of sections and symbols."""
    return name.decode("utf-8", "surrogateescape").translate(CONTROLS).encode("utf-8", "surrogateescape")


def replaced(text: bytes, parts: dict) -> bytes:
    """A text with each of these parts replaced, which must be in it."""
    for old, new in parts.items():
        if old not in text:
            sys.exit(f"{old!r} isn't in {text[:400]!r}")
        text = text.replace(old, new)
    return text


# Names of a section and a symbol of places.so, and other ones.
ODD_NAMES = {b".data\0": b'.\x01"\xff\\\0', b"value\0": b"v\t\x7f\xc3\xa9\0"}
# The name of a file that can be read.
NOT_UTF8 = b"\xff.elf"
TABLE = table_of(__file__)


def file_of(row) -> bytes:
    """A file of the table: one of crates/, or its first bytes, with other numbers in some places."""
    row = {"of": row} if isinstance(row, str) else row
    held = data(row["of"])[: row.get("size")]
    for place, size, number in row.get("numbers", ()):
        held = with_number(held, place, size, number)
    return held


FILES = {
    NOT_UTF8: STRTAB, "empty.elf": b"", "zeros.elf": bytes(16), "link.elf": debug_link(), "hash.elf": hash_file(),
    "far.elf": larger(FAR, 2), "long.elf": larger(52, MANY), f"zeros/{BY_ID}": bytes(16),
    # places.so with names that have quotation marks, control characters and bytes that are not UTF-8.
    "odd.so": replaced(PLACES, ODD_NAMES),
    **{name: file_of(row) for name, row in TABLE.pop("files").items()}}


# What names in braces mean in the table: its texts, those of oracle/wanted/ends, which were worked out by hand, and what is made of
# those in crates/.
TEXTS = TABLE.pop("texts") | {it.stem: it.read_bytes() for it in (TOP / "oracle/wanted/ends").iterdir()}
BOUND, PLACES_SYMBOLS = TEXTS["bound"], TEXTS["places_symbols"]
TEXTS |= {
    "by id": BY_ID, "names asked for": " ".join(data("elfsym/args").decode().split()[1:]),
    "report with a link": report_text(DEBUG_LINK_HEADER, "ok", DEBUG_LINK_SECTIONS),
    "report with a hash table": report_text(
        HASH_HEADER, "ok", "1 Ok(StrTab) = .strtab\n2 Ok(Hash) = ab\n3 Ok(SymTab) = ab\n", "", "ok"),
    "counter alone": COUNTER_ALONE, "plan of counter": COUNTER_PLAN, "plan of caller": BOUND[: BOUND.index(b"libfirst.so\n")],
    "plans without words": PLANS[: PLANS.index(b"words ")],
    "sizes of places.so": PLACES_SIZES, "sizes of counter": COUNTER_SIZES,
    "symbols of odd.so": replaced(
        PLACES_SYMBOLS.replace(b"places.so", b"odd.so"), {old[:-1]: escaped(new[:-1]) for old, new in ODD_NAMES.items()})}


def meant(name: str) -> bytes:
    """What a name in braces means: a file of crates/ by its path, or a text."""
    held = data(name) if "/" in name else TEXTS[name]
    return held if isinstance(held, bytes) else filled(held)


def filled(text: str) -> bytes:
    """A text of the table with what the names in braces mean."""
    return re.sub(rb"\{([\w./ ]+)\}", lambda it: meant(it[1].decode()), text.encode())


def words_of(text: str) -> list:
    return filled(text).decode().split()


def latin(text: str) -> bytes:
    """The bytes of a text of the table, where a character up to U+00FF is the byte of its number."""
    return text.encode("latin-1")


for name, row in TABLE.pop("replaced").items():
    TEXTS[name] = replaced(filled(row.pop("of")), {old.encode(): new.encode() for old, new in row.items()})
for name, (old, new) in TABLE.pop("differences").items():
    TEXTS[name] = difference(filled(old), filled(new))

# The paths that can't be read, whatever the program; lines of a stack; odd names; and what is said of two files with errors.
UNREAD, STACK, NAMES = (TABLE.pop(it) for it in ("unread", "stack", "names"))
SHORT, NO_MAGIC = "File is shorter than the first ELF header part", "Did not find ELF magic number"


class Program:
    """A program: how it ends by what its arguments are, which is these and the status, output and error text that are wanted;
    and what comes on its standard input."""

    def __init__(self, name: str, usage: str, words: str, good: str, output: str, given: str, **ends):
        """Behind the path of a file it takes some words. The good arguments begin with a path."""
        self.name, self.usage, self.given, self.ends = name, filled(f"usage: {usage}\n"), data(given), {}
        path_of = lambda path: "" if name == "elfinfo" else f"{path}: "
        words, good, output = words_of(words), words_of(good), filled(output)
        said = re.search(r'const HELP: &str =\s+"([^"]*)";', data(f"{name}/src/main.rt").decode())[1]
        unread = {what: ([path, *words], f"cannot read {path}") for what, path in UNREAD.items()}
        self.take(misused={"no argument": ""}, fails={
            **unread, "a path that is not UTF-8": ([NOT_UTF8, *words], "cannot read the arguments"),
            "an empty file": (["empty.elf", *words], path_of("empty.elf") + SHORT),
            "a file with an error": (["zeros.elf", *words], path_of("zeros.elf") + NO_MAGIC)}, prints={
            "its version": ("--version", f"{name} {VERSION}\n"), "help": ("--help", self.usage + f"{said}\n".encode()),
            "a good file": (good, output),
            "a good file through a pipe": (["/dev/stdin", *good[1:]], output.replace(good[0].encode(), b"/dev/stdin"))})
        self.take(**ends)

    def take(self, **ends: dict):
        """Adds the ends of a part of the table, by their kinds."""
        kinds = {
            "misused": lambda arguments: (arguments, 1, self.usage), "prints": lambda arguments, output: (arguments, 0, output),
            "fails": lambda arguments, said: (arguments, 1, "", f"{self.name}: {said}\n"), "ends": lambda *end: end}
        for kind, cases in ends.items():
            for what, end in cases.items():
                self.add(what, *kinds[kind](*([end] if kind == "misused" else end)))

    def add(self, what: str, arguments, status: int, output, said: str = ""):
        """Adds an end, with its arguments as a list or as a text with blanks between them."""
        arguments = words_of(arguments) if isinstance(arguments, str) else arguments
        self.ends[what] = arguments, status, output if isinstance(output, bytes) else filled(output), filled(said)

    def no_write(self) -> bytes:
        return f"{self.name}: cannot write\n".encode()


SEARCH = TABLE.pop("search")
PROGRAMS = [Program(name, **row) for name, row in TABLE.items()]
BIND, LOAD = (it for it in PROGRAMS if it.name in ("elfbind", "elfload"))
BIND.take(**SEARCH)
LOAD.take(**SEARCH)


def run(built, arguments, room, given=b"", **more) -> list:
    """How a program ends in a folder: its status, its output and its error text, None for one that goes elsewhere."""
    kept = {"stdout": subprocess.PIPE, "stderr": subprocess.PIPE, **more}
    ended = subprocess.run([built, *arguments], cwd=room, input=given, timeout=60, check=False, **kept)
    return [ended.returncode, ended.stdout, ended.stderr]


def told_ends(program, built, room):
    """Each end with what was wanted and what came."""
    for name, (arguments, *wanted) in program.ends.items():
        yield name, wanted, run(built, arguments, room, program.given)


# By the name of a program what it prints as text, by its lines as JSON.
TEXT_OF = {"elfsize": sizes_text, "elfload": text_of, "elftree": text_of}


def same_facts(program, built, room):
    """Each end with `--json`: the same status and error text, and lines that Python's json reads, with the facts of the text."""
    for name, (arguments, status, output, said) in program.ends.items():
        if name not in ("its version", "help") and not output.startswith(b"{"):
            came = run(built, ["--json", *arguments], room, program.given)
            if not output.startswith(b"usage: "):
                came[1] = TEXT_OF[program.name]([json.loads(line) for line in came[1].splitlines()]).encode("utf-8", "surrogateescape")
            yield f"{name}, as JSON", [status, output, said], came


def unwritten_ends(program, built, room):
    """How it ends where outputs fail at once."""
    arguments = {what: end[0] for what, end in program.ends.items()}
    # elfload says it of each of its two files.
    unwritten = program.no_write() * (2 if program is LOAD else 1)
    with open("/dev/full", "wb") as full:
        for what, said in (("a good file", unwritten), ("a file with an error", program.ends["a file with an error"][3]), ("no argument", b"")):
            yield f"{what}, into a full disk", [1, None, said], run(built, arguments[what], room, stdout=full)
        yield "an error text that can't be written", [1, b"", None], run(built, arguments["a missing path"], room, stderr=full)
        for what in ("a missing path", "no argument"):
            yield f"{what}, where nothing can be said", [1, None, None], run(built, arguments[what], room, stdout=full, stderr=full)
    reader, writer = os.pipe()
    os.close(reader)
    for what in ("a good file", *(("functions of a start", "files that Linux maps") if program is LOAD else ())):
        # The status of a program that SIGPIPE ends, as a shell tells it.
        yield f"{what}, into a pipe that nobody reads", [141, None, b""], run(built, arguments[what], room, stdout=writer)
    os.close(writer)


def long_ends(program, built, room):
    """How the report ends of a file that a reader doesn't take at once, and a long one in a file that takes so many bytes
    and then fails: nothing comes after the fault."""
    yield "a file of more than a mebibyte", [0, larger_report(FAR, 2), b""], run(built, ["far.elf"], room)
    report = larger_report(52, MANY)
    for limit in [*range(0, len(report), 2500), len(report) - 1, len(report)]:
        def allow_few_bytes():
            signal.signal(signal.SIGXFSZ, signal.SIG_IGN)
            resource.setrlimit(resource.RLIMIT_FSIZE, (limit, limit))

        with open(f"{room}/output", "w+b") as output:
            status, _, said = run(built, ["long.elf"], room, stdout=output, preexec_fn=allow_few_bytes)
            output.seek(0)
            came = [status, output.read(), said]
        wanted = [1, report[:limit], program.no_write()] if limit < len(report) else [0, report, b""]
        yield f"a long report, into a file of at most {limit} bytes", wanted, came


def stack_ends(program, built, room):
    lines, named = (b"".join(latin(row[at]) for row in STACK) for at in (0, -1))
    yield "a stack", [0, named, b""], run(built, ["--stack"], room, lines)


def debug_ends(program, built, room):
    """How elfaddr ends by debug files at paths that a folder of the machine is part of, and by what is no file."""
    real, words, names, places = os.path.realpath(room), words_of("{bare addresses}"), meant("bare names"), meant("bare places")
    said = f"elfaddr: {real}/other/bare.debug: not the debug file: another CRC\n"
    yield "another file beside the file", [0, places, said.encode()], run(built, ["other/bare.so", *words], room)
    under = pathlib.Path(f"{room}/under{real}/alone/bare.debug")
    under.parent.mkdir(parents=True)
    under.write_bytes(FILES["bare.debug"])
    by_folder = ["--debug", "under", "alone/bare.so", *words]
    yield "a debug file in the same folder under another", [0, names, b""], run(built, by_folder, room)
    os.mkfifo(f"{room}/alone/bare.debug")
    yield "a pipe in place of a debug file", [0, places, b""], run(built, ["alone/bare.so", *words], room)
    stack = b"bare.so(+0x25c) [0x1]\nalone/bare.so 0x25c\n"
    for options, name in ((), "label+0x0"), (("--no-debug",), ".text+0x6"):
        lines = stack.replace(b"bare.so(+0x25c)", f"bare.so({name})".encode()).replace(b" 0x25c", b" .text+0x6")
        yield f"a stack of a file with a debug file {options}", [0, lines, b""], run(built, [*options, "--stack"], room, stack)


def is_unlike(built: pathlib.Path, name: str, wanted, came) -> bool:
    """Prints whether a program ends as it must, and returns whether it doesn't."""
    how = "ends as it must" if came == wanted else "NOT AS IT MUST"
    print(f"{built.name} {how}: {name}" + ("" if came == wanted else f": wanted {wanted}, but got {came}"[:1800]))
    return came != wanted


def unlike(program, built: pathlib.Path) -> int:
    """Prints how a build of a program ends, and returns how often that is not as it must be."""
    with tempfile.TemporaryDirectory() as room:
        os.mkdir(f"{room}/folder")
        for name, held in FILES.items():
            path = pathlib.Path(room, os.fsdecode(name))
            path.parent.mkdir(parents=True, exist_ok=True)
            path.write_bytes(held)
        more = {"elfinfo": [long_ends], "elfaddr": [stack_ends, debug_ends]}
        kinds = [told_ends, unwritten_ends, *[same_facts][: program.name in TEXT_OF], *more.get(program.name, [])]
        return sum(is_unlike(built, *end) for ends in kinds for end in ends(program, built, room))


def odd_names(program, words, file, option, names, output, builds) -> int:
    """Prints what `readelf` and each build of a program say of names with control characters and bytes that aren't UTF-8, and returns
    how often that isn't as it must be."""
    names = {latin(old): latin(new) for old, new in names.items()}
    # Of needed libraries `readelf` shows the bytes as they are, and elfnm prints them so.
    shows, prints = (escaped, bytes) if program == "elfnm" else (bytes, escaped)
    with tempfile.TemporaryDirectory() as room:
        changed = replaced(data(file), {old + b"\0": new + b"\0" for old, new in names.items()})
        pathlib.Path(room, "names.elf").write_bytes(changed)
        _, shown, _ = run("readelf", [option, "names.elf"], room, env={**os.environ, "LC_ALL": "C"})
        missing = [it for it in names.values() if shows(it) not in shown]
        count = is_unlike(pathlib.Path("readelf"), f"names in {file}", [], missing)
        wanted = [0, replaced(filled(output), {old: prints(new) for old, new in names.items()}), b""]
        return count + sum(is_unlike(built, f"names in {file}", wanted, run(built, words.split(), room)) for built in builds)


def builds_of(names: list[str]) -> dict[str, list[pathlib.Path]]:
    """The builds of each program: those that the command names, or else all that there are."""
    given = [pathlib.Path(it).resolve() for it in sys.argv[1:]]
    paths = given or [it for name in names for end in BUILDS if (it := CRATES / name / "out" / (name + end)).exists()]
    builds = {name: [it for it in paths if it.name.split(".")[0] == name] for name in names}
    if missing := [name for name in names if not builds[name] and not given]:
        sys.exit(f"{missing[0]} is not built: run `rt run` in crates/{missing[0]} first")
    return builds


if __name__ == "__main__":
    builds = builds_of([*(it.name for it in PROGRAMS), "elfnm"])
    count = sum(unlike(program, it) for program in PROGRAMS for it in builds[program.name])
    count += sum(odd_names(**row, builds=builds[row["program"]]) for row in NAMES)
    sys.exit(1 if count else 0)
