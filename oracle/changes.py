"""Changed copies of libraries: what glibc does with each, beside the status of elfload."""
import pathlib
import random
import re
import struct
import subprocess
import sys
import tempfile
from collections import Counter

# It opens a library at once, says so, and calls its function. No function of these libraries runs before that.
ASKED = "import ctypes, sys; held = ctypes.CDLL(sys.argv[1], mode=2); print('opened', flush=True); sys.exit(held.call() % 256)"
SECONDS = 60

RELA, RELASZ, RELAENT, REL, RELSZ, RELENT, PLTREL, JMPREL, PLTRELSZ = 7, 8, 9, 17, 18, 19, 20, 23, 2
RELRSZ, RELR, RELRENT, RELACOUNT, RELCOUNT = 35, 36, 37, 0x6FFFFFF9, 0x6FFFFFFA
TAGS = (RELA, RELASZ, RELAENT, REL, RELSZ, RELENT, PLTREL, JMPREL, PLTRELSZ, RELRSZ, RELR, RELRENT, RELACOUNT, RELCOUNT)
# The types of x86-64 that a library of gcc has, those without a formula, and others.
TYPES = (0, 1, 2, 5, 6, 7, 8, 10, 11, 16, 17, 18, 24, 25, 32, 33, 36, 37, 38, 39, 43, 99)
# By these glibc finds the library that the others need: it is given to elfload, so they stay.
FINDING = (1, 29)
ENTRY, RECORD = 16, 24


class Copy:
    """A copy of a library with changes."""

    def __init__(self, library, chance: random.Random) -> None:
        self.library, self.held, self.chance = library, bytearray(library.held), chance

    def put(self, place: int, form: str, number: int) -> None:
        size = struct.calcsize(form)
        if 0 <= place <= len(self.held) - size:
            struct.pack_into(form, self.held, place, number % 256**size)

    def number_near(self, number: int) -> int:
        """A number near another, or another one."""
        steps = [1, 2, 4, 8, 16, 24, 48, 4096]
        near = number + self.chance.choice([1, -1]) * self.chance.choice(steps)
        return self.chance.choice([near, near, near, 0, 2 * number, number // 2, self.chance.randrange(64), self.chance.randrange(2**64)])

    def entries(self) -> list[int]:
        """The offsets of the entries of the dynamic segment up to the one that ends it."""
        start, size = self.library.dynamic
        places = range(start, start + size, ENTRY)
        return list(places)[: [struct.unpack_from("<Q", self.library.held, it)[0] for it in places].index(0)]

    def change_entry(self) -> None:
        """An entry about relocations has another number, or one has another tag."""
        places = {it: struct.unpack_from("<QQ", self.library.held, it) for it in self.entries()}
        places = {it: entry for it, entry in places.items() if entry[0] not in FINDING}
        own = [it for it, (tag, _) in places.items() if tag in TAGS]
        place = self.chance.choice(own if self.chance.randrange(4) else list(places))
        if self.chance.randrange(3):
            other = self.chance.choice([number for _, number in places.values()])
            self.put(place + 8, "<Q", self.chance.choice([self.number_near(places[place][1]), other]))
        else:
            self.put(place, "<Q", self.chance.choice([*TAGS, 0x6FFFFF00]))

    def change_record(self) -> None:
        """A relocation has another type, offset, symbol or addend."""
        tables = [self.records(tag, size) for tag, size in ((RELA, RELASZ), (JMPREL, PLTRELSZ)) if self.has(tag)]
        place = self.chance.choice(self.chance.choice(tables))
        address, kind, symbol, addend = struct.unpack_from("<QIIQ", self.library.held, place)
        field, form, number = self.chance.choice(
            [
                (8, "<I", self.chance.choice(TYPES)),
                (0, "<Q", self.number_near(address)),
                (12, "<I", self.chance.choice([self.chance.randrange(16), self.number_near(symbol)])),
                (16, "<Q", self.number_near(addend)),
            ]
        )
        self.put(place + field, form, number)

    def change_packed(self) -> None:
        """A packed relocation is another address or bitmap."""
        if self.has(RELR):
            place = self.library.table(RELR) + 8 * self.chance.randrange(self.library.number(RELRSZ) // 8)
            self.put(place, "<Q", self.number_near(struct.unpack_from("<Q", self.library.held, place)[0]))

    def has(self, tag: int) -> bool:
        return any(struct.unpack_from("<Q", self.library.held, it)[0] == tag for it in self.entries())

    def change(self) -> None:
        for _ in range(self.chance.choice([1, 1, 2])):
            self.chance.choice([self.change_entry, self.change_record, self.change_packed])()

    def types(self) -> dict[int, tuple[int, int]]:
        """The type and the addend of each changed relocation of the tables that the library had, by its offset."""
        places = [it for tag, size in ((RELA, RELASZ), (JMPREL, PLTRELSZ)) if self.has(tag) for it in self.records(tag, size)]
        changed = [it for it in places if self.held[it : it + RECORD] != self.library.held[it : it + RECORD]]
        return {it: struct.unpack_from("<I4xQ", self.held, it + 8) for it in changed}

    def records(self, tag: int, size: int) -> range:
        start = self.library.table(tag)
        return range(start, start + self.library.number(size), RECORD)

    def changes(self) -> list[str]:
        """The bytes that differ: offset, old, new."""
        return [f"{place:#x}: {old:02x} {new:02x}" for place, (old, new) in enumerate(zip(self.library.held, self.held)) if old != new]


# Functions of no library run when they are opened: they are linked without the files that start programs.
PROVIDED = "int atoi(const char *text) { return text[0] - '0'; } int given = 5;"
NAMED = """int table[4] = {1, 2, 3}, *places[3] = {table, table + 1, table + 2};
extern int atoi(const char *), given; const char *volatile text = "7"; int *volatile taken = &given;
__attribute__((weak)) extern int absent; int *weak = &absent;
int other(const char *text) { return 1; }
int call(void) { return 33 + table[1] + atoi(text); }"""
ALONE = """static int table[4] = {1, 2}, *volatile places[3] = {table, table, table + 1};
int call(void) { return 40 + *places[2]; }"""
CALLING = """static int real(void) { return 42; } static void *pick(void) { return real; }
static int chosen(void) __attribute__((ifunc("pick"))); int call(void) { return chosen(); }"""
KEPT = "static __thread int kept = 42; __thread int held = 1; int call(void) { return kept + held - 1; }"
SHARED = ["gcc", "-O1", "-shared", "-fPIC", "-nostartfiles", "-x", "c", "-"]
WITHOUT = ["-nostdlib", "-x", "none", "./provided", "-Wl,-rpath,$ORIGIN"]
# The name of a library, its source, how it is linked, and whether libc is one of its libraries.
LIBRARIES = (
    ("named", NAMED, [*WITHOUT, "-Wl,-z,lazy"], False),
    ("at once", NAMED, [*WITHOUT, "-Wl,-z,now"], False),
    ("alone", ALONE, WITHOUT, False),
    ("calling", CALLING, [*WITHOUT, "-Wl,-z,lazy"], False),
    ("kept", KEPT, [*WITHOUT, "-mtls-dialect=gnu2"], False),
    ("packed", NAMED, ["-x", "none", "./provided", "-Wl,-rpath,$ORIGIN", "-Wl,-z,pack-relative-relocs"], True),
)

# What a file with the status 0 may still end with, as docs/LOADING.md and docs/PROGRAMS.md say: by what glibc writes, and by the types of
# changed relocations of x86-64 (TPOFF64, TPOFF32 and TLSDESC; IRELATIVE).
WRITTEN = (
    ("static thread-local storage is full", re.compile("static TLS")),
    ("no version GLIBC_ABI_DT_RELR", re.compile("GLIBC_ABI_DT_RELR")),
)
CHANGED = (
    ("thread-local storage of a file without any", {18, 23, 36}),
    ("a function that a relocation calls", {37}),
)


def built(folder: pathlib.Path) -> None:
    subprocess.run([*SHARED, "-nostdlib", "-Wl,-soname,provided", "-o", "provided"], cwd=folder, input=PROVIDED.encode(), check=True)
    for name, source, words, _ in LIBRARIES:
        subprocess.run([*SHARED, *words, "-o", name], cwd=folder, input=source.encode(), check=True)


def opened(path: pathlib.Path) -> tuple[str, str]:
    """What glibc does: it loads, refuses or crashes, and what it writes. A crash in the call of a loaded library is none."""
    try:
        ran = subprocess.run([sys.executable, "-S", "-E", "-c", ASKED, path], capture_output=True, check=False, timeout=SECONDS)
    except subprocess.TimeoutExpired:
        return "runs on", ""
    text = ran.stderr.decode(errors="replace").strip().rpartition("\n")[2]
    if ran.stdout.startswith(b"opened"):
        return "loads", text
    return ("crashes" if ran.returncode < 0 else "refuses"), text


def answered(elfload: str, files: list) -> tuple[int, str]:
    """The status of elfload, and its message without what it is about; -1 if it takes too long."""
    try:
        ran = subprocess.run([elfload, *files], capture_output=True, check=False, timeout=SECONDS)
    except subprocess.TimeoutExpired:
        return -1, "takes too long"
    return ran.returncode, ran.stderr.decode(errors="replace").strip().rpartition(": ")[2]


def cause_of(copy: Copy, did: str, text: str) -> str:
    """Why glibc doesn't load a copy with the status 0, if a page lists it."""
    types = {kind for kind, _ in copy.types().values()} if did == "crashes" else set()
    said = [cause for cause, form in WRITTEN if form.search(text)] + [cause for cause, kinds in CHANGED if kinds & types]
    return next(iter(said), "")


def tried(elfload: str, kind, count: int, seed: int, system: tuple) -> int:
    """Tries copies, counts what both say, prints those that differ by no listed cause, and returns how many these are."""
    said, faults = Counter(), 0
    with tempfile.TemporaryDirectory() as folder:
        room = pathlib.Path(folder)
        built(room)
        libraries = [(name, kind((room / name).read_bytes()), with_libc) for name, _, _, with_libc in LIBRARIES]
        for number in range(count):
            chance = random.Random(f"{seed} {number}")
            name, library, with_libc = chance.choice(libraries)
            copy = Copy(library, chance)
            copy.change()
            path = room / "changed"
            path.unlink(missing_ok=True)
            path.write_bytes(copy.held)
            did, text = opened(path)
            files = [path, room / "provided", *(system if with_libc else ())]
            status, error = answered(elfload, files)
            cause = cause_of(copy, did, text) if status == 0 else ""
            said[(status, did, error or cause)] += 1
            if status not in (0, 1) or (status == 0 and did != "loads" and not cause):
                faults += 1
                print(f"{number} {name}: status {status}, glibc {did} ({text}): {', '.join(copy.changes())}", flush=True)
    for (status, did, why), times in sorted(said.items()):
        print(f"status {status}, glibc {did}: {times} {why}")
    return faults
