#!/usr/bin/env python3
"""Compare the libraries that elftree finds for a program with those that ld.so finds.

    tools/compare/search.py [--elftree PATH] [--trees N] [--seed N] [FILE..]

Each dynamically linked program and library among the files, and in the folders among them, is given to ld.so, which lists its
libraries and runs nothing (LD_TRACE_LOADED_OBJECTS). --trees N makes N trees of small programs and libraries, at random from the
seed: with RPATH, RUNPATH, tokens, links, other classes, sonames of other files, filters, versions, damaged headers, and a cache, of
which half are damaged. Their ld.so is a copy that reads this cache. A program that misses nothing is also run, for the order of
initialisers and finalisers (LD_DEBUG=files). Where ld.so crashes or trips over an assertion of its own, the tree is counted, and not
compared. The versions that `ldd -v` doesn't find are compared too, and where lddtree of pax-utils is installed, the libraries of each
eighth file of the system, without links, since it searches the folders of /etc/ld.so.conf and no cache.
"""
import os
import pathlib
import random
import re
import shutil
import struct
import sys
import tempfile
from collections import namedtuple

from comparing import Tally, files_of, first_differing, parser_of, read_elf, run
from damage import hash_number
from pages.sources import table_of
from processes import can_trace, linker_of

NEEDED, SONAME, RPATH, RUNPATH, FLAGS_1, VERDEF, VERNEED, AUXILIARY, FILTER = 1, 14, 15, 29, 0x6FFFFFFB, 0x6FFFFFFC, 0x6FFFFFFE, 0x7FFFFFFD, 0x7FFFFFFF
INITFIRST, NODEFLIB, PIE = 0x20, 0x800, 0x8000000
LINKERS = {62: "/lib64/ld-linux-x86-64.so.2", 3: "/lib/ld-linux.so.2"}
LISTED = re.compile(r"^\t(?:(.*) => )?(.*?)(?: \(0x[0-9a-f]+\))?$", re.M)
LDDTREE = ["/usr/bin/python3", "/usr/bin/lddtree", "-l"] if os.path.exists("/usr/bin/lddtree") else []
LONGEST = 30.0
# Runs a program, and lists the files that it asks for, with the bytes of their names in hexadecimal.
STRACE = ["strace", "-qq", "-xx", "-s", "9999", "-e", "trace=stat,newfstatat,statx", "-o"] if shutil.which("strace") and can_trace() else []

# What becomes of a program: its objects in the order of the scope, missing names, messages of versions, paths in the order of their
# initialisers and of their finalisers, the error that ends all, the paths tried for names without a slash, if these are known, and the
# versions that are missing, each with the object that needs it.
Tree = namedtuple("Tree", "paths missing messages starts ends error tried versions", defaults=((), ()))


def versions_of(messages: list, rows: list) -> list:
    """Missing versions, each with the object that needs it, but of objects that a message says get a library without versions."""
    plain = {it[1] for line in messages if (it := re.search(r"no version information available \(required by (.*)\)$", line))}
    return sorted({row for row in rows if row[0] not in plain})


def linker_said(command: list, **variables: str):
    """What ld.so says of a program; None where it crashes or has nothing to list."""
    done = run(command, LD_TRACE_LOADED_OBJECTS="1", LD_VERBOSE="1", LD_DEBUG="libs", **variables)
    output, _, listing = done.output.partition("\n\tVersion information:\n")
    # elftree opens no path that is empty, as one of a cache may be, or no UTF-8.
    tried = re.findall(r"^ *\d+:\t  trying file=([^\udc80-\udcff\n]+)$", done.errors, re.M)
    said = re.findall(r"^(?! *\d+:\t)[^:\n]*: (.*)$", done.errors, re.M)
    prefix = "error while loading shared libraries: "
    error = next((it.removeprefix(prefix) for it in said if it.startswith(prefix)), None)
    if done.status < 0 or "Assertion" in done.errors or "Inconsistency" in done.errors or output == "\tstatically linked\n":
        return None
    if error is not None:
        return Tree([], [], [], [], [], re.sub(r": (?:Error \d+|Is a directory)$", "", error), tried)
    rows = [(name, it) for name, it in LISTED.findall(output) if not re.match(r"linux-(?:vdso|gate)\.so", it)]
    paths = [it for name, it in rows if it != "not found" or not name]
    missing = sorted(name for name, it in rows if it == "not found" and name)
    lacking = [(path, version) for path, part in re.findall(r"^\t(\S.*):\n((?:\t\t.*\n)*)", listing, re.M)
               for file, version in re.findall(r"^\t\t(.*) \((.*?)\) (?:\[WEAK\] )?=> not found$", part, re.M) if file not in missing]
    return Tree(paths, missing, said, [], [], None, tried, versions_of(said, lacking))


def elftree_said(elftree: str, path: str, linker: str, *options: str) -> Tree:
    """What elftree says of a program with this linker, in the words of ld.so."""
    with tempfile.NamedTemporaryFile("r") as trace:
        done = run([*STRACE, *[trace.name] * bool(STRACE), elftree, *options, "--start", path], LONGEST)
        found = re.findall(r'^\w+\((?:AT_FDCWD, )?"((?:\\x..)+)"(?!.*AT_SYMLINK_NOFOLLOW)', trace.read(), re.M)
    asked = [bytes.fromhex(it.replace("\\x", "")).decode("utf-8", "surrogateescape") for it in found]
    lines = done.output.splitlines()
    named = {it[1] for line in lines if (it := re.match(r" +(.*/.*) => .*", line))}
    # After the program elftree asks for its linker. No name with a slash is searched, and after a file that can't be opened comes its folder.
    asked = ["", *asked[asked.index(linker) + 1 :]] if linker in asked else []
    tried = [it for before, it in zip(asked, asked[1:]) if it not in named and not re.search("//[^/]*$", it) and it != os.path.dirname(before)]
    if done.status == 1 and not lines:
        return Tree([], [], [], [], [], done.errors.rstrip("\n").removeprefix("elftree: "), tried)
    found = sorted((int(it[2]), it[1]) for line in lines if (it := re.match(r" +.* => (.*) \([\w, -]+\) #(\d+)$", line)))
    missing = [it[1] for line in lines if (it := re.match(r" +(.*) => not found(?: \(auxiliary\))?$", line))]
    starts = [line.removeprefix("start ") for line in lines if line.startswith("start ")]
    messages = [line for line in lines[1:] if not line.startswith((" ", "start "))]
    lacking = [it[::-1] for it in re.findall(r"version `(.*)' not found \(required by (.*)\)$", "\n".join(messages), re.M)]
    return Tree([it for _, it in found], sorted(missing), messages, starts, [], None, tried, versions_of(messages, lacking))


def tried_of(asked: list) -> list:
    """Of files that are asked for, those in folders that are there, and the first in each other folder."""
    tried, gone = [], set()
    for path in asked:
        folder = os.path.dirname(path)
        if folder not in gone:
            tried.append(path)
        if folder.startswith("/") and not os.path.isdir(folder):
            gone.add(folder)
    return tried


def plain(value):
    """A value, but of an error that ld.so says of a name in place of a path, its words alone."""
    return re.sub("^.*: (?=cannot dynamically load|object file has no)", "", value) if isinstance(value, str) else value


def compare(what: str, wanted: Tree, says: Tree, tally: Tally, *names: str) -> None:
    for name in names:
        a, b = (plain(tried_of(it) if name == "tried" and it else it) for it in (getattr(says, name), getattr(wanted, name)))
        if a == b or name == "tried" and not STRACE:
            continue
        lists = isinstance(a, list) and isinstance(b, list)
        at = first_differing(a, b) if lists else 0
        tally.fault(f"{what}: {name}: elftree has {a[at:at + 3] if lists else a}, ld.so {b[at:at + 3] if lists else b} (item {at})")
    tally["paths tried"] += len(says.tried or ())


def compare_file(path: str, elftree: str, tally: Tally) -> None:
    """Compares a file of this system. An ld.so that is called itself takes $ORIGIN from the path that it gets; one that the kernel
    starts, and elftree, from the path without links."""
    path = os.path.realpath(path)
    content = read_elf(path)
    kind, machine = struct.unpack_from("<HH", content, 16) if len(content) > 64 and content[5] == 1 else (0, 0)
    if kind not in (2, 3) or content[4] != (2 if machine == 62 else 1) or not os.path.exists(LINKERS.get(machine, "")):
        return
    wanted = linker_said([LINKERS[machine], path])
    tally["files"] += 1
    if wanted is None or (wanted.error or "").startswith(f"{path}: "):
        tally["that are static or aren't loaded"] += 1
        return
    says = elftree_said(elftree, path, linker_of(path) or LINKERS[machine])
    compare(path, wanted, says, tally, "paths", "missing", "messages", "error", "tried", "versions")
    tally["objects"] += len(wanted.paths)
    if LDDTREE and machine == 62 and tally["files"] % 8 == 1 and not (wanted.missing or wanted.error):
        ours, theirs = ({os.path.realpath(it) for it in some} for some in (says.paths, run([*LDDTREE, path]).output.split("\n")[1:-1]))
        tally["files with lddtree"] += 1
        if ours != theirs:
            tally.fault(f"{path}: elftree alone has {sorted(ours - theirs)}, lddtree alone {sorted(theirs - ours)}")


# Runs what it gets in rdx, which is the finalisers, and ends.
CODE = bytes.fromhex("ffd2 31ff b8e7000000 0f05")


class Made:
    """A small ELF file of x86-64, by its dynamic entries: pairs of a tag and a text or a number; definitions of versions, names; and
    needs of versions, triples of a file, a name and flags."""

    def __init__(self, entries, definitions=(), needs=(), interpreter=None, kind=3):
        self.strings, self.place = bytearray(b"\0"), {}
        parts, at = [], 64 + 56 * 5
        def put(content: bytes) -> int:
            nonlocal at
            parts.append(content + bytes(-len(content) % 8))
            at += len(parts[-1])
            return at - len(parts[-1])
        code, own = put(CODE), put((interpreter or "").encode() + b"\0")
        rows = [(tag, self.string(value) if isinstance(value, str) else value) for tag, value in entries]
        if definitions:
            rows += [(VERDEF, put(self.defined(definitions))), (0x6FFFFFFD, len(definitions))]
        if needs:
            rows += [(VERNEED, put(self.needed(needs))), (0x6FFFFFFF, len(needs))]
        rows += [(0x6FFFFFF0, put(bytes(8)))] if definitions or needs else []
        symbols, table = put(bytes(24)), put(struct.pack("<5I", 1, 1, 0, 0, 0))
        rows += [(5, put(bytes(self.strings))), (10, len(self.strings)), (6, symbols), (11, 24), (4, table), (0, 0)]
        dynamic = put(b"".join(struct.pack("<QQ", *row) for row in rows))
        segment = lambda kind, place, size, align: struct.pack("<IIQQQQQQ", kind, 7 if kind == 1 else 6, place, place, place, size, size, align)
        heads = segment(6, 64, 56 * 5, 8), segment(1, 0, at, 4096), segment(2, dynamic, 16 * len(rows), 8), segment(0x6474E551, 0, 0, 16), segment(
            3 if interpreter else 0, own, len(interpreter or "") + 1, 1)
        self.content = struct.pack("<16sHHIQQQIHHHHHH", b"\x7fELF\2\1\1", kind, 62, 1, code, 64, 0, 0, 64, 56, 5, 64, 0, 0) + b"".join((*heads, *parts))

    def string(self, text: str) -> int:
        if text not in self.place:
            self.place[text] = len(self.strings)
            self.strings += text.encode("utf-8", "surrogateescape") + b"\0"
        return self.place[text]

    def defined(self, names) -> bytes:
        last = len(names) - 1
        return b"".join(struct.pack("<4H5I", 1, 0, at + 1, 1, hash_number(name.encode()), 20, 28 if at < last else 0, self.string(name), 0) for at, name in enumerate(names))

    def needed(self, needs) -> bytes:
        last = len(needs) - 1
        return b"".join(
            struct.pack("<HHIII IHHII", 1, 1, self.string(file), 16, 32 if at < last else 0, hash_number(name.encode()), flags, at + 2, self.string(name), 0)
            for at, (file, name, flags) in enumerate(needs))


def cache_of(rows, names) -> bytes:
    """A cache of entries: a name, a path, flags and hwcap; and of names for tag 1."""
    start, strings, entries = 48 + 24 * len(rows), bytearray(), []
    def put(text: str) -> int:
        strings.extend(text.encode() + b"\0")
        return start + len(strings) - len(text) - 1
    for name, path, flags, words in rows:
        entries.append(struct.pack("<IIIIQ", flags, put(name), put(path), 0, words)[:12] + struct.pack("<IQ", 0, words))
    places = [put(it) for it in names]
    strings += bytes(-(start + len(strings)) % 4)
    extension = start + len(strings)
    tail = struct.pack("<II IIII", 0xEAA42174, 1, 1, 0, extension + 24, 4 * len(places)) + b"".join(struct.pack("<I", it) for it in places)
    return struct.pack("<20sIIB3xI12x", b"glibc-ld.so.cache1.1", len(rows), len(strings), 2, extension) + b"".join(entries) + strings + tail


def names_of(cache: bytes) -> list:
    """The names that the extension of a cache lists; none where ld.so takes it for damaged."""
    found = []
    try:
        place, = struct.unpack_from("<I", cache, 32)
        magic, count = struct.unpack_from("<II", cache, place) if place % 4 == 0 else (0, 0)
        for at in range(place + 8, place + 8 + 16 * count * (magic == 0xEAA42174), 16):
            tag, _, inner, size = struct.unpack_from("<IIII", cache, at)
            if tag == 1:
                found = struct.unpack_from(f"<{size // 4}I", cache, inner) if inner % 4 == size % 4 == 0 else []
    except struct.error:
        return []
    return [cache[it : max(it, cache.find(b"\0", it))] for it in found if it < len(cache)]


class Forest:
    """The folder in which trees are made, with an ld.so that reads the cache there."""

    NAMES, FOLDERS, LISTS = table_of(__file__).values()

    def __init__(self, room: str, seed: int):
        self.room, self.chance = room, random.Random(seed)
        self.linker, self.cache = f"{room}/ld", f"{room}/cach"
        content = pathlib.Path(LINKERS[62]).read_bytes()
        pathlib.Path(self.linker).write_bytes(content.replace(b"/etc/ld.so.cache", self.cache.encode()))
        os.chmod(self.linker, 0o755)

    def list(self) -> str:
        return (self.chance.choice(self.LISTS) + ":@/lib" * self.is_whole).replace("@", self.tree)

    def library(self, number: int, is_program: bool = False) -> bytes:
        chance = self.chance
        entries = [(SONAME, chance.choice([*[self.NAMES[number % 6]] * 4, *self.NAMES]))] * (not is_program and chance.random() < 0.8)
        for _ in range(chance.choice((1, 2, 3, 4)) if is_program else chance.choice((0, 0, 1, 1, 2, 3))):
            name = chance.choice(self.NAMES) if self.is_whole and chance.random() < 0.9 else chance.choice([*self.NAMES, *self.NAMES, "libnone.so", f"{self.tree}/lib//liba.so", "lib//libb.so", "$ORIGIN//libe.so", "ld-linux-x86-64.so.2"])
            kind = NEEDED
            if not is_program and number == 5 and name != "libe.so" and "/" not in name:
                kind = chance.choice((kind, AUXILIARY, FILTER))
            entries.append((kind, name))
        for tag in (RPATH, RUNPATH):
            if chance.random() < (0.6 if is_program else 0.25) or self.is_whole and is_program and tag == RPATH:
                entries.append((tag, self.list()))
        if chance.random() < 0.15:
            entries.append((FLAGS_1, chance.choice((INITFIRST, NODEFLIB, INITFIRST, PIE if chance.random() < 0.2 else 0))))
        chance.shuffle(entries)
        # Without its interpreter among them ld.so can't run finalisers.
        entries += [(NEEDED, chance.choice(("libc.so.6", "ld-linux-x86-64.so.2")))] if is_program and self.is_whole else []
        definitions = chance.choice(([], [], ["BASE", "V1"], ["BASE", "V1", "V2"]))
        needs = [(chance.choice(self.NAMES), chance.choice(("V1", "V2", "V3")), chance.choice((0, 0, 2)))] if chance.random() < 0.3 else []
        # What is needed of a file that nothing asks for ends ld.so.
        needs = [it for it in needs if (NEEDED, it[0]) in entries]
        return Made(entries, definitions, needs, self.linker if is_program else None).content

    def damaged(self, content: bytes) -> bytes:
        copy, chance = bytearray(content), self.chance
        for _ in range(chance.choice((1, 1, 2))):
            place = chance.choice((*range(4, 24), 54, 56, 57, 16, 18))
            copy[place] = chance.choice((0, 1, 2, 3, 4, 62, 183, 255))
        return bytes(copy[: chance.choice((0, 3, 40, 63, 64, 100))]) if chance.random() < 0.2 else bytes(copy)

    def write_cache(self) -> None:
        chance, rows = self.chance, []
        for name in chance.sample([*self.NAMES, "libc.so.6"], 4):
            for _ in range(chance.choice((1, 1, 2, 3))):
                words = chance.choice((0, 0, 0, 2, 4, 1, 1 << 50, 1 << 49, *(0x40000000 + level << 32 | chance.randrange(4) for level in (0, 1, 3, 4, 40, 128))))
                rows.append((name, f"{self.tree}/{chance.choice(self.FOLDERS)}/{chance.choice((name, name, 'libe.so'))}", chance.choice((0x303,) * 6 + (3, 0x803)), words))
        # By numbers as numbers, which are greater than all letters.
        key = lambda row: [(1, int(it)) if it.isdigit() else (0, ord(it)) for it in re.findall(r"\d+|\D", row[0])]
        content = bytearray(cache_of(sorted(rows, key=key, reverse=True), ["x86-64-v2", "x86-64-v3", "x86-64-v4"]))
        if chance.random() < 0.5:
            for _ in range(chance.choice((1, 2, 4))):
                content[chance.choice((chance.randrange(len(content)), chance.randrange(20, 48), chance.randrange(48, 48 + 24 * len(rows))))] = chance.choice((0, 1, 2, 49, 128, 255))
        pathlib.Path(self.cache).write_bytes(content)

    def make(self, number: int) -> str:
        """Makes a tree, and gives the path by which its program is called."""
        # Half of the trees have each library in one folder.
        chance, self.tree, self.is_whole = self.chance, f"{self.room}/{number}", number % 2 == 0
        for folder in self.FOLDERS:
            os.makedirs(f"{self.tree}/{folder}")
        os.chdir(self.tree)
        for at, name in enumerate(self.NAMES):
            for folder in sorted({*chance.sample(self.FOLDERS, chance.choice((1, 1, 2, 3))), *["lib"] * self.is_whole}):
                path, kind = pathlib.Path(folder, name), 1 if self.is_whole and folder == "lib" else chance.random()
                if kind < 0.1:
                    path.symlink_to(chance.choice((*[f"{self.tree}/lib/{it}" for it in self.NAMES], self.linker)))
                elif kind < 0.13:
                    path.mkdir()
                else:
                    content = self.library(at)
                    path.write_bytes(self.damaged(content) if kind < 0.2 else content)
        pathlib.Path("bin/prog").write_bytes(self.library(6, True))
        os.chmod("bin/prog", 0o755)
        os.symlink("../bin/prog", "other/prog")
        self.write_cache()
        return chance.choice(("bin/prog", "other/prog", f"{self.tree}/bin/prog", "./bin/../bin/prog"))


def compare_tree(forest: Forest, number: int, elftree: str, tally: Tally) -> None:
    """Makes a tree, and compares what becomes of its program, which the kernel starts."""
    path = forest.make(number)
    variables = {"LD_LIBRARY_PATH": forest.list().replace(":", forest.chance.choice(":;"))} if forest.chance.random() < 0.3 else {}
    wanted, held = linker_said([path], **variables), names_of(pathlib.Path(forest.cache).read_bytes())
    tally["trees"] += 1
    # By its extension ld.so goes through the cache's names as through a list that rises.
    if wanted is None or held != sorted(held):
        tally["trees with a cache that isn't in order" if wanted else "trees in which ld.so ends itself"] += 1
        return
    library_path = ["--library-path", variables["LD_LIBRARY_PATH"]] if variables.get("LD_LIBRARY_PATH") else []
    says, names = elftree_said(elftree, path, forest.linker, "--cache", forest.cache, *library_path), ["paths", "missing", "messages", "error", "tried", "versions"]
    if not (wanted.missing or wanted.error or any("`" in it and "weak" not in it for it in wanted.messages)):
        done = run([path], LD_DEBUG="files", **variables)
        if done.status == 0:
            ran = lambda what: re.findall(rf"^ *\d+:\tcalling {what}: (\S.*?)(?: \[0\])?$", done.errors, re.M)
            # Finalisers run in the reverse order, but for libraries with INITFIRST, which elftree tells in the order of initialisers alone.
            ends = lambda paths: [it for it in paths if struct.pack("<QQ", FLAGS_1, INITFIRST) not in pathlib.Path(it).read_bytes()]
            wanted, says = wanted._replace(starts=ran("init"), ends=ends(ran("fini"))), says._replace(ends=ends(says.starts[::-1]))
            names += ["starts", "ends"]
            tally["initialisers"] += len(wanted.starts)
            tally["finalisers"] += len(wanted.ends)
    compare(f"tree {number}", wanted, says, tally, *names)
    tally["objects of trees"] += len(wanted.paths)
    tally["missing names"] += len(wanted.missing)
    tally["messages"] += len(wanted.messages)
    tally["missing versions"] += len(wanted.versions)
    tally["errors"] += wanted.error is not None


if __name__ == "__main__":
    given = parser_of(__doc__, "elftree", files="*", trees=0, seed=1).parse_args()
    tally, elftree = Tally("elftree"), os.path.abspath(given.elftree)
    if not os.path.exists(LINKERS[62]):
        print("0 files, 0 differences: there is no ld.so for x86-64 here")
        sys.exit(0)
    for path in filter(read_elf, files_of(given.files)):
        compare_file(path, elftree, tally)
    # The path of a tree's cache must be as long as that of the system's.
    room = f"/tmp/{os.urandom(3).hex()}"
    os.mkdir(room)
    forest = Forest(room, given.seed)
    for number in range(given.trees):
        compare_tree(forest, number, elftree, tally)
        os.chdir("/")
        shutil.rmtree(f"{room}/{number}")
    shutil.rmtree(room)
    sys.exit(tally.ended())
