"""Reads the sources of the crates, as `rt fmt` lays them out: items, impl blocks, imports and functions.

    sources = sources.read()                                by crate and module
    for path, item in public_items(sources, "elf_base"):    path, item.kind, item.name, item.doc, item.text
    Crate(ROOT / "crates" / "elf_base").functions           each with its file, its lines and the path by which a check names it

An item begins at the left margin, a method four blanks further in, and the brace of a body is alone on its line where a function
has clauses. Also what scripts share that write files from the sources, and with --check compare them.
"""
import argparse
import collections
import os
import pathlib
import re
import resource
import subprocess
import tomllib

ROOT = pathlib.Path(__file__).resolve().parents[2]
# The libraries whose contracts users read, and the crates of callers.
LIBRARIES = ("elf_base", "elf_records", "xmas_elf", "elf_linking", "elf_library", "elf_addresses", "elf_debug", "elf_loading", "elf_search")
CALLERS = ("elf_callers", "linking_callers")

ITEM = re.compile(r'pub (struct|enum|trait|type|const|static|(?:const )?fn|extern "C" fn) (\w+)')
BLOCK = re.compile(
    r"(?:pub(?:\(\w+\))? )?(impl|trait)(?:<((?:[^<>]|<[^<>]*>)*)>)?\s+"
    r"(?:([\w:]+)(?:<([^{]*?)>)? for )?(?:\w+::)*(\w+)(?:<([^{]*?)>)?")
FUNCTION = re.compile(r"( {0,4})(?:pub(?:\(\w+\))? )?(?:final )?(?:const )?(?:unsafe )?(?:extern \"C\" )?fn (\w+)")
USE = re.compile(r"^(pub )?use ([^;]+);", re.MULTILINE)
# What has no body in which another could be: a constant is computed by it, and an opaque type is read off it.
NO_STAND_IN = re.compile(r"\bconst (?:unsafe )?fn\b|-> impl\b")

# A public item: its kind, its doc, and its text up to the body.
Item = collections.namedtuple("Item", "kind name doc text source at")
# An impl block or a trait: the trait of an impl, the type, the indices of its first and last line, its name in the path of a
# function, as `Table`, `TableClone` or `Part_+P32`, and the type of an impl of no trait.
Block = collections.namedtuple("Block", "trait type source at end is_trait label owner")

FUNCTION_FIELDS = "file first last path named_at body owner in_trait of"


class Function(collections.namedtuple("Function", FUNCTION_FIELDS, defaults=(0, 0, "", False, ""))):
    """A function of a source file, by the lines that it takes, its attributes among them, the line of its name, and the line that
    opens the body. The owner is the type of an inherent method, which a check names by the module of that type. One that is
    in a trait or an impl of one can't have another name. Last its trait, or its type where it is of no trait."""

    def tail(self) -> str:
        return "::".join(self.path.split("::")[-2:])

    def name(self) -> str:
        return self.path.rpartition("::")[2]

    def moved(self, lines: int):
        """The function so many lines further down."""
        return self._replace(first=self.first + lines, last=self.last + lines, body=self.body + lines)


def label_of(found: re.Match) -> tuple:
    """The name of a block in the path of a function, and the type of an impl of no trait."""
    # The arguments of a type are in its name where they are types, and not parameters of the impl.
    own = {*re.findall(r"\w+", re.sub(r":[^,]*", "", found[2] or "")), "_"}
    words = ([it.strip() for it in (found[at] or "").split(",")] for at in (6, 4))
    arguments, given = ([it for it in some if re.fullmatch(r"\w+", it) and it not in own] for some in words)
    if not found[3]:
        # With arguments it is told by the module of the impl, as an impl of a trait is.
        return found[5] + "".join("+" + it for it in arguments), found[5] if found[1] == "impl" and not arguments else ""
    of = "Any" if found[5] in own else found[5]
    return "".join(it[0].upper() + it[1:] for it in [of, *arguments, found[3].split("::")[-1], *given]), ""


class Source:
    """A source file of a crate: its items, blocks and functions, and what its `use` items bring."""

    def __init__(self, folder: pathlib.Path, path: pathlib.Path):
        self.crate, self.path, self.file = folder.name, path, str(path.relative_to(folder))
        self.text = path.read_text(encoding="utf-8")
        self.lines = self.text.split("\n")
        module = path.relative_to(folder / "src").with_suffix("")
        self.module = "" if module.name in ("lib", "main") and len(module.parts) == 1 else "::".join(module.parts)
        self.path_of = "::".join(it for it in (self.crate, self.module) if it)
        found = [(at, it) for at, line in enumerate(self.lines) if (it := ITEM.match(line))]
        self.items = {it[2]: Item(it[1].split()[-1], it[2], self.doc_above(at), self.text_from(at, ""), self, at) for at, it in found}
        self.uses = list(self.read_uses())
        self.blocks = list(self.read_blocks())
        self.functions = list(self.read_functions())

    def about(self) -> str:
        return "\n".join(line[3:].removeprefix(" ") for line in self.lines if line.startswith("//!"))

    def above(self, at: int) -> list:
        """The lines of doc and attributes above the line with this index."""
        start = at
        while start > 0 and re.match(r"\s*(#\[|///|.*\)\]$)", self.lines[start - 1]):
            start -= 1
        return [line.strip() for line in self.lines[start:at]]

    def doc_above(self, at: int) -> str:
        return "\n".join(re.sub("^/// ?", "", line) for line in self.above(at) if line.startswith("///"))

    def text_from(self, at: int, margin: str) -> str:
        """An item's text from its first line on, up to a function's body or a type's last line."""
        taken = []
        is_function = " fn " in f" {self.lines[at].strip()}"
        for line in self.lines[at:]:
            if is_function and line in (margin + "{", margin + "{}", margin + "where"):
                break
            taken.append(line.removeprefix(margin))
            # A `let` in a clause ends with `;` too, inside the braces of the clause.
            open_ = "\n".join(taken).count("{") > "\n".join(taken).count("}")
            if line.startswith((margin + "}", margin + "]")) or line.endswith(";") and (is_function and not open_ or len(taken) == 1):
                break
            if is_function and line.endswith(" {") and not re.search(r"(ensures|requires)\b.*{$", line):
                taken[-1] = taken[-1].removesuffix(" {")
                break
        return "\n".join(taken)

    def read_uses(self):
        """Each name that a `use` item brings: whether it is public, the path, and the name there."""
        for public, whole in USE.findall(self.text):
            for path in spread("".join(re.sub(r"\bas\b", ":as:", whole).split())):
                path, _, alias = path.partition(":as:")
                start, _, name = path.rpartition("::")
                yield bool(public), start, name, alias or name

    def read_blocks(self):
        for at, line in enumerate(self.lines):
            if not re.match(r"(pub(\(\w+\))? )?(impl|trait)\b", line):
                continue
            if found := BLOCK.match(" ".join(self.lines[at : at + 7]).split("{")[0] + "{"):
                end = at if line.endswith("}") else self.lines.index("}", at)
                yield Block(found[3] or "", found[5], self, at, end, found[1] == "trait", *label_of(found))

    def block_at(self, at: int):
        return next((it for it in self.blocks if it.at <= at <= it.end), None)

    def body_of(self, first: int, last: int, indent: str) -> tuple:
        """The line that opens the body of a function, which is the end of its head, or comes after a contract; and
        the last line, which is the same of a function that is only declared."""
        for at, line in enumerate(self.lines[first - 1 : last], first):
            if line.endswith(";"):
                return at, at
            if line == indent + "{" or line.endswith(" {") and (at == first or line.startswith(indent + ")")):
                return at, last
        return last, last

    def read_functions(self):
        """The functions, as the layout shows where each begins and ends."""
        first = None
        for at, line in enumerate(self.lines, 1):
            if re.match(r" {0,4}(#\[|///? )", line):
                first = first or at
                continue
            if begins := FUNCTION.match(line):
                block = self.block_at(at - 1) if begins[1] else None
                path = "::".join(it for it in (self.path_of, block and block.label, begins[2]) if it)
                end = next((k for k in range(at, len(self.lines) + 1) if self.lines[k - 1] == begins[1] + "}"), at)
                body, last = self.body_of(at, end, begins[1])
                in_trait = bool(block and (block.is_trait or block.trait))
                of = block and (block.trait if block.trait and len(block.type) == 1 else block.type) or ""
                yield Function(self.file, first or at, last, path, at, body, block.owner if block else "", in_trait, of)
            first = None


def spread(path: str) -> list:
    """The paths of a `use` item, one for each name in its braces."""
    start, brace, rest = path.partition("{")
    if not brace:
        return [path]
    parts, depth = [""], 0
    for letter in rest[: rest.rindex("}")]:
        depth += {"{": 1, "}": -1}.get(letter, 0)
        parts = [*parts, ""] if letter == "," and depth == 0 else [*parts[:-1], parts[-1] + letter]
    return [start + one for part in parts if part for one in spread(part)]


def read_folder(folder: pathlib.Path) -> list:
    return [Source(folder, it) for it in sorted((folder / "src").rglob("*.rt"))]


def read() -> dict:
    """The sources, by crate and module."""
    return {(it.crate, it.module): it for folder in sorted((ROOT / "crates").iterdir()) for it in read_folder(folder)}


def meant(sources: dict, source: Source, name: str):
    """The item that a name means in a file, where this repository declares it."""
    if name in source.items:
        return source.items[name]
    for _, path, there, here in source.uses:
        if here == name:
            crate, _, module = path.partition("::")
            if crate in ("super", "self"):
                return None
            other = sources.get((source.crate if crate == "crate" else crate, module))
            return meant(sources, other, there) if other else None
    return None


def modules(sources: dict, crate: str, module: str = ""):
    """The public modules of a crate, the root first."""
    yield module
    for line in sources[crate, module].lines:
        if found := re.match(r"pub mod (\w+);", line):
            yield from modules(sources, crate, "::".join(it for it in (module, found[1]) if it))


def public_items(sources: dict, crate: str):
    """Each public item of a crate that this repository declares, with its path."""
    for module in modules(sources, crate):
        source = sources[crate, module]
        for name in dict.fromkeys([*source.items, *(here for public, _, _, here in source.uses if public)]):
            if item := meant(sources, source, name):
                yield "::".join(it for it in (crate, module, name) if it), item


def impls_of(sources: dict, item: Item):
    """The impl blocks of a type, in the order of the files of its crate."""
    for (crate, _), source in sources.items():
        for block in source.blocks:
            is_of = crate == item.source.crate and not block.is_trait and block.type == item.name
            if is_of and meant(sources, source, block.type) is item:
                yield block


def crates(root: pathlib.Path = ROOT) -> dict:
    """What each crate of crates.txt uses, in its order."""
    lines = (it.partition("#")[0].partition(":") for it in (root / "crates.txt").read_text(encoding="utf-8").splitlines())
    return {name.split()[0]: used.split() for name, _, used in lines if name.strip()}


def below(used: dict, name: str) -> list:
    """The crates of the repository that a crate uses, itself not among them, lowest first."""
    found = []
    for it in used.get(name, []):
        if it in used:
            found += [low for low in [*below(used, it), it] if low not in found]
    return found


class Crate:
    """The sources of a crate, and which function is where."""

    def __init__(self, folder: pathlib.Path):
        self.folder, self.name = folder, folder.name
        self.sources = {it.file: it for it in read_folder(folder)}
        self.texts = {it.file: it.text for it in self.sources.values()}
        self.functions = [one for it in self.sources.values() for one in it.functions]
        # the modules that declare a type of a name
        self.modules = collections.defaultdict(list)
        for source in self.sources.values():
            for it in re.findall(r"^(?:pub(?:\(\w+\))? )?(?:struct|enum) (\w+)", source.text, re.M):
                self.modules[it].append(source.path_of)

    def head(self, one: Function) -> str:
        """A function from its attributes to the line that opens its body."""
        return "\n".join(self.texts[one.file].split("\n")[one.first - 1 : one.body])

    def function_at(self, file: str, line: int):
        held = [it for it in self.functions if it.file == file and it.first <= line <= it.last]
        return held[-1] if held else None

    def told_path(self, one: Function) -> str:
        """The path by which a check names a function: that of its module, or of the type's module for a method."""
        here = f"{self.sources[one.file].path_of}::"
        # A method may be in a module below that of its type.
        modules_of = sorted(self.modules[one.owner], key=lambda it: (here.startswith(f"{it}::"), len(it)))
        return f"{modules_of[-1]}::{one.tail()}" if modules_of else one.path

    def stands_in(self, one: Function) -> bool:
        """Whether a function is known by its contract alone while others are tried: `loop {}` takes the place of its body."""
        lines = self.texts[one.file].split("\n")
        is_block = lines[one.body - 1].endswith("{") and one.last - one.body > 1
        return is_block and not NO_STAND_IN.search(" ".join(lines[one.first - 1 : one.body]))

    def with_stand_ins(self, but) -> dict:
        """The texts with stand-ins for all functions but these, each on the lines of its function."""
        texts = {file: text.split("\n") for file, text in self.texts.items()}
        for one in self.functions:
            if one not in but and self.stands_in(one):
                texts[one.file][one.body : one.last - 1] = ["loop {}"] + [""] * (one.last - one.body - 2)
        return {file: "\n".join(lines) for file, lines in texts.items()}

    def proofs_of(self, one: Function) -> list:
        """The folders below proofs/ of what was written of the proofs of a function and of its closures."""
        *above, name = self.told_path(one).split("::")[1:]
        found = [it.relative_to(self.folder / "proofs").parts for it in (self.folder / "proofs").rglob(name) if it.is_dir()]
        return [it for it in found if [part for part in it[:-1] if part != "fn"] == above]


CHECK = {"check": "write nothing, and fail where something differs"}


def parser_of(doc, flags: dict = CHECK) -> argparse.ArgumentParser:
    """The arguments of a script, which are described in its head: these flags, each with what is said of it."""
    parser = argparse.ArgumentParser(description=doc, formatter_class=argparse.RawDescriptionHelpFormatter)
    for flag, said in flags.items():
        parser.add_argument(f"--{flag}", action="store_true", help=said)
    return parser


def table_of(script: str) -> dict:
    """The lists of a script: those of the file beside it that ends in `.toml`."""
    return tomllib.loads(pathlib.Path(script).with_suffix(".toml").read_text(encoding="utf-8"))


def unfolded(names, lists: dict) -> list:
    """Some names, with those of a list in place of `@` and its name."""
    return [it for name in names for it in (unfolded(lists[name[1:]], lists) if name[0] == "@" else [name])]


def anchor(heading: str) -> str:
    """What a link names a heading by."""
    return re.sub(r"[^\w\- ]", "", heading.lower()).replace(" ", "-")


def differing(texts: dict, is_check: bool) -> list:
    """Writes each file, or says of those that have another text."""
    for path, text in texts.items():
        if not is_check:
            path.write_text(text, encoding="utf-8")
    return [f"{path.relative_to(ROOT)} is not what the sources give" for path, text in texts.items()
            if not path.exists() or path.read_text(encoding="utf-8") != text]


def git(*words: str, check=True) -> str:
    """What git says of the repository."""
    return subprocess.run(["git", *words], cwd=ROOT, capture_output=True, text=True, check=check).stdout


def timed(words: list, limit=None, **kept) -> tuple:
    """The status of a command, what it wrote, and how many seconds a processor took; more than the limit end it."""
    limited = limit and (lambda: resource.setrlimit(resource.RLIMIT_CPU, (limit, limit + 5)))
    with subprocess.Popen(words, stdout=subprocess.PIPE, stderr=subprocess.STDOUT, preexec_fn=limited, **kept) as started:
        said = started.stdout.read()
        _, status, used = os.wait4(started.pid, 0)
        started.returncode = os.waitstatus_to_exitcode(status)
    return started.returncode, said, used.ru_utime + used.ru_stime


def ended(faults: list, said: str) -> int:
    """Prints faults, and what is said behind them; gives the status."""
    print("\n".join([*faults, said]))
    return 1 if faults else 0
