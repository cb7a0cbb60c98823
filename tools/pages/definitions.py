"""Follows the words of a contract to the definitions that they mean.

    reader = Reader()
    reader.reached([reader.named("xmas_elf", "ElfFile::new")]): the definitions, each behind those that it uses

A word is looked up by the `ghost use` lines of the function's file and impl block, and then by the `use` lines of the spec files. It
leads to a definition there, to a type or a constant of the code, to a ghost member of a trait, or to a word of std, which isn't followed.
"""
import dataclasses
import re

from pages.sources import LIBRARIES, ROOT, read

USE = re.compile(r"^\s*(?:ghost )?(?:pub )?use ((?:Rattle|lib)\.[\w.]+?)(?:\.\{([^}]*)\}| as (\w+))?;?$", re.M)
WORD = re.compile(r"(?<![.\w])[\w◌][\w◌'-]*(?:\.[\w]+)?|[^\s\w(){}\[\],;.:\"]+")


@dataclasses.dataclass
class Definition:
    """A definition: its name, what is said above it, its lines, and where it is."""

    name: str
    about: str
    text: str
    path: object
    line: int
    kind: str  # "definition", "type" or "member"
    uses: dict  # what the words of its file mean: a name, and the path and name that it is imported from

    @property
    def size(self) -> int:
        return sum(1 for line in self.text.split("\n") if line.strip() and not line.strip().startswith(("--", "//")))


def uses_in(text: str) -> dict:
    """What the `use` lines of a text bring: for each name the path, and the name there; None for a whole file."""
    found = {}
    for path, names, alias in USE.findall(text):
        for name in (it.strip() for it in names.split(",") if it.strip()):
            there, _, here = name.partition(" as ")
            found[here or there.strip("«»")] = (path, there.strip("«»"))
        if not names:
            found[alias or path.split(".")[-1]] = (path, None)
    return found


def closure(found, used):
    """Some definitions and those that they lead to, each once, by what each of them uses."""
    left, seen = list(found), set()
    while left:
        one = left.pop()
        if (one.path, one.line) not in seen:
            seen.add((one.path, one.line))
            yield one
            left += used(one)


class Reader:
    def __init__(self):
        self.sources = read()
        # the types whose members count, None for all; the words of std and the variants of enums that were met
        self.files, self.types, self.std, self.variants = {}, set(), [], set()

    def spec(self, path) -> dict:
        """The definitions of a spec file by name; the constructors of a data type lead to it."""
        if path in self.files:
            return self.files[path]
        text = path.read_text(encoding="utf-8")
        found, uses, about, said, current = {}, uses_in(text), [], "", None
        current_case = None
        for at, line in enumerate(text.split("\n")):
            if line.startswith(("use ", "pub use ", "pub mod ")):
                about = []
            elif line.startswith("--"):
                about, current = [*about, line[2:].strip()], None
            elif begins := re.match(r"(?:(?:abbrev|unfoldable|pub|data|record) )+(\S+)", line):
                # A definition without words shares those of the one before, if both are propositions or neither is.
                said = " ".join(about) or (said if current_case == begins[1][0].isupper() else "")
                current_case = begins[1][0].isupper()
                current = found[begins[1]] = Definition(begins[1], said, line, path, at + 1, "definition", uses)
                about = []
            elif current and line.strip():
                current.text += "\n" + line
                if inside := re.match(r"  (\w+) :", line):
                    found.setdefault(inside[1], current)
            elif not line.strip():
                about, current = [], None
        self.files[path] = found
        return found

    def module(self, path: str):
        """The spec file that a path names, by way of the lines of specs/Lib.antt; None for one of std or of the code."""
        _, crate, *rest = path.split(".")
        folder = ROOT / "crates" / crate / "specs"
        if not folder.exists() or rest[:1] != ["specs"] or rest[1] == "declared":
            return None
        file = folder.joinpath(*rest[1:]).with_suffix(".antt")
        return file if file.exists() else None

    def whole(self, path: str) -> str:
        """A path with its start as specs/Lib.antt gives it on."""
        _, crate, *rest = path.split(".")
        library = ROOT / "crates" / crate / "specs" / "Lib.antt"
        if not library.exists() or len(rest) < 2 or self.module(path) or rest[1] == "declared":
            return path
        given = uses_in(library.read_text(encoding="utf-8")).get(rest[1])
        return ".".join([given[0], *rest[2:]]) if given else path

    def declared(self, path: str, name: str):
        """The type or constant of the code that a path through `declared` names."""
        _, crate, _, _, *module = path.split(".")
        named = module[-1] if module and module[-1][0].isupper() else name
        if module and module[-1] in ("TheVariants", "TheConstants"):
            named = module[-2] if module[-1] == "TheVariants" else name
            module = module[:-1]
        while module and module[-1][0].isupper():
            module = module[:-1]
        source = self.sources.get((crate, "::".join(module)))
        for at, line in enumerate(source.lines if source else []):
            if re.match(rf"(pub(\(\w+\))? )?(struct|enum|const) {named}\b", line):
                file = ROOT / "crates" / crate / "src" / ("/".join(module) or "lib")
                about = source.doc_above(at).split("\n\n")[0].replace("\n", " ")
                # A ghost field is a fact about the others, which constructors prove: what it says is in their clauses.
                text = re.sub(r"^    ghost .*?\},?\n", "", source.text_from(at, ""), flags=re.M | re.S)
                return Definition(named, about, text, file.with_suffix(".rt"), at + 1, "type", {})
        return None

    def meaning(self, uses: dict, word: str):
        """What a word means by some `use` lines; a word of std is noted."""
        first, _, second = word.partition(".")
        if not (given := uses.get(word) or uses.get(first)):
            return None
        path, name = self.whole(given[0]), given[1] or second
        if path.startswith(("Rattle.std.specs.", "lib.")) and word not in self.std:
            self.std.append(word)
        if path.endswith(".TheVariants"):
            self.variants.add((path.split(".")[-2], name))
        if path.startswith(("Rattle.std.", "lib.")) or ".proofs." in path:
            return None
        if not (file := self.module(path)):
            return self.declared(path, name)
        return self.spec(file).get(name) or self.meaning(uses_in(file.read_text(encoding="utf-8")), name)

    def implementors(self, bounds: str) -> set:
        """The types that implement all of the bounds that this repository declares, as `Entry + Record`."""
        sets = []
        for trait in re.findall(r"\w+", bounds):
            blocks = [it for source in self.sources.values() for it in source.blocks if it.trait == trait]
            through = [re.match(rf"impl<{it.type}: (\w+)>", it.source.lines[it.at]) for it in blocks]
            found = {it.type for it in blocks if len(it.type) > 1}
            sets += [set.union(found, *(self.implementors(it[1]) for it in through if it))] if blocks else []
        return set.intersection(*sets) if sets else set()

    def members(self, name: str):
        """The ghost members of this name of the traits of the libraries, and those that impls give for a bound."""
        for (crate, _), source in self.sources.items():
            for at, line in enumerate(source.lines if crate in LIBRARIES else []):
                if not re.match(rf"    ghost {name}(:| =) {{", line):
                    continue
                if not (block := source.block_at(at)):
                    continue
                owner = source.lines[block.at].split(" {")[0]
                if owner.startswith("impl") and self.types is not None and owner.split()[-1] not in self.types and len(owner.split()[-1]) > 1:
                    continue
                end = next(it for it in range(at, len(source.lines)) if source.lines[it].endswith(";"))
                about = " ".join([source.doc_above(at).replace("\n", " "), f"(a member of `{owner}`)"]).strip()
                text = "\n".join(source.lines[at : end + 1])
                yield Definition(name, about, text, source.path, at + 1, "member", uses_in(source.text))

    def used(self, text: str, uses: dict, local: dict):
        """The definitions that the words of a text mean."""
        bound = re.findall(r"\{([a-z])\}", text)  # a bound, as `r` in `table_items {T} {r} table`
        own = {*re.findall(r"^  pub (\w+) :", text, re.M), *" ".join(re.findall(r"λ \(?([\w ]+)", text)).split()}  # fields and variables
        text = re.sub(r"(^ +|[{;] )(\w+) = (?=[^=])", r"\1= ", re.sub(r"--.*|///.*", "", text), flags=re.M)  # but what a record gives to a field
        for word in dict.fromkeys(WORD.findall(text)):
            first, _, member = word.partition(".")
            if first in own:
                continue
            if member and (first in bound or re.fullmatch("[A-Z]", first)):
                yield from self.members(member)
            elif found := local.get(word) or local.get(first) or self.meaning(uses, word):
                yield found

    def used_by(self, one):
        return self.used(one.text, one.uses, self.spec(one.path) if one.path.suffix == ".antt" else {})

    @staticmethod
    def block(source, at: int) -> tuple:
        """The text of the block in which a line is, or none, and what the words there mean."""
        block = source.block_at(at)
        inside = "\n".join(source.lines[block.at : block.end]) if block else ""
        return inside, uses_in("\n".join([*(line for line in source.lines if not line.startswith(" ")), inside]))

    def contract(self, source, one) -> tuple:
        """The text of a function's contract behind the head of its impl, what its words mean, its file and its line."""
        inside, uses = self.block(source, one.named_at - 1)
        margin = re.match(" *", source.lines[one.named_at - 1])[0]
        return inside.split("{")[0] + "\n" + source.text_from(one.named_at - 1, margin), uses, source.path, one.named_at

    def named(self, module: str, call: str) -> tuple:
        """The contract of a public call, `name` or `Type::name` of a module."""
        source = self.sources[module.split("::")[0], "::".join(module.split("::")[1:])]
        return self.contract(source, next(it for it in source.functions if it.path == f"{module}::{call}"))

    def ghosts(self, source):
        """The texts of the ghost members and fields of a source, and what their words mean."""
        for at, line in enumerate(source.lines):
            if re.match(r"    ghost (?!use )", line):
                end = next(it for it in range(at, len(source.lines)) if source.lines[it].endswith((";", ",", "}")))
                yield "\n".join(source.lines[at : end + 1]), self.block(source, at)[1]

    def unreached(self, crates=LIBRARIES) -> list:
        """The definitions in the spec files of some crates to which no contract, ghost member or ghost field leads."""
        self.types = None
        given = [self.contract(source, one)[:2] for source in self.sources.values() for one in source.functions]
        given += [it for source in self.sources.values() for it in self.ghosts(source)]
        found = (one for text, uses in given for one in self.used(text, uses, {}))
        seen = {(one.path, one.line) for one in closure(found, self.used_by)}
        files = [it for crate in crates for it in sorted((ROOT / "crates" / crate / "specs").rglob("*.antt"))]
        return [one for file in files for name, one in self.spec(file).items() if one.name == name and (file, one.line) not in seen]

    def reached(self, contracts: list) -> list:
        """The definitions that the words of some contracts lead to, each behind those that it uses."""
        order, seen = [], set()
        self.std = []

        def visit(one):
            if (one.path, one.line) in seen:
                return
            seen.add((one.path, one.line))
            for other in self.used_by(one):
                visit(other)
            order.append(one)

        for text, uses, _, _ in contracts:
            # The bounds of the type parameters are those of the impl and of the function.
            head, clauses = re.split(r"^(?=\s+(?:requires|ensures))", text, maxsplit=1, flags=re.M)
            self.types = set().union(*(self.implementors(it) for it in re.findall(r"\b[A-Z]: ([\w +]+)", head)))
            for one in self.used(clauses, uses, {}):
                visit(one)
        return order
