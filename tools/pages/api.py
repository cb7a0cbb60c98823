#!/usr/bin/env python3
"""Writes docs/api: the public items of the libraries, from their sources.

    tools/pages/api.py            writes the pages
    tools/pages/api.py --check    fails where a page isn't what the sources give, where a public item is on none, where a file of
                                  definitions doesn't say what it defines, and where crates/xmas_elf/specs/Types.antt lacks a name

An item is on the page of the crate that declares it, under its public path there. At the end of elf_base's page is which calls return
which error (tools/pages/errors.py). The clauses of other crates import the types, constants and errors of xmas_elf from Types.antt, where
a `pub use` passes on nothing that xmas_elf itself declares: such a name counts only with an `abbrev pub`.
"""
import pathlib
import re
import sys

sys.path.insert(0, str(pathlib.Path(__file__).resolve().parents[1]))
from exports import listing
from pages import errors
from pages.sources import ITEM, ROOT, anchor, differing, ended, impls_of, meant, modules, parser_of, public_items, read, table_of
from pages.definitions import uses_in

PAGES = ROOT / "docs" / "api"

# The libraries that have a page: first those that a user names.
LIBRARIES = ("xmas_elf", "elf_linking", "elf_library", "elf_addresses", "elf_debug", "elf_loading", "elf_search", "elf_base", "elf_records", "elf_c")

TEXTS = table_of(__file__)
SPECS = ROOT / "crates" / "xmas_elf" / "specs"
TYPES, PRELUDE = SPECS / "Types.antt", SPECS / "Prelude.antt"


def declaration(item) -> str:
    """An item as the page shows it: of a trait, and of a struct without a public field, only its head."""
    if item.kind == "trait":
        return item.text.split("{")[0] + "{ /* members below */ }"
    if item.kind != "struct" or re.search(r"^    pub |\(pub ", item.text, re.M):
        return item.text
    head, opens = re.match(r"([^{(]*)([{(])", item.text).groups()
    return head + ("{ /* private fields */ }" if opens == "{" else "(/* private fields */);")


class CratePage:
    """The page of a crate: its lines, how many items they name, and the lines of the sources that they show."""

    def __init__(self, sources: dict, crate: str):
        self.sources, self.crate = sources, crate
        self.lines, self.count, self.reached = [], 0, set()
        self.exports = {one.export: one for one in listing.read().functions}
        self.homes = {}
        for path, item in public_items(sources, crate):
            if item.source.crate == crate and not any(item is one for one in self.homes.values()):
                self.homes[path] = item

    def head(self, heading: str, doc: str, text: str, source, at: int):
        """A heading with its doc and its text."""
        self.lines += [heading, "", doc, "", "```rust", text, "```", ""]
        self.count += 1
        self.reached.add((source.module, at))

    def function(self, level: str, label: str, source, at: int, margin: str):
        self.head(f"{level} `{label}`", source.doc_above(at), source.text_from(at, margin), source, at)
        if export := self.exports.get(label.split("::")[-1]):
            said = ", ".join(f"`{it}`" for it in export.statuses)
            each = ", ".join(f"`{it}`" for it in export.item_statuses)
            self.lines += [f"Statuses but 0, in the order of the tests: {said or 'none'}." + (f" Of each record: {each}." if each else ""), ""]

    def methods(self, item, label: str):
        traits = [it.strip() for line in item.source.above(item.at) for it in ", ".join(re.findall(r"derive\(([^)]*)\)", line)).split(",")]
        shown = []
        for block in impls_of(self.sources, item):
            if not block.trait:
                self.block(block, label)
                continue
            # The traits that the file implements for all types of a trait of its own.
            given = re.findall(rf"^impl<\w: {block.trait}> (\w+) for \w ", block.source.text, re.M)
            traits += given or [block.trait.split("::")[-1]]
            shown += [] if given else [self.members(block)]
        said = sorted({*traits} - {"Drop", ""})
        if said:
            self.lines += [f"`{item.name}` implements {', '.join(f'`{it}`' for it in said)}.", ""]
        for text in filter(None, shown):
            self.lines += ["```rust", text, "```", ""]

    @staticmethod
    def members(block) -> str:
        """What an impl of a trait says of its associated types and ghost members."""
        lines, taken, inside = block.source.lines, [], False
        for at, line in enumerate(lines[block.at + 1 : block.end]):
            inside = inside or re.match(r"    (type|ghost(?! use)) ", line) is not None
            taken += [line] if inside else []
            inside = inside and not line.endswith(";")
            if said := re.match("    fn ", line) and [it for it in block.source.above(block.at + 1 + at) if it.startswith("///")]:
                taken += ["", *(f"    {it}" for it in said), line.removesuffix(" {")]
        head = " ".join(" ".join(lines[block.at : block.at + 6]).split("{")[0].split())
        return "\n".join([head, *taken]) if taken else ""

    def block(self, block, label: str):
        arguments = re.match(r"impl \w+<(P32|P64)>", block.source.lines[block.at])
        owner = label + (f"<{arguments[1]}>" if arguments else "")
        for one in block.source.functions:
            if block.at < one.named_at <= block.end and block.source.lines[one.named_at - 1].startswith("    pub "):
                self.function("####", f"{owner}::{one.name()}", block.source, one.named_at - 1, "    ")

    def trait(self, item, label: str):
        source = item.source
        for at in range(item.at, source.lines.index("}", item.at)):
            found = re.match(r"    (?:final )?(fn|const|ghost) (\w+)", source.lines[at])
            if found and found[1] == "fn":
                self.function("####", f"{label}::{found[2]}", source, at, "    ")
            elif found and found[2] != "use":
                self.lines += [f"- `{source.lines[at].strip()}` {source.doc_above(at)}", ""]

        self.for_lower(item)

    def for_lower(self, item):
        """What a trait's impls for types of lower crates say of its methods: those types are on other pages."""
        for (crate, _), source in self.sources.items():
            for block in source.blocks if crate == self.crate else []:
                of = None if block.is_trait or block.trait != item.name else meant(self.sources, source, block.type)
                if of is None or of.source.crate == self.crate:
                    continue
                for one in source.functions:
                    if block.at < one.named_at <= block.end and source.doc_above(one.named_at - 1):
                        self.function("####", f"<{block.type} as {item.name}>::{one.name()}", source, one.named_at - 1, "    ")

    def item(self, item, path: str):
        label = path.removeprefix(f"{self.crate}::")
        if item.kind == "fn":
            self.function("###", label, item.source, item.at, "")
            return
        self.head(f"### `{label}`, {TEXTS['title'][item.kind]}", item.doc, declaration(item), item.source, item.at)
        (self.trait if item.kind == "trait" else self.methods)(item, label)

    def constants(self, module: str, found: list):
        self.lines += [f"### Constants of `{module}`", "", "| Name | Type | Value | What it is |", "|---|---|---|---|"]
        for item in found:
            # Of a table that has a line for each row is only how many rows it has.
            said = re.match(r"pub const (\w+): (.*?) = (.*);", item.text) or re.match(r"pub const (\w+): (.*?) = (\[)", item.text)
            self.reached.add((item.source.module, item.at))
            self.lines.append(f"| `{said[1]}` | `{said[2]}` | `{said[3].replace('[', '[..]')}` | {' '.join(item.doc.split())} |")
        self.count += len(found)
        self.lines.append("")

    def text(self) -> str:
        for module in modules(self.sources, self.crate):
            path = "::".join(it for it in (self.crate, module) if it)
            here = {name: item for name, item in self.homes.items() if name.rpartition("::")[0] == path}
            if module:
                self.lines += [f"## `{path}`", "", self.sources[self.crate, module].about(), ""]
            for name, item in here.items():
                if item.kind != "const":
                    self.item(item, name)
            if constants := [it for it in here.values() if it.kind == "const"]:
                self.constants(path, constants)
        if self.crate == "elf_base":
            texts, calls = errors.texts(), errors.calls_by_error()
            rows = [f"| `{name}` | {texts[name]} | {', '.join(f'`{it}`' for it in of) or 'none'} |" for name, of in calls.items()]
            self.lines += [TEXTS["errors"], *rows, ""]
        self.lines += files(self.crate)
        others = ", ".join(f"[`{it}`]({it}.md)" for it in LIBRARIES if it != self.crate)
        head = TEXTS["head"].format(crate=self.crate, about=self.sources[self.crate, ""].about(), others=others)
        found = re.findall(r"^## (`[\w:]+`|Errors|Definitions|Lemmas)$", "\n".join(self.lines), re.M)
        contents = "\n".join(f"- [{it}](#{anchor(it)})" for it in found)
        return re.sub(r"\n{3,}", "\n\n", "\n".join([head, contents, "", *self.lines])).rstrip() + "\n"

    def missing(self) -> list:
        """The lines of the sources that make something public, and that the page doesn't have."""
        public = set(modules(self.sources, self.crate))
        found = []
        for (crate, module), source in self.sources.items():
            for at, line in enumerate(source.lines if crate == self.crate else []):
                if not re.match(r"pub (?!use |mod |\()", line) or (module, at) in self.reached:
                    continue
                if module in public or not ITEM.match(line):
                    found.append(f"{crate}::{module}: no page has {line}")
        return found


def files(crate: str) -> list:
    """The lines of the files of definitions and of lemmas, with the comment at the head of each."""
    lines = []
    for folder, heads, said in (it.values() for it in TEXTS["files"]):
        rows = []
        for path in sorted(it for it in (ROOT / "crates" / crate / folder).glob("*.antt") if it.stem != "Lib"):
            text = path.read_text(encoding="utf-8")
            about = " ".join(re.sub(r"^-- ?", "", it) for it in re.match(r"(?:--.*\n)*", text)[0].splitlines()).replace("|", "\\|")
            names = [", ".join(f"`{it}`" for it in re.findall(r"^ *pub ([a-z][\w-]*) :", text, re.M))]
            rows.append(f"| {' | '.join([f'`{path.stem}`', about, *names][:len(heads)])} |")
        lines += [said, "", f"| {' | '.join(heads)} |", "|---" * len(heads) + "|", *rows, ""] if rows else []
    return lines


def faults_of_types(sources: dict) -> list:
    """The names that TYPES lacks, those that it shouldn't have, and those that reach no other crate."""
    # The structs, enums, types and constants that xmas_elf makes public, as TYPES is to name them.
    found = [path.split("::")[-2:] for path, item in public_items(sources, "xmas_elf") if item.kind in ("struct", "enum", "type", "const")]
    public = {TEXTS["type_of"][module] + name if name in ("Type", "Type_") else name for module, name in found}
    wanted = public - set(TEXTS["not_in_types"]) | set(TEXTS["only_in_types"]) | set(errors.texts())
    # The names that their `pub use` lines pass on, each with the path behind it.
    lines = ("\n".join(re.findall(r"^pub use .*", it.read_text(encoding="utf-8"), re.M)) for it in (TYPES, PRELUDE))
    origins, behind = ({name: path for name, (path, _) in uses_in(it).items()} for it in lines)
    origins = {name: behind.get(name, start) if start.endswith(".Prelude") else start for name, start in origins.items()}
    own = {name for name, start in origins.items() if start.startswith("Rattle.xmas_elf.")}
    named = set(origins) - own | set(re.findall(r"^abbrev pub (\w+) :", TYPES.read_text(encoding="utf-8"), re.M))
    said = [f"{it} is passed on by `pub use`, and reaches no other crate: write an `abbrev pub`" for it in sorted(own)]
    said += [f"{it} is missing" for it in sorted(wanted - named - own)] + [f"{it} isn't public" for it in sorted(named - wanted)]
    return [f"{TYPES.relative_to(ROOT)}: {it}" for it in said]


if __name__ == "__main__":
    is_check, sources = parser_of(__doc__).parse_args().check, read()
    pages = {crate: CratePage(sources, crate) for crate in LIBRARIES}
    texts = {PAGES / f"{crate}.md": page.text() for crate, page in pages.items()}
    faults = [fault for page in pages.values() for fault in page.missing()] + faults_of_types(sources) + differing(texts, is_check)
    model = (PAGES.parent / "MODEL.md").read_text(encoding="utf-8")
    faults += [f"docs/MODEL.md names no definitions of {it}" for it in LIBRARIES if f"(api/{it}.md#definitions)" not in model]
    faults += [f"{it.relative_to(ROOT)} doesn't say what it defines" for it in ROOT.glob("crates/*/specs/**/*.antt")
               if it.stem != "Lib" and not it.read_text(encoding="utf-8").startswith("--")]
    said = [f"{page.count} of {crate}" for crate, page in pages.items()]
    sys.exit(ended(faults, f"{', '.join(said)}: public items on {len(texts)} pages, {len(faults)} faults"))
