"""The list of statuses for tools/exports/declarations.py: in bindings/include/xmas_elf.h and bindings/rust/src/error.rs.

The numbers are in the files of statuses.toml. A number never changes: bindings/statuses.txt has each name with its number, and lines are
only added to it. The statuses that bindings/exports.toml lists for each export are compared with the errors that the definitions name
to which its `ensures` clauses lead (tools/pages/definitions.py). A definition may name an error that the export never returns, since
another call takes it up (`never` of the list), and the export may return one that a value holds and no definition names (`held`).
"""
import functools
import re

from listing import ROOT, constant, template
from pages import errors
from pages.definitions import Reader, closure
from pages.sources import table_of

PINNED = ROOT / "bindings/statuses.txt"
FIRST, LAST = "/* The statuses, written by tools/exports/declarations.py. */", "/* End of the statuses. */"

TABLE = table_of(__file__)
ENUMS, ERRORS = ({name: row[key] for name, row in TABLE.items()} for key in ("prefix", "file"))
# Variants that hold an error of another enum.
HOLDERS = {(name, variant) for name, row in TABLE.items() for variant in row["holds"]}


def matched(path, pattern):
    return re.findall(pattern, (ROOT / path).read_text())


def statuses():
    """Rows of name, number and text."""
    texts = errors.texts() | dict(matched("crates/elf_c/src/message.rt", r'AnyError::(\w+) => "([^"]*)"'))
    own = [matched(ERRORS["ElfError"], r"(?m)^    (\w+) = (\d+),$"), matched(ERRORS["AnyError"], r"AnyError::(\w+) => (\d+)")]
    base, own = ([(name, int(number), texts[name]) for name, number in some] for some in own)
    row = r'{}Error::(\w+) => \(\s*(\d+),\s*"([^"]*)",?\s*\)'
    of = lambda prefix: [(prefix + name, int(number), text) for name, number, text in matched(ERRORS[f"{prefix}Error"], row.format(prefix))]
    rows = [*base, *of("Link"), *own, *of("Load"), *of("Index"), *of("Search")]
    numbers = [number for _, number, _ in rows]
    assert len(set(numbers)) == len(numbers) and 0 not in numbers and len(rows) > 60
    assert {name for name, _, _ in rows} >= set(texts)
    return rows


def numbered(rows):
    """The lines of bindings/statuses.txt: a number and a name each."""
    return [f"{number} {constant(name)}" for number, name in [(0, "Ok"), *((number, name) for name, number, _ in rows)]]


def longest(rows):
    return max(len(text.encode()) for _, _, text in rows)


def c_part(rows):
    lines = [FIRST, "enum xmas_elf_status {", "    XMAS_ELF_OK = 0,"]
    for name, number, text in rows:
        lines += [f"    /* {text}. */", f"    {constant(name)} = {number},"]
    lines[-1] = lines[-1].rstrip(",")
    lines += ["};", "", "/* How many bytes the longest text of a status has. */"]
    return lines + [f"#define XMAS_ELF_LONGEST_MESSAGE {longest(rows)}"]


def rust_part(rows):
    lines = {
        "VARIANTS": [f"    /// {text}.\n    {name}," for name, _, text in rows],
        "ERRORS": [f"            {number} => Error::{name}," for name, number, _ in rows],
        "NUMBERS": [f"            Error::{name} => {number}," for name, number, _ in rows]}
    return template("error.rs", LONGEST=str(longest(rows)), **{part: "\n".join(held) for part, held in lines.items()})


@functools.cache
def variants(enum: str) -> frozenset[str]:
    body = re.search(rf"pub enum {enum} {{\n(.*?)\n}}", (ROOT / ERRORS[enum]).read_text(encoding="utf-8"), re.S)[1]
    return frozenset(re.findall(r"^    (\w+)[,(= ]", body, re.M))


class Named:
    """The errors that definitions name, and the definitions that they use, each read once."""

    def __init__(self):
        self.reader, self.read = Reader(), {}

    def of(self, text: str, uses: dict, local: dict) -> tuple:
        """The variants and the definitions that a text names."""
        self.reader.variants = set()
        found = list(self.reader.used(re.sub(r"--.*", "", text), uses, local))
        return {it for it in self.reader.variants if it[0] in ENUMS and it[1] in variants(it[0])}, found

    def of_definition(self, one) -> tuple:
        if (one.path, one.line) not in self.read:
            local = self.reader.spec(one.path) if one.path.suffix == ".antt" else {}
            # One that has a row for each variant of an enum, as that of the numbers, returns none; nor does a type.
            heads = "\n".join(line.split(" = ")[0] for line in one.text.splitlines() if " = " in line)
            rows = self.of(heads, one.uses, local)[0]
            is_table = any({name for it, name in rows if it == enum} == variants(enum) for enum in ENUMS)
            is_read = one.kind != "type" and not is_table
            self.read[one.path, one.line] = self.of(one.text, one.uses, local) if is_read else (set(), [])
        return self.read[one.path, one.line]

    def statuses(self, text: str, uses: dict) -> set[str]:
        """The statuses that the clauses of a contract name, by themselves and by their definitions."""
        named, found = self.of(text, uses, {})
        for one in closure(found, lambda it: self.of_definition(it)[1]):
            named = named | self.of_definition(one)[0]
        return {ENUMS[enum] + name for enum, name in named if (enum, name) not in HOLDERS}


def differing(listed) -> list[str]:
    """The exports whose statuses are others than those that their contracts name."""
    named, exports, found = Named(), {one.export: one for one in listed.functions if one.result != "size"}, []
    for source in (it for (crate, _), it in named.reader.sources.items() if crate == "elf_c"):
        for one in (it for it in source.functions if it.name() in exports):
            text, uses, _, _ = named.reader.contract(source, one)
            head, _, clauses = text.partition("\n    ensures")
            function = exports[one.name()]
            theirs, ours = named.statuses(clauses, uses), {*function.statuses, *function.item_statuses, *function.never}
            for one, some, other in (("contract", theirs - ours, "list"), ("list", ours - theirs - {*function.held}, "contract")):
                if some:
                    found.append(f"{function.export}: the {one} names {', '.join(sorted(some))}, and the {other} does not")
    return found
