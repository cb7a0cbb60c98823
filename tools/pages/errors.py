#!/usr/bin/env python3
"""Which calls return which error of `ElfError`, by the docs of the calls.

The doc of a call names the errors that it returns, such as `DataRange`, and the calls whose errors it passes on: "those of
`bytes::text_at`", "as in `parse_header`" or "The result of `lookup`". tools/pages/api.py writes the table into
docs/api/elf_base.md. This script fails if a doc names a call that it doesn't find, and if no call returns an error, except for
those in UNUSED.
"""
import pathlib
import re
import sys

sys.path.insert(0, str(pathlib.Path(__file__).resolve().parents[1]))
from pages.sources import ROOT, ended, read

CRATES = ("elf_base", "elf_records", "xmas_elf")
ENUM = ROOT / "crates/elf_base/src/error.rt"

# Errors that stay for code that names them.
UNUSED = {"WideIndex"}

HANDED_ON = re.compile(r"(?:(?<!such )\bas(?: in)?|those of|answers? of|The result of) `([\w:]+)`")
NAME = re.compile(r"`([\w:]+)`")


def texts() -> dict[str, str]:
    """The variants of `ElfError`, in order, each with its text."""
    text = ENUM.read_text(encoding="utf-8")
    body = text.split("pub enum ElfError {")[1].split("\n}")[0]
    names = re.findall(r"^    (\w+) = \d+,$", body, re.MULTILINE)
    said = dict(re.findall(r'Self::(\w+) =>\s*(?:\{\s*)?"([^"]*)"', text))
    return {name: said[name] for name in names}


def meant(name: str, caller: str, docs: dict[str, str]) -> str:
    """The call that a doc names: by its whole name, or as one of the same owner, or of any one owner."""
    for it in (name, f"{caller.split('::')[0]}::{name}"):
        if it in docs:
            return it
    ends = [call for call in docs if call.endswith(f"::{name}")]
    if len(ends) != 1:
        sys.exit(f"{caller}: its doc names `{name}`, which is one of {ends}")
    return ends[0]


def returned(call: str, docs: dict[str, str], seen: frozenset[str] = frozenset()) -> set[str]:
    """What the doc of a call names, and those of the calls whose errors it passes on."""
    others = {meant(name, call, docs) for name in HANDED_ON.findall(docs[call])} - seen
    return set(NAME.findall(docs[call])).union(*(returned(it, docs, seen | {call}) for it in others))


def calls_by_error() -> dict[str, list[str]]:
    """The calls that return each error, in the order of the enum and of the sources."""
    # The docs of the calls, by `Type::call`, `Trait::call` or `module::call`.
    docs: dict[str, str] = {}
    for source in (it for it in read().values() if it.crate in CRATES and it.module.split("::")[0] != "tests"):
        module = source.module.split("::")[0]
        for one in source.functions:
            # Several enums are called `Type`. An impl for all types of a trait, as `impl<K: Kept> Entry for K`, goes by the trait.
            call = f"{f'{module}::{one.of}' if one.of in ('Type', 'Type_') else one.of or module}::{one.name()}"
            docs[call] = docs.get(call) or " ".join(source.doc_above(one.named_at - 1).split("\n"))
    named = {call: returned(call, docs) for call in docs}
    return {name: [call for call in docs if name in named[call]] for name in texts()}


if __name__ == "__main__":
    said = calls_by_error()
    failed = [f"{name}: {'returned by ' + ', '.join(calls) if calls else 'no call returns it'}"
              for name, calls in said.items() if bool(calls) == (name in UNUSED)]
    sys.exit(ended(failed, f"{len(said)} errors, {len(failed)} of which the docs of the calls don't say what they should"))
