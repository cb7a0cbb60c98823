#!/usr/bin/env python3
"""Lists the public functions whose contracts leave something open.

    tools/pages/contracts.py            prints the list: a kind and a function, as `no-place elf_linking::view::loaded::bytes_from`
    tools/pages/contracts.py --check    fails at a line of the list without a reason in docs/contracts.toml, at a reason for a line
                                        that isn't there, and at a function or clause that the end of that file names in vain

    one-sided    the clauses speak of a result that is Ok or Some, and of no other
    no-place     a slice of the input is returned, and no clause says where it lies
    no-wrong     a caller has no wrong body
"""
import fnmatch
import pathlib
import re
import sys
import tomllib

sys.path.insert(0, str(pathlib.Path(__file__).resolve().parents[1]))
from gate.edits import EditedCrate
from pages.sources import CALLERS, LIBRARIES, ROOT, Crate, ended, parser_of, table_of

REASONS = ROOT / "docs" / "contracts.toml"

ONE_SIDE, OTHER_SIDE, BORROWED, PLACE = map(re.compile, table_of(__file__).values())


def lines() -> list:
    """The whole list, in the order of the crates and of their files."""
    found = []
    for name in LIBRARIES + CALLERS:
        crate = EditedCrate(ROOT / "crates" / name)
        edits = crate.edits() if name in CALLERS else []
        tried = {one.path for edit in edits for one in edit.functions if one}
        for one in crate.functions:
            head = crate.head(one)
            if not re.search(r"^ *pub fn ", head, re.M):
                continue
            clauses = "\n".join(re.findall(r"^ *ensures .*(?:\n(?! *(?:ensures|requires) ).*)*", head, re.M))
            returned = re.search(r"^ *(?:\)|.*fn .*\)) (-> .*)$", head, re.M)
            is_open = {
                "one-sided": ONE_SIDE.search(clauses) and not OTHER_SIDE.search(clauses),
                "no-place": returned and BORROWED.search(returned[1]) and not PLACE.search(clauses),
                "no-wrong": name in CALLERS and re.search(r"^pub fn ", head, re.M) and clauses and one.path not in tried,
            }
            found += [f"{kind} {one.path}" for kind, is_one in is_open.items() if is_one]
    return found


if __name__ == "__main__":
    is_check, found = parser_of(__doc__).parse_args().check, lines()
    if not is_check:
        print("\n".join(found))
        sys.exit(0)
    reasons = tomllib.loads(REASONS.read_text(encoding="utf-8"))
    patterns = [pattern for group in reasons["reason"] for pattern in group["of"]]
    faults = [f"no reason: {line}" for line in found if not any(fnmatch.fnmatchcase(line, it) for it in patterns)]
    faults += [f"not in the list: {it}" for it in patterns if not fnmatch.filter(found, it)]
    crates = [Crate(ROOT / "crates" / name) for name in LIBRARIES]
    heads = {one.path: crate.head(one) for crate in crates for one in crate.functions}
    # The functions of these groups that aren't there, and the clauses that none of the functions of a group has.
    for group in reasons["follows"]:
        own = {it: fnmatch.filter(heads, f"*::{it}") for it in group["of"]}
        named = {it for names in own.values() for name in names for it in re.findall(r"ensures (\w+) {", heads[name])}
        missing = [it for it, names in own.items() if not names]
        missing += [it for it in (*group.get("clauses", ()), *group.get("but", ())) if it not in named]
        faults += [f"not in the sources: {it}" for it in missing]
    sys.exit(ended(faults, f"{REASONS.relative_to(ROOT)}: {len(found)} lines, {len(faults)} faults"))
