"""The errors that calls share, under what they are of, for tools/exports/declarations.py: what the comments of calls in xmas_elf.h
say, the one list that they mean, and the table in bindings/c/README.md.

The tests read each status of a call (calls.h, calls.rs). `differing` reads the header as its users do, and compares what a comment
means with that list."""
import re
import textwrap

from listing import PREFIX, constant

WIDTH = 118
FIRST, LAST = "<!-- errors, written by tools/exports/declarations.py -->", "<!-- /errors -->"
HEAD = "Errors that comments of calls name by what they are of, in the order of the tests. One that a call has twice counts at its first place."
IN_ORDER = ", in the order of the tests"
# The list of errors of a call in its comment, and of a record.
OF_CALL, OF_RECORD = (re.compile(rf"\b{it}(?:{IN_ORDER})?: ([^.]*)\.") for it in ("Errors", "Errors of a record"))
COMMENT = re.compile(r"/\*((?:(?!\*/).)*)\*/\n(?:XMAS_ELF_NODISCARD )?\w+ (xmas_elf_\w+)\(", re.S)


def phrases(names, listed):
    """Names of statuses, and for each group what its errors are of: in one line, so that it can be searched for."""
    return [f"those of {listed.group(it[1:]).of}".replace(" ", "\0") if it.startswith("@") else constant(it) for it in names]


def described(function, own, of_record, written):
    """The comment of a call, with its errors and those of a record as they are written: names, and for C `@` and that of a group."""
    parts = [function.comment]
    for start, names in (("Errors", own), ("Errors of a record", of_record)):
        order = IN_ORDER if len(names) > 1 or names[:1] and names[0].startswith("@") else ""
        parts += [f"{start}{order}: {', '.join(written(names))}."] if names else []
    return " ".join(parts)


def c_part(listed):
    """The list of the groups, as a comment."""
    lines = textwrap.wrap(HEAD, WIDTH, initial_indent="/* ", subsequent_indent=" * ") + [" *"]
    for group in listed.groups:
        text = f"Those of {group.of}: {', '.join(phrases(group.statuses, listed))}."
        lines += [it.replace("\0", " ") for it in textwrap.wrap(text, WIDTH, initial_indent=" * ", subsequent_indent=" *     ")]
    return [*lines, " */"]


def row(group, listed):
    """A row of the table: the errors of a group, and what has them."""
    name, codes = f"@{group.name}", lambda names: ", ".join(f"`{it}`" for it in names)
    shown = [it if "\0" in it else f"`{it.removeprefix('XMAS_ELF_')}`" for it in phrases(group.statuses, listed)]
    users = [codes(one.name for one in listed.functions if name in one.said)]
    of_records = codes(one.name for one in listed.functions if name in one.item_said)
    users += [f"records of {of_records}"] if of_records else []
    users += [f"those of {other.of}" for other in listed.groups if name in other.statuses]
    return f"|{group.of}|{', '.join(shown)}|{'; '.join(filter(None, users))}|".replace("\0", " ")


def page(text, listed):
    """The page for C with the table."""
    rows = [f"|Those of|Statuses, after `XMAS_ELF_`|Calls, after `{PREFIX}`|", "|---|---|---|", *(row(it, listed) for it in listed.groups)]
    return text[: text.index(FIRST)] + "\n".join([FIRST, *rows, LAST]) + text[text.index(LAST) + len(LAST) :]


def meant(names, groups):
    """The statuses of a list in the header, each at its first place."""
    found = []
    for name in names.split(", "):
        found += meant(groups[name], groups) if name in groups else [name]
    return list(dict.fromkeys(found))


def differing(header, listed):
    """The calls whose comments in the header mean other statuses than the list has."""
    joined = lambda text: " ".join(re.sub(r"\n *\* ?", " ", text).split())
    listing = joined(header[header.index(f"/* {HEAD[:40]}") :].split("*/")[0])
    groups = {f"those of {of}": names for of, names in re.findall(r"Those of ([^:.]*): ([^.]*)\.", listing)}
    comments = {name: joined(text) for text, name in COMMENT.findall(header)}
    found = []
    for function in listed.functions:
        for pattern, statuses in ((OF_CALL, function.statuses), (OF_RECORD, function.item_statuses)):
            names = pattern.search(comments[function.export])
            if (meant(names[1], groups) if names else []) != list(map(constant, statuses)):
                found.append(f"{function.export}: the header's comment means other errors than the list")
    return found
