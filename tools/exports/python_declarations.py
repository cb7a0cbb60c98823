"""Two modules of bindings/python/xmas_elf for tools/exports/declarations.py: _declarations.py, with the records, exports and
statuses of the archive for ctypes and struct, and constants.py.

Records and exports are those of bindings/exports.toml, statuses those of the header for C, constants those of
bindings/constants.toml."""
import itertools
import re
import textwrap

import listing
from listing import FILLED, SLICE, VALUE
from pages.sources import table_of

LETTERS = {"u8": "B", "u16": "H", "u32": "I", "u64": "Q"}
KINDS = {"u8": "c_uint8", "u16": "c_uint16", "u32": "c_uint32", "u64": "c_uint64", "usize": "c_size_t"}
RESULTS = {"status": "c_uint32", "size": "c_size_t", "none": "None"}
TABLE = table_of(__file__)
FRONT, NAMED = TABLE["front"], TABLE["named"]


def doc(text, indent="    "):
    return textwrap.wrap(f'"""{text}"""', 118, initial_indent=indent, subsequent_indent=indent, break_long_words=False)


def argument(name, text):
    """An argument that is a text, which goes on in further lines."""
    parts = textwrap.wrap(text, 100, break_long_words=False, drop_whitespace=False)
    texts = ["'" + part.replace("\\", "\\\\").replace("'", "\\'") + "'" if '"' in part else f'"{part}"' for part in parts]
    if len(texts) == 1:
        return [f"    {name}={texts[0]},"]
    return [f"    {name}=", *(f"        {it}" for it in texts[:-1]), f"        {texts[-1]},"]


def flat(struct, listed):
    """The letters for `struct`, and the fields with their comments; those of a record within are in its place."""
    letters, fields = "", []
    for field in struct.fields:
        name = "name_index" if field.name == "name" and field.type in LETTERS else field.c_name
        if field.type in listing.BORROWED:
            letters += "PN"
            count = "size" if field.type == "&[u8]" else "count"
            fields += [(name, "int", f"{field.comment} Their address."), (f"{name}_{count}", "int", "How many they are.")]
        elif array := re.fullmatch(r"\[u8; (\d+)\]", field.type):
            letters += f"{array[1]}x"
        elif field.type in LETTERS:
            letters += LETTERS[field.type]
            fields.append((name, "int", field.comment))
        else:
            inner_letters, inner = flat(listed.struct(field.type), listed)
            letters += inner_letters
            fields += [(f"{name}_{it}", kind, f"{field.comment} {comment}") for it, kind, comment in inner]
    return letters, fields


def record(struct, listed):
    letters, fields = flat(struct, listed)
    name = "".join(word.capitalize() for word in struct.name.split("_"))
    lines = ["", f"class {name}Record(NamedTuple):", *doc(struct.comment), ""]
    all_fields = (*FRONT.get(struct.name, ()), *fields)
    for field, kind, comment in all_fields:
        # These fields hide methods of tuples.
        hides = "  # type: ignore[assignment]" if field in ("index", "count") else ""
        lines.append(f"    {field}: {NAMED.get(struct.name, {}).get(field, kind)}{hides}")
    lines += ["", "", "_document(", f"    {name}Record,"]
    for field, _, comment in all_fields:
        lines += argument(field, comment)
    lines.append(")")
    largest = next(letter for letter in "QPIHB" if letter in letters)
    # The count 0 at the end pads the record as C does.
    return lines + ["", "", f'{struct.name.upper()} = Struct("@{letters}0{largest}")', ""]


def export(function):
    """The type of what an export returns, and those of its parameters: a slice is a pointer and a count."""
    counted = lambda it: ["c_void_p", "c_size_t"] if it.kind in (SLICE, FILLED) else ["c_void_p"]
    kinds = [[KINDS[it.type]] if it.kind == VALUE else counted(it) for it in function.parameters]
    return RESULTS[function.result], [kind for some in kinds for kind in some]


def statuses(text):
    rows = re.findall(r"/\* (.*?)\. \*/\n\s+XMAS_ELF_(\w+) = (\d+)", text)
    assert len(rows) > 60
    lines = ["", "class Status(IntEnum):", *doc("The status of a call: OK, or an error. The numbers never change."), ""]
    for comment, name, number in [("No error", "OK", "0"), *rows]:
        lines += [f"    {name} = {number}", *doc(f"{comment}.")]
    longest = re.search(r"define XMAS_ELF_LONGEST_MESSAGE (\d+)", text)[1]
    return lines + ["", "", "# The size of the longest text of a status, in bytes.", f"LONGEST_MESSAGE = {longest}"]


def declarations(header):
    listed = listing.read()
    kinds = {kind for function in listed.functions for result, all in [export(function)] for kind in (result, *all)}
    groups = ", ".join(sorted({prefix for fields in NAMED.values() for prefix in fields.values()}))
    lines = [listing.template("declarations.txt", KINDS=", ".join(sorted(kinds - {"None"})), GROUPS=groups)]
    for struct in listed.structs:
        lines += record(struct, listed)
    lines += ["", "# What each export returns, and its parameters: a slice is a pointer and a count."]
    lines.append("EXPORTS: Dict[str, Tuple[Any, Tuple[Any, ...]]] = {")
    for function in listed.functions:
        result, kinds = export(function)
        lines.append(f'    "{function.export}": ({result}, ({", ".join(kinds)},)),')
    return "\n".join([*lines, "}", "", *statuses(header)]) + "\n"


def constants():
    lines = [listing.template("constants.txt")]
    for group, some in itertools.groupby(listing.constants(), lambda it: it.group):
        some = list(some)
        lines += ["", f"class {some[0].prefix}({'Flags' if some[0].is_flag else 'Number'}):", *doc(f"{group}."), ""]
        for it in some:
            value = f"{it.value:#x}" if it.value > 0xFFFF else str(it.value)
            lines += [f"    {it.name} = {value}", *doc(it.comment)]
        lines.append("")
    lines.append("")
    lines += [f"{it.name} = {it.prefix}.{it.name}" for it in listing.constants()]
    return "\n".join(lines) + "\n"
