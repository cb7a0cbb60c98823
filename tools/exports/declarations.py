#!/usr/bin/env python3
"""Writes the declarations of bindings/exports.toml for C, Rust and Python, and checks them against the exports.

It writes the statuses (tools/exports/statuses.py), the groups of errors (groups.py), structs and functions in
bindings/include/xmas_elf.h; the table of these groups in bindings/c/README.md; error.rs, records.rs, ffi.rs and, from
bindings/constants.toml, constants.rs in bindings/rust/src; the modules for Python (python_declarations.py); and calls for
tests. --check: writes nothing, and fails where a file differs, where the `#[repr(C)]` structs or the exported functions of
crates/elf_c/src are others than those of the list, where a list of statuses is another than its definition has or than a
comment of the header means, or where a named number of the crates is another."""
import itertools
import pathlib
import re
import sys
import textwrap

sys.path.insert(1, str(pathlib.Path(__file__).resolve().parents[1]))
import groups
import listing
import python_declarations
import statuses
from listing import FILLED, GIVEN, IN, OUT, ROOT, SLICE, VALUE
from pages.sources import differing, ended, parser_of, table_of

HEADER, C_PAGE = ROOT / "bindings/include/xmas_elf.h", ROOT / "bindings/c/README.md"
RUST, PACKAGE = ROOT / "bindings/rust/src", ROOT / "bindings/python/xmas_elf"
SOURCES = ROOT / "crates/elf_c/src"
FIRST, LAST = "/* The structs and functions, written by tools/exports/declarations.py. */", "/* End of the structs and functions. */"
WIDTH = groups.WIDTH
ALL_STATUSES = tuple(name for name, _, _ in statuses.statuses())

# How parameters of each kind are written, and what the calls for tests hand to them.
TABLE = table_of(__file__)
RESULTS = {"status": ("uint32_t", " -> u32"), "size": ("size_t", " -> usize"), "none": ("void", "")}


def parameters(function, form, listed):
    """The parameters of a function in one of these forms."""
    found = []
    for one in function.parameters:
        names = {"c": listed.c_type(one.type), "rust": listed.rust_type(one.type), "count": "size" if one.type == "u8" else "count"}
        found.append(TABLE["shapes"][one.kind][form].format(name=one.name, type=one.type, **names))
    return [part for text in found if text for part in text.split(", ")]


def wrapped(text, first, rest):
    return textwrap.wrap(text, WIDTH, initial_indent=first, subsequent_indent=rest, break_long_words=False, break_on_hyphens=False)


def laid_out(start, parts, end, indent):
    """A list of parameters, broken between two of them alone."""
    kept = ", ".join(part.replace(" ", "\0") for part in parts)
    lines = wrapped(start + kept + end, indent, indent + "    ")
    return [line.replace("\0", " ") for line in lines]


# C: a struct is a typedef `xmas_elf_NAME_t`, so that no struct has the name of a function.


def c_comment(text, indent=""):
    for status in ALL_STATUSES:
        text = text.replace(f"`{status}`", listing.constant(status))
    lines = [line.replace("\0", " ") for line in wrapped(text, f"{indent}/* ", f"{indent} * ")]
    return lines[:-1] + [lines[-1] + " */"]


def c_struct(struct, listed):
    lines = c_comment(struct.comment) + [f"typedef struct {struct.c_type} {{"]
    for field in struct.fields:
        array = re.fullmatch(r"\[u8; (\d+)\]", field.type)
        if field.type in listing.BORROWED:
            kind, count = listing.BORROWED[field.type][0], "size" if field.type == "&[u8]" else "count"
            lines += [*c_comment(field.comment, "    "), f"    const {kind} *{field.c_name};", f"    size_t {field.c_name}_{count};"]
            continue
        member = f"uint8_t {field.c_name}[{array[1]}]" if array else f"{listed.c_type(field.type)} {field.c_name}"
        lines += [*c_comment(field.comment, "    "), f"    {member};"]
    return lines + [f"}} {struct.c_type};", ""]


def header_text(listed, rows):
    text, lines = HEADER.read_text(encoding="utf-8"), [FIRST]
    for struct in listed.structs:
        lines += c_struct(struct, listed)
    for function in listed.functions:
        start = f"{'XMAS_ELF_NODISCARD ' if function.statuses else ''}{RESULTS[function.result][0]} {function.export}("
        declared = laid_out(start, parameters(function, "c", listed), ") XMAS_ELF_NOEXCEPT;", "")
        said = groups.described(function, function.said, function.item_said, lambda names: groups.phrases(names, listed))
        lines += [*c_comment(said), *declared, ""]
    lines[-1] = LAST
    listings = [*statuses.c_part(rows), "", *groups.c_part(listed), statuses.LAST]
    for part, first, last in ((listings, statuses.FIRST, statuses.LAST), (lines, FIRST, LAST)):
        text = text[: text.index(first)] + "\n".join(part) + text[text.index(last) + len(last) :]
    return text


# Rust: the structs, and for each export its declaration and a safe call.

RECORDS_HEAD = "//! The structs of the archive. Written by tools/exports/declarations.py.\n\nuse crate::borrowed::Borrowed;"


def rust_comment(text, indent=""):
    return wrapped(text.replace("xmas_elf_", ""), f"{indent}/// ", f"{indent}/// ")


def rust_struct(struct, listed):
    seen, fields_seen = ("pub" if struct.public else "pub(crate)"), ("pub(crate)" if struct.private_fields or not struct.public else "pub")
    lines = ["", *rust_comment(struct.comment), "#[repr(C)]", "#[derive(Clone, Copy, Debug, Default, PartialEq, Eq)]"]
    lines.append(f"{seen} struct {struct.rust}{'<%sa>' % chr(39) if listed.borrows(struct.name) else ''} {{")
    for field in struct.fields:
        lines += rust_comment(field.comment, indent="    ") + [f"    {fields_seen} {field.name}: {listed.rust_type(field.type, chr(39) + 'a')},"]
    return lines + ["}"]


def safe_call(function, listed):
    written = [parameter for parameter in function.parameters if parameter.kind == OUT]
    value = listed.rust_type(written[0].type) if written else "()"
    result = f" -> Result<{value}, Error>" if function.result == "status" else RESULTS[function.result][1]
    head = laid_out(f"pub(crate) fn {function.name}(", parameters(function, "safe", listed), f"){result} {{".replace(" ", chr(0)), "")
    said = groups.described(function, function.statuses, function.item_statuses, lambda names: [f"`{name}`" for name in names])
    lines = ["", *rust_comment(said), *head]
    lines += [f"    let mut {one.name} = {listed.rust_type(one.type)}::default();" for one in written]
    call = function.export + "(" + ", ".join(parameters(function, "handed", listed)) + ")"
    lines.append("    // SAFETY: see the head of this file.")
    if function.result == "status":
        lines += wrapped(f"let status = unsafe {{ {call} }};", "    ", "        ")
        return lines + [f"    result_of(status, {written[0].name if written else '()'})", "}"]
    return lines + wrapped(f"unsafe {{ {call} }}", "    ", "        ") + ["}"]


def ffi_text(listed):
    declared, calls = [], []
    for function in listed.functions:
        result = RESULTS[function.result][1].replace(" ", "\0")
        declared += laid_out(f"fn {function.export}(", parameters(function, "declared", listed), f"){result};", "    ")
        calls += safe_call(function, listed)
    used = {parameter.type for function in listed.functions for parameter in function.parameters}
    names = ", ".join(sorted(struct.rust for struct in listed.structs if struct.name in used))
    return listing.template("ffi.rs", RECORDS=f"{{{names}}}", DECLARED="\n".join(declared), CALLS="\n".join(calls))


def constants_text():
    # A few names of GNU's end in small letters.
    lines = ["//! Numbers of the ELF standard by their names there. Written by tools/exports/declarations.py."]
    lines += ["#![allow(non_upper_case_globals)]"]
    for group, some in itertools.groupby(listing.constants(), lambda it: it.group):
        lines += ["", f"// {group}."]
        for one in some:
            value = f"{one.value:#x}" if one.value > 0xfff else str(one.value)
            lines += [f"/// {one.comment}", f"pub const {one.name}: {one.type} = {value};"]
    return "\n".join(lines) + "\n"


# A call of each export for the tests in C and Rust, so that a new export is called without a line by hand. What the tests ask of
# every call is in bindings/c/every.c and bindings/rust/src/tests.rs.

ROOM = 3


def number_for(parameter):
    """What is handed to a number: the index but for the one named `section`."""
    return "section" if parameter.name == "section" else "index"


def c_call(function, listed):
    """A function that makes a call; what it writes goes into the next output."""
    place, arguments, handed = 0, [], TABLE["c"]
    for one in function.parameters:
        written = f"out[{place}].of_{one.type}"
        arguments.append({
            VALUE: f"({listed.c_type(one.type)})a->{number_for(one)}",
            IN: handed["records"].get(one.type, "&a->part"),
            SLICE: handed["slices"].get(one.name, "a->name, a->name_size"),
            OUT: f"&{written}[0]",
            GIVEN: f"&{one.name}",
            FILLED: f"{written}, {ROOM}",
        }[one.kind])
        place += one.kind in (OUT, FILLED)
    call = f"{function.export}({', '.join(arguments)})"
    lines = [f"static uint32_t any_{function.name}(const struct asked *a, union output *out)", "{"]
    lines += [f"    {listed.c_type(one.type)} {one.name};" for one in function.parameters if one.kind == GIVEN]
    lines += ["    (void)a;"] * ("a->" not in call)
    if function.result == "status":
        return [*lines, *["    (void)out;"] * (place == 0), f"    return {call};", "}"]
    return [*lines, f"    (void){call};", "    return XMAS_ELF_OK;", "}"]


def c_calls_text(listed):
    written = dict.fromkeys(one.type for function in listed.functions for one in function.parameters if one.kind in (OUT, FILLED))
    outputs, calls, rows = [f"    {listed.c_type(kind)} of_{kind}[{ROOM}];" for kind in written], [], []
    for function in listed.functions:
        calls += c_call(function, listed)
        statuses = ["XMAS_ELF_OK", *map(listing.constant, function.statuses)]
        rows.append(f'    {{"{function.name}", any_{function.name}, {{{", ".join(statuses)}}}, {len(statuses)}}},')
    longest = 1 + max(len(function.statuses) for function in listed.functions)
    parts = {"OUTPUTS": outputs, "CALLS": calls, "ROWS": rows, "LONGEST": [str(longest)]}
    return listing.template("calls.h", **{name: "\n".join(lines) for name, lines in parts.items()})


def rust_calls_text(listed):
    lines, handed = [], TABLE["rust"]
    for function in listed.functions:
        arguments = ", ".join({
            VALUE: f"asked.{number_for(one)}" + ("" if one.type == "u64" else f" as {listed.rust_type(one.type)}"),
            IN: handed["records"].get(one.type, "part"),
            SLICE: handed["slices"].get(one.name, "name"),
            GIVEN: f"&mut {listed.rust_type(one.type)}::default()",
            FILLED: f"&mut [{listed.rust_type(one.type).split('<')[0]}::default(); {ROOM}]",
        }[one.kind] for one in function.parameters if one.kind != OUT)
        call = f"ffi::{function.name}({arguments})"
        other = [f"    {'let _size = ' if function.result == 'size' else ''}{call};", "    let result = Ok(());"]
        lines += [f"    let result = {call}.map(|_| ());"] if function.result == "status" else other
        lines.append(f'    heard("{function.name}", result, &[{", ".join(f"Error::{name}" for name in function.statuses)}]);')
    return listing.template("calls.rs", CALLS="\n".join(lines))


# The sources.

CONSTANT = re.compile(r"/// `(\w+)`[^\n]*\n(?:///[^\n]*\n)*pub const \w+: \w+ = (\w+);")
EXPORT = re.compile(r'#\[unsafe\(no_mangle\)\]\s+pub extern "C" fn (\w+)(?:<[^>]*>)?\s*\(([^)]*)\)\s*(?:-> (\w+))?', re.S)
STRUCT = re.compile(r"#\[repr\(C\)\]\s+(?:#\[[^\]]*\]\s+)*pub struct (\w+)(?:<[^>]*>)? \{(.*?)^\}", re.S | re.M)


def parts_of(text, listed):
    """The `name: type` items of a list of parameters or fields, with the structs by their names in the list."""
    names = {struct.source: struct.name for struct in listed.structs}
    lines = re.sub(r"<'\w+>|'\w+ ", "", " ".join(line.split("//")[0] for line in text.splitlines()))
    found = re.findall(r"(?:pub )?(\w+): (&(?:mut )?(?:\[&?\[?\w+\]?\]|\w+)|\[[^\]]*\]|\w+)", lines)
    return [f"{name}: " + re.sub(r"\b[A-Z]\w*", lambda word: names.get(word[0], word[0]), kind) for name, kind in found]


def differing_sources(listed):
    """What the sources and the list do not share."""
    text = "\n".join(file.read_text(encoding="utf-8") for file in sorted(SOURCES.rglob("*.rt")))
    results = {"u32": "status", "usize": "size", "": "none"}
    there = {name: parts_of(body, listed) for name, body in STRUCT.findall(text)}
    exported = {name: (parts_of(given, listed), results.get(result, result)) for name, given, result in EXPORT.findall(text)}
    here = {struct.source: [f"{field.name}: {field.type}" for field in struct.fields] for struct in listed.structs}
    functions = {one.export: (parameters(one, "source", listed), one.result) for one in listed.functions}
    found = []
    for name, (ours, theirs) in {"structs": (here, there), "functions": (functions, exported)}.items():
        for key in sorted(ours.keys() | theirs.keys()):
            if ours.get(key) != theirs.get(key):
                found.append(f"{name}: {key}: the list has {ours.get(key)}, the source {theirs.get(key)}")
    if text.count("no_mangle") != len(functions):
        found.append(f"{text.count('no_mangle')} functions are exported, and {len(functions)} listed")
    return found


def differing_numbers():
    """How many named numbers of the crates bindings/constants.toml has too, and those that differ. A constant of crates/NAME/src has
    the name in backticks with which its doc begins."""
    numbers, text = {it.name: it.value for it in listing.constants()}, lambda path: path.read_text(encoding="utf-8", errors="replace")
    places = [(path, *it) for path in sorted(ROOT.glob("crates/*/src/**/*.rt")) for it in CONSTANT.findall(text(path))]
    path = ROOT / "crates/elf_linking/specs/RelocationNames.antt"
    places += [(path, name, number) for number, name in re.findall(r'\((\d+), codes "(\w+)"\)', text(path))]
    known = [it for it in places if it[1] in numbers]
    return len(known), [f"{path}: {name} is {number}, in the list {numbers[name]}"
                        for path, name, number in known if numbers[name] != int(number.replace("_", ""), 0)]


if __name__ == "__main__":
    is_check, listed, rows = parser_of(__doc__).parse_args().check, listing.read(), statuses.statuses()
    for line in statuses.PINNED.read_text().splitlines():
        if line not in statuses.numbered(rows):
            sys.exit(f"{statuses.PINNED}: {line}: a number never changes, and here it has another name")
    wanted = {HEADER: header_text(listed, rows), RUST / "ffi.rs": ffi_text(listed)}
    wanted[RUST / "records.rs"] = "\n".join([RECORDS_HEAD, *(line for it in listed.structs for line in rust_struct(it, listed)), ""])
    wanted |= {statuses.PINNED: "\n".join(statuses.numbered(rows)) + "\n", RUST / "error.rs": statuses.rust_part(rows)}
    wanted |= {RUST / "constants.rs": constants_text(), PACKAGE / "constants.py": python_declarations.constants()}
    wanted[C_PAGE] = groups.page(C_PAGE.read_text(encoding="utf-8"), listed)
    wanted[PACKAGE / "_declarations.py"] = python_declarations.declarations(wanted[HEADER])
    wanted |= {RUST / "calls.rs": rust_calls_text(listed), ROOT / "bindings/c/calls.h": c_calls_text(listed)}
    failed = differing(wanted, is_check)
    if is_check:
        named = {name for one in listed.functions for name in one.statuses + one.item_statuses + one.never}
        failed += [f"the list names the status {name}, which is none" for name in sorted(named - set(ALL_STATUSES))]
        failed += differing_sources(listed) + groups.differing(wanted[HEADER], listed) + statuses.differing(listed)
    count, others = differing_numbers()
    failed += others if is_check else []
    said = f"{len(listed.functions)} exports, {len(listed.structs)} structs, {count} named numbers"
    sys.exit(ended(failed, f"{said}, {len(failed)} differences"))
