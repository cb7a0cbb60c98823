#!/usr/bin/env python3
"""Compares the lines that programs write with --json with their lines of text.

    tools/compare/json_lines.py [--elfsym PATH] [--elfbind PATH] [--elfload PATH] [--elftree PATH] [--elfaddr PATH] FILE..

Of each object, as Python's `json` reads it, the line of text is written here anew (TEXTS), and must be that of the program. `jq` must
read the same objects. Statuses and messages must be the same in both forms.
"""
import json
import re
import sys
from typing import Callable

from comparing import AT_ONCE, CONTROLS, Tally, compare_all, dynamic_symbols, first_differing, run
from processes import linker_of


def symbol_text(it: dict) -> str:
    if it["value"] is None:
        return f"{it['name']}: none"
    return f"{it['name']} {it['value']:#x} {it['size']:#x}" + (f" {it['file']}" if "file" in it else "")


def name_text(it: dict, key: str = "needed") -> str:
    name = it[key] if key in it else bytes.fromhex(it[f"{key}_bytes"]).decode("utf-8", "surrogateescape")
    return name.translate(CONTROLS)


def binding_text(it: dict) -> str:
    found = "unresolved" + " (weak)" * it["weak"] if it["file"] is None else f"{it['file']} {it['value']:#x}"
    return f"{it['from']} {name_text(it, 'name')}" + (f"@{it['version']}" if it["version"] is not None else "") + f" -> {found}"


def place_text(it: dict, key: str) -> str:
    return f"{'?' if it.get(key, '') is None else name_text(it, key)}+{it['offset']:#x}"


def flags_text(flags: int) -> str:
    return "".join(letter if flags & flag else "-" for letter, flag in (("r", 4), ("w", 2), ("x", 1)))


def head_text(it: dict) -> str:
    return "\n".join((
        it["file"], *(f"{name} {it[name]}" for name in ("class", "type", "machine")), f"entry {it['entry']:x}",
        f"span {it['start']:x}-{it['end']:x}"))


def rest_text(it: dict) -> str:
    numbers = lambda between, *names: "none" if it[names[0]] is None else between.join(f"{it[name]:x}" for name in names)
    return "\n".join((
        f"relro {numbers('-', 'relro_start', 'relro_end')}",
        f"tls {numbers(' ', 'tls_address', 'tls_file_size', 'tls_size', 'tls_align')}",
        f"stack {'default' if it['stack_flags'] is None else flags_text(it['stack_flags'])}",
        f"interpreter {'none' if it.get('interpreter', '') is None else name_text(it, 'interpreter')}"))


def value_text(it: dict) -> str:
    file, offset = it["object"], f"{it['offset'] or 0:#x}"
    base = "" if file is None else f"base({file}) + "
    origin = base if it["resolver"] is None else f"call({base}{it['resolver']:#x}) + "
    return {
        "sum": origin + offset, "distance": f"{origin}{offset} - base(own)", "module": f"module({file})",
        "thread": f"thread({file}) + {offset}", "thread_negated": f"{offset} - thread({file})",
        "descriptor": f"descriptor({offset})" if file is None else f"descriptor({file}, {offset})",
        "copy": f"copy({file}, {offset}, {it['size']})"}[it["value"]]


def item_text(it: dict) -> str:
    """The line of a program, of a library that it gets, or of a name that is missing."""
    if it["from"] is None:
        return it["file"].translate(CONTROLS)
    kind = "" if it["entry"] == "needed" else it["entry"]
    if it["file"] is None:
        found = "not found" + " (auxiliary)" * (kind == "auxiliary")
    else:
        found = f"{it['file'].translate(CONTROLS)} ({', '.join(filter(None, (it['how'], kind)))}) #{it['place']}"
    return f"{'  ' * it['depth']}{name_text(it, 'name')} => {found}"


def lacked_text(it: dict) -> str:
    version, by, library = (it[key].translate(CONTROLS) for key in ("version", "from", "file"))
    if it["reason"] == "record":
        return f"{library}: unsupported version {it['record']} of Verdef record"
    lack = {
        "unversioned": "no version information available", "weak": f"weak version `{version}' not found",
        "missing": f"version `{version}' not found"}[it["reason"]]
    return f"{library}: {lack} (required by {by})"


# What is written of an object, by its members.
REST = "file relro_start relro_end tls_address tls_file_size tls_size tls_align stack_flags"
VALUE = "value object resolver offset size"
ITEM = "entry file how place"
TEXTS = {
    "name value size": symbol_text, "name value size file": symbol_text, "needed": name_text, "needed_bytes": name_text,
    **dict.fromkeys(("from name version weak file value", "from name_bytes version weak file value"), binding_text), "file error": lambda it: f"{it['file']}: {it['error'] or 'ok'}",
    "file loads": lambda it: f"{it['file']}: loads: {'yes' if it['loads'] else 'no'}",
    "file class type machine entry start end": head_text, f"{REST} interpreter": rest_text, f"{REST} interpreter_bytes": rest_text,
    "file by start end flags holds offset": lambda it: (
        f"{it['start']:x}-{it['end']:x} {flags_text(it['flags'])}p {it['offset'] or 0:x} {it['holds']}"),
    f"file word width type name {VALUE}": lambda it: (
        f"word {it['word']:#x} {it['width']} {re.sub('^R_(386|X86_64|AARCH64)_', '', it['name'] or str(it['type']))} = {value_text(it)}"),
    f"file runs index {VALUE}": lambda it: (
        f"{it['file']} {it['runs']}{'' if it['index'] is None else '[%d]' % it['index']} = {value_text(it)}"),
    f"program kind depth from name {ITEM}": item_text, f"program kind depth from name_bytes {ITEM}": item_text,
    "program kind from version file reason record": lacked_text, "address symbol section": lambda it: "?",
    **dict.fromkeys(("address symbol offset", "address symbol_bytes offset"), lambda it: place_text(it, "symbol")),
    **dict.fromkeys(("address section offset", "address section_bytes offset"), lambda it: place_text(it, "section")),
    "program kind file": lambda it: f"{it['kind']} {it['file'].translate(CONTROLS)}",
    "program file": lambda it: it["file"].translate(CONTROLS)}


def text_of(objects: list[dict]) -> str:
    """The text of objects; of those of elfload with the headings of mappings, and of the words of files that have some."""
    files, text, before = [it["file"] for it in objects if "class" in it], [], ""
    for it in objects:
        if (members := " ".join(it)) not in TEXTS:
            raise ValueError(f"members {members}")
        heading = it["by"] if "by" in it else f"words {it['file']}" if "word" in it else ""
        own = f"base({files.index(it['file'])})" if "word" in it else ""
        text += [f"{heading}\n"] * (heading not in ("", before)) + [TEXTS[members](it).replace("base(own)", own) + "\n"]
        before = heading
    return "".join(text)


def compare_lines(tally: Tally, path: str, program: str, *words: str, text_of: Callable[[list[dict]], str] = text_of) -> None:
    """Compares what a program writes for some words with the text of the objects that it writes after --json."""
    text, own = run([program, *words]), run([program, "--json", *words])
    if (own.status, own.errors) != (text.status, text.errors):
        return tally.differ(path, f"{words[:3]} as JSON", (own.status, own.errors), (text.status, text.errors))
    objects = [json.loads(line) for line in own.output.split("\n")[:-1]]
    tally["lines"] += len(objects)
    # Of a file without words there is a heading, and no object.
    wanted = re.sub(r"(?m)^words .*\n(?!word )", "", text.output) if any("class" in it for it in objects) else text.output
    found, wanted = text_of(objects).split("\n"), wanted.split("\n")
    if found != wanted:
        at = first_differing(found, wanted)
        tally.differ(path, f"{words[:3]} as JSON, line {at + 1}", found[at : at + 1], wanted[at : at + 1])
    read = run(["jq", "-r", "keys_unsorted[0]"], given=own.output.encode("utf-8", "surrogateescape"))
    if read.output.split("\n")[:-1] != [next(iter(it)) for it in objects]:
        tally.differ(path, f"{words[:3]} read by jq", read.errors, "the same")


def compare(path: str, elfsym: str, elfbind: str, elfload: str, elftree: str, elfaddr: str, tally: Tally) -> None:
    tally["files"] += 1
    symbols = dynamic_symbols(path)
    names = list(dict.fromkeys(it.name + (f"@{it.version}" if it.version else "") for it in symbols if it.name))[:AT_ONCE]
    compare_lines(tally, path, elfsym, "--needed", path)
    if names:
        compare_lines(tally, path, elfsym, path, *names, "\"absent\"\\\n")
        compare_lines(tally, path, elfsym, "--scope", path, *names)
    compare_lines(tally, path, elfbind, path)
    compare_lines(tally, path, elfbind, "--check", path)
    # Of a library its own words, since those of all its libraries are many.
    for words in ([] if linker_of(path) else ["--alone"], ["--start"], ["--kernel"], ["--glibc"]):
        compare_lines(tally, path, elfload, *words, path)
    for option in ("--start", "--list"):
        compare_lines(tally, path, elftree, option, path)
    for option in ([], ["--dynamic"]):
        compare_lines(tally, path, elfaddr, *option, path, *(f"{it.value + it.size // 2:x}" for it in symbols[:AT_ONCE]), "1000", "ffffffff")


if __name__ == "__main__":
    sys.exit(compare_all(__doc__, Tally("--json", "files", "lines"), compare, "elfsym", "elfbind", "elfload", "elftree", "elfaddr"))
