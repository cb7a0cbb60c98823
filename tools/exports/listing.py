"""Reads bindings/exports.toml: the structs and functions that cross the edge of the static library `elf_c`.

    for struct in listing.read().structs: struct.name, struct.fields[0].name, struct.fields[0].type
    for function in listing.read().functions: function.export, function.parameters[0].type, function.statuses

A type is a number (`u8` .. `u64`, `usize`), an array of bytes (`[u8; 7]`), bytes, numbers or texts that a field borrows (`&[u8]`,
`&[u32]`, `&[&[u8]]`: a pointer and a size) or the name of a struct of the list. A parameter's `kind` says how it crosses: VALUE a number; IN a pointer to one value that is read;
OUT to one that is written where the call is OK; SLICE a pointer and a count of values that are read; FILLED of values to be written."""
import re
import tomllib
from collections import namedtuple

from pages.sources import ROOT, unfolded

LIST = ROOT / "bindings/exports.toml"
PREFIX = "xmas_elf_"
VALUE, IN, OUT, GIVEN, SLICE, FILLED = "value", "in", "out", "given", "slice", "filled"
SIZES = {"u8": 1, "u16": 2, "u32": 4, "u64": 8, "usize": 8}

# `c_name` and `c_type` are the names in C, `rust` is that in the crate, `source` that in the sources.
Field = namedtuple("Field", "name type comment c_name")
Struct = namedtuple("Struct", "name rust source comment public private_fields fields c_type")
# The type of a parameter is that of the value, or of one value of several.
Parameter = namedtuple("Parameter", "name kind type")
# The result is "status", "size" or "none". The statuses are those of the call, without OK, in the order of its tests;
# `item_statuses` those of each record with a status of its own; `never` those that its contract names for nothing;
# `held` those of `statuses` that a value of a library holds, whose list of errors no definition names. `said` and `item_said`
# are the lists as comments say them: a name of a status, or `@` and that of a group.
Function = namedtuple("Function", "name parameters result statuses item_statuses never held comment export said item_said")
# Errors that several calls share: what they are of, and their names, of which some may be those of groups.
Group = namedtuple("Group", "name of statuses")
# A number of the ELF standard: its group's comment, and the prefix of the names there.
Constant = namedtuple("Constant", "name value type group prefix is_flag comment")

# What a field borrows: one of several in C, and the type in Rust.
BORROWED = {"&[u8]": ("uint8_t", "Borrowed<{}>"), "&[u32]": ("uint32_t", "Borrowed<{}, u32>"), "&[&[u8]]": ("xmas_elf_text_t", "Borrowed<{0}, Borrowed<{0}>>")}
C_NUMBERS = {"u8": "uint8_t", "u16": "uint16_t", "u32": "uint32_t", "u64": "uint64_t", "usize": "size_t"}


class Listed(namedtuple("Listed", "structs functions groups")):
    def struct(self, name: str) -> Struct:
        return next(struct for struct in self.structs if struct.name == name)

    def group(self, name: str) -> Group:
        return next(group for group in self.groups if group.name == name)

    def c_type(self, name: str) -> str:
        return C_NUMBERS.get(name) or self.struct(name).c_type

    def rust_type(self, name: str, lifetime: str = "'_") -> str:
        """The type in Rust; a struct that borrows bytes has a lifetime."""
        if name in SIZES or name.startswith("["):
            return name
        return BORROWED[name][1].format(lifetime) if name in BORROWED else self.struct(name).rust + f"<{lifetime}>" * self.borrows(name)

    def borrows(self, name: str) -> bool:
        if name in SIZES or name.startswith("["):
            return False
        return name in BORROWED or any(self.borrows(field.type) for field in self.struct(name).fields)


SHAPES = ((r"&mut \[(\w+)\]", FILLED), (r"&mut (\w+)", OUT), (r"&\[(\w+)\]", SLICE), (r"&(\w+)", IN), (r"(\w+)", VALUE))


def parameter(text: str) -> Parameter:
    name, crossing = text.split(": ")
    for shape, kind in SHAPES:
        if match := re.fullmatch(shape, crossing):
            return Parameter(name, kind, match[1])
    raise ValueError(f"{text}: no such type of parameters")


def read() -> Listed:
    table, structs, functions = tomllib.loads(LIST.read_text(encoding="utf-8")), [], []
    groups = tuple(Group(name, **it) for name, it in table["errors"].items() if isinstance(it, dict))
    errors = table["errors"] | {group.name: group.statuses for group in groups}
    for row in table["structs"]:
        fields = tuple(Field(it["name"], it["type"], it["comment"], it.get("c", it["name"].rstrip("_"))) for it in row["fields"])
        structs.append(Struct(**{"private_fields": False, **row, "fields": fields, "c_type": f"{PREFIX}{row['name']}_t"}))
    for row in table["functions"]:
        # Each status at its first place.
        lists = {key: tuple(dict.fromkeys(unfolded(row.get(key, []), errors))) for key in ("statuses", "item_statuses", "never", "held")}
        lists |= {"said": tuple(row["statuses"]), "item_said": tuple(row.get("item_statuses", []))}
        parameters = tuple(map(parameter, row["parameters"]))
        on_error = row.pop("on_error", [])
        parameters = tuple(it._replace(kind=GIVEN) if it.name in on_error else it for it in parameters)
        functions.append(Function(**{**row, **lists, "parameters": parameters, "export": PREFIX + row["name"]}))
    return Listed(tuple(structs), tuple(functions), groups)


def template(name: str, **parts: str) -> str:
    """A text of tools/exports/templates with these parts, which have their names there between two `@`."""
    text = (ROOT / "tools/exports/templates" / name).read_text(encoding="utf-8")
    for part, held in parts.items():
        text = text.replace(f"@{part}@", held)
    return text


def constant(status: str) -> str:
    """The name of a status in C."""
    words = re.findall(r"[A-Z][a-z]*|[0-9]+", status)
    return "XMAS_ELF_" + "_".join(words).upper()


def constants() -> tuple[Constant, ...]:
    """Numbers of the ELF standard by their names there."""
    groups = tomllib.loads((ROOT / "bindings/constants.toml").read_text(encoding="utf-8"))["groups"]
    return tuple(Constant(name, value, group["type"], group["comment"], group["prefix"], group.get("flags", False), said)
                 for group in groups for name, value, said in group["rows"])
