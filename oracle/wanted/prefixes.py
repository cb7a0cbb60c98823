"""All calls at once: over each prefix of two files, over damaged ones, and by headers that no file has."""
import dataclasses

from wanted.files import BASES, NONE, U32, U64, err, ok, text, told
from wanted.names import compared
from wanted.reports import DEBUG_LINK_HEADER, STRTAB_HEADER, header_lines, report
from wanted.rows import Rows

GOOD = ok("()")
SHORT = err("ShortSectionHeader")
CUT = err("ShTableRange")
NO_STRTAB = err("NoStrtab")
NO_DYNSTR = err("NoDynstr")
BUILD_ID = ok(told(b"\xde\xad\xbe\xef"))


@dataclasses.dataclass
class Section:
    """What is wanted of a section: `name`, `flags`, `address`, `offset`, `size`, `link`, `info`, `align` and `entry_size`."""

    numbers: tuple = (0,) * 9
    kind: str = ok("Null")
    name: str = err("NullName")
    raw: str = err("NullData")
    contents: dict = dataclasses.field(default_factory=lambda: {"get_data": ok("Empty")})

    def wanted_calls(self, place: str) -> dict:
        names = ("name", "flags", "address", "offset", "size", "link", "info", "align", "entry_size")
        check = GOOD if self.kind.startswith("ok") else self.kind
        own = dict(zip(names, self.numbers)) | {"get_type": self.kind, "get_name": self.name, "raw_data": self.raw, "sanity_check": check}
        return {f"{place} {call}": result for call, result in (own | self.contents).items()}


@dataclasses.dataclass
class Wanted:
    """What is wanted of a file without segments that can be read."""

    sections: list
    section_count: int
    # The index of a section header that isn't there.
    past: int
    names: dict
    compared: list
    strings: dict
    # The sections by their names, as the index of the name and the offset.
    named: dict
    # The lines of the ELF header, of its check, and of the sections; there are none for a header without its file.
    report: tuple = None
    check: str = GOOD
    program_count: int = 0
    program: str = err("NoProgramHeaders")
    links: tuple = (NONE, NONE, NONE)

    def wanted_calls(self) -> dict:
        no_program, reserved = err("NoProgramHeaders"), err("ReservedIndex")
        found = {
            "header sanity_check": self.check, "section_count": self.section_count, "section_iter count": len(self.sections),
            "section_iter": "true", "program_count": self.program_count, "program_iter count": 0, "shstr_index": ok(1),
            f"section_header {self.past}": SHORT, f"section_header_at {self.past}": SHORT, f"section_header_at {U64}": SHORT,
            f"section_header {0xff00}": reserved, "program_header 0": self.program, "program_header_at 0": self.program,
            "program_header 1": no_program, f"program_header_at {U32}": no_program,
        }
        found |= {f"get_shstr {index}": name for index, name in self.names.items()}
        found |= dict(compared(*row) for row in self.compared)
        found |= {f"get_string {index}": string for index, string in self.strings.items()}
        found |= {"get_dyn_string 0": NO_DYNSTR, "get_dyn_string 9": NO_DYNSTR}
        found |= {f"find_section_by_name {name}": result for name, result in self.named.items()}
        calls = ("get_gnu_buildid", "get_gnu_debuglink", "get_gnu_debugaltlink")
        found |= {f"extensions {call}": result for call, result in zip(calls, self.links)}
        for index, section in enumerate(self.sections):
            found |= section.wanted_calls(f"section {index}")
        return found | ({"report": report(*self.report)} if self.report else {})


def write(rows: Rows):
    strtab_prefixes(rows)
    strtab_damaged(rows)
    link_prefixes(rows)
    link_damaged(rows)
    other_headers(rows)


def text_in(length: int, start: int, zero: int, value: str) -> str:
    """The text from one byte up to a zero byte, in a prefix of so many bytes."""
    return err("TextStart") if length < start else err("TextEnd") if length <= zero else text(value)


def bytes_in(file: bytes, length: int, start: int, end: int):
    """The bytes from one up to another, which isn't among them, if they lie in the prefix."""
    return file[start:end] if end <= length else None


def held(kind: str, numbers: tuple, name: str, data, contents: dict) -> Section:
    """A section of this type, with its bytes where it has them, and then this of its data."""
    past = err("DataRange")
    return Section(numbers, ok(kind), name, past if data is None else ok(told(data)), {"get_data": past} if data is None else contents)


def none_of(length: int) -> dict:
    """What is wanted of a prefix that ends in its ELF header."""
    return {"file new": err("ShortPart1" if length < 16 else "ShortHeaders")}


def strtab_name(length: int, start: int, zero: int, value: str) -> str:
    return SHORT if length < 132 else text_in(length, start, zero, value)


def table_section(data, name: str, numbers: tuple = (1, 0, 0, 132, 12, 0, 0, 1, 0)) -> Section:
    return held("StrTab", numbers, name, data, {"get_data": ok("StrArray", told(data or b""))})


def strtab_wanted(length: int) -> Wanted:
    """What is wanted of a prefix of `strtab` that has all of its ELF header."""
    data = bytes_in(BASES["strtab-little"], length, 132, 144)
    sections = [Section(), table_section(data, strtab_name(length, 133, 140, ".strtab"))]
    count = 0 if length < 92 else 1 if length < 132 else 2
    count_compared = min(max(length - 133, 0), 8)
    strings = NO_STRTAB if length < 141 else err("DataRange") if length < 144 else None
    lines = "" if length < 132 else "1 Ok(StrTab) ! Text starts past the end of its data\n" if length == 132 else (
        "1 Ok(StrTab) ! Text has no terminating zero\n" if length < 141 else "1 Ok(StrTab) = .strtab\n")
    return Wanted(
        sections=sections[:count], section_count=2, past=count, check=CUT if length < 132 else GOOD,
        names={
            0: strtab_name(length, 132, 132, ""), 1: strtab_name(length, 133, 140, ".strtab"), 9: strtab_name(length, 141, 143, "ab"),
            U32: strtab_name(length, U32, U32, ""),
        },
        compared=[(1, ".strtab", count_compared == 8, count_compared), (13, "", False, 0)],
        strings={index: strings or text(value) for index, value in ((0, ""), (1, ".strtab"), (9, "ab"))},
        named={".strtab": ok(1, 132) if length >= 141 else NONE, "ab": NONE, "": NONE},
        report=(STRTAB_HEADER, "! section header table out of range" if length < 132 else "ok", lines),
    )


def strtab_prefixes(rows: Rows):
    rows.case("string_table::each_prefix_of_a_string_table_answers_each_call")
    rows.file("strtab-little")
    rows.want_by_length({length: none_of(length) for length in range(52)})
    rows.want_by_length({length: {"file new": "ok"} | strtab_wanted(length).wanted_calls() for length in range(52, 145)})


def no_strtab(sections: list, lines: str, **changes) -> Wanted:
    """What is wanted of `strtab` where no section has the name `.strtab`."""
    wanted = {"names": {}, "compared": [], "strings": {0: NO_STRTAB, 9: NO_STRTAB}, "named": {".strtab": NONE, "": NONE}, "past": 2}
    report_of = (STRTAB_HEADER, "ok", lines)
    return Wanted(**({"sections": sections, "section_count": 2, "report": report_of} | wanted | changes))


def strtab_damaged(rows: Rows):
    rows.case("string_table::names_that_are_the_whole_file_answer_each_call")
    file = rows.of("strtab-little", ("section", 92, {"offset": 0, "size": 144}))
    table = table_section(bytes(file), text("ELF\x01\x01\x01"), (1, 0, 0, 0, 144, 0, 0, 1, 0))
    rows.want_all(no_strtab(
        [Section(), table], "1 Ok(StrTab) = ELF\x01\x01\x01\n",
        names={
            0: text("\x7fELF\x01\x01\x01"), 1: text("ELF\x01\x01\x01"), 9: text(""), 144: err("TextEnd"), 145: err("TextStart"),
        },
        compared=[(1, ".strtab", False, 1), (2, "LF", False, 3)],
    ).wanted_calls())
    rows.case("string_table::a_name_that_is_no_text_answers_each_call")
    file = BASES["strtab-little"].copy().put(133, b"\xff")
    rows.file("strtab-little", file)
    rows.want_all(no_strtab(
        [Section(), table_section(bytes(file[132:]), err("TextUtf8"))], "1 Ok(StrTab) ! Text is not valid UTF-8\n",
        names={0: text(""), 1: err("TextUtf8"), 2: text("strtab"), 9: text("ab")},
        compared=[(1, ".strtab", False, 1), (2, "strtab", True, 7)],
    ).wanted_calls())
    # The zero byte behind `ab` is another.
    rows.case("string_table::a_text_without_its_end_answers_each_call")
    file = BASES["strtab-little"].copy().put(143, b"A")
    rows.file("strtab-little", file)
    rows.want_all(no_strtab(
        [Section(), table_section(bytes(file[132:]), text(".strtab"))], "1 Ok(StrTab) = .strtab\n",
        names={1: text(".strtab"), 9: err("TextEnd"), 12: err("TextEnd")}, compared=[(1, ".strtab", True, 8), (9, "abA", False, 3)],
        strings={0: text(""), 1: text(".strtab"), 9: err("TextEnd")}, named={".strtab": ok(1, 132), "": NONE},
    ).wanted_calls())


def link_name(length: int, start: int, zero: int, value: str) -> str:
    """A name of `debug_link`, in a prefix of so many bytes."""
    return SHORT if length < 192 else err("ShortSectionOffset") if length < 320 else text_in(length, start, zero, value)


def note(description: str) -> dict:
    return {"note type_": 3, "note name": text("GNU"), "note desc": description}


def link_sections(length: int) -> list:
    """What is wanted of the sections of `debug_link`, in a prefix of it."""
    file = BASES["debug-link-little"]
    names, link, build_id = (bytes_in(file, length, *of) for of in ((320, 365), (365, 377), (377, 397)))
    return [
        Section(),
        held("StrTab", (1, 0, 0, 320, 45, 0, 0, 0, 0), link_name(length, 321, 330, ".shstrtab"), names,
            {"get_data": ok("StrArray", told(names or b""))}),
        held("ProgBits", (11, 0, 0, 365, 12, 0, 0, 0, 0), link_name(length, 331, 345, ".gnu_debuglink"), link,
            {"get_data": ok("Undefined", told(link or b""))}),
        held("Note", (26, 0, 0, 377, 20, 0, 0, 0, 0), link_name(length, 346, 364, ".note.gnu.build-id"), build_id,
            {"get_data": ok("Note64", told((build_id or b"")[12:]))} | note(BUILD_ID)),
    ]


def link_lines(length: int) -> str:
    """The lines of the sections of `debug_link` in a report on a prefix of it."""
    def line(index: int, kind: str, start: int, zero: int, name: str) -> str:
        if length < 320:
            return f"{index} Ok({kind}) ! File is shorter than section offset\n"
        if length < start:
            return f"{index} Ok({kind}) ! Text starts past the end of its data\n"
        return f"{index} Ok({kind}) ! Text has no terminating zero\n" if length <= zero else f"{index} Ok({kind}) = {name}\n"

    whole = (line(1, "StrTab", 321, 330, ".shstrtab"), line(2, "ProgBits", 331, 345, ".gnu_debuglink"),
        line(3, "Note", 346, 364, ".note.gnu.build-id"))
    return "".join(whole[: max(link_count(length) - 1, 0)])


def link_count(length: int) -> int:
    """How many section headers of `debug_link` lie in a prefix of it."""
    return sum(length >= end for end in (128, 192, 256, 320))


def link_wanted(length: int, **changes) -> Wanted:
    count_compared = min(max(length - 331, 0), 15)
    wanted = {
        "sections": link_sections(length)[: link_count(length)], "section_count": 4,
        # From 384 on the bytes behind the fourth header have room for a fifth.
        "past": link_count(length) + (length >= 384), "check": CUT if length < 320 else GOOD,
        "names": {
            1: link_name(length, 321, 330, ".shstrtab"), 11: link_name(length, 331, 345, ".gnu_debuglink"),
            15: link_name(length, 335, 345, "_debuglink"), 44: link_name(length, 364, 364, ""),
        },
        "compared": [(11, ".gnu_debuglink", count_compared == 15, count_compared)],
        "named": {
            ".shstrtab": ok(1, 320) if length >= 331 else NONE, ".gnu_debuglink": ok(11, 365) if length >= 346 else NONE,
            ".note.gnu.build-id": ok(26, 377) if length >= 365 else NONE, ".strtab": NONE,
        },
        "strings": {0: NO_STRTAB},
        "links": (BUILD_ID if length == 397 else NONE, ok("a.debug", 0x12345678) if length >= 377 else NONE, NONE),
        "report": (DEBUG_LINK_HEADER, "! section header table out of range" if length < 320 else "ok", link_lines(length)),
    }
    return Wanted(**(wanted | changes))


def link_prefixes(rows: Rows):
    rows.case("debug_link::each_prefix_of_a_link_answers_each_call")
    rows.file("debug-link-little")
    rows.want_by_length({length: none_of(length) for length in range(64)})
    rows.want_by_length({length: {"file new": "ok"} | link_wanted(length).wanted_calls() for length in range(64, 398)})


def no_links(**changes) -> Wanted:
    """What is wanted of `debug_link` where nothing of its sections can be read."""
    wanted = {
        "sections": [], "section_count": 4, "past": 0, "check": CUT, "names": {0: SHORT, 1: SHORT}, "compared": [(1, ".shstrtab", False, 0)],
        "strings": {0: NO_STRTAB, 9: NO_STRTAB},
        "named": dict.fromkeys((".shstrtab", ".gnu_debuglink", ".note.gnu.build-id", ""), NONE),
    }
    return Wanted(**(wanted | changes))


def link_damaged(rows: Rows):
    away = {"sh_entry_size": 64, "sh_count": 4, "header_size": 64}
    rows.case("debug_link::header_tables_past_64_bits_answer_each_call")
    rows.of("debug-link-little", ("header", 0, {"sh_offset": U64}))
    lines = header_lines("SixtyFour", sh_offset=U64, **away)
    rows.want_all(no_links(report=(lines, "! section header table out of range", "")).wanted_calls())
    rows.of("debug-link-little", ("header", 0, {"ph_offset": U64, "ph_entry_size": 56, "ph_count": 1}))
    lines = header_lines("SixtyFour", ph_offset=U64, sh_offset=64, ph_entry_size=56, ph_count=1, **away)
    rows.want_all(link_wanted(
        397, check=err("PhTableRange"), program_count=1, program=err("ShortProgramHeader"),
        report=(lines, "! program header table out of range", link_lines(397)),
    ).wanted_calls())
    # The last byte of the build id is none of its section.
    rows.case("debug_link::a_note_that_passes_its_section_answers_each_call")
    file = rows.of("debug-link-little", ("section", 256, {"size": 19}))
    sections = link_sections(397)
    sections[3] = held("Note", (26, 0, 0, 377, 19, 0, 0, 0, 0), text(".note.gnu.build-id"), bytes(file[377:396]),
        {"get_data": ok("Note64", told(file[389:396]))} | note(err("NoteDesc")))
    rows.want_all(link_wanted(
        397, sections=sections, names={26: text(".note.gnu.build-id")}, compared=[],
        named={".note.gnu.build-id": ok(26, 377)}, links=(NONE, ok("a.debug", 0x12345678), NONE),
    ).wanted_calls())


def other_headers(rows: Rows):
    rows.case("other_headers::inputs_under_other_headers_answer_each_call")
    rows.file("strtab-little")
    rows.under("debug-link-little")
    only = Section((0, 0, 0, 0x100000000, 3, 0, 132, 12, 0x100000000))
    rows.want_all(no_links(
        sections=[only], past=1, names={1: SHORT}, compared=[(1, ".strtab", False, 0)], strings={0: NO_STRTAB}, named={".strtab": NONE},
    ).wanted_calls())
    rows.file("debug-link-little")
    rows.under("strtab-little")
    unknown = err("InvalidShType")
    sections = [
        Section((64, 65540, 0, 0, 0, 0, 0, 0, 0), unknown, unknown, unknown, {"get_data": unknown}),
        Section((0, 0, 0, 0, 0, 0, 0, 0, 1)),
    ]
    rows.want_all(no_strtab(
        sections, "", past=8, names={1: text("ELF\x02\x01\x01"), 9: text("")}, compared=[(1, "ELF\x02\x01\x01", True, 7)],
        strings={0: NO_STRTAB}, named={".strtab": NONE}, report=None,
    ).wanted_calls())
