"""Build ids, links to debug information, and notes of segments."""
from wanted.files import BASES, ORDERS, NONE, U64, err, ok, record, text, told
from wanted.rows import Rows

ID = b"\xde\xad\xbe\xef"

# Where the headers of the link's section and of the note's section begin.
LINK, NOTE = 192, 256

BUILD_ID = "extensions get_gnu_buildid"
DEBUG_LINK = "extensions get_gnu_debuglink"
ALTERNATE_LINK = "extensions get_gnu_debugaltlink"

NAME = ok("a.debug", 0x12345678)


def write(rows: Rows):
    links(rows)
    build_ids(rows)
    alternate_links(rows)
    segments(rows)


def links(rows: Rows):
    rows.case("extensions::reads_the_link_and_the_build_id_in_both_orders")
    for order in ORDERS:
        rows.file(f"debug-link-{order}")
        rows.want_all({DEBUG_LINK: NAME, BUILD_ID: ok(told(ID)), ALTERNATE_LINK: NONE})
    rows.case("extensions::reads_links_of_any_type_and_no_short_ones")
    for kind, start, numbers, result in (
        *(("section", LINK, {"size": size}, result) for size, result in ((12, NAME), (11, NONE), (7, NONE), (0, NONE), (U64, NONE))),
        ("section", LINK, {"offset": 398}, NONE),
        *(("section", LINK, {"type": number}, result) for number, result in ((8, NAME), (7, NAME), (0, NONE), (12, NONE))),
        ("section", LINK, {"name": 12}, NONE), ("byte", 371, {"byte": 0}, ok("a.debu", 0x12345678)),
        ("byte", 368, {"byte": 0}, ok("a.d", 0x00677562)), ("byte", 365, {"byte": 0}, ok("", 0x00677562)),
        ("byte", 366, {"byte": 0xff}, NONE),
    ):
        rows.of("debug-link-little", (kind, start, numbers))
        rows.want(DEBUG_LINK, result)


def build_ids(rows: Rows):
    found = ok(told(ID))
    rows.case("extensions::reads_build_ids_of_notes_alone")
    for kind, start, numbers, result in (
        *(("section", NOTE, {"size": size}, result) for size, result in ((20, found), (19, NONE), (11, NONE), (21, NONE))),
        *(("section", NOTE, {"type": number}, NONE) for number in (1, 8, 12)), ("section", NOTE, {"name": 27}, NONE),
        ("section", LINK, {"name": 26}, NONE), ("word", 385, {"word": 1}, NONE), ("word", 385, {"word": 0x03000000}, NONE),
        ("word", 377, {"word": 3}, NONE), ("word", 377, {"word": 5}, NONE), ("byte", 389, {"byte": 0x67}, NONE),
        ("byte", 392, {"byte": 0x41}, NONE), ("word", 381, {"word": 5}, NONE), ("word", 381, {"word": 3}, ok(told(ID[:3]))),
        ("word", 381, {"word": 0}, ok(told(b""))),
    ):
        rows.of("debug-link-little", (kind, start, numbers))
        rows.want(BUILD_ID, result)
    # The section headers by the layouts of both classes.
    rows.case("extensions::class_32_has_links_and_no_build_id")
    both = BASES["debug-link-little"].copy()
    for start, offset, size in ((128, 320, 45), (LINK, 365, 12), (NOTE, 377, 20)):
        both.put(start + 16, offset.to_bytes(4, "little")).put(start + 20, size.to_bytes(4, "little"))
    rows.file("debug-link-little", both)
    for number, link, build_id in ((1, NAME, NONE), (2, NAME, found), (7, NONE, NONE)):
        rows.class_(number)
        rows.want(DEBUG_LINK, link)
        rows.want(BUILD_ID, build_id)


def alternate_links(rows: Rows):
    rows.case("extensions::reads_alternate_links")
    data = b"\1\2\3\4"
    for kind, start, numbers, result in (
        *(("section", 132, {"size": size}, result) for size, result in (
            (6, ok("x", told(data))), (5, ok("x", told(data[:3]))), (2, ok("x", told(b""))), (1, NONE), (0, NONE), (7, NONE),
        )),
        ("section", 132, {"type": 8}, ok("x", told(data))), ("section", 132, {"type": 0}, NONE), ("section", 132, {"name": 2}, NONE),
        ("byte", 191, {"byte": 0xff}, NONE),
    ):
        rows.of("alternate-link", (kind, start, numbers))
        rows.want_all({ALTERNATE_LINK: result, DEBUG_LINK: NONE, BUILD_ID: NONE})


def note_segment(rows: Rows, order: str, size: int):
    """A segment of notes, as long as the note of `debug_link` or shorter."""
    rows.record("segment64", record("program", 64, order, type=4, offset=377, file_size=size))


def segments(rows: Rows):
    rows.case("extensions::reads_the_note_of_a_segment")
    for order in ORDERS:
        rows.file(f"debug-link-{order}")
        note_segment(rows, order, 20)
        rows.want_all({"made 0 note type_": 3, "made 0 note name": text("GNU"), "made 0 note desc": ok(told(ID))})
    rows.case("extensions::rejects_the_notes_of_segments")
    rows.file("debug-link-little")
    for number, size, error in (
        (2, 11, "ShortData"), (2, 0, "ShortData"), (2, 21, "DataRange"), (7, 20, "UnknownClass"), (7, 11, "UnknownClass"),
        (1, 20, "Note32"), (1, 11, "Note32"),
    ):
        rows.class_(number)
        note_segment(rows, "little", size)
        rows.want("made 0 get_data", err(error))
