"""Hash numbers, the words of hash tables, and look-ups and checks along chains, in tables that are in no file.

The names are those of `strtab`: `ab` is at 9, and `.strtab` at 1.
"""
from wanted.files import U32, err, ok, record, words
from wanted.rows import Rows

GOOD = ok("()")
CYCLE = err("HashCycle")
MISSING = err("HashMissing")
LEAVES = err("ChainIndex")
SHORT = err("HashData")
INDEX = err("SymbolIndex")
NONE = ok("none")

# Symbols by name and info.
TWO = ((0, 0), (9, 0x12))
THREE = ((0, 0), (9, 0x12), (1, 0x12))
SAME_NAME = ((0, 0), (9, 0x12), (9, 0x12), (9, 0x12), (9, 0x12))
# Of three buckets, whose names are in the order of the buckets: 0 and 1 and 2 and 0.
IN_THREE = ((0, 0), (9, 0x12), (3, 0x12), (10, 0x12), (9, 0x12))
# The last symbol is local, and needs no chain.
LAST_LOCAL = (*IN_THREE[:4], (9, 0x02))


def tree(*buckets) -> tuple:
    """Symbols whose names have these of three buckets; None: a local symbol."""
    return ((0, 0), *((9, 0x02) if bucket is None else (IN_THREE[bucket + 1]) for bucket in buckets))


RING = (1, 5, 1, 0, 2, 3, 4, 1)
ENDS = (1, 5, 1, 0, 2, 3, 4, 0)
OUT = (1, 5, 1, 0, 2, 3, 4, 5)
CUT = (1, 5, 1, 0, 2, 3)


def write(rows: Rows):
    numbers(rows)
    of_two(rows)
    chains(rows)
    rows.file("strtab-little")
    rows.case("chains::checks_follow_each_chain")
    for table_words, symbols, result in (
        (RING, SAME_NAME, CYCLE), (ENDS, SAME_NAME, GOOD), (ENDS, SAME_NAME[:4], INDEX), (OUT, SAME_NAME, LEAVES), (CUT, SAME_NAME, SHORT),
        ((2, 3, 1, 1, 0, 2, 0), THREE, GOOD), ((U32, 2, 0), TWO, SHORT),
        # on the chain of another bucket than that of its name
        ((2, 2, 0, 1, 0, 0), TWO, MISSING),
    ):
        table(rows, table_words, symbols)
        check(rows, result)
    checks_in_three(rows)


def check(rows: Rows, result: str):
    """The check with no memory, and with none, too few and enough words of its caller."""
    for call in ("check", "check_with 0", "check_with 2", "check_with 5", "check_with 64"):
        rows.want(call, result)


def table(rows: Rows, numbers: tuple, symbols: tuple):
    rows.record("hash", words(*numbers))
    rows.symbols(b"".join(record("symbol", 32, name=name, info=info) for name, info in symbols))


def numbers(rows: Rows):
    rows.file("strtab-little")
    rows.case("hash::hash_numbers")
    rows.want_all({"hash printf": 0x077905a6, "hash ZZZZZW9p": 0, "hash ": 0, "hash ab": 0x672})
    rows.case("hash::words_fail_by_the_first_condition")
    table(rows, (U32, 2, 0), ())
    rows.want_all({
        "get_bucket 0": ok(0), "get_bucket 1": SHORT, f"get_bucket {U32 - 1}": SHORT, f"get_bucket {U32}": err("BucketIndex"),
        "get_chain 0": SHORT, "get_chain 1": err("ChainSum"), "get_chain 2": LEAVES, f"get_chain {U32}": LEAVES,
    })
    # A word in big-endian order, and one of which the last byte is missing.
    rows.case("hash::words_have_the_order_of_the_table")
    rows.file("strtab-big")
    rows.record("hash", b"\0\0\0\1\0\0\0\2\0\0\0\1\1\2\3\4\5\6\7")
    rows.want_all({
        "get_bucket 0": ok(1), "get_bucket 1": err("BucketIndex"), "get_chain 0": ok(0x01020304), "get_chain 1": SHORT,
        "get_chain 2": LEAVES,
    })


def of_two(rows: Rows):
    rows.file("strtab-little")
    rows.case("hash::looks_names_up")
    for numbers_, count, passed, name, result, tested in (
        ((1, 2, 1, 0, 0), 2, "all", "ab", ok("ok 1"), 1), ((1, 2, 1, 0, 0), 2, "all", "zz", NONE, 1),
        ((1, 2, 1, 0, 0), 2, "none", "ab", NONE, 1),
        # the chain of symbol 1 leads to itself
        ((1, 2, 1, 0, 1), 2, "all", "ab", ok("ok 1"), 1),
        # the bucket leads past the chains, or to the end
        ((1, 2, 2, 0, 0), 2, "all", "ab", LEAVES, 0), ((1, 2, 0, 0, 0), 2, "all", "ab", NONE, 0),
        # there is one symbol, and there are no buckets
        ((1, 2, 1, 0, 0), 1, "all", "ab", INDEX, 0), ((0, 0, 0), 2, "all", "ab", NONE, 0),
    ):
        table(rows, numbers_, TWO[:count])
        rows.want(f"lookup {passed} {name}", result)
        # The test is asked of symbols with the name alone.
        called = tested if name == "ab" else 0
        rows.want(f"lookup_count {passed} {name}", f"{tested} {called} {called}")
    table(rows, (1, 2, 1, 0, 1), TWO)
    rows.want("lookup all zz", CYCLE)
    rows.case("hash::checks_tables_of_two_symbols")
    for numbers_, result in (
        ((1, 2, 1, 0, 0), GOOD), ((1, 2, 1, 0, 1), CYCLE), ((1, 2, 2, 0, 0), LEAVES), ((1, 2, 0, 0, 0), MISSING), ((0, 0, 0), MISSING),
        ((U32, 2, 0), SHORT), ((2, 2, 0, 1, 0), SHORT),
    ):
        table(rows, numbers_, TWO)
        check(rows, result)
    table(rows, (1, 2, 1, 0, 0), TWO[:1])
    check(rows, INDEX)
    # Which symbols a chain must hold: those that aren't local, of whatever binding, and have a name.
    rows.case("hash::a_chain_must_hold_named_symbols_that_are_not_local")
    for name, info, result in ((9, 0x37, MISSING), (9, 0x92, MISSING), (9, 0x02, GOOD), (13, 0x12, GOOD), (12, 0x12, GOOD)):
        table(rows, (1, 2, 0, 0, 0), ((0, 0), (name, info)))
        check(rows, result)


def chains(rows: Rows):
    rows.case("chains::a_ring_never_ends")
    table(rows, RING, SAME_NAME)
    rows.want_all({"lookup none ab": CYCLE, "lookup_bound none ab": "true", "lookup all ab": ok("ok 1"), "lookup_count all ab": "1 1 1"})
    rows.case("chains::a_chain_is_followed_to_its_stop")
    for numbers_, symbols, passed, result, count in (
        (ENDS, SAME_NAME, "none", NONE, 4), (ENDS, SAME_NAME[:4], "none", INDEX, 3), (OUT, SAME_NAME, "none", LEAVES, 4),
        (OUT, SAME_NAME, "all", ok("ok 1"), 1), (CUT, SAME_NAME, "none", SHORT, 3),
    ):
        table(rows, numbers_, symbols)
        rows.want(f"lookup {passed} ab", result)
        rows.want(f"lookup_count {passed} ab", f"{count} {count} {count}")
    rows.case("chains::a_name_has_its_bucket")
    table(rows, (1, U32, 1, 0, 1), TWO)
    rows.want_all({"lookup all zz": CYCLE, "lookup_bound all zz": "true"})
    for numbers_, symbols, name, result, counts in (
        ((U32, 2, 0), TWO, "ab", SHORT, "0 0 0"), ((2, 2, 0, 1, 0, 0), TWO, "ab", NONE, "0 0 0"),
        ((2, 3, 1, 1, 0, 2, 0), THREE, "ab", ok("ok 1"), "1 1 1"), ((2, 3, 1, 1, 0, 2, 0), THREE, ".strtab", ok("ok 2"), "2 1 1"),
    ):
        table(rows, numbers_, symbols)
        rows.want(f"lookup all {name}", result)
        rows.want(f"lookup_count all {name}", counts)


def checks_in_three(rows: Rows):
    rows.case("chains::checks_buckets_that_share_chains")
    for numbers_, symbols, result in (
        # one chain for all buckets: downwards, and in a mixed order
        ((3, 5, 4, 4, 4, 0, 0, 1, 2, 3), IN_THREE, GOOD), ((3, 5, 2, 2, 2, 0, 3, 4, 0, 1), IN_THREE, GOOD),
        # one tail: 4, 2, 1 and 3, 2, 1; and 1, 4, 3 and 2, 4, 3
        ((3, 5, 4, 3, 3, 0, 0, 1, 2, 2), IN_THREE, GOOD), ((3, 5, 1, 2, 2, 0, 4, 4, 0, 3), IN_THREE, GOOD),
        # symbol 4 is on no chain, or symbol 1
        ((3, 5, 3, 3, 3, 0, 0, 1, 2, 2), IN_THREE, MISSING), ((3, 5, 3, 3, 3, 0, 0, 1, 2, 2), LAST_LOCAL, GOOD),
        ((3, 5, 1, 1, 1, 0, 3, 0, 2, 0), IN_THREE, MISSING), ((3, 5, 1, 1, 1, 0, 3, 0, 2, 0), LAST_LOCAL, GOOD),
        ((3, 5, 4, 4, 4, 0, 0, 0, 2, 3), IN_THREE, MISSING),
        # symbol 2 is on the chains of the other buckets alone
        ((3, 5, 4, 3, 4, 0, 0, 1, 1, 2), IN_THREE, MISSING),
    ):
        table(rows, numbers_, symbols)
        check(rows, result)
    rows.case("chains::checks_chains_that_join_in_trees")
    for numbers_, symbols, result in (
        # 6 and 5 lead to 4, 4 and 3 to 2, 2 to 1: buckets lead to 6, 5 and 3
        ((3, 7, 6, 5, 3, 0, 0, 1, 2, 2, 4, 4), tree(2, 1, 0, 2, 1, 0), MISSING),
        ((3, 7, 6, 5, 3, 0, 0, 1, 2, 2, 4, 4), tree(2, 1, 2, 1, 1, 0), GOOD),
        ((3, 7, 6, 5, 3, 0, 0, 1, 2, 2, 4, 4), tree(0, 0, 2, 0, 1, 0), GOOD),
        ((3, 7, 6, 5, 3, 0, 0, 1, 2, 2, 4, 4), tree(0, 0, 2, 2, 1, 0), MISSING),
        ((3, 7, 6, 5, 3, 0, 0, 1, 2, 2, 4, 4), tree(0, 0, 1, 0, 1, 0), MISSING),
        # the same tree upwards: 1 and 2 lead to 3, 3 and 4 to 5, 5 to 6
        ((3, 7, 1, 2, 4, 0, 3, 3, 5, 5, 6, 0), tree(0, 1, 1, 2, 2, 1), GOOD),
        ((3, 7, 1, 2, 4, 0, 3, 3, 5, 5, 6, 0), tree(0, 1, 2, 2, 2, 1), MISSING),
        # 3 and 4 lead to each other, and 5 to them; all buckets lead to 6, 2 and 1
        ((3, 7, 6, 6, 6, 0, 0, 1, 4, 3, 3, 2), tree(0, 1, None, None, None, 2), GOOD),
        ((3, 7, 6, 6, 6, 0, 0, 1, 4, 3, 3, 2), tree(0, 1, None, None, 2, 2), MISSING),
        ((3, 7, 6, 6, 6, 0, 0, 1, 4, 3, 3, 2), tree(0, 1, 0, None, None, 2), MISSING),
        # the last bucket leads to 3 and 4 for ever, the others to 6, 5, 2 and 1
        ((3, 7, 6, 6, 4, 0, 0, 1, 4, 3, 2, 5), tree(0, 1, None, None, 1, 0), CYCLE),
    ):
        table(rows, numbers_, symbols)
        check(rows, result)
    rows.case("chains::checks_shared_chains_beside_others")
    apart, ends = (3, 5, 3, 3, 3, 0, 0, 1, 2, 4), (3, 5, 3, 3, 4, 0, 0, 1, 2, 0)
    for numbers_, symbols, result in (
        # 4 leads to itself, where the last bucket leads to it and where none does
        ((3, 5, 3, 3, 4, 0, 0, 1, 2, 4), IN_THREE, CYCLE), ((3, 5, 1, 1, 4, 0, 2, 3, 0, 4), IN_THREE, CYCLE),
        (apart, IN_THREE, MISSING), (apart, LAST_LOCAL, GOOD),
        # the last bucket, or the chain from there, leads out of the chains
        ((3, 5, 3, 3, 5, 0, 0, 1, 2, 3), IN_THREE, LEAVES), ((3, 5, 3, 3, 4, 0, 0, 1, 2, 7), IN_THREE, LEAVES),
        # there is no symbol 4, or its word is cut off
        (ends, IN_THREE[:4], INDEX), (ends[:9], IN_THREE, SHORT), (apart[:9], LAST_LOCAL, GOOD),
    ):
        table(rows, numbers_, symbols)
        check(rows, result)
