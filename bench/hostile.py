#!/usr/bin/env python3
"""hostile.py SHAPE COUNT FILE: a file of class 64 with so many symbols and a hash table of that shape.

gABI's tables: sysv_ordinary (a bucket a symbol), sysv_one_chain (one bucket), sysv_tails (each bucket
leads to one chain of all symbols, downwards), sysv_tails_mixed (the same chain in a mixed order),
sysv_tails_loop (that without symbol 1, which is local and leads to itself).
GNU's: gnu_ordinary (a bucket for four symbols), gnu_one_bucket (all symbols in one run), gnu_one_run
(each bucket leads to the start of one run of all symbols).
"""
import struct
import sys

NAME = "exported_symbol_number_%05d"


def sysv_number(name: bytes) -> int:
    number = 0
    for byte in name:
        number = (number << 4) + byte
        number = (number ^ (number >> 24 & 0xF0)) & 0xFFFFFFF
    return number


def gnu_number(name: bytes) -> int:
    number = 5381
    for byte in name:
        number = (33 * number + byte) % 2**32
    return number


def words(numbers: list) -> bytes:
    return struct.pack(f"<{len(numbers)}I", *numbers)


def sysv_table(shape: str, names: list) -> bytes:
    count = len(names)
    if shape.startswith("sysv_tails"):
        order = list(range(1, count + 1))
        if not shape.endswith("tails"):
            state = 1
            for index in range(count - 1, 0, -1):
                state = (state * 6364136223846793005 + 1442695040888963407) % 2**64
                other = (state >> 33) % (index + 1)
                order[index], order[other] = order[other], order[index]
        else:
            order.reverse()
        chain = [0] * (count + 1)
        if shape.endswith("loop"):
            order.remove(1)
            chain[1] = 1
        for this, following in zip(order, order[1:]):
            chain[this] = following
        return words([count, count + 1] + [order[0]] * count + chain)
    buckets = 1 if shape == "sysv_one_chain" else count
    first, chain = [0] * buckets, [0] * (count + 1)
    for index, name in enumerate(names, 1):
        bucket = sysv_number(name) % buckets
        first[bucket], chain[index] = index, first[bucket]
    return words([buckets, count + 1] + first + chain)


def gnu_table(shape: str, names: list) -> bytes:
    """The names are in the order of their buckets. Every Bloom word lets all through."""
    count = len(names)
    buckets = 1 if shape == "gnu_one_bucket" else max(count // 4, 1)
    of = [gnu_number(name) % buckets for name in names]
    first = [0] * buckets
    ends = [True] * count
    if shape == "gnu_one_run":
        first = [1] * buckets
        ends = [index == count - 1 for index in range(count)]
    else:
        for index in range(count - 1, -1, -1):
            first[of[index]] = index + 1
            ends[index] = index == count - 1 or of[index + 1] != of[index]
    chain = [gnu_number(name) & ~1 | int(end) for name, end in zip(names, ends)]
    return words([buckets, 1, 1, 6]) + b"\xff" * 8 + words(first + chain)


def main() -> None:
    shape, count, path = sys.argv[1], int(sys.argv[2]), sys.argv[3]
    names = [(NAME % index).encode() for index in range(count)]
    is_gnu = shape.startswith("gnu")
    if shape == "gnu_ordinary":
        names.sort(key=lambda name: gnu_number(name) % max(count // 4, 1))
    strings, symbols = bytearray(b"\0"), bytearray(24)
    for index, name in enumerate(names):
        info = 0x02 if shape == "sysv_tails_loop" and index == 0 else 0x12
        symbols += struct.pack("<IBBHQQ", len(strings), info, 0, 1, 16 * index, 1)
        strings += name + b"\0"
    table = gnu_table(shape, names) if is_gnu else sysv_table(shape, names)
    kinds = [
        (".dynstr", 3, bytes(strings), 0, 0),
        (".dynsym", 11, bytes(symbols), 1, 24),
        (".gnu.hash", 0x6FFFFFF6, table, 2, 0) if is_gnu else (".hash", 5, table, 2, 4),
    ]
    texts = b"\0" + b"".join(name.encode() + b"\0" for name, *_ in kinds) + b".shstrtab\0"
    kinds.append((".shstrtab", 3, texts, 0, 0))
    headers, parts, place = [bytes(64)], [], 64 + 64 * (len(kinds) + 1)
    for name, kind, data, link, entry in kinds:
        data += bytes(-len(data) % 8)
        at = texts.index(name.encode() + b"\0")
        size = len(data)
        headers.append(struct.pack("<IIQQQQIIQQ", at, kind, 2, 0, place, size, link, 1, 8, entry))
        parts.append(data)
        place += size
    ident = b"\x7fELF\x02\x01\x01" + bytes(9)
    rest = struct.pack("<HHIQQQIHHHHHH", 3, 62, 1, 0, 0, 64, 0, 64, 56, 0, 64, len(headers), len(kinds))
    with open(path, "wb") as file:
        file.write(ident + rest + b"".join(headers) + b"".join(parts))


if __name__ == "__main__":
    main()
