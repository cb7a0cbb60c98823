#!/usr/bin/env python3
"""symbols.py SHAPE COUNT FILE: a file of class 64 with so many functions in .symtab, of that shape.

one_section: one behind the other in .text, 16 bytes each. nested: each in the one before it. each_section: an object file with
a section for each, of one byte. no_size: the same, with symbols of size 0.
"""
import struct
import sys

NAME = "function_number_%07d"


def header(name: int, kind: int, flags: int, offset: int, size: int, link: int = 0, info: int = 0, entry: int = 0) -> bytes:
    return struct.pack("<IIQQQQIIQQ", name, kind, flags, 0, offset, size, link, info, 1, entry)


def functions(shape: str, count: int) -> list:
    """The section, the value and the size of each."""
    if shape == "one_section":
        return [(1, 16 * index, 16) for index in range(count)]
    if shape == "nested":
        return [(1, index, 2 * (count - index)) for index in range(count)]
    return [(index + 1, 0, int(shape == "each_section")) for index in range(count)]


def main() -> None:
    shape, count, path = sys.argv[1], int(sys.argv[2]), sys.argv[3]
    found = functions(shape, count)
    sections = max(section for section, _, _ in found)
    bytes_each = 1 if sections > 1 else max(value + size for _, value, size in found)
    strings = b"\0" + b"".join((NAME % index).encode() + b"\0" for index in range(count))
    long, each = len(NAME % 0) + 1, sections >= 0xFF00
    symbols = bytearray(24)
    for index, (section, value, size) in enumerate(found):
        symbols += struct.pack("<IBBHQQ", 1 + long * index, 0x12, 0, 0xFFFF if each and section >= 0xFF00 else section, value, size)
    indices = struct.pack(f"<{count + 1}I", 0, *(section for section, _, _ in found)) if each else b""
    names = b"\0.text\0.symtab\0.strtab\0.symtab_shndx\0"
    parts = [bytes(bytes_each) * sections, bytes(symbols), strings, indices, names]
    places = [64]
    for part in parts:
        places.append(places[-1] + len(part))
    headers = [bytes(64)] + [header(1, 1, 6, 64 + bytes_each * index, bytes_each) for index in range(sections)]
    table = len(headers)
    headers.append(header(7, 2, 0, places[1], len(symbols), table + 1, 1, 24))
    headers.append(header(15, 3, 0, places[2], len(strings)))
    headers.append(header(23, 18, 0, places[3], len(indices), table, 0, 4) if each else header(1, 1, 0, places[3], 0))
    headers.append(header(1, 3, 0, places[4], len(names)))
    many = len(headers) >= 0xFF00
    if many:
        headers[0] = header(0, 0, 0, 0, len(headers), len(headers) - 1)
    ident = b"\x7fELF\x02\x01\x01" + bytes(9)
    numbers = (0, 0xFFFF) if many else (len(headers), len(headers) - 1)
    rest = struct.pack("<HHIQQQIHHHHHH", 1 if sections > 1 else 3, 62, 1, 0, 0, places[5], 0, 64, 56, 0, 64, *numbers)
    with open(path, "wb") as file:
        file.write(ident + rest + b"".join(parts) + b"".join(headers))


if __name__ == "__main__":
    main()
