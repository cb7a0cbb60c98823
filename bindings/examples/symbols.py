"""symbols.py FILE: the value and the name of each symbol of a file."""
import sys

from xmas_elf import ElfError, ElfFile


def main(path):
    with open(path, "rb") as stream:
        file = ElfFile(stream)
    for symbol in file.symbols():
        if symbol.name is None:
            raise ElfError(symbol.name_status)
        if symbol.name:
            print(f"{symbol.value:016x} {symbol.name}")


if __name__ == "__main__":
    try:
        main(sys.argv[1])
    except (ElfError, OSError) as error:
        sys.exit(f"{sys.argv[1]}: {error}")
