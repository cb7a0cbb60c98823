"""Prints a table of the ELF files at paths and in folders."""
import argparse
import json
import os
import sys

from . import __version__, hardening, survey, write_csv


def main() -> int:
    parser = argparse.ArgumentParser(prog="python3 -m xmas_elf", description=__doc__)
    parser.add_argument("paths", nargs="+", metavar="PATH", help="a file, or a folder, whose ELF files are read, but for links")
    parser.add_argument("--hardening", action="store_true", help="how the files are hardened, in the words of checksec")
    parser.add_argument("--libc", metavar="FILE", help="the C library whose functions --hardening counts; else this system's")
    parser.add_argument("--json", action="store_true", help="a list of JSON; else comma-separated values")
    parser.add_argument("--processes", type=int, metavar="N", help="how many processes read; else one for each processor")
    parser.add_argument("--version", action="version", version=f"xmas_elf {__version__}")
    given = parser.parse_args()
    try:
        rows = hardening(given.paths, given.processes, libc=given.libc) if given.hardening else survey(given.paths, given.processes)
        if given.json:
            json.dump(rows, sys.stdout, indent=1)
            print()
        else:
            write_csv(rows, sys.stdout)
        sys.stdout.flush()
    except BrokenPipeError:
        # The reader of the table wants no more of it.
        os.dup2(os.open(os.devnull, os.O_WRONLY), sys.stdout.fileno())
    except OSError as error:
        parser.exit(1, f"{parser.prog}: {error}\n")
    return int(any(row["error"] is not None for row in rows))


if __name__ == "__main__":
    sys.exit(main())
