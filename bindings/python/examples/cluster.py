#!/usr/bin/env python3
"""cluster.py [SCHEDULER] FOLDER..: the table of a survey, made by the machines of a Dask cluster, as comma-separated values.

SCHEDULER is an address, as tcp://host:8786; without one, processes of this machine do the work. Each machine must see the
files at the same paths, and have the package. It needs Debian's python3-dask and python3-distributed."""
import sys

import dask.bag
from dask.distributed import Client

import xmas_elf


def rows_of(paths, partitions):
    """The rows, in the order of the paths."""
    return dask.bag.from_sequence(paths, npartitions=partitions).map(xmas_elf.survey_row).compute()


def main(words):
    scheduler = words.pop(0) if words and "://" in words[0] else None
    with Client(scheduler) if scheduler else Client(n_workers=2, threads_per_worker=1, dashboard_address=None) as client:
        paths = list(xmas_elf.elf_files(words))
        rows = rows_of(paths, 8 * max(1, len(client.scheduler_info()["workers"])))
    xmas_elf.write_csv(rows, sys.stdout)
    print(f"{len(rows)} files, {sum(row['error'] is not None for row in rows)} couldn't be read", file=sys.stderr)


if __name__ == "__main__":
    main(sys.argv[1:])
