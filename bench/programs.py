#!/usr/bin/env python3
"""programs.py ROOM ELFINFO: whole runs of programs that print what a file is, in turn: the least time of
each, and its memory. The crate's program is run where `cargo install` has put it into ROOM/crate/bin/main."""
import os
import pathlib
import subprocess
import sys
import time

RUNS = 30


def run(words: list) -> tuple:
    """Seconds and the status of one run."""
    start = time.perf_counter()
    pid = os.posix_spawnp(words[0], words, os.environ, file_actions=[
        (os.POSIX_SPAWN_OPEN, 1, "/dev/null", os.O_WRONLY, 0),
        (os.POSIX_SPAWN_OPEN, 2, "/dev/null", os.O_WRONLY, 0),
    ])
    _, status, _ = os.wait4(pid, 0)
    return time.perf_counter() - start, os.waitstatus_to_exitcode(status)


def memory(words: list) -> str:
    """The most memory of one run. GNU's `time` is asked, since a child of Python's counts Python's own."""
    try:
        told = subprocess.run(["time", "-f", "%M", *words], stdout=subprocess.DEVNULL, stderr=subprocess.PIPE, text=True)
        return f"{int(told.stderr.splitlines()[-1]) / 1024:.1f} MB"
    except (OSError, ValueError, IndexError):
        return "?"


def measure(programs: dict, path: str) -> list:
    """What the table shows of each program over a file."""
    least, ends = dict.fromkeys(programs, 1e9), {}
    for _ in range(RUNS):
        for program, words in programs.items():
            seconds, ends[program] = run([*words, path])
            least[program] = min(least[program], seconds)
    return [f"{1000 * least[program]:.2f} ms, {memory([*words, path])}"
            + (f" (ends with {ends[program]})" if ends[program] else "") for program, words in programs.items()]


def main() -> None:
    room, elfinfo = pathlib.Path(sys.argv[1]), sys.argv[2]
    programs = {"`elfinfo`": [elfinfo], "`readelf -hSlW`": ["readelf", "-hSlW"]}
    crate = room / "crate" / "bin" / "main"
    if crate.exists():
        programs["the crate's program"] = [str(crate)]
    files = {
        "a small program": "/bin/true",
        "the C library": next(iter(sorted(map(str, pathlib.Path("/lib").glob("*-linux-gnu/libc.so.6")))), "/bin/ls"),
        "60,007 sections": str(room / "files" / "sections.o"),
        "10,000 exports": str(room / "files" / "exports.so"),
        "100,000 exports": str(room / "files" / "exports_100000.so"),
    }
    print()
    print(f"Whole programs: the least time of {RUNS} runs, and the memory.")
    print()
    print("| File | size | " + " | ".join(programs) + " |")
    print("|---|---:|" + "---:|" * len(programs))
    for name, path in files.items():
        print(f"| {name} | {os.path.getsize(path) / 1e6:.2f} MB | " + " | ".join(measure(programs, path)) + " |")


main()
