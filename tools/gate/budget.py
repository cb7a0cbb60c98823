#!/usr/bin/env python3
"""What the gate costs, in processor minutes by part.

    tools/gate/budget.py run COMMAND..   runs a part of `.ci/run`, and says behind its output what it took
    tools/gate/budget.py write OUTPUT..  writes the table of docs/GATE.md from the stored output of `.ci/run`, or of its parts, and
                                         into README.md the kit that it names
    tools/gate/budget.py check           fails where that table's total passes the budget, or its numbers don't add up, and where
                                         README.md names another kit than that of the table; warns where this is another

While `rt ci` runs, the processes below it are looked at twice a second (`part_of`); what lies between two looks counts as `rest`.
"""
import collections
import contextlib
import datetime
import os
import pathlib
import re
import subprocess
import sys
import threading
import time

sys.path.insert(0, str(pathlib.Path(__file__).resolve().parents[1]))
from pages.sources import ROOT, git, table_of

PAGE, README = ROOT / "docs" / "GATE.md", ROOT / "README.md"
NAMED_KIT = re.compile(r"(?<=whose `rt version` is\n\n        ).*")
PLACE = re.compile(r"(?<=<!-- gate -->\n).*(?=\n<!-- /gate -->)", re.S)

# In processor minutes: 130 for what there was when this was set, and 60 for later crates.
BUDGET = 190

TICKS = os.sysconf("SC_CLK_TCK")
LOOKS = 0.5  # seconds between two looks
SMALL = 120  # seconds: parts that take less have one row together

TOOK, PART, BATCHES, PAGES, DONE, KIT, MACHINE, TOTAL = (re.compile(it, re.M) for it in table_of(__file__).values())
KINDS = ("proof", "tests", "must-fail", "batches")
HEAD = "|Part|proof|tests|must-fail|batches|together|\n|---|---:|---:|---:|---:|---:|"


def part_of(process: int):
    """The part that a prover works for, as `tests of port_tests`; None of any other process."""
    words = pathlib.Path(f"/proc/{process}/cmdline").read_bytes().decode(errors="replace").split("\0")
    if "--crate-name" not in words:
        return None
    folder = os.readlink(f"/proc/{process}/cwd")
    kind = "must-fail" if "/rt-edit-" in folder else "tests" if "--test" in words else "proof"
    return f"{kind} of {words[words.index('--crate-name') + 1]}"


class Looks:
    """What the processes below one have taken, by part: that of the nearest prover at or above a process."""

    def __init__(self, top: int):
        self.top, self.taken = top, {}

    def look(self):
        stats = {}
        for name in filter(str.isdigit, os.listdir("/proc")):
            with contextlib.suppress(OSError, IndexError):
                fields = pathlib.Path(f"/proc/{name}/stat").read_text(errors="replace").rpartition(")")[2].split()
                stats[int(name)] = (int(fields[1]), (int(fields[11]) + int(fields[12])) / TICKS, fields[19])
        for process, (_, seconds, began) in stats.items():
            if part := self.part_above(process, stats):
                # A number is used again, by a process that began at another time.
                self.taken[process, began] = part, seconds

    def part_above(self, process: int, stats: dict):
        found = None
        while process in stats and process != self.top:
            try:
                found = found or part_of(process)
            except OSError:
                return None
            process = stats[process][0]
        return found if process == self.top else None


def run(words: list) -> int:
    """Runs a command, and says what it took, and of `rt ci` what each of its parts did."""
    began, is_done = time.monotonic(), threading.Event()

    def watch(looks: Looks):
        while words[0] == "rt" and not is_done.wait(LOOKS):
            looks.look()

    with subprocess.Popen(words) as started:
        looks = Looks(started.pid)
        watching = threading.Thread(target=watch, args=[looks])
        watching.start()
        _, status, used = os.wait4(started.pid, 0)
        started.returncode = os.waitstatus_to_exitcode(status)
        is_done.set()
        watching.join()
    whole, sums = used.ru_utime + used.ru_stime, collections.Counter()
    for part, seconds in looks.taken.values():
        sums[part] += seconds
    for part, seconds in sorted(sums.items()):
        print(f"--   {part}: {seconds:.0f} processor s")
    if sums:
        print(f"--   rest of rt: {max(whole - sum(sums.values()), 0):.0f} processor s")
    print(f"-- {' '.join(words)}: {time.monotonic() - began:.0f} s, {whole:.0f} processor s", flush=True)
    return started.returncode if started.returncode >= 0 else 1


def kit_of(output: str) -> str:
    """The kit that an output names, otherwise that of this machine."""
    return found[1] if (found := KIT.search(output)) else subprocess.run(["rt", "version"], capture_output=True, text=True, check=False).stdout.strip()


def minutes(seconds: float) -> str:
    return f"{seconds / 60:.1f}"


def parts_of(output: str) -> tuple:
    """The processor seconds of each row by KINDS, and besides; and those of the kinds in all rows of crates."""
    cells = collections.defaultdict(collections.Counter)
    # The self-test of the script tries a crate of its own.
    batches = BATCHES.findall(output.rpartition("\n-- tools/gate/wrong_bodies.py --self-test:")[2])
    for kind, name, seconds in [*PART.findall(output), *(("batches", *it) for it in batches)]:
        cells[name][kind] += int(seconds)
    sums = [sum(cells[name][kind] for name in cells) for kind in KINDS]
    rows = {name: [*(cells[name][kind] for kind in KINDS), 0] for name in cells}
    # What is in no row of a crate: the scripts, and of the two watched parts what is left.
    for what, _, seconds in TOOK.findall(output):
        is_batches = what.startswith("tools/gate/wrong_bodies.py --gate")
        own = sum(sums[:3]) if what == "rt ci" else sums[3] if is_batches else 0
        rows[f"`{what}`" + (", the rest" if own else "")] = [0, 0, 0, 0, max(int(seconds) - own, 0)]
    return rows, sums


def table(output: str) -> str:
    """The rows of the table, the largest first."""
    parts, sums = parts_of(output)
    ranked = sorted(parts.items(), key=lambda it: -sum(it[1]))
    rows, small = ([it for it in ranked if (sum(it[1]) < SMALL) is is_small] for is_small in (False, True))
    if small:
        rows.append((f"{len(small)} others, each below {SMALL // 60}", [sum(it) for it in zip(*(of for _, of in small))]))
    lines = [f"|{name}|" + "|".join(minutes(it) if it else "" for it in of[:4]) + f"|{minutes(sum(of))}|" for name, of in rows]
    whole = sum(int(seconds) for _, _, seconds in TOOK.findall(output))
    return "\n".join([HEAD, *lines, "|**total**|" + "|".join(map(minutes, sums)) + f"|{minutes(whole)}|"])


def measured(output: str) -> str:
    """The line above the table."""
    wall = sum(int(seconds) for _, seconds, _ in TOOK.findall(output))
    machines, done, pages = MACHINE.findall(output), DONE.search(output), PAGES.search(output)
    where = ", then ".join(f"{processors} processors" for processors, _ in machines) or "a machine"
    how = "in one run" if len(machines) < 2 else "in parts, one after the other"
    share = f" Of the proofs {done[1]} were done in this run; the others had been done on the machine before." if done else ""
    commit, kit = git("rev-parse", "--short", "HEAD").strip(), kit_of(output).split(" ")[0]
    huge = f", with transparent huge pages `{pages[1]}`" if pages else ""
    took = f"{minutes(wall)} minutes, {how}{huge}; {kit}, {datetime.date.today()}."
    return f"Measured at {commit} by `.ci/run` on x86-64 with {where}: {took} The table lists processor minutes by part.{share}"


def write(paths) -> int:
    output = "\n".join(pathlib.Path(it).read_text(encoding="utf-8", errors="replace") for it in paths)
    if not TOOK.search(output):
        print(f"{', '.join(paths)}: no part of the gate is there")
        return 1
    README.write_text(NAMED_KIT.sub(lambda _: kit_of(output), README.read_text(encoding="utf-8")), encoding="utf-8")
    page = PAGE.read_text(encoding="utf-8")
    PAGE.write_text(PLACE.sub(lambda _: f"{measured(output)}\n\n{table(output)}", page), encoding="utf-8")
    return check()


def check() -> int:
    page, named, kit = PAGE.read_text(encoding="utf-8"), NAMED_KIT.search(README.read_text(encoding="utf-8"))[0], kit_of("")
    if f"; {named.split(' ')[0]}, " not in page:
        print(f"README.md names the kit {named}, and docs/GATE.md was measured with another")
        return 1
    print(f"WARNING: README.md names the kit {named}, and this is {kit}: `budget.py write` names it\n" if named != kit else "", end="")
    total, rows = TOTAL.search(page), re.findall(r"^\|(?!\*\*total|Part).*\|([\d.]+)\|$", page, re.M)
    if not total:
        print("docs/GATE.md: the table has no total")
        return 1
    whole, parts = float(total[1]), sum(map(float, rows))
    # Each row is rounded.
    if abs(whole - parts) > 0.1 * (len(rows) + 1):
        print(f"docs/GATE.md: the parts are {parts:.1f} processor minutes, and the total is {whole:.1f}")
        return 1
    print(f"the gate took {whole:.1f} of {BUDGET} processor minutes when it was last measured" + (": FAILED" if whole > BUDGET else ""))
    return 1 if whole > BUDGET else 0


def main(words: list) -> int:
    if words[:1] in (["run"], ["write"]) and len(words) > 1:
        return {"run": run, "write": write}[words[0]](words[1:])
    if words == ["check"]:
        return check()
    print(__doc__, file=sys.stderr)
    return 2


if __name__ == "__main__":
    sys.exit(main(sys.argv[1:]))
