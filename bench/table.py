#!/usr/bin/env python3
"""table.py passes REPOSITORY ROOM: the table of what the runs in ROOM measured, the least of each.
table.py growth RUN: the same of one run over files of growing size, a row for each kind of file, without the peers but one.
table.py layouts TIMES: the times here and of the crate in each layout of the code, their medians and geometric means.
table.py exports ROOM: what `speed` measured by the exports for C, beside the runs in ROOM.
table.py paste REPOSITORY TABLE: puts the table into docs/BENCH.md, and the rows of SHORT with fewer columns into
README.md, in each between the lines `<!-- bench -->` and `<!-- /bench -->`.
"""
import pathlib
import platform
import re
import statistics
import subprocess
import sys

PEERS = ["crate", "object", "object, UTF-8", "goblin", "libelf", "C", "Rust"]
HERE = ["here", "here, by a table"]


def said(*command: str) -> str:
    """The first line that a program prints."""
    try:
        return subprocess.run(command, capture_output=True, text=True, check=True).stdout.splitlines()[0]
    except (OSError, subprocess.CalledProcessError, IndexError):
        return "unknown"


def number(value: float) -> str:
    return f"{value:.3g}" if value < 100 else f"{value:.0f}"


def machine() -> str:
    info = pathlib.Path("/proc/cpuinfo").read_text(encoding="utf-8")
    model = re.search(r"model name\s*: (.*)", info)
    return model.group(1) if model else platform.machine()


def read(room: pathlib.Path) -> tuple:
    """By row (group, pass) and contender the leasts of the runs, and how many items each row has."""
    cells, items = {}, {}
    for run in sorted(room.glob("run_*.tsv")):
        for line in run.read_text(encoding="utf-8").splitlines():
            group, name, who, each, count, _rounds = line.split("\t")
            cells.setdefault((group, name), {}).setdefault(who, []).append(float(each))
            items[group, name] = int(count)
    return cells, items


def row_of(*cells: str) -> str:
    """A row of a table; without blanks in its cells, between which a page counts words."""
    return "|" + "|".join(cells) + "|"


def ratio(value: float, other) -> str:
    return f"{value / other:.2f}" if other else "-"


def passes(repository: str, room: pathlib.Path) -> None:
    cells, items = read(room)
    columns = [who for who in PEERS + HERE if any(who in row for row in cells.values())]
    commit = said("git", "-C", repository, "rev-parse", "--short", "HEAD")
    runs = len(list(room.glob("run_*.tsv")))
    built = f"{said('rustc', '--version')}, {said('gcc', '--version')}, `{said('rt', 'version')}`"
    print(f"Measured at {commit} by `bench/run.sh` on {machine()}. Built by {built}.")
    print(f"Nanoseconds an item, the least of {runs} runs. The ratios are those of the faster way here.")
    print()
    print(row_of("Pass", "file", "items", *columns, "to the crate", "to `object`", "spread"))
    print("|---|---|" + "---:|" * (len(columns) + 4))
    for (group, name), row in cells.items():
        least = {who: min(times) for who, times in row.items()}
        best = min(least[who] for who in HERE if who in least)
        spread = max(max(times) / min(times) - 1 for times in row.values())
        shown = [number(least[who]) if who in least else "-" for who in columns]
        ratios = [ratio(best, least.get("crate")), ratio(best, least.get("object")), f"{100 * spread:.0f}%"]
        print(row_of(name, group, str(items[group, name]), *shown, *ratios))


def growth(run: pathlib.Path) -> None:
    rows = {}
    for line in run.read_text(encoding="utf-8").splitlines():
        file, name, who, each, _count, _rounds = line.split("\t")
        family, _, size = file.partition(".")[0].rpartition("_")
        family, size = (family, size) if size.isdigit() else (file.partition(".")[0], "all")
        rows.setdefault((name, family), {}).setdefault(size, {})[who] = float(each)
    print("Nanoseconds an item, the least of one run. The sizes are those in the names of the files.")
    print()
    print(row_of("Pass", "files", "sizes", "here", "`object`"))
    print("|---|---|---:|---:|---:|")
    for (name, family), sizes in sorted(rows.items()):
        here = ", ".join(number(min(row[who] for who in HERE if who in row)) for row in sizes.values())
        other = ", ".join(number(row["object"]) for row in sizes.values() if "object" in row) or "-"
        print(row_of(name, family, ", ".join(sizes), here, other))


def layouts(times: pathlib.Path) -> None:
    least: dict[str, dict[tuple[str, str], float]] = {}
    for line in times.read_text(encoding="utf-8").splitlines():
        layout, _group, name, who, each, _count, _rounds = line.split("\t")
        row = least.setdefault(name, {})
        row[layout, who] = min(float(each), row.get((layout, who), float(each)))
    print("Nanoseconds a call, the least of the runs of each layout.")
    for name, row in least.items():
        named = dict.fromkeys(layout for layout, _who in row)
        columns = [[row[layout, who] for layout in named] for who in ("crate", "here")]
        columns.append([here / crate for crate, here in zip(*columns)])
        print(f"\n{row_of(name, 'crate', 'here', 'to the crate')}\n|---|---:|---:|---:|")
        for layout, *cells in zip(named, *columns):
            print(row_of(f"layout {layout}", *(f"{it:.2f}" for it in cells)))
        for text, value in [("least", min), ("median", statistics.median), ("geometric mean", statistics.geometric_mean), ("most", max)]:
            print(row_of(text, *(f"{value(column):.2f}" for column in columns)))


# What `bindings/c/speed.c` calls a pass, and which pass of the bench is the library's, and by which way there.
EXPORTS = {
    "header": ("parse the header", "here"),
    "section headers one by one": ("all ten fields of section headers", "here"),
    "section headers, 64 at a time": ("all ten fields of section headers", "here"),
    "names of sections, 64 at a time": ("names of sections", "here, by a table"),
    "the last section by its name": ("find the last section by its name (a call)", "here"),
    "data of sections one by one": ("raw data of sections", "here"),
    "program headers, 64 at a time": ("program headers", "here, by a table"),
    "symbols one by one": ("all numbers of symbols", "here"),
    "symbols, 64 at a time": ("all numbers of symbols", "here"),
    "names of symbols, 64 at a time": ("names of symbols, string table once", "here"),
    "look-ups by GNU's hash table": ("look-ups by GNU's hash table", "here"),
    "the same, 64 names by one call": ("look-ups by GNU's hash table", "here"),
    "the check of that table, for a symbol": ("check of GNU's hash table (a symbol)", "here"),
}


def exports(room: pathlib.Path) -> None:
    cells, _items = read(room)
    print()
    print("By the exports for C, `bindings/c/speed.c`: nanoseconds an item, the least of as many runs. "
          "The library's are those of the table above.")
    print()
    print(row_of("Pass", "file", "by the exports", "the library"))
    print("|---|---|---:|---:|")
    least: dict[tuple[str, str], float] = {}
    for line in (room / "exports.tsv").read_text(encoding="utf-8").splitlines():
        group, name, each = re.match(r"(\w+)\t(.*?)  +([\d.]+) ns", line).groups()
        least[group, name] = min(float(each), least.get((group, name), float(each)))
    for (group, name), each in least.items():
        wanted, way = EXPORTS[name]
        found = cells.get((group, wanted), {}).get(way)
        if found:
            print(row_of(name, group, number(each), number(min(found))))


# The rows of the README, by pass and file, and its columns.
SHORT = [
    ("parse the header", "large"),
    ("names of sections", "large"),
    ("find the last section by its name (a call)", "large"),
    ("data of sections by type", "exports"),
    ("values of symbols", "large"),
    ("names of symbols, string table once", "large"),
    ("relocations", "large"),
    ("dynamic entries with their tags", "large"),
    ("look-ups by the gABI's hash table", "exports"),
    ("look-ups by GNU's hash table", "exports"),
]
SHOWN = ["crate", "object", "C"]


def short(table: str) -> str:
    """The README's table, from the long one."""
    lines = table.strip().splitlines()
    commit = re.match(r"Measured at (\w+) by `[^`]*` on (.*?)\. Built by", lines[0])
    rows = [line.strip("|").split("|") for line in lines if re.match(r"\|[^-]", line)]
    head, cells = rows[0], {}
    for row in rows:
        cells.setdefault((row[0], row[1]), dict(zip(head, row)))  # a later table has a row of the same name
    columns = [it for it in SHOWN if it in head]
    said = [f"Nanoseconds an item. Measured at {commit[1]} by `bench/run.sh` on {commit[2]}. "
            "`object` is measured in its raw calls, which don't test names for UTF-8."]
    said += ["", row_of("Pass", *columns, "here", "to the crate"), "|---|" + "---:|" * (len(columns) + 2)]
    for wanted in SHORT:
        row = cells[wanted]
        ways = [row[it] for it in HERE if row.get(it, "-") != "-"]
        said.append(row_of(wanted[0], *(row[it] for it in columns), min(ways, key=float), row["to the crate"]))
    return "\n".join(said)


def put(page: pathlib.Path, table: str) -> None:
    text = page.read_text(encoding="utf-8")
    parts = re.split(r"(?m)^(<!-- /?bench -->)$", text)
    if parts[1::2] != ["<!-- bench -->", "<!-- /bench -->"]:
        sys.exit(f"{page} has no lines <!-- bench --> and <!-- /bench -->, one of each")
    parts[2] = f"\n{table.strip()}\n"
    page.write_text("".join(parts), encoding="utf-8")


def paste(repository: pathlib.Path, table: pathlib.Path) -> None:
    text = table.read_text(encoding="utf-8")
    put(repository / "docs" / "BENCH.md", text)
    put(repository / "README.md", short(text))


if sys.argv[1:2] == ["passes"]:
    passes(sys.argv[2], pathlib.Path(sys.argv[3]))
elif sys.argv[1:2] == ["growth"]:
    growth(pathlib.Path(sys.argv[2]))
elif sys.argv[1:2] == ["layouts"]:
    layouts(pathlib.Path(sys.argv[2]))
elif sys.argv[1:2] == ["exports"]:
    exports(pathlib.Path(sys.argv[2]))
elif sys.argv[1:2] == ["paste"]:
    paste(pathlib.Path(sys.argv[2]), pathlib.Path(sys.argv[3]))
else:
    sys.exit(__doc__)
