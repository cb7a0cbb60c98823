#!/usr/bin/env python3
"""Wants the prover to reject each wrong body of crates/NAME/wrong-bodies/TOPIC/*.edit.

How they are tried, many in one check of a copy of their crate, is in docs/WRONG_BODIES.md. Each crate must be proved as it
is, and is checked first, unless `rt ci` has just proved it. At the end is what the checks of each crate took. The last
line is `N rejected, M failed`.
"""
import collections
import concurrent.futures
import contextlib
import io
import pathlib
import re
import shutil
import subprocess
import sys
import tempfile
import threading
import types

from edits import BATCH, Edit, EditedCrate, Room, batches_of, check
from pages import sources
from pages.definitions import Reader, closure
from pages.sources import ROOT, git

# The names of the edits that must stay, and the commit at which each edit was last rejected.
MUST_STAY = ROOT / "docs" / "wrong_bodies.txt"
REJECTED_AT = ROOT / "docs" / "wrong_bodies_commit.txt"
# A small crate with edits that must be rejected, and others that must fail.
SELF_TEST = ROOT / "tools" / "gate" / "self_test"

# The name of each clause of a function that says what it ensures.
CLAUSES = re.compile(r"^ *ensures(?: (\w+))? \{", re.M)

# A part of what `git diff` says: the first line and the number of lines as they are now.
HUNK = re.compile(r"^@@ -\d+(?:,\d+)? \+(\d+)(?:,(\d+))? @@", re.M)
# What a body calls, by its last name.
CALLED = re.compile(r"\b(\w+)(?:::<[^()]*>)?\(")

# A crate whose edits are to be tried: the crates below it, and its batches.
Task = collections.namedtuple("Task", "crate below batches")


def doubled(crate: EditedCrate, edits: list, listed: set) -> list:
    """The edits outside the list that break no clause of their function but those that other edits of it break. An edit breaks the
    clause that it names, or the only one; with neither it is told where each clause has an edit."""
    of_function, found = collections.defaultdict(list), []
    for edit in edits:
        if len(edit.functions) == 1:
            of_function[next(iter(edit.functions))].append(edit)
    is_listed = lambda edit: edit.name.rpartition("/")[2] in listed
    for one, some in of_function.items():
        clauses, broken = CLAUSES.findall(crate.head(one)) if one else [], set()
        for edit in sorted(some, key=lambda it: (not is_listed(it), not it.clause, it.name)):
            own = {edit.clause} if edit.clause else {*clauses}
            if not is_listed(edit) and own and own <= broken:
                found.append(edit)
            elif len(own) == 1:
                broken |= own
    return found


def is_not_compiled(path: pathlib.Path) -> bool:
    """Whether `rt try --test` of a copy with an edit ends with the error that its line `want:` names: in its crate, or in the one that
    its line `tests:` names where its own has no test."""
    crate, words = EditedCrate(path.parents[1]), dict(re.findall(r"^(want|tests): (.*)$", path.read_text(encoding="utf-8"), re.M))
    with tempfile.TemporaryDirectory() as room:
        copy = pathlib.Path(shutil.copytree(ROOT, pathlib.Path(room, "copy"), ignore=shutil.ignore_patterns("out", ".git")))
        for file, text in crate.changed([crate.read_edit(path)]).items():
            (copy / "crates" / crate.name / file).write_text(text, encoding="utf-8")
        tried_in = copy / "crates" / words.get("tests", crate.name)
        ran = subprocess.run(["rt", "try", "--test"], cwd=tried_in, capture_output=True, text=True, check=False)
    is_rejected = ran.returncode != 0 and f"error[{words['want']}]" in ran.stdout + ran.stderr
    print(("rejected, as it must be: " if is_rejected else "NOT REJECTED: ") + str(path.relative_to(ROOT)))
    return is_rejected


class Trial:
    """All edits of a repository that are to be tried, by several workers."""

    def __init__(self, root: pathlib.Path, names, jobs: int, since=None, proved=False):
        self.root, self.jobs, self.proved, self.lock = root, jobs, proved, threading.Lock()
        self.of_crate = collections.Counter()
        self.rejected, self.failed, self.tasks = [], [], []
        self.may_be_empty = since is not None
        used = sources.crates(root)
        for name in used:
            crate = EditedCrate(root / "crates" / name)
            edits = crate.edits()
            parts_of = lambda edit: {*edit.label().split("/"), edit.label().rpartition("/")[0], edit.label()}
            edits = [it for it in edits if not names or parts_of(it) & {*names}]
            if since is not None:
                edits = [it for it in edits if since.touches(crate, sources.below(used, name), it)]
            for edit in edits:
                if edit.fault:
                    self.tell(edit, "", edit.fault)
            batches = batches_of(crate, [it for it in edits if not it.fault])
            if batches:
                self.tasks.append(Task(crate, sources.below(used, name), batches))

    def tell(self, edit: Edit, goal: str, fault: str):
        with self.lock:
            (self.failed if fault else self.rejected).append(edit.label())
            print(f"{edit.label()}: " + (f"FAILED: {fault}" if fault else f"rejected: {goal}")[:200], flush=True)

    def is_proved(self, task: Task) -> bool:
        """Checks a crate as it is, unless that has been done."""
        if self.proved:
            return True
        folder = task.crate.folder
        ran = [check(folder, "--jobs", str(self.jobs))]
        # The check of a crate above would build it, and so change what is being copied.
        if not ran[0].status and any(task.crate.name in it.below for it in self.tasks):
            ran.append(check(folder, "--jobs", str(self.jobs), verb="lib"))
        self.of_crate["the crates as they are"] += sum(it.seconds for it in ran)
        if any(it.status for it in ran):
            self.failed.append(task.crate.name)
            print(f"{task.crate.name}: FAILED: it is not proved as it is", flush=True)
        return not any(it.status for it in ran)

    def work(self, task: Task, batch: list):
        with tempfile.TemporaryDirectory(prefix="wrong-bodies-") as place:
            room = Room(self.root, task.crate, task.below, pathlib.Path(place, "room"))
            for edit, goal, fault in room.judge(batch):
                self.tell(edit, goal, fault)
        with self.lock:
            self.of_crate[task.crate.name] += room.seconds

    def run(self) -> int:
        # Lower crates first, since a check locks the crates below. Then the longest batch first, so that none is the last to end.
        batches = [(task, batch) for task in self.tasks if self.is_proved(task) for batch in task.batches]
        with concurrent.futures.ThreadPoolExecutor(self.jobs) as pool:
            for it in [pool.submit(self.work, *it) for it in sorted(batches, key=lambda it: -len(it[1]))]:
                it.result()
        for name, seconds in self.of_crate.items():
            print(f"{name}: {seconds:.0f} processor seconds")
        if self.failed:
            print(f"FAILED: {' '.join(sorted(self.failed))}")
        print(f"{len(self.rejected)} rejected, {len(self.failed)} failed")
        return 1 if self.failed or not (self.rejected or self.may_be_empty) else 0

    def try_right(self) -> int:
        """Tries the right bodies in a copy of each crate, one crate after the other."""
        for task in self.tasks:
            with tempfile.TemporaryDirectory(prefix="wrong-bodies-") as rooms:
                for edit, fault in unproved(task, Room(self.root, task.crate, task.below, pathlib.Path(rooms, task.crate.name))):
                    self.tell(edit, "", fault)
            print(f"{task.crate.name}: its right bodies were tried", flush=True)
        print(f"{len(self.failed)} failed")
        return 1 if self.failed else 0


def unproved(task: Task, room: Room):
    """The functions that edits change, and whose right body isn't proved beside itself: that a wrong one is rejected there says
    nothing."""
    clauses = {(it.beside(), it.clause if it.inside else "") for batch in task.batches for it in batch if it.beside()}
    clauses = sorted(clauses, key=lambda it: (it[0].file, it[0].first, it[1]))
    edits = [Edit(task.crate.name, f"{one.path} {clause}".strip(), [], {one}, clause=clause) for one, clause in clauses]
    for some in (edits[at : at + BATCH] for at in range(0, len(edits), BATCH)):
        # One alone would be in its own place.
        for edit, goal in room.left_open(some + edits[:1] * (len(some) == 1)):
            yield edit, f"its right body is not proved beside it: {goal}"


def base(given=None) -> str:
    """The commit that the files are compared with."""
    if given:
        return git("rev-parse", "--verify", given + "^{commit}").strip()
    return (git("merge-base", "HEAD", "origin/main", check=False) or git("rev-parse", "HEAD")).strip()


def changed_files(commit: str) -> list:
    """The files of crates/ that differ from the commit, those among them that git doesn't know yet."""
    told = git("diff", "--name-only", "--no-renames", commit, "--", "crates")
    return sorted({*told.split("\n"), *git("ls-files", "--others", "--exclude-standard", "crates").split("\n")} - {""})


def changed_lines(commit: str, path: str):
    """The lines of a file as it is that differ from the commit; None where it is new or gone."""
    if not git("cat-file", "-t", f"{commit}:{path}", check=False) or not (ROOT / path).exists():
        return None
    said = git("diff", "--unified=0", commit, "--", path)
    spans = [(int(first), 1 if count is None else int(count)) for first, count in (it.groups() for it in HUNK.finditer(said))]
    # Lines that are gone leave the places before and behind them.
    return [line for first, count in spans for line in (range(first, first + count) if count else (first, first + 1))]


def read_source(change, crate, commit: str, path: str):
    """Adds what changed in a source file of a crate."""
    file, lines = path.split("/", 2)[2], changed_lines(commit, path)
    if lines is None:
        change.functions += [it for it in crate.functions if it.file == file]
        return
    text = [*crate.texts[file].split("\n"), ""]
    for line in (it for it in lines if not re.match(r" *(//|$)", text[min(it, len(text)) - 1])):
        inner = crate.function_at(file, line)
        if inner and line <= inner.body:
            change.contracts.add(inner.name())
        if inner and inner not in change.functions:
            change.functions.append(inner)


def changes(commit: str) -> dict:
    """What changed since the commit, by crate."""
    found = {}
    for path in changed_files(commit):
        _, name, part, *_ = path.split("/", 2) + [""]
        if not (ROOT / "crates" / name / "src").is_dir():
            continue
        # The functions that differ, and the names of those whose contract does.
        change = found.setdefault(name, types.SimpleNamespace(functions=[], contracts=set()))
        if part.startswith("src/") and part.endswith(".rt"):
            read_source(change, sources.Crate(ROOT / "crates" / name), commit, path)
    return found


class Reach:
    """Which functions have clauses that lead to a definition that changed since a commit. An import alone counts for none."""

    def __init__(self, commit: str):
        self.reader, self.known = Reader(), {}
        # The members of a trait count for every type.
        self.reader.types = None
        self.lines = {ROOT / path: changed_lines(commit, path) for path in changed_files(commit) if path.endswith((".antt", ".rt"))}

    def is_changed(self, one) -> bool:
        """Whether a line of a definition changed, without the comments."""
        lines, text = self.lines.get(one.path, ()), one.text.split("\n")
        if lines is None:
            return True
        own = (line - one.line for line in lines)
        return any(0 <= at < len(text) and not text[at].lstrip().startswith(("--", "//")) for at in own)

    def used_by(self, one) -> list:
        """The definitions that one uses; of a type none."""
        if (one.path, one.line) not in self.known:
            self.known[one.path, one.line] = [] if one.kind == "type" else [*self.reader.used_by(one)]
        return self.known[one.path, one.line]

    def leads_to_change(self, found) -> bool:
        """Whether one of these definitions changed, or one that they lead to."""
        return any(map(self.is_changed, closure(found, self.used_by)))

    def functions(self, crates) -> set:
        """The crate, file and path of each function of some crates whose clauses lead to a changed definition."""
        found = set()
        for source in (it for (crate, _), it in self.reader.sources.items() if crate in crates):
            for one in source.functions:
                text, uses, _, _ = self.reader.contract(source, one)
                if self.leads_to_change(self.reader.used(text, uses, {})):
                    found.add((source.crate, one.file, one.path))
        return found


class Since:
    """The functions that changed since a commit, those of which a definition changed that their clauses lead to, the names of the
    functions of each crate whose contracts changed or say something else now, and names of edits that count besides."""

    def __init__(self, commit: str, names=()):
        start, self.names, self.contracts = base(commit), names, collections.defaultdict(set)
        self.functions = Reach(start).functions(sources.crates())
        for crate, _, path in self.functions:
            self.contracts[crate].add(path.rpartition("::")[2])
        for name, change in changes(start).items():
            self.functions |= {(name, one.file, one.path) for one in change.functions}
            self.contracts[name] |= change.contracts
        self.files = {it for it in changed_files(start) if it.endswith(".edit")}

    def touches(self, crate: EditedCrate, below: list, edit: Edit) -> bool:
        """Whether an edit is named or new, one of its functions is among those, or it calls one whose contract changed: a name that
        a function of this crate or of one below has counts, whatever it is of."""
        is_new = any(it.startswith(f"crates/{edit.crate}/wrong-bodies/{edit.name}.") for it in self.files)
        if is_new or edit.name.rpartition("/")[2] in self.names:
            return True
        if any(one and (edit.crate, one.file, one.path) in self.functions for one in edit.functions):
            return True
        bodies = [crate.texts[one.file].split("\n")[one.body : one.last] for one in edit.functions if one]
        text = "\n".join([*(line for body in bodies for line in body), *(new for _, _, new in edit.changes)])
        called = {*CALLED.findall(text)}
        return any(called & self.contracts[name] for name in (edit.crate, *below))


def self_test() -> int:
    """Whether each edit of SELF_TEST is rejected or fails as the name of its folder says."""
    with tempfile.TemporaryDirectory(prefix="wrong-bodies-") as place:
        root = pathlib.Path(place)
        folder = pathlib.Path(shutil.copytree(SELF_TEST, root / "crates" / "pair"))
        # In the repository it has no name that `rt ci` looks for a crate by.
        (folder / "src").mkdir()
        (folder / "lib.txt").rename(folder / "src" / "lib.rt")
        (root / "crates.txt").write_text("pair:\n", encoding="utf-8")
        (root / "HANDLES").write_text("Handles allowed: none.\n", encoding="utf-8")
        wanted = {kind: {f"pair/{kind}/{it.stem}" for it in folder.glob(f"wrong-bodies/{kind}/*.edit")} for kind in ("rejected", "failed")}
        # Some lines say FAILED, as they must: a reader of the gate's output would take them for its own.
        with contextlib.redirect_stdout(io.StringIO()) as told:
            trial = Trial(root, [], 1)
            status = trial.run()
    well = status == 1 and set(trial.rejected) == wanted["rejected"] and set(trial.failed) == wanted["failed"]
    print("the script tells right bodies from wrong ones" if well else f"{told.getvalue()}FAILED: the script doesn't tell right bodies from wrong ones")
    return 0 if well else 1


def must_stay() -> list:
    lines = MUST_STAY.read_text(encoding="utf-8").splitlines()
    return [it for it in lines if it and not it.startswith("#")]


def of_gate():
    """What the gate tries; None for all, where the commit at which all were rejected isn't known here."""
    commit = REJECTED_AT.read_text(encoding="utf-8").strip() if REJECTED_AT.exists() else ""
    if commit and git("cat-file", "-t", commit, check=False).startswith("commit"):
        return Since(commit, set(must_stay()))
    print(f"{REJECTED_AT.name}: commit {commit or 'none'} is not here, so that all edits are tried")
    return None


def store() -> int:
    """Stores the commit at which all edits were rejected."""
    if git("diff", "HEAD", "--", "crates"):
        print("crates/ differs from the last commit, so that none is stored")
        return 1
    REJECTED_AT.write_text(git("rev-parse", "HEAD"), encoding="utf-8")
    return 0


def main() -> int:
    words = sources.parser_of(__doc__, sources.table_of(__file__))
    words.add_argument("--jobs", type=int, default=2, help="how many checks run side by side (each takes some 2 GB)")
    words.add_argument("--since", metavar="COMMIT", help="those of functions that changed since then, or of which a definition changed that "
                       "the clauses lead to, and new edits")
    words.add_argument("names", nargs="*", metavar="NAME", help="a crate, a topic or an edit; none: all")
    given = words.parse_args()
    if given.self_test:
        return self_test()
    if given.compiler:
        return int(not all([is_not_compiled(it) for it in sorted(ROOT.glob("crates/*/does-not-compile/*.edit"))]))
    there = {it.stem for folder in ("wrong-bodies/*", "must-fail") for it in ROOT.glob(f"crates/*/{folder}/*.edit")}
    if missing := [it for it in must_stay() if it not in there]:
        print(f"FAILED: no edit has the name {', '.join(missing)}")
        return 1
    if given.doubled:
        listed, crates = {*must_stay()}, [EditedCrate(ROOT / "crates" / name) for name in sources.crates()]
        found = [it.label() for crate in crates for it in doubled(crate, crate.edits(), listed)]
        return sources.ended(found, f"{len(found)} edits break a clause that another edit of the function breaks")
    since = of_gate() if given.gate else Since(given.since) if given.since else None
    trial = Trial(ROOT, given.names, max(given.jobs, 1), since, given.proved)
    if given.right:
        return trial.try_right()
    return trial.run() or (store() if (given.all or given.gate and given.store) and not given.names else 0)


if __name__ == "__main__":
    sys.exit(main())
