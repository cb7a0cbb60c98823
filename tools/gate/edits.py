"""Wrong bodies: edits of a crate's functions, the crate with some of them made, and copies of a repository in which it is checked."""
import collections
import contextlib
import dataclasses
import functools
import os
import pathlib
import re
import shutil
import sys

sys.path.insert(0, str(pathlib.Path(__file__).resolve().parents[1]))
from gate import built
from pages.sources import Crate, Function, table_of, timed

# The edits of one batch share what a check costs before the first goal. With more the check takes too long (LIMIT).
BATCH = 60

# The proofs of the stand-ins, and what the lines of a check say.
TEXTS = table_of(__file__)
NOTE, SAID, LOST, CONTRACT, FAULT, REACHED, NO_FUNCTION = (re.compile(it, re.M) for it in TEXTS["says"].values())
CLAUSE = re.compile(r"( +)(ensures|requires)(?: (\w+))? \{")
# How many processor seconds the check of a batch may take, or that of one edit, and that of a whole crate with an edit.
LIMIT, LIMIT_OF_WHOLE = 480, 1800

# A line with an error in a function's proof: where there is one, the check doesn't print the goals of the function that stay
# open, which takes as long as it took to find them. That they are open is told all the same.
UNPRINTED = "\nunprinted : ⊥\nunprinted = tt\n"


@dataclasses.dataclass
class Edit:
    """A wrong body: which texts of which files it changes, the functions that these are in, why it can't be tried, whether each
    changed line is in a function's body, where no other function sees it, and the clause that it breaks, if it names one."""

    crate: str
    name: str
    changes: list
    functions: set
    fault: str = ""
    inside: bool = True
    clause: str = ""

    def label(self) -> str:
        return f"{self.crate}/{self.name}"

    def beside(self):
        """The one function that it changes, if its wrong body can be beside the right one; else None."""
        one = next(iter(self.functions)) if len(self.functions) == 1 else None
        return one if one and not one.in_trait and all(file == one.file for file, _, _ in self.changes) else None


def only_clause(lines: list, name: str) -> list:
    """The lines of a function whose other named clauses say nothing, so that they take no time."""
    kept, is_kept = [], True
    for at, line in enumerate(lines):
        clause = CLAUSE.match(line)
        if line.strip() == "{":
            return kept + lines[at:]
        if clause:
            is_kept = clause[2] == "requires" or clause[3] in (None, name)
            kept += [] if is_kept else [f"{clause[1]}ensures {clause[3]} {{ Unit {{0}} }}"]
        kept += [line] if is_kept else []
    return lines


class EditedCrate(Crate):
    """A crate whose functions are edited."""

    def read_edit(self, path: pathlib.Path) -> Edit:
        """The edit of a file, with a fault where it can't be tried."""
        changes, functions, said = [], set(), {}
        for line in path.read_text(encoding="utf-8").split("\n"):
            word, _, text = line.partition(":")
            said[word] = text.removeprefix(" ")
            if word == "new":
                changes.append((said["file"].strip(), said["old"], said["new"]))
        name = "/".join(path.relative_to(self.folder).with_suffix("").parts[1:])
        edit = Edit(self.name, name, changes, functions, clause=said.get("clause", "").strip())
        try:
            lines = self.lines_of(edit)
        except ValueError as error:
            lines, edit.fault = {}, str(error)
        if not changes or all(old == new for _, old, new in changes):
            edit.fault = "it changes nothing"
        for file, at in lines:
            if not self.texts[file].split("\n")[at].startswith(("use ", "ghost use ")):
                one = self.function_at(file, at + 1)
                functions.add(one)
                edit.inside &= one is not None and one.body <= at
        return edit

    def edits(self) -> list:
        return [self.read_edit(it) for it in sorted(self.folder.glob("wrong-bodies/*/*.edit"))]

    def lines_of(self, edit) -> dict:
        """The lines that an edit changes, by file and number; ValueError says which change can't be made."""
        texts = {}
        for file, old, new in edit.changes:
            text = texts.get(file, self.texts.get(file, ""))
            if text.count(old) != 1:
                raise ValueError(f"the old text is there {text.count(old)} times in {file}")
            texts[file] = text.replace(old, new)
        pairs = [(file, enumerate(zip(text.split("\n"), self.texts[file].split("\n")))) for file, text in texts.items()]
        return {(file, at): line for file, lines in pairs for at, (line, before) in lines if line != before}

    def changed(self, edits, over=None) -> dict:
        """The texts of the changed files, each edit made by itself, over other texts of the same lines if these are
        given; ValueError says which can't be made."""
        lines = {}
        for edit in edits:
            mine = self.lines_of(edit)
            if lines.keys() & mine.keys():
                raise ValueError("two edits change one line")
            lines |= mine
        texts = {}
        for file in {file for file, _ in lines}:
            before = enumerate((over or self.texts)[file].split("\n"))
            texts[file] = "\n".join(lines.get((file, at), line) for at, line in before)
        return texts

    def renamed(self, edit: Edit, number: int) -> tuple:
        """Another name for the function of an edit, and its lines under that name with the edit made, without the docs."""
        one, changed = edit.beside(), self.lines_of(edit)
        name, lines = f"{one.name()}_wrong{number}", self.texts[one.file].split("\n")
        text = "\n".join(changed.get((one.file, at), lines[at]) for at in range(one.first - 1, one.last))
        text = re.sub(rf"\bfn {one.name()}\b", f"fn {name}", text, count=1)
        # The right body may come after the wrong one, under a name that another edit gives it too.
        text = re.sub(r"\bfn (right_\w+)", rf"fn \1_{number}", text)
        lines = [it for it in text.split("\n") if not it.lstrip().startswith("///")]
        return name, only_clause(lines, edit.clause) if edit.clause and edit.inside else lines

    def tried(self, edits, whole=False):
        """The crate with these edits made, among stand-ins or the whole crate: one alone in its place, of several each
        beside the right function where it can."""
        beside = collections.defaultdict(list)
        for number, edit in enumerate(edits if len(edits) > 1 else []):
            if edit.beside():
                beside[edit.beside()].append((edit, self.renamed(edit, number)))
        apart = {edit.label() for some in beside.values() for edit, _ in some}
        placed = [it for it in edits if it.label() not in apart]
        in_place = {one for it in placed for one in it.functions if one}
        over = self.texts if whole else self.with_stand_ins(in_place)
        texts = self.changed(placed, over)
        now, of = {it: it for it in self.functions}, {}
        for file in {it.file for it in beside}:
            lines, shift = texts.get(file, over[file]).split("\n"), 0
            for one in (it for it in self.functions if it.file == file):
                now[one] = one.moved(shift)
                for edit, (name, copy) in beside[one]:
                    at = one.last + shift
                    lines[at:at] = copy
                    path = one.path.removesuffix(one.name()) + name
                    of[edit.label()] = [Function(file, at + 1, at + len(copy), path, body=at + 1, owner=one.owner)]
                    shift += len(copy)
            texts[file] = "\n".join(lines)
        copies = {of[it.label()][0]: it.beside() for it in edits if it.label() in apart}
        of |= {it.label(): [one and now[one] for one in it.functions] for it in edits if it.label() not in apart}
        return Tried(self, texts, [*now.values(), *copies], of, copies, set() if whole else in_place)


class Tried(collections.namedtuple("Tried", "crate texts functions of copies in_place")):
    """A crate with edits made: the files that changed, the functions where they are there, those by which each edit is
    judged, of the wrong ones that are beside a right one, that one, and those that are edited in place of a stand-in."""

    function_at = Crate.function_at

    def goals(self, said: str) -> dict:
        """What a check left open, by the function that it said it of (None: of no function of the sources)."""
        by_path = {self.crate.told_path(one).split("::", 1)[1]: one for one in self.functions}
        goals = {}
        # What is said of a proof may go on in indented lines.
        for line in re.sub(r"\n {2,}(?=\S)", " ", said).split("\n"):
            note, found = NOTE.match(line), SAID.match(line)
            if note:
                goals.setdefault(self.function_at(note[1], int(note[2])), []).append(note[3])
            elif found and not LOST.search(found[2]) and not found[2].startswith("`unprinted`"):
                # The proof of a closure is below its function's, under `fn`.
                parts = [it for it in found[1].split("/") if it != "fn"]
                paths = ("::".join(parts[:end]) for end in range(len(parts), 0, -1))
                one = next((by_path[it] for it in paths if it in by_path), None)
                goals.setdefault(one, []).append(f"what the function ensures: {found[2]}")
        return goals


def batches_of(crate: EditedCrate, edits) -> list:
    """The edits in few groups. Those in place are of different functions that can be changed together."""
    many = collections.Counter(one for edit in edits if not edit.beside() for one in edit.functions)

    def joins(batch: list, edit: Edit) -> bool:
        placed = [it for it in batch if not it.beside()]
        used = set().union(*(it.functions for it in placed))
        if len(batch) == BATCH or None in used | edit.functions:
            return False
        if edit.beside():
            return True
        if used & edit.functions:
            return False
        try:
            crate.changed([*placed, edit])
        except ValueError:
            return False
        return True

    # Those in place come first, of functions with many edits each in a group of its own, and the others fill these groups.
    rank = lambda it: (it.beside() is not None, not it.inside, -max(many[one] for one in it.functions), it.changes[0][0], it.name)
    batches = []
    for edit in sorted(edits, key=rank):
        batch = next((it for it in batches if joins(it, edit)), None)
        batch.append(edit) if batch else batches.append([edit])
    return batches


class Checked(collections.namedtuple("Checked", "said status seconds is_cut")):
    """What a check said, its status, its processor seconds, and whether it was ended at its limit."""

    def reached(self):
        """The line with which the check of the crate itself ended: libraries below that are stale are built before it, and
        have such lines of their own. None where the front end rejects the crate, or where the check was ended."""
        found = [*REACHED.finditer(self.said)]
        return found[-1] if found and not self.is_cut and not FAULT.search(self.said, found[-1].end()) else None

    def fault(self) -> str:
        """Why it came to no end."""
        return next((it for it in self.said.split("\n") if "error" in it), self.said.strip().split("\n")[-1])


kit = functools.cache(built.kit)


def check(folder: pathlib.Path, *words: str, verb="check", keeps=True, limit=None) -> Checked:
    """What `rt` says of the crate in a folder, and what that takes; more processor seconds than the limit end it. To keep what it
    proves, `rt check` may start several processes one after another, each of which loads the libraries."""
    ran = ["rt", verb, *words]
    # Another kit may have other names for these.
    with contextlib.suppress(AttributeError, OSError, StopIteration, SystemExit, TypeError):
        if not keeps:
            crate = next(it for it in kit().crates_below(str(folder.parent.parent)) if os.path.samefile(it.folder, folder))
            ran = [kit().RATTLE, verb, *crate.words(list(words), keeps=False)]
    status, said, seconds = timed(ran, limit, cwd=folder, text=True, errors="replace")
    # A check that comes to its end has the status 0 or 1.
    return Checked(said, status, seconds, bool(limit) and seconds > 0.95 * limit and status not in (0, 1))


def copied(source: str, place: str):
    """Copies a file of kept work, by a link where a check replaces such a file and never changes it."""
    return os.link(source, place) if source.endswith(".oantt") else shutil.copy2(source, place)


def written(file: pathlib.Path, text: str):
    """Writes a file into a folder that may not be there yet."""
    file.parent.mkdir(parents=True, exist_ok=True)
    file.write_text(text, encoding="utf-8")


class Room:
    """A copy of the repository in which one crate is changed and checked again and again: with stand-ins for all
    functions that aren't tried, or as it is."""

    def __init__(self, root: pathlib.Path, crate: EditedCrate, below, place: pathlib.Path, kept=None, whole=False):
        self.root, self.crate, self.below, self.is_whole = root, crate, below, whole
        self.folder, self.clean = place / "crates" / crate.name, place / "clean"
        # what a check of the crate kept with which the checks here can begin, if it kept anything
        self.kept = kept if kept and kept.is_dir() else None
        self.words, self.limit = ([], LIMIT_OF_WHOLE) if whole else (["--allow-holes"], LIMIT)
        # what the checks took
        self.seconds = 0
        place.mkdir()
        needed = [*below, crate.name]
        lines = (root / "crates.txt").read_text(encoding="utf-8").splitlines(keepends=True)
        (place / "crates.txt").write_text("".join(it for it in lines if re.split(r"[ :]", it)[0] in needed), encoding="utf-8")
        for name in needed:
            source, copy = root / "crates" / name, place / "crates" / name
            for part in ("src", "specs", "proofs", *(["out/rlib"] if name != crate.name else [])):
                if (source / part).is_dir():
                    shutil.copytree(source / part, copy / part)
        if not whole:
            self.make_stand_ins()
        shutil.copytree(self.folder, self.clean)

    def make_stand_ins(self):
        """Writes the stand-ins, and for each a proof that rests on the one hole."""
        proofs = self.folder / "proofs"
        written(proofs / "Unproved.antt", TEXTS["unproved"])
        with open(proofs / "Lib.antt", "a", encoding="utf-8") as modules:
            modules.write("pub mod Unproved\n")
        for file, text in self.crate.with_stand_ins(set()).items():
            written(self.folder / file, text)
        for one in filter(self.crate.stands_in, self.crate.functions):
            path = self.path_of(one)
            for parts in [*self.crate.proofs_of(one), path]:
                shutil.rmtree(proofs.joinpath(*parts), ignore_errors=True)
            written(proofs.joinpath(*path, "Proof.antt"), TEXTS["stand_in"].format(crate=self.crate.name, path=".".join(path), name=path[-1]))

    def path_of(self, one: Function) -> list:
        """The path of a function below its crate, which is that of the folder of its proof."""
        return self.crate.told_path(one).split("::")[1:]

    def make(self, tried: Tried):
        """Makes edits in the crate as it was before any, over what a check of it kept, with the proofs of the functions that are
        edited in place of their stand-ins, and of those beside others."""
        shutil.rmtree(self.folder)
        shutil.copytree(self.clean, self.folder)
        if self.kept:
            shutil.copytree(self.kept, self.folder / "out" / "incremental", copy_function=copied)
        for file, text in tried.texts.items():
            written(self.folder / file, text)
        proofs = self.folder / "proofs"
        for one in filter(self.crate.stands_in, tried.in_place):
            shutil.rmtree(proofs.joinpath(*self.path_of(one)))
            for parts in self.crate.proofs_of(one):
                shutil.copytree(self.crate.folder.joinpath("proofs", *parts), proofs.joinpath(*parts))
        for copy, one in tried.copies.items():
            self.copy_proofs(one, copy.name())

    def copy_proofs(self, one: Function, name: str):
        """Copies the proof of a function and those of its closures for one of another name."""
        *above, old = self.path_of(one)

        def moved(found) -> str:
            parts = found[0].split(".")
            at = next((at for at, it in enumerate(parts) if it == old and [it for it in parts[3:at] if it != "fn"] == above), None)
            return found[0] if at is None else ".".join([*parts[:at], name, *parts[at + 1 :]])

        for parts in self.crate.proofs_of(one):
            copy = self.folder.joinpath("proofs", *parts[:-1], name)
            shutil.copytree(self.crate.folder.joinpath("proofs", *parts), copy)
            for file in copy.rglob("*.antt"):
                written(file, re.sub(rf"Rattle\.{self.crate.name}\.proofs(\.[\w+]+)+", moved, file.read_text(encoding="utf-8")))

    def check(self, tried: Tried, functions) -> Checked:
        """What a check of these functions says of the crate with edits made (none: of all)."""
        self.make(tried)
        paths = sorted({self.crate.told_path(one) for one in functions})
        for path in paths:
            file = self.folder.joinpath("proofs", *path.split("::")[1:], "Answers.antt")
            written(file, (file.read_text(encoding="utf-8") if file.exists() else "") + UNPRINTED)
        ran = self.check_only(paths)
        self.seconds += ran.seconds
        return ran

    def check_only(self, functions) -> Checked:
        """A check of some functions, by their paths, and of what they call; of none: of the whole crate."""
        words = ["--jobs", "1", *self.words, *(word for name in functions for word in ("--only", name))]
        ran = check(self.folder, *words, keeps=bool(self.kept), limit=self.limit)
        unknown = NO_FUNCTION.search(ran.said)
        # A method of a built-in type has no such name: its edit is then tried alone.
        return self.check_only([it for it in functions if it != unknown[1]]) if unknown else ran

    def left_open(self, edits) -> list:
        """What is left open of each of these functions beside themselves, in a check of them all."""
        tried = self.crate.tried(edits, self.is_whole)
        ran = self.check(tried, [tried.of[it.label()][0] for it in edits])
        if not ran.reached():
            return [(edits[0], "the check did not come to an end")]
        goals = tried.goals(ran.said)
        return [(it, goal) for it in edits for goal in self.own(it, tried, goals)[:1]]

    @staticmethod
    def own(edit: Edit, tried: Tried, goals: dict) -> list:
        """The goals of the functions of an edit, those of the clause that it names if the others say nothing."""
        own = [it for one in tried.of[edit.label()] for it in goals.get(one, [])]
        is_of_one = edit.clause and edit.inside and edit.beside()
        return [it for it in own if f"-clause-{edit.clause}`" in it] if is_of_one else own

    @staticmethod
    def apart(edits, tried: Tried, ran: Checked) -> list:
        """Edits that don't compile together, in parts: those of which that is said, and the others; two halves where
        nothing is said, or where the check was ended at its limit."""
        blamed = set() if ran.is_cut else {tried.function_at(it[1], int(it[2])) for it in FAULT.finditer(ran.said)}
        parts = [[it for it in edits if bool(blamed & {*tried.of[it.label()]}) is is_blamed] for is_blamed in (True, False)]
        return parts if all(parts) else [edits[::2], edits[1::2]]

    def judge(self, edits) -> list:
        """Each edit with the goal for which it is rejected, or with none and a fault."""
        tried = self.crate.tried(edits, self.is_whole)
        functions = {one for some in tried.of.values() for one in some}
        ran = self.check(tried, [] if self.is_whole else functions - {None})
        reached, goals = ran.reached(), tried.goals(ran.said)
        if not self.is_whole and len(edits) == 1 and (None in functions or reached and not goals):
            # A line that is in no function, as a constant's, and what a function does for others, may be rejected there.
            place = self.folder.parent.parent / "whole"
            shutil.rmtree(place, ignore_errors=True)
            whole = Room(self.root, self.crate, self.below, place, self.crate.folder / "out" / "incremental", whole=True)
            judged = whole.judge(edits)
            self.seconds += whole.seconds
            return judged
        if not reached and len(edits) > 1:
            if ran.is_cut:
                print(f"{self.crate.name}: a check of {len(edits)} edits was ended after {self.limit} processor seconds: two halves", flush=True)
            return [it for part in self.apart(edits, tried, ran) for it in self.judge(part)]
        if not reached:
            fault = f"its check was ended after {self.limit} processor seconds" if ran.is_cut else f"it does not compile: {ran.fault()}"
            return [(edits[0], "", fault)]
        if len(edits) == 1:
            own = [it for one in tried.of[edits[0].label()] for it in goals.get(one, [])]
            goal = next(iter([*own, *(it for them in goals.values() for it in them)]), "")
            fault = "the crate is still proved" if reached[1] == "proved" else "no goal is left open, only a name that it took away"
            return [(edits[0], goal, "" if goal else fault)]
        judged, is_hidden = [], all(it.inside or it.beside() for it in edits)
        for edit in edits:
            own = [it for it in self.own(edit, tried, goals) if is_hidden or CONTRACT.search(it)]
            judged += [(edit, own[0], "")] if own else self.judge([edit])
        return judged
