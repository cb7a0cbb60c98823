"""A program with the libraries that it gets, as the loader of glibc finds them."""
from __future__ import annotations

import os
import stat
from enum import IntEnum
from typing import Any, Dict, Iterator, List, NamedTuple, Optional, Tuple, Union

from . import _search as search
from ._archive import ElfError
from ._declarations import Status, _document
from ._file import ElfFile
from ._loading import Loader, Verdict, check_load
from ._rooted import Root
from ._search import AUXILIARY, DT_RPATH, DT_RUNPATH, DT_SONAME, FILTER, HOW, MISSING, NEEDED, Asker, Values
from ._systems import Processor, own_processor, system_of
from .constants import PT_INTERP

_Path = Union[str, "os.PathLike[str]"]
_INITFIRST, _NODEFLIB = 0x20, 0x800
# How many times the bytes of a file the names that it asks for may have together: a few bytes of a token can stand for a long path.
_MOST_TIMES = 16
_HEAD = 64
_KINDS = {NEEDED: "", AUXILIARY: ", auxiliary", FILTER: ", filter"}


class Lack(IntEnum):
    """Why a version is missing: the library has no versions, or lacks one that is needed weakly, or one without which the program
    does not start."""

    NO_INFORMATION = 1
    WEAK = 2
    STRONG = 3


class MissingName(NamedTuple):
    """A library that isn't found."""

    name: str
    asked_by: str
    is_auxiliary: bool


class MissingVersion(NamedTuple):
    """A version that a library lacks."""

    library: str
    version: str
    asked_by: str
    lack: Lack

    def __str__(self) -> str:
        said = {Lack.NO_INFORMATION: "no version information available", Lack.WEAK: f"weak version `{self.version}' not found"}
        return f"{self.library}: {said.get(self.lack, f'version `{self.version}{chr(39)} not found')} (required by {self.asked_by})"


class TreeObject:
    """A program or a library of a tree."""

    path: str
    """The path by which it was opened."""

    soname: Optional[str]
    """Its own name (DT_SONAME)."""

    how: str
    """How it was found: `program`, `interpreter`, `path`, `rpath`, `library-path`, `runpath`, `cache`, `conf` or `default`."""

    name: Optional[str]
    """The name by which it was first asked for; None of the program."""

    asked_by: Optional["TreeObject"]
    """The object that asked for it first; None of the program."""

    file: ElfFile
    """Its file."""

    needs: List[Tuple[str, Optional["TreeObject"]]]
    """The names that it asks for in order, each with the object that it found; None if it is missing."""

    def __init__(self, path: str, origin: str, file: ElfFile, how: str) -> None:
        self.path, self.file, self.how = path, file, how
        self.name, self.asked_by, self.needs = None, None, []
        self._origin, self._kind, self._entry = os.fsencode(origin), NEEDED, (0, 0)
        self._names: List[bytes] = []
        self._entries: List[Tuple[bytes, int, bool]] = []
        self._r_path: Optional[bytes] = None
        self._run_path: Optional[bytes] = None
        self._soname: Optional[bytes] = None
        self._no_default = search.has_flag(file, _NODEFLIB)

    def __repr__(self) -> str:
        return f"<TreeObject {self.path} ({self.how})>"

    def _read(self, values: Values) -> None:
        """Reads what its file says about the search."""
        room = len(self.file.input) * _MOST_TIMES
        for text, kind in search.needed_names(self.file):
            name = search.expanded(text, values)
            if name is None and kind != AUXILIARY:
                raise ElfError(Status.SEARCH_EMPTY_TOKEN)
            self._entries.append((text if name is None else name, kind, name is not None))
            room -= len(self._entries[-1][0])
            if room < 0:
                raise ElfError(Status.SEARCH_FILE_DATA)
        self._r_path, self._run_path = search.last_text(self.file, DT_RPATH), search.last_text(self.file, DT_RUNPATH)
        self._soname = search.last_text(self.file, DT_SONAME)
        self.soname = None if self._soname is None else os.fsdecode(self._soname)

    def _has_name(self, name: bytes) -> bool:
        return name in (os.fsencode(self.path), self._soname) or name in self._names


class Tree:
    """A program with the libraries that it gets, as the loader of glibc 2.36 finds them on Debian. Files are opened for reading, and
    nothing is run.

        tree = Tree("/bin/ls")
        print(tree)
        print(tree.loads())

    `root` is the folder under which all paths of another system are, as those of a container image: no link leads out of it.
    `library_path` is the value of LD_LIBRARY_PATH. `cache` is another cache than /etc/ld.so.cache. A program that can't be read raises
    OSError, one that is no ELF file ElfError; `error` is why the loader ends before all libraries are found."""

    objects: List[TreeObject]
    """The program and its libraries, in the order in which symbols are looked up."""

    missing: List[MissingName]
    """The libraries that aren't found, once for each object that asks."""

    missing_versions: List[MissingVersion]
    """The versions that objects need and their libraries lack, in the order of the objects that need them."""

    start_order: List[TreeObject]
    """The libraries in the order in which they start. The program starts last."""

    error: Optional[ElfError]
    """Why the loader ends before all libraries are found, with the path of the file in `about`; None if it doesn't."""

    def __init__(self, path: _Path, root: _Path = "", library_path: str = "", cache: Optional[_Path] = None, no_cache: bool = False) -> None:
        self._root = Root(os.fspath(root).rstrip("/") or "/" if os.fspath(root) else "")
        self._library_path, self._cache_path, self._no_cache = os.fsencode(library_path), cache, no_cache
        self._files: Dict[Tuple[int, int], ElfFile] = {}
        self._loaded: List[TreeObject] = []
        # In the order in which names are looked up. The interpreter stays behind the program, unless such an entry moves it.
        self._listed: List[TreeObject] = []
        self._is_moved = False
        self._order = search.Order()
        self._asked: List[Tuple[int, int]] = []
        self._lost: List[Tuple[int, bytes]] = []
        self._interpreter: Optional[TreeObject] = None
        self._interpreter_path: Optional[str] = None
        self.error, self.missing_versions, self.start_order = None, [], []
        program = self._program(os.fspath(path))
        try:
            self._begin(program)
            self._find_all()
            self._end()
        except ElfError as error:
            self.error = error
            self.objects = self.objects if hasattr(self, "objects") else list(self._loaded)
        self._note_needs()

    def __repr__(self) -> str:
        return f"<Tree {self._loaded[0].path}, {len(self.objects)} objects, {len(self.missing)} names missing>"

    # The program.

    def _program(self, path: str) -> TreeObject:
        with open(self._root.system(path), "rb") as stream:
            content = stream.read()
        file = ElfFile(content)
        file._path = path
        known = os.stat(self._root.system(path))
        self._files[known.st_dev, known.st_ino] = file
        head = content[:20].ljust(20, b"\0")
        self._class, self._machine = 1 if head[4] == 1 else 2, int.from_bytes(head[18:20], "little")
        self._system = system_of(self._class, self._machine)
        own = Processor() if self._root.path else own_processor()
        self._processor = own.for_programs(self._class, self._machine)
        self._directory = "" if self._root.path or os.getcwd() == "/" else os.getcwd()
        self._set_cache()
        try:
            origin = self._origin("", self._root.real(path))
        except OSError:
            origin = self._origin(self._directory, path)
        return TreeObject(path, origin, file, "program")

    def _set_cache(self) -> None:
        if self._no_cache:
            content: Optional[bytes] = None
        elif self._cache_path is not None:
            with open(self._cache_path, "rb") as stream:
                content = stream.read()
        else:
            content = self._root.content("/etc/ld.so.cache")
        self._cache = search.Cache(content or b"", self._system, self._processor)
        has_cache = not self._root.path or search.is_cache(content or b"")
        is_own = self._cache_path is None and not self._no_cache
        searched = is_own and not (has_cache and self._system.interpreter)
        self._conf = self._root.folders() if searched else b""

    def _begin(self, program: TreeObject) -> None:
        self._loaded.append(program)
        self._listed.append(program)
        self._told(program.path, search.fits, bytes(program.file.input[:_HEAD]), len(program.file.input), self._class, self._machine)
        self._told(program.path, program._read, self._values(program))
        self._order.add(kind for _, kind, _ in program._entries)
        self._find_interpreter(program)

    def _find_interpreter(self, program: TreeObject) -> None:
        """The interpreter that the program names, if it can be read; its place in the list is that of the first entry that finds it."""
        path = _interpreter_in(program.file)
        self._interpreter_path = path
        try:
            found = self._open(path or self._system.interpreter)
            if isinstance(found, ElfFile):
                self._interpreter = self._object(path or self._system.interpreter, found, "interpreter")
        except ElfError:
            self._interpreter = None

    def _told(self, path: str, call: Any, *arguments: Any) -> Any:
        """What a call returns; an error is about the file at a path."""
        try:
            return call(*arguments)
        except ElfError as error:
            raise ElfError(error.status, path) from None

    def _values(self, it: TreeObject) -> Values:
        return Values(it._origin, self._system.lib, self._processor.platform or self._system.platform)

    @staticmethod
    def _origin(directory: str, path: str) -> str:
        whole = path if path.startswith("/") else f"{directory}/{path}"
        return whole.rpartition("/")[0] or "/"

    def _object(self, path: str, file: ElfFile, how: str) -> TreeObject:
        it = TreeObject(path, self._origin(self._directory, path), file, how)
        self._told(path, it._read, self._values(it))
        return it

    # The search.

    def _find_all(self) -> None:
        while True:
            asked = self._order.next()
            if asked is None:
                return
            number, entry = asked
            self._take(number, entry)
            # The entries of an object follow each other, unless objects are moved.
            while self._order.is_plain and entry + 1 < len(self._loaded[number]._entries):
                entry += 1
                self._take(number, entry)

    def _take(self, number: int, entry: int) -> None:
        """Finds what an entry of an object asks for."""
        name, kind, is_known = self._loaded[number]._entries[entry]
        self._asked.append((number, entry))
        found = None
        if is_known:
            try:
                found = self._find(number, name)
                if found is None:
                    self._lost.append((len(self._loaded), name))
            except ElfError:
                if kind != AUXILIARY:
                    raise
                self._loaded[number]._entries[entry] = name, kind, False
        if found is None:
            self._order.found[number][entry] = MISSING
            return
        if found not in self._loaded:
            found.name, found.asked_by, found._kind, found._entry = os.fsdecode(name), self._loaded[number], kind, (number, entry)
            self._loaded.append(found)
            self._order.add(kind for _, kind, _ in found._entries)
        self._list(found, self._loaded[number], kind)
        if name not in found._names:
            found._names.append(name)
        self._order.found[number][entry] = self._loaded.index(found)

    def _list(self, found: TreeObject, asker: TreeObject, kind: int) -> None:
        """Puts an object that an entry found into the list: at its end, or before the one that asks by an auxiliary or a filter entry."""
        listed = self._listed
        if found not in listed and kind == NEEDED:
            listed.append(found)
        elif kind != NEEDED and found not in listed[: listed.index(asker) + 1]:
            if found in listed:
                listed.remove(found)
            listed.insert(listed.index(asker), found)
            self._is_moved = self._is_moved or found is self._interpreter

    def _find(self, number: int, name: bytes) -> Optional[TreeObject]:
        """What an object gets for a name: one that is known by it, or what the search finds."""
        program, others = self._loaded[0], [it for it in self._listed if it is not self._loaded[0]]
        if not name or program._soname == name:
            return program
        if self._interpreter is not None and not self._is_moved and self._interpreter._has_name(name):
            return self._interpreter
        for it in others:
            if it._has_name(name):
                return it
        found = self._look(number, name)
        if found is None:
            return None
        path, how, file = found
        for it in others:
            if it.file is file and it.how != "interpreter":
                return it
        self._told(path, search.check_library, file)
        return self._object(path, file, HOW[how])

    def _look(self, number: int, name: bytes) -> Optional[Tuple[str, int, ElfFile]]:
        """The path, the list and the file that is taken for a name."""
        around = search.Around(
            self._library_path, self._conf, self._system.defaults, self._processor.subdirectories, self._values(self._loaded[0])
        )
        left = None
        for text, how, asker, size in search.candidates(name, self._cache.path_of(name), self._askers(number), around):
            if (how, asker) == left:
                continue
            try:
                path = text.decode("utf-8")
            except UnicodeDecodeError:
                # A path that is not UTF-8 can't be opened.
                continue
            found = self._told(path, self._open, path)
            if isinstance(found, ElfFile):
                return path, how, found
            if found and not size and self._is_in_folder(path):
                left = how, asker
        return None

    def _askers(self, number: int) -> List[Asker]:
        """What an object says about the search, and those of its loaders that have a DT_RPATH, up to the program."""
        chain = [self._loaded[number]]
        while number:
            number = self._loaded[number]._entry[0]
            chain.append(self._loaded[number])
        kept = chain[:1] + [it for it in chain[1:] if it._r_path is not None]
        return [Asker(it._r_path, it._run_path, self._values(it), it._no_default) for it in kept]

    def _is_in_folder(self, path: str) -> bool:
        if not path.startswith("/"):
            return True
        try:
            return os.path.isdir(self._root.system(path.rpartition("/")[0]))
        except OSError:
            return False

    def _open(self, path: str) -> Union[ElfFile, bool]:
        """The library at a path; false if the path is passed over, true if opening fails otherwise than since there is no such file or
        for want of permission."""
        try:
            place = self._root.system(path)
            known = os.stat(place)
            file = self._files.get((known.st_dev, known.st_ino))
            if file is not None:
                content = file.input
                return search.fits(bytes(content[:_HEAD]), len(content), self._class, self._machine) and file
            if not stat.S_ISREG(known.st_mode):
                raise ElfError(Status.SEARCH_FILE_DATA)
            stream = open(place, "rb")
        except (FileNotFoundError, PermissionError):
            return False
        except OSError:
            return True
        with stream:
            try:
                head = stream.read(_HEAD)
                if not search.fits(head, known.st_size, self._class, self._machine):
                    return False
                file = ElfFile(head + stream.read())
            except OSError:
                raise ElfError(Status.SEARCH_FILE_DATA) from None
        file._path = path
        self._files[known.st_dev, known.st_ino] = file
        return file

    # What is found.

    def _end(self) -> None:
        numbers, starts = self._order.orders()
        self.objects = [self._loaded[it] for it in numbers]
        first = [it for it, one in enumerate(self._loaded) if one.how not in ("program", "interpreter") and search.has_flag(one.file, _INITFIRST)][-1:]
        self.start_order = [self._loaded[it] for it in (*first, *(it for it in starts if it not in first))]
        self.missing_versions = list(self._lacked())

    def _note_needs(self) -> None:
        self.missing = []
        for it, found in zip(self._loaded, self._order.found):
            objects = [self._loaded[number] if number < len(self._loaded) else None for number in found]
            it.needs = [(os.fsdecode(name), one) for (name, _, _), one in zip(it._entries, objects)]
        for number, entry in self._asked:
            name, kind, is_known = self._loaded[number]._entries[entry]
            if self._order.found[number][entry] == MISSING and is_known:
                self.missing.append(MissingName(os.fsdecode(name), self._loaded[number].path, kind == AUXILIARY))

    def _providers(self) -> Dict[bytes, Optional[TreeObject]]:
        """The first object with each name, by which needs of versions call it; None for a name that is missing."""
        found: Dict[bytes, Optional[TreeObject]] = {}
        for place, it in enumerate(self.objects):
            for name in (b"" if it is self._loaded[0] else os.fsencode(it.path), *it._names):
                found.setdefault(name, it)
            for count, name in self._lost:
                # It was sought when the object was the last in the list.
                if it in self._loaded[:count] and not any(one in self._loaded[:count] for one in self.objects[place + 1 :]):
                    found.setdefault(name, None)
        return found

    def _lacked(self) -> Iterator[MissingVersion]:
        providers = self._providers()
        for it in self.objects:
            try:
                yield from self._lacked_by(it, providers)
            except ElfError as error:
                raise ElfError(error.status, it.path) from None

    def _lacked_by(self, it: TreeObject, providers: Dict[bytes, Optional[TreeObject]]) -> List[MissingVersion]:
        """The versions that an object needs and that are missing, in the order of its needs."""
        places, names, view = search.needed_versions(it.file), [], it.file.input
        for need in places:
            if need.status or need.file_status:
                raise ElfError(need.status or need.file_status)
            names.append(bytes(view[need.file_offset : need.file_offset + need.file_size]))
        found = []
        for name in dict.fromkeys(names):
            if name not in providers:
                raise ElfError(Status.SEARCH_NO_PROVIDER)
            provider = providers[name]
            for need, lack in search.missing_versions(it.file, name, provider.file) if provider else ():
                if need.status or need.name_status:
                    raise ElfError(need.status or need.name_status)
                version = str(view[need.name_offset : need.name_offset + need.name_size], "utf-8")
                found.append((places[need], MissingVersion(provider.path if provider else "", version, it.path, Lack(lack))))
        return [missing for _, missing in sorted(found, key=lambda one: one[0])]

    def loads(self) -> Verdict:
        """Whether the program is loaded with its libraries: true or false, and the text `yes`, or `no` with the first reason. Linux maps
        the program and its interpreter, and glibc the libraries, each by its own checks; each library and each version is there, but
        for those without which the program starts all the same. Symbols aren't looked up: `xmas_elf.loads` does this."""
        return next(self._reasons(), Verdict(True, Status.OK, ""))

    def _reasons(self) -> Iterator[Verdict]:
        """Why the program isn't loaded, each with the index of the object that it is about."""
        program = self._loaded[0]
        yield from self._load_reasons(program, Loader.LINUX)
        if self._interpreter_path is not None and self._interpreter is None:
            yield Verdict(False, Status.NOT_FOUND, f"{program.path}: {self._interpreter_path} not found", 0)
        if self._interpreter is not None:
            yield from self._load_reasons(self._interpreter, Loader.LINUX)
        checked = {0}
        for number, entry in self._asked:
            name, kind, _ = self._loaded[number]._entries[entry]
            found = self._order.found[number][entry]
            if found == MISSING and kind != AUXILIARY:
                text = f"{self._loaded[number].path}: {os.fsdecode(name)} not found"
                yield Verdict(False, Status.NOT_FOUND, text, self._index(self._loaded[number]))
            if found < len(self._loaded) and found not in checked:
                checked.add(found)
                if self._loaded[found] is not self._interpreter:
                    yield from self._load_reasons(self._loaded[found], Loader.GLIBC)
        if self.error is not None:
            yield Verdict(False, int(self.error.status), f"{self.error.about}: {ElfError(self.error.status)}", 0)
        for missing in self.missing_versions:
            if missing.lack == Lack.STRONG:
                yield Verdict(False, Status.NOT_FOUND, str(missing), 0)

    def _load_reasons(self, it: TreeObject, loader: Loader) -> Iterator[Verdict]:
        try:
            check_load(it.file, loader)
        except ElfError as error:
            yield Verdict(False, error.status, f"{it.path}: {error}", self._index(it), loader)

    def _index(self, it: TreeObject) -> int:
        return self.objects.index(it) if it in self.objects else 0

    def __str__(self) -> str:
        """The lines that `elftree --start` prints."""
        if self.error is not None:
            return f"{self.error.about}: {ElfError(self.error.status)}"
        lines = [self._loaded[0].path, *self._lines(), *map(str, self.missing_versions)]
        return "\n".join([*lines, *(f"start {it.path}" for it in self.start_order)])

    def _lines(self) -> Iterator[str]:
        """A line for each object that an entry is the first to find, below the object of the entry, and for each name that is missing."""
        places = {id(it): place for place, it in enumerate(self.objects)}
        pending = [(0, 0)]
        while pending:
            number, entry = pending.pop()
            it = self._loaded[number]
            if entry == len(it._entries):
                continue
            indent = "  " * (len(pending) + 1)
            pending.append((number, entry + 1))
            name, kind, is_known = it._entries[entry]
            found = self._order.found[number][entry]
            if found >= len(self._loaded) and is_known:
                yield f"{indent}{os.fsdecode(name)} => not found{' (auxiliary)' * (kind == AUXILIARY)}"
            elif 0 < found < len(self._loaded) and self._loaded[found]._entry == (number, entry):
                one = self._loaded[found]
                yield f"{indent}{os.fsdecode(name)} => {one.path} ({one.how}{_KINDS[kind]}) #{places[id(one)]}"
                pending.append((found, 0))


def _interpreter_in(file: ElfFile) -> Optional[str]:
    """The path of the interpreter that a program names (PT_INTERP)."""
    try:
        for segment in file.segments():
            if segment.type == PT_INTERP:
                return str(bytes(segment.data()).partition(b"\0")[0], "utf-8")
    except (ElfError, UnicodeDecodeError):
        pass
    return None


_document(MissingName, name="The name that is asked for.", asked_by="The path of the object that asks.",
          is_auxiliary="Whether the object only asks for it as one that may be missing (DT_AUXILIARY).")
_document(MissingVersion, library="The path of the library.", version="The name of the version.",
          asked_by="The path of the object that needs it.", lack="Why it is missing.")
