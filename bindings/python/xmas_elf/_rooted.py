"""Paths under the root of another system, out of which no link and no `..` leads."""
from __future__ import annotations

import errno
import os
import re
import stat
from typing import Iterator, List, Optional

# As many links in one path as Linux follows, and the least length of a path that it doesn't take.
_MOST_LINKS, _TOO_LONG = 40, 4096
# How deep a file of folders may be included, and how many bytes all of these files may have.
_DEEPEST, _MOST_BYTES = 8, 1 << 20


class Root:
    """The folder under which all paths of another system are; empty for this system."""

    def __init__(self, path: str) -> None:
        self.path, self._room = path, 0

    def system(self, path: str) -> str:
        """The path of this system at which the file at a path is."""
        return self.path + self.real(path) if self.path else path

    def real(self, path: str) -> str:
        """A path without links, within the root; empty for the root itself. What is before a slash must be a folder."""
        if not self.path:
            return os.path.realpath(path, strict=True)
        if len(os.fsencode(path)) >= _TOO_LONG:
            raise OSError(errno.ENAMETOOLONG, os.strerror(errno.ENAMETOOLONG), path)
        done, rest, links = "", _components(path), 0
        while rest:
            component = rest.pop(0)
            target = self._target(done, component)
            if target is None:
                done = done if component == "." else done.rpartition("/")[0] if component == ".." else f"{done}/{component}"
                continue
            links += 1
            if links > _MOST_LINKS:
                raise OSError(errno.ELOOP, os.strerror(errno.ELOOP), path)
            done = "" if target.startswith("/") else done
            rest = _components(target) + rest
        return done

    def _target(self, folder: str, component: str) -> Optional[str]:
        """What a component of a folder points to, if it is a link."""
        folder = self.path + folder
        if component in (".", ".."):
            if not stat.S_ISDIR(os.stat(folder).st_mode):
                raise NotADirectoryError(errno.ENOTDIR, os.strerror(errno.ENOTDIR), folder)
            return None
        place = f"{folder}/{component}"
        return os.readlink(place) if stat.S_ISLNK(os.lstat(place).st_mode) else None

    def content(self, path: str) -> Optional[bytes]:
        """All bytes of the file at a path; None if it can't be read."""
        try:
            place = self.system(path)
            if not stat.S_ISREG(os.stat(place).st_mode):
                return None
            with open(place, "rb") as stream:
                return stream.read()
        except OSError:
            return None

    def folders(self) -> bytes:
        """The folders of /etc/ld.so.conf, one in each line, which are searched where there is no cache."""
        self._room = _MOST_BYTES
        return "".join(f"{it}\n" for it in self._folders_in("/etc/ld.so.conf", 0)).encode("utf-8", "surrogateescape")

    def _folders_in(self, path: str, depth: int) -> Iterator[str]:
        content = self.content(path)
        if content is None:
            return
        self._room -= max(len(content), 1)
        if self._room < 0:
            raise OSError(errno.EFBIG, os.strerror(errno.EFBIG), path)
        for part in content.split(b"\n"):
            line = part.decode("utf-8", "surrogateescape").split("#")[0].strip()
            word, *rest = re.split("[ \t]", line, maxsplit=1)
            if word == "include" and rest:
                patterns = rest[0].split() if depth < _DEEPEST else []
                for file in (it for pattern in patterns for it in self._matching(path.rpartition("/")[0], pattern)):
                    yield from self._folders_in(file, depth + 1)
            elif line and not (word == "hwcap" and rest):
                yield line

    def _matching(self, folder: str, pattern: str) -> List[str]:
        """The paths of the files of a pattern, which may have a star in the name of the file."""
        folder, _, name = (pattern if pattern.startswith("/") else f"{folder}/{pattern}").rpartition("/")
        front, star, back = name.partition("*")
        if not star:
            return [f"{folder}/{name}"]
        try:
            names = os.listdir(self.system(folder))
        except OSError:
            return []
        fits = [it for it in names if it.startswith(front) and it[len(front) :].endswith(back) and not it.startswith(".")]
        return sorted(f"{folder}/{it}" for it in fits)


def _components(path: str) -> List[str]:
    """The components of a path. After one with a slash and nothing else comes the folder that it must be."""
    found = [it for it in path.split("/") if it]
    return found + ["."] * (bool(found) and path.endswith("/"))
