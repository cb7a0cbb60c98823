"""Finds the package beside the tests, the tools of the repository, and the files that tests read."""
import os
import pathlib
import sys

PYTHON = pathlib.Path(__file__).resolve().parent.parent
ROOT = PYTHON.parent.parent
if "XMAS_ELF_INSTALLED" not in os.environ:
    sys.path.insert(0, str(PYTHON))
sys.path[1:1] = [str(ROOT / folder) for folder in ("tools/compare", "tools/exports", "oracle")]

import damage  # noqa: E402

FOLDERS = ("/usr/bin", "/usr/lib/x86_64-linux-gnu", "/usr/lib/python3")
LARGEST = 200_000
LIBRARIES = ("libc.so.6", "libm.so.6", "libz.so.1", "libgcc_s.so.1", "libstdc++.so.6")


def pytest_addoption(parser):
    parser.addoption("--files", type=int, default=300, help="how many files of the system are compared")


def is_elf(path):
    try:
        with open(path, "rb") as stream:
            return stream.read(4) == b"\x7fELF"
    except OSError:
        return False


def system_files(wanted):
    """So many ELF files of the system, spread over all that are small enough; the smallest objects are among them."""
    found = []
    for folder in FOLDERS:
        for path in sorted(pathlib.Path(folder).rglob("*")):
            if path.is_file() and not path.is_symlink() and path.stat().st_size <= LARGEST and is_elf(path):
                found.append(path)
    step = max(1, len(found) // wanted)
    return found[::step][:wanted]


def worked_files():
    """Files of both classes and byte orders."""
    for wide in (True, False):
        for order in ("little", "big"):
            yield f"{64 if wide else 32}-{order}", damage.worked(wide, order)


def pytest_generate_tests(metafunc):
    if "path" in metafunc.fixturenames:
        metafunc.parametrize("path", system_files(metafunc.config.getoption("--files")), ids=str)
    if "library" in metafunc.fixturenames:
        metafunc.parametrize("library", LIBRARIES)
    if "worked" in metafunc.fixturenames:
        named = list(worked_files())
        metafunc.parametrize("worked", [data for _, data in named], ids=[name for name, _ in named])
