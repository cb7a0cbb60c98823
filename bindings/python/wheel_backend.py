#!/usr/bin/env python3
"""Builds the package's shared object and its wheel, with no network and no other package: for pip, and as a command.

    bindings/python/wheel_backend.py           the shared object, beside the package's modules
    bindings/python/wheel_backend.py FOLDER    the wheel, into the folder

The archive libelf_c.a is taken from the folder that XMAS_ELF_ARCHIVE names, or else from crates/elf_c/out."""
import base64
import hashlib
import os
import pathlib
import platform
import re
import subprocess
import sys
import tomllib
import zipfile

HERE = pathlib.Path(__file__).resolve().parent
ROOT = HERE.parent.parent
PACKAGE = HERE / "xmas_elf"
LIBRARY = PACKAGE / "libxmas_elf.so"
# For the oldest version of the C library that a wheel runs with, the name that pip had for it before PEP 600.
NAMES = {(2, 5): "manylinux1", (2, 12): "manylinux2010", (2, 17): "manylinux2014"}


def archive():
    path = pathlib.Path(os.environ.get("XMAS_ELF_ARCHIVE", ROOT / "crates/elf_c/out")) / "libelf_c.a"
    if not path.exists():
        sys.exit(f"{path} is missing: set XMAS_ELF_ARCHIVE to the folder of a release's archive, or run `rt lib` in crates/elf_c")
    if (platform.system(), platform.machine()) != ("Linux", "x86_64"):
        sys.exit("the archive is for x86-64 Linux")
    return path


def build_library():
    """Links the whole archive, which needs `memmove` of the C library alone."""
    inside = ["-Wl,--whole-archive", str(archive()), "-Wl,--no-whole-archive"]
    subprocess.run(["gcc", "-shared", "-nostartfiles", "-Wl,-z,relro,-z,now,-s", *inside, "-o", str(LIBRARY)], check=True)


def platforms():
    """The names of the systems that the library runs on: `manylinux` (PEP 600) with the oldest version of the C library that
    has all that it needs, if it needs nothing else."""
    command = ["readelf", "--wide", "--dynamic", "--version-info", LIBRARY]
    said = subprocess.run(command, check=True, capture_output=True, text=True, env={**os.environ, "LC_ALL": "C"}).stdout
    versions = [re.fullmatch(r"GLIBC_(\d+)\.(\d+)(\.\d+)?", it) for it in re.findall(r"  Name: (\S+)  Flags:", said)]
    if set(re.findall(r"\(NEEDED\).*\[(.*)\]", said)) - {"libc.so.6"} or not all(versions):
        return ["linux_x86_64"]
    least = max(((int(it[1]), int(it[2])) for it in versions), default=(2, 5))
    least = next((it for it in NAMES if it >= least), least)
    return [f"manylinux_{least[0]}_{least[1]}_x86_64", *([f"{NAMES[least]}_x86_64"] if least in NAMES else [])]


def metadata(project):
    lines = ["Metadata-Version: 2.1", f"Name: {project['name']}", f"Version: {project['version']}"]
    lines += [f"Summary: {project['description']}", f"License: {project['license']}", f"Requires-Python: {project['requires-python']}"]
    lines += [f"Keywords: {','.join(project['keywords'])}", "Description-Content-Type: text/markdown"]
    lines += [f"Classifier: {it}" for it in project["classifiers"]]
    return "\n".join(lines) + "\n\n" + (HERE / project["readme"]).read_text()


def contents(project, info, tags):
    """The files of the wheel but the last, which lists them."""
    files = {f"xmas_elf/{it.name}": it.read_bytes() for it in sorted(PACKAGE.iterdir()) if it.is_file()}
    files[f"{info}/METADATA"] = metadata(project).encode()
    said = "".join(f"Tag: py3-none-{it}\n" for it in tags)
    files[f"{info}/WHEEL"] = f"Wheel-Version: 1.0\nGenerator: xmas_elf\nRoot-Is-Purelib: false\n{said}".encode()
    for name in ("LICENSE-APACHE", "LICENSE-MIT"):
        files[f"{info}/licenses/{name}"] = (ROOT / name).read_bytes()
    return files


def record(files, info):
    rows = []
    for name, data in files.items():
        digest = base64.urlsafe_b64encode(hashlib.sha256(data).digest()).rstrip(b"=").decode()
        rows.append(f"{name},sha256={digest},{len(data)}\n")
    return "".join(rows) + f"{info}/RECORD,,\n"


def build_wheel(wheel_directory, config_settings=None, metadata_directory=None):
    """Writes the wheel, and results its name. The same files make the same bytes."""
    build_library()
    project = tomllib.loads((HERE / "pyproject.toml").read_text())["project"]
    stem = f"{project['name']}-{project['version']}"
    tags = platforms()
    files = contents(project, f"{stem}.dist-info", tags)
    files[f"{stem}.dist-info/RECORD"] = record(files, f"{stem}.dist-info").encode()
    name = f"{stem}-py3-none-{'.'.join(tags)}.whl"
    with zipfile.ZipFile(pathlib.Path(wheel_directory) / name, "w", zipfile.ZIP_DEFLATED) as wheel:
        for path, data in files.items():
            entry = zipfile.ZipInfo(path)
            entry.external_attr = 0o100644 << 16
            entry.compress_type = zipfile.ZIP_DEFLATED
            wheel.writestr(entry, data)
    return name


def build_sdist(sdist_directory, config_settings=None):
    raise RuntimeError("the package is built in a clone of the repository: it has no source distribution")


if __name__ == "__main__":
    if len(sys.argv) > 1:
        print(build_wheel(sys.argv[1]))
    else:
        build_library()
