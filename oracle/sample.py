#!/usr/bin/env python3
"""Makes the fixed sample that `rt ci` compares: small files, and the Rust crate's results over them.

    oracle/sample.py [FOLDER]        FOLDER: where the crate's files are, as for build.sh

The files and the list of them go to crates/elfanswers/data and args, the crate's results as they are to
oracle/sample/NAME.txt. crates/elfanswers/stdout has the same lines, but for those where the library does
otherwise: a panic is an error there, and the like. `tools/compare/rust.py` has to know each of these
differences by name, or nothing is written.
"""
import pathlib
import subprocess
import sys

TOP = pathlib.Path(__file__).resolve().parent.parent
sys.path.insert(0, str(TOP / "tools" / "compare"))
import rust
import damage

CRATE = TOP / "crates" / "elfanswers"
TEXTS = TOP / "oracle" / "sample"

# What is in each file beside the names of its sections.
FILES = {
    "symbols": (".strtab", ".symtab"),
    "dynamic": (".dynstr", ".dynsym", ".hash", ".dynamic"),
    "notes": (".note.gnu.build-id", ".gnu_debuglink", ".gnu_debugaltlink"),
    "relocations": (".rela.text", ".rel.text", ".group", ".init_array"),
    "others": (".symtab_shndx", ".bss", ".relr.dyn", ".comment", ".texts"),
}


def sample():
    for name, sections in FILES.items():
        for wide in (False, True):
            yield f"{name}-{64 if wide else 32}", damage.worked(wide, "little", only=sections)
    yield "cut", damage.worked(True, "little", only=FILES["symbols"])[:-70]
    for k, seed in enumerate((3, 17, 40)):
        small = damage.worked(k % 2 == 0, "little", only=FILES["dynamic"])
        yield f"damaged-{seed}", damage.mutated(small, damage.randoms.Random(f"sample/{seed}"))


def main() -> int:
    programs = [rust.built(sys.argv[1] if len(sys.argv) > 1 else None), str(rust.OURS)]
    held, told = dict(sample()), {}
    tally = rust.Tally()
    (CRATE / "data").mkdir(exist_ok=True)
    for name, data in held.items():
        path = CRATE / "data" / f"{name}.elf"
        path.write_bytes(data)
        ran = [subprocess.run([it, path.name], cwd=path.parent, capture_output=True, check=False).stdout for it in programs]
        told[name] = [it.decode("utf-8", "replace") for it in ran]
        tally.compare(name, *(rust.results_in(it)[0] for it in told[name]))
    tally.told()
    if tally.left:
        return 1
    TEXTS.mkdir(exist_ok=True)
    for name, (theirs, _) in told.items():
        (TEXTS / f"{name}.txt").write_text(theirs)
    # The rows of `oracle/rows.py` come after the sample.
    for name, own in (("stdout", "".join(ours for _, ours in told.values())), ("args", "".join(f"{name}.elf\n" for name in held))):
        rows = [line for line in (CRATE / name).read_text().splitlines(True) if ".rows" in line]
        (CRATE / name).write_text("".join([own, *rows]))
    return 0


if __name__ == "__main__":
    sys.exit(main())
