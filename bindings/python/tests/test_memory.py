"""The recipe for the memory of a process, beside a process that has done nothing yet."""
import collections
import re
import subprocess
import sys

import pytest
from conftest import PYTHON

import xmas_elf
from xmas_elf import ElfFile, constants

# A process that prints the path and the base of each of its objects, in the order in which they are loaded, and waits.
PROGRAM = """#define _GNU_SOURCE
#include <link.h>
#include <stdio.h>
#include <unistd.h>
extern __thread int far_one, far_two;
extern int twice(int);
static __thread long near[5] = {1};
const char *const texts[] = {"one", "two"};
static int print(struct dl_phdr_info *it, size_t size, void *path)
{
    return printf("%s %lx\\n", it->dlpi_name[0] ? it->dlpi_name : (char *)path, (long)it->dlpi_addr) < 0;
}
int main(int count, char **words)
{
    dl_iterate_phdr(print, words[0]);
    fflush(stdout);
    near[1] = far_one + far_two + twice(count);
    return (int)read(0, near, 1);
}
"""
LIBRARY = """
__thread int far_one = 1, far_two __attribute__((aligned(64)));
static __thread char more[3] = {1};
int *numbers(void) { static int held[3]; return held; }
int *(*const ask)(void) = numbers;
int twice(int it) { return 2 * it + *ask()() + more[it]; }
""".replace("*ask()()", "*ask()")


@pytest.fixture
def process(tmp_path):
    (tmp_path / "a.c").write_text(PROGRAM)
    (tmp_path / "b.c").write_text(LIBRARY)
    build = lambda *words: subprocess.run(["gcc", "-O1", *words, "-Wl,-z,relro,-z,now"], check=True, cwd=tmp_path)  # noqa: E731
    build("-shared", "-fPIC", "b.c", "-o", "libb.so")
    build("-fPIE", "-pie", "a.c", "-o", "a", f"-L{tmp_path}", "-lb", f"-Wl,-rpath,{tmp_path}")
    with subprocess.Popen([tmp_path / "a"], stdin=subprocess.PIPE, stdout=subprocess.PIPE, text=True) as running:
        yield running
        running.stdin.close()


def pairs_of(running):
    """The path and the base of each object that has a file."""
    found = []
    while not found or "ld-linux" not in found[-1][0]:
        path, base = running.stdout.readline().split()
        if path.startswith("/"):
            found.append((path, base))
    return found


def test_images_are_the_memory_of_the_process(process):
    """All that relocations write and that is only readable after them: the words without a number are other ones there."""
    program = re.findall(r"^```python$(.*?)^```$", (PYTHON / "README.md").read_text(), re.M | re.S)[2]
    pairs, held = pairs_of(process), {"__name__": "recipe"}
    words, sys.argv = sys.argv, ["recipe", *(it for pair in pairs for it in pair)]
    try:
        exec(program, held)
    finally:
        sys.argv = words
    # One call for all objects writes the same.
    found = xmas_elf.relocate_all(held["objects"])
    assert [bytes(it) for it in found.images] == [bytes(it.image) for it in held["objects"]]
    kinds = collections.Counter()
    with open(f"/proc/{process.pid}/mem", "rb") as memory:
        for it, (path, _) in zip(held["objects"], pairs):
            # The linker and the C library write more of their own.
            if "/ld-linux" in path or "/libc." in path:
                continue
            plan = it.file.load_plan()
            numberless = xmas_elf.relocate(held["objects"], held["objects"].index(it), bytearray(it.image))
            different = 0
            for relocation in it.file.relocations():
                if plan.relro.start <= relocation.offset and relocation.offset + 8 <= plan.relro.end:
                    memory.seek(it.base + relocation.offset)
                    at = relocation.offset - plan.span.start
                    kinds[relocation.type.name] += 1
                    different += memory.read(8) != it.image[at : at + 8]
            assert different <= numberless, path
    assert len(pairs) > 3 and {"R_X86_64_RELATIVE", "R_X86_64_GLOB_DAT", "R_X86_64_TPOFF64", "R_X86_64_DTPMOD64"} <= set(kinds)


def test_storage_of_other_machines(tmp_path):
    """The numbers are those of x86 alone."""
    data = bytearray(open("/proc/self/exe", "rb").read())
    data[18:20] = int(constants.EM_AARCH64).to_bytes(2, "little")
    with pytest.raises(xmas_elf.ElfError, match="Machine is not supported"):
        xmas_elf.with_thread_storage([xmas_elf.LoadObject(ElfFile(bytes(data)))])
