"""Files that the test of the page opens beside those of the system."""
import random
import shutil
import subprocess

import comparing
import damage

# The machines, of both classes and both byte orders, that Clang builds files for, each with whether lld links them.
MACHINES = {"i386": True, "armv7": True, "aarch64": True, "aarch64_be": True, "powerpc": True, "powerpc64": True,
            "powerpc64le": True, "riscv32": True, "riscv64": True, "mips": False, "mipsel": False, "s390x": False}
SOURCE = """
extern int outer(const char *text, unsigned long size);
static int counter = 3;
const char *const words[] = {"one", "two", "three"};
__thread int own = 1;
int table[64];
int *pointers[] = {&counter, table};
__attribute__((weak)) int weak(int x) { return x + own; }
int run(int x) { for (int k = 0; k < 3; k++) counter += outer(words[k], k) + weak(x); return table[x & 63] + counter; }
"""
PROGRAM = """
static int inner(int number) { return number * 3 + 1; }
int (*volatile outer)(int) = inner;
int main(int count, char **words) { return outer(count) + words[0][0]; }
"""

# A program that ends with the status 42, wherever it is.
MOVED = ".globl _start\n_start: mov $60, %eax\n mov $42, %edi\n syscall\n"

# How programs are linked that are hardened in different ways.
WAYS = (["-no-pie"], ["-pie", "-Wl,-z,norelro"], ["-Wl,-z,relro,-z,lazy"], ["-Wl,-z,relro,-z,now"], ["-z", "execstack"],
        ["-nostdlib", "-no-pie", "-Wl,-N,-e,main"], ["-fstack-protector-all"], ["-fcf-protection=full", "-static-pie"])

# Texts that are markup where a page takes them for it.
MARKUP = ("<script>alert(1)</script>", "<img src=x onerror=alert(1)>", "\"><svg onload=alert(1)>", "</div><b>x<", "&lt;i&gt;&#0;")
LAYOUT = damage.Layout(True, "little")


def of_other_machines(room):
    """Object files and shared objects for other machines, where Clang is installed."""
    source, found = room / "machines.c", []
    if not shutil.which("clang"):
        return found
    source.write_text(SOURCE)
    for machine, links in MACHINES.items():
        kinds = {"o": ["-c", "-g"], "so": ["-shared", "-nostdlib", "-fuse-ld=lld", "-Wl,--hash-style=both,--build-id"]}
        for kind in ("o", "so") if links and shutil.which("ld.lld") else ("o",):
            path = room / f"{machine}.{kind}"
            command = ["clang", "-target", f"{machine}-linux-gnu", "-O1", "-fPIC", *kinds[kind], str(source), "-o", str(path)]
            if subprocess.run(command, capture_output=True).returncode == 0:
                found.append(path)
    return found


def compiled(path, source, *words):
    """What gcc makes of a source."""
    subprocess.run(["gcc", "-x", "c", "-", "-o", path, *words], input=source, text=True, check=True, capture_output=True)
    return path


def programs(room):
    """A program and an object file, each with two functions."""
    return compiled(room / "named", PROGRAM, "-O0"), compiled(room / "named.o", PROGRAM, "-O0", "-c")


def hardened(room):
    """A program for each way, and an object file."""
    return [compiled(room / f"hardened-{index}.elf", "int main(void) { return 0; }\n", *words) for index, words in enumerate([*WAYS, ["-c"]])]


def packed(room):
    """A program at any address without dynamic entries, as packers make them. Linux starts it."""
    plain = room / "plain"
    command = ["gcc", "-nostdlib", "-static", "-no-pie", "-x", "assembler", "-", "-o", plain]
    subprocess.run(command, input=MOVED, text=True, check=True)
    path = changed(room, plain, "packed", lambda data: data[:16] + b"\3" + data[17:])
    path.chmod(0o755)
    assert subprocess.run([path]).returncode == 42
    return path


def written(path, data):
    path.write_bytes(data)
    return path


def changed(room, path, name, change):
    """A copy of a file by another name, of which a function makes other bytes."""
    return written(room / name, change(path.read_bytes()))


def without_sections(room, path):
    return changed(room, path, f"bare-{path.name}", comparing.stripped)


def unread_symbols(room, path):
    """A file whose dynamic symbols are no section's: their section goes past the end of the file."""
    held = damage.Damage(path.read_bytes(), random)
    for base in held.sections:
        if held.of_section(base, "type") == 11:
            held.put_in(base, offset=1 << 40)
    return written(room / f"unread-{path.name}", held.data)


def wide_numbers(room, path):
    """An example whose section 14 and segment 6 have the greatest numbers in all their fields but the type."""
    held = damage.Damage(path.read_bytes(), random)
    for base, fields in ((held.sections[14], LAYOUT.section), (held.segments[6], LAYOUT.segment)):
        LAYOUT.fill(held.data, base, fields, **dict.fromkeys(set(fields) - {"type", "name"}, 2**64 - 1))
    return written(room / "wide-numbers.elf", held.data)


def slow_table(room):
    """A file whose hash table has 60,000 buckets that all lead to a chain of 60,000 symbols."""
    count = 60000
    chain = [0, *range(2, count), 0]
    return written(room / "slow-table.elf", damage.elf_file([
        (b".dynstr", 3, b"\0a\0", 0, 0),
        (b".dynsym", 11, LAYOUT.symbol(0, 0, 0, 0) + LAYOUT.symbol(1, 0x12, 1, 0) * (count - 1), 1, 24),
        (b".hash", 5, LAYOUT.words(count, count, *[1] * count, *chain), 2, 4)]))


def many_symbols(room, count):
    """A file of so many symbols, each with a name of its own."""
    held, places = damage.texts([b"symbol_%d" % at for at in range(1, count)])
    symbols = b"".join(LAYOUT.symbol(place, 0x12, 1, at) for at, place in enumerate(places))
    return written(room / "many-symbols.elf", damage.elf_file([
        (b".strtab", 3, held, 0, 0), (b".symtab", 2, LAYOUT.symbol(0, 0, 0, 0) + symbols, 1, 24)]))


def markup(room):
    """A file whose own name, sections, symbols, libraries and notes all have names that look like markup."""
    texts = [it.encode() for it in MARKUP]
    held, places = damage.texts(texts)
    symbols = LAYOUT.symbol(0, 0, 0, 0) + b"".join(LAYOUT.symbol(it, 0x12, 1 + at, at) for at, it in enumerate(places))
    tags = [*((1, it) for it in places), (14, places[0]), (29, places[1]), (0, 0)]
    owner = texts[1] + b"\0"
    note = LAYOUT.words(len(owner), 4, 1) + owner + bytes(-len(owner) % 4) + b"<b>\0"
    return written(room / "<img src=x onerror=alert(1)>.elf", damage.elf_file([
        (b".dynstr", 3, held, 0, 0), (b".dynsym", 11, symbols, 1, 24), (b".note", 7, note, 0, 0),
        (b".dynamic", 6, b"".join(LAYOUT.addresses(*it) for it in tags), 1, 16), *[(it, 1, b"<i>x</i>", 0, 0) for it in texts]]))
