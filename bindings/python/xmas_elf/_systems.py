"""What the loader of a machine has built in, as Debian 12 has it, and what the processor of this system has."""
from __future__ import annotations

from typing import List, NamedTuple

# The capability that stands for subdirectories of threads (`tls`).
_TLS = 1 << 63


class System(NamedTuple):
    """What the loader of a machine has built in; an empty text where nothing is known."""

    lib: bytes
    platform: bytes
    defaults: bytes
    interpreter: str
    flags: int
    other_flags: int
    bits: int


_SYSTEMS = {
    (2, 62): System(
        b"lib/x86_64-linux-gnu", b"x86_64", b"/lib/x86_64-linux-gnu:/usr/lib/x86_64-linux-gnu:/lib:/usr/lib",
        "/lib64/ld-linux-x86-64.so.2", 0x303, 0x303, _TLS | 2,
    ),
    (2, 183): System(
        b"lib/aarch64-linux-gnu", b"aarch64", b"/lib/aarch64-linux-gnu:/usr/lib/aarch64-linux-gnu:/lib:/usr/lib",
        "/lib/ld-linux-aarch64.so.1", 0xA03, 0xA03, _TLS,
    ),
    (1, 3): System(b"lib32", b"i686", b"/lib32:/usr/lib32:/lib:/usr/lib", "/lib/ld-linux.so.2", 3, 1, _TLS | 1),
}
_OTHER = System(b"", b"", b"/lib64:/usr/lib64:/lib:/usr/lib", "", 0xFFFFFFFF, 0xFFFFFFFF, _TLS)

# The features of the levels 2 to 4 of x86-64, as Linux names them.
_LEVELS = (
    {"cx16", "lahf_lm", "popcnt", "pni", "sse4_1", "sse4_2", "ssse3"},
    {"avx", "avx2", "bmi1", "bmi2", "f16c", "fma", "abm", "movbe"},
    {"avx512f", "avx512bw", "avx512cd", "avx512dq", "avx512vl"},
)
_HASWELL = {"avx2", "bmi1", "bmi2", "abm", "movbe", "popcnt"}
_AVX512 = {"avx512cd", "avx512bw", "avx512dq", "avx512vl"}


def system_of(file_class: int, machine: int) -> System:
    """The system of the programs of a class and a machine."""
    return _SYSTEMS.get((file_class, machine), _OTHER)


class Processor(NamedTuple):
    """What the processor has for which there are libraries of their own: its level of x86-64, 0 where libraries for processors aren't
    looked for; whether the platform is haswell; whether it has the part of AVX-512 for which glibc has a subdirectory; and whether its
    programs are those of 32-bit x86."""

    level: int = 0
    is_haswell: bool = False
    has_avx512: bool = False
    is_386: bool = False

    def for_programs(self, file_class: int, machine: int) -> "Processor":
        """What programs of a class and a machine have of it. Of one of 32-bit x86 the platform is `i686`, and no level counts."""
        if (file_class, machine) == (1, 3):
            return Processor(min(self.level, 1), is_386=True)
        return self if (file_class, machine) == (2, 62) else Processor()

    @property
    def platform(self) -> bytes:
        return b"haswell" if self.is_haswell else b""

    @property
    def levels(self) -> int:
        return (1 << max(self.level, 1)) - 1

    @property
    def bits(self) -> int:
        return 4 if self.has_avx512 else 0

    @property
    def platform_bit(self) -> int:
        return 1 << 50 if self.is_haswell else 1 << 49 if self.is_386 and self.level else 0

    @property
    def names(self) -> List[bytes]:
        """The active subdirectories of `glibc-hwcaps`, the best first."""
        return [b"x86-64-v%d" % level for level in range(self.level, 1, -1)]

    @property
    def subdirectories(self) -> List[bytes]:
        """All subdirectories in which a library is looked for, in order; the last is empty."""
        if not self.level:
            return [b""]
        own = [b"i686/", b"sse2/"] if self.is_386 else [b"haswell/" if self.is_haswell else b"x86_64/", *[b"avx512_1/"] * self.has_avx512, b"x86_64/"]
        words = [b"tls/", *own]
        places = range(len(words))
        sets = range((1 << len(words)) - 1, -1, -1)
        old = [b"".join(words[it] for it in places if chosen >> (len(words) - 1 - it) & 1) for chosen in sets]
        return [b"glibc-hwcaps/%s/" % name for name in self.names] + old


def own_processor() -> Processor:
    """The first processor that /proc/cpuinfo lists."""
    try:
        with open("/proc/cpuinfo", encoding="ascii", errors="replace") as stream:
            text = stream.read(1 << 14)
    except OSError:
        return Processor()
    lines = [line.partition(":") for line in text.split("\n\n")[0].splitlines()]
    values = {name.strip(): value.strip() for name, _, value in lines}
    if "flags" not in values:
        return Processor()
    flags, is_intel, level = set(values["flags"].split()), values.get("vendor_id") == "GenuineIntel", 1
    for names in _LEVELS:
        if not names <= flags:
            break
        level += 1
    return Processor(level, is_intel and _HASWELL <= flags, is_intel and _AVX512 <= flags and "avx512er" not in flags)
