"""Processes of programs, each stopped on its way to its own code, with what they have in memory.

    process = Stopped("/usr/bin/ls", LD_BIND_NOW="1")          by ptrace, at exec
    process = Emulated("root/usr/bin/ls", "root")              of AArch64, by the debugging stub of qemu-aarch64, before its start
    process.to_read_only(), to_debug_state(process)            where the linker makes pages read-only, and where relocation is done
    process.maps(), process.memory(address, 8)

The folder `root` holds the files of a system of AArch64. qemu maps each file at the same addresses in a process of its own.
"""
import contextlib
import ctypes
import functools
import os
import platform
import re
import signal
import socket
import struct
import subprocess
import tempfile
import time
from collections import namedtuple
from pathlib import Path

from comparing import UNDEFINED, dynamic_symbols, read_elf, run

PAGE = 4096
real = functools.lru_cache(maxsize=None)(os.path.realpath)
MAPPED = re.compile(r"^([0-9a-f]+)-([0-9a-f]+) (...). ([0-9a-f]+) \S+ \d+ *(.*)$")

# Requests of ptrace, and the call mprotect of x86-64 and of 386 with PROT_READ.
TRACE_ME, WRITE_WORD, WRITE_REGISTER, CONTINUE, REGISTERS, STEP_TO_CALL = 0, 5, 6, 7, 12, 24
MPROTECT, NARROW_MPROTECT, READ_ALONE = 10, 125, 1
# The places of registers in user_regs_struct of x86-64, and the numbers AT_BASE and AT_ENTRY of the auxiliary vector.
THIRD, NUMBER, POINTER = 12, 15, 16
LINKER_BASE, ENTRY = 7, 9


# A mapping: its addresses, its permissions, its offset in the file, and what it holds: for elfload `file`, `zero` or `none`, in
# /proc/PID/maps the path of a file.
Mapping = namedtuple("Mapping", "start end flags offset holds")


def mapping_of(found: "re.Match") -> Mapping:
    start, end, flags, offset, holds = found.groups()
    return Mapping(int(start, 16), int(end, 16), flags, int(offset, 16), holds)


@functools.lru_cache(maxsize=8)
def content_of(path: str) -> bytes:
    return Path(path).read_bytes()


def is_narrow(path: str) -> bool:
    """Whether a file is of class 32."""
    with open(path, "rb") as file:
        return file.read(5)[4:] == b"\x01"


def linker_of(path: str) -> str | None:
    """The linker that a dynamically linked program names, if the file is one."""
    said = run(["readelf", "-lW", "--", path]).output if read_elf(path) else ""
    found = re.search(r"\[Requesting program interpreter: (.*)\]$", said, re.M)
    return found[1] if found and re.search(r"^  DYNAMIC ", said, re.M) else None


def programs_in(paths: list[str]) -> list[str]:
    """The dynamically linked programs among these and in the folders among these, each once."""
    files = [[path] if not os.path.isdir(path) else sorted({real(it.path) for it in os.scandir(path) if it.is_file()}) for path in paths]
    return [it for it in dict.fromkeys(real(it) for some in files for it in some) if linker_of(it)]


class Stopped:
    """A process that is stopped at exec."""

    def __init__(self, path: str, **variables: str) -> None:
        self.libc = ctypes.CDLL(None, use_errno=True)
        self.libc.ptrace.restype, self.libc.ptrace.argtypes = ctypes.c_long, [ctypes.c_long, ctypes.c_long, ctypes.c_void_p, ctypes.c_void_p]
        reader, writer = os.pipe()
        self.is_narrow = is_narrow(path)
        self.pid = os.fork()
        if not self.pid:
            os.dup2(writer, 2)
            null = os.open(os.devnull, os.O_RDWR)
            os.dup2(null, 0)
            os.dup2(null, 1)
            self.libc.ptrace(TRACE_ME, 0, None, None)
            try:
                os.execve(path, [path], {"LC_ALL": "C", **variables})
            except OSError as error:
                os.write(2, f"{error.strerror}\n".encode())
            os._exit(127)
        os.close(writer)
        self.errors, self.status = os.fdopen(reader, "rb"), 0
        self.wait()

    def wait(self) -> bool:
        """Waits for the next stop; whether there is one."""
        self.status = os.waitpid(self.pid, 0)[1]
        return self.is_stopped()

    def is_stopped(self) -> bool:
        return os.WIFSTOPPED(self.status)

    def signal(self) -> int:
        return os.WSTOPSIG(self.status) if self.is_stopped() else 0

    def go(self, how: int) -> bool:
        self.libc.ptrace(how, self.pid, None, None)
        return self.wait()

    def registers(self) -> tuple[int, ...]:
        held = (ctypes.c_ulonglong * 27)()
        self.libc.ptrace(REGISTERS, self.pid, None, ctypes.byref(held))
        return tuple(held)

    def to_read_only(self) -> bool:
        """Runs up to the first call that makes pages read-only; False if the process ends or gets a signal before."""
        while self.go(STEP_TO_CALL):
            if self.signal() != signal.SIGTRAP:
                return False
            held = self.registers()
            if held[NUMBER] == (NARROW_MPROTECT if self.is_narrow else MPROTECT) and held[THIRD] == READ_ALONE:
                return True
        return False

    def stop_at(self, address: int) -> bytes:
        """Has the process stop at an address, and returns the bytes that were there."""
        word = self.memory(address, 8)
        self.libc.ptrace(WRITE_WORD, self.pid, address, int.from_bytes(b"\xcc" + word[1:], "little"))
        return word

    def to_address(self, address: int) -> bool:
        """Runs up to an address, from where the process can go on; False if it stops elsewhere before."""
        word = self.stop_at(address)
        reached = self.go(CONTINUE) and self.signal() == signal.SIGTRAP and self.registers()[POINTER] == address + 1
        if reached:
            self.libc.ptrace(WRITE_WORD, self.pid, address, int.from_bytes(word, "little"))
            self.libc.ptrace(WRITE_REGISTER, self.pid, 8 * POINTER, address)
        return reached

    def memory(self, start: int, size: int) -> bytes:
        """The bytes at an address, up to the first that can't be read."""
        with open(f"/proc/{self.pid}/mem", "rb", buffering=0) as held:
            held.seek(start)
            found = bytearray()
            with contextlib.suppress(OSError):
                while len(found) < size and (part := held.read(size - len(found))):
                    found += part
            return bytes(found)

    def maps(self) -> list[Mapping]:
        lines = Path(f"/proc/{self.pid}/maps").read_text("utf-8", "surrogateescape").split("\n")
        return [mapping_of(MAPPED.match(it)) for it in lines[:-1]]

    def auxiliary(self, kind: int) -> int:
        """An entry of the auxiliary vector, as LINKER_BASE."""
        held = Path(f"/proc/{self.pid}/auxv").read_bytes()
        return dict(struct.iter_unpack("<II" if self.is_narrow else "<QQ", held)).get(kind, 0)

    def end(self) -> str:
        """Ends the process, and returns what it has said."""
        if not os.WIFEXITED(self.status) and not os.WIFSIGNALED(self.status):
            os.kill(self.pid, signal.SIGKILL)
            while not os.WIFSIGNALED(self.status) and not os.WIFEXITED(self.status):
                self.wait()
        said = self.errors.read().decode("utf-8", "replace")
        self.errors.close()
        return said


def linker_in(process: Stopped, maps: list[Mapping]) -> tuple[str, int]:
    """The dynamic linker that Linux has mapped for a process, if there is one, and its base."""
    base = process.auxiliary(LINKER_BASE)
    return next((it.holds for it in maps if it.start <= base < it.end), ""), base


@functools.lru_cache(maxsize=None)
def value_of(path: str, name: str) -> int | None:
    """The value of a dynamic symbol, as readelf says."""
    return next((it.value for it in dynamic_symbols(path) if it.name == name and it.section != UNDEFINED), None)


def to_debug_state(process: Stopped) -> bool:
    """Runs up to the function that the linker calls before it maps libraries, and once relocation is done."""
    linker, base = linker_in(process, process.maps())
    state = value_of(linker, "_dl_debug_state")
    return state is not None and process.to_address(base + state)


def can_trace() -> bool:
    if platform.machine() != "x86_64":
        return False
    process = Stopped("/bin/true")
    stopped = process.signal() == signal.SIGTRAP and bool(process.maps())
    process.end()
    return stopped


EMULATOR = "qemu-aarch64"
# What the stub says: a breakpoint is set or deleted; the process has stopped by the signal SIGTRAP.
DONE, STOPPED = "OK", f"T{signal.SIGTRAP:02x}"
# How long the stub may take to be there, and to reply.
SECONDS = 60.0


class Emulated(Stopped):
    """A process that is stopped before its first instruction."""

    def __init__(self, path: str, root: str, **variables: str) -> None:  # pylint: disable=super-init-not-called
        self.is_narrow, self.root, self.room = False, root, tempfile.TemporaryDirectory()
        stub = os.path.join(self.room.name, "stub")
        held = [word for name, value in {"LC_ALL": "C", **variables}.items() for word in ("-E", f"{name}={value}")]
        self.process = subprocess.Popen([EMULATOR, "-L", root, *held, "-g", stub, path], env={}, stdin=subprocess.DEVNULL,
            stdout=subprocess.DEVNULL, stderr=subprocess.DEVNULL)
        self.pid, self.stub, self.left = self.process.pid, socket.socket(socket.AF_UNIX), b""
        self.stub.settimeout(SECONDS)
        began = time.monotonic()
        while self.process.poll() is None and time.monotonic() - began < SECONDS:
            with contextlib.suppress(FileNotFoundError, ConnectionRefusedError):
                self.stub.connect(stub)
                break
            time.sleep(0.005)

    def is_stopped(self) -> bool:
        return self.process.poll() is None

    def ask(self, text: str) -> str:
        """What the stub replies to a packet: `$text#sum`, which it confirms by `+`. Empty where it has ended."""
        try:
            self.stub.sendall(b"$%s#%02x" % (text.encode(), sum(text.encode()) % 256))
            while b"#" not in self.left or len(self.left) < self.left.index(b"#") + 3:
                part = self.stub.recv(4096)
                if not part:
                    return ""
                self.left += part
            said, _, self.left = self.left.partition(b"#")
            self.left = self.left[2:]
            self.stub.sendall(b"+")
        except OSError:
            return ""
        return said.partition(b"$")[2].decode("latin-1")

    def to_relocated(self, linker: str) -> tuple[str, int] | None:
        """Runs up to where relocation is done and no constructor has run; the linker and its base, if the process gets there."""
        base = min((it.start for it in self.maps() if it.holds == linker), default=None)
        state = value_of(linker, "_dl_debug_state")
        if base is None or state is None:
            return None
        # The linker calls it before it maps libraries, and once relocation is done.
        at = f"0,{base + state:x},4"
        # A step leaves the address, where the process would stop again.
        is_there = all(self.ask(it).startswith(wanted) for it, wanted in (
            (f"Z{at}", DONE), ("c", STOPPED), (f"z{at}", DONE), ("s", STOPPED), (f"Z{at}", DONE), ("c", STOPPED)))
        return (linker, base) if is_there else None

    def end(self) -> str:
        self.stub.close()
        self.process.kill()
        self.process.wait()
        self.room.cleanup()
        return ""
