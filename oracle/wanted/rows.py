"""The text of rows, as `crates/elfanswers/src/rows.rt` reads it."""
from wanted.files import BASES, File


class Rows:
    def __init__(self):
        self.lines, self.count = [], 0

    def text(self) -> str:
        return "".join(f"{line}\n" for line in self.lines)

    def case(self, name: str):
        """What the rows from here on are called."""
        self.lines.append(f"case {name}")

    def file(self, base: str, changed: File = None):
        """The file that the rows from here on are of: one of `BASES`, or that with changed bytes."""
        self.lines.append(f"file {base}.elf")
        if changed is None:
            return
        whole, start = BASES[base], None
        assert len(changed) == len(whole)
        for k in range(len(whole) + 1):
            differs = k < len(whole) and changed[k] != whole[k]
            if differs and start is None:
                start = k
            elif not differs and start is not None:
                self.lines.append(f"put {start} {changed[start:k].hex()}")
                start = None

    def of(self, base: str, *changes) -> File:
        """The same, where each change is a kind of record, where it begins, and its fields with their numbers."""
        changed = BASES[base].copy()
        for kind, start, numbers in changes:
            changed.set(kind, start, **numbers)
        self.file(base, changed)
        return changed

    def cut(self, first: int, last: int = None):
        """Only so many bytes of the file; also each number from one to another."""
        self.lines.append(f"len {first} {first if last is None else last}")

    def under(self, base: str):
        """Read by the header of another file."""
        self.lines.append(f"under {base}.elf")

    def class_(self, number: int):
        """Read as of another class."""
        self.lines.append(f"class {number}")

    def record(self, kind: str, data: bytes):
        """A header or a table that isn't the file's."""
        self.lines.append(f"record {kind} {data.hex()}")

    def symbols(self, data: bytes):
        """The symbols of a hash table, which is the record."""
        self.lines.append(f"symbols {data.hex()}")

    def want(self, call: str, result):
        """The result that is wanted of a call. No result is empty, as that to an unknown call is."""
        assert str(result), call
        self.lines.append(f"is {call} = {result}")
        self.count += 1

    def want_all(self, results: dict):
        for call, result in results.items():
            self.want(call, result)

    def want_by_length(self, results: dict):
        """The results by the number of bytes that are left of the file; the same ones of several numbers as one row."""
        calls = dict.fromkeys(call for of in results.values() for call in of)
        for call in calls:
            lengths = sorted(length for length in results if call in results[length])
            first = lengths[0]
            for length, after in zip(lengths, [*lengths[1:], None]):
                result = results[length][call]
                if after != length + 1 or results[after].get(call) != result:
                    self.cut(first, length)
                    self.want(call, result)
                    first = after
