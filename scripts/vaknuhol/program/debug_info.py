"""What the debugging information of a program tells: the lines of its code, its functions, and the calls inlined in
them.

It is read by the program vaknuhol-lines (native/vaknuhol-lines/tables.h has the form), and stands here in arrays.
"""
import array
import bisect
import functools
import os
import struct
import subprocess

from vaknuhol.arguments import Refusal
from vaknuhol.native import program
from vaknuhol.program.settled import own_file

MAGIC, FORM, HEAD = b"VAKLINES", 2, struct.Struct("<Q")
INLINED, ARTIFICIAL, RETURNS_VALUE = 1, 2, 4
# The tables in order, with the types of module array.
TABLES = (("text", "B"), ("file_name", "I"),
          ("piece_low", "Q"), ("piece_high", "Q"), ("piece_file", "I"), ("piece_line", "I"), ("piece_column", "H"),
          ("piece_begins", "B"),
          ("point_at", "Q"), ("point_file", "I"), ("point_line", "I"), ("point_column", "H"), ("point_begins", "B"),
          ("point_view", "I"),
          ("parent", "I"), ("name", "I"), ("file", "I"), ("line", "I"), ("call_file", "I"), ("call_line", "I"),
          ("entry", "Q"),
          ("view", "I"), ("kind", "B"), ("ranges", "I"), ("range_low", "Q"), ("range_high", "Q"))


def tables_of(path: str) -> dict[str, "array.array[int]"]:
    """The tables of a program, by their names."""
    own = own_file(path)
    done = subprocess.run([program("vaknuhol-lines"), own.path], capture_output=True, check=False)
    if done.returncode:
        why = (done.stderr.decode(errors="replace").strip() or "no reason").splitlines()[-1]
        raise Refusal(f"{path}: its debugging information can't be read ({why.rpartition(': ')[2]}): build it by "
                      "-gdwarf-5, or strip it")
    data, at, found = memoryview(done.stdout), 16, {}
    if bytes(data[:8]) != MAGIC or HEAD.unpack_from(data, 8)[0] != FORM:
        raise Refusal("vaknuhol-lines is of another version than these scripts: install the package again")
    for name, kind in TABLES:
        length, = HEAD.unpack_from(data, at)
        found[name] = array.array(kind)
        found[name].frombytes(data[at + 8:at + 8 + length])
        at += 8 + length + -length % 8
    if own.base:
        for name, kind in TABLES:
            if kind == "Q":  # an address; an entry that isn't told is 0
                found[name] = array.array(kind, (it and it + own.base for it in found[name]))
    return found


class DebugInfo:
    """Arrays by the names of TABLES. An instance is a function with code, or an inlined call, which may have none left
    but an entry; its number is its place in the tables + 1, as `parent` has it, and 0 is none. Files are numbers of
    `files`."""
    piece_low: "array.array[int]"
    piece_high: "array.array[int]"
    piece_file: "array.array[int]"
    piece_line: "array.array[int]"
    piece_column: "array.array[int]"
    piece_begins: "array.array[int]"
    point_at: "array.array[int]"
    point_file: "array.array[int]"
    point_line: "array.array[int]"
    point_column: "array.array[int]"
    point_begins: "array.array[int]"
    point_view: "array.array[int]"
    parent: "array.array[int]"
    name: "array.array[int]"
    file: "array.array[int]"
    line: "array.array[int]"
    call_file: "array.array[int]"
    call_line: "array.array[int]"
    entry: "array.array[int]"
    view: "array.array[int]"
    kind: "array.array[int]"
    ranges: "array.array[int]"
    range_low: "array.array[int]"
    range_high: "array.array[int]"

    def __init__(self, path: str) -> None:
        found = tables_of(path)
        self.text = found.pop("text").tobytes()
        names = [os.path.normpath(self.text_at(at)) for at in found.pop("file_name")]
        for table, values in found.items():
            setattr(self, table, values)
        numbers: dict[str, int] = {}
        same = [numbers.setdefault(name, len(numbers)) for name in names]
        self.files = list(numbers)
        for table in ("piece_file", "point_file", "file", "call_file"):
            setattr(self, table, array.array("I", (same[number] for number in found[table])) if same else found[table])
        self.first_range = array.array("I", [0])
        for count in self.ranges:
            self.first_range.append(self.first_range[-1] + count)

    def text_at(self, at: int) -> str:
        return self.text[at:self.text.index(0, at)].decode(errors="replace")

    def name_of(self, instance: int) -> str:
        return self.text_at(self.name[instance - 1])

    def instances(self) -> range:
        return range(1, len(self.parent) + 1)

    def ranges_of(self, instance: int) -> list[tuple[int, int]]:
        first, behind = self.first_range[instance - 1], self.first_range[instance]
        return list(zip(self.range_low[first:behind], self.range_high[first:behind]))

    def place_of(self, address: int) -> tuple[str, int] | None:
        """The file and the line of the code at an address; None where it belongs to no line."""
        at = bisect.bisect_right(self.piece_low, address) - 1
        if at < 0 or address >= self.piece_high[at] or not self.piece_line[at]:
            return None
        return self.files[self.piece_file[at]], self.piece_line[at]

    @functools.cached_property
    def innermost(self) -> "tuple[array.array[int], array.array[int]]":
        """Where the innermost instance changes, and which it is from there on; of ranges that begin together the later
        number is inside."""
        ends: dict[int, list[tuple[int, int]]] = {}
        for instance in self.instances():
            for low, high in self.ranges_of(instance):
                ends.setdefault(low, []).append((1, instance))
                ends.setdefault(high, []).append((0, instance))
        live: set[int] = set()
        cuts, inner = array.array("Q"), array.array("I")
        for address in sorted(ends):
            for begins, instance in sorted(ends[address]):
                (live.add if begins else live.discard)(instance)
            cuts.append(address)
            inner.append(max(live, default=0))
        return cuts, inner

    @functools.cached_property
    def calls_at(self) -> dict[int, list[int]]:
        """The inlined calls by the addresses of their entries."""
        found: dict[int, list[int]] = {}
        for instance in self.instances():
            if self.kind[instance - 1] & INLINED and self.entry[instance - 1]:
                found.setdefault(self.entry[instance - 1], []).append(instance)
        return found

    @functools.cached_property
    def ended_at(self) -> dict[int, list[int]]:
        """The inlined calls by the addresses where code of them ends, the innermost first."""
        found: dict[int, list[int]] = {}
        for instance in reversed(self.instances()):
            for _, end in self.ranges_of(instance) if self.kind[instance - 1] & INLINED else ():
                found.setdefault(end, []).append(instance)
        return found

    def has_ended(self, call: int, address: int) -> bool:
        """Whether code of a call ends at an address that isn't in it, and at which it isn't entered."""
        return (call in self.ended_at.get(address, ()) and self.entry[call - 1] != address
                and call not in self.chain(self.instance_at(address)))

    @functools.cached_property
    def entered_at(self) -> dict[int, list[int]]:
        """The inlined calls that have no code where they are entered, by the addresses of that."""
        found: dict[int, list[int]] = {}
        for instance in self.instances():
            entry = self.entry[instance - 1]
            is_within = any(low <= entry < high for low, high in self.ranges_of(instance))
            if self.kind[instance - 1] & INLINED and not is_within:
                found.setdefault(entry, []).append(instance)
        return found

    def around(self, address: int, view: int) -> list[int]:
        """The instances to which a row may belong, from the innermost on: those that are entered at its address and not
        behind it, the last first, then those around the address."""
        chain = self.chain(self.instance_at(address))
        entered = [instance for instance in (*self.entered_at.get(address, ()), *chain)
                   if self.is_entered(instance, address)]
        behind = {instance for instance in entered if self.view[instance - 1] > view}
        before = sorted((instance for instance in entered if instance not in behind),
                        key=lambda instance: (-self.view[instance - 1], -instance))
        return before + [instance for instance in chain if instance not in entered]

    def chain(self, instance: int) -> list[int]:
        """An instance and those around it."""
        found = []
        while instance:
            found.append(instance)
            instance = self.parent[instance - 1]
        return found

    def is_entered(self, instance: int, address: int) -> bool:
        return self.entry[instance - 1] == address and bool(self.kind[instance - 1] & INLINED)

    def instance_at(self, address: int) -> int:
        """The innermost function or inlined call around an address, or 0."""
        cuts, inner = self.innermost
        at = bisect.bisect_right(cuts, address) - 1
        return inner[at] if at >= 0 else 0


@functools.lru_cache(maxsize=2)
def read_as_it_stands(path: str, size: int, changed: int) -> DebugInfo:
    return DebugInfo(path)


def debug_info(path: str) -> DebugInfo:
    """The debugging information of a program, read once as long as its file stays the same."""
    try:
        state = os.stat(path)
    except OSError as error:
        raise Refusal(f"{path}: {error.strerror}") from None
    return read_as_it_stands(os.path.realpath(path), state.st_size, state.st_mtime_ns)
