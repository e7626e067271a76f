"""The disassembly of functions with the counts of their blocks and the lines of source between: what `vaknuhol
annotate` shows.

The texts of instructions are objdump's, and are shown only; nothing is decided by them.
"""
import bisect
import functools
import os
import re
from collections.abc import Iterator

from vaknuhol.arguments import Refusal
from vaknuhol.program.binutils import disassembly
from vaknuhol.program.debug_info import INLINED
from vaknuhol.program.function_names import spellings
from vaknuhol.program.functions import Functions
from vaknuhol.recording.record_file import Row
from vaknuhol.views.coverage import Coverage

LINE = re.compile(r" *([0-9a-f]+):\t(.*)")
ADDRESS = re.compile(r"(0x)?[0-9a-f]{1,16}", re.I)


class Block:
    """Where a block begins: its row of the record, None for what fills room between blocks."""
    __slots__ = ("row",)

    def __init__(self, row: Row) -> None:
        self.row = row


class Instruction:
    __slots__ = ("address", "text")

    def __init__(self, address: int, text: str) -> None:
        self.address, self.text = address, text


class Source:
    """A line of source, with its text where the file is here, and the inlined function that the code below comes
    from."""
    __slots__ = ("file", "line", "text", "inlined")

    def __init__(self, file: str, line: int, text: str, inlined: str) -> None:
        self.file, self.line, self.text, self.inlined = file, line, text, inlined


class Part:
    """A function, or a call that was inlined: its name, its ranges, how often it was entered, and how many instructions
    were executed."""
    __slots__ = ("name", "ranges", "entered", "work", "greatest", "around")

    def __init__(self, name: str, ranges: list[tuple[int, int]], around: str = "") -> None:
        self.name, self.ranges, self.around = name, ranges, around
        self.entered: int | None = None
        self.work, self.greatest = 0, 0


@functools.cache
def source_of(path: str) -> list[str]:
    try:
        with open(path, encoding="utf-8", errors="replace") as file:
            return file.read().splitlines()
    except OSError:
        return []


class Annotation:
    def __init__(self, coverage: Coverage) -> None:
        self.coverage, self.names = coverage, coverage.names()
        self.rows = coverage.record.rows
        self.firsts = [row.first for row in self.rows]
        self.known = Functions(coverage.listing)

    def functions(self) -> list[Part]:
        """All functions that have a block in the record, by how much of them was executed."""
        parts = [Part(self.known.name(low), [(low, high)]) for low, high in self.known.ranges()]
        kept = [part for part in parts if self.measure(part)]
        return sorted(kept, key=lambda part: -part.work)

    def inlined(self, name: str) -> list[Part]:
        """The inlined calls of a function."""
        info, names, parts = self.coverage.info, self.names, []
        for instance in info.instances():
            symbol = info.name_of(instance)
            if info.kind[instance - 1] & INLINED and name in spellings(symbol, names(symbol)):
                parent = info.parent[instance - 1]
                where = f"{names(info.name_of(parent))}, line {info.call_line[instance - 1]}" if parent else ""
                part = Part(symbol, sorted(info.ranges_of(instance)), where)
                if self.measure(part):
                    part.entered = self.coverage.instances.entered(instance)
                    parts.append(part)
        return parts

    def rows_in(self, low: int, high: int) -> Iterator[Row]:
        at = max(bisect.bisect_right(self.firsts, low) - 1, 0)
        while at < len(self.rows) and self.rows[at].first < high:
            if self.rows[at].end > low:
                yield self.rows[at]
            at += 1

    def measure(self, part: Part) -> bool:
        """Takes the counts of a part; false where the record has no block of it."""
        found = False
        for low, high in part.ranges:
            for row in self.rows_in(low, high):
                found = True
                if row.first == low:
                    part.entered = row.count
                part.greatest = max(part.greatest, row.count or 0)
                part.work += (row.count or 0) * (row.end - row.first)
        return found

    def chosen(self, name: str | None) -> list[Part]:
        """The functions of a name, as symbols or the source have it, else the calls of it that were inlined, else the
        function around an address; without a name, those that were executed."""
        parts, names = self.functions(), self.names
        if name is None:
            return [part for part in parts if part.work] or parts
        found = [part for part in parts if name in spellings(part.name, names(part.name))] or self.inlined(name)
        if not found and ADDRESS.fullmatch(name) and self.coverage.program.is_code(int(name, 16)):
            found = [part for part in parts if part.ranges[0][0] == self.known.first_of(int(name, 16))]
        if not found:
            why = ("the record has no block of such a function" if self.known.names or ADDRESS.fullmatch(name) else
                   "the program has no symbols: give an address")
            raise Refusal(f"{name}: {why}: vaknuhol annotate {self.coverage.path} shows all that ran")
        return found

    def items(self, part: Part) -> Iterator[Block | Source | Instruction]:
        for low, high in part.ranges:
            ends = [row.end for row in self.rows_in(low, high)]
            if ends:
                yield from self.items_between(low, min(high, max(ends)))

    def items_between(self, low: int, high: int) -> Iterator[Block | Source | Instruction]:
        rows, shown = {max(row.first, low): row for row in self.rows_in(low, high)}, None
        for address, text in disassembled(self.coverage.file, low, high):
            if address in rows:
                yield Block(rows[address])
            place = self.coverage.info.place_of(address)
            key = (place, self.coverage.info.instance_at(address))
            if place and key != shown:
                shown = key
                yield self.source(*place, key[1])
            yield Instruction(address, text)

    def source(self, file: str, line: int, instance: int) -> Source:
        lines, info = source_of(file), self.coverage.info
        inlined = info.name_of(instance) if instance and info.kind[instance - 1] & INLINED else ""
        return Source(os.path.basename(file), line, lines[line - 1] if line <= len(lines) else "", self.names(inlined))


def disassembled(path: str, low: int, high: int) -> Iterator[tuple[int, str]]:
    for coverage in disassembly(path, low, high, "-dwC"):
        found = LINE.fullmatch(coverage)
        if found:
            name, _, operands = found.group(2).partition(" ")
            yield int(found.group(1), 16), f"{name:<7} {operands.strip()}".rstrip()
