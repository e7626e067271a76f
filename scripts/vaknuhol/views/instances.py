"""How often functions ran: those with code of their own, and the calls of them that were inlined.

An inlined call is entered where control comes from outside to a block in which one of its statements begins. Its ranges
also have instructions that the compiler moved, such as the copy of its value to a variable of the caller: a block in
which no statement of it begins counts only where control always goes on from it to the call.
"""
import array
from typing import Iterator, NamedTuple

from vaknuhol.program.copies import Copies
from vaknuhol.program.debug_info import INLINED
from vaknuhol.program.flow_graph import OUTSIDE
from vaknuhol.views.flow_solving import Flow


class Function:
    """A function of the source: how often it was entered, by itself and inlined (None where no instance's count is
    known), and where it was inlined."""
    __slots__ = ("name", "file", "line", "count", "called", "inlined", "places")

    def __init__(self, name: str, file: str, line: int) -> None:
        self.name, self.file, self.line = name, file, line
        self.count: int | None = None  # the sum of both
        self.called: int | None = None
        self.inlined: int | None = None
        self.places = 0


class Parts(NamedTuple):
    """Blocks of an inlined call: those where it may be entered, and those from which control comes within it. Of its
    entry's block, if that begins outside, each execution enters the call (`whole`)."""
    begun: set[int]
    inside: set[int]
    whole: set[int]


def added(total: int | None, count: int | None) -> int | None:
    return total if count is None else (total or 0) + count


class Instances:
    """Functions and inlined calls by their numbers in the debugging information."""

    def __init__(self, copies: Copies, flow: Flow) -> None:
        self.copies, self.info, self.flow = copies, copies.info, flow
        self.kept: dict[int, list[int]] = {}
        self.begun: dict[int, set[int]] = {}  # the blocks in which statements of a call, or of one inlined in it, begin
        self.first: dict[int, tuple[int, set[int]]] = {}  # the first line of it that begins somewhere, and where
        self.take_statements()

    def take_statements(self) -> None:
        info, copies = self.info, self.copies
        for (file, line), of_copies in copies.begins.items():
            for copy, blocks in of_copies.items():
                copy = copies.holder(info.chain(copy), file, line) or copy
                if copy and info.file[copy - 1] == file and line <= self.first.get(copy, (line, 0))[0]:
                    self.first[copy] = line, blocks
                for instance in info.chain(copy):
                    if info.kind[instance - 1] & INLINED:
                        self.begun.setdefault(instance, set()).update(blocks)

    def blocks(self, instance: int) -> list[int]:
        """The blocks with code of an instance, or of a call inlined in it."""
        if instance not in self.kept:
            self.kept[instance] = list(self.blocks_in(instance))
        return self.kept[instance]

    def blocks_in(self, instance: int) -> Iterator[int]:
        copies, found = self.copies, -1
        for low, high in sorted(self.info.ranges_of(instance)):
            block = copies.first_behind(low)
            while block < len(copies.rows) and copies.firsts[block] < high:
                if block > found:
                    found = block
                    yield block
                block += 1

    def holds(self, instance: int, address: int) -> bool:
        return any(low <= address < high for low, high in self.info.ranges_of(instance))

    def ends_in(self, instance: int, block: int) -> bool:
        """Whether a block ends in an instance: with code of it, or between its ranges, with a line of its function that
        no call around it has."""
        if self.holds(instance, self.copies.rows[block].end - 1):
            return True
        _, (file, line) = self.copies.last_line.get(block, (0, (0, 0)))
        chain = self.info.chain(instance)
        return bool(line) and self.copies.holder(chain, file,
                                                 line) == instance == self.copies.holder(chain[::-1], file, line)

    def entered(self, instance: int, by_code: bool = False) -> int | None:
        """How often an inlined call was entered. Where no statement of it begins, and it has no entry, any of its
        blocks enters it; so it does by code alone, but at most as often as the block of its entry was executed. Where
        not all counts are known, that count, or the greatest one."""
        if self.flow.is_coverage:
            return self.greatest(instance)
        entry = self.entry_block(instance)
        by_code = by_code or entry is None and instance not in self.begun
        count = None if entry is None else self.flow.counts[entry]
        total = self.sum_of_entries(instance, by_code)
        if total is None:
            return count if count is not None else self.greatest(instance)
        return min(total, count) if by_code and count is not None else total

    def entry_block(self, instance: int) -> int | None:
        address = self.info.entry[instance - 1]
        return self.copies.block_at(address) if address else None

    def sum_of_entries(self, instance: int, by_code: bool) -> int | None:
        """The executions of the blocks where a call is entered, less the ways to them from within."""
        parts, entry, total = self.parts_of(instance, by_code), self.entry_block(instance), 0
        for block in sorted(parts.begun):
            within = parts.inside if by_code or entry is None or block == entry else {*parts.inside, entry}
            count = self.flow.counts[block] if block in parts.whole else self.flow.coming(block, within)
            if count is None:
                return None
            total += count
        return total if parts.begun else None

    def parts_of(self, instance: int, by_code: bool) -> Parts:
        copies, graph, at = self.copies, self.flow.graph, self.entry_block(instance)
        entry = set() if at is None else {at}
        whole = {block for block in entry if copies.firsts[block] < self.info.entry[instance - 1]
                 and not self.holds(instance, copies.firsts[block])}
        blocks = set(self.blocks(instance))
        begun = blocks if by_code else self.begun.get(instance, set()) | entry
        ending = {block for block in blocks | begun if self.ends_in(instance, block)}
        inside = begun & ending
        inside |= self.closed(ending - inside, inside | entry, graph.into, graph.source)
        before = self.closed(ending - inside - whole, inside - whole, graph.out, graph.target)
        inside |= before
        if not by_code:
            inside |= self.gaps(inside, entry | self.first.get(instance, (0, set()))[1])
        return Parts(begun | before, inside, whole)

    def closed(self, blocks: set[int], inside: set[int], ways: list[list[int]], ends: "array.array[int]") -> set[int]:
        """Those blocks whose executed edges on one side all have their other end inside, or in one another."""
        edges, graph = self.flow.edges, self.flow.graph
        found = {block for block in blocks if ways[block] and not (ways is graph.into and graph.open_in[block])}
        while wrong := {block for block in found
                        if any(edges[edge] != 0 and ends[edge] not in found and ends[edge] not in inside
                               for edge in ways[block])}:
            found -= wrong
        return found

    def gaps(self, inside: set[int], starts: set[int]) -> set[int]:
        """Blocks of the caller's code amidst a call: control comes to them from the call alone, and goes on within it,
        not where it begins."""
        graph = self.flow.graph
        near = {graph.target[edge] for block in inside for edge in graph.out[block]} - inside - {OUTSIDE}
        from_call = {block for block in near if self.closed({block}, inside, graph.into, graph.source)}
        return {block for block in from_call if self.closed({block}, inside - starts, graph.out, graph.target)}

    def greatest(self, instance: int) -> int | None:
        counts = [self.flow.counts[block] for block in self.blocks(instance)]
        return max((count for count in counts if count is not None), default=None)

    def count_of(self, instance: int) -> int | None:
        if self.info.kind[instance - 1] & INLINED:
            return self.entered(instance)
        block = self.copies.entries.get(instance)
        return None if block is None else self.flow.counts[block]

    def is_recorded(self, instance: int) -> bool:
        """Whether a function has a first block, or an inlined call a block or an entry."""
        if self.info.kind[instance - 1] & INLINED:
            return bool(self.blocks(instance)) or self.entry_block(instance) is not None
        return instance in self.copies.entries

    def functions(self) -> list[Function]:
        """The functions of the wanted files of which an instance is recorded."""
        info = self.info
        found: dict[tuple[int, int, int], Function] = {}
        for instance in info.instances():
            key = (info.name[instance - 1], info.file[instance - 1], info.line[instance - 1])
            is_inlined = info.kind[instance - 1] & INLINED
            if key[1] not in self.copies.wanted or not key[2] or not self.is_recorded(instance):
                continue
            function = found.setdefault(key, Function(info.text_at(key[0]), info.files[key[1]], key[2]))
            count = self.count_of(instance)
            function.count = added(function.count, count)
            if is_inlined:
                function.inlined, function.places = added(function.inlined, count), function.places + 1
            else:
                function.called = added(function.called, count)
        return list(found.values())
