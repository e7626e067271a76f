"""The ways between the blocks of a record: direct jumps, falls, jump tables, and calls that return to what follows
them.

A block is *closed* on a side where all ways of that side are among the edges: as often as it is executed, one of them
is gone. It is open where control may come from elsewhere (the start of a function, an address that the program holds, a
jump from a block that isn't in the record, a landing pad), or may go elsewhere (a return, an indirect jump, a call of
the kernel, a call that may never return).
"""
import array
import bisect
import collections
import itertools
from collections.abc import Iterable, Sequence

from vaknuhol.program.blocks import Span, distances, held_numbers, words_of
from vaknuhol.program.functions import choosing_functions
from vaknuhol.program.jump_tables import JumpTables
from vaknuhol.program.listing import NOT_FALLING, Listing
from vaknuhol.program.listing_file import (BRANCH, CALL, CALL_INDIRECT, FALLS, JUMP as JUMP_ALWAYS, JUMP_INDIRECT,
                                           LONGEST, NOTHING, SHARED)
from vaknuhol.program.program_file import Program

OUTSIDE = -1
OF_CALL = bytes(kind == CALL for kind in range(256))
OF_OTHERS = bytes(kind != CALL for kind in range(256))
JUMP, FALL, NEXT, RETURN, TABLE = range(5)


class Graph:
    """Blocks by their places in the record. An edge has the block that it comes from, the block that it leads to (or
    OUTSIDE), and its kind; `out` and `into` have the edges of each block."""

    def __init__(self, blocks: int, is_partial: bool = False) -> None:
        self.source, self.target, self.kind = array.array("i"), array.array("i"), bytearray()
        self.out: list[list[int]] = [[] for _ in range(blocks)]
        self.into: list[list[int]] = [[] for _ in range(blocks)]
        self.open_out, self.open_in, self.calls = bytearray(blocks), bytearray(blocks), bytearray(blocks)
        # whether a way from a block that isn't in the record leads there
        self.partial = bytearray([is_partial]) * blocks

    def __len__(self) -> int:
        return len(self.out)

    def add(self, source: int, target: int, kind: int) -> None:
        edge = len(self.kind)
        self.source.append(source)
        self.target.append(target)
        self.kind.append(kind)
        self.out[source].append(edge)
        if target != OUTSIDE:
            self.into[target].append(edge)

    def ways_of_branch(self, block: int) -> tuple[int, int] | None:
        """The edges of a block that ends in a conditional jump: taken, and not taken."""
        edges = self.out[block]
        if len(edges) == 2 and self.kind[edges[0]] == JUMP and self.kind[edges[1]] == FALL:
            return edges[0], edges[1]
        return None


def held_addresses(program: Program, listing: Listing, tables: JumpTables) -> set[int]:
    """The instructions whose addresses the program holds, but for those in tables of jumps that are known."""
    if not listing.addr:
        return set()
    numbers = held_numbers(listing)
    found = {address for address in numbers | set(choosing_functions(program).values()) if listing.is_start(address)}
    for number in numbers - found:
        if number % 4 == 0 and number not in tables.tables and program.is_loaded(number):
            found.update(distances(program, number, listing))
    first, last = listing.addr[0], listing.addr[-1]
    for address, _, data in program.segments:
        base = address + -address % 8
        found.update(word for at, word in enumerate(words_of(data, address))
                     if first <= word <= last and base + 8 * at not in tables.places and listing.is_start(word))
    return found


class Builder:
    """Makes the graph of a record's rows. Instructions are known by their numbers in the listing."""

    def __init__(self, rows: Sequence[Span], program: Program, listing: Listing) -> None:
        self.rows, self.listing, self.graph = rows, listing, Graph(len(rows))
        self.tables = JumpTables(program, listing)
        self.first = {row.first: number for number, row in enumerate(rows)}
        kinds = bytes(listing.kind)
        calls = set(itertools.compress(listing.target, kinds.translate(OF_CALL)))
        self.entries = {address for address, _ in listing.functions} | held_addresses(program, listing,
                                                                                      self.tables) | calls
        self.jumps = collections.Counter(itertools.compress(listing.target, kinds.translate(OF_OTHERS)))
        del self.jumps[0]  # what leads to no place that is known
        self.below = self.positions()
        self.taken: list[int] = []  # the addresses to which jumps are edges
        self.fallen: list[int] = []  # those to which ways from the instruction before are edges

    def positions(self) -> dict[int, int]:
        """The last instruction below each address at which a row begins or ends."""
        addr, found = self.listing.addr, {}
        number = before = 0
        for address in sorted({edge for row in self.rows for edge in (row.first, row.end)}):
            number = bisect.bisect_left(addr, address, number, min(number + address - before, len(addr)))
            found[address], before = number - 1, address
        return found

    def built(self) -> Graph:
        graph = self.graph
        for number, row in enumerate(self.rows):
            last = self.last_of(row.first, row.end)
            if last is None:
                graph.open_out[number] = True
            else:
                self.leave(number, row.end, last)
        partial = self.partial()
        for number, row in enumerate(self.rows):
            graph.partial[number] = row.first in partial
            graph.open_in[number] = not graph.into[number] or row.first in self.entries or row.first in partial
        return graph

    def last_of(self, first: int, end: int) -> int | None:
        """The instruction with which a block ends."""
        addr, below = self.listing.addr, self.below[end]
        if below >= 0 and not self.listing.marks[below] & SHARED:
            return below if first <= addr[below] == end - self.listing.size[below] else None
        return next((number for number in self.ending(below, end) if addr[number] >= first), None)

    def ending(self, below: int, end: int) -> list[int]:
        """The instructions that end at an address, of which the last one below is given: more than one only where they
        share bytes."""
        addr, size = self.listing.addr, self.listing.size
        if below < 0:
            return []
        if not self.listing.marks[below] & SHARED:
            return [below] if addr[below] + size[below] == end else []
        first = bisect.bisect_left(addr, end - LONGEST)
        return [number for number in range(first, below + 1) if addr[number] + size[number] == end]

    def leave(self, number: int, end: int, last: int) -> None:
        """The edges from a block, by its last instruction."""
        graph, following = self.graph, self.first.get(end, OUTSIDE)
        kind, target = self.listing.kind[last], self.listing.target[last]
        if kind in (JUMP_ALWAYS, BRANCH) and target:
            graph.add(number, self.first.get(target, OUTSIDE), JUMP)
            self.taken.append(target)
            if kind == BRANCH:
                graph.add(number, following, FALL)
                self.fallen.append(end)
        elif kind in (CALL, CALL_INDIRECT):
            graph.calls[number] = graph.open_out[number] = True
            if following != OUTSIDE:
                graph.add(number, following, RETURN)
                self.fallen.append(end)
        elif kind == FALLS:
            graph.add(number, following, NEXT)
            self.fallen.append(end)
        elif kind == JUMP_INDIRECT and self.listing.addr[last] in self.tables.targets:
            for to in self.tables.targets[self.listing.addr[last]]:
                graph.add(number, self.first.get(to, OUTSIDE), TABLE)
        else:
            graph.open_out[number] = True

    def partial(self) -> set[int]:
        """The rows' first addresses to which a jump or a fall is no edge."""
        taken, fallen = collections.Counter(self.taken), collections.Counter(self.fallen)
        jumped = {row.first for row in self.rows if self.jumps.get(row.first, 0) != taken.get(row.first, 0)}
        return jumped | {row.first for row in self.rows if self.falling(row.first, fallen.get(row.first, 0))}

    def falling(self, address: int, most: int) -> bool:
        """Whether more ways than that many come to an address from the instructions before it."""
        below = self.below[address]
        if most and below >= 0 and not self.listing.marks[below] & SHARED:
            return False  # one instruction at most ends there
        before = self.ending(below, address)
        return len(before) > most and sum(1 for number in before if self.falls(number)) > most

    def falls(self, number: int) -> bool:
        """Whether control may come behind an instruction: not behind what fills room after a jump."""
        addr, marks = self.listing.addr, self.listing.marks
        while marks[number] & NOTHING and addr[number] not in self.entries and addr[number] not in self.jumps:
            before = self.ending(number - 1, addr[number])
            if len(before) != 1:
                return bool(before)
            number = before[0]
        return self.listing.kind[number] not in NOT_FALLING


def graph_of(rows: Iterable[Span], program: Program, listing: Listing) -> Graph:
    """The graph of the blocks of a record, which ascend by their addresses."""
    return Builder(list(rows), program, listing).built()
