"""How often each call was made. A direct call is made as often as its block is executed, and a jump or a fall to the
first instruction of another function is a call as well, as often as that way was gone: these counts are exact. So are
those of calls by a word at a fixed address that doesn't change, as linkers leave some. Of other indirect calls it is
known how often they were made, and of a function how often it was entered: what isn't by direct calls is by them.
"""
from typing import NamedTuple

from vaknuhol.program.flow_graph import FALL, JUMP, NEXT, OUTSIDE
from vaknuhol.program.functions import choosing_functions
from vaknuhol.program.listing_file import CALL, CALL_INDIRECT, JUMP_INDIRECT
from vaknuhol.views.costs import Costs
from vaknuhol.views.coverage import Coverage


class Call(NamedTuple):
    """The calls of one function by an instruction: where that leads, which need not be the function's beginning."""
    site: int
    caller: int
    target: int
    callee: int
    times: int


BY_CALL, BY_WORD, BY_JUMP = range(3)


class Site(NamedTuple):
    """An indirect call, and how often it was made: by a call, by a jump to where a word at a fixed address leads, as in
    stubs for functions that are chosen for the processor, or by a jump that may also lead elsewhere in its function."""
    site: int
    caller: int
    times: int
    kind: int


class Calls:
    """The direct calls and the indirect ones; `entered` has how often each function was entered, `from_elsewhere` how
    often otherwise than by direct calls."""

    def __init__(self, coverage: Coverage, costs: Costs) -> None:
        self.rows, self.listing, self.costs = coverage.record.rows, coverage.listing, costs
        self.flow, self.program = coverage.ways, coverage.program
        self.choosing = choosing_functions(self.program)
        self.direct: list[Call] = []
        self.indirect: list[Site] = []
        for number, row in enumerate(self.rows):
            if row.count and costs.instructions[number]:
                self.take(number, row.count)
        self.entered = {first: self.entries(first, numbers) for first, numbers in costs.rows.items()}
        called: dict[int, int] = {}
        for call in self.direct:
            if call.target == call.callee:
                called[call.callee] = called.get(call.callee, 0) + call.times
        entry = coverage.program.entry
        self.from_elsewhere = {first: entered - called.get(first, 0) for first, entered in self.entered.items()
                               if entered > called.get(first, 0) and first != entry}
        self.from_outside = {entry: max(self.entered.get(entry, 0) - called.get(entry, 0), 0)}

    def holders(self) -> dict[int, set[int]]:
        """The functions whose executed code holds the address of one that was entered from elsewhere, for each."""
        found: dict[int, set[int]] = {first: set() for first in self.from_elsewhere}
        for row, numbers, function in zip(self.rows, self.costs.instructions, self.costs.function):
            for number in numbers if row.count else ():
                for held in (self.listing.file.held[number], self.listing.file.number[number]):
                    if held in found:
                        found[held].add(function)
        return found

    def take(self, number: int, count: int) -> None:
        """What leads from a block that was executed to other functions."""
        last, caller = self.costs.instructions[number][-1], self.costs.function[number]
        site, kind, target = self.listing.addr[last], self.listing.kind[last], self.target(last)
        if kind in (CALL, CALL_INDIRECT) and target:
            self.direct.append(Call(site, caller, target, self.costs.known.first_of(target), count))
        elif kind in (CALL, CALL_INDIRECT):
            self.indirect.append(Site(site, caller, count, BY_CALL))
        elif kind == JUMP_INDIRECT and target:
            if target != caller and self.costs.known.first_of(target) == target:
                self.direct.append(Call(site, caller, target, target, count))
        elif kind == JUMP_INDIRECT and not self.flow.graph.out[number]:
            is_word = self.listing.file.held[last]
            self.indirect.append(Site(site, caller, count, BY_WORD if is_word else BY_JUMP))
        else:
            self.take_ways(number, site, target)

    def target(self, number: int) -> int:
        """Where an instruction leads, also by a word at a fixed address that doesn't change; 0 where that isn't
        known."""
        held = self.listing.file.held[number]
        if self.listing.kind[number] not in (CALL_INDIRECT, JUMP_INDIRECT):
            return self.listing.target[number]
        word = self.program.fixed_word(held) if held and held not in self.choosing else None
        return word if word and self.listing.at(word) is not None else 0

    def take_ways(self, number: int, site: int, target: int) -> None:
        """Jumps and falls to the first instructions of other functions."""
        graph, caller = self.flow.graph, self.costs.function[number]
        for edge in graph.out[number]:
            to = target if graph.kind[edge] == JUMP else self.rows[number].end
            count = self.flow.edges[edge]
            if (count and graph.kind[edge] in (JUMP, FALL, NEXT) and to != caller
                    and self.costs.known.first_of(to) == to):
                self.direct.append(Call(site, caller, to, to, count))

    def entries(self, first: int, numbers: list[int]) -> int:
        """How often control came to the first block of a function from elsewhere; 0 where that isn't known."""
        begin, graph = numbers[0], self.flow.graph
        if self.rows[begin].first != first:
            return 0
        inner = (self.flow.edges[edge] or 0 for edge in graph.into[begin]
                 if graph.source[edge] != OUTSIDE and self.costs.function[graph.source[edge]] == first)
        return max((self.rows[begin].count or 0) - sum(inner), 0)
