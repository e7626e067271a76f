"""Counts that were left, and counts of edges, from those that are known.

Where all ways into a block, or out of it, are known to be edges, their counts add up to the block's. What follows from
that is *solved*. A call may never return, so the way behind it is a number of its own; what follows only where a call
returns as often as it is made is *assumed*. What doesn't follow stays unknown (None). Of coverage, where a count is 0
or 1, follows less: what has an executed way was executed, and what has none was not.

A signal, or the end of the process in another thread, may end a block in its middle: then counts contradict each other.
Where they do, the block's two sides count as open.
"""
from collections.abc import Iterable, Sequence
from typing import NamedTuple

from vaknuhol.program.flow_graph import OUTSIDE, Graph
from vaknuhol.program.flow_junctions import Junctions

SOLVED, ASSUMED = "solved", "assumed"
ROUNDS = 4


class InternalError(Exception):
    """A fault of these scripts, which is told as such."""


class Solved(NamedTuple):
    """Of blocks that weren't counted, by their numbers, the counts that follow and by what; the blocks whose counts
    contradict each other; the counts of edges."""
    counts: dict[int, tuple[int, str]]
    contradicted: set[int]
    edges: list[int | None]


class Flow:
    """The counts of the blocks of a graph, and of its edges; `how` tells of a block that wasn't counted by what its
    count is known. Where all that was solved before, it is taken over."""
    counts: list[int | None]
    edges: list[int | None]
    how: dict[int, str]

    def __init__(self, graph: Graph, counts: list[int | None], is_coverage: bool = False,
                 solved: Solved | None = None) -> None:
        self.graph, self.given, self.is_coverage = graph, counts, is_coverage
        self.open_in, self.open_out = bytearray(graph.open_in), bytearray(graph.open_out)
        self.contradicted: set[int] = set()
        if solved:
            self.take_over(solved)
            return
        for _ in range(ROUNDS):
            wrong = self.solve_all()
            if not wrong:
                break
            self.contradict(wrong)
        self.check()

    def contradict(self, wrong: set[int]) -> None:
        self.contradicted |= wrong
        for block in wrong:
            self.open_in[block] = self.open_out[block] = True

    def take_over(self, solved: Solved) -> None:
        self.contradict(solved.contradicted)
        self.counts, self.edges, self.how = list(self.given), solved.edges, {}
        for block, (count, how) in solved.counts.items():
            self.set_count(block, count, how)

    def solved(self) -> Solved:
        return Solved({block: (self.counts[block] or 0, how) for block, how in self.how.items()}, self.contradicted,
                      self.edges)

    def solve_all(self) -> set[int]:
        """The blocks whose counts contradict each other, as what follows from all is solved. Only where no counts do,
        what follows doesn't depend on the order, so that later turns can begin where something has become known."""
        if self.is_consistent(self.solve_both(False)):
            return set()
        self.solve_both(True)
        return self.wrong_blocks()

    def solve_both(self, is_whole: bool) -> bytearray:
        """What follows, and then what follows if calls return; which blocks are open at their ends at last."""
        graph, self.counts = self.graph, list(self.given)
        self.edges = [None] * len(graph.kind)
        self.how = {}
        returns, everywhere = bytearray(self.open_out), range(len(graph))
        self.solve_by(returns, SOLVED, everywhere, is_whole)
        returning = [block for block in everywhere if graph.calls[block] and graph.out[block]
                     and self.edges[graph.out[block][0]] is None]
        for block in returning:
            returns[block] = block in self.contradicted
        self.solve_by(returns, ASSUMED, everywhere if is_whole else returning, is_whole)
        return returns

    def solve_by(self, open_out: bytearray, how: str, begin: Sequence[int], is_whole: bool) -> None:
        """What follows block by block, and, of counts, junction by junction."""
        self.solve(open_out, how, begin)
        if self.is_coverage or None not in self.counts:
            return
        left = [block for block, count in enumerate(self.counts) if count is None]
        found = Junctions(self.graph, self.open_in, open_out, left).solved(self.counts)
        for block, count in found.items():
            self.set_count(block, count, how)
        if found:
            self.solve(open_out, how, range(len(self.graph)) if is_whole else self.around(found))

    def around(self, blocks: Iterable[int]) -> list[int]:
        """These blocks, and those that ways lead to from them, or come from."""
        graph = self.graph
        edges = [edge for block in blocks for edge in graph.out[block] + graph.into[block]]
        return sorted({*blocks, *(graph.source[edge] for edge in edges),
                       *(graph.target[edge] for edge in edges)} - {OUTSIDE})

    def solve(self, open_out: bytearray, how: str, begin: Sequence[int]) -> None:
        """Each equation of some blocks once, and again where a number of it has become known."""
        graph, work = self.graph, list(begin)
        sides = ((graph.out, open_out, graph.calls), (graph.into, self.open_in, bytes(len(graph))))
        waits = bytearray(len(graph))
        for block in work:
            waits[block] = True
        while work:
            block = work.pop()
            waits[block] = False
            for ways, is_open, calls in sides:
                edges = ways[block]
                if not edges or is_open[block] and (calls[block] or self.counts[block] != 0):
                    continue
                for edge in self.settle(block, edges, is_open[block], how):
                    for block in (graph.source[edge], graph.target[edge]):
                        if block >= 0 and not waits[block]:
                            waits[block] = True
                            work.append(block)

    def settle(self, block: int, edges: list[int], is_open: int, how: str) -> list[int]:
        """What one side of a block tells, of an open one that it wasn't executed; the edges whose blocks are to be
        looked at again."""
        count, values = self.counts[block], self.edges
        if len(edges) == 1 and count is not None and not (is_open or self.is_coverage):
            return self.set_edges(edges, count) if values[edges[0]] is None else []
        unknown = [edge for edge in edges if values[edge] is None]
        if is_open:
            return self.set_edges(unknown, 0)
        if self.is_coverage:
            return self.settle_coverage(block, edges, unknown, how)
        if count is None:
            return [] if unknown else self.set_count(block, self.sum_of(edges), how)
        if len(unknown) == 1:
            return self.set_edges(unknown, count - self.sum_of(edges))
        return self.set_edges(unknown, 0) if unknown and count == self.sum_of(edges) else []

    def sum_of(self, edges: list[int]) -> int:
        """The sum of the counts of edges that are known."""
        return sum(self.edges[edge] or 0 for edge in edges) if len(edges) > 1 else self.edges[edges[0]] or 0

    def settle_coverage(self, block: int, edges: list[int], unknown: list[int], how: str) -> list[int]:
        count, is_executed = self.counts[block], any(self.edges[edge] for edge in edges)
        if count is None:
            return self.set_count(block, int(is_executed), how) if is_executed or not unknown else []
        if count == 0:
            return self.set_edges(unknown, 0)
        return self.set_edges(unknown, 1) if len(unknown) == 1 and not is_executed else []

    def set_count(self, block: int, count: int, how: str) -> list[int]:
        self.counts[block], self.how[block] = count, how
        return self.graph.out[block] + self.graph.into[block]

    def set_edges(self, edges: list[int], count: int) -> list[int]:
        for edge in edges:
            self.edges[edge] = count
        return edges

    def coming(self, block: int, within: set[int]) -> int | None:
        """How often control comes to a block from others than those within: by the ways from these, or else by what is
        left."""
        graph, count = self.graph, self.counts[block]
        others = [self.edges[edge] for edge in graph.into[block] if graph.source[edge] not in within]
        if not self.open_in[block] and None not in others:
            return sum(edge for edge in others if edge is not None)
        inner = [self.edges[edge] for edge in graph.into[block] if graph.source[edge] in within]
        if count is None or None in inner:
            return None
        return max(count - sum(edge for edge in inner if edge is not None), 0)

    def others(self, block: int, target: int) -> list[int] | None:
        """The other blocks that lead to one to which control always goes on from a block, as far as that is known; None
        where it doesn't."""
        graph, edges = self.graph, self.graph.out[block]
        if [graph.target[edge] for edge in edges] != [target] or self.edges[edges[0]] not in (None, self.counts[block]):
            return None
        return [graph.source[edge] for edge in graph.into[target] if edge != edges[0]]

    def wrong_blocks(self) -> set[int]:
        """The blocks of a negative edge, and those whose count isn't that of a closed side, with the blocks there."""
        graph, wrong = self.graph, set()
        for edge, count in enumerate(self.edges):
            if count is not None and count < 0:
                wrong |= {graph.source[edge], graph.target[edge]} - {-1}
        for block, count in enumerate(self.counts):
            if count is not None and count < 0:
                wrong.add(block)
            for edges, is_open in ((graph.out[block], self.open_out[block]), (graph.into[block], self.open_in[block])):
                known = [number for edge in edges if (number := self.edges[edge]) is not None]
                is_closed = len(known) == len(edges) and edges and not is_open
                if is_closed and count is not None and not self.agree(count, known):
                    wrong |= {block for edge in edges for block in (graph.source[edge], graph.target[edge])
                              if block >= 0}
        return wrong

    def is_consistent(self, open_out: bytearray) -> bool:
        """Whether no count is negative, and none contradicts those of its ways, as far as they are known: of an open
        side only a count of 0 can."""
        graph = self.graph
        if min((count for count in (*self.edges, *self.counts) if count is not None), default=0) < 0:
            return False
        for ways, is_open, calls in ((graph.out, open_out, graph.calls), (graph.into, self.open_in, bytes(len(graph)))):
            for edges, count, opened, called in zip(ways, self.counts, is_open, calls):
                if edges and count is not None and not (opened and (called or count)) and not self.fits(count, edges):
                    return False
        return True

    def fits(self, count: int, edges: list[int]) -> bool:
        """Whether a count, which is not negative, can be that of all these edges."""
        if len(edges) == 1:
            only = self.edges[edges[0]]
            return only is None or self.agree(count, [only])
        known = [number for edge in edges if (number := self.edges[edge]) is not None]
        return self.agree(count, known) or len(known) < len(edges) and (self.is_coverage or sum(known) < count)

    def agree(self, count: int, known: list[int]) -> bool:
        return bool(count) == any(known) if self.is_coverage else count == sum(known)

    def check(self) -> None:
        """A negative count is no count: an equation was made of ways that aren't all."""
        for edge, count in enumerate(self.edges):
            if count is not None and count < 0:
                raise InternalError(f"the way from block {self.graph.source[edge]} to block {self.graph.target[edge]} "
                                    f"has the count {count}")
        for block, count in enumerate(self.counts):
            if count is not None and count < 0:
                raise InternalError(f"block {block} has the count {count}")
