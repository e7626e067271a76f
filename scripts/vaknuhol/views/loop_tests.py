"""Tests of loops that a compiler moved to the loop's end: the block of the test leads back to a head that is a line
below the test's, or behind it on the same line, or on the same line and entered from another test of it.

The line of such a loop has a first test, too, of which no code may be left: it is made once for each time that the loop
is entered.
"""
from vaknuhol.program.copies import Copies, Key
from vaknuhol.program.flow_graph import OUTSIDE
from vaknuhol.program.loops import body_of
from vaknuhol.views.flow_solving import Flow


class Tests:
    """The tests of a line in one copy: `latches`, the blocks that they end, and the bodies of their loops by their
    heads."""

    def __init__(self, copies: Copies, flow: Flow, key: Key, copy: int, blocks: list[int]) -> None:
        self.copies, self.flow, self.key, self.copy = copies, flow, key, copy
        self.latches: set[int] = set()
        self.bodies: dict[int, set[int]] = {}
        for block in blocks:
            for edge in self.ways(block):
                self.take(block, flow.graph.target[edge])

    def ways(self, block: int) -> tuple[int, ...]:
        """Both ways of a test of the line with which a block ends."""
        is_last = block in self.copies.last_line and self.copies.last_line[block][1] == self.key
        return (self.flow.graph.ways_of_branch(block) or ()) if is_last else ()

    def take(self, latch: int, head: int) -> None:
        first = self.copies.line_within(head, self.copy) if head != OUTSIDE else None
        if not first or first[0] != self.key[0] or first[1] < self.key[1]:
            return
        body = body_of(self.flow.graph, latch, head)
        if body and (first != self.key or self.is_behind(head, latch) or self.is_guarded(head, body)):
            self.latches.add(latch)
            self.bodies.setdefault(head, set()).update(body)

    def is_behind(self, head: int, latch: int) -> bool:
        """Whether the code with which a loop begins stands behind its test, on the same line, in the source."""
        if self.copies.first_line[head] != (self.copy, self.key):
            return True  # an inlined call
        return self.copies.columns[head][0] > self.copies.columns[latch][1]

    def is_guarded(self, head: int, body: set[int]) -> bool:
        """Whether control comes to a loop from a fork of the line, the first test, by ways without a fork."""
        graph = self.flow.graph
        for block in (graph.source[edge] for edge in graph.into[head]):
            while block not in body:
                if self.ways(block):
                    return True
                if len(graph.out[block]) != 1 or len(graph.into[block]) != 1 or graph.open_in[block]:
                    break
                block = graph.source[graph.into[block][0]]
        return False

    def entries(self, inside: list[int]) -> int:
        """How often the loops are entered, but from blocks of the line, which count by themselves, and in another loop
        of the line."""
        graph, total = self.flow.graph, 0
        for head, body in self.bodies.items():
            if not any(head in other for latch, other in self.bodies.items() if latch != head):
                seen = body.union(inside)
                total += sum(self.uncounted(way, seen) for way in graph.into[head])
        return total

    def uncounted(self, way: int, seen: set[int]) -> int:
        """How often control comes by a way, but from blocks that were seen by ways without a fork."""
        graph, total, work = self.flow.graph, 0, [way]
        while work:
            block = graph.source[way := work.pop()]
            if block in seen:
                continue
            if graph.open_in[block] or not graph.into[block] or len(graph.out[block]) > 1:
                total += self.flow.edges[way] or 0
            else:
                seen.add(block)
                work += graph.into[block]
        return total
