"""Junctions: where the ways between blocks meet. As often as control leaves blocks into a junction, it enters blocks
from it.

A block leads from one junction, of its ways in, to another, of its ways out. Where a way may come from elsewhere or
lead elsewhere, the junction is part of the outside, of which nothing is known. So blocks are edges between junctions,
and the counts of a set of them follow from all others exactly where the set has no cycle (Knuth and Stevenson, "Optimal
measurement points for program frequency counts", 1973).
"""
from collections.abc import Iterable

from vaknuhol.program.flow_graph import OUTSIDE, Graph


class Sets:
    """Sets of numbers that are joined."""

    def __init__(self, count: int) -> None:
        self.above = list(range(count))

    def find(self, junction: int) -> int:
        while self.above[junction] != junction:
            self.above[junction] = self.above[self.above[junction]]
            junction = self.above[junction]
        return junction

    def join(self, left: int, right: int) -> bool:
        """Joins two sets; false where they are one already."""
        left, right = self.find(left), self.find(right)
        self.above[max(left, right)] = min(left, right)
        return left != right


class Junctions:
    """The junctions at some blocks of a graph, or at all, by numbers; 0 is the outside."""

    def __init__(self, graph: Graph, open_in: bytearray, open_out: bytearray, blocks: Iterable[int]
                 | None = None) -> None:
        self.graph, self.open_in, self.open_out = graph, open_in, open_out
        self.of_side: dict[int, int] = {}
        self.sides: list[list[int]] = [[]]  # of each junction; of the outside those that were seen are not kept
        self.blocks = range(len(graph)) if blocks is None else sorted(blocks)
        for block in self.blocks:
            for side in (way_in(block), way_out(block)):
                if side not in self.of_side:
                    self.walk(side)

    def walk(self, side: int) -> None:
        """The junction that a side belongs to, with all of its sides; as soon as the outside is met, it is that."""
        found, work = {side}, [side]
        number = len(self.sides)
        while work and number:
            for other in self.beside(work.pop()):
                if other == OUTSIDE or self.of_side.get(other) == 0:
                    number = 0
                elif other not in found:
                    found.add(other)
                    work.append(other)
        if number:
            self.sides.append(list(found))
        self.of_side.update(dict.fromkeys(found, number))

    def beside(self, side: int) -> list[int]:
        """The sides that ways lead to from a side, or come from; OUTSIDE where that may be elsewhere."""
        graph, (block, is_out) = self.graph, divmod(side, 2)
        edges = (graph.out if is_out else graph.into)[block]
        if not edges or (self.open_out if is_out else self.open_in)[block]:
            return [OUTSIDE]
        if is_out:
            return [OUTSIDE if (to := graph.target[edge]) == OUTSIDE else way_in(to) for edge in edges]
        return [way_out(graph.source[edge]) for edge in edges]

    def entered(self, block: int) -> int:
        """The junction from which control enters a block."""
        return self.of_side[way_in(block)]

    def left(self, block: int) -> int:
        """The junction to which control leaves it."""
        return self.of_side[way_out(block)]

    def surplus(self, junction: int, counts: list[int | None]) -> int:
        """Of known blocks: what enters a junction, less what leaves it."""
        return sum((counts[side // 2] or 0) * (1 if side % 2 else -1) for side in self.sides[junction])

    def solved(self, counts: list[int | None]) -> dict[int, int]:
        """The counts of these blocks, none of which is known, that follow, junction by junction, from those of all
        others."""
        unknown: dict[int, set[int]] = {}
        found: dict[int, int] = {}
        for block in self.blocks:
            if self.entered(block) != self.left(block):
                for junction in (self.left(block), self.entered(block)):
                    unknown.setdefault(junction, set()).add(block)
        surplus = {junction: self.surplus(junction, counts) for junction in unknown}
        work = [junction for junction, blocks in unknown.items() if junction and len(blocks) == 1]
        while work:
            junction = work.pop()
            if len(unknown[junction]) != 1:
                continue
            (block,) = unknown[junction]
            found[block] = surplus[junction] if self.entered(block) == junction else -surplus[junction]
            for there, sign in ((self.left(block), 1), (self.entered(block), -1)):
                surplus[there] += sign * found[block]
                unknown[there].discard(block)
                if there and len(unknown[there]) == 1:
                    work.append(there)
        return found

    def unmeasured(self, blocks: Iterable[int]) -> list[int]:
        """Of blocks, those wanted most first, a greatest set whose counts follow from those of all others."""
        sets = Sets(len(self.sides))
        return [block for block in blocks if sets.join(self.entered(block), self.left(block))]


def way_in(block: int) -> int:
    """The side of a block at which its ways in end."""
    return 2 * block


def way_out(block: int) -> int:
    """The side of a block at which its ways out begin."""
    return 2 * block + 1
