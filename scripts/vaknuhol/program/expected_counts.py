"""How often blocks are expected to be executed, as far as the code tells: a loop goes round ten times, other ways are
taken alike.

Loops are those of the ways back in a walk in depth. The frequencies then follow in the order of that walk, as by Wu and
Larus, "Static branch frequency and program profile analysis", 1994: a head of a loop counts ten times what comes in,
and of what leaves a block in a loop a tenth leaves the loop.
"""
from typing import Iterator

from vaknuhol.program.flow_graph import OUTSIDE, Graph
from vaknuhol.program.loops import body_of

ROUNDS = 10.0


class Walk:
    """A walk in depth: the blocks in an order in which a block stands behind those that lead to it, but for ways back;
    and those."""

    def __init__(self, graph: Graph) -> None:
        self.graph = graph
        self.order: list[int] = []
        self.back: set[int] = set()  # edges
        self.is_open, self.is_seen = bytearray(len(graph)), bytearray(len(graph))
        begin = [block for block in range(len(graph)) if graph.open_in[block] or not graph.into[block]]
        for block in (*begin, *range(len(graph))):
            if not self.is_seen[block]:
                self.walk(block)
        self.order.reverse()

    def walk(self, block: int) -> None:
        graph, stack = self.graph, [(block, iter(self.graph.out[block]))]
        self.is_seen[block] = self.is_open[block] = True
        while stack:
            block, edges = stack[-1]
            following = self.following(edges)
            if following is None:
                self.is_open[block] = False
                self.order.append(block)
                stack.pop()
            else:
                self.is_seen[following] = self.is_open[following] = True
                stack.append((following, iter(graph.out[following])))

    def following(self, edges: Iterator[int]) -> int | None:
        """The next block that wasn't seen yet; ways back are noted."""
        for edge in edges:
            target = self.graph.target[edge]
            if target == OUTSIDE:
                continue
            if self.is_open[target]:
                self.back.add(edge)
            elif not self.is_seen[target]:
                return target
        return None


def depths(graph: Graph, walk: Walk) -> list[int]:
    """In how many loops each block stands; those of one head are one."""
    bodies: dict[int, set[int]] = {}
    for edge in walk.back:
        latch, head = graph.source[edge], graph.target[edge]
        bodies.setdefault(head, set()).update(body_of(graph, latch, head) or ())
    depth = [0] * len(graph)
    for body in bodies.values():
        for block in body:
            depth[block] += 1
    return depth


def shares(graph: Graph, block: int, depth: list[int]) -> Iterator[tuple[int, float]]:
    """The edges of a block, and which part of its executions goes each way."""
    edges = [edge for edge in graph.out[block] if graph.target[edge] != OUTSIDE]
    leaving = [edge for edge in edges if depth[graph.target[edge]] < depth[block]]
    staying = [edge for edge in edges if depth[graph.target[edge]] >= depth[block]]
    for part, other, share in ((leaving, staying, 1 / ROUNDS), (staying, leaving, 1 - 1 / ROUNDS)):
        yield from ((edge, (share if other else 1.0) / len(part)) for edge in part)


def expected_counts(graph: Graph) -> list[float]:
    """The expected count of each block, for one call of each function."""
    walk = Walk(graph)
    depth, heads = depths(graph, walk), {graph.target[edge] for edge in walk.back}
    counts = [1.0 if graph.open_in[block] or not graph.into[block] else 0.0 for block in range(len(graph))]
    for block in walk.order:
        if block in heads:
            counts[block] *= ROUNDS
        for edge, share in shares(graph, block, depth):
            if edge not in walk.back:
                counts[graph.target[edge]] += share * counts[block]
    return counts
