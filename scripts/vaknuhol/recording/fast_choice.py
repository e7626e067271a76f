"""Fewer sites for the same counts: blocks whose counts follow from those of the others are not patched.

Those that are expected to be executed most are left out first, which leaves sites where the least is executed: a
greatest spanning tree.
"""
from vaknuhol.program.blocks import Block
from vaknuhol.program.expected_counts import expected_counts
from vaknuhol.program.flow_graph import graph_of
from vaknuhol.program.flow_junctions import Junctions
from vaknuhol.program.listing import Listing
from vaknuhol.program.program_file import Program


class Fast:
    """The choice of the blocks that are patched, made again where some of them were left."""

    def __init__(self, blocks: list[Block], program: Program, listing: Listing) -> None:
        self.blocks, graph = blocks, graph_of(blocks, program, listing)
        self.junctions = Junctions(graph, graph.open_in, graph.open_out)
        self.expected = expected_counts(graph)
        self.left: set[int] = set()

    def measured(self) -> list[Block]:
        """The blocks that are to be patched, so that the counts of all follow; those that were left aren't among them,
        as far as their counts can follow."""
        order = sorted(range(len(self.blocks)), key=lambda number: (number not in self.left, -self.expected[number]))
        unmeasured = set(self.junctions.unmeasured(order))
        return [block for number, block in enumerate(self.blocks) if number not in unmeasured]

    def leave(self, firsts: set[int]) -> bool:
        """Takes note of blocks that were left; whether others are to be patched for them."""
        found = {number for number, block in enumerate(self.blocks) if block.first in firsts} - self.left
        self.left |= found
        return bool(found)
