"""What follows from the counts of a record, kept in PROGRAM.vak: the last record's, as long as the record, the program
and the scripts are the same. The files are of the user's folder, and what is no such text in them is as if it weren't
there. The ways between the blocks have a file of their own, since not all that is shown asks for them."""
import contextlib
import hashlib
import json
import os
from typing import Any

from vaknuhol.outputs import write_whole
from vaknuhol.program.flow_graph import OUTSIDE, TABLE, Graph
from vaknuhol.program.listing import Listing
from vaknuhol.program.listing_file import key_of
from vaknuhol.recording.kept_patches import scripts_hash
from vaknuhol.recording.record_file import Row
from vaknuhol.recording.record_sum import WORD
from vaknuhol.views.flow_solving import ASSUMED, SOLVED, Flow, Solved

COUNTS, WAYS = "solved.json", "ways.json"
OF_EDGES, OF_BLOCKS = ("source", "target", "kind"), ("open_out", "open_in", "calls", "partial")


def are_numbers(numbers: Any, low: int, high: int) -> bool:
    return isinstance(numbers, list) and {*map(type, numbers)} <= {int} and all(low <= number < high
                                                                               for number in numbers)


class KeptCounts:
    def __init__(self, listing: Listing, rows: list[Row], adds: bool) -> None:
        self.folder, self.adds = listing.folder, adds
        self.given = [row.count for row in rows]
        text = "\n".join((scripts_hash(), key_of(listing.path), str(adds), *(row.line() for row in rows)))
        self.key = hashlib.sha256(text.encode()).hexdigest()

    def read(self, name: str) -> Any:
        """What is kept of this record; nothing where it is of another one."""
        try:
            with open(os.path.join(self.folder, name), encoding="utf-8") as file:
                text = json.load(file)
            return text if text["of"] == self.key else None
        except (OSError, ValueError, KeyError, TypeError):
            return None

    def counts(self) -> Solved | None:
        """What is kept of the counts, without those of ways."""
        try:
            text = self.read(COUNTS)
            solved = text and Solved({number: (count, how) for number, count, how in text["counts"]},
                                     set(text["contradicted"]), [])
        except (ValueError, KeyError, TypeError):
            return None
        return solved if solved and self.fits(solved) else None

    def fits(self, solved: Solved) -> bool:
        """Whether these can be blocks and counts of this record."""
        return (are_numbers([*solved.counts, *solved.contradicted], 0, len(self.given))
                and all(isinstance(count, int) and count >= 0 and how in (SOLVED, ASSUMED)
                        and self.given[number] is None for number, (count, how) in solved.counts.items()))

    def flow(self) -> Flow | None:
        """The counts with the ways between the blocks, as far as both are kept."""
        solved, text = self.counts(), self.read(WAYS)
        graph = self.graph_of(text) if solved and text else None
        if not solved or not graph or not isinstance(text.get("edges"), list):
            return None
        edges = text["edges"]
        if len(edges) != len(graph.kind) or not are_numbers([it for it in edges if it is not None], 0, WORD):
            return None
        return Flow(graph, list(self.given), not self.adds, Solved(solved.counts, solved.contradicted, edges))

    def graph_of(self, text: Any) -> Graph | None:
        """The graph that a text has, where it can be one of so many blocks."""
        blocks = len(self.given)
        source, target, kind = ends = [text.get(name) for name in OF_EDGES]
        marks = [text.get(name) for name in OF_BLOCKS]
        if not (are_numbers(source, 0, blocks) and are_numbers(target, OUTSIDE, blocks)
                and are_numbers(kind, 0, TABLE + 1) and len(source) == len(target) == len(kind)
                and all(are_numbers(of_blocks, 0, 2) and len(of_blocks) == blocks for of_blocks in marks)):
            return None
        graph = Graph(blocks)
        for edge in zip(*ends):
            graph.add(*edge)
        for name, of_blocks in zip(OF_BLOCKS, marks):
            setattr(graph, name, bytearray(of_blocks))
        return graph

    def keep(self, flow: Flow) -> None:
        """Keeps this where the folder is there and can be written."""
        if not os.path.isdir(self.folder) or not os.access(self.folder, os.W_OK):
            return
        solved = flow.solved()
        counts = {"of": self.key, "counts": [[number, *of] for number, of in solved.counts.items()],
                  "contradicted": sorted(solved.contradicted)}
        ways = {"of": self.key, "edges": solved.edges,
                **{name: list(getattr(flow.graph, name)) for name in (*OF_EDGES, *OF_BLOCKS)}}
        with contextlib.suppress(OSError):
            write_whole({os.path.join(self.folder, name): json.dumps(text) + "\n"
                         for name, text in ((COUNTS, counts), (WAYS, ways))})
