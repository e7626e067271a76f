"""Loops of the ways between blocks: natural ones, which are entered at their heads alone (Aho, Lam, Sethi and Ullman,
Compilers, section 9.6)."""
from vaknuhol.program.flow_graph import Graph


def body_of(graph: Graph, latch: int, head: int) -> set[int] | None:
    """The blocks of the loop that a way from a latch back to a head closes; None where there is a way to the latch that
    doesn't come by the head, so that it closes none."""
    body, work = {head}, [latch]
    while work:
        block = work.pop()
        if block in body:
            continue
        if graph.open_in[block] or not graph.into[block]:
            return None
        body.add(block)
        work += [graph.source[edge] for edge in graph.into[block]]
    return body
