"""How often control goes round among some blocks: gcov's count of a line's own loops.

Cycles of edges that were gone are searched one after the other; each counts by its least edge, which is taken from all
of its edges.
"""
from typing import Iterable

from vaknuhol.views.flow_solving import Flow

MOST = 2000  # edges; beyond, the edges that lead back count, which is the same for loops without exits in their middle


Ends = dict[int, tuple[int, int]]  # of edges


def cycle_count(blocks: list[int], latches: set[int], flow: Flow, calls: Iterable[list[int]] = ()) -> int | None:
    """The rounds among some blocks, by ways that don't lead to latches, which count by themselves; None where the count
    of a way that may be part of one isn't known. The blocks of a call are one place, by which a round may go."""
    graph, inside = flow.graph, set(blocks)
    places = {block: block for block in inside}
    for call in calls:
        places.update((block, call[0]) for block in call if block not in inside)
    left: dict[int, int] = {}
    ends: Ends = {}
    for block, place in places.items():
        for edge in graph.out[block]:
            target = graph.target[edge]
            is_elsewhere = target not in inside and places.get(target) == place
            if target in latches or target not in places or is_elsewhere or flow.edges[edge] == 0:
                continue
            count = flow.edges[edge]
            if count is None and block in inside and target in inside:
                return None
            left[edge], ends[edge] = count or 0, (place, places[target])
    if len(left) > MOST:
        return sum(count for edge, count in left.items() if graph.target[edge] <= graph.source[edge])
    return rounds_of(left, ends, inside)


def rounds_of(left: dict[int, int], ends: Ends, inside: set[int]) -> int:
    out: dict[int, list[int]] = {}
    for edge, (place, _) in ends.items():
        out.setdefault(place, []).append(edge)
    total = 0
    while left and (cycle := a_cycle(out, left, ends)):
        least = min(left[edge] for edge in cycle)
        if any(ends[edge][0] in inside for edge in cycle):
            total += least
        for edge in cycle:
            left[edge] -= least
    return total


def a_cycle(out: dict[int, list[int]], left: dict[int, int], ends: Ends) -> list[int]:
    """The edges of any cycle of which something is left; none where there is no more."""
    on_path: dict[int, bool] = {}
    for start in out:
        if start in on_path:
            continue
        path, stack = list[int](), [(start, iter(out[start]))]
        on_path[start] = True
        while stack:
            place, edges = stack[-1]
            edge = next((edge for edge in edges if left[edge] > 0 and on_path.get(ends[edge][1], True)), None)
            if edge is None:
                on_path[place] = False
                stack.pop()
                if path:
                    path.pop()
                continue
            to = ends[edge][1]
            path.append(edge)
            if to in on_path:
                return path[next(at for at, step in enumerate(path) if ends[step][0] == to):]
            on_path[to] = True
            stack.append((to, iter(out.get(to, ()))))
    return []
