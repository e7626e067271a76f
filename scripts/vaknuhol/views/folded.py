"""Folded stacks, as flamegraph.pl and speedscope read them: the functions of a stack from the outermost on, parted by
semicolons, and the instructions executed there. The stacks are an estimate, by the call graph's: a function is taken to
do the same in each of its calls. What is less than a hundred thousandth of all is left at its caller, and so are calls
that lead back into a cycle."""
from collections.abc import Iterator

from vaknuhol.views.profile import Profile

LEAST = 1e-5


def stacks(profile: Profile) -> Iterator[tuple[list[int], float]]:
    """Each stack with its cost."""
    graph, least = profile.graph, max(profile.costs.total * LEAST, 0.5)
    work = [([first], cost) for first, cost in graph.roots() if cost]
    while work:
        path, cost = work.pop()
        first = path[-1]
        part = cost / graph.inclusive[first] if graph.inclusive[first] else 0.0
        own = profile.costs.of.get(first, 0) * part
        for callee in graph.callees[first]:
            below = graph.cost_of(first, callee) * part
            if below >= least:
                work.append(([*path, callee], below))
            else:
                own += below
        yield path, own


def text(profile: Profile) -> str:
    found: dict[str, float] = {}
    for path, cost in stacks(profile):
        name = ";".join(profile.name(first).replace(";", ",") for first in path)
        found[name] = found.get(name, 0.0) + cost
    return "".join(f"{name} {cost:.0f}\n" for name, cost in sorted(found.items()) if cost >= 0.5)
