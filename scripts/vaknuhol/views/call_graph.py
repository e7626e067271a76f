"""The call graph of a record, with inclusive costs: executed instructions of a function and of what it calls.

Counts of calls don't tell what was executed on whose behalf. As gprof does (Graham, Kessler, McKusick: gprof, a call
graph execution profiler, 1982), a function's cost is taken to be the same in each of its calls, so a caller has a share
of it, in proportion to its calls. Functions that call one another are a cycle, which is one function to its callers:
calls within are none of its calls. Within a cycle each function has what it calls, but for calls that lead back to
where the cycle was entered.
"""
from collections.abc import Iterable, Iterator, Mapping

Graph = Mapping[int, Iterable[int]]


class Edge:
    """The calls of one function by another: direct ones, which are counted, and by estimate indirect ones."""
    __slots__ = ("direct", "indirect")

    def __init__(self) -> None:
        self.direct = self.indirect = 0

    def add(self, count: int, is_direct: bool) -> None:
        if is_direct:
            self.direct += count
        else:
            self.indirect += count

    @property
    def count(self) -> int:
        return self.direct + self.indirect


class CallGraph:
    """Functions are known by their first addresses. `edges` has the calls by caller and callee, `elsewhere` how often
    a function was entered from no caller that is known."""

    def __init__(self, costs: Mapping[int, int], edges: Mapping[tuple[int, int], Edge],
                 elsewhere: Mapping[int, int]) -> None:
        self.costs, self.edges, self.elsewhere = costs, edges, elsewhere
        self.callees: dict[int, list[int]] = {first: [] for first in costs}
        self.callers: dict[int, list[int]] = {first: [] for first in costs}
        for caller, callee in edges:
            for first in (caller, callee):
                self.callees.setdefault(first, [])
                self.callers.setdefault(first, [])
            self.callees[caller].append(callee)
            self.callers[callee].append(caller)
        self.groups = groups_of(self.callees)  # what is called comes before its callers
        self.group = {first: number for number, group in enumerate(self.groups) for first in group}
        self.back: set[tuple[int, int]] = set()  # the calls within a cycle that lead back
        self.inclusive: dict[int, float] = {}
        self.total: list[float] = []  # of each group
        self.from_outside: list[int] = []  # how often each group is called from outside
        for number, group in enumerate(self.groups):
            self.take(number, group)

    def is_cycle(self, first: int) -> bool:
        return len(self.groups[self.group[first]]) > 1

    def take(self, number: int, group: list[int]) -> None:
        """The costs of a group, when those of all that it calls are known."""
        self.from_outside.append(sum(self.calls_from_outside(first) for first in group))
        entries = sorted(group, key=lambda first: (-self.calls_from_outside(first), first))
        order = self.order_within(entries) if len(group) > 1 else group
        of_calls = {first: sum(self.cost_of(first, callee) for callee in self.callees[first]
                               if self.group[callee] != number) for first in group}
        self.total.append(sum(self.costs.get(first, 0) + of_calls[first] for first in group))
        for first in order:
            within = sum(self.cost_of(first, callee) for callee in self.callees[first] if self.group[callee] == number)
            self.inclusive[first] = self.costs.get(first, 0) + of_calls[first] + within

    def calls_from_outside(self, first: int) -> int:
        """How often a function is called from outside of its cycle, callers that aren't known included."""
        return self.elsewhere.get(first, 0) + sum(self.edges[caller, first].count for caller in self.callers[first]
                                                  if self.group[caller] != self.group[first])

    def order_within(self, entries: list[int]) -> list[int]:
        """The functions of a cycle, each after those that it calls; what leads back is noted, and is no call here."""
        number, found = self.group[entries[0]], []
        state: dict[int, bool] = {}  # whether it is on the way
        for entry in entries:
            if entry in state:
                continue
            state[entry] = True
            stack = [(entry, iter(sorted(self.callees[entry])))]
            while stack:
                first, callees = stack[-1]
                callee = next((it for it in callees if self.group[it] == number), None)
                if callee is None:
                    state[first] = False
                    found.append(first)
                    stack.pop()
                elif callee not in state:
                    state[callee] = True
                    stack.append((callee, iter(sorted(self.callees[callee]))))
                elif state[callee]:
                    self.back.add((first, callee))
        return found

    def calls_of(self, first: int) -> int:
        """How often a function was called by what isn't below it."""
        inner = sum(self.edges[caller, first].count for caller in self.callers[first]
                    if self.group[caller] == self.group[first] and not self.leads_back(caller, first))
        return self.calls_from_outside(first) + inner

    def roots(self) -> Iterator[tuple[int, float]]:
        """The functions that were entered from no caller that is known, with what was executed then."""
        for number, group in enumerate(self.groups):
            if not self.from_outside[number]:
                yield group[0], self.total[number]
            else:
                for first in group:
                    yield first, self.total[number] * self.elsewhere.get(first, 0) / self.from_outside[number]

    def leads_back(self, caller: int, callee: int) -> bool:
        return caller == callee or (caller, callee) in self.back

    def cost_of(self, caller: int, callee: int, count: int | None = None) -> float:
        """What was executed on behalf of the calls of one function by another, or of so many of them; nothing where
        they lead back."""
        calls = self.edges[caller, callee].count if count is None else count
        number = self.group[callee]
        if self.group[caller] != number:
            return self.total[number] * calls / self.from_outside[number]
        return 0.0 if self.leads_back(caller, callee) else self.inclusive[callee] * calls / self.calls_of(callee)


def groups_of(graph: Graph) -> list[list[int]]:
    """The functions that call one another, directly or by others, as groups (Tarjan's strongly connected components):
    each comes after those that it calls."""
    index: dict[int, int] = {}
    lowest: dict[int, int] = {}
    waiting, is_waiting, found = list[int](), set[int](), list[list[int]]()
    for root in sorted(graph):
        if root in index:
            continue
        work = [(root, iter(sorted(graph[root])))]
        index[root] = lowest[root] = len(index)
        waiting.append(root)
        is_waiting.add(root)
        while work:
            node, following = work[-1]
            step = next(following, None)
            if step is None:
                work.pop()
                if work:
                    lowest[work[-1][0]] = min(lowest[work[-1][0]], lowest[node])
                if lowest[node] == index[node]:
                    at = waiting.index(node)
                    found.append(sorted(waiting[at:]))
                    is_waiting.difference_update(waiting[at:])
                    del waiting[at:]
            elif step not in index:
                index[step] = lowest[step] = len(index)
                waiting.append(step)
                is_waiting.add(step)
                work.append((step, iter(sorted(graph[step]))))
            elif step in is_waiting:
                lowest[node] = min(lowest[node], index[step])
    return found
