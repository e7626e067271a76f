"""The call graph as text, in gprof's order: above each function its callers, below it what it calls."""
from collections.abc import Iterator

from vaknuhol.messages import counted
from vaknuhol.views.call_graph import Edge
from vaknuhol.views.profile import Profile

ABOUT = "~"
NOTES = """instructions executed: self, and the counts of direct calls, are exact; inclusive costs are estimates, since
a function's cost is taken to be the same in each of its calls
above a function what calls it, below it what it calls, with n of m calls; ~ how indirect calls may have led there"""


class CallText:
    def __init__(self, profile: Profile) -> None:
        self.profile, self.graph, self.total = profile, profile.graph, profile.costs.total or 1
        cycles = [at for at, group in enumerate(self.graph.groups) if len(group) > 1]
        cycles.sort(key=lambda at: -self.graph.total[at])
        self.cycles = {at: place for place, at in enumerate(cycles, 1)}

    def name(self, first: int) -> str:
        cycle = self.cycles.get(self.graph.group[first])
        return self.profile.name(first) + (f" <cycle {cycle}>" if cycle else "")

    def calls(self, edge: Edge, first: int) -> str:
        """The calls along an edge, of all that come to a function but for those within its cycle."""
        sign = "" if not edge.indirect or self.profile.is_exact else ABOUT
        return f"{sign}{edge.count}/{self.all_calls(first)}"

    def all_calls(self, first: int) -> int:
        callers = self.graph.callers[first]
        return (self.profile.elsewhere.get(first, 0)
                + sum(self.graph.edges[caller, first].count for caller in callers if caller != first))

    def row(self, inclusive: str, own: str, calls: str, name: str, is_head: bool = False) -> str:
        share, gap = (f"{100 * float(inclusive) / self.total:.2f}", "") if is_head else ("", "    ")
        return f"{share:>7}  {inclusive:>14}  {own:>14}  {calls:>21}  {gap}{name}".rstrip()

    def edge_row(self, caller: int, callee: int, shown: int) -> str:
        edge = self.graph.edges[caller, callee]
        is_within = self.graph.group[caller] == self.graph.group[callee]
        calls = str(edge.count) if is_within and self.graph.is_cycle(callee) else self.calls(edge, callee)
        kind = "" if edge.direct else ", by indirect calls"
        return self.row(f"{self.graph.cost_of(caller, callee):.0f}", "", calls, self.name(shown) + kind)

    def head_row(self, first: int) -> str:
        own = self.graph.edges.get((first, first))
        again = f"+{own.count}" if own else ""
        calls = f"{self.all_calls(first)}{again}"
        return self.row(f"{self.graph.inclusive[first]:.0f}", str(self.profile.costs.of.get(first, 0)), calls,
                        self.name(first), True)

    def function(self, first: int) -> Iterator[str]:
        """A function between what calls it and what it calls, those with the greatest costs next to it."""
        callers = [caller for caller in self.graph.callers[first] if caller != first]
        callees = [callee for callee in self.graph.callees[first] if callee != first]
        elsewhere = self.profile.elsewhere.get(first, 0)
        if elsewhere:
            yield self.row("", "", f"{elsewhere}/{self.all_calls(first)}", "from elsewhere")
        for caller in sorted(callers, key=lambda it: (self.graph.cost_of(it, first), it)):
            yield self.edge_row(caller, first, caller)
        yield self.head_row(first)
        for callee in sorted(callees, key=lambda it: (-self.graph.cost_of(first, it), it)):
            yield self.edge_row(first, callee, callee)
        unknown = self.profile.unknown.get(first, 0)
        if unknown:
            yield self.row("", "", str(unknown), "by indirect calls, to what isn't known")

    def cycle(self, at: int) -> str:
        group = self.graph.groups[at]
        own = sum(self.profile.costs.of.get(first, 0) for first in group)
        return self.row(f"{self.graph.total[at]:.0f}", str(own), str(self.graph.from_outside[at]),
                        f"<cycle {self.cycles[at]}>, of {counted(len(group), 'function')}", True)

    def lines(self) -> Iterator[str]:
        yield NOTES
        yield ""
        yield f"{'share %':>7}  {'inclusive':>14}  {'self':>14}  {'calls':>21}  function"
        for at in self.cycles:
            yield self.cycle(at)
        for first in self.profile.by_cost():
            yield ""
            yield from self.function(first)


def print_calls(profile: Profile) -> None:
    for line in CallText(profile).lines():
        print(line)
