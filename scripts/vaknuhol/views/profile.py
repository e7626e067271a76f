"""A record as a profile: executed instructions of each function, calls, and inclusive costs."""
import functools
from collections.abc import Mapping
from typing import NamedTuple

from vaknuhol.program.call_slots import AGAINST, ELEMENT, TABLE, TOLD, CallSlots
from vaknuhol.views.call_graph import CallGraph, Edge
from vaknuhol.views.calls import BY_JUMP, Calls
from vaknuhol.views.costs import Costs
from vaknuhol.views.coverage import Coverage
from vaknuhol.views.indirect_calls import Sharing, Told


class Led(NamedTuple):
    """What an instruction calls: a function, by its first address, where that leads in it, and how often; an estimate
    where the call is indirect."""
    callee: int
    target: int
    times: int
    is_direct: bool


class Profile:
    """`led` has the calls by the addresses of their instructions; `elsewhere` how often a function was entered from no
    caller that is known; `unknown` the indirect calls that may have led anywhere, as often as each function made such;
    `is_exact` tells whether indirect calls left one way alone."""

    def __init__(self, coverage: Coverage) -> None:
        self.costs = Costs(coverage)
        calls = Calls(coverage, self.costs)
        self.led: dict[int, list[Led]] = {}
        self.edges: dict[tuple[int, int], Edge] = {}
        for call in calls.direct:
            self.lead(call.site, call.caller, Led(call.callee, call.target, call.times, True))
        self.elsewhere = {**calls.from_elsewhere, **calls.from_outside}
        self.unknown: dict[int, int] = {}
        self.is_exact = is_one_way(calls)
        self.share(calls)
        self.graph = CallGraph(self.costs.of, self.edges, self.elsewhere)

    def lead(self, site: int, caller: int, led: Led) -> None:
        self.led.setdefault(site, []).append(led)
        self.edges.setdefault((caller, led.callee), Edge()).add(led.times, led.is_direct)

    def share(self, calls: Calls) -> None:
        """Gives indirect calls to functions."""
        holders = calls.holders()
        shares = Sharing(calls.indirect, calls.from_elsewhere, list(self.edges), holders,
                         sorted(set(calls.choosing.values())), told_by(calls, holders)).shared()
        left = [0 if site.kind == BY_JUMP else site.times for site in calls.indirect]
        for (number, first), count in sorted(shares.items()):
            site = calls.indirect[number]
            self.lead(site.site, site.caller, Led(first, first, count, False))
            self.elsewhere[first] -= count
            left[number] -= count
        for site, count in zip(calls.indirect, left):
            if count > 0:
                self.unknown[site.caller] = self.unknown.get(site.caller, 0) + count

    def name(self, first: int) -> str:
        return self.costs.name(first)

    def by_cost(self) -> list[int]:
        """The functions that were executed or called, those with the greatest inclusive cost first."""
        inclusive, own = self.graph.inclusive, self.costs.of
        return sorted((first for first in inclusive if own.get(first) or self.graph.callers[first]),
                      key=lambda first: (-inclusive[first], -own.get(first, 0), first))


def told_by(calls: Calls, holders: Mapping[int, set[int]]) -> Told:
    """What the operands of indirect calls tell. A word that is chosen as the program starts has what the choosing
    function holds."""
    slots = CallSlots(calls.program, calls.listing, calls.from_elsewhere)
    of_sites = [slots.slot_of(site.site) for site in calls.indirect]
    of_sites = [None if slot and slot.kind == ELEMENT and site.kind == BY_JUMP else slot  # which may be a switch
                for slot, site in zip(of_sites, calls.indirect)]
    chosen_by = [calls.choosing.get(slot.displacement) if slot and slot.kind == TABLE else None for slot in of_sites]

    @functools.cache
    def told(number: int, first: int) -> int:
        if chosen_by[number] is not None:
            return TOLD if chosen_by[number] in holders[first] else AGAINST
        return slots.told(of_sites[number], first)
    return told


def is_one_way(calls: Calls) -> bool:
    """Whether one function was entered by all indirect calls, or one instruction made all of them."""
    is_all = sum(site.times for site in calls.indirect) == sum(calls.from_elsewhere.values())
    return (is_all and all(site.kind != BY_JUMP for site in calls.indirect)
            and 1 in (len(calls.indirect), len(calls.from_elsewhere)))
