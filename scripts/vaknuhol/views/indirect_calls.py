"""Which indirect calls led to which functions: an estimate, but where only one way is left.

Known is how often each indirect call was made, and how often each function was entered otherwise than by direct calls.
The two are matched, so that no call is made more often than it was, and no function entered more often: first where the
call's operand tells of the function, last where it speaks against it; then what is equal, and the greatest numbers. Of
several ways of one number that is taken which is all of both; then one from a function that is called by what holds the
function's address, directly or not. A function is given to calls by what it calls itself, and to jumps that need not be
calls, only for what can't have come from elsewhere.
"""
import heapq
import itertools
from collections.abc import Callable, Iterable, Mapping, Sequence

from vaknuhol.program.call_slots import AGAINST, OPEN, TOLD
from vaknuhol.views.calls import BY_CALL, BY_JUMP, Site

Shares = dict[tuple[int, int], int]  # by the number of a site, and by the first address of a function
Way = tuple[int, bool, bool, int, int]  # in the order in which they are taken
Told = Callable[[int, int], int]  # what a site's operand, by the site's number, tells of a function


class Reached:
    """Which functions call which, directly or by others."""

    def __init__(self, edges: Iterable[tuple[int, int]]) -> None:
        self.out: dict[int, set[int]] = {}
        for caller, callee in edges:
            self.out.setdefault(caller, set()).add(callee)

    def below(self, first: int) -> set[int]:
        """A function, and all that it calls."""
        found, work = {first}, [first]
        while work:
            new = self.out.get(work.pop(), set()) - found
            found |= new
            work += new
        return found


class Sharing:
    """`holders` has the functions that hold a function's address, `together` functions that one call leads to, as that
    by which a program that is started has its functions chosen for the processor."""

    def __init__(self, sites: Sequence[Site], wanted: Mapping[int, int], edges: Iterable[tuple[int, int]],
                 holders: Mapping[int, set[int]], together: Iterable[int] = (),
                 told: Told = lambda number, first: OPEN) -> None:
        self.sites, self.told, reached = sites, told, Reached(edges)
        self.left = [site.times for site in sites]
        self.wanted = dict(wanted)
        self.below = {first: reached.below(first) for first in wanted}
        self.near = {first: set[int]().union(*(reached.below(holder) for holder in holders.get(first, ())))
                     for first in wanted}
        self.together = [first for first in together if first in wanted]
        self.shares: Shares = {}

    def give(self, number: int, first: int, count: int) -> list[int]:
        """Gives calls to a function; the functions of which more calls are near for that."""
        self.shares[number, first] = self.shares.get((number, first), 0) + count
        self.left[number] -= count
        self.wanted[first] -= count
        caller = self.sites[number].caller
        for below in self.below.values():
            if caller in below:
                below |= self.below[first]
        nearer = [other for other, near in self.near.items() if caller in near and not self.below[first] <= near]
        for other in nearer:
            self.near[other] |= self.below[first]
        return nearer

    def give_together(self) -> None:
        """To the one call that was made as often as all of these were entered."""
        count = sum(self.wanted[first] for first in self.together)
        numbers = [number for number, left in enumerate(self.left) if left == count]
        if self.together and len(numbers) == 1:
            for first in self.together:
                self.give(numbers[0], first, self.wanted[first])

    def may_lead(self, number: int, first: int) -> bool:
        """Whether a call isn't one by what the function calls itself."""
        return self.sites[number].caller not in self.below[first]

    def give_equal(self, told: int) -> None:
        """A number that one call and one function alone have, of those of which operands tell the same, tells of the
        same calls, also of jumps."""
        for first, count in list(self.wanted.items()):
            numbers = [number for number, left in enumerate(self.left)
                       if left == count and self.told(number, first) == told and self.may_lead(number, first)]
            if count > 1 and len(numbers) == 1:
                firsts = [other for other, wanted in self.wanted.items() if wanted == count
                          and self.told(numbers[0], other) == told and self.may_lead(numbers[0], other)]
                if firsts == [first]:
                    self.give(numbers[0], first, count)

    def way(self, number: int, first: int) -> Way:
        """The least comes first."""
        left, wanted, site = self.left[number], self.wanted[first], self.sites[number]
        is_near = site.kind == BY_CALL and site.caller in self.near[first]
        return -min(left, wanted), left != wanted, not is_near, number, first

    def share_out(self, told: int, with_jumps: bool, may_return: bool) -> None:
        """Matches what is left and of which operands tell the same, the greatest numbers first."""
        numbers = [number for number, site in enumerate(self.sites)
                   if self.left[number] and (with_jumps or site.kind != BY_JUMP)]

        def ways_to(firsts: Iterable[int]) -> list[Way]:
            return [self.way(number, first) for first in firsts if self.wanted[first] for number in numbers
                    if self.left[number] and self.told(number, first) == told
                    and (may_return or self.may_lead(number, first))]

        ways = ways_to(self.wanted)
        heapq.heapify(ways)
        while ways:
            way = heapq.heappop(ways)
            number, first = way[3:]
            now = self.way(number, first)
            if now != way:
                if now[0]:
                    heapq.heappush(ways, now)
            elif may_return or self.may_lead(number, first):
                for better in ways_to(self.give(number, first, -way[0])):
                    heapq.heappush(ways, better)

    def shared(self) -> Shares:
        self.give_together()
        for told in (TOLD, OPEN, AGAINST):
            self.give_equal(told)
            for may_return, with_jumps in itertools.product((False, True), (False, True)):
                self.share_out(told, with_jumps, may_return)
        return self.shares
