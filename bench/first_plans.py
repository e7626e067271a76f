"""The first admissible plan of each scheme at a turn, found by trying.

Each choice of pads, pad byte, victim, inner place and shared value is tried in order, and each free address as the
place of either trampoline; what is found is laid over the text, read back, and has to lead to both places.
"""
import itertools
from collections.abc import Iterable, Iterator
from typing import Optional

from plan_turns import Choice, Entry, Jump, Plan, Turn


def jump_to(choice: Choice, place: int) -> Jump:
    """The jump to a place that was found to be near enough."""
    jump = choice.to(place)
    assert jump
    return jump


def places_of(turn: Turn, choice: Choice, size: int, fixed: dict[int, int], own: set[int]) -> Iterator[int]:
    """The free places, ascending, to which the jump leads by some bytes where it writes its own, and by the others."""
    mask = wanted = 0
    for k, addr in enumerate(choice.displacement()):
        if addr not in own:
            byte = fixed.get(addr, turn.now(addr))
            if byte is None:
                return
            mask, wanted = mask | 0xFF << 8 * k, wanted | byte << 8 * k
    after = choice.next
    for place in [place for place in turn.free if (place - after) & mask == wanted]:
        if choice.to(place) and turn.is_free(place, size):
            yield place


def first_single(turn: Turn, scheme: str, pads: int) -> Optional[Plan]:
    """The first plan of one jump with so many pads."""
    choice = Choice(turn.site.addr, turn.site.end, pads, 0x40)
    own = {addr for addr in choice.displacement() if addr < choice.end}
    for place in places_of(turn, choice, turn.size(turn.site, True), choice.fixed(), own):
        plan = Plan(scheme, (jump_to(choice, place),), ((turn.site, True, place),))
        if turn.stands(plan):
            return plan
    return None


def shared_addresses(of_site: Choice, of_victim: Choice) -> list[int]:
    """Where both jumps have displacement bytes, and one of them writes one."""
    both = set(of_site.displacement()) & set(of_victim.displacement())
    return sorted(addr for addr in both if addr < max(of_site.end, of_victim.end))


def by_shared(choice: Choice, places: Iterator[int], shared: list[int]) -> dict[int, list[int]]:
    """The places, ascending, by the number that the shared bytes of the jump there spell."""
    found: dict[int, list[int]] = {}
    for place in places:
        spelled_bytes = jump_to(choice, place).bytes_by_address()
        number = int.from_bytes(bytes(spelled_bytes[addr] for addr in shared), "little")
        found.setdefault(number, []).append(place)
    return found


def first_pair(turn: Turn, scheme: str, victim: Entry, of_site: Choice, of_victim: Choice,
               short: Optional[Jump] = None) -> Optional[Plan]:
    """The first plan of two jumps to places, by the shared number, the site's place and the victim's."""
    fixed = {**(short.writes() if short else {}), **of_site.fixed(), **of_victim.fixed()}
    own = {addr for it in (of_site, of_victim) for addr in it.displacement() if addr < it.end} - set(fixed)
    shared = shared_addresses(of_site, of_victim)
    if len(shared) > 2:
        return None
    firsts = by_shared(of_site, places_of(turn, of_site, turn.size(turn.site, True), fixed, own), shared)
    if not firsts:
        return None
    seconds = by_shared(of_victim, places_of(turn, of_victim, turn.size(victim, False), fixed, own), shared)
    for number in sorted(set(firsts) & set(seconds)):
        # no other place than the least of the site's is looked at
        place = firsts[number][0]
        for second in seconds[number]:
            jumps = (jump_to(of_site, place), jump_to(of_victim, second))
            tramps = (turn.site, True, place), (victim, False, second)
            plan = Plan(scheme, (short, *jumps) if short else jumps, tramps)
            if turn.are_placed(plan) and turn.stands(plan):
                return plan
    return None


def first_behind(turn: Turn) -> Optional[Plan]:
    """The first plan whose victim stands right behind the site."""
    site = turn.site
    victims = [it for it in turn.entries if it.addr == site.end and site.length <= 4 and turn.may_be_victim(it)]
    for victim in victims:
        for pads, more in itertools.product(range(site.length), range(min(5, victim.length))):
            for pad in range(0x40, 0x50 if more else 0x41):
                of_site = Choice(site.addr, site.end, pads, 0x40)
                plan = first_pair(turn, "T2", victim, of_site, Choice(victim.addr, victim.end, more, pad))
                if plan:
                    return plan
    return None


def near_choices(turn: Turn, victim: Entry) -> Iterator[tuple[int, Jump]]:
    """The places inside a victim that a short jump of the site may lead to, and the short jump."""
    site, listed = turn.site, {it.addr for it in turn.entries}
    for at in range(victim.addr + 2, min(victim.end, site.addr + 2 + 128)):
        if at not in listed:
            yield at, Jump(site.addr, site.end, bytes([0xEB, at - site.addr - 2]))


def first_near(turn: Turn) -> Optional[Plan]:
    """The first plan whose victim stands near above the site."""
    site = turn.site
    victims = [it for it in turn.entries if it.addr >= site.end and site.length >= 2 and turn.may_be_victim(it)]
    for victim in victims:
        for at, short in near_choices(turn, victim):
            inside, own = Choice(at, victim.end, 0, 0x40), Choice(victim.addr, victim.end, 0, 0x40)
            plan = first_pair(turn, "T3", victim, inside, own, short)
            if plan:
                return plan
    return None


def answers(turn: Turn) -> list[Optional[Plan]]:
    """What the five schemes answer."""
    short = turn.site.length <= 4
    b1 = None if short else first_single(turn, "B1", 0)
    b2 = first_single(turn, "B2", 0) if short else None
    padded = (first_single(turn, "T1", pads) for pads in range(1, turn.site.length if short else 1))
    plans = [b1, b2, next(filter(None, padded), None), first_behind(turn), first_near(turn)]
    for plan in filter(None, plans):
        assert turn.leads(plan), (turn, plan)
    return plans


def runs(addresses: Iterable[int]) -> list[list[int]]:
    """The maximal runs of addresses, in ascending order."""
    found: list[list[int]] = []
    for addr in sorted(addresses):
        if found and found[-1][-1] == addr - 1:
            found[-1].append(addr)
        else:
            found.append([addr])
    return found


def standing(turn: Turn, run: list[int]) -> str:
    """The bytes as they stand."""
    found = [turn.now(addr) for addr in run]
    assert None not in found
    return bytes(byte for byte in found if byte is not None).hex()


def spelled(turn: Turn, plan: Optional[Plan]) -> str:
    if plan is None:
        return "-"
    written, words = plan.written(), [plan.scheme]
    words += [f"{place:08x}" if event else f"{place:08x}/{entry.addr:08x}" for entry, event, place in plan.tramps]
    for run in runs(written):
        words.append(f"{run[0]:08x}:{standing(turn, run)}:{bytes(written[addr] for addr in run).hex()}")
    words += [f"{run[0]:08x}:{standing(turn, run)}" for run in runs(plan.punned())]
    return ":".join(words)
