"""The two counts of each two-way branch: how often the conditional jump with which a block ends was taken, and how
often not.

A branch belongs to the line in which its block ends. Where all copies of a line have as many branches, these are added
up, the first with the first and so on; else each copy has its own. Those of which a count isn't known are left out.
"""
from vaknuhol.program.copies import Copies, Key
from vaknuhol.views.flow_solving import Flow

Branch = tuple[int, int]  # taken, not taken


def by_copies(copies: Copies, flow: Flow) -> dict[Key, dict[int, list[Branch | None]]]:
    found: dict[Key, dict[int, list[Branch | None]]] = {}
    for block, (copy, key) in copies.last_line.items():
        ways = flow.graph.ways_of_branch(block)
        if ways:
            taken, falls = (flow.edges[edge] for edge in ways)
            known = None if taken is None or falls is None else (taken, falls)
            found.setdefault(key, {}).setdefault(copy, []).append(known)
    return found


def branches_of(copies: Copies, flow: Flow) -> dict[Key, list[Branch]]:
    """The branches of each line that has some, in the order of their addresses."""
    found = {}
    for key, its in by_copies(copies, flow).items():
        if len({len(branches) for branches in its.values()}) == 1:
            added = [added_up(same, flow.is_coverage) for same in zip(*its.values())]
        else:
            added = [branch for branches in its.values() for branch in branches]
        known = [branch for branch in added if branch is not None]
        if known:
            found[key] = known
    return found


def added_up(branches: tuple[Branch | None, ...], is_coverage: bool) -> Branch | None:
    """The same branch of several copies; of coverage a way is gone where it is in one of them."""
    known = [branch for branch in branches if branch is not None]
    if len(known) < len(branches):
        return None
    taken, falls = (sum(branch[way] for branch in known) for way in (0, 1))
    return (min(taken, 1), min(falls, 1)) if is_coverage else (taken, falls)
