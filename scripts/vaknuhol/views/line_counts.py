"""Counts of source lines: the sum, over the copies of a line, of how often the line is entered in that copy.

In a copy, a line has the blocks in which a statement of it begins: of those with code of it, or where none of these
begins one, of those with rows without code, since the code was moved from there. Where none begins at all, it has all
with code of it. Those that only these lead to belong to it, too, and so do rows without code of it if control comes
to other code of it by them, and by the blocks in which it begins, alone. It is entered as often as they are executed,
less the times that control comes from one of them, or from a call inlined on this line, to another; and each time
that control goes round among them counts again, as it does with gcov. Where the count of an edge isn't known, it is
the greatest of the blocks' counts instead, and so where ways from blocks that aren't in the record lead to one of
them. Of a block that begins where the code of an inlined call ended, a line of the call has what comes from there. Of
coverage, a line is executed where any of its blocks is.

A line whose own code wasn't executed, while a call inlined on it was, is executed as often as that call; one of which
no statement was executed where it begins, while a branch of it was, as often as that branch. A line that has no code,
and of which nothing tells that it was executed, has no count: it is told as `no code`.
"""
from collections.abc import Iterable, Sequence

from vaknuhol.program.blocks import Span
from vaknuhol.program.copies import Copies, Key
from vaknuhol.program.debug_info import INLINED, RETURNS_VALUE, DebugInfo
from vaknuhol.program.flow_graph import OUTSIDE
from vaknuhol.program.program_file import Program
from vaknuhol.views.branches import Branch, branches_of
from vaknuhol.views.cycles import cycle_count
from vaknuhol.views.flow_solving import Flow
from vaknuhol.views.furthest_lines import FurthestLines
from vaknuhol.views.instances import Instances
from vaknuhol.views.loop_tests import Tests


class Line:
    """What is known of a line: its count, or that it has no code, or neither; how many blocks have code of it; its
    branches."""
    __slots__ = ("count", "has_code", "blocks", "branches")

    def __init__(self, count: int | None, has_code: bool, blocks: int, branches: list[Branch]) -> None:
        self.count, self.has_code, self.blocks, self.branches = count, has_code, blocks, branches

    def is_known(self) -> bool:
        return self.has_code and self.count is not None


class LineCounts:
    def __init__(self, copies: Copies, flow: Flow, instances: Instances) -> None:
        self.copies, self.flow, self.instances = copies, flow, instances
        self.furthest = FurthestLines(copies)
        info = copies.info
        self.branches = branches_of(copies, flow)
        self.calls: dict[Key, dict[int, list[int]]] = {}
        for instance in info.instances():
            key = (info.call_file[instance - 1], info.call_line[instance - 1])
            is_wanted = key[1] and key[0] in copies.wanted
            if is_wanted and info.kind[instance - 1] & INLINED and not copies.is_artificial(instance):
                self.calls.setdefault(key, {}).setdefault(info.parent[instance - 1], []).append(instance)

    def lines(self) -> dict[str, dict[int, Line]]:
        """The lines of each file, by their numbers."""
        copies = self.copies
        found: dict[str, dict[int, Line]] = {}
        for key in {*copies.own, *copies.traces, *self.calls, *copies.merged}:
            line = self.line(key)
            if line:
                found.setdefault(copies.info.files[key[0]], {})[key[1]] = line
        return {file: dict(sorted(lines.items())) for file, lines in sorted(found.items())}

    def line(self, key: Key) -> Line | None:
        copies = self.copies
        own, traces = copies.own.get(key, {}), copies.traces.get(key, {})
        places = {**traces, **own}
        if self.is_thunk(places.get(0, []), places):
            del places[0]
        count = self.joined([self.copy_count(key, copy) for copy in places])
        is_called = False
        if not count and key in self.calls:
            called = [self.called_count(its) for its in self.calls[key].values()]
            is_called = any(count is not None for count in called)
            count = self.joined(called) or count
        branches = self.branches.get(key, [])
        if count == 0:
            count = self.tests_made(branches)
        blocks = len({block for its in own.values() for block in its})
        if not (own or traces or is_called or key in copies.merged):
            return None
        return Line(count, bool(own or count or is_called), blocks, branches)

    def is_thunk(self, blocks: list[int], places: Iterable[int]) -> bool:
        """Whether blocks outside of functions, with a line of some copies, only lead to one of these: the compiler made
        them."""
        graph, entries = self.flow.graph, self.copies.entries
        targets = {graph.target[edge] for block in blocks for edge in graph.out[block]}
        return bool(targets) and targets <= {entries.get(copy) for copy in places}

    def tests_made(self, branches: list[Branch]) -> int:
        """How often the test of a line was made: the greatest count of its branches."""
        made = max((taken + falls for taken, falls in branches), default=0)
        return min(made, 1) if self.flow.is_coverage else made

    def joined(self, counts: list[int | None]) -> int | None:
        """The sum, as far as it is known; unknown where an unknown one may be all of it."""
        known = [count for count in counts if count is not None]
        total = max(known, default=0) if self.flow.is_coverage else sum(known)
        return total if total or len(known) == len(counts) else None

    def called_count(self, calls: list[int]) -> int | None:
        counts = [self.instances.entered(call, by_code=True) for call in calls if self.instances.blocks(call)]
        return max((count for count in counts if count is not None), default=None)

    def greatest(self, blocks: list[int]) -> int | None:
        """The greatest count; unknown where it is 0 and another isn't known."""
        counts = [self.flow.counts[block] for block in blocks]
        count = max((count for count in counts if count is not None), default=None)
        return None if count == 0 and None in counts else count

    def copy_count(self, key: Key, copy: int) -> int | None:
        begins, blocks = self.blocks_of(key, copy)
        if self.flow.is_coverage or any(self.flow.graph.partial[block] for block in blocks):
            return self.greatest(begins or blocks)
        called = self.calls.get(key, {}).get(copy, [])
        tests = Tests(self.copies, self.flow, key, copy, blocks)
        count = self.entered(begins, self.grown(set(begins), blocks), called, tests) if begins else None
        if count is None or not count and self.goes_on(key, copy, begins):
            return self.entered(blocks, blocks, called, tests)
        own = self.furthest.blocks(key, copy, begins, blocks) if count and not tests.latches else []
        return own and own != begins and self.entered(own, self.grown(set(own), own), called, tests) or count

    def goes_on(self, key: Key, copy: int, begins: list[int]) -> bool:
        """Whether a line that begins in some blocks goes on in one behind them that is of this line alone, and that
        leaves the function, to which its other returns lead."""
        graph, copies, place = self.flow.graph, self.copies, (copy, key)
        has_value = bool(copy and copies.info.kind[copy - 1] & RETURNS_VALUE)
        ends = [block for block in begins if has_value or not graph.calls[block]]
        behind = {graph.target[edge] for block in ends for edge in graph.out[block]}.difference(begins)
        return any(not graph.out[count] and copies.first_line.get(count) == copies.last_line.get(count) == place
                   for count in behind if count != OUTSIDE)

    def blocks_of(self, key: Key, copy: int) -> tuple[list[int], list[int]]:
        """The blocks in which statements of a line begin in a copy, and all of it: those with code, but where none of
        these begins a statement, the traces, since such code was moved there."""
        begins = self.copies.begins.get(key, {}).get(copy, set()) | self.copies.late.get(key, {}).get(copy, set())
        own, traces = (table.get(key, {}).get(copy, []) for table in (self.copies.own, self.copies.traces))
        blocks = own if begins.intersection(own) or not traces else traces
        begun = begins.intersection(blocks)
        rows = self.rows_before(set(own) - begun, begun, set(traces) - begun) if blocks is own and begun else set()
        return sorted(begun | rows), sorted({*blocks, *rows})

    def rows_before(self, code: set[int], begins: set[int], traces: set[int]) -> set[int]:
        """The blocks with rows without code in which a line begins, too, since control comes to other code of it from
        these and from those in which it begins alone: an optimizer left out a test whose outcome follows there."""
        found = set[int]()
        for block in code if traces else ():
            found |= self.last_rows(block, begins, traces) or set()
        return found

    def last_rows(self, block: int, begins: set[int], traces: set[int]) -> set[int] | None:
        """The rows that control passed last before a block; None where it may come there, or come again, without one,
        nor a block in which the line begins."""
        graph, edges = self.flow.graph, self.flow.edges
        rows, seen, work = set[int](), set[int](), [block]
        while work:
            at = work.pop()
            before = {graph.source[edge] for edge in graph.into[at] if edges[edge] != 0}
            if graph.open_in[at] or not graph.into[at] or OUTSIDE in before:
                return None
            rows |= before & traces
            behind = before - begins - traces - seen
            seen |= behind
            work += behind
        return None if block in seen else rows

    def grown(self, begins: set[int], blocks: list[int]) -> list[int]:
        """The blocks in which statements begin, and those of the line to which control comes from these alone."""
        graph, edges = self.flow.graph, self.flow.edges
        inside = begins | {block for block in blocks if graph.into[block] and not graph.open_in[block]}
        while wrong := {block for block in inside - begins if any(edges[edge] != 0 and graph.source[edge] not in inside
                                                                  for edge in graph.into[block])}:
            inside -= wrong
        return sorted(inside)

    def gone_to(self, inside: list[int], call: set[int]) -> set[int]:
        """Those blocks of a call to which control comes from some blocks: not those of code of it that was moved before
        them."""
        found: set[int] = set()
        graph, work = self.flow.graph, list(inside)
        while work:
            ways = {graph.target[edge] for edge in graph.out[work.pop()]} & call - found
            found |= ways
            work += ways
        return found

    def beside(self, key: Key, copy: int, block: int) -> set[int]:
        """The blocks, not of a call, from which control comes to one that begins with a line of it, behind its code."""
        copies, graph = self.copies, self.flow.graph
        is_late = block in copies.late.get(key, {}).get(copy, ())
        if not is_late or not copies.info.has_ended(copy, copies.firsts[block]):
            return set()
        return {graph.source[edge] for edge in graph.into[block]}.difference(self.instances.blocks(copy))

    def entered(self, blocks: list[int], inside: list[int], called: list[int], tests: Tests) -> int | None:
        """How often control comes to one of these blocks, but from inside or from the called ones, and how often it
        goes round; of a test at the end of a loop, how often it is made, and the loop entered. Where control comes from
        the called ones alone, they were entered as often as the line."""
        calls = [sorted(self.gone_to(inside, set(self.instances.blocks(count)))) for count in called]
        within = {*inside, *(block for call in calls for block in call)}
        counts = [self.flow.counts[block] if block in tests.latches
                  else self.flow.coming(block, within | self.beside(tests.key, tests.copy, block)) for block in blocks]
        known = [count for count in counts if count is not None]
        if len(known) == len(counts) and not sum(known) and (count := self.called_count(called)):
            return count
        rounds = cycle_count(inside, tests.latches, self.flow, calls)
        if rounds is None or len(known) < len(counts):
            return self.greatest(inside)
        return sum(known) + rounds + tests.entries(inside)


def line_counts(info: DebugInfo, rows: Sequence[Span], program: Program, flow: Flow, wanted: set[int]) -> LineCounts:
    copies = Copies(info, rows, program, wanted, flow.others)
    return LineCounts(copies, flow, Instances(copies, flow))
