"""What gcov's blocks, the ways between them, rows and instructions of the program show of lines whose counts differ from gcov's."""
import functools
import itertools
import os
import sys
from types import SimpleNamespace
from typing import Iterable, Mapping, cast

import capstone

HERE = os.path.dirname(os.path.realpath(__file__))
sys.path.insert(0, os.path.join(os.path.dirname(HERE), "scripts"))
from vaknuhol.program.flow_graph import OUTSIDE, Graph  # noqa: E402
from vaknuhol.program.loops import body_of  # noqa: E402
from vaknuhol.recording.record_file import Record  # noqa: E402
from vaknuhol.views.coverage import Coverage  # noqa: E402
from vaknuhol.views.cycles import cycle_count  # noqa: E402, its place is known only now
from vaknuhol.views.flow_solving import Flow  # noqa: E402
from vaknuhol.views.line_counts import LineCounts  # noqa: E402
from gcov_blocks import ENTRY, FAKE, FIRST, Function, Key, Way, functions_of, grown, has_own, is_fork  # noqa: E402
from lines_and_gcov import gcov  # noqa: E402

MOST_WAYS, MOST_ADDED = 24, 3  # of sums that are tried


def sums(counts: Iterable[int]) -> set[int]:
    """The sums of up to three of some counts, and of all."""
    known = sorted((it for it in counts if it), key=abs)[-MOST_WAYS:]
    parts = (it for size in range(1, MOST_ADDED + 1) for it in itertools.combinations(known, size))
    return {sum(it) for it in parts} | ({sum(known)} if known else set())


class Program:
    """A program with its record, and what gcov has of its other build."""

    def __init__(self, folder: str) -> None:
        self.name = os.path.basename(os.path.normpath(folder))
        program, counted = os.path.join(folder, "program"), os.path.join(folder, "counted")
        self.told = Coverage(program, Record(os.path.join(folder, "last.record")), None, False, folder)
        self.line_counts = LineCounts(self.told.copies, self.told.flow, self.told.instances)
        theirs, _, _ = gcov(counted)
        self.theirs = {key: count for key, count in theirs.items() if not key[0].startswith("/usr/")}
        self.ours = {(os.path.realpath(file), number): line.count or 0 for file, lines in self.told.files.items()
                     for number, line in lines.items() if line.is_known()}
        self.numbers = {os.path.realpath(name): number for number, name in enumerate(self.told.info.files)}
        self.blocks: dict[Key, dict[Function, list[int]]] = {}
        self.functions = functions_of(counted)
        for function in self.functions:
            for block, lines in function.lines.items():
                for key in set(lines):
                    self.blocks.setdefault(key, {}).setdefault(function, []).append(block)
        self.cpu = capstone.Cs(capstone.CS_ARCH_X86, capstone.CS_MODE_64)

    def both(self) -> int:
        return len(self.theirs.keys() & self.ours.keys())

    def differences(self) -> "list[Difference]":
        both = self.theirs.keys() & self.ours.keys()
        return [Difference(self, key) for key in sorted(both) if self.theirs[key] != self.ours[key]]

    def instructions(self, block: int) -> set[str]:
        row = self.told.record.rows[block]
        data = self.told.program.read(row.first, row.end - row.first)
        return {it[2] for it in self.cpu.disasm_lite(data, row.first)}


@functools.lru_cache(maxsize=None)
def flow_of(function: Function) -> Flow:
    """gcov's blocks in the form that rounds are counted in."""
    graph = Graph(max(it for way in function.ways for it in (way.source, way.target)) + 1)
    for way in function.ways:
        graph.add(way.source, way.target, 0)
    return cast(Flow, SimpleNamespace(graph=graph, edges=[way.count for way in function.ways]))


class Difference:
    """A line that both count, with other counts."""

    def __init__(self, program: Program, key: Key) -> None:
        self.program, self.key = program, key
        self.theirs, self.ours = program.theirs[key], program.ours[key]
        self.less = self.theirs - self.ours
        self.places = program.blocks.get(key, {})

    def text(self) -> str:
        with open(self.key[0], encoding="utf-8", errors="replace") as file:
            return next(itertools.islice(file, self.key[1] - 1, None), "").strip()

    def ways(self) -> list[Way]:
        """The ways to gcov's blocks of the line, and those to blocks that lead nowhere else."""
        found = {way: function for function, blocks in self.places.items() for block in blocks for way in function.into(block)}
        work = list(found.items())
        while work:
            way, function = work.pop()
            if way.source != ENTRY and not is_fork(function, way.source):
                more = {it: function for it in function.into(way.source) if it not in found}
                found.update(more)
                work += more.items()
        return list(found)

    def whole(self, is_grown: bool = False) -> int:
        """How often the line is entered, and gone round in, by all of gcov's blocks that have it; by those without a line between them, too,
        if it is grown."""
        return sum(entries(function, grown(function, blocks) if is_grown else blocks) for function, blocks in self.places.items())

    def of_ends(self) -> int:
        """The same by the blocks that end with the line alone: gcov takes the greatest of a block's lines for its last."""
        return sum(entries(function, [it for it in blocks if function.lines[it][-1] == self.key]) for function, blocks in self.places.items())

    def ways_within(self) -> list[int]:
        """The counts of the ways from one of gcov's blocks of the line to another."""
        return [way.count or 0 for function, blocks in self.places.items() for block in blocks for way in function.into(block)
                if way.source in blocks and way.source != block]

    def once(self) -> int:
        """The counts of the program's blocks of the line, each once, whatever copies of the line it has."""
        counts = self.program.told.flow.counts
        return sum(counts[block] or 0 for block in self.binary())

    def is_repeated(self) -> bool:
        """Whether what is more here is as often as some of gcov's blocks, of fewer than the line has copies; or the blocks of both, each
        once, agree."""
        counts = [function.count(block) for function, blocks in self.places.items() for block in blocks]
        if self.less > 0 or len(self.copies) < 2:
            return False
        is_multiple = len(set(counts)) == 1 and any(counts) and -self.less % counts[0] == 0
        return self.once() in (self.theirs, sum(counts)) or len(self.copies) > len(counts) and (is_multiple or -self.less in sums(counts))

    def reentries(self) -> list[int]:
        """The counts of ways back from blocks to which the line's own lead, and that have lines outside of the function alone."""
        return [way.count or 0 for function, blocks in self.places.items() for block in blocks for way in function.into(block)
                if way.source not in blocks and function.lines.get(way.source) and not has_own(function, function.lines[way.source])
                and any(function.reaches(it, way.source) for it in blocks)]

    def heads(self) -> list[Function]:
        """The functions whose head the line is, or in whose first block it is."""
        return [it for it, blocks in self.places.items() if (it.head.file, it.head.first) == self.key or FIRST in blocks]

    def arms(self) -> list[tuple[int, int]]:
        """Of gcov's blocks of the line those with one way in, from a fork, and one out: the counts of the fork and of the block."""
        found = []
        for function, blocks in self.places.items():
            for block in blocks:
                into, out = function.into(block), [way for way in function.out(block) if not way.flags & FAKE]
                if len(into) == len(out) == 1 and into[0].source != ENTRY and is_fork(function, into[0].source):
                    found.append((function.count(into[0].source), function.count(block)))
        return found

    def loop_entries(self) -> list[int]:
        """The counts of the ways by which loops are entered whose tests stand on the line."""
        return [way.count or 0 for function, blocks in self.places.items() for block in blocks if function.reaches(block, block)
                for way in function.into(block) if not function.reaches(block, way.source)]

    def is_in_loop(self) -> bool:
        places = [self.program.blocks.get(key, {}) for key in self.call_lines()]
        return any(function.reaches(block, block) for it in places for function, blocks in it.items() for block in blocks)

    @functools.cached_property
    def copies(self) -> dict[int, set[int]]:
        """The program's blocks of the line, with code or rows, by copies."""
        copies, number = self.program.told.copies, self.program.numbers.get(self.key[0], -1)
        found: dict[int, set[int]] = {}
        for table in (copies.own, copies.traces):
            for copy, blocks in table.get((number, self.key[1]), {}).items():
                found.setdefault(copy, set()).update(blocks)
        return found

    def binary(self) -> set[int]:
        return {block for blocks in self.copies.values() for block in blocks}

    def own(self) -> set[int]:
        """The program's blocks with code of the line."""
        return self.blocks_in(self.program.told.copies.own)

    def begins(self) -> set[int]:
        """Those in which a statement of it begins."""
        return self.blocks_in(self.program.told.copies.begins) | self.blocks_in(self.program.told.copies.late)

    def blocks_in(self, table: Mapping[tuple[int, int], Mapping[int, Iterable[int]]]) -> set[int]:
        return {block for blocks in table.get((self.program.numbers.get(self.key[0], -1), self.key[1]), {}).values() for block in blocks}

    def has_code(self) -> bool:
        return bool(self.own())

    def ways_in_binary(self) -> list[int]:
        """The counts of the ways to the program's blocks of the line."""
        flow = self.program.told.flow
        return [flow.edges[edge] or 0 for block in self.binary() for edge in flow.graph.into[block]]

    def ways_past(self) -> set[int]:
        """For each outcome of the program's tests of the line, how often control comes otherwise to where it first meets other ways."""
        flow, found = self.program.told.flow, set[int]()
        graph = flow.graph
        for test in self.binary():
            for way in graph.out[test] if graph.ways_of_branch(test) is not None else ():
                passed, at = {test}, graph.target[way]
                while at not in {*passed, OUTSIDE}:
                    others = [flow.edges[edge] or 0 for edge in graph.into[at] if graph.source[edge] not in passed]
                    if any(others) or len(graph.out[at]) != 1:
                        found.add(sum(others))
                        break
                    passed.add(at)
                    at = graph.target[graph.out[at][0]]
        return found

    def is_in_binary_loop(self) -> bool:
        """Whether control can come from a block of the line to it by blocks with no line outside of gcov's smallest loop of it."""
        places = {key: self.program.blocks.get(key, {}) for key in self.call_lines()}
        around = {line for it in places.values() for function, blocks in it.items() for block in blocks
                  for line in lines_of_loop(function, block)} | self.call_lines()
        return any(self.goes_round(block, around) for block in self.binary())

    def goes_round(self, first: int, lines: set[Key]) -> bool:
        told = self.program.told
        graph, seen = told.flow.graph, set()
        work = [graph.target[edge] for edge in graph.out[first]]
        while work:
            block = work.pop()
            if block == first:
                return True
            copy, (file, line) = told.copies.last_line.get(block, (0, (0, 0)))
            there = {(os.path.realpath(told.info.files[file]), line)} | self.lines_around([copy])
            if block != OUTSIDE and block not in seen and (not line or there & lines):
                seen.add(block)
                work += [graph.target[edge] for edge in graph.out[block]]
        return False

    def is_branchless(self) -> bool:
        """Whether a block of the line has a conditional move or set, or arithmetic with the carry flag."""
        names = {it for block in self.binary() for it in self.program.instructions(block)}
        return any(it.startswith(("cmov", "set")) or it in ("sbb", "adc") for it in names)

    def has_other_branches(self) -> bool:
        """Whether gcov's blocks of the line have more forks than the program's."""
        forks = sum(is_fork(function, block) for function, blocks in self.places.items() for block in blocks)
        graph = self.program.told.flow.graph
        return forks > sum(graph.ways_of_branch(block) is not None for block in self.binary())

    def copies_without(self) -> list[int]:
        """The counts of those instances of the line's functions that have no block of it."""
        info, instances = self.program.told.info, self.program.told.instances
        same = {(info.name[it - 1], info.file[it - 1], info.line[it - 1]) for it in self.copies if it}
        lacking = [it for it in info.instances() if it not in self.copies
                   and (info.name[it - 1], info.file[it - 1], info.line[it - 1]) in same]
        return [instances.count_of(it) or 0 for it in lacking]

    def lacking(self) -> set[int]:
        """For each other line of the line's functions the sum of its counts in those copies that it has and the line hasn't."""
        number, counts, found = self.program.numbers.get(self.key[0], -1), self.program.line_counts, set()
        for line in {line for it in self.places for line in range(it.head.first, it.head.last + 1) if it.head.file == self.key[0]}:
            tables = counts.copies.own, counts.copies.traces
            without = {copy for table in tables for copy in table.get((number, line), {})} - self.copies.keys()
            found.add(sum(counts.copy_count((number, line), copy) or 0 for copy in without))
        return found - {0}

    def less_of_calls(self) -> list[int]:
        """What gcov counts more of the lines at which the line's copies were inlined."""
        theirs, ours = self.program.theirs, self.program.ours
        return [theirs[key] - ours[key] for key in self.call_lines() - {self.key} if key in theirs and key in ours]

    def calls_missing(self) -> list[int]:
        """How much more often gcov has the functions of the line entered."""
        theirs: dict[Key, int] = {}
        for function in self.program.functions:
            if function in self.places:
                theirs[function.head[1:3]] = theirs.get(function.head[1:3], 0) + sum(way.count or 0 for way in function.out(ENTRY))
        ours = {(os.path.realpath(it.file), it.line): it.count or 0 for it in self.program.told.all_functions}
        return [count - ours.get(key, 0) for key, count in theirs.items()]

    def lines_around(self, copies: Iterable[int]) -> set[Key]:
        """The lines at which copies were inlined."""
        info = self.program.told.info
        places = {(info.call_file[it - 1], info.call_line[it - 1]) for copy in copies for it in info.chain(copy)}
        return {(os.path.realpath(info.files[file]), line) for file, line in places if line}

    def call_lines(self) -> set[Key]:
        """The line, and those at which its copies were inlined."""
        return {self.key} | self.lines_around(self.copies)

    def has_no_begin(self) -> bool:
        """Whether in a copy no statement of the line begins."""
        key, copies = (self.program.numbers.get(self.key[0], -1), self.key[1]), self.program.told.copies
        return not self.copies.keys() <= copies.begins.get(key, {}).keys() | copies.late.get(key, {}).keys()

    def forks(self) -> set[Key]:
        """The lines of the forks from which control comes to gcov's blocks of the line."""
        return {function.lines[way.source][-1] for function, blocks in self.places.items() for block in blocks for way in function.into(block)
                if function.lines.get(way.source) and is_fork(function, way.source)}


def entries(function: Function, inside: list[int]) -> int:
    """How often some of gcov's blocks are entered, and gone round in."""
    coming = sum(way.count or 0 for block in inside for way in function.into(block) if way.source not in inside)
    return coming + (cycle_count(inside, set(), flow_of(function)) or 0)


@functools.lru_cache(maxsize=None)
def loops_of(function: Function) -> list[set[int]]:
    """The blocks of each of gcov's loops, the smallest first."""
    graph = flow_of(function).graph
    bodies = [body_of(graph, way.source, way.target) for way in function.ways if function.reaches(way.target, way.source)]
    return sorted(filter(None, bodies), key=len)


def lines_of_loop(function: Function, block: int) -> set[Key]:
    """The lines of the smallest loop around one of gcov's blocks."""
    found: set[int] = next((body for body in loops_of(function) if block in body), set())
    return {line for it in found for line in function.lines.get(it, [])}
