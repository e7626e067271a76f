"""The blocks that gcov counts, as gcc 12 leaves them: of each function its blocks with their lines, the ways between them, and the
counts of both, which follow from the counted ways. `gcov-dump` reads the files.
"""
import os
import re
import subprocess
from typing import Iterable, Iterator, NamedTuple

Key = tuple[str, int]  # a file and a line
ENTRY, EXIT, FIRST = 0, 1, 2
ON_TREE, FAKE = 1, 2
FUNCTION = re.compile(r"FUNCTION ident=(\d+).*?`(.*)' (.*):(\d+):\d+-(\d+):\d+(, artificial)?$")
IDENT, COUNTS, WAY = re.compile(r"FUNCTION ident=(\d+)"), re.compile(r" {10,}\d+: ([\d ]+)$"), re.compile(r"(\d+):([0-9a-f]{4})")
BLOCK, PLACE = re.compile(r"block (\d+):(.*)"), re.compile(r"`([^']*)'|(\d+)")


class Way:
    __slots__ = ("source", "target", "flags", "count")

    def __init__(self, source: int, target: int, flags: int) -> None:
        self.source, self.target, self.flags = source, target, flags
        self.count: int | None = None


class Head(NamedTuple):
    name: str
    file: str
    first: int
    last: int
    is_artificial: bool = False


class Function:
    """A function of one unit."""

    def __init__(self, head: Head) -> None:
        self.head = head
        self.ways: list[Way] = []
        self.lines: dict[int, list[Key]] = {}  # by blocks, in order

    def out(self, block: int) -> list[Way]:
        return self.leaving.get(block, [])

    def into(self, block: int) -> list[Way]:
        return self.coming.get(block, [])

    def solve(self, counted: list[int]) -> None:
        """Gives the ways that aren't of the spanning tree what was counted, and the others what follows."""
        self.leaving: dict[int, list[Way]] = {}
        self.coming: dict[int, list[Way]] = {}
        for way in self.ways:
            self.leaving.setdefault(way.source, []).append(way)
            self.coming.setdefault(way.target, []).append(way)
        off_tree = [way for way in self.ways if not way.flags & ON_TREE]
        for way, count in zip(off_tree, counted or [0] * len(off_tree)):
            way.count = count
        work = [*{*self.leaving, *self.coming} - {ENTRY, EXIT}]
        while work:
            block = work.pop()
            unknown = [way for way in (*self.out(block), *self.into(block)) if way.count is None]
            if len(unknown) == 1:
                sums = [sum(way.count or 0 for way in ways) for ways in (self.out(block), self.into(block))]
                unknown[0].count = abs(sums[0] - sums[1])
                work += [it for it in (unknown[0].source, unknown[0].target) if it > EXIT]

    def count(self, block: int) -> int:
        return sum(way.count or 0 for way in (self.into(block) or self.out(block)))

    def blocks_of(self, key: Key) -> list[int]:
        return [block for block, lines in self.lines.items() if key in lines]

    def reaches(self, block: int, other: int) -> bool:
        """Whether control can come from a block to another, by one way at least."""
        seen, work = set(), [way.target for way in self.out(block)]
        while work:
            it = work.pop()
            if it == other:
                return True
            if it not in seen:
                seen.add(it)
                work += [way.target for way in self.out(it)]
        return False


def has_own(function: Function, lines: Iterable[Key]) -> bool:
    head = function.head
    return any(file == head.file and head.first <= line <= head.last for file, line in lines)


def grown(function: Function, blocks: list[int]) -> list[int]:
    """Some blocks, and those without a line to which only they lead."""
    inside = {*blocks}
    bare = {way.target for way in function.ways if way.target > EXIT and not function.lines.get(way.target)}
    while found := {it for it in bare - inside if all(way.source in inside for way in function.into(it))}:
        inside |= found
    return sorted(inside)


def is_fork(function: Function, block: int) -> bool:
    return sum(not way.flags & FAKE for way in function.out(block)) > 1


def dump(path: str) -> list[str]:
    return subprocess.run(["gcov-dump", "-l", path], capture_output=True, text=True, check=True).stdout.splitlines()


def read_notes(path: str) -> dict[str, Function]:
    """The functions of a unit by their numbers in it."""
    found: dict[str, Function] = {}
    top, function, part = "", Function(Head("", "", 0, 0)), ""
    for line in dump(path):
        line = line[len(path) + 1:]
        if line.startswith("cwd: "):
            top = line[5:]
        elif told := FUNCTION.search(line):
            head = Head(told[2], os.path.realpath(os.path.join(top, told[3])), int(told[4]), int(told[5]), bool(told[6]))
            function = found[told[1]] = Function(head)
        elif ":ARCS " in line or ":LINES" in line:
            part = "lines" if ":LINES" in line else "ways"
        elif told := BLOCK.search(line):
            if part == "ways":
                function.ways += [Way(int(told[1]), int(to), int(flags, 16)) for to, flags in WAY.findall(told[2])]
            else:
                function.lines.setdefault(int(told[1]), []).extend(places(told[2], top))
    return found


def places(text: str, top: str) -> Iterator[Key]:
    file = ""
    for name, number in PLACE.findall(text):
        if name:
            file = os.path.realpath(os.path.join(top, name))
        else:
            yield file, int(number)


def functions_of(folder: str) -> list[Function]:
    """The functions of all units whose files a run left in a folder, but for those that the compiler made: gcov leaves their lines out."""
    found: list[Function] = []
    for name in sorted(os.listdir(folder)):
        if not name.endswith(".gcda"):
            continue
        functions = read_notes(os.path.join(folder, name[:-5] + ".gcno"))
        counted: dict[str, list[int]] = {}
        ident = ""
        for line in dump(os.path.join(folder, name)):
            if told := IDENT.search(line):
                ident = told[1]
            elif told := COUNTS.search(line):
                counted.setdefault(ident, []).extend(map(int, told[1].split()))
        for ident, function in functions.items():
            function.solve(counted.get(ident, []))
        found += (it for it in functions.values() if not it.head.is_artificial)
    return found
