"""Counts in callgrind's profile format (valgrind's manual, "Callgrind Format Specification"), for KCachegrind and
callgrind_annotate.

The event is Ir, instructions executed: each instruction has the count of its block; those of blocks whose count isn't
known are left out. A call has its count, and as inclusive cost the estimate of the call graph (call_graph.py), since
counts don't tell what was executed on whose behalf; of an indirect call both are estimates.
"""
import os
from collections.abc import Iterator

from vaknuhol import VERSION
from vaknuhol.views.profile import Led, Profile

HEAD = """# callgrind format
version: 1
creator: vaknuhol {version}
pid: 0
cmd: {program}
part: 1
desc: Estimates: inclusive costs, and where indirect calls lead

positions: instr line
events: Ir
summary: {total}

"""
UNKNOWN = "???"
LEAST = 0.5  # instructions, of what is told
OUTSIDE = "(callers that are not known)"


class Names:
    """Names as the format shortens them: a number in brackets, and the name behind it where it stands for the first
    time."""

    def __init__(self) -> None:
        self.numbers: dict[str, int] = {}

    def __call__(self, name: str) -> str:
        if name in self.numbers:
            return f"({self.numbers[name]})"
        self.numbers[name] = len(self.numbers) + 1
        return f"({self.numbers[name]}) {name}"


class Writer:
    """The lines of the format, function by function."""

    def __init__(self, profile: Profile) -> None:
        self.coverage, self.profile = profile.costs.coverage, profile
        self.files, self.functions = Names(), Names()

    def place(self, address: int) -> tuple[str, int]:
        return self.coverage.info.place_of(address) or (UNKNOWN, 0)

    def head(self, first: int) -> Iterator[str]:
        yield f"\nfl={self.files(self.place(first)[0])}\n"
        yield f"fn={self.functions(self.profile.name(first))}\n"

    def lines(self) -> Iterator[str]:
        function, file, costs = None, "", self.profile.costs
        for row, numbers, first in zip(self.coverage.record.rows, costs.instructions, costs.function):
            if not row.count:
                continue
            if first != function:
                function, file = first, self.place(first)[0]
                yield from self.head(first)
            for number in numbers:
                at = self.coverage.listing.addr[number]
                here, line = self.place(at)
                if here != file:
                    file = here
                    yield f"fi={self.files(here)}\n"
                yield f"{at:#x} {line} {row.count}\n"
                for led in self.profile.led.get(at, ()):
                    cost = self.profile.graph.cost_of(first, led.callee, led.times)
                    yield from self.call(at, line, led, cost)
        yield from self.from_outside()

    def from_outside(self) -> Iterator[str]:
        """A function that stands for callers that aren't known, as the kernel and code without a record."""
        roots = [(first, cost) for first, cost in self.profile.graph.roots() if cost >= LEAST]
        if roots:
            yield f"\nfl={self.files(UNKNOWN)}\nfn={self.functions(OUTSIDE)}\n"
        for first, cost in roots:
            yield from self.call(0, 0, Led(first, first, self.profile.elsewhere.get(first, 0) or 1, True), cost)

    def call(self, at: int, line: int, led: Led, cost: float) -> Iterator[str]:
        file, called = self.place(led.callee)
        yield f"cfi={self.files(file)}\ncfn={self.functions(self.profile.name(led.callee))}\n"
        yield f"calls={led.times} {led.target:#x} {called}\n{at:#x} {line} {cost:.0f}\n"


def text(profile: Profile) -> str:
    lines = "".join(Writer(profile).lines())
    return HEAD.format(version=VERSION, program=os.path.basename(profile.costs.coverage.path),
                       total=profile.costs.total) + lines.lstrip("\n")
