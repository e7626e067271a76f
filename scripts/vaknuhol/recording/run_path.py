"""The path of a recorded run: the address of each step, and how many steps the patched file makes up to each of them
(docs/reference/formats.md, Relocated code, has the code). So deliveries come upon the patched file where they came upon
the original.
"""
import array
from collections.abc import Iterator

from vaknuhol.program.program_file import Program, read_bytes
from vaknuhol.recording.actions import REGISTERS, Action, Ring
from vaknuhol.recording.patch_report import Report

JUMPED, ADDRESS = 1 << 63, (1 << 63) - 1
LONGEST = 15
PREFIXES = frozenset((0x26, 0x2E, 0x36, 0x3E, 0x64, 0x65, 0x66, 0x67, 0xF0, 0xF2, 0xF3, *range(0x40, 0x50)))
COUNTING, RING, AROUND_COMPARISONS = 5, 14, 9  # instructions of an event: as they stand, without a wrap, without any
INDIRECT_CALL, DIRECT_CALL, SYSTEM_CALL = 6, 2, 3


class Path:
    """The steps in order, each with the registers that were asked for, as they were before it."""

    def __init__(self, path: str, registers: list[str]) -> None:
        self.registers, self.words = registers, array.array("Q", read_bytes(path))

    def steps(self) -> Iterator[tuple[int, bool, dict[str, int]]]:
        """The address of each, whether it led elsewhere than to the next instruction, and the registers."""
        each = 1 + len(self.registers)
        for at in range(0, len(self.words), each):
            word = self.words[at]
            yield word & ADDRESS, word >= JUMPED, dict(zip(self.registers, self.words[at + 1:at + each]))

    def address(self, step: int) -> int:
        """Where the step of this number was made, from 1 on."""
        return self.words[(step - 1) * (1 + len(self.registers))] & ADDRESS


def registers_of(action: Action) -> list[str]:
    """The registers that a path has to have for the events of an action."""
    return [name for name in REGISTERS if name in action.registers]


def displaced_steps(code: bytes, jumped: bool) -> int:
    """How many instructions do an instruction's work in a trampoline."""
    at = 0
    while at < len(code) and code[at] in PREFIXES:
        at += 1
    opcode, second = code[at], code[at + 1] if at + 1 < len(code) else 0
    if 0x70 <= opcode <= 0x7F or (opcode == 0x0F and 0x80 <= second <= 0x8F):
        return 1 if jumped else 2
    if opcode == 0xFF and second >> 3 & 7 in (2, 4):
        return INDIRECT_CALL if second >> 3 & 7 == 2 else 1
    if opcode in (0xC2, 0xC3, 0xE9, 0xEB):
        return 1
    if opcode == 0x0F and second == 0x05:
        return SYSTEM_CALL
    return DIRECT_CALL if opcode == 0xE8 else 2


def event_steps(action: Action, before: int, registers: dict[str, int]) -> int:
    """How many instructions record an event that has so many before it."""
    if isinstance(action, Ring):
        return RING + ((before + 1) % action.slots == 0)
    if not action.comparisons:
        return COUNTING if action.adds else 1
    held = 0
    while held < len(action.comparisons) and action.comparisons[held].holds(registers):
        held += 1
    return AROUND_COMPARISONS + 2 * held + (1 if held == len(action.comparisons) else 2)


class PatchedSteps:
    """How many steps a patched file makes for those of the original: of a file with no patched site as many."""

    def __init__(self, program: str, action: Action, report: Report | None) -> None:
        self.program, self.action = Program(program), action
        trampolines = report.trampolines() if report else []
        self.is_site = {start: number is not None for _, start, number in trampolines}
        self.near = {site for _, site in report.short_jumps()} if report else set()
        self.known: dict[tuple[int, bool], int] = {}

    def without_event(self, addr: int, jumped: bool) -> int:
        if (addr, jumped) not in self.known:
            steps = 1
            if addr in self.is_site:
                steps = 1 + (addr in self.near) + displaced_steps(self.program.read(addr, LONGEST), jumped)
            self.known[addr, jumped] = steps
        return self.known[addr, jumped]

    def up_to(self, path: Path, counts: set[int]) -> dict[int, int]:
        """How many steps the patched file makes for each of these numbers of steps."""
        found: dict[int, int] = {}
        total = events = 0
        for made, (addr, jumped, registers) in enumerate(path.steps()):
            if made in counts:
                found[made] = total
                if len(found) == len(counts):
                    return found
            total += self.without_event(addr, jumped)
            if self.is_site.get(addr):
                total, events = total + event_steps(self.action, events, registers), events + 1
        return {**dict.fromkeys(counts, total), **found}
