"""Actions: what is recorded as a patched site is executed, in the words of `e9tool patch` and of a report's second
line.

    cover                       a byte a site is set
    count                       eight bytes a site are counted up
    ring:N                      the last N sites: four bytes tell which slot is next, or for threads how many slots were
                                claimed, and four a slot a site's number + 1
    cover when C, count when C  as above where C holds: one to three comparisons, as rdi == 2 and rsi < 100

All that is known of them, and of the data part of the private range, stands here, for every script.
"""
import abc
import array
import operator
import re
from collections.abc import Callable, Mapping, Sequence

MOST_SLOTS, HIGHEST = 65536, (1 << 31) - 1
SHARED_SLOTS = MOST_SLOTS  # of a ring that threads share, so that others don't fill it before a crash is seen
REGISTERS = ("rax", "rcx", "rdx", "rbx", "rsp", "rbp", "rsi", "rdi", *(f"r{number}" for number in range(8, 16)))
SIGNS: dict[str, Callable[[int, int], bool]] = {"==": operator.eq, "!=": operator.ne, "<": operator.lt,
                                                "<=": operator.le, ">": operator.gt, ">=": operator.ge}
DECIMAL = re.compile(r"0|[1-9][0-9]{0,9}")
MOST_COMPARISONS, AND = 3, " and "


class ActionError(ValueError):
    """Why a text is no action, or no part of one."""


class Comparison:
    """A register's 64 bits and a number, both without sign."""

    def __init__(self, text: str) -> None:
        words = text.split(" ")
        if len(words) != 3 or words[0] not in REGISTERS or words[1] not in SIGNS:
            raise ActionError(f"{text!r} is no comparison: write a register of 64 bits, one of {' '.join(SIGNS)}, "
                              "and a number, with one blank between them")
        if not DECIMAL.fullmatch(words[2]) or int(words[2]) > HIGHEST:
            raise ActionError(f"{words[2]} is no number that a register is compared with: "
                              f"write it decimal, without a leading zero, up to {HIGHEST}")
        self.register, self.name, self.sign, self.number = words[0], words[1], SIGNS[words[1]], int(words[2])

    def holds(self, registers: Mapping[str, int]) -> bool:
        return self.sign(registers[self.register], self.number)


class Action(abc.ABC):
    """An action: its name, the part of files' names that stands for it, and the form of its data."""
    name: str
    file_part: str
    is_ring, adds, slots = False, False, 0
    condition: str | None = None
    comparisons: Sequence[Comparison] = ()
    registers: frozenset[str] = frozenset()

    def patched(self, for_threads: bool) -> "Action":
        """The action of the patch, by whose record this one is told."""
        return self

    @abc.abstractmethod
    def length(self, sites: int) -> int:
        """How many bytes the data part has for so many sites."""

    @abc.abstractmethod
    def numbers(self, data: bytes) -> "array.array[int]":
        """The numbers of the data part."""


class Counting(Action):
    """Cover or count, of all executions or of those that meet a condition: a number for each site."""

    def __init__(self, base: str, condition: str | None = None) -> None:
        self.condition = condition
        self.adds, self.typecode = base == "count", "Q" if base == "count" else "B"
        self.name, self.file_part = (base, base) if condition is None else (f"{base} when {condition}", f"{base}-when")
        texts = [] if condition is None else condition.split(AND)
        if len(texts) > MOST_COMPARISONS:
            raise ActionError(f"{len(texts)} comparisons; a condition has at most {MOST_COMPARISONS}")
        self.comparisons = [Comparison(text) for text in texts]
        self.registers = frozenset(comparison.register for comparison in self.comparisons)

    def holds(self, registers: Mapping[str, int]) -> bool:
        return all(comparison.holds(registers) for comparison in self.comparisons)

    def length(self, sites: int) -> int:
        return sites * array.array(self.typecode).itemsize

    def numbers(self, data: bytes) -> "array.array[int]":
        return array.array(self.typecode, data)


class Ring(Action):
    """The last executions of all sites, in order."""
    is_ring, file_part = True, "ring"

    def __init__(self, slots: str) -> None:
        if not DECIMAL.fullmatch(slots) or not 1 <= int(slots) <= MOST_SLOTS:
            raise ActionError(f"{slots} is no length of a ring: write it decimal, without a leading zero, from 1 to "
                              f"{MOST_SLOTS}")
        self.slots, self.name = int(slots), f"ring:{slots}"

    def patched(self, for_threads: bool) -> "Ring":
        """Threads share the longest ring, of which the last ones are told."""
        return Ring(str(SHARED_SLOTS)) if for_threads else self

    def length(self, sites: int) -> int:
        return 4 + 4 * self.slots

    def numbers(self, data: bytes) -> "array.array[int]":
        """The position, which modulo the length is the slot that is next, and then what each slot holds."""
        return array.array("I", data)

    @staticmethod
    def events(numbers: Sequence[int], shown: int) -> list[int]:
        """The numbers of the sites of the last events in a ring, at most so many, oldest first: from the next slot on,
        and round to it. An unused slot holds 0."""
        slots = numbers[1:]
        following = numbers[0] % len(slots)
        return [slot - 1 for slot in [*slots[following:], *slots[:following]] if slot][-shown:]


def action_of(text: str) -> Action:
    """The action that a text names, exactly as `e9tool patch` takes it."""
    base, when, condition = text.partition(" when ")
    if text.startswith("ring:"):
        return Ring(text.removeprefix("ring:"))
    if base not in ("cover", "count"):
        raise ActionError(f"{text!r} is no action")
    return Counting(base, condition if when else None)
