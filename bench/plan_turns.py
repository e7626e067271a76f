"""A turn of a site, and plans for it, as Forms.antt and Admissible.antt of start_list define them.

It shares nothing with the crates: first_plans.py tries plans by it, and sharing_turns.py makes turns at random.
"""
import itertools
from collections.abc import Iterator, Mapping
from typing import NamedTuple, Optional

from displacing import LONGEST, read, work_length

LOW, HIGH, PAGE = 0x20000, 0x7FFF0000, 0x1000
FREE, PUNNED = "free", "punned"
Range = tuple[int, int]
# what holds a byte: its new value where it is changed, or one of the two words
Lock = int | str


class Entry(NamedTuple):
    """A listed instruction."""

    addr: int
    length: int
    # bytes of the code that does its work elsewhere; none where it has no such code
    work: Optional[int]
    shared: bool

    @property
    def end(self) -> int:
        return self.addr + self.length


class Jump(NamedTuple):
    """Its bytes, the place where it stands, and the end of the instruction on which it stands."""

    at: int
    end: int
    code: bytes

    def bytes_by_address(self) -> dict[int, int]:
        return {self.at + k: byte for k, byte in enumerate(self.code)}

    def writes(self) -> dict[int, int]:
        return {addr: byte for addr, byte in self.bytes_by_address().items() if addr < self.end}


class Choice(NamedTuple):
    """A jump but for its target: pads, and `jmp rel32`, on an instruction that ends at `end`."""

    at: int
    end: int
    pads: int
    pad: int

    @property
    def next(self) -> int:
        return self.at + self.pads + 5

    def fixed(self) -> dict[int, int]:
        front = bytes([self.pad] * self.pads) + b"\xe9"
        return {self.at + k: byte for k, byte in enumerate(front) if self.at + k < self.end}

    def displacement(self) -> range:
        return range(self.next - 4, self.next)

    def to(self, place: int) -> Optional[Jump]:
        """The jump to a place; none where it is too far."""
        far = place - self.next
        if not -(1 << 31) <= far < 1 << 31:
            return None
        return Jump(self.at, self.end, bytes([self.pad] * self.pads) + b"\xe9" + far.to_bytes(4, "little", signed=True))


class Plan(NamedTuple):
    scheme: str
    jumps: tuple[Jump, ...]
    # entry, whether it has the event, place
    tramps: tuple[tuple[Entry, bool, int], ...]

    def writes(self) -> Optional[dict[int, int]]:
        """What is written; none where two jumps write differently."""
        found: dict[int, int] = {}
        for jump in self.jumps:
            for addr, byte in jump.writes().items():
                if found.setdefault(addr, byte) != byte:
                    return None
        return found

    def written(self) -> dict[int, int]:
        """The same of a plan whose jumps write alike."""
        found = self.writes()
        assert found is not None
        return found

    def punned(self) -> set[int]:
        return {addr for jump in self.jumps for addr in jump.bytes_by_address()} - set(self.written())


class Turn:
    """A text in segments, its entries, the site among them, the event's size, the free ranges, and locks."""

    def __init__(self, parts: list[bytes], addr: int, starts: list[int], place: int, event: int, ranges: list[Range],
                 locks: dict[int, Lock]) -> None:
        self.parts, self.addr, self.event, self.ranges, self.locks = parts, addr, event, ranges, locks
        self.image: dict[int, int] = {}
        self.segment: dict[int, int] = {}
        for number, part in enumerate(parts):
            for byte in part:
                self.image[addr], self.segment[addr], addr = byte, number, addr + 1
        self.entries = self.listed(starts)
        self.place, self.site = place, self.entries[place]
        self.free = [at for low, high in ranges for at in range(low, high)]

    def window(self, addr: int) -> bytes:
        size = next((k for k in range(LONGEST) if self.segment.get(addr + k) != self.segment[addr]), LONGEST)
        return bytes(self.image[addr + k] for k in range(size))

    def listed(self, starts: list[int]) -> list[Entry]:
        found = []
        for addr, following in itertools.zip_longest(starts, starts[1:]):
            window = self.window(addr)
            form = read(window)
            reach = min(len(window), (following or addr + LONGEST) - addr)
            found.append((addr, form.length if form else reach, work_length(form, addr)))
        bytes_of = [set(range(addr, addr + length)) for addr, length, _ in found]
        shared = [any(own & other for k, other in enumerate(bytes_of) if k != n) for n, own in enumerate(bytes_of)]
        return [Entry(*it, marked) for it, marked in zip(found, shared)]

    def now(self, addr: int) -> Optional[int]:
        lock = self.locks.get(addr, FREE)
        return lock if isinstance(lock, int) else self.image.get(addr)

    def size(self, entry: Entry, event: bool) -> int:
        assert entry.work is not None
        return entry.work + (self.event if event else 0)

    def is_beside(self, addr: int) -> bool:
        """Whether it is a byte of the site's segment."""
        return self.segment.get(addr) == self.segment[self.site.addr]

    def may_be_victim(self, entry: Entry) -> bool:
        changed = isinstance(self.locks.get(entry.addr), int)
        return self.is_beside(entry.addr) and entry.work is not None and not entry.shared and not changed

    def is_free(self, place: int, size: int) -> bool:
        return LOW <= place and any(low <= place and place + size <= high <= HIGH for low, high in self.ranges)

    def are_placed(self, plan: Plan) -> bool:
        ranges = [(place, place + self.size(entry, event)) for entry, event, place in plan.tramps]
        apart = len(ranges) < 2 or ranges[0][1] <= ranges[1][0] or ranges[1][1] <= ranges[0][0]
        return apart and all(self.is_free(low, high - low) for low, high in ranges)

    def stands(self, plan: Plan) -> bool:
        """Whether what is written is free, what is punned the site's segment's, and each jump stands then."""
        written = plan.writes()
        if written is None or any(self.locks.get(addr, FREE) != FREE for addr in written):
            return False
        if not all(map(self.is_beside, plan.punned())):
            return False
        spelled = [it for jump in plan.jumps for it in jump.bytes_by_address().items()]
        return all(written.get(addr, self.now(addr)) == byte for addr, byte in spelled)

    def leads(self, plan: Plan) -> bool:
        """Whether the bytes at each start, as they stand after the writes, lead to its place, by one jump or two."""
        after = {addr: self.now(addr) for addr in self.image} | plan.written()
        return all(place in self.led_to(after, entry.addr) for entry, _, place in plan.tramps)

    def led_to(self, after: Mapping[int, Optional[int]], addr: int) -> Iterator[int]:
        for _ in range(2):
            codes = itertools.takewhile(lambda byte: byte is not None, (after.get(addr + k) for k in range(LONGEST)))
            form = read(bytes(byte for byte in codes if byte is not None))
            if form is None or form.map or form.opcode not in (0xE9, 0xEB):
                return
            assert form.rel is not None
            addr += form.length + form.rel
            yield addr
            if any(it.addr == addr for it in self.entries):
                return
