"""Where an indirect jump through a table may lead: tables of addresses (`jmp *T(,%r,8)`) and of distances (`lea
T(%rip)`).

A jump's table is the last one that an instruction shortly before it names; its entries end at the first that leads to
no instruction of the same function or of its cold part. Where the jump is guarded by a comparison of the index (`cmp
$LAST, %r; ja`), there are as many at least, since a cold part needs no name. What is read here are the instructions'
bytes (Intel SDM volume 2, sections 2.1 and 2.2).
"""
import bisect
import itertools
import struct
from collections.abc import Iterator

from vaknuhol.program.listing import Listing
from vaknuhol.program.listing_file import BRANCH, FALLS, JUMP_INDIRECT
from vaknuhol.program.program_file import Program

NEAR, MOST = 40, 1024
SHORTEST = 7  # bytes of an instruction that names a table
REX, NOTRACK = range(0x40, 0x50), 0x3E
MOV, LEA, GROUP_5 = 0x8B, 0x8D, 0xFF
CMP, IS_ABOVE = 7, ((0x77,), (0x0F, 0x87))
GROUP_1, CMP_WITH_AX = {0x80: "<B", 0x81: "<I", 0x83: "<B"}, {0x3C: "<B", 0x3D: "<I"}


def opcode_at(code: bytes) -> int:
    """Where the opcode stands, after the prefixes that such instructions have."""
    at = 1 if code[0] == NOTRACK and len(code) > 1 else 0
    return at + 1 if code[at] in REX and len(code) > at + 1 else at


def is_indirect_jump(code: bytes) -> bool:
    at = opcode_at(code)
    return code[at] == GROUP_5 and len(code) > at + 1 and code[at + 1] >> 3 & 7 == 4


def named_table(code: bytes, end: int) -> tuple[int, int] | None:
    """The table that an instruction names, and how many bytes its entries have: an operand T(,%r,8), or lea of
    T(%rip)."""
    at = opcode_at(code)
    opcode, rest = code[at], code[at + 1:]
    scaled = opcode == MOV or opcode == GROUP_5 and rest[:1] and rest[0] >> 3 & 7 == 4
    if scaled and len(rest) == 6 and rest[0] & 0xC7 == 0x04 and rest[1] >> 6 == 3 and rest[1] & 7 == 5:
        return struct.unpack_from("<I", rest, 2)[0], 8
    if opcode == LEA and len(rest) == 5 and rest[0] & 0xC7 == 0x05:
        return end + struct.unpack_from("<i", rest, 1)[0], 4
    return None


def compared_with(code: bytes) -> int | None:
    """The number that a `cmp` compares with."""
    at = opcode_at(code)
    is_group = code[at] in GROUP_1 and len(code) > at + 1 and code[at + 1] >> 3 & 7 == CMP
    form = GROUP_1[code[at]] if is_group else CMP_WITH_AX.get(code[at])
    return struct.unpack_from(form, code, len(code) - struct.calcsize(form))[0] if form else None


def is_above(code: bytes) -> bool:
    return any(tuple(code[:len(opcode)]) == opcode for opcode in IS_ABOVE)


def entries(program: Program, table: int, size: int) -> Iterator[int]:
    """What the entries of a table lead to, if it has as many."""
    data = program.read(table, MOST * size)
    for (word,) in struct.iter_unpack("<i" if size == 4 else "<Q", data[:len(data) // size * size]):
        yield word + table if size == 4 else word


class JumpTables:
    """`targets` has what the jump at an address leads to; `places` the addresses of all entries, `tables` of all
    tables."""

    def __init__(self, program: Program, listing: Listing) -> None:
        self.program, self.listing = program, listing
        self.targets: dict[int, list[int]] = {}
        self.places: set[int] = set()
        self.tables: set[int] = set()
        self.firsts = sorted(address for address, _ in listing.functions)
        lone: dict[int, list[int]] = {}  # of each function the jumps without a table
        before = -1
        for number in self.indirect_jumps():
            jump = listing.addr[number]
            table = self.named_before(number, before)
            before = number
            if not (table and self.take(jump, *table)):
                lone.setdefault(self.bounds(jump)[0], []).append(jump)
        for jumps in lone.values():
            if len(jumps) == 1:
                self.take_far(*jumps)

    def code(self, number: int) -> bytes:
        return bytes(self.program.read(self.listing.addr[number], self.listing.size[number]))

    def indirect_jumps(self) -> Iterator[int]:
        """The numbers of the instructions that may jump through a table."""
        kinds = bytes(self.listing.kind)
        number = kinds.find(JUMP_INDIRECT)
        while number >= 0:
            if is_indirect_jump(self.code(number)):
                yield number
            number = kinds.find(JUMP_INDIRECT, number + 1)

    def named_before(self, jump: int, before: int) -> tuple[int, int] | None:
        """The last table that is named near a jump and after the jump before it."""
        addr = self.listing.addr
        low = addr[jump] - NEAR
        for number in range(jump, before, -1):
            if addr[number] <= low:
                break
            table = self.table_named(number)
            if table:
                return table
        return None

    def table_named(self, number: int) -> tuple[int, int] | None:
        """The table that an instruction of a listing names."""
        addr, size = self.listing.addr[number], self.listing.size[number]
        table = named_table(self.code(number), addr + size) if size >= SHORTEST else None
        return None if table and table[1] == 4 and (table[0] % 4 or self.listing.is_start(table[0])) else table

    def bounds(self, address: int) -> tuple[int, int]:
        """Where the function around an address begins, and where the next one does."""
        at = bisect.bisect_right(self.firsts, address)
        return self.firsts[at - 1] if at else 0, self.firsts[at] if at < len(self.firsts) else 1 << 64

    def take_far(self, jump: int) -> None:
        """Where a function has one such jump and one table that is left, a register holds the table from farther
        above."""
        addr = self.listing.addr
        first, end = (bisect.bisect_left(addr, bound) for bound in self.bounds(jump))
        named = {table for number in range(first, end) if (table := self.table_named(number))}
        tables = [table for table in named if table[0] not in self.tables and len(self.entries(jump, *table)) > 1]
        if len(tables) == 1:
            self.take(jump, *tables[0])

    def guarded(self, jump: int) -> int:
        """How many entries a table has by the comparison that guards its jump; 0 if none does."""
        kind, number = self.listing.kind, bisect.bisect_left(self.listing.addr, jump) - 1
        while number > 0 and kind[number] == FALLS and self.listing.addr[number] > jump - NEAR:
            number -= 1
        if number < 1 or kind[number] != BRANCH or not is_above(self.code(number)):
            return 0
        last = compared_with(self.code(number - 1))
        return last + 1 if last is not None and last < MOST else 0

    def entries(self, jump: int, table: int, size: int) -> list[int]:
        """What a table's entries lead to: as many as lead to the jump's function, and as its guard tells, if these all
        lead to instructions, of one other function at most."""
        (low, high), found = self.bounds(jump), []
        cold = f"{self.listing.function_of(jump)}.cold"
        leading = list(itertools.takewhile(self.listing.is_start, entries(self.program, table, size)))
        for to in leading:
            if not low <= to < high and not (self.listing.function_of(to) or "").startswith(cold):
                break
            found.append(to)
        guarded = self.guarded(jump)
        if not len(found) < guarded <= len(leading):
            return found
        others = {self.bounds(to) for to in leading[:guarded]} - {(low, high)}
        return leading[:guarded] if len(others) <= 1 else found

    def take(self, jump: int, table: int, size: int) -> bool:
        found = self.entries(jump, table, size)
        if found:
            self.targets[jump] = list(dict.fromkeys(found))
            self.tables.add(table)
            self.places.update(range(table, table + size * len(found), size))
        return bool(found)
