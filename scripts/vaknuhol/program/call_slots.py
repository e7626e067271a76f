"""Which functions an indirect call may lead to, as far as its operand tells: those whose addresses stand in the data,
at its displacement from an address that the program holds, as in tables of virtual functions and in closures.

What is read here are the instructions' bytes (Intel SDM volume 2, sections 2.1 and 2.2).
"""
import bisect
from collections.abc import Collection
from typing import NamedTuple

from vaknuhol.program.blocks import held_numbers, words_of
from vaknuhol.program.jump_tables import GROUP_5, MOV, REX, opcode_at
from vaknuhol.program.listing import Listing
from vaknuhol.program.listing_file import FALLS
from vaknuhol.program.program_file import Program

REGISTER, SCALED, WITHOUT_BASE, STACK = 3, 4, 5, 4  # in the fields of ModRM and SIB bytes
WIDE_BASE = 1  # the bit of a REX prefix
SIZES = (0, 1, 4)  # of a displacement, by the ModRM byte's first field
FIELD, TABLE, ELEMENT = range(3)
TOLD, OPEN, AGAINST = range(3)  # what is known of a call and a function, the likeliest first


class Slot(NamedTuple):
    """Where an address is read: a FIELD, at a displacement from what a register has; in a TABLE, whose address the
    displacement is; an ELEMENT of a table that a register has."""
    kind: int
    displacement: int


def operand_of(code: bytes, end: int) -> Slot | int | None:
    """The operand of a call, a jump or a load: in memory, but for the stack, or the number of a register."""
    at = opcode_at(code)
    if code[at] not in (GROUP_5, MOV) or len(code) < at + 2:
        return None
    mode, base, rest, kind = code[at + 1] >> 6, code[at + 1] & 7, code[at + 2:], FIELD
    is_wide = bool(at and code[at - 1] in REX and code[at - 1] & WIDE_BASE)
    if mode == REGISTER:
        return base + 8 * is_wide
    if mode == 0 and base == WITHOUT_BASE:
        return Slot(TABLE, end + int.from_bytes(rest[:4], "little", signed=True))
    if base == SCALED:
        base, kind, rest = rest[0] & 7, FIELD if rest[0] >> 3 & 7 == STACK else ELEMENT, rest[1:]
        if base == STACK and not is_wide:
            return None
    if mode == 0 and base == WITHOUT_BASE:
        return Slot(TABLE, int.from_bytes(rest[:4], "little"))
    return Slot(kind, int.from_bytes(rest[:SIZES[mode]], "little", signed=True))


class CallSlots:
    """The data's addresses of some functions, and all addresses that the program holds."""

    def __init__(self, program: Program, listing: Listing, functions: Collection[int]) -> None:
        self.program, self.listing = program, listing
        self.by_code = held_numbers(listing)
        self.places: dict[int, list[int]] = {}
        held = set(self.by_code)
        for addr, _, data in program.segments:
            words, base = words_of(data, addr), addr + -addr % 8
            held.update(word for word in set(words) if word < program.end)
            for at, word in enumerate(words):
                if word in functions:
                    self.places.setdefault(word, []).append(base + 8 * at)
        self.held = sorted(held)

    def slot_of(self, site: int) -> Slot | None:
        """What the call or jump at an address reads, also by a load of its register shortly before."""
        number = self.listing.at(site)
        register = None if number is None else self.operand(number)
        if isinstance(register, Slot):
            return register
        while number and register is not None and self.listing.kind[number - 1] == FALLS:
            number -= 1
            if self.listing.writes[number] >> register & 1:
                found = self.operand(number)
                return found if isinstance(found, Slot) else None
        return None

    def operand(self, number: int) -> Slot | int | None:
        addr, size = self.listing.addr[number], self.listing.size[number]
        return operand_of(self.program.read(addr, size), addr + size)

    def told(self, slot: Slot | None, first: int) -> int:
        """What a slot tells of a function. Where an instruction holds the function's address as well, that may have
        been stored anywhere."""
        if not slot:
            return OPEN
        told = (self.told_of_place(slot, place) for place in self.places.get(first, ()))
        return min([OPEN if first in self.by_code else AGAINST, *told])

    def told_of_place(self, slot: Slot, place: int) -> int:
        """What tells a place that has the address of a function: in a table, which begins at the last address up to
        there that the program holds. A field may be of any structure of an array."""
        at = bisect.bisect_right(self.held, place) - 1
        table = self.held[at] if at >= 0 else 0
        if slot.kind == ELEMENT:
            words = words_of(self.program.read(table, place + 8 - table), table)
            return TOLD if words and all(map(self.program.is_code, words)) else OPEN
        distance = place - table if slot.kind == FIELD else table
        is_later = slot.kind == FIELD and distance > slot.displacement
        return TOLD if distance == slot.displacement else OPEN if is_later else AGAINST
