"""Which instructions of a block an action may stand at: for counts any, since all are executed equally often.

A condition is asked of the registers with which a block is entered: its site stands where none of the condition's
registers can have changed. A ring is read after a crash: its site stands before whatever may fault first, so that the
block in which a program crashes is among the last. Which registers an instruction writes, and whether it may fault, the
lister tells; that the stack's end is reached is no fault there.
"""
from vaknuhol.program.listing import Listing
from vaknuhol.program.listing_file import FAULTS
from vaknuhol.recording.actions import REGISTERS, Action

BITS = {register: 1 << number for number, register in enumerate(REGISTERS)}


def changed(listing: Listing, number: int) -> frozenset[str]:
    """The registers that an instruction may change."""
    written = listing.writes[number]
    return frozenset(register for register, bit in BITS.items() if written & bit)


def may_fault(listing: Listing, number: int) -> bool:
    """Whether it may be the one in which a program crashes, but for the stack's end."""
    return bool(listing.marks[number] & FAULTS)


def stands_everywhere(action: Action) -> bool:
    """Whether an action may stand at each instruction of a block."""
    return not (action.registers or action.is_ring)


def front(listing: Listing, first: int, count: int, action: Action) -> range:
    """The numbers of the instructions of a block up to the first behind which an action may no more stand."""
    if not stands_everywhere(action):
        asked = sum(BITS[register] for register in action.registers)
        for number in range(first, first + count):
            if listing.writes[number] & asked or action.is_ring and listing.marks[number] & FAULTS:
                return range(first, number + 1)
    return range(first, first + count)
