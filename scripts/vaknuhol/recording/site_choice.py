"""Which instruction of a block is its site: of those that stand for the block, some are patched more surely than
others.

An instruction of five bytes and more holds its jump by itself. A branch comes behind others of its length, and a call
behind other branches, since the return from a displaced call is predicted wrongly. What shares bytes with another
instruction, and what has no code for another place (docs/reference/formats.md, Classes of instructions and Relocated
code), is a site only where the block has nothing else. Where the evidence for an instruction is weak, and where a jump
would reach bytes that are not listed, no site stands at all.
"""
import operator

from vaknuhol.program.blocks import Block
from vaknuhol.program.listing import Listing
from vaknuhol.program.listing_file import (BESIDE, CALL, CALL_INDIRECT, FALLS, FIXED, KERNEL, LONGEST, MARKS, SHARED,
                                           TRAP, UNSURE)
from vaknuhol.recording.action_places import front, stands_everywhere
from vaknuhol.recording.actions import Action

NEVER, LEFT = UNSURE | BESIDE, SHARED | FIXED
NEVER_RANK, LEFT_RANK = 128, 64
JUMP_SIZE = 5
KINDS, SIZES = range(TRAP + 1), range(LONGEST + 1)
NO_BRANCHES, CALLS = frozenset((FALLS, KERNEL, TRAP)), frozenset((CALL, CALL_INDIRECT))


def preference(kind: int, size: int) -> tuple[bool, bool, bool, int]:
    """Lower is better."""
    short = size < JUMP_SIZE
    return short, kind not in NO_BRANCHES, kind in CALLS, -size if short else 0


PREFERENCES = sorted({preference(kind, size) for kind in KINDS for size in SIZES})
# Kind and size of an instruction make up a form, which has one byte
FORMS_OF_KIND = bytes(kind * len(SIZES) for kind in KINDS).ljust(256)
RANKS_OF_FORM = bytes(PREFERENCES.index(preference(kind, size)) for kind in KINDS for size in SIZES).ljust(256)
RANKS_OF_MARKS = [NEVER_RANK if marks & NEVER else LEFT_RANK if marks & LEFT else 0 for marks in range(MARKS)]


def ranks_of(listing: Listing, numbers: range) -> bytes:
    """The ranks of instructions: of the best site the lowest one."""
    kinds, sizes, marks = (column[numbers.start:numbers.stop] for column in (listing.kind, listing.size, listing.marks))
    forms = bytes(map(operator.add, bytes(kinds).translate(FORMS_OF_KIND), sizes))
    return bytes(map(operator.add, forms.translate(RANKS_OF_FORM), map(RANKS_OF_MARKS.__getitem__, marks)))


def candidates(block: Block, action: Action) -> list[int]:
    """The addresses of the instructions that an action may stand at, from the best site on; one that is left in any
    case only where there is no other."""
    numbers = front(block.listing, block.number, block.count, action)
    ranked = sorted(zip(ranks_of(block.listing, numbers), numbers))
    sure = [block.listing.addr[number] for rank, number in ranked if rank < LEFT_RANK]
    return sure or [block.listing.addr[number] for rank, number in ranked[:1] if rank < NEVER_RANK]


def with_sites(blocks: list[Block], listing: Listing, action: Action) -> list[Block]:
    """The blocks in which a site may stand at all, since there is supported code around it, each with its best site."""
    ranks, found = ranks_of(listing, range(len(listing.addr))), []
    addr, is_everywhere = listing.addr, stands_everywhere(action)
    for block in blocks:
        first = block.number
        end = first + block.count if is_everywhere else front(listing, first, block.count, action).stop
        of_block = ranks[first:end]
        best = min(of_block)
        if best < NEVER_RANK:
            block.site = addr[first + of_block.index(best)]
            found.append(block)
    return found
