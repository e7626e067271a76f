"""Which instruction of a block is its site, by rows of a listing that are made up."""
import pytest

from tests.doubles import double
from vaknuhol.program.blocks import Block
from vaknuhol.program.listing_file import BESIDE, BRANCH, CALL, FALLS, FAULTS, FIXED, JUMP, SHARED, UNSURE
from vaknuhol.recording.action_places import BITS, changed, front
from vaknuhol.recording.actions import REGISTERS, action_of
from vaknuhol.recording.site_choice import candidates, with_sites

COUNT = action_of("count")
RDI = BITS["rdi"]


def block_of(*rows):
    """A block at 0x1000 of instructions: kind, size, marks, registers that are written."""
    kinds, sizes, marks, writes = zip(*((*row, 0, 0)[:4] for row in rows))
    addresses = [0x1000 + sum(sizes[:number]) for number in range(len(rows))]
    listing = double(addr=addresses, size=sizes, kind=kinds, marks=marks, writes=writes)
    return Block(listing, 0, len(rows))


@pytest.mark.parametrize(
    "rows, best",
    [
        ([(FALLS, 3), (FALLS, 5)], 0x1003),
        ([(FALLS, 5), (FALLS, 7)], 0x1000),
        ([(FALLS, 2), (FALLS, 4)], 0x1002),
        ([(CALL, 5), (FALLS, 6)], 0x1005),
        ([(FALLS, 2), (JUMP, 5)], 0x1002),
        ([(CALL, 5), (JUMP, 5)], 0x1005),
        ([(BRANCH, 6), (FALLS, 5)], 0x1006),
    ],
    ids=[
        "five bytes before three",
        "the first of two",
        "the longer of two short",
        "a call last",
        "a jump of five before two bytes",
        "a jump before a call",
        "a branch after others",
    ],
)
def test_the_best_site_comes_first(rows, best):
    assert candidates(block_of(*rows), COUNT)[0] == best


@pytest.mark.parametrize("mark", [SHARED, FIXED], ids=["shared", "fixed"])
def test_what_is_left_in_any_case_is_a_site_only_where_there_is_no_other(mark):
    assert candidates(block_of((FALLS, 5, mark), (FALLS, 2)), COUNT) == [0x1005]
    assert candidates(block_of((FALLS, 5, mark), (FALLS, 2, mark)), COUNT) == [0x1000]


@pytest.mark.parametrize("mark", [UNSURE, BESIDE], ids=["unsure", "beside"])
def test_no_site_stands_where_the_evidence_is_weak(mark):
    block, weak = block_of((FALLS, 5, mark), (FALLS, 2)), block_of((FALLS, 5, mark))
    assert candidates(block, COUNT) == [0x1005] and with_sites([block], block.listing, COUNT) == [block]
    assert candidates(weak, COUNT) == [] and with_sites([weak], weak.listing, COUNT) == []


@pytest.mark.parametrize("action", ["count", "ring:4", "count when rdi == 3"])
def test_each_block_gets_its_best_candidate(action):
    rows = [(FALLS, 3), (FALLS, 2, FAULTS, RDI), (FALLS, 5, SHARED), (CALL, 5), (JUMP, 5), (FALLS, 5, UNSURE), (FALLS, 5)]
    listing = block_of(*rows).listing
    blocks = [Block(listing, first, end - first) for end in range(1, len(rows) + 1) for first in range(end)]
    with_one = [block for block in blocks if candidates(block, action_of(action))]
    assert with_sites(blocks, listing, action_of(action)) == with_one != blocks
    assert [block.site for block in with_one] == [candidates(block, action_of(action))[0] for block in with_one]


def test_a_condition_is_asked_before_its_registers_change():
    rows = [(FALLS, 3), (FALLS, 3, 0, RDI), (FALLS, 7)]
    assert front(block_of(*rows).listing, 0, 3, action_of("count when rdi == 3")) == range(0, 2)
    assert front(block_of(*rows).listing, 0, 3, action_of("count when rsi == 3")) == range(0, 3)
    assert candidates(block_of(*rows), action_of("count when rdi == 3")) == [0x1000, 0x1003]


def test_a_ring_stands_before_what_may_fault():
    rows = [(FALLS, 3), (FALLS, 3, FAULTS), (FALLS, 7)]
    assert front(block_of(*rows).listing, 0, 3, action_of("ring:4")) == range(0, 2)
    assert front(block_of(*rows).listing, 0, 3, COUNT) == range(0, 3)


def test_the_registers_that_an_instruction_changes_are_named():
    listing = block_of((FALLS, 3, 0, RDI | BITS["r15"])).listing
    assert changed(listing, 0) == {"rdi", "r15"} and len(BITS) == len(REGISTERS) == 16
