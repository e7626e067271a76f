"""How often an inlined call was entered, by tables that are made up: blocks of 16 bytes, in order, of one function."""
import array

import pytest

from tests.doubles import double
from vaknuhol.program.debug_info import INLINED
from vaknuhol.program.flow_graph import JUMP, Graph
from vaknuhol.views.flow_solving import Flow
from vaknuhol.views.instances import Instances

FUNCTION, CALL = 1, 2
LENGTH, HALF = 16, 8


def instances_of(edges, counts, ranges, begins, entry=0):
    """A function's blocks and an inlined call: the ranges of its code, and the blocks in which its lines begin."""
    graph = Graph(len(counts))
    for source, target in edges:
        graph.add(source, target, JUMP)
    graph.open_in[0] = graph.open_out[len(counts) - 1] = True
    info = double(
        kind=(0, INLINED),
        file=(0, 0),
        entry=(0, entry),
        chain=lambda instance: [CALL, FUNCTION] if instance == CALL else [FUNCTION],
        ranges_of=lambda instance: ranges,
    )
    rows = [double(first=LENGTH * at, end=LENGTH * (at + 1)) for at in range(len(counts))]
    copies = double(
        info=info,
        rows=rows,
        firsts=array.array("Q", (row.first for row in rows)),
        begins={(0, line): {CALL: blocks} for line, blocks in begins.items()},
        last_line={},
        holder=lambda chain, file, line: chain[0],
        block_at=lambda address: address // LENGTH,
        first_behind=lambda address: address // LENGTH,
    )
    return Instances(copies, Flow(graph, counts))


def whole(block):
    return LENGTH * block, LENGTH * (block + 1)


def tail(block):
    return LENGTH * block + HALF, LENGTH * (block + 1)


# A loop calls a function five times: 1 begins the call, 2 is its loop, 3 is what the caller does with its value, 4
# copies that for 2 of 5 calls, 5 goes round. The function's code stands also at the end of 0 and of 4.
LOOP_EDGES = [(0, 1), (1, 2), (2, 2), (2, 3), (3, 4), (3, 5), (4, 5), (5, 1), (5, 6)]
LOOP_COUNTS = [1, 5, 12, 5, 2, 5, 1]


@pytest.mark.parametrize("entry", [0, LENGTH])
def test_code_of_a_call_that_was_moved_to_the_caller_enters_no_call(entry):
    ranges = [tail(0), whole(1), whole(2), tail(4)]
    instances = instances_of(LOOP_EDGES, LOOP_COUNTS, ranges, {10: {1}, 11: {2}}, entry)
    assert instances.entered(CALL) == 5
    instances = instances_of([*LOOP_EDGES, (4, 1)], [1, 5, 12, 5, 2, 3, 1], ranges, {10: {1}, 11: {2}}, entry)
    assert instances.entered(CALL) == 5, "from the copied value to the next call"


def test_a_call_is_entered_by_a_block_without_a_statement_that_leads_to_it_alone():
    """The first statement was merged with code before the call's loop, which begins none."""
    ranges = [whole(1), whole(2)]
    instances = instances_of([(0, 1), (1, 2), (2, 2), (2, 3), (3, 1), (3, 4)], [1, 5, 12, 5, 1], ranges, {11: {2}})
    assert instances.entered(CALL) == 5


def test_a_block_of_a_call_without_a_statement_leaves_and_enters_no_call():
    """2 tests whether the call goes on, to 3, or ends."""
    edges = [(0, 1), (1, 2), (2, 3), (2, 4), (3, 4), (4, 1), (4, 5)]
    ranges = [whole(1), whole(2), whole(3)]
    assert instances_of(edges, [1, 5, 5, 3, 5, 1], ranges, {10: {1}, 11: {3}}).entered(CALL) == 5


def test_a_call_with_two_copies_of_its_entry_is_entered_by_both():
    """The compiler copied the call to another block, of which the debugging information has no entry."""
    edges = [(0, 1), (1, 2), (2, 3), (1, 3), (3, 4), (4, 1), (4, 5)]
    instances = instances_of(edges, [1, 5, 2, 5, 5, 1], [whole(2), whole(3)], {10: {2, 3}}, 2 * LENGTH)
    assert instances.entered(CALL) == 5


def test_the_callers_code_amidst_a_call_ends_no_call():
    """2 and 4 are the call, 3 is the caller's, and leads from one to the other; where the call begins it ends one."""
    edges = [(0, 1), (1, 2), (2, 3), (3, 4), (4, 1), (4, 5)]
    counts, ranges = [1, 5, 5, 5, 5, 1], [whole(2), whole(4)]
    assert instances_of(edges, counts, ranges, {10: {2}, 11: {4}}, 2 * LENGTH).entered(CALL) == 5
    assert instances_of(edges, counts, ranges, {10: {2, 4}}, 2 * LENGTH).entered(CALL) == 10


def test_a_block_that_begins_outside_and_has_the_entry_enters_the_call_each_time():
    """A loop of one block, 1, in which a call begins and the code of which goes on after it."""
    edges = [(0, 1), (1, 2), (2, 2), (2, 1), (2, 3)]
    instances = instances_of(edges, [1, 5, 12, 1], [tail(0), tail(1), whole(2)], {10: {1}, 11: {2}}, LENGTH + HALF)
    assert instances.entered(CALL) == 5
    instances = instances_of(edges, [1, 5, 12, 1], [whole(2)], {11: {2}}, LENGTH + HALF)
    assert instances.entered(CALL) == 5, "no code of the call is left where it is entered"
    instances = instances_of([(0, 1), (1, 1), (1, 2)], [1, 5, 1], [tail(1)], {10: {1}}, LENGTH + HALF)
    assert instances.entered(CALL) == 5


def test_a_call_without_statements_is_entered_at_its_entry():
    """Without an entry, or by its code alone, by each of its blocks."""
    ranges = [tail(0), whole(1), whole(2), tail(4)]
    assert instances_of(LOOP_EDGES, LOOP_COUNTS, ranges, {}).entered(CALL) == 7
    assert instances_of(LOOP_EDGES, LOOP_COUNTS, ranges, {}, LENGTH).entered(CALL) == 5
    gone = instances_of(LOOP_EDGES, LOOP_COUNTS, [], {}, LENGTH)
    assert gone.is_recorded(CALL) and gone.entered(CALL) == 5
    moved = instances_of(LOOP_EDGES, LOOP_COUNTS, [whole(4)], {}, LENGTH)
    assert moved.entered(CALL) == 5 and moved.entered(CALL, by_code=True) == 2
