"""What actions record: numbers of sites, rings, conditions."""

import pytest

from vaknuhol.recording.actions import ActionError, Counting, Ring, action_of

REGISTERS = {"rdi": 2, "rsi": 2147483647, "rsp": 0}


@pytest.mark.parametrize(
    "numbers, events",
    [
        ([0, 0, 0, 0], []),
        ([1, 7, 0, 0], [6]),
        ([0, 7, 8, 9], [6, 7, 8]),
        ([2, 7, 8, 9], [8, 6, 7]),
        ([9, 7, 8, 9], [6, 7, 8]),
    ],
    ids=["empty", "not full", "full", "wrapped", "overwritten"],
)
def test_ring_wraps_at_its_length(numbers, events):
    """Not full, full, its position at the begin and at the end, and where something else wrote."""
    action = action_of("ring:3")
    assert isinstance(action, Ring) and action.events(numbers, action.slots) == events


@pytest.mark.parametrize("asked", [1, 256, 257, 65536])
def test_threads_share_the_longest_ring_however_many_events_are_asked_for(asked):
    assert action_of(f"ring:{asked}").patched(for_threads=True).name == "ring:65536"
    assert action_of(f"ring:{asked}").patched(for_threads=False).name == f"ring:{asked}"


def test_the_last_events_of_a_longer_ring_are_told():
    """By a position that goes on beyond its length; an unused slot is none, and one more is told before it."""
    assert Ring.events([2 + 256, *range(1, 257)], 3) == [255, 0, 1]
    assert Ring.events([3, 1, 2, 0, *[0] * 253], 3) == [0, 1]
    assert Ring.events([6, 9, 1, 0, 2, 0, 3, *[0] * 250], 2) == [1, 2]


def test_ring_has_a_slot_more_than_its_length_for_the_next_one():
    assert action_of("ring:3").length(100) == 16
    assert list(action_of("ring:1").numbers(bytes([1, 0, 0, 0, 7, 0, 0, 0]))) == [1, 7]


@pytest.mark.parametrize(
    "text",
    [
        "ring:0",
        "ring:65537",
        "ring:03",
        "trace",
        "count when rdi = 5",
        "count when edi == 5",
        "cover when rdi == 05",
        "count when rdi == 2147483648",
        "count when rax > 0 and rbx > 0 and rcx > 0 and rdx > 0",
    ],
)
def test_what_is_no_action_is_refused(text):
    with pytest.raises(ActionError):
        action_of(text)


@pytest.mark.parametrize(
    "condition, holds",
    [
        ("rdi == 2", True),
        ("rdi == 3", False),
        ("rdi != 2", False),
        ("rdi < 2", False),
        ("rdi <= 2", True),
        ("rdi > 2", False),
        ("rdi >= 2", True),
        ("rsi == 2147483647 and rsp == 0", True),
        ("rsi == 2147483647 and rsp != 0", False),
    ],
)
def test_a_condition_holds_where_all_its_comparisons_do(condition, holds):
    action = action_of(f"count when {condition}")
    assert isinstance(action, Counting)
    assert action.holds(REGISTERS) is holds and action.registers <= REGISTERS.keys()


def test_counters_have_eight_bytes_and_covers_one():
    assert (action_of("count").length(3), action_of("cover").length(3)) == (24, 3)
