"""Records that are merged, and their differences."""
import re

import pytest

from tests.calls import run
from tests.command import call, known


@pytest.fixture
def runs(counted_tour) -> None:
    """The records of a short run, a long one, and one that calls another function."""
    for name, words in (("short", ["walk", "3"]), ("long", ["walk", "30"]), ("never", ["x", "1"])):
        call("count", "tour", "--quiet", "--record", name, "--", *words, status=4)


def test_merge_adds_up(runs):
    call("merge", "both", "short", "long")
    longer = known("long")
    assert known("both") == {first: count + longer[first] for first, count in known("short").items()}
    assert "it is the sum of 2 processes" in call("report", "tour", "both")[0]
    assert call("report", "tour", "short", "long")[0] == call("report", "tour", "both")[0]


def test_a_sum_of_records_of_other_blocks_says_why_its_counts_contradict_each_other(runs):
    call("count", "tour", "--fast", "--quiet", "--record", "fast", "--", "walk", "3", status=4)
    call("merge", "both", "short", "fast")
    cause = "contradict those around, as where the records that were added up don't count the same blocks: nothing is solved"
    for records in (["both"], ["fast", "short"]):
        assert cause in call("report", "tour", *records)[0]
    for records in (["short", "short"], ["fast", "fast"], ["fast"]):
        assert "contradict" not in call("report", "tour", *records)[0]


def test_merge_refuses_records_of_two_actions(runs):
    call("cover", "tour", "--functions", "--quiet", "--record", "covered", status=4)
    assert "is of the action count, and covered of cover" in call("merge", "sum", "short", "covered", status=2)[1]


def test_a_program_without_symbols_has_no_function_of_a_name(tour):
    run("strip", "-o", "bare", "tour")
    call("count", "bare", "--symbols", "x", status=125)


def test_diff_tells_what_only_one_run_executed(runs):
    told, _ = call("diff", "tour", "short", "never", status=1)
    assert re.search(r"only in short:\n(  .*\n)*  tour::walk\(long\)", told), told
    assert re.search(r"only in never:\n(  .*\n)*  tour::never\(\)", told), told
    told, _ = call("diff", "tour", "short", "long")
    assert re.search(r"^ +3 -> 30 +tour::Walk::step\(long\)", told, re.M), told
    assert call("diff", "tour", "short", "short")[0].endswith(" 0 were executed in short only, 0 in short only\n")
