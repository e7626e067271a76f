"""Which blocks belong to source lines, and the counts of branches and lines in outputs, by tables that are made up."""
from xml.etree import ElementTree

import pytest

import vaknuhol.program.source_lines
from tests.doubles import double
from vaknuhol.program.flow_graph import FALL, JUMP, NEXT, RETURN, Graph
from vaknuhol.program.loops import body_of
from vaknuhol.program.source_lines import with_lines
from vaknuhol.views.branches import added_up, branches_of
from vaknuhol.views.cobertura import add_file, rate, ways
from vaknuhol.views.cycles import cycle_count
from vaknuhol.views.drcov import parts_of
from vaknuhol.views.flow_solving import Flow
from vaknuhol.views.lcov import section
from vaknuhol.views.line_counts import Line, LineCounts

BLOCKS = [
    double(first=first, end=end) for first, end in ((0x10, 0x18), (0x18, 0x20), (0x20, 0x24), (0x30, 0x34))
]


def info_of(pieces, points=()):
    """Debugging information with pieces of code (first, end, line) and rows without a length of one file."""
    low, high, lines = zip(*pieces) if pieces else ((), (), ())
    at, at_lines = zip(*points) if points else ((), ())
    return double(
        files=["own.c"],
        piece_low=low,
        piece_high=high,
        piece_line=lines,
        piece_file=[0] * len(low),
        point_at=at,
        point_line=at_lines,
        point_file=[0] * len(at),
        instances=lambda: (),
    )


@pytest.mark.parametrize(
    "pieces, points, chosen",
    [
        ([(0x18, 0x20, 4)], [], [0x18]),
        ([(0x1F, 0x21, 4)], [], [0x18, 0x20]),
        ([(0x10, 0x11, 0)], [], []),
        ([(0x24, 0x30, 4)], [], []),
        ([(0x08, 0x11, 4)], [], [0x10]),
        ([], [(0x23, 9)], [0x20]),
        ([(0x33, 0x40, 4)], [], [0x30]),
    ],
    ids=["one", "two", "no line", "between", "before", "a row without length", "the last"],
)
def test_blocks_with_a_byte_of_a_line_are_those_of_the_line(monkeypatch, pieces, points, chosen):
    monkeypatch.setattr(vaknuhol.program.source_lines, "debug_info", lambda path: info_of(pieces, points))
    assert [block.first for block in with_lines("program", BLOCKS)] == chosen


def loop() -> Graph:
    """A block before a loop of two, and one after it."""
    graph = Graph(4)
    for source, target, kind in ((0, 1, NEXT), (1, 3, JUMP), (1, 2, FALL), (2, 1, JUMP), (3, -1, RETURN)):
        graph.add(source, target, kind)
    graph.open_in[0] = graph.open_out[3] = True
    return graph


def test_the_body_of_a_loop_is_what_leads_to_its_latch():
    assert body_of(loop(), 2, 1) == {1, 2}
    assert body_of(loop(), 2, 3) is None, "entered not by its head alone"


def test_rounds_of_a_loop_are_counted_by_its_least_edge():
    flow = Flow(loop(), [1, 8, 7, 1])
    assert flow.edges[:4] == [1, 1, 7, 7]
    assert (
        cycle_count([1, 2], set(), flow) == 7
        and cycle_count([1, 2], {1}, flow) == 0
        and cycle_count([1], set(), flow) == 0
    )


def test_a_loop_that_is_tested_at_its_end_goes_round_once_less_than_its_body():
    """By the edge back; the edge inside the body is gone once more."""
    graph = Graph(4)
    for source, target, kind in ((0, 1, NEXT), (1, 2, NEXT), (2, 1, JUMP), (2, 3, FALL)):
        graph.add(source, target, kind)
    graph.open_in[0] = graph.open_out[3] = True
    flow = Flow(graph, [1, 8, 8, 1])
    assert flow.edges == [1, 8, 7, 1] and cycle_count([1, 2], set(), flow) == 7


def test_a_branch_is_taken_and_not_taken_as_its_edges_are():
    flow = Flow(loop(), [1, 8, 7, 1])
    copies = double(last_line={0: (0, (0, 4)), 1: (0, (0, 5)), 2: (0, (0, 6))})
    assert branches_of(copies, flow) == {(0, 5): [(1, 7)]}


def test_the_same_branch_of_several_copies_is_added_up():
    assert added_up(((1, 7), (2, 0)), False) == (3, 7) and added_up(((1, 7), (2, 0)), True) == (1, 1)
    assert added_up(((1, 7), None), False) is None


def joiner(is_coverage):
    counts = LineCounts.__new__(LineCounts)
    counts.flow = double(is_coverage=is_coverage, counts=[4, None, 0, 9])
    return counts


@pytest.mark.parametrize(
    "counts, of_counts, of_coverage",
    [([2, 3], 5, 3), ([2, None], 2, 2), ([0, None], None, None), ([0, 0], 0, 0), ([], 0, 0)],
)
def test_the_counts_of_copies_are_joined(counts, of_counts, of_coverage):
    """Of coverage the greatest; unknown where an unknown one may be all of it."""
    assert (joiner(False).joined(counts), joiner(True).joined(counts)) == (of_counts, of_coverage)


def test_the_greatest_count_is_unknown_where_it_is_0_and_another_is_unknown():
    greatest = joiner(False).greatest
    assert (greatest([0, 3]), greatest([0, 1]), greatest([1, 2]), greatest([2])) == (9, 4, None, 0)


def threaded(jumps=(), counts=(20, 18, 2, 1, 19, 20)):
    """A test that was left out on one way: blocks 1, with a row of it, and 2, with the test, lead to block 4 by block
    3, the other half, and to block 5, its end."""
    graph = Graph(6)
    ways = ((0, 1, FALL), (0, 2, JUMP), (2, 3, FALL), (2, 5, JUMP), (1, 4, NEXT), (3, 4, NEXT), (4, 5, NEXT), *jumps)
    for source, target, kind in ways:
        graph.add(source, target, kind)
    graph.open_in[0] = graph.open_out[5] = True
    lines = LineCounts.__new__(LineCounts)
    lines.flow = Flow(graph, [*counts])
    return lines


def test_a_line_begins_at_a_row_too_where_its_code_is_reached_by_it():
    """But not where control may come to that code by neither, or there again."""
    assert threaded().rows_before({5}, {2}, {1}) == {1}
    assert threaded().rows_before({5}, {2}, {3}) == set(), "a row that control may pass by"
    assert threaded().rows_before(set(), {2}, {1}) == set() == threaded().rows_before({5}, {1, 2}, set())
    again = threaded([(5, 4, JUMP)], (20, 18, 2, 1, 22, 23))
    assert again.rows_before({5}, {2}, {1}) == set(), "the code goes round"


LINES = {3: Line(2, True, 1, []), 5: Line(8, True, 1, [(1, 7)]), 6: Line(0, True, 1, [(0, 0)])}


def test_a_tracefile_has_each_line_function_and_branch():
    assert "".join(section("/a.c", LINES, {"main": (3, 2), "never": (6, 0)})) == (
        "TN:\nSF:/a.c\nFN:3,main\nFNDA:2,main\nFN:6,never\nFNDA:0,never\nFNF:2\nFNH:1\n"
        "BRDA:5,0,0,1\nBRDA:5,0,1,7\nBRDA:6,0,0,-\nBRDA:6,0,1,-\nBRF:4\nBRH:2\n"
        "DA:3,2\nDA:5,8\nDA:6,0\nLF:3\nLH:2\nend_of_record\n"
    )


def test_rates_are_of_what_was_executed():
    assert (rate([1, 0, 5], "1.0"), rate([], "1.0"), rate([0], "0.0")) == ("0.6667", "1.0", "0.0000")
    assert ways(LINES.values()) == [1, 7, 0, 0]


def test_a_class_has_the_rates_of_its_own_lines_and_branches_and_a_method_those_of_its_head():
    top = ElementTree.Element("classes")
    taken = {**LINES, 8: Line(4, True, 1, [(4, 0), (2, 2)])}
    add_file(top, "/src/a.c", taken, {"main": (3, 2), "never": (6, 0)}, str.upper)
    (one,) = top
    rates = [(it.get("name"), it.get("line-rate"), it.get("branch-rate")) for it in (one, *one.iter("method"))]
    assert rates == [("a_c", "0.7500", "0.6250"), ("MAIN", "1.0000", "0.0"), ("NEVER", "0.0000", "0.0")]
    shares = {it.get("number"): it.get("condition-coverage") for it in one.iterfind("lines/line")}
    assert shares == {"3": None, "5": "100% (2/2)", "6": "0% (0/2)", "8": "75% (3/4)"}


def test_a_block_that_is_longer_than_drcov_allows_is_told_in_parts():
    row = double(first=0x1000, end=0x1000 + 0x20001)
    assert list(parts_of(row)) == [(0x1000, 0xFFFF), (0x10FFF, 0xFFFF), (0x20FFE, 3)]
    assert list(parts_of(BLOCKS[0])) == [(0x10, 8)]
