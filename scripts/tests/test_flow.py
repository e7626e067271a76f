"""The counts of blocks without a site, which follow from those of others."""
from vaknuhol.program.flow_graph import FALL, JUMP, NEXT, OUTSIDE, RETURN, Graph
from vaknuhol.views.flow_solving import Flow


def diamond() -> Graph:
    """A block that jumps or falls, two ways, and where they meet; the last but one calls."""
    graph = Graph(5)
    for source, target, kind in ((0, 1, JUMP), (0, 2, FALL), (1, 3, JUMP), (2, 3, NEXT), (3, 4, RETURN)):
        graph.add(source, target, kind)
    graph.open_in[0] = graph.open_out[4] = graph.open_out[3] = graph.calls[3] = True
    return graph


def test_a_diamond_with_left_blocks_is_solved_and_its_call_assumed_to_return() -> None:
    flow = Flow(diamond(), [10, None, 3, None, None])
    assert flow.counts == [10, 7, 3, 10, 10] and flow.how == {1: "solved", 3: "solved", 4: "assumed"}, (
        flow.counts,
        flow.how,
    )
    assert not flow.contradicted and flow.edges[:4] == [7, 3, 7, 3]


def test_counts_that_contradict_each_other_solve_nothing() -> None:
    flow = Flow(diamond(), [10, None, 11, None, 10])
    assert flow.contradicted and min(it for it in flow.edges if it is not None) >= 0, flow.edges


def test_coverage_says_of_each_way_whether_it_was_taken() -> None:
    flow = Flow(diamond(), [1, None, 0, None, 1], is_coverage=True)
    assert flow.counts == [1, 1, 0, 1, 1] and flow.edges[:4] == [1, 0, 1, 0], (flow.counts, flow.edges)


def entered_loop(after: int | None) -> Flow:
    """A loop of two blocks, to whose head control also comes from elsewhere, and what follows it."""
    graph = Graph(3)
    for source, target, kind in ((0, 1, NEXT), (1, 0, JUMP), (1, 2, FALL), (2, OUTSIDE, JUMP)):
        graph.add(source, target, kind)
    graph.open_in[0] = True
    return Flow(graph, [10, 10, after])


def test_what_comes_to_an_open_block_from_elsewhere_is_what_its_own_ways_leave() -> None:
    flow = entered_loop(3)
    assert flow.edges == [10, 7, 3, 3] and flow.coming(0, {0, 1}) == 3, flow.edges
    assert flow.coming(0, {0}) == 10 and flow.coming(1, {1}) == 10 and flow.coming(1, {0, 1}) == 0


def test_where_a_way_from_within_is_unknown_so_is_what_comes_from_elsewhere() -> None:
    flow = entered_loop(None)
    assert flow.edges[1] is None and flow.coming(0, {0, 1}) is None and flow.coming(0, {0}) == 10, flow.edges
