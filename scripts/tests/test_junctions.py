"""Junctions: which blocks need no site of their own, and how their counts follow from the others."""
from tests.test_flow import diamond
from vaknuhol.program.flow_junctions import Junctions, Sets


def junctions():
    graph = diamond()
    return Junctions(graph, graph.open_in, graph.open_out)


def test_ways_that_meet_are_one_junction():
    found = junctions()
    assert found.left(0) == found.entered(1) == found.entered(2) != 0
    assert found.left(1) == found.left(2) == found.entered(3) not in (0, found.left(0))
    assert found.entered(0) == found.left(3) == found.left(4) == 0, "the outside"


def test_a_count_follows_from_those_of_all_others():
    graph = diamond()
    found = Junctions(graph, graph.open_in, graph.open_out, [1])
    assert found.solved([10, None, 3, 10, 10]) == {1: 7}
    found = Junctions(graph, graph.open_in, graph.open_out, [0, 1])
    assert found.solved([None, None, 3, 10, 10]) == {0: 10, 1: 7}


def test_a_block_is_unmeasured_unless_that_closes_a_cycle():
    assert junctions().unmeasured([1, 2, 0, 3]) == [1, 0]
    assert junctions().unmeasured([0, 1, 2, 3]) == [0, 1]


def test_sets_are_joined_once():
    sets = Sets(4)
    assert sets.join(0, 1) and sets.join(1, 2) and not sets.join(0, 2) and sets.find(2) == 0 and sets.find(3) == 3
