"""Inclusive costs by gprof's rule, folded stacks, and to which functions indirect calls are given."""
from hypothesis import given
from hypothesis import strategies as some

from tests.doubles import double
from vaknuhol.program.call_slots import AGAINST, OPEN, TOLD
from vaknuhol.views import folded
from vaknuhol.views.call_graph import CallGraph, Edge, groups_of
from vaknuhol.views.calls import BY_CALL, BY_JUMP, BY_WORD, Site
from vaknuhol.views.indirect_calls import Sharing

START, A, B, C, D = range(5)
COUNTS = some.integers(1, 1000)
COSTS = some.lists(some.integers(0, 10**6), min_size=8, max_size=8)
CALLED = some.dictionaries(some.tuples(some.integers(0, 7), some.integers(0, 7)), COUNTS, max_size=24)


def graph_of(costs, calls, elsewhere=None) -> CallGraph:
    edges = {pair: Edge() for pair in calls}
    for pair, count in calls.items():
        edges[pair].add(count, True)
    return CallGraph(dict(enumerate(costs)), edges, {START: 1} if elsewhere is None else elsewhere)


def rounded(costs) -> dict[int, float]:
    return {first: round(cost, 6) for first, cost in costs.items()}


def test_a_caller_has_a_share_of_a_function_by_its_calls():
    graph = graph_of([1, 10, 20, 100], {(START, A): 1, (START, B): 5, (A, C): 3, (B, C): 1})
    assert rounded(graph.inclusive) == {START: 131, A: 85, B: 45, C: 100}
    assert graph.cost_of(START, B, 2) == 18 and graph.cost_of(A, C) == 75


def test_calls_of_a_function_by_itself_are_none_of_its_calls():
    graph = graph_of([0, 10, 20, 100], {(START, A): 1, (START, B): 1, (A, C): 1, (B, C): 3, (C, C): 96})
    assert rounded(graph.inclusive) == {START: 130, A: 35, B: 95, C: 100}
    assert graph.cost_of(C, C) == 0 and not graph.is_cycle(C)


def test_functions_that_call_one_another_are_one_to_their_callers():
    """Whatever they call belongs to all of them; callers share it by their calls of any."""
    calls = {(START, A): 3, (START, D): 1, (D, B): 1, (A, B): 50, (B, A): 49, (B, C): 7}
    graph = graph_of([1, 10, 20, 100, 4], calls)
    assert graph.is_cycle(A) and graph.is_cycle(B) and not graph.is_cycle(C)
    assert graph.total[graph.group[A]] == 130 and graph.from_outside[graph.group[A]] == 4
    assert graph.cost_of(START, A) == 97.5 and graph.cost_of(D, B) == 32.5 and graph.cost_of(START, D) == 36.5
    assert graph.inclusive[START] == 135


def test_where_a_cycle_is_entered_is_all_that_it_does():
    """Of its other functions each has what it calls; what leads back has nothing."""
    graph = graph_of([1, 10, 20, 100], {(START, A): 1, (A, B): 50, (B, A): 49, (B, C): 7})
    assert rounded(graph.inclusive) == {START: 131, A: 130, B: 120, C: 100}
    assert graph.cost_of(A, B) == 120 and graph.cost_of(B, A) == 0


def test_what_is_called_from_elsewhere_too_is_not_all_its_callers():
    graph = graph_of([1, 100], {(START, A): 1}, {START: 1, A: 3})
    assert graph.inclusive == {START: 26, A: 100}
    assert dict(graph.roots()) == {START: 26, A: 75}


@given(COSTS, CALLED, some.dictionaries(some.integers(0, 7), COUNTS))
def test_all_that_was_executed_is_in_the_roots_and_in_the_stacks(costs, calls, elsewhere):
    """Nothing is lost and nothing twice, whatever calls what."""
    graph = graph_of(costs, calls, elsewhere)
    assert all(cost >= 0 for cost in graph.inclusive.values())
    assert abs(sum(cost for _, cost in graph.roots()) - sum(costs)) <= 1e-6 * (1 + sum(costs))
    profile = double(graph=graph, costs=double(of=dict(enumerate(costs)), total=sum(costs)))
    found = list(folded.stacks(profile))
    assert abs(sum(cost for _, cost in found) - sum(costs)) <= 1e-6 * (1 + sum(costs))
    assert all(graph.edges.get(pair) for path, _ in found for pair in zip(path, path[1:]))


def test_folded_stacks_end_where_next_to_nothing_is_left():
    graph = graph_of([10**6, 10**6, 3], {(START, A): 1, (A, B): 1})
    profile = double(graph=graph, costs=double(of={START: 10**6, A: 10**6, B: 3}, total=2 * 10**6 + 3))
    assert sorted(folded.stacks(profile)) == [([START], 10**6), ([START, A], 10**6 + 3)]


@given(CALLED)
def test_groups_are_the_functions_that_reach_one_another(calls):
    """Each after those that it calls."""
    callees = {first: [callee for caller, callee in calls if caller == first] for first in range(8)}
    reach = {first: {first} for first in range(8)}
    for _ in range(8):
        for first in range(8):
            reach[first] |= {below for callee in callees[first] for below in reach[callee]}
    found = groups_of(callees)
    assert sorted(first for group in found for first in group) == list(range(8))
    place = {first: number for number, group in enumerate(found) for first in group}
    for first in range(8):
        for other in range(8):
            assert (place[first] == place[other]) == (first in reach[other] and other in reach[first])
            assert other not in reach[first] or place[other] <= place[first]


def shares_of(sites, wanted, edges=(), holders=None, together=(), told=None) -> dict[tuple[int, int], int]:
    """Of sites by their functions and numbers; what is no call has a third word. What operands tell is by the numbers of
    sites and by functions, and of all others nothing."""
    made = [Site(0x1000 + number, caller, count, *(kind or [BY_CALL])) for number, (caller, count, *kind) in enumerate(sites)]
    return Sharing(made, wanted, edges, holders or {}, together, lambda *pair: (told or {}).get(pair, OPEN)).shared()


def test_indirect_calls_of_one_number_go_to_the_function_that_was_entered_as_often():
    assert shares_of([(A, 700), (B, 30)], {C: 30, D: 700}) == {(0, D): 700, (1, C): 30}


def test_of_other_indirect_calls_the_greatest_numbers_are_matched_first():
    assert shares_of([(A, 90), (B, 30)], {C: 80, D: 40}) == {(0, C): 80, (1, D): 30, (0, D): 10}
    assert shares_of([(A, 300)], {C: 200, D: 100}) == {(0, C): 200, (0, D): 100}
    assert shares_of([(A, 1504), (A, 1501), (B, 1504)], {C: 4500, D: 9}) == {(0, C): 1504, (2, C): 1504, (1, C): 1492, (1, D): 9}


def test_a_function_is_not_called_by_what_it_calls_if_another_may_have():
    """As main, which the start calls once: no comparison that main sorts by calls it."""
    edges = [(START, A), (B, C)]
    assert shares_of([(A, 1), (C, 1000)], {B: 1, D: 1000}, edges) == {(0, B): 1, (1, D): 1000}
    assert shares_of([(C, 1000), (A, 1)], {B: 1, D: 600}, edges) == {(1, B): 1, (0, D): 600}
    found = shares_of([(A, 1), (C, 1000)], {B: 501}, edges)
    assert found == {(0, B): 1, (1, B): 500}, "what can't have come from elsewhere"


def test_two_indirect_calls_do_not_make_a_cycle_if_others_are_left():
    assert shares_of([(A, 10), (B, 10), (START, 10)], {A: 10, B: 10}) in (
        {(2, A): 10, (0, B): 10},
        {(1, A): 10, (2, B): 10},
    )


def test_an_indirect_jump_that_may_lead_elsewhere_is_a_call_for_what_is_left_alone():
    assert shares_of([(A, 100, BY_JUMP), (B, 60)], {C: 60}) == {(1, C): 60}
    assert shares_of([(A, 100, BY_JUMP), (B, 60)], {C: 75}) == {(1, C): 60, (0, C): 15}


def test_a_jump_made_as_often_as_one_function_alone_was_entered_is_its_call():
    """As where a function that is called indirectly hands on what it was given to another."""
    sites = [(A, 60), (B, 40), (D, 100, BY_JUMP)]
    assert shares_of(sites, {C: 100, D: 100}) == {(2, C): 100, (0, D): 60, (1, D): 40}


def test_a_function_goes_to_what_is_called_by_the_holder_of_its_address():
    sites, edges = [(A, 1), (B, 1)], [(START, B)]
    assert shares_of(sites, {C: 1, D: 1}, edges, {C: {START}}) == {(1, C): 1, (0, D): 1}
    assert shares_of(sites, {C: 1, D: 1}, edges, {D: {START}}) == {(1, D): 1, (0, C): 1}
    stub = [(A, 1), (B, 1, BY_WORD)]
    assert shares_of(stub, {C: 1, D: 1}, [(START, A), (START, B)], {D: {START}}) == {(0, D): 1, (1, C): 1}


def test_what_is_called_by_a_function_that_was_given_is_near_too():
    """As in Rust: main's address is held by what calls, indirectly, what calls main indirectly."""
    sites, edges = [(A, 1), (D, 1), (B, 500)], [(START, B)]
    found = shares_of(sites, {D: 500, C: 1}, edges, {C: {START}}, told={(2, D): TOLD})
    assert found == {(2, D): 500, (1, C): 1}


def test_what_an_operand_tells_comes_before_all_numbers_and_what_speaks_against_it_last():
    told = {(0, C): AGAINST, (1, D): AGAINST}
    assert shares_of([(A, 700), (B, 30)], {C: 700, D: 30}, told=told) == {(0, D): 30, (1, C): 30, (0, C): 670}
    told = {(0, D): TOLD, (1, C): TOLD}
    assert shares_of([(A, 700), (B, 30)], {C: 690, D: 30}, told=told) == {(0, D): 30, (1, C): 30, (0, C): 660}
    assert shares_of([(C, 10), (A, 10)], {B: 10}, [(B, C)], told={(0, B): TOLD}) == {(0, B): 10}, "though B calls C"


def test_functions_that_one_call_leads_to_go_to_the_one_that_was_made_as_often():
    sites = [(A, 1), (B, 2), (C, 1)]
    assert shares_of(sites, {5: 1, 6: 1, 7: 1}, together=[6, 7, 9]) == {(1, 6): 1, (1, 7): 1, (0, 5): 1}


@given(
    some.lists(some.tuples(some.integers(0, 7), COUNTS, some.sampled_from([BY_CALL, BY_WORD, BY_JUMP])), max_size=8),
    some.dictionaries(some.integers(0, 7), COUNTS, max_size=8),
    some.lists(some.tuples(some.integers(0, 7), some.integers(0, 7)), max_size=12),
    some.dictionaries(some.integers(0, 7), some.sets(some.integers(0, 7), max_size=2), max_size=8),
    some.dictionaries(some.tuples(some.integers(0, 7), some.integers(0, 7)), some.sampled_from([TOLD, AGAINST])),
)
def test_no_call_is_given_more_often_than_it_was_made_nor_a_function_than_it_was_entered(sites, wanted, edges, holders, told):
    """And all that can be given is given."""
    found = shares_of(sites, wanted, edges, holders, told=told)
    for number, (_, count, _) in enumerate(sites):
        assert sum(share for (site, _), share in found.items() if site == number) <= count
    for first, count in wanted.items():
        assert sum(share for (_, goal), share in found.items() if goal == first) <= count
    assert all(share > 0 for share in found.values())
    assert sum(found.values()) == min(sum(count for _, count, _ in sites), sum(wanted.values()))
