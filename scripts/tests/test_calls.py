"""Calls of a record: direct ones with their counts, indirect ones, and how often functions were entered otherwise."""
import struct

import pytest

from tests.doubles import double
from tests.made_coverage import BASE, coverage_of, listing_of, record_of
from vaknuhol.program.flow_graph import FALL, JUMP, NEXT, Graph
from vaknuhol.program.functions import choosing_functions
from vaknuhol.program.listing_file import BRANCH, CALL, CALL_INDIRECT, FALLS, JUMP as ALWAYS, JUMP_INDIRECT, RETURN
from vaknuhol.program.program_file import Program
from vaknuhol.views.calls import BY_CALL, BY_JUMP, BY_WORD, Call, Calls, Site
from vaknuhol.views.costs import Costs

F, G, WORD = BASE, BASE + 0x10, 0x500000
NAMES = [(F, "f"), (G, "g")]


def calls_of(rows, ways=(), held=0, word=None, choosing=(), entry=0) -> Calls:
    """Of blocks of one instruction, each with address, kind, target and count, and of ways between them, each with a
    kind and a count; all instructions hold a word's address."""
    listing = listing_of([(addr, 4, kind, target) for addr, kind, target, _ in rows], NAMES)
    listing.file.held = [held] * len(rows)
    graph = Graph(len(rows))
    for source, target, kind, _ in ways:
        graph.add(source, target, kind)
    table = b"".join(struct.pack("<QQQ", place, 37, function) for place, function in choosing)
    program = double(
        entry=entry,
        base=0,
        segments=[(0x600000, 6, table)],
        is_code=lambda it: F <= it < F + 0x20,
        is_loaded=lambda it: it == WORD,
        fixed_word=lambda it: word if it == WORD else None,
    )
    record = record_of(blocks=[(addr, addr + 4, count, None) for addr, _, _, count in rows])
    coverage = coverage_of(record, listing=listing, program=program, ways=double(graph=graph, edges=[way[3] for way in ways]))
    return Calls(coverage, Costs(coverage))


def test_a_direct_call_is_made_as_often_as_its_block_is_executed():
    """One into the middle of a function is a call of it, but no entry at its beginning."""
    found = calls_of([(F, CALL, G, 7), (F + 4, CALL, G + 4, 2), (G, FALLS, 0, 9), (G + 4, RETURN, 0, 11)])
    assert found.direct == [Call(F, F, G, G, 7), Call(F + 4, F, G + 4, G, 2)]
    assert found.entered == {F: 7, G: 9} and found.from_elsewhere == {F: 7, G: 2}


def test_a_jump_or_fall_to_the_beginning_of_another_function_is_a_call():
    rows = [(F, BRANCH, G, 10), (F + 4, FALLS, 0, 6), (G, RETURN, 0, 9)]
    found = calls_of(rows, [(0, 2, JUMP, 4), (0, 1, FALL, 6), (1, 2, NEXT, 5)])
    assert found.direct == [Call(F, F, G, G, 4)], "what stands behind f + 4 is no beginning"
    rows = [(F + 8, BRANCH, F, 10), (F + 0xC, FALLS, 0, 6), (G, RETURN, 0, 9)]
    found = calls_of(rows, [(0, 1, FALL, 6), (1, 2, NEXT, 5)])
    assert found.direct == [Call(F + 0xC, F, G, G, 5)] and found.from_elsewhere == {G: 4}


def test_a_jump_into_the_middle_of_another_function_is_no_call():
    assert calls_of([(F, ALWAYS, G + 4, 3), (G + 4, RETURN, 0, 3)], [(0, 1, JUMP, 3)]).direct == []


def test_rounds_of_a_loop_at_the_beginning_are_no_entries():
    found = calls_of([(F, FALLS, 0, 100), (F + 4, BRANCH, F, 100)], [(0, 1, NEXT, 100), (1, 0, JUMP, 97)])
    assert found.direct == [] and found.entered == {F: 3}


def test_the_entry_of_the_program_is_called_from_outside():
    found = calls_of([(F, FALLS, 0, 1), (G, FALLS, 0, 1)], entry=F)
    assert found.from_elsewhere == {G: 1} and found.from_outside == {F: 1}


@pytest.mark.parametrize("kind", [CALL_INDIRECT, JUMP_INDIRECT])
def test_a_call_by_a_word_that_does_not_change_is_a_direct_one(kind):
    found = calls_of([(F, kind, 0, 7), (G, RETURN, 0, 7)], held=WORD, word=G)
    assert found.direct == [Call(F, F, G, G, 7)] and found.indirect == []


def test_indirect_calls_are_by_calls_by_words_or_by_jumps_that_may_be_such():
    assert calls_of([(F, CALL_INDIRECT, 0, 7)]).indirect == [Site(F, F, 7, BY_CALL)]
    assert calls_of([(F, JUMP_INDIRECT, 0, 7)]).indirect == [Site(F, F, 7, BY_JUMP)]
    assert calls_of([(F, JUMP_INDIRECT, 0, 7)], held=WORD).indirect == [Site(F, F, 7, BY_WORD)]
    assert calls_of([(F, JUMP_INDIRECT, 0, 0)]).indirect == [], "never executed"
    found = calls_of([(F, JUMP_INDIRECT, 0, 7), (G, RETURN, 0, 7)], held=WORD, word=G, choosing=[(WORD, G)])
    assert found.indirect == [Site(F, F, 7, BY_WORD)] and found.choosing == {WORD: G}, "which one is chosen isn't known"


def test_what_holds_the_address_of_a_function_is_known():
    found = calls_of([(F, FALLS, 0, 1), (G, RETURN, 0, 3)], held=G)
    assert found.holders() == {F: set(), G: {F, G}}


def test_functions_that_choose_are_read_from_relocations():
    program = double(
        base=0,
        segments=[(0x600004, 4, b"\0" * 4 + struct.pack("<7Q", WORD, 37, G, WORD, 38, G, 37))],
        is_code=lambda it: it == G,
        is_loaded=lambda it: it == WORD,
    )
    assert choosing_functions(program) == {WORD: G}


def test_a_word_is_fixed_in_what_is_not_writable_or_protected_after_the_start():
    program = Program.__new__(Program)
    program.segments = [(0x1000, 4, struct.pack("<2Q", 5, 6)), (0x2000, 6, struct.pack("<3Q", 7, 8, 9))]
    program.protected = range(0x2000, 0x2010)
    words = {addr: program.fixed_word(addr) for addr in (0x1000, 0x1008, 0x100C, 0x2000, 0x2008, 0x2010, 0x3000)}
    assert words == {0x1000: 5, 0x1008: 6, 0x100C: None, 0x2000: 7, 0x2008: 8, 0x2010: None, 0x3000: None}
