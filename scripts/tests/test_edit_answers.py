"""What recorded checks say of must-fail edits: each kind of answer, as the prover printed it of a small crate."""
import os

import pytest

from edits.answers import Answer, Kind, Said, judge
from edits.edit_files import Edit
from edits.grouping import Placed, place
from tests.edited_crate import (A_TRUTH, BELOW, BUT_ONE, COPY, LOOP_NAMED, QUADRUPLE_OF_MORE, TEXTS, THREE_EACH,
                                TWICE_AND_ONE, edit)

RECORDED = os.path.join(os.path.dirname(__file__), "edit_checks")


def of_recorded(name: str, one: Edit, is_alone: bool = False) -> Answer:
    """What the check of this name says of an edit that was in it."""
    with open(os.path.join(RECORDED, f"{name}.txt"), encoding="utf-8") as file:
        return judge(place(one, TEXTS), Said(1, file.read()), is_alone)


REFUSED = [
    ("refused", TWICE_AND_ONE, "toy::sums::double, returns"),  # what the function ensures
    ("refused", THREE_EACH, "toy::sums::twos, loop-preserved"),  # a loop's invariant
    ("refused", COPY, "toy::words::WordsClone::clone, returns"),  # a method of a trait
    ("required", QUADRUPLE_OF_MORE, "toy::sums::quadruple, double-requires-2, returns"),  # what a callee requires
    ("answered", BUT_ONE, "toy::sums::next, returns"),  # in a proof by hand
    ("unread", THREE_EACH, "toy::sums::twos, loop-preserved"),  # beside what can't be read
]


@pytest.mark.parametrize("name, one, words", REFUSED)
@pytest.mark.parametrize("is_alone", [False, True])
def test_a_goal_that_is_not_proved_refuses(name, one, words, is_alone):
    assert of_recorded(name, one, is_alone) == Answer(Kind.REFUSED, words)


def test_a_caller_of_what_is_not_proved_says_nothing():
    answer = of_recorded("refused", QUADRUPLE_OF_MORE)
    assert answer.kind is Kind.UNCLEAR and "it calls `toy::sums::double`, which is not proved" in answer.words


@pytest.mark.parametrize("is_alone", [False, True])
@pytest.mark.parametrize("name", ["gone", "answered"])
def test_a_name_that_a_proof_cites_and_that_is_gone_says_nothing(name, is_alone):
    """Also where goals are open: nothing answers them any more."""
    answer = of_recorded(name, LOOP_NAMED, is_alone)
    assert answer.kind is Kind.BAD and "keep the names that proofs cite: ./proofs/sums/twos/Invariants.antt" in answer.words


@pytest.mark.parametrize("is_alone, kind", [(False, Kind.UNCLEAR), (True, Kind.BAD)])
def test_what_does_not_compile(is_alone, kind):
    assert of_recorded("uncompiled", A_TRUTH, is_alone) == Answer(
        kind, "doesn't compile: src/sums.rt:25:9: error[mismatched-types]: expected `u32`, found `bool`")


def test_a_contract_that_cannot_be_read():
    answer = of_recorded("unread", edit("y", "result ≡ x + 1", "result ≡ y + 1", "next, value (and one)"), is_alone=True)
    assert answer.kind is Kind.BAD and answer.words.endswith("src/sums.rt:23:30: error: `ensures-value`: `y` is not in scope")


def test_a_function_that_is_still_proved_is_tried_alone():
    assert of_recorded("required", BELOW).kind is Kind.UNCLEAR
    assert judge(place(BELOW, TEXTS), Said(0, "logic=proved functions=10\n"), is_alone=True).kind is Kind.MISSED


def test_alone_an_edit_whose_function_is_proved_while_its_crate_is_not_is_bad():
    said = Said(1, "fn toy::words::Words::within: proved\nfn toy::sums::twos: no proof: it says nothing\nlogic=not-proved\n")
    one = edit("few", "x < 2", "x < 3", "within, small (at most)")
    answers = {is_alone: judge(Placed(one, frozenset()), said, is_alone) for is_alone in (True, False)}
    assert answers == {is_alone: Answer(kind, "toy::words::Words::within is proved")
                       for is_alone, kind in ((True, Kind.BAD), (False, Kind.UNCLEAR))}


@pytest.mark.parametrize("clause, words", [
    ("within, small (at most)", "refused in toy::sums::double, returns, not in toy::words::Words::within; mend its line"),
    ("double, few (any)", None),
])
def test_a_clause_that_names_another_function(clause, words):
    answer = of_recorded("refused", edit("other", "    x + x", "    x + x + 1", clause))
    assert (answer.kind is Kind.BAD and answer.words.startswith(words)) if words else answer.kind is Kind.REFUSED


def test_a_clause_other_than_the_one_named():
    said = Said(1, "fn toy::sums::double: no proof: expected answers in F; `search` did not prove `returns-clause-least`\n"
                "logic=not-proved\n")
    answers = [judge(place(edit("one", "    x + x", "    x + x + 1", f"double, {name} (it)"), TEXTS), said, False)
               for name in ("one", "least")]
    assert [answer.kind for answer in answers] == [Kind.BAD, Kind.REFUSED] and "by the clause least" in answers[0].words


@pytest.mark.parametrize("status, text, kind", [
    (3, "fn toy::sums::double: could not tell\nrattle: no verdict: antt ran out of steps\n", Kind.BAD),
    (1, "fn toy::sums::double: could not tell\nlogic=not-proved\n", Kind.BAD),
    (-9, "checked toy::sums::double, 1 of 10\n", Kind.UNSURE),
    (1, "rt: the library low did not build, so nothing above it was checked\n", Kind.UNSURE),
])
def test_a_check_without_a_verdict_refuses_nothing(status, text, kind):
    """In words of rattle's help and of rt: these didn't come of the small crate."""
    assert judge(place(TWICE_AND_ONE, TEXTS), Said(status, text), is_alone=True).kind is kind
