"""Must-fail edits tried several in a check: what an edit changes, which share a check, which are tried again.

What the prover says is recorded or, where checks follow one another, said by a stand-in in the same words.
"""
import re

import pytest

from edits.answers import Answer, Kind, Said
from edits.edit_files import MORE, Edit, Unfit
from edits.grouping import place, rounds
from edits.places import Function, function_at
from edits.trying import tried
from tests.edited_crate import (A_TRUTH, BELOW, BUT_ONE, COPY, LOOP_NAMED, QUADRUPLE_OF_MORE, SUMS, TEXTS, THREE_EACH,
                                TWICE_AND_ONE, WORDS, edit)

CLAUSES = [
    ("clone of Code (a copy is what was copied)", [["Code", "clone"]]),
    ("get_u16 to put_u64 (field: the low byte first)", [["get_u16"], ["put_u64"]]),
    ("pages::change, locks (the lock of this address, no other)", [["pages", "change"]]),
    ("rewrite_inputs of threads_command (in this order)", [["threads_command", "rewrite_inputs"]]),
    ("plan_t1, by least_place's requires (positive)", [["plan_t1"]]),
    ("", []),
]
PLACES = [
    (SUMS, "src/sums.rt", "x + x\n}", Function("toy::sums", "", "double")),
    (SUMS, "src/sums.rt", "sum += 2", Function("toy::sums", "", "twos")),
    (SUMS, "src/sums.rt", "x ≤ 500", None),
    (SUMS, "src/sums.rt", "◌≤◌}", None),
    (WORDS, "src/words.rt", "pub high", None),
    (WORDS, "src/words.rt", "self.low <= most", Function("toy::words", "Words", "within")),
    (WORDS, "src/words.rt", "low: self.low,", Function("toy::words", "Words", "clone")),
    (WORDS, "specs/Words.rt", "self.low <= most", None),
    ("impl<T: Less<u8>> From<Vec<T>> for Code<T> {\n    fn from(x: u8) -> Self {\n        Code(x)\n    }\n}\n", "src/lib.rt",
     "Code(x)", Function("toy", "Code", "from")),
]


@pytest.mark.parametrize("clause, named", CLAUSES)
def test_the_functions_that_a_clause_names(clause, named):
    assert edit("one", "sum += 2;", "sum += 3;", clause).named == named


@pytest.mark.parametrize("text, file, at, function", PLACES)
def test_the_function_of_a_place(text, file, at, function):
    assert function_at("toy", file, text, text.index(at)) == function


def test_a_method_of_a_trait_is_called_by_both_names():
    cloned = Function("toy::words", "Words", "clone")
    called = ["toy::words::WordsClone::clone", "toy::words::Words::clone", "toy::words::clone",
              "toy::sums::WordsClone::clone"]
    assert [cloned.is_called(full) for full in called] == [True, True, False, False]
    assert not Function("toy::words", "", "clone").is_called("toy::words::WordsClone::clone")


def test_further_pairs_apply_to_what_the_first_made():
    made = edit("two", "sum += 2;", "sum += 3;\nold: sum += 3;\nnew: sum += 4;").applied(TEXTS)
    assert made["src/sums.rt"] == SUMS.replace("sum += 2;", "sum += 4;") and made["src/words.rt"] == WORDS


@pytest.mark.parametrize("lines, why", [
    ("file: src/sums.rt\nold: u32\nnew: u64", "src/sums.rt has an `old:` text 7 times, not once"),
    ("file: src/sums.rt\nold: sum += 2;\nnew: sum += 2;", "changes nothing"),
    ("file: src/others.rt\nold: sum\nnew: sums", "src/others.rt has an `old:` text 0 times"),
    ("file: ../sums.rt\nold: sum\nnew: sums", "no file below src/"),
    ("old: sum += 2;\nnew: sum += 3;", "before `file:`"),
    ("file: src/sums.rt\nold: sum += 2;", "no `old:` with a `new:`"),
    ("file: src/sums.rt\nold: sum += 2;\nnew: sum += 3;\nnew: sum += 4;", "before `file:` or `old:`"),
])
def test_what_cannot_be_applied(lines, why):
    with pytest.raises(Unfit, match=re.escape(why)):
        place(Edit("toy", "one", MORE, lines + "\n"), TEXTS)


def test_edits_of_different_functions_share_a_check():
    limit = edit("limit", "x ≤ 500", "x ≤ 5000")
    made = rounds([place(it, TEXTS) for it in (THREE_EACH, COPY, LOOP_NAMED, limit, BELOW, A_TRUTH, BUT_ONE)], TEXTS)
    assert [[placed.edit.name for placed in one.edits] for one in made] == [
        ["three_each", "copy", "below", "a_truth"], ["loop_named", "but_one"], ["limit"]]
    assert made[1].texts["src/sums.rt"] == SUMS.replace("for _", "for at").replace("x + 1\n", "x + 2\n")


def test_an_edit_that_does_not_apply_beside_others_is_tried_in_a_further_check():
    made = rounds([place(it, TEXTS) for it in (edit("first", "    x + 1", "    sum += 2;"), THREE_EACH)], TEXTS)
    assert [len(one.edits) for one in made] == [1, 1]


class Prover:
    """Says of the crate's texts what the prover would: a changed body is refused, and a caller of what fails is not tried."""

    def __init__(self) -> None:
        self.checks: list[int] = []  # how many bodies differ in each

    def __call__(self, texts: dict[str, str]) -> Said:
        differing = {
            "double": "x + x + 1" in texts["src/sums.rt"],
            "quadruple": "+ 500" in texts["src/sums.rt"],
            "next": "    x + 1\n" not in texts["src/sums.rt"],
            "twos": "sum += 3" in texts["src/sums.rt"],
        }
        self.checks.append(sum(differing.values()) + ("self.low < most" in texts["src/words.rt"]))
        if "x + true" in texts["src/sums.rt"]:
            return Said(1, "src/sums.rt:25:9: error[mismatched-types]: expected `u32`, found `bool`\n")
        if not any(differing.values()):
            return Said(0, "fn toy::words::Words::within: proved\nlogic=proved functions=10\n")
        lines = [f"fn toy::sums::{name}: " + ("no proof: expected answers in ./proofs; `search` did not prove `returns`"
                                             if differs else "proved") for name, differs in differing.items()]
        if differing["double"]:
            lines[1] = "fn toy::sums::quadruple: no proof: it calls `toy::sums::double`, which is not proved"
        return Said(1, "\n".join([*lines, "fn toy::words::Words::within: proved", "logic=not-proved", ""]))


def outcomes(edits: list[Edit]) -> tuple[dict[str, Answer], Prover]:
    prover = Prover()
    made = [(edited.name, answer) for edited, answer in tried(edits, TEXTS, prover)]
    assert sorted(name for name, _ in made) == sorted(edited.name for edited in edits), "each has one answer"
    return dict(made), prover


def test_a_caller_of_what_fails_is_tried_again_and_only_it():
    answers, prover = outcomes([TWICE_AND_ONE, QUADRUPLE_OF_MORE, THREE_EACH])
    assert {answer.kind for answer in answers.values()} == {Kind.REFUSED}
    assert answers["quadruple_of_more"].words == "toy::sums::quadruple, returns"
    assert prover.checks == [3, 1]


def test_what_does_not_compile_is_found_among_the_others():
    answers, prover = outcomes([TWICE_AND_ONE, A_TRUTH, THREE_EACH, BELOW])
    assert answers["a_truth"] == Answer(
        Kind.BAD, "doesn't compile: src/sums.rt:25:9: error[mismatched-types]: expected `u32`, found `bool`")
    assert answers["twice_and_one"].kind is answers["three_each"].kind is Kind.REFUSED
    assert answers["below"].kind is Kind.MISSED and "still proved" in answers["below"].words
    assert prover.checks == [4, 2, 1, 1, 2, 1]


def test_an_edit_that_cannot_be_applied_costs_no_check():
    answers, prover = outcomes([edit("gone", "x * 2", "x * 3")])
    assert answers["gone"].kind is Kind.BAD and "0 times, not once" in answers["gone"].words and prover.checks == []
