"""Tries the edits of a crate, several in one check as far as that gives each a clear answer.

An edit without one is tried again with fewer others: behind a function that another edit made fail, callers say nothing
of their own; and where the crate doesn't compile, nobody says anything. What is tried alone says all that it will.
"""
from collections.abc import Callable, Iterator

from edits.answers import Answer, Kind, Said, judge
from edits.edit_files import Edit, Unfit
from edits.grouping import Placed, place, rounds

Check = Callable[[dict[str, str]], Said]


def again(edits: list[Placed], unclear: list[Placed], texts: dict[str, str]) -> list[list[Placed]]:
    """Those that a check left unclear, in further checks: by halves where it left all."""
    if len(unclear) < len(edits):
        return [one.edits for one in rounds(unclear, texts)]
    half = len(edits) // 2
    return [edits[:half], edits[half:]]


def together(edits: list[Placed], texts: dict[str, str], check: Check) -> Iterator[tuple[Edit, Answer]]:
    """What comes of edits that can be tried in one check."""
    made = texts
    for placed in edits:
        made = placed.edit.applied(made)
    said, unclear = check(made), []
    for placed in edits:
        answer = judge(placed, said, is_alone=len(edits) == 1)
        if answer.kind is Kind.UNCLEAR:
            unclear.append(placed)
        else:
            yield placed.edit, answer
    for fewer in again(edits, unclear, texts) if unclear else []:
        yield from together(fewer, texts, check)


def tried(edits: list[Edit], texts: dict[str, str], check: Check) -> Iterator[tuple[Edit, Answer]]:
    """What comes of each edit of a crate with these texts."""
    placed = []
    for edit in edits:
        try:
            placed.append(place(edit, texts))
        except Unfit as why:
            yield edit, Answer(Kind.BAD, f"can't be applied: {why}")
    for one in rounds(placed, texts):
        yield from together(one.edits, texts, check)
