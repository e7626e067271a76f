"""What `diff` tells of two records, and its status."""
import argparse

import pytest

from tests.doubles import double
from tests.made_coverage import rows_of
from vaknuhol.arguments import Refusal
from vaknuhol.commands import diff
from vaknuhol.recording.actions import action_of
from vaknuhol.views.coverage import Place

FIRST, SIZE = 0x401000, 8


def made(counts: dict[int, int | None], action: str = "count", program: str = "prog"):
    """A record of blocks by their numbers; None is of one that was left."""
    rows = rows_of([(FIRST + SIZE * it, FIRST + SIZE * (it + 1), count, None) for it, count in counts.items()])

    def check_program(other, name):
        if (other, name) != (program, "prog"):
            raise Refusal("it is of another program")

    return double(rows=rows, action=action_of(action), check_program=check_program)


@pytest.fixture
def told(monkeypatch, capsys):
    """What is told of an old and a new record, and the status."""

    def compare(old, new) -> tuple[list[str], int]:
        records = {"runs/old": old, "runs/new": new}
        places = [(row, Place(f"f{(row.first - FIRST) // SIZE}", None)) for row in old.rows]
        monkeypatch.setattr(diff, "record_at", records.get)
        monkeypatch.setattr(diff, "Coverage", lambda *_: double(program="prog", places=lambda: iter(places)))
        status = diff.do(argparse.Namespace(program="prog", old="runs/old", new="runs/new", source=None))
        return capsys.readouterr().out.splitlines(), status

    return compare


@pytest.mark.parametrize(
    "old, new, lost, won",
    [
        ({0: 1, 1: 0}, {0: 5, 1: 0}, [], []),
        ({0: 1, 1: 0}, {0: 1, 1: 1}, [], ["f1"]),
        ({0: 1, 1: 1}, {0: 1, 1: 0}, ["f1"], []),
        ({0: 1, 1: 0}, {0: 0, 1: 1}, ["f0"], ["f1"]),
        ({0: 1, 1: None}, {0: 1, 1: 1}, [], []),
        ({0: 1, 1: 1}, {0: 1, 1: None}, [], []),
        ({0: 1}, {0: 1, 1: 1}, [], []),
        ({0: 1, 1: 1}, {0: 1}, [], []),
    ],
    ids=["same", "won", "lost", "both", "left before", "left now", "not chosen before", "not chosen now"],
)
def test_the_status_is_1_where_a_block_was_executed_in_one_run_only(told, old, new, lost, won):
    """In the old one or in the new one; blocks that one of them doesn't know are not compared."""
    lines, status = told(made(old), made(new))
    assert status == (1 if lost or won else 0)
    both = sum(1 for it in old if old[it] is not None and new.get(it) is not None)
    assert lines[0] == (
        f"{both} {'block is' if both == 1 else 'blocks are'} known in both: {len(lost)} {'was' if len(lost) == 1 else 'were'} "
        f"executed in old only, {len(won)} in new only"
    )
    wanted = ["only in runs/old:", *(f"  {it}" for it in lost)] if lost else []
    wanted += ["only in runs/new:", *(f"  {it}" for it in won)] if won else []
    assert [line for line in lines[1:] if "changed" not in line and "->" not in line] == wanted


def test_blocks_that_end_elsewhere_are_not_compared(told):
    old, new = made({0: 1}), made({0: 0})
    new.rows[0].end += 1
    assert told(old, new) == (["0 blocks are known in both: 0 were executed in old only, 0 in new only"], 0)


def test_the_ten_counts_that_changed_most_come_first(told):
    """By their difference, in either direction; blocks that one run didn't execute are told above."""
    news = [100, 91, 120, 100, 1, 101, 103, 97, 104, 95, 94, 107, 108, 0]
    lines, status = told(made({it: 100 for it in range(len(news))}), made(dict(enumerate(news))))
    assert status == 1 and lines[3] == "11 counts changed; by most:"
    changes = [line.split() for line in lines[4:]]
    assert [(old, new) for old, _, new, _ in changes] == [("100", str(it)) for it in (1, 120, 91, 108, 107, 94, 95, 104, 103, 97)]
    assert changes[0][3] == "f4"


def test_equal_places_are_told_once_with_their_number(told, monkeypatch):
    old, new = made({0: 1, 1: 1, 2: 1}), made({0: 0, 1: 0, 2: 0})
    monkeypatch.setattr(Place, "text", lambda self, names: "f" if self.function != "f2" else "g")
    assert told(old, new)[0][1:] == ["only in runs/old:", "  f (2 blocks)", "  g"]


def test_of_coverage_no_count_is_told_to_have_changed(told):
    lines, status = told(made({0: 1}, "cover"), made({0: 1}, "cover"))
    assert len(lines) == 1 and status == 0
    assert len(told(made({0: 2}, "cover"), made({0: 1}))[0]) == 1


def test_a_record_of_another_program_is_refused_and_one_of_a_ring(told):
    with pytest.raises(Refusal, match="another program"):
        told(made({0: 1}), made({0: 1}, program="other"))
    for pair in ((made({0: 1}), made({}, "ring:3")), (made({}, "ring:3"), made({0: 1}))):
        with pytest.raises(Refusal, match="ring"):
            told(*pair)
