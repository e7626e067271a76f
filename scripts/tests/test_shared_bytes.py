"""Instructions that share bytes: both starts of a jump past a prefix are listed, and what shares bytes is left and
told."""
import os
import re
import subprocess

import pytest

from tests.calls import patch, path_of, record, rows_of, run, script, words_of
from tests.command import call
from tests.programs import Programs
from tests.stepping import visits_of
from vaknuhol.program import listing_file
from vaknuhol.program.listing import Listing
from vaknuhol.program.program_file import read_text
from vaknuhol.recording.patch_report import Report

ENDED = 115
LEFT = r"\((?:NotRelocatable [0-9]+ )?(?:NoPlan [0-9]+ )?Shared 3\)"


@pytest.fixture(autouse=True)
def sharing(programs: Programs) -> str:
    return programs.bring("sharing", "sharing.s", "-nostdlib")


def shared_starts():
    """The four instructions that share bytes: one behind a prefix and what jumps past it, one and what is inside it."""
    return [it for it in Listing("sharing").instructions if it.shares]


def test_both_starts_of_each_jump_are_listed():
    """And a prefix that does nothing with what it stands before."""
    listing = Listing("sharing")
    shared = shared_starts()
    locked, past, moved, inside = shared
    assert [it.code[0] for it in shared] == [0xF0, 0x01, 0xB8, 0x48], [it.code.hex() for it in shared]
    assert (past.addr, past.end, past.code) == (
        locked.addr + 1,
        locked.end,
        locked.code[1:],
    ) and past.function == "locked"
    assert (inside.addr, inside.end, inside.function) == (moved.addr + 1, moved.end, "hidden")
    (nop,) = [it for it in listing.instructions if it.code == bytes.fromhex("48 66 90")]
    assert nop.does_nothing() and not listing.is_start(nop.addr + 1), "a prefix that does nothing is listed alone"
    printed = script("starts_and_sites", "sharing", "starts", "sites", "--blocks")
    assert printed.startswith("23 starts, 2 of them inside other instructions, where jumps lead; 14 sites"), printed
    with open("starts", encoding="ascii") as file:
        assert [int(line, 16) for line in file] == [it.addr for it in listing.instructions]
    words = words_of("starts_and_sites", "sharing", "-", "again", "--blocks")
    done = subprocess.run(words, capture_output=True, text=True, check=True)
    assert done.stdout == read_text("starts") and done.stderr == printed and read_text("again") == read_text("sites")
    assert not os.path.exists("-")


def test_a_list_that_another_process_has_kept_meanwhile_stays(monkeypatch):
    """That process may just read it."""

    def write_late(program, path, write=listing_file.write_list):
        write(program, path)
        monkeypatch.setattr(listing_file, "write_list", write)
        listing_file.list_of(program, "sharing.vak")

    os.mkdir("sharing.vak")
    removed: list[str] = []
    monkeypatch.setattr(listing_file, "write_list", write_late)
    monkeypatch.setattr(os, "remove", removed.append)
    assert len(Listing("sharing").addr) == 23 and removed == []


def counted(shared, locked, visits):
    """A block with an instruction that shares no bytes is counted by it, as single steps do; the others are left as
    Shared."""
    rows, report = rows_of("record"), Report(path_of("sharing", "count", "report"))
    assert {site for site, outcome in report.left.items() if outcome == "Shared"} == shared, report.left
    assert {row.first for row in rows if row.outcome == "Shared"} == shared and locked not in report.left
    (of_lock,) = [row for row in rows if row.first < locked < row.end]
    assert of_lock.count == 5 and of_lock.site < locked
    known = [row for row in rows if row.count is not None]
    assert all(row.count == visits[row.site] for row in known), [
        (hex(row.site), row.count, visits[row.site]) for row in known
    ]
    return len(known)


def test_what_shares_bytes_is_left_and_told(e9tool):
    locked, *others = (it.addr for it in shared_starts())
    shared = set(others)
    visits, _ = visits_of("./sharing", ENDED)
    assert all(visits[it] for it in (*shared, locked)), "not all ways are run"
    printed = patch("sharing", "--blocks", "--count", status=(1,))
    assert re.search(rf"blocks are left {LEFT}: no instruction", printed), printed
    names = [path_of("sharing", "count", it) for it in ("patched", "starts", "report")]
    assert run(e9tool, "check", "sharing", *names) == "check yes\n"
    assert record("sharing", "count", status=(ENDED,)) == ""
    assert counted(shared, locked, visits) > 5
    shown = script("show_coverage", "sharing", "record")
    assert (
        shown.count(" (Shared)\n") == 2
        and shown.count(" (Shared, solved)\n") == shown.count(" (NoPlan, solved)\n") == 1
    ), shown
    assert re.search(rf"were left {LEFT}: 2 counts follow from the others, 2 are unknown", shown), shown


def test_the_command_tells_what_shares_bytes():
    _, told = call("count", "sharing", "--blocks", status=ENDED)
    assert re.search(r"patched [0-9]+ of 14 blocks, left: .*Shared 3\n", told), told
    assert re.search(rf"blocks were executed .*, [0-9]+ were left {LEFT}: ", told), told
    assert call("report", "sharing", "--table")[0].count(" (Shared") == 3


def test_a_ring_tells_what_shares_bytes():
    patch("sharing", "--blocks", "--ring", "4", status=(1,))
    record("sharing", "ring", status=(ENDED,))
    assert re.search(rf"\nof the blocks [0-9]+ were left {LEFT}: ", script("show_coverage", "sharing", "record"))
