"""Reports of a patch: sites, their outcomes, trampolines and short jumps."""
import os
import struct

import pytest

from tests.doubles import double
from vaknuhol.arguments import Refusal
from vaknuhol.recording.actions import action_of
from vaknuhol.recording.patch_report import Report, outcome_counts
from vaknuhol.recording.run_file import (COVERED, LEFT, NOWHERE, PLAIN, covered_bytes, kept_table, passing_table, rows_of,
                                         rows_of_tramps, tramps_of)

TEXT = """e9report 2
origin 4096 64 0 1
action count
private 10000000 8192
sites 4
site 00401004 1 B1
tramp 10002000 00401004 event
site 00401010 2 T3
tramp 10002100 00401010 event
tramp 10002200 00401030 plain
write 00401010 7405 eb1e
site 00401020 0 NoPlan
site 00401024 3 Shared
end
"""


def read(text=TEXT):
    with open("report", "w", encoding="ascii") as file:
        file.write(text)
    return Report("report")


def test_sites_are_patched_or_left():
    report = read()
    assert report.patched == {0x401004: 1, 0x401010: 2} and report.left == {0x401020: "NoPlan", 0x401024: "Shared"}
    assert report.sites() == 3 and report.record_place() == (0x10000000 + 64, 24)


def test_a_trampoline_has_the_number_of_the_site_that_it_records():
    assert read().trampolines() == [(0x10002000, 0x401004, 1), (0x10002100, 0x401010, 2), (0x10002200, 0x401030, None)]


def test_a_short_jump_leads_into_its_victim():
    assert list(read().short_jumps()) == [(0x401010 + 2 + 0x1E, 0x401010)]


def test_a_run_file_has_each_place_that_stands_for_a_start_and_what_lies_between():
    """Trampolines, of which one ends where the next begins, and the byte of the victim to which a short jump leads."""
    tramps = tramps_of(read())
    near = 0x401010 + 2 + 0x1E
    assert sorted(tramps)[0] == (near, near + 1, 0x401010, PLAIN) and len(tramps) == 4
    rows = list(struct.iter_unpack("<3I", rows_of_tramps([*tramps, (0x10002240, 0x10002240 + 128, 0x401034, 3)])))
    assert rows == [
        (near, 0x401010, PLAIN), (near + 1, 0, NOWHERE),
        (0x10002000, 0x401004, 1), (0x10002080, 0, NOWHERE),
        (0x10002100, 0x401010, 2), (0x10002180, 0, NOWHERE),
        (0x10002200, 0x401030, PLAIN),
        (0x10002240, 0x401034, 3), (0x100022C0, 0, NOWHERE),
    ]  # fmt: skip


def test_a_run_file_has_what_stood_in_the_original_in_pieces_of_eleven_bytes():
    old = "".join(f"{byte:02x}" for byte in range(24))
    writes = f"write 00401010 {old} {'90' * 24}\nwrite 00401040 {old[:22]} {'90' * 11}\n"
    pieces = list(COVERED.iter_unpack(covered_bytes(read(TEXT.replace("write 00401010 7405 eb1e\n", writes)))))
    assert pieces == [
        (0x401010, 11, bytes(range(11))),
        (0x40101B, 11, bytes(range(11, 22))),
        (0x401026, 2, bytes([22, 23]).ljust(11, b"\0")),
        (0x401040, 11, bytes(range(11))),
    ]


BLOCKS = [(0x401000, 0x401010, 0x401004), (0x401010, 0x401020, 0x401010), (0x401020, 0x401024, 0x401020),
          (0x401024, 0x401028, 0x401025)]


def test_rows_lead_to_the_lines_of_blocks_and_of_a_ring_stand_at_their_numbers():
    """A number that no site has has none; a block without a site has no outcome."""
    run = double(blocks=BLOCKS)
    rows, lines = rows_of(read(), run)
    assert lines.splitlines() == ["00401000 00401010 00401004 0", "00401010 00401020 00401010 0",
                                  "00401020 00401024 00401020 NoPlan", "00401024 00401028 00401025 -"]
    places = [0, *(lines.index(f"\n{first:08x} ") + 1 for first, _, _ in BLOCKS[1:])]
    assert list(struct.iter_unpack("<2I", rows)) == list(zip((1, 2, LEFT, LEFT), places))
    ring = rows_of(read(TEXT.replace("action count", "action ring:4")), run)
    assert ring[1] == lines
    assert list(struct.iter_unpack("<2I", ring[0])) == [(LEFT, 0), (1, places[0]), (2, places[1])]


def test_a_kept_run_file_is_taken_where_it_is_of_this_patch_and_else_written(monkeypatch):
    """By its head: of another report, of another form, or cut off."""
    monkeypatch.setattr("vaknuhol.recording.run_file.front_of", lambda report, run: b"front")
    monkeypatch.setattr("vaknuhol.recording.run_file.table_of", lambda report, run, patched: b"front " + patched.encode())
    files, run = double(stem="kept.1", patched="kept.1.patched"), double()
    for stands, taken in ((None, False), (b"front as it was", True), (b"other", False), (b"fron", False)):
        if stands is not None:
            with open("kept.1.count.run", "wb") as file:
                file.write(stands)
        assert kept_table(files, double(action=action_of("count")), run) == "kept.1.count.run"
        with open("kept.1.count.run", "rb") as file:
            assert file.read() == (stands if taken else b"front kept.1.patched")


def test_a_passing_run_file_is_there_as_long_as_it_is_used(monkeypatch):
    told = double(name="report"), double(name="run"), "patched"
    monkeypatch.setattr("vaknuhol.recording.run_file.table_of", lambda *words: b"table" if words == told else b"")
    with passing_table(*told) as path:
        with open(path, "rb") as file:
            assert file.read() == b"table"
    assert not os.path.exists(path) and not os.path.exists(os.path.dirname(path))


def test_outcomes_are_told_in_the_order_of_the_summary():
    assert outcome_counts(["Shared", "NoPlan", "NoPlan"]) == "NoPlan 2 Shared 1" and outcome_counts([]) == ""


def test_blocks_without_a_site_are_told_beside_outcomes():
    """Of records that tell no outcomes nothing is."""
    assert outcome_counts([None, "NoPlan", None]) == "NoPlan 1, 2 without a site" and outcome_counts([None]) == ""


@pytest.mark.parametrize(
    "change",
    [
        ("action count\n", ""),
        ("private 10000000 8192\n", ""),
        ("site 00401004 1 B1", "site 00401004 B1"),
        ("action count", "action trace"),
        ("e9report 2", "e9report 3"),
        ("\nend\n", "\n"),
    ],
)
def test_what_is_no_report_is_refused(change):
    with pytest.raises(Refusal):
        read(TEXT.replace(*change))


def test_a_report_without_a_patched_site_is_refused():
    with pytest.raises(Refusal, match="no patched site"):
        read("e9report 2\naction count\nprivate 10000000 8192\nsite 00401020 0 NoPlan\nend\n")
    with pytest.raises(Refusal, match="which is no patched site"):
        read(TEXT.replace("00401030 plain", "00401030 event")).trampolines()
