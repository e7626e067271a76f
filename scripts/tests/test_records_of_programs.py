"""Of which program a record is, and what its head has of it."""
import pytest

from tests.doubles import double
from tests.test_records import HASH, OTHER, record_of, written
from vaknuhol.arguments import Refusal
from vaknuhol.recording.record_file import Record
from vaknuhol.recording.record_head import RecordHead


@pytest.mark.parametrize("known, code, is_of", [
    (OTHER, {0x401000, 0x401008}, True),
    (HASH, {0x401000, 0x401008}, False),
    (None, {0x401000, 0x401008}, True),
    (None, {0x401000}, False),
])
def test_blocks_are_of_the_program_by_its_code_or_where_that_is_not_known_by_their_places(place, known, code, is_of):
    record = record_of("a.record", [1, 2], program=known)
    program = double(code_hash=OTHER, is_code=lambda address: address in code)
    assert record.is_of(program) is is_of
    if is_of:
        record.check_program(program, "prog")
        return
    with pytest.raises(Refusal, match="a.record is of another program: prog is not the original that was patched"):
        record.check_program(program, "prog")


@pytest.mark.parametrize("action, left, why", [("count", 1, "NoPlan 1"), ("ring:3", 2, "NoPlan 1 Shared 1")])
def test_a_record_of_a_head_has_all_of_the_record_and_its_lines_once(place, action, left, why):
    lines = ["left 2 NoPlan 1 Shared 1", "process 1 exit 0", "00401000 00401008 00401004"]
    rows = lines if action != "count" else ["00401000 00401008 00401004 5", "00401008 0040100c 00401008 NoPlan"]
    written("a.record", rows, action=action)
    record = Record.of(RecordHead("a.record"))
    assert (record.left, record.why_left, record.body, len(record.histories)) == (left, why, "", action != "count")
    assert [row.site for row in record.rows] == ([0x401004, 0x401008] if action == "count" else [0x401004])
