"""What a hostile child may do to its runner: that ends, and no other process loses its record."""
import os
import shutil

import pytest

from tests.command import call
from tests.programs import Programs
from vaknuhol.recording.record_file import Record

ENDS = {"unmapped": "signal 11", "setuid": "exec"}  # its own events have no memory; they end with the program
PROCESSES = {"forks": 202, "traced": 3}
WAYS = ("range", "unmapped", "threads", "forks", "endless", "traced", "prctl", "setuid", "descriptors")
NOBODY = 65534


def make_setuid() -> None:
    """A program of another user, where that can be made."""
    shutil.copyfile("/bin/true", "other")
    if not os.getuid():
        os.chown("other", NOBODY, NOBODY)
    os.chmod("other", 0o4755)


@pytest.mark.parametrize("way", WAYS)
def test_the_other_process_keeps_its_events(programs: Programs, way: str) -> None:
    """What a child writes over its own events is told as no block."""
    programs.bring("hostile", "hostile.c", "-pthread")
    make_setuid()
    words = ("ring", "2000", "hostile", "--own", "--threads", "--quiet", "--record", "kept")
    call(*words, "--", way, status=3)
    record = Record("kept")
    assert record.state == "ended"
    if way == "endless":  # as many as the system allows a user
        assert 2 <= record.processes <= 62 and (record.processes > 20 or os.getuid())
    else:
        assert record.processes == PROCESSES.get(way, 2)
    with open("kept", encoding="ascii") as file:
        text = file.read()
    parts = {part.partition("\n")[0]: part.splitlines()[1:] for part in text.split("\nprocess ")[1:]}
    assert len(parts["1 exit 3"]) > 1000 and "-" not in parts["1 exit 3"]
    assert f"2 {ENDS.get(way, 'exit 0')}" in parts
    assert ("-" in parts.get("2 exit 0", [])) == (way == "range")
