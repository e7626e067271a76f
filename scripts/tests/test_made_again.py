"""Calls of the kernel that signals interrupt: what it makes again is one event, and it ends as in the original."""
import subprocess

import pytest

from tests.command import call
from tests.programs import Programs
from tests.stand_ins import SOON, comes
from vaknuhol.recording.record_file import Record
from vaknuhol.recording.record_folder import paths_in

RECORDS, ENDS = "made_again.vak/records", 30
CASES = ("ignored", "handled", "stacked", "ended", "left", "sleeps", "waits")
WAYS = {
    "count": ("count", "--threads"),
    "count of one thread": ("count", "--no-threads"),
    "condition": ("count", "--no-threads", "--when", "rax < 1000 and rsp > 0"),
    "ring": ("ring", "1000", "--threads"),
    "ring of one thread": ("ring", "1000", "--no-threads"),
}
MORE = {"count": ("forks", "threads"), "count of one thread": ("forks",), "ring": ("threads",)}


def told(program: str, case: str) -> list[int]:
    """How many calls the program made, how many of them a signal ended, and what else it has of the case."""
    done = subprocess.run([program, case], capture_output=True, text=True, timeout=SOON, check=True)
    assert done.stderr == "", done
    return [int(number) for number in done.stdout.split()]


def events() -> int:
    """Of the first process, by the record of the one run."""
    (path,) = paths_in(RECORDS)
    assert comes(lambda: Record(path).state == "ended")
    record = Record(path)
    first = [it for it in record.histories if it.number == 1]
    count = len(first[0].rows) if first else record.rows[0].count or 0
    call("clean", "made_again")
    return count


@pytest.mark.parametrize("way", WAYS)
def test_a_call_that_is_made_again_is_one_event(programs: Programs, way) -> None:
    """For threads no system call is a site, so what makes it is one, also of calls that a handler leaves."""
    programs.bring("made_again", "made_again.c", "-pthread")
    symbol = "make" if "--threads" in WAYS[way] else "kernel"
    call("wrap", *WAYS[way][:2 if "ring" in way else 1], "made_again", *WAYS[way][2 if "ring" in way else 1:],
         "--symbols", symbol, "-o", "stand-in")  # fmt: skip
    for case in CASES + MORE.get(way, ()):
        wanted, (calls, ended, more) = told("./made_again", case), told("./stand-in", case)
        count = events()
        assert count == calls or case == "left" and symbol == "make", f"{case}: {count} events of {calls} calls"
        varies = case in ("ended", "handled", "stacked", "threads")
        assert varies or [calls, ended, more] == wanted, f"{case}: {[calls, ended, more]} and not {wanted}"
        assert calls == wanted[0] or case == "ended", f"{case}: {calls} calls and not {wanted[0]}"
        assert ended == (calls - 12 if case == "ended" else 0), f"{case}: {ended} of {calls} calls ended"


def test_a_process_ends_while_signals_come_to_its_first_thread(programs: Programs) -> None:
    """Whose end is not told before the others have been waited for: the runner doesn't wait for it alone."""
    programs.bring("made_again", "made_again.c", "-pthread")
    call("wrap", "count", "made_again", "--no-threads", "--symbols", "kernel", "-o", "stand-in")
    for _ in range(ENDS):
        assert subprocess.run(["./stand-in", "exits"], timeout=SOON, check=False).returncode == 5
