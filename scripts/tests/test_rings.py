"""Rings: the records are what single steps of the original tell."""
import signal

import pytest

from tests.calls import TOP, match, patch, path_of, record, script
from tests.command import call
from tests.programs import Programs, inside
from tests.stepping import single_steps
from tests.tracing import RIP, register
from vaknuhol.recording.patch_report import Report
from vaknuhol.recording.record_file import Record
from vaknuhol.views.summary import last_of

pytestmark = pytest.mark.xdist_group("rings")
SOURCE = f"{TOP}/examples/crash.c"
SLOTS = (65536, 1, 5)
ENDINGS = ((["5"], -signal.SIGSEGV), (["4", "abort"], -signal.SIGABRT), (["4", "kill"], -signal.SIGKILL), (["4"], 3))


@pytest.fixture
def crash(programs: Programs) -> str:
    """The program `crash` in the working folder; the folder of its source."""
    return programs.bring("crash", SOURCE)


def patch_ring(home, slots):
    """Patches the blocks with lines of crash.c; the sites."""
    patch("crash", "--blocks", "--source", home, "--ring", str(slots))
    return Report(path_of("crash", "ring", "report")).patched


def record_of_ring(words, status):
    """The histories that the patched program `crash` leaves."""
    record("crash", "ring", *words, status=(status if status >= 0 else 128 - status,))
    return Record("record").histories


def sites_stepped(words, sites, status):
    """The sites in the order in which single steps come to them."""
    told = []

    def seen(pid):
        rip = register(pid, RIP)
        if rip in sites:
            told.append(rip)

    single_steps(["./crash", *words], seen, status=status)
    return told


@pytest.fixture(scope="module")
def stepped(programs: Programs, module_place: str):
    """The sites in the order in which single steps come to them, for each way to end."""
    home = programs.home("crash", SOURCE)
    with inside(module_place):
        programs.bring("crash", SOURCE)
        sites = patch_ring(home, 1)
        whole = [sites_stepped(words, sites, status) for words, status in ENDINGS]
    assert all(SLOTS[2] < len(sites) < SLOTS[0] for sites in whole)
    return whole


@pytest.mark.parametrize("slots", SLOTS)
def test_a_ring_has_the_sites_that_ran_last_in_their_order(crash, stepped, slots):
    """However the program ends."""
    patch_ring(crash, slots)
    for (words, status), whole in zip(ENDINGS, stepped):
        (history,) = record_of_ring(words, status)
        assert history.ended == (f"exit {status}" if status >= 0 else f"signal {-status}"), history.ended
        ran = [row.site for row in history.rows]
        assert ran == whole[-slots:], f"{words}: the last of {slots} were {whole[-slots:]}, and the ring has {ran}"


@pytest.fixture
def crashed(crash: str) -> None:
    """The record of a crash, by a ring of five slots."""
    patch_ring(crash, 5)
    record_of_ring(["5"], -signal.SIGSEGV)


def test_a_slot_that_something_else_wrote_is_read_as_unknown(crashed):
    with open("record", encoding="ascii") as file:
        lines = file.read().splitlines()
    with open("changed", "w", encoding="ascii") as file:
        file.write("\n".join([*lines[:-2], "-", "end\n"]))
    (history,) = Record("changed").histories
    assert history.rows[-1] is None and len(history.rows) == 5


def test_the_table_shows_what_ran_last_before_a_crash(crashed):
    shown = script("show_coverage", "crash", "record").splitlines()
    assert shown[0] == "process 1, which ended by SIGSEGV: its last 5 executions of sites, oldest first", shown
    told = [match(r"^ +(\d) [0-9a-f]{8} [0-9a-f]{8}  (\w+) crash.c:\d+$", line).groups() for line in shown[2:7]]
    assert [number for number, _ in told] == list("12345"), told
    assert [function for _, function in told] == ["discount", "worth", "sum", "sum", "worth"], told
    assert call("report", "crash", "record", "--table")[0].splitlines() == shown[:7]
    assert script("show_coverage", "crash", "record", "--lcov", "a", status=(2,)) == (
        "show_coverage: --lcov: record is of a ring, which has what ran last and not what ran: patch without --ring\n"
    )


def test_a_child_that_crashes_has_a_table_of_its_own(crashed):
    child, first = record_of_ring(["4", "fork"], 3)
    assert (child.number, child.ended, first.number, first.ended) == (2, "signal 11", 1, "exit 3")
    shown = script("show_coverage", "crash", "record")
    assert shown.startswith("process 2, which ended by SIGSEGV") and "process 1," not in shown, shown
    assert "signal ended: 1 (--all" in shown and "it is of 2 processes\n" in shown, shown
    shown = script("show_coverage", "crash", "record", "--all")
    assert "process 1, which ended with status 3: its last 5" in shown, shown


@pytest.mark.parametrize(
    "events, text", [(0, "no event"), (1, "its only event"), (10, "all 10 events"), (11, "the last 10 of 11 events")]
)
def test_which_events_of_a_ring_are_shown_is_told(events, text):
    assert last_of(events) == text
