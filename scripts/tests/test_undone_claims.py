"""A signal at each instruction of an event that keeps a ring for threads: the event is taken back, whatever it has done
by then, the handler finds the original's registers, and the event is made again."""
import os
import signal
import subprocess
from collections.abc import Iterator

import pytest

from tests.calls import HELD_BY_FILTERS, of_slots, patch, path_of, record, run, suspends_filters
from tests.needs import left_out
from tests.programs import Programs, inside
from vaknuhol.recording.patch_report import Report
from vaknuhol.recording.record_file import Record

pytestmark = pytest.mark.xdist_group("undone claims")
SHORT, LONG = 256, 65536  # the rings that threads can share
EARLIER, WELL, WRAPPED = 100, 7, 2**32 - 101  # the position after which the first event at which a thread stops is 0
# After how many bytes of the event (docs/reference/formats.md, Where threads share their memory) each of its
# instructions begins, and what follows it; from where on it has claimed its slot, has filled that, and has another
# value in rax.
POINTS = (0, 8, 9, 12, 20, 25, 34, 37, 48, 56, 58, 59, 67)
CLAIMED, FILLED, LOADED = 34, 48, 56
STOPS = [(0x1122334455667788 + (number << 56), flags) for number, flags in enumerate((0, 0x8D5, 0x800, 0xD5))]
NAMES = {"o": "one", "t": "two", "c": "come"}


class Planted:
    """The program `planted` in a folder, patched with a ring of so many slots: where its functions stand, and where the
    event of `come` does."""

    def __init__(self, folder: str, slots: int) -> None:
        words, self.code = ["--symbols", "|".join(NAMES.values()), "--threads", "--ring", str(slots)], of_slots(slots)
        patch("planted", *words, code=self.code)
        self.folder, self.slots, self.report = folder, slots, Report(path_of("planted", "threads-ring", "report"))
        symbols = (line.split() for line in run("nm", "planted").splitlines())
        self.addresses = {name: int(at, 16) for at, _, name in symbols if name in NAMES.values()}
        self.names = {address: name for name, address in self.addresses.items()}
        assert self.report.patched.keys() == self.names.keys(), self.report.text
        (self.begin,) = (place for place, start, _ in self.report.trampolines() if start == self.addresses["come"])

    def run(
        self, *how: str, offset: int, position: int = 0, meanwhile: str = "", status: int = WELL, first: str = ""
    ) -> str:
        """What the patched program prints, on both outputs; its record stands in the folder. What is done first is
        Python."""
        data, _ = self.report.record_place()
        words = [f"{self.begin:x}", str(offset), f"{data:x}", str(self.slots), str(position), meanwhile]
        with inside(self.folder):
            code = f"{self.code}\n{first}"
            return record("planted", "threads-ring", *how, *words, status=(status,), code=code)

    def changes(self, told: str, stops: list[tuple[int, int]]) -> list[list[int]]:
        """Which words of the ring had changed at each stop. The handler found that the thread stood at `come`, with the
        registers and flags that it came with."""
        lines = told.splitlines()
        found = [line for line in lines if not line.startswith("ring:")]
        assert found == [f"{self.addresses['come']:x} {rax:x} {flags:x}" for rax, flags in stops], told
        return [[int(word) for word in line.split()[1:]] for line in lines if line.startswith("ring:")]

    def rows(self) -> list[str]:
        """To which functions the last events in the record are."""
        (*_, history) = Record(f"{self.folder}/record").histories
        assert None not in history.rows
        return [self.names[row.site] for row in history.rows if row]


def planted_in(programs: Programs, folder: str, slots: int) -> Planted:
    os.makedirs(folder, exist_ok=True)
    with inside(folder):
        programs.bring("planted", "planted.c", "-pthread")
        return Planted(folder, slots)


@pytest.fixture(scope="module")
def planted(programs: Programs, module_place: str) -> Planted:
    return planted_in(programs, f"{module_place}/short", SHORT)


@pytest.fixture(scope="module")
def planted_long(programs: Programs, module_place: str) -> Planted:
    return planted_in(programs, f"{module_place}/long", LONG)


def drawn(count: int, state: int = 1) -> Iterator[str]:
    """To which functions the program comes before it is stopped, by its own rule."""
    for _ in range(count):
        state = (state * 1103515245 + 12345) % 2**32
        yield "two" if state >> 16 & 1 else "one"


def of_halted(*hole: str) -> list[str]:
    """The events of the run that is halted: before each stop those before, and after it the handler's, and the one that
    is made again; in between, maybe, a slot that stays empty."""
    events, earlier = [], drawn(len(STOPS) * EARLIER)
    for _ in STOPS:
        events += [*(next(earlier) for _ in range(EARLIER)), *hole, "one", "come"]
    return events


def slots_of_halted(planted: Planted, position: int, *hole: str) -> Iterator[tuple[int, bool]]:
    """The place in the ring of the slot of each event that is taken back, and whether it held one before."""
    for number in range(len(STOPS)):
        claims = EARLIER + number * (EARLIER + 2 + len(hole))
        yield 1 + (position + claims) % planted.slots, claims >= planted.slots


def test_the_original_is_stopped_where_it_comes_to_the_function(planted):
    """With the same registers and flags."""
    told = run(f"{planted.folder}/planted", "halted", f"{planted.addresses['come']:x}", "0", status=(WELL,))
    assert planted.changes(told, STOPS) == [[]] * len(STOPS)


@pytest.mark.parametrize("ring, position", [("planted", 0), ("planted", WRAPPED), ("planted_long", 0)])
@pytest.mark.parametrize("offset", POINTS)
def test_a_fault_at_each_instruction_of_the_event_takes_it_back(offset, ring, position, request):
    """The ring is as it was; but where the slot was filled, it is empty, and the oldest event is gone."""
    planted = request.getfixturevalue(ring)
    changes = planted.changes(planted.run("halted", offset=offset, position=position), STOPS)
    assert changes == [[slot] * (held and offset >= FILLED) for slot, held in slots_of_halted(planted, position)]
    assert planted.rows() == of_halted()[-planted.slots:]


def need_way(planted: Planted, way: str) -> None:
    """That the program may begin again in this way."""
    words = [f"{planted.folder}/planted", way, "halted", f"{planted.addresses['come']:x}", "0"]
    if subprocess.run(words, capture_output=True, check=False).returncode != WELL:
        left_out(f"no process may be {way} here")


def check_hole(planted: Planted, told: str, *hole: str) -> None:
    """That after a run that is halted the slots of the events that are taken back are empty, in memory of its own."""
    slots = slots_of_halted(planted, 0, *hole)
    assert planted.changes(told, STOPS) == [[0, *[slot] * held] * len(hole) for slot, held in slots]
    assert planted.rows() == [event for event in of_halted(*hole)[-SHORT:] if event]


@pytest.mark.parametrize("way", ["filtered", "apart"])
@pytest.mark.parametrize("offset", POINTS)
def test_where_the_memory_is_not_shared_the_slot_stays_empty(planted, offset, way):
    """As of a process with a filter on system calls that the runner hasn't and may not suspend, and of one with
    another namespace of segments: other threads might claim meanwhile."""
    need_way(planted, way)
    told = planted.run(way, "halted", offset=offset, first=HELD_BY_FILTERS * (way == "filtered"))
    check_hole(planted, told, *[""] * (offset >= CLAIMED))


@pytest.mark.parametrize("offset", POINTS)
def test_a_runner_that_may_suspend_filters_shares_the_memory_of_a_process_that_has_one(planted, offset):
    """So the event is taken back as of another process."""
    need_way(planted, "filtered")
    if not suspends_filters():
        left_out("no filter may be suspended")
    changes = planted.changes(planted.run("filtered", "halted", offset=offset), STOPS)
    assert changes == [[slot] * (held and offset >= FILLED) for slot, held in slots_of_halted(planted, 0)]
    assert planted.rows() == of_halted()[-SHORT:]


@pytest.mark.parametrize("meanwhile", ["", "t", "otto"])
@pytest.mark.parametrize("offset", POINTS)
def test_a_signal_at_each_instruction_takes_the_event_back_and_leaves_those_of_others(planted, offset, meanwhile):
    """In their order. Where others have claimed behind it, the slot stays empty; the record tells of no event in
    it."""
    planted.changes(planted.run("spins", offset=offset, meanwhile=meanwhile), STOPS[1:2])
    events = [*drawn(3 * EARLIER), *(NAMES[letter] for letter in meanwhile), "one", "come"]
    assert planted.rows() == events[-SHORT:][offset >= CLAIMED and meanwhile != "":]


@pytest.mark.parametrize("others", [SHORT - 1, SHORT, SHORT + 1])
@pytest.mark.parametrize("offset", [FILLED, LOADED])
def test_a_slot_that_others_have_filled_since_stays_theirs(planted, offset, others):
    """The ring has gone round."""
    planted.run("spins", offset=offset, meanwhile="t" * others)
    assert planted.rows() == ["two"] * (SHORT - 2) + ["one", "come"]


@pytest.mark.parametrize("offset", [point for point in POINTS if LOADED <= point < POINTS[-1]])
def test_of_two_events_of_one_site_either_may_be_the_one_that_is_taken_back(planted, offset):
    """Where rax leads to the slot no more, the last one is. As many are left as were made."""
    planted.run("spins", offset=offset, meanwhile="ct")
    assert planted.rows()[-4:] == ["come", "two", "one", "come"] and planted.rows().count("come") == 2
    planted.run("spins", offset=offset, meanwhile="ctc")
    assert planted.rows()[-5:] == ["come", "come", "two", "one", "come"] and planted.rows().count("come") == 3


@pytest.mark.parametrize("ring", ["planted", "planted_long"])
@pytest.mark.parametrize("offset", [point for point in POINTS if CLAIMED <= point <= FILLED])
def test_a_thread_that_is_killed_before_it_has_filled_its_slot_leaves_an_older_event_or_none(offset, ring, request):
    """The one that stood there when the ring was gone round the last time; other threads' events behind it are
    there."""
    planted, earlier = request.getfixturevalue(ring), list(drawn(3 * EARLIER))
    planted.run("killed", offset=offset, meanwhile="tot", status=128 + signal.SIGKILL)
    stood = earlier[-SHORT:][:1] if planted.slots == SHORT else []
    events = [*earlier, *(stood if offset < FILLED else ["come"]), "two", "one", "two"]
    assert planted.rows() == events[-planted.slots:]
