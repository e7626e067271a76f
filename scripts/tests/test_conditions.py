"""Conditions: executions are counted where the registers that a block is entered with meet the condition, and nowhere
else."""
import collections

import pytest

from tests.calls import patch, path_of, record, rows_of, run, script
from tests.needs import need
from tests.programs import Programs, inside
from tests.stepping import registers_of, single_steps
from tests.tracing import RIP, register
from vaknuhol.program.listing import Listing
from vaknuhol.recording.action_places import changed
from vaknuhol.recording.actions import REGISTERS, action_of
from vaknuhol.recording.patch_report import Report
from vaknuhol.recording.process_memory import read_memory

pytestmark = pytest.mark.xdist_group("conditions")
FUNCTIONS = ("fib", "collatz", "mix", "compare", "main")
CONDITIONS = ("rdi == 3", "rsi >= 2 and rdx <= 40 and rsp != 0", "rdi < 2147483647 and rsi > 0")
CALLED = {"fib": 55, "collatz": 1, "mix": 54}  # with rdi 3


@pytest.fixture
def lines(programs: Programs) -> str:
    return programs.bring("lines", "lines.c", "-fcf-protection")


def met(actions, firsts):
    """How often `lines` comes to each address of some with a condition met, for each condition, by single steps. No
    instruction changes a register that `changed` doesn't name."""
    listing = Listing("lines")
    counts: list[collections.Counter[int]] = [collections.Counter() for _ in actions]
    before: dict[str, int] = {}

    def seen(pid):
        nonlocal before
        now = registers_of(pid)
        number = listing.at(before["rip"]) if before else None
        if number is not None:
            differ = {name for name in REGISTERS if before[name] != now[name]}
            assert differ <= changed(listing, number), f"the instruction at {before['rip']:x} changes {differ}"
        for action, counted in zip(actions, counts) if now["rip"] in firsts else ():
            counted[now["rip"]] += action.holds(now)
        before = now

    single_steps(["./lines"], seen, status=7)
    return counts


def equal_at_sites(report):
    """Each counter of a stepped run of the patched `lines` is how often it came to the site with the condition met."""
    counted: collections.Counter[int] = collections.Counter()
    told = []

    def seen(pid):
        rip = register(pid, RIP)
        if rip in report.patched:
            counted[rip] += report.action.holds(registers_of(pid))

    at_end = lambda pid: told.append(report.action.numbers(read_memory(pid, *report.record_place())))
    single_steps([f"./{path_of('lines', 'count-when', 'patched')}"], seen, at_end, status=7)
    for site, number in report.patched.items():
        assert (
            told[0][number] == counted[site]
        ), f"{report.action.name}: {told[0][number]} at {site:x}, by steps {counted[site]}"
    return sum(told[0])


@pytest.fixture(scope="module")
def by_steps(programs: Programs):
    """For each condition how often `lines` comes to each of the functions with it met."""
    with inside(programs.home("lines", "lines.c", "-fcf-protection")):
        names = dict(Listing("lines").functions)
        firsts = {addr for addr, name in names.items() if name in FUNCTIONS}
        return dict(zip(CONDITIONS, met([action_of(f"count when {text}") for text in CONDITIONS], firsts)))


@pytest.mark.parametrize("text", CONDITIONS)
def test_executions_that_meet_a_condition_are_counted_as_by_single_steps(lines, by_steps, text):
    names = dict(Listing("lines").functions)
    patch("lines", "--functions", "--count", "--when", text, status=(0, 1))
    record("lines", "count-when", status=(7,))
    rows = {row.first: row.count for row in rows_of("record") if names.get(row.first) in FUNCTIONS}
    assert len(rows) == len(FUNCTIONS), f"of {FUNCTIONS} some were left"
    assert equal_at_sites(Report(path_of("lines", "count-when", "report"))) > 0
    assert rows == {first: by_steps[text][first] for first in rows}, f"{text}: {rows}, by steps {by_steps[text]}"
    shown = script("show_coverage", "lines", "record").splitlines()
    assert shown[0].endswith(f"; executions where {text}") and f"were executed where {text}" in "".join(shown)
    if text == CONDITIONS[0]:
        ran = {names[first]: count for first, count in rows.items()}
        assert {name: ran[name] for name in CALLED} == CALLED, ran


def test_gdb_finds_a_breakpoint_under_a_condition_met_as_often(lines):
    need("gdb")
    words = ("break *fib if $rdi == 3", "ignore 1 1000000000", "run", "info breakpoints")
    told = run("gdb", "-q", "-nx", "-batch", *(it for word in words for it in ("-ex", word)), "./lines")
    assert f"breakpoint already hit {CALLED['fib']} times\n" in told, told


def test_cover_says_which_functions_were_executed_where_a_condition_held(lines):
    names = dict(Listing("lines").functions)
    patch("lines", "--symbols", "fib|collatz", "--when", "rdi == 0")
    record("lines", "cover-when", status=(7,))
    called = {names[row.first]: row.count for row in rows_of("record")}
    assert called == {"fib": 1, "collatz": 0}, "fib is called with 0, and collatz is not"
