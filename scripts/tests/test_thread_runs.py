"""Runs of programs with threads, stepped and judged by the premises of their theorem: some that keep them, and small
programs each of which breaks one of them."""
import re
import subprocess

import pytest

from tests.calls import match, of_slots, run
from tests.command import call
from tests.programs import Programs
from tests.replaying import NUMBER, build, replay
from vaknuhol.program.program_file import read_text

SOURCE, SHORT, LONG = "thread_run.c", 256, 65536
LENGTH = f"{NUMBER} steps of {NUMBER} threads?, {NUMBER} events, {NUMBER} deliveries"
OF_FIRST = f"; the theorem speaks of the first {NUMBER}, before "
WHOLE = "; the theorem speaks of all of them"
SAME = "both runs get the same answers as far as memory tells"
HELD = f"premises of threads: they hold at each step, and {SAME}: {LENGTH}"
HOLD = f"{HELD}{WHOLE}; "
ENDED = r"the record is right; there the program ends \(exit 7\)"
BROKEN = rf"premises of threads: BROKEN: step {NUMBER}, of thread {NUMBER}, at {{here}}, {{what}} \({LENGTH}\){OF_FIRST}that step"
DOUBTED = (
    "premises of threads: the run MAY HAVE GONE ANOTHER WAY than the original's, which may get other answers: "
    f"step {NUMBER}, of thread {NUMBER}, at {{here}}, asks the world{{what}}: {LENGTH}"
)
STALE = "reads [0-9a-f]+, a stale byte: an event saved rax{} there, and the program hasn't written it since"
STALE_READ = STALE.format("(?: or flags)?")
NUMBER_AT = 44  # where the number of a site stands in its event of a ring, of which `change` changes a bit, that of 8
LISTED, NEW = "a byte of a listed instruction", "a new address, of the patch alone"
BREAKING = {
    "ENTERS": "leads to [0-9a-f]{8}, which is no listed start",
    "BELOW": STALE.format("(?: or flags)?"),
    "DISPLACED": STALE.format("(?: or flags)?"),
    "SHARES": "writes saved bytes of thread 2, at [0-9a-f]+, while that stands in its event",
    "WRITES": f"writes [0-9a-f]{{8}}, {LISTED}",
    "ANSWERS": f"writes [0-9a-f]{{8}}, {LISTED}",
    "READS": f"reads [0-9a-f]{{8}}, {LISTED}",
    "PRIVATE": f"reads 00020040, {NEW}",
    "NO_STACK": "comes to its event, whose saved bytes at [0-9a-f]+ can't be read and written",
    "NEW_STACK": "comes to its event, whose saved bytes at 2007[08] are new addresses, of the patch alone",
    "ENDING": "is an instruction that ends a run",
}


def judged(*words: str, status: int = 0, slots: int = LONG) -> str:
    """The one line that is printed of a run, where a ring has so many slots."""
    found, lines, told = replay("--threads", *words, code=of_slots(slots))
    assert found == status and len(lines) == 1, f"{words}: {found} {lines} {told}"
    return lines[0]


def check_kept(threads: int, deliveries: int, *words: str, slots: int = LONG) -> None:
    """The run meets the premises, with so many threads, and counts in their events."""
    found = match(f"^{HOLD}{ENDED}$", judged(*words, slots=slots)).groups()
    steps, started, events, delivered = map(int, found)
    assert 10 < events < steps
    assert (started, delivered) == (threads, deliveries) and events > 20 * (threads - 1), words


ACTIONS: dict[str, list[str]] = {
    "count": ["--count"],
    "cover": [],
    "count where": ["--count", "--when", "rax == 0 and rsp > 0"],
    "cover where": ["--when", "rax != 1 and rbp < 99"],
    "ring": ["--ring", "9"],
}
KEEPING = [("NONE", 3, 0), ("FOUR", 5, 0), ("WRITTEN_BELOW", 3, 0), ("SIGNALS", 3, 18), ("HELD", 3, 36)]


@pytest.mark.parametrize("name, threads, deliveries", KEEPING)
@pytest.mark.parametrize("action", ACTIONS.values(), ids=ACTIONS)
def test_threads_that_keep_the_premises(name, threads, deliveries, action):
    """A byte that was stale and is written may be read; handlers are entered and left outside of trampolines."""
    check_kept(threads, deliveries, *action, build(name, SOURCE)[0])


@pytest.mark.parametrize("name, threads, deliveries", KEEPING)
def test_threads_that_share_a_short_ring_keep_the_premises(name, threads, deliveries):
    check_kept(threads, deliveries, *ACTIONS["ring"], build(name, SOURCE)[0], slots=SHORT)


@pytest.mark.parametrize("threads", [2, 4])
@pytest.mark.parametrize("action, slots", [(("--count",), LONG), (("--ring", "300"), LONG), (("--ring", "9"), SHORT)])
def test_threads_of_a_c_library_may_get_another_answer(programs: Programs, threads, action, slots):
    """Under a mutex, with a barrier, joined at the end. Before the first one begins glibc copies, by vectors, a mask of
    signals on the stack that is longer than what was written of it."""
    name = f"locks_{threads}"
    programs.bring(name, "locks.c", "-pthread", f"-DTHREADS={threads}")
    symbols = run("nm", "-n", name)
    low = int(match("(?m)^([0-9a-f]+) t count$", symbols)[1], 16)
    copies = match("(?m)^([0-9a-f]+) T __libc_sigaction\n([0-9a-f]+) ", symbols).groups()
    within = ["--blocks", "--within", f"{low:x}-{low + 0x100:x}"]
    line = judged(*action, *within, f"./{name}", status=1, slots=slots)
    read = DOUBTED.format(here="([0-9a-f]{8})", what=f" and {STALE_READ}(?:, as do {NUMBER} more)?")
    found = match(f"^{read}; the theorem speaks of the first {NUMBER}, before that step; {ENDED}$", line)
    assert int(copies[0], 16) <= int(found[3], 16) < int(copies[1], 16), line
    assert int(found[9]) + 1 == int(found[1]) and int(found[7]) > 20 * threads, line
    assert (found[2], int(found[6]), found[8]) == ("1", threads + 1, "0"), line


@pytest.mark.parametrize("name, what", BREAKING.items(), ids=BREAKING)
@pytest.mark.parametrize("action", ["count", "cover where", "ring"])
def test_what_breaks_a_premise_first_is_told(name, what, action):
    """By the last of three threads, at its label, whether the event saves rax to count or to compare, or the flags,
    too. A condition and a ring have their sites at the fronts of blocks, so what stands at the label may be
    displaced."""
    program, here = build(name, SOURCE)
    assert here is not None
    line = judged(*ACTIONS[action], program, status=1)
    where = here[-8:] if action == "count" else "[0-9a-f]{8}"
    found = match(f"^{BROKEN.format(here=where, what=what)}$", line)
    assert found[2] == "3" and int(found[1]) > 500, line


def test_an_event_of_a_ring_saves_the_flags_below_rax():
    """So eight bytes more may not be read, which may be where events count."""
    program, _ = build("FURTHER_BELOW", SOURCE)
    check_kept(3, 0, "--count", program)
    what = STALE.format(" or flags")
    assert re.search(BROKEN.format(here="[0-9a-f]{8}", what=what), judged("--ring", "9", program, status=1))


def test_events_that_cover_save_nothing():
    """So bytes below the red zone may be read."""
    check_kept(3, 0, build("BELOW", SOURCE)[0])


def test_a_signal_without_a_handler_ends_the_run():
    line = judged("--count", build("DIES", SOURCE)[0], status=1)
    assert "they hold at each step" in line and line.endswith("it gets signal 11, for which it has no handler"), line


@pytest.mark.parametrize("name", ["VFORKS", "SPAWNS"])
def test_a_run_is_judged_up_to_a_process_that_shares_its_memory(name):
    """By vfork, or as posix_spawn does it: the process counts in the same record, and is no thread."""
    line = judged("--count", build(name, SOURCE)[0], status=1)
    ends = "the record is right; there it starts a process that shares its memory, which is no thread"
    assert re.search(f"^{HOLD}{ends}$", line), line


def test_a_long_run_is_judged_up_to_the_last_step():
    line = judged("--count", "--steps", "900", build("NONE", SOURCE)[0])
    assert match(f"^{HOLD}", line)[1] == "900" and line.endswith("is right; the record ends there: --steps"), line


DOUBTED_RUNS = {
    "OUTPUTS": (f" by system call 1 and {STALE_READ}", ENDED),
    "COMPARES": (f" and {STALE_READ}", ENDED.replace("7", "8")),
    "COPIES": (f" and {STALE_READ}", ENDED),
    "ASKS": (f" by system call 1 and {STALE_READ}, as do 33 more", ENDED),
    "ASKS_LISTED": (f" and reads [0-9a-f]{{8}}, {LISTED}", ENDED),
    "ASKS_NEW": (f" by system call 1 and reads 00020040, {NEW}", ENDED),
}


@pytest.mark.parametrize("name, told", DOUBTED_RUNS.items(), ids=DOUBTED_RUNS)
@pytest.mark.parametrize("action", ["count", "ring"])
def test_a_run_that_may_have_gone_another_way_is_told(name, told, action):
    """By the step that first asks the world and reads what the original's run may have otherwise."""
    program, here = build(name, SOURCE)
    line = judged(*ACTIONS[action], program, status=1)
    where = here[-8:] if action == "count" and here else "[0-9a-f]{8}"
    assert re.search(f"{DOUBTED.format(here=where, what=told[0])}{OF_FIRST}that step; {told[1]}$", line), line


@pytest.mark.parametrize("name", ["OUTPUTS", "COMPARES", "ASKS"])
def test_where_events_cover_no_answer_is_another_one(name):
    assert re.search(f"{HOLD}{ENDED}$", judged(build(name, SOURCE)[0]))


@pytest.mark.parametrize("action", ["count", "cover where"])
def test_calls_that_read_up_to_a_stale_byte_break_nothing(action):
    """Of none of them more is taken for read than the kernel reads."""
    check_kept(3, 0, *ACTIONS[action], build("ASKS_APART", SOURCE)[0])


def test_what_was_told_shows_in_the_output():
    """The original writes zeros where the patched file writes what an event saved."""
    program, _ = build("OUTPUTS", SOURCE)
    judged("--count", "--keep", "kept", program, status=1)
    originals = {subprocess.run([program], capture_output=True, check=False).stdout for _ in range(3)}
    patched = subprocess.run(["kept/patched"], capture_output=True, check=False).stdout
    assert originals == {b"\1\0\0\0\1\0\0\0"} and patched == b"\1\0\0\0\1uuu"


def test_a_call_of_which_it_is_not_known_what_it_reads_is_told():
    status, lines, told = replay("--threads", "--count", build("UNKNOWN_CALL", SOURCE)[0])
    assert status == 0 and re.search(f"^{HOLD}{ENDED}$", lines[0]), lines
    assert "what these system calls read or write isn't known, so it wasn't judged: 157\n" in told


def test_the_theorem_speaks_of_a_whole_run_in_which_threads_begin():
    """They begin behind their calls, which are no sites."""
    found = match(f"^{HOLD}{ENDED}$", judged("--count", build("NONE", SOURCE)[0]))
    assert found[2] == "3"


def test_no_system_call_is_a_site():
    """By a site at one a thread would begin inside a trampoline."""
    program, _ = build("NONE", SOURCE)
    replay("--threads", "--count", "--blocks", "--keep", "kept", "--steps", "1", program)
    calls = set(re.findall(r"(?m)^ +([0-9a-f]+):.*\tsyscall", run("objdump", "-d", program)))
    (patched,) = call("count", program, "--threads", "--blocks", "--patch-only")[0].split()
    for sites in ("kept/sites", patched.removesuffix("patched") + "sites"):
        found = set(read_text(sites).split())
        assert len(calls) > 3 and len(found) > 9 and not calls & found, sites


def test_a_thread_that_begins_inside_a_trampoline_is_told():
    """The jump of the site before the call that begins it has room there alone, so the call is displaced, too."""
    program, here = build("BEGINS_INSIDE", SOURCE)
    assert here
    within = f"{here[-8:]}-{int(here, 16) + 1:x}"
    line = judged("--count", "--blocks", "--within", within, "--keep", "kept", program)
    assert re.search(f"^{HELD}{OF_FIRST}a thread begins inside a trampoline; {ENDED}$", line), line
    assert re.search(f"(?m)^tramp [0-9a-f]+ {int(here, 16) + 2:08x} plain$", read_text("kept/report"))


def test_the_theorem_speaks_of_a_whole_run_in_which_no_thread_begins():
    assert re.search(f"^{HOLD}{ENDED}$", judged("--count", build("ALONE", SOURCE)[0]))


def test_the_theorem_speaks_of_a_run_up_to_the_first_answer_that_may_be_another():
    program, _ = build("OUTPUTS_ALONE", SOURCE)
    what = f"; the theorem speaks of the first {NUMBER}, before that step; "
    told = f" by system call 1 and {STALE_READ}"
    found = match(DOUBTED.format(here="[0-9a-f]{8}", what=told) + what, judged("--count", program, status=1))
    assert int(found[7]) + 1 == int(found[1]), found
