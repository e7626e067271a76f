"""Processes whose memory the runner may not read, and children for whose record no memory can be mapped: they go on, and do what the original does."""
import os
import subprocess

import pytest

from tests.command import call
from tests.programs import Programs, inside
from tests.stand_ins import SOON, comes
from vaknuhol.recording.record_file import Record
from vaknuhol.recording.record_folder import paths_in

NOBODY, ROUNDS = 65534, 400_000
WAYS = {
    "count": ("count", "--no-threads"),
    "count of threads": ("count", "--threads"),
    "condition": ("count", "--no-threads", "--when", "rdi != 0"),
    "condition of threads": ("count", "--threads", "--when", "rdi != 0 and rax != 5"),
    "ring": ("ring", "64", "--no-threads"),
    "ring of threads": ("ring", "64", "--threads"),
    "cover": ("cover", "--no-threads"),
}


def run_of(program: str, *words: str) -> tuple[Record, str]:
    """The record of a run by another user than root, which prints what the original prints, and what is told."""
    user = None if os.geteuid() else NOBODY
    os.makedirs(f"{program}.vak/records", exist_ok=True)
    os.chmod(f"{program}.vak/records", 0o777)
    wanted, told = (
        subprocess.run([path, *words], capture_output=True, text=True, user=user, timeout=SOON, check=False)
        for path in (f"./{program}", "./stand-in")
    )
    assert (told.stdout, told.returncode) == (wanted.stdout, wanted.returncode), told
    (path,) = paths_in(f"{program}.vak/records")
    assert comes(lambda: Record(path).state == "ended"), path
    return Record(path), told.stderr


@pytest.mark.parametrize("words", WAYS.values(), ids=WAYS)
def test_a_process_that_is_not_dumpable_does_what_the_original_does(programs: Programs, words) -> None:
    programs.bring("undumped", "undumped.c")
    call("wrap", *words, "undumped", "--own", "-o", "stand-in")
    for alone in ((), ("alone",)):
        record, told = run_of("undumped", str(ROUNDS), *alone)
        assert record.processes == 2 and not told, told
        if "count" in words and "--when" not in words:
            assert max(row.count or 0 for row in record.rows) == 2 * ROUNDS
        call("clean", "undumped")


@pytest.fixture(scope="module")
def stand_ins(programs: Programs, module_place: str) -> dict[str, str]:
    """The program `sandboxed` with a stand-in for each of some ways, by their names."""
    os.chmod(module_place, 0o755)
    made = {}
    with inside(module_place):
        for name in ("count", "count of threads", "ring", "ring of threads", "cover", "cover of threads"):
            folder = made[name] = f"{module_place}/{name.replace(' ', '-')}"
            os.mkdir(folder)
            os.chdir(folder)
            programs.bring("sandboxed", "sandboxed.c")
            words = WAYS.get(name, ("cover", "--threads"))
            call("wrap", *words, "sandboxed", "--own", "-o", "stand-in")
            os.chdir(module_place)
    return made


# how often `counted` is called in the first process, and in all of them
CALLS = {"filter": (19, 31), "again": (20, 32), "closed": (19, 31), "memory": (19, 31), "softly": (19, 31)}
RECORDED_ALONE = ("count", "ring")  # their events save registers in the memory of the record
SHARED, ORIGINAL = "its events are recorded among its parent's", "it goes on as the original"
UNSAFE = "it goes on in its parent's, where both save registers, so both may go wrong; --threads is meant for such a program"


@pytest.mark.xdist_group("sandboxed")
@pytest.mark.parametrize("what", ("filter", "memory"))
@pytest.mark.parametrize("name", ("count", "count of threads", "ring", "ring of threads", "cover", "cover of threads"))
def test_a_child_for_which_no_memory_can_be_mapped_goes_on(stand_ins, name, what) -> None:
    """In its parent's memory, where the event allows that, else as the original."""
    os.chdir(stand_ins[name])
    call("clean", "sandboxed")
    record, told = run_of("sandboxed", what)
    alone, whole = CALLS[what]
    is_alone = name in RECORDED_ALONE
    assert told.count("\n") == 1 and (ORIGINAL if is_alone else SHARED) in told, told
    assert record.unrecorded == is_alone and record.processes == (2 if is_alone else 3)
    if name.startswith("count"):
        assert max(row.count or 0 for row in record.rows) == (alone if is_alone else whole)
    assert ("of which 1 could not be recorded" in record.run_text()) == is_alone, record.run_text()


@pytest.mark.xdist_group("sandboxed")
@pytest.mark.parametrize("name", ("count", "count of threads", "ring", "ring of threads", "cover of threads"))
def test_a_child_that_can_not_be_made_the_original_goes_on_in_its_parents_memory(stand_ins, name) -> None:
    """The runner may neither map memory in it nor write its code: where both would save registers, that is told."""
    os.chdir(stand_ins[name])
    call("clean", "sandboxed")
    record, told = run_of("sandboxed", "closed")
    assert told.count("\n") == 1 and (UNSAFE if name in RECORDED_ALONE else SHARED) in told, told
    assert not record.unrecorded and record.processes == 3
    if name.startswith("count"):
        assert max(row.count or 0 for row in record.rows) == CALLS["closed"][1]


@pytest.mark.xdist_group("sandboxed")
@pytest.mark.parametrize("name, what", (("count", "softly"), ("ring", "softly"), ("count", "again"), ("cover", "again")))
def test_a_child_gets_memory_wherever_it_can(stand_ins, name, what) -> None:
    """A limit that may be raised is, and memory of its own its parent has given to it."""
    os.chdir(stand_ins[name])
    call("clean", "sandboxed")
    record, told = run_of("sandboxed", what)
    assert not record.unrecorded and record.processes == 3, told
    assert not told or "could not be read" in told, told
    if name == "count":
        assert max(row.count or 0 for row in record.rows) == CALLS[what][1]
