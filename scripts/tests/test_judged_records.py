"""Records of judged runs that differ from the steps are told."""
import os
import re
import shutil
import subprocess

import pytest

from tests.calls import match
from tests.replaying import build, replay
from tests.test_thread_reports import change, mistaken
from tests.test_thread_runs import ACTIONS, LONG, NUMBER_AT, SHORT, SOURCE, judged
from vaknuhol.native import program as native_program
from vaknuhol.program.program_file import read_text

OTHERS = {
    "count": (r"(?<=\nsite )([0-9a-f]+) ([0-9a-f]+) 0 32", r"\1 \2 1 32", ""),
    "count where": (r"(?<=\nwhen 0) 0 0", " 1 0", " with the condition met"),
}


def judged_by(facts: str, program: str) -> str:
    """What the judge says of the kept patched file by other facts."""
    with open("facts", "w", encoding="ascii") as file:
        file.write(facts)
    words = ["result", program, "facts", "100000", "kept/patched"]
    subprocess.run([native_program("vaknuhol-judge"), *words], check=True)
    return read_text("result")


@pytest.mark.parametrize("action, others", OTHERS.items(), ids=OTHERS)
def test_a_record_that_differs_from_the_steps_is_told(action, others):
    """As where the judge takes a site for another one, or the condition."""
    program, _ = build("NONE", SOURCE)
    judged(*ACTIONS[action], "--keep", "kept", program)
    facts, times = re.subn(others[0], others[1], read_text("kept/facts"))
    assert times == 1, facts
    form = "\ncounters the record of the site at ([0-9a-f]+) is ([0-9]+), but ([0-9]+) came by it{}\n"
    told = match(form.format(others[2]), judged_by(facts, program))
    assert f"\nsite {int(told[1], 16):x} " in facts and told[2] != told[3], told


@pytest.mark.parametrize("slots", [SHORT, LONG])
def test_a_ring_that_differs_from_the_steps_is_told(slots):
    """As where an event fills its slot with another number, or the judge sees no claim."""
    program, _ = build("NONE", SOURCE)
    judged(*ACTIONS["ring"], "--keep", "kept", program, slots=slots)
    facts = read_text("kept/facts")
    assert "\ncounters yes\n" in judged_by(facts, program)
    unclaimed = facts.replace(f"\nring {slots} 34\n", f"\nring {slots} 33\n")
    form = "\ncounters the position of the ring is ([0-9]+), but 0 slots were claimed\n"
    assert int(match(form, judged_by(unclaimed, program))[1]) > 40
    shutil.copy("kept/patched", "other")  # what was judged may be running yet, and can't be written
    os.replace("other", "kept/patched")
    for place in re.findall(r"(?m)^site [0-9a-f]+ ([0-9a-f]+) [0-9]+ 67$", facts):
        change("kept/patched", int(place, 16) + NUMBER_AT)
    form = "\ncounters slot [0-9]+ of the ring is ([0-9]+), but ([0-9]+) was written last\n"
    told = match(form, judged_by(facts, program))
    assert int(told[1]) == int(told[2]) ^ 8, told


def test_a_run_of_a_patch_for_one_thread_is_not_judged():
    """By the premises of threads, where e9tool writes such a patch."""
    status, lines, told = replay("--threads", "--count", build("NONE", SOURCE)[0], tool=mistaken(1))
    assert status == 2 and not lines and "asked for a patch for threads, and wrote the report of one for" in told, told
