"""What is undone of an event, at the begin of each of its instructions and at its end: by the code that
docs/reference/formats.md gives (Relocated code), and by what each of its instructions does."""
import re

import pytest

from tests.calls import TOP, match
from vaknuhol.recording import event_undo
from vaknuhol.recording.actions import action_of
from vaknuhol.recording.event_undo import recorded_at, undo_of

KEPT, CHANGED, IN_MEMORY, ADDED, RECORDED, WRITTEN, CLAIMED = (1 << number for number in range(7))
FLAGS = KEPT | CHANGED | IN_MEMORY
NAMES = "RAX_IS_KEPT FLAGS_CHANGED FLAGS_IN_MEMORY FLAGS_ADDED RECORDED SLOT_WRITTEN CLAIMED"

Code = list[tuple[str, int]]  # the bytes of an instruction, `..` for four of a number, and what is undone before it
SAVE, LAHF, SETO = "48890425 ..", "9f", "0f90c0"
COVER: Code = [("c60425 .. 01", 0)]
COUNT: Code = [
    (SAVE, 0),
    ("488b0425 ..", 0),
    ("488d4001", KEPT),
    (SAVE, KEPT),
    ("488b0425 ..", KEPT | RECORDED),
]
RING: Code = [
    (SAVE, 0),
    (LAHF, 0),
    (SETO, KEPT),
    ("890425 ..", KEPT),
    ("8b0425 ..", KEPT),
    ("c70485 .. ..", KEPT),
    ("8d4001", KEPT | WRITTEN),
    ("3d ..", KEPT | WRITTEN),
    ("7505", FLAGS | WRITTEN),
    ("b8 ..", FLAGS | WRITTEN),
    ("890425 ..", FLAGS | WRITTEN),
    ("8b0425 ..", FLAGS | RECORDED),
    ("047f", FLAGS | RECORDED),
    ("9e", FLAGS | RECORDED),
    ("488b0425 ..", FLAGS | RECORDED),
]
SAVE_BELOW, LOAD_BELOW = "48898424 ..", "488b8424 .."
SHARED_RING: Code = [
    (SAVE_BELOW, 0),
    (LAHF, 0),
    (SETO, KEPT),
    (SAVE_BELOW, KEPT),
    ("b8 ..", KEPT),
    ("f00fc10425 ..", KEPT),
    ("0fb7c0", FLAGS | CLAIMED),
    ("c70485 .. ..", FLAGS | CLAIMED),
    (LOAD_BELOW, FLAGS | CLAIMED | RECORDED),
    ("047f", FLAGS | RECORDED),
    ("9e", FLAGS | RECORDED),
    (LOAD_BELOW, KEPT | RECORDED),
]


def conditional(comparisons: int, adds: bool) -> Code:
    """A thread at the first comparison has its flags and rax."""
    tests = [("4881f8 ..", FLAGS), ("7500", FLAGS)] * comparisons
    tests[0] = ("4881f8 ..", KEPT)
    return [
        (SAVE, 0),
        (LAHF, 0),
        (SETO, KEPT),
        ("890425 ..", KEPT),
        ("488b0425 ..", KEPT),
        *tests,
        ("48ff0425 .." if adds else "c60425 .. 01", FLAGS),
        ("8b0425 ..", FLAGS | RECORDED),
        ("047f", FLAGS | RECORDED),
        ("9e", FLAGS | RECORDED),
        ("488b0425 ..", FLAGS | RECORDED),
    ]


def in_threads(registers: list[str], adds: bool) -> Code:
    """The flags stay in ah and al, so that rax is what is compared in memory."""
    tests: Code = []
    for register in registers:
        compare = "4881bc24 .. .." if register == "rax" else "4881f8 .."
        tests += [(compare, KEPT | (CHANGED if tests else 0)), ("7500", KEPT | CHANGED)]
    before, after = KEPT | (CHANGED if tests else 0), KEPT | CHANGED | RECORDED
    return [
        (SAVE_BELOW, 0),
        (LAHF, 0),
        (SETO, KEPT),
        *tests,
        ("f048ff0425 .." if adds else "c60425 .. 01", before),
        ("047f", after),
        ("9e", after | ADDED),
        (LOAD_BELOW, KEPT | RECORDED),
    ]


def length(code: str) -> int:
    return sum(4 if word == ".." else len(word) // 2 for word in code.split())


EVENTS = {
    ("cover", False): COVER,
    ("cover", True): COVER,
    ("count", False): COUNT,
    ("count", True): in_threads([], True),
    ("ring:7", False): RING,
    ("ring:65536", True): SHARED_RING,
    **{
        (f"{base} when {' and '.join(f'{register} == 5' for register in registers)}", for_threads): (
            in_threads(registers, base == "count") if for_threads else conditional(len(registers), base == "count")
        )
        for base in ("cover", "count")
        for registers in (["rdi"], ["rax"], ["rdi", "rsi"], ["rax", "rdi"], ["rdi", "rax", "r8"], ["rax"] * 3)
        for for_threads in (False, True)
    },
}


@pytest.mark.parametrize("event", EVENTS, ids=lambda event: f"{event[0]}{', threads' * event[1]}")
def test_each_instruction_of_an_event_has_what_is_undone_before_it(event):
    undo, at = undo_of(action_of(event[0]), event[1]), 0
    for code, wanted in EVENTS[event]:
        assert undo[at] == wanted, f"at byte {at}, before {code}: {undo[at]:#x}, not {wanted:#x}"
        at += length(code)
    assert len(undo) == at, "the event ends elsewhere"


@pytest.mark.parametrize("event", EVENTS, ids=lambda event: f"{event[0]}{', threads' * event[1]}")
def test_an_event_for_threads_has_recorded_behind_one_instruction(event):
    """That is where the judge of runs takes it as made."""
    at = 0
    for (code, before), (_, after) in zip(EVENTS[event], [*EVENTS[event][1:], ("", RECORDED)]):
        at += length(code)
        if event[1] and after & RECORDED and not before & RECORDED:
            assert recorded_at(action_of(event[0])) == at


def test_what_is_undone_has_the_numbers_that_the_runner_knows():
    assert [getattr(event_undo, name) for name in NAMES.split()] == [1 << number for number in range(7)]
    with open(f"{TOP}/native/vaknuhol-run/run.h", encoding="ascii") as file:
        told = match(r"enum \{ (RAX_IS_KEPT[^}]*) \}", file.read())[1]
    assert dict(re.findall(r"(\w+) = ([0-9]+)", told)) == {
        name: str(getattr(event_undo, name)) for name in NAMES.split()
    }
