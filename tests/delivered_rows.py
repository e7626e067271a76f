"""Rows of runs with deliveries, whose ends were worked out by hand: what comes upon a thread between steps, in which order, and where it
doesn't fit."""
from collections.abc import Iterator
from struct import pack
from typing import NamedTuple

from limit_files import REGISTERS, TEXT
from made_rows import Row, file_of
from scripted_rows import DUES, FURTHER, GIVEN, SCENARIO, script_with, told_quiet
from stepped_rows import Values, loads

# `lea rax, [rax+1]`, `lea rcx, [rcx+1]`, `hlt`; and a handler: `mov rdx, [rsp]`, `nop`, `hlt`
CODE = b"\x48\x8d\x40\x01\x48\x8d\x49\x01\xf4\x48\x8b\x14\x24\x90\xf4"
SITE, SECOND, LAST, HANDLER, RETURN, HANDLERS_LAST = TEXT, TEXT + 4, TEXT + 8, TEXT + 9, TEXT + 13, TEXT + 14
STARTS = [SITE, SECOND, LAST, HANDLER, RETURN, HANDLERS_LAST]
# where the stack's bytes end, where the frame of a handler begins, and the sixteen bytes of the stack
TOP, FRAME, STACK = 0x600000, 0x5FFFF8, "zero 00000000005ffff0 0000000000600000 rw-\n"
# code behind the handler that loads the frame and what is below it, and where its instructions begin and end
LOOKING, _, STEPS = loads([(FRAME, bytes(8)), (FRAME - 8, bytes(8))])
LOOKED = [TEXT + 15, TEXT + 23, TEXT + 31]


def coming(step: int, values: Values, rip: int, *writes: tuple[int, int]) -> str:
    """A delivery behind so many steps, with numbers of eight bytes that it writes."""
    state = {"rsp": TOP, "flags": 0x202, **values}
    lines = "".join(f"{name} {state.get(name, 0):016x}\n" for name in REGISTERS)
    written = "".join(f"mem {addr:016x} {pack('<Q', number).hex()}\n" for addr, number in writes)
    return f"due {step:016x}\n{lines}rip {rip:016x}\n{written}"


def entered(step: int, number: int, *writes: tuple[int, int], rip: int = HANDLER) -> str:
    """The handler is entered, with a number in its frame."""
    return coming(step, {"rsp": FRAME}, rip, *(writes or [(FRAME, number)]))


class Run(NamedTuple):
    """Deliveries, and how a run ends: steps that are asked for and made, deliveries made, the stop, where it stands, values, states
    outside; and the numbers in the frame and below it, where the run can go on to load them."""

    name: str
    dues: list[str]
    most: int
    steps: int
    made: int
    stop: str
    rip: int
    values: Values
    outside: int
    memory: tuple[int, int] | None = None
    quiet: str = "yes"
    starts: list[int] = STARTS


# the values of a thread that was in the handler, and of one that was not
INSIDE, ENDED = {"rsp": FRAME, "rdx": 0x2A}, {"rax": 1, "rcx": 1}
TWICE = [entered(0, 0x2A), coming(1, {}, SITE), entered(1, 0x2B), coming(2, {}, SITE)]
ENDING, HANDLERS_ENDING = f"Ending {LAST:016x}", f"Ending {HANDLERS_LAST:016x}"
RUNS = [
    # it returns and is entered again at the same step; the site runs when it has returned twice
    Run("the handler is entered twice", TWICE, 10, 4, 4, ENDING, LAST, ENDED, 5, (0x2B, 0)),
    Run("the handler is entered twice, two steps", TWICE, 2, 2, 3, "", RETURN, {"rsp": FRAME, "rdx": 0x2B}, 3, (0x2B, 0)),
    # of two at one step the later one counts
    Run("two at one step", [coming(1, {"rax": 5}, SITE), coming(1, {"rax": 7}, SECOND)], 10, 2, 2, ENDING, LAST, {"rax": 7, "rcx": 1}, 3, (0, 0)),
    Run("two turned round", [coming(1, {"rax": 7}, SECOND), coming(1, {"rax": 5}, SITE)], 10, 3, 2, ENDING, LAST, {"rax": 6, "rcx": 1}, 4, (0, 0)),
    Run("due behind the last step", [entered(2, 0x2A)], 2, 2, 0, "", LAST, ENDED, 3),
    Run("due, and one step more", [entered(2, 0x2A)], 3, 3, 1, "", RETURN, INSIDE, 4, (0x2A, 0)),
    Run("the run ends before it is due", [entered(3, 0x2A)], 10, 2, 0, ENDING, LAST, ENDED, 3),
    Run("due where the run would end", [entered(2, 0x2A)], 10, 4, 1, HANDLERS_ENDING, HANDLERS_LAST, INSIDE, 5, (0x2A, 0)),
    # the second write covers the upper half of the first
    Run(
        "writes in order",
        [entered(1, 0, (FRAME - 4, 0x1122334455667788), (FRAME, 0x2A))],
        2, 2, 1, "", RETURN, INSIDE, 3, (0x2A, 0x5566778800000000),
    ),
    # the second one doesn't fit: the first one stays made
    Run("second doesn't fit", [entered(0, 0x2A), coming(1, {}, HANDLER + 1)], 10, 1, 1, f"NoFit {HANDLER + 1:016x}", RETURN, INSIDE, 2),
]  # fmt: skip
# what doesn't fit behind one step, and the address: no listed start, a byte of the text, one that isn't there, one behind bytes that are
UNFIT = [
    ("leads to no start", entered(1, 0x2A, rip=SITE + 1), SITE + 1),
    ("writes the text", entered(1, 0, (LAST, 0)), LAST),
    ("writes behind the stack", entered(1, 0, (FRAME, 1), (TOP + 8, 1)), TOP + 8),
    ("writes past its end", entered(1, 0, (FRAME + 1, 1)), TOP),
]
RUNS += [
    Run(name, [due, coming(1, {}, SITE)], 10, 1, 0, f"NoFit {addr:016x}", SECOND, {"rax": 1}, 2) for name, due, addr in UNFIT
]  # fmt: skip
# the thread has to stand at a listed start, which is told before anything else that doesn't fit
UNLISTED = [start for start in STARTS if start != SECOND]
RUNS.append(
    Run("comes at no start", [entered(1, 0x2A, rip=SITE + 1)], 10, 1, 0, f"NoFit {SECOND:016x}", SECOND, {"rax": 1}, 1, None, "no", UNLISTED)
)


def row_of(run: Run, name: str) -> Row:
    listed = "".join(f"{start:x}\n" for start in run.starts).encode()
    script = "e9world 2\n" + "".join(run.dues) + script_with(TOP, 0x202, STACK)
    inputs = {"F": file_of(64, 1, CODE + LOOKING), "S": listed, "W": script.encode()}
    values = {"rsp": TOP, "flags": 0x202, **run.values}
    told = told_quiet(run.steps, run.stop, run.quiet, run.outside, run.rip, values, 0).replace(b"stop", b"deliveries %d\nstop" % run.made)
    return Row(f"deliveries, {name}", f"step F S W {run.most}".encode().split(), inputs, 8 if run.stop else 0, told)


def looked(run: Run, memory: tuple[int, int]) -> Run:
    """The same run, which a further delivery leads on to load the frame and what is below it."""
    dues, steps, outside = [*run.dues, coming(run.steps, {}, LOOKED[0])], run.steps + STEPS, run.outside + STEPS
    values = dict(zip(("rax", "rcx"), memory))
    return run._replace(dues=dues, most=steps, steps=steps, made=len(dues), stop="", rip=LOOKED[2], values=values, outside=outside, starts=STARTS + LOOKED)


def given_rows() -> Iterator[Row]:
    """The values of a delivery: the thread has them behind it."""
    held = "zero 0000000000001000 0000000000002000 rw-\n"
    more = held + "zero 00000000005ffff0 0000000000600000 rw-\nbytes ffffffffffffffff rw- 00\n"
    inputs = {"F": file_of(64, 1, b"\x90" * 16), "S": "".join(f"{TEXT + k:x}\n" for k in range(16)).encode()}
    for made, rip in ((1, TEXT + 10), (2, TEXT + 1)):
        due = "".join(DUES) if made == 2 else DUES[0] + DUES[1].replace("due 0000000000000003", "due 0000000000000004")
        script = SCENARIO.replace("".join(DUES), due).replace(FURTHER, FURTHER.replace(held, more))
        told = told_quiet(4, "", "yes", 5, rip, GIVEN, 1).replace(b"stop", b"deliveries %d\nstop" % made)
        yield Row(f"deliveries, values of {made}", b"step F S W 4".split(), {**inputs, "W": script.encode()}, 0, told)


def delivered_rows() -> Iterator[Row]:
    for run in RUNS:
        yield row_of(run, run.name)
        if run.memory:
            yield row_of(looked(run, run.memory), f"{run.name}: memory")
    yield from given_rows()
