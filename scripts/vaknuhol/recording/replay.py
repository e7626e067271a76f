"""A recorded run made again by e9tool's `step`, of the original and of the patched file: whether the theorem's premises
hold, processor and model agree, original and patched file look alike. Each answer has its line in words.
"""
import subprocess
from collections.abc import Container
from typing import NamedTuple

from vaknuhol.arguments import Refusal
from vaknuhol.messages import progress
from vaknuhol.program.program_file import Program
from vaknuhol.recording.run_recorder import RecordedRun

MOST_STEPS, MOST_BETWEEN = 10_000_000, 24


class Stop(NamedTuple):
    """Where `step` stops: after how many steps, in how many outside states, and what it prints by name."""
    steps: int
    outside: int
    state: list[str]
    lines: dict[str, str]

    def differing(self, other: "Stop") -> list[str]:
        """The names of what another run has otherwise."""
        names = ("outside", "stop", "world", "deliveries")
        found = [name for name in names if self.lines.get(name) != other.lines.get(name)]
        return found + ["state"] * (self.state != other.state)


class Steps:
    """What `step` prints of a file under the recorded world, for a number of steps."""

    def __init__(self, e9tool: str, file: str, starts: str, world: str, name: str) -> None:
        self.words, self.name = [e9tool, "step", file, starts, world], name
        self.known: dict[int, Stop] = {}

    def after(self, count: int) -> Stop:
        if count not in self.known:
            progress(f"{self.name}: {count} steps")
            done = subprocess.run([*self.words, str(count)], capture_output=True, text=True, errors="replace")
            lines = done.stdout.splitlines()
            if done.returncode not in (0, 8) or not lines:
                raise Refusal(f"e9tool answers: {(done.stdout or done.stderr).strip() or done.returncode}")
            named = {name: value for name, _, value in (line.partition(" ") for line in lines)}
            state = lines[lines.index(f"rip {named['rip']}"):-1]
            self.known[count] = Stop(int(named["steps"]), int(named["outside"]), state, named)
        return self.known[count]


def first_loud(steps: Steps, last: int) -> int:
    """The least number of steps that are not quiet, if the last is not."""
    low, high = -1, last
    while high - low > 1:
        middle = (low + high) // 2
        low, high = (low, middle) if steps.after(middle).lines["quiet"] == "no" else (middle, high)
    return high


def bytes_at(path: str, addr: int) -> str:
    return Program(path).read(addr, 15).hex(" ") or "no byte of the file"


def why_loud(path: str, starts: Container[int], steps: Steps, record: RecordedRun, count: int) -> str:
    """What the step of this number does that a quiet run does not."""
    here, at = steps.after(count).lines["rip"], record.path.address(count) if count else 0
    if int(here, 16) not in starts:
        return f"step {count}{f', at {at:016x},' if count else ''} leads to {here}, which is no listed start"
    return f"step {count}, at {at:016x}, reads or writes a listed instruction as data ({bytes_at(path, at)})"


def why_stopped(path: str, stop: Stop) -> str:
    name, addr = stop.lines["stop"].split()
    if name == "NoFit":
        return f"delivery {int(stop.lines['deliveries']) + 1}, after step {stop.steps}, doesn't fit at {addr}"
    text = f"step {stop.steps + 1} is not made: {name} {addr}"
    if name == "UnknownInsn":
        code = bytes_at(path, int(addr, 16))
        text += f", bytes without a spelling ({code}{': EVEX' if code.startswith('62') else ''})"
    return text


def premises(path: str, starts: Container[int], steps: Steps, record: RecordedRun) -> tuple[int, str]:
    """For how many steps the premises hold, and the line that says so."""
    stop = steps.after(record.steps)
    if stop.lines["quiet"] == "no":
        loud = first_loud(steps, stop.steps)
        return loud - 1, f"premises: they hold for {loud - 1} steps; {why_loud(path, starts, steps, record, loud)}"
    if stop.steps < record.steps:
        return stop.steps, f"premises: they hold for {stop.steps} steps; {why_stopped(path, stop)}"
    return record.steps, "premises: they hold at each step (quiet yes)"


def agreement(steps: Steps, record: RecordedRun) -> tuple[bool, str]:
    """Whether the processor's states are the model's, at the end and at states between, and the line that says so."""
    made = steps.after(record.steps).steps
    counts = sorted(count for count in record.states if count <= made)
    points = sorted({counts[len(counts) * part // 4] for part in (1, 2, 3)} | {counts[-1]})
    wrong = [count for count in points if steps.after(count).state != record.states[count]]
    if not wrong:
        before = f"{len(points) - 1} state{'' if len(points) == 2 else 's'} before"
        return True, f"processor and model: they agree after {points[-1]} steps, and at {before}"
    low, high = 0, counts.index(wrong[0])
    while high - low > 1:
        middle = (low + high) // 2
        same = steps.after(counts[middle]).state == record.states[counts[middle]]
        low, high = (middle, high) if same else (low, middle)
    pairs = zip(steps.after(counts[high]).state, record.states[counts[high]])
    differs = "; ".join(f"{model}, by the processor {own.split()[1]}" for model, own in pairs if model != own)
    return False, f"processor and model: THEY DIFFER between steps {counts[low]} and {counts[high]}: {differs}"


def steps_to(patched: Steps, starts: Container[int], outside: int, guess: int = 0) -> int | None:
    """A number of steps after which the patched file stands at its outside state of this number; None where there is
    none.

    The first try is the guess; without one it is far enough for any: it mostly ends soon after the state, since there
    the world has no more answers.
    """
    low, high, guess, rate = outside - 2, MOST_STEPS + 1, guess or MOST_BETWEEN * outside, 1.5
    while high - low > 1:
        stop = patched.after(max(low + 1, min(guess, high - 1)))
        count, missing = stop.steps, outside - stop.outside
        if missing == 0 and int(stop.lines["rip"], 16) in starts:
            return count
        if missing > 0 and count <= low:
            return None
        if missing > 0:
            low = max(low, count + missing - 1)
        else:
            low, high = max(low, count + MOST_BETWEEN * (missing - 1)), min(count, high - 1)
        guess = int(count + missing * rate) if high - low > 64 else (low + high) // 2
        rate *= 1.5
    return None


def likeness(original: Steps, patched: Steps, starts: Container[int], quiet: int, guess: int,
             sites: tuple[int, int]) -> tuple[bool, str]:
    """Whether original and patched file look alike where the premises hold, and the line that says so; the guess is of
    the patched file's steps."""
    text, far = f"original and patched file ({sites[0]} of {sites[1]} sites patched): ", ""
    outside = original.after(quiet).outside
    made = steps_to(patched, starts, outside, guess)
    end = patched.after(MOST_STEPS) if made is None else None
    if end and end.steps < MOST_STEPS:
        return False, f"{text}THEY DIFFER: the patched file stops after {end.steps} steps, {end.lines['stop']}"
    if end:
        outside, far = end.outside, f", where the patched file is at most {MOST_STEPS} steps far"
        quiet, made = outside - 1, steps_to(patched, starts, outside)
    if made is None:
        return False, f"{text}THEY DIFFER: the patched file has no outside state {outside}"
    differs = original.after(quiet).differing(patched.after(made))
    if differs:
        return False, f"{text}THEY DIFFER after {quiet} and {made} steps, in {', '.join(differs)}{far}"
    return True, f"{text}they look alike after {quiet} steps of the original and {made} of the patched file{far}"


def likeness_at(original: Steps, patched: Steps, number: int, before: tuple[int, int],
                looks: str) -> tuple[bool, str]:
    """The same of the states to which a delivery comes, and the line that says both; so many steps both make before
    it."""
    differs = original.after(before[0]).differing(patched.after(before[1]))
    if differs:
        text = f"THEY DIFFER as delivery {number} comes, after {before[0]} and {before[1]} steps, in "
        return False, looks.partition("they look")[0] + text + ", ".join(differs)
    return True, f"{looks}, and as delivery {number} comes"
