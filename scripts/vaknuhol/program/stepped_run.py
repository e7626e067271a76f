"""What a run under single steps shows (native/vaknuhol-step), and which of it is an obstacle to patching."""
import os
import subprocess
import tempfile
from collections.abc import Iterator

from vaknuhol.arguments import Refusal
from vaknuhol.native import program as native_program
from vaknuhol.program.fitness import Finding, count_of
from vaknuhol.program.listing import Listing
from vaknuhol.program.listing_file import RESTARTED, kept_or_made
from vaknuhol.program.program_file import Program, read_text

STEPPER, SHOWN = "vaknuhol-step", 10
HIGHEST = 0x7FFF0000  # new code lies below it
PAGE = 4096


class SteppedRun:
    """The lines that the stepper writes, by their first words."""

    def __init__(self, program: str, words: list[str], steps: int, folder: str) -> None:
        with tempfile.TemporaryDirectory(prefix="vaknuhol.") as part, kept_or_made(program, folder) as path:
            told = os.path.join(part, "told")
            command = [native_program(STEPPER), path, str(steps), told, os.path.realpath(program), *words]
            done = subprocess.run(command, check=False)
            if done.returncode:
                raise Refusal(f"{program} can't be run under single steps here: {STEPPER} ended with {done.returncode}")
            self.lines = [line.split() for line in read_text(told).splitlines()]

    def rows(self, word: str) -> list[list[str]]:
        return [line[1:] for line in self.lines if line[0] == word]

    def ranges(self, word: str) -> list[tuple[int, int]]:
        return [(int(low, 16), int(high, 16)) for low, high in self.rows(word)]

    def summary(self) -> str:
        ended = self.rows("ended")
        return (f"run: {count_of(int(self.rows('steps')[0][0]), 'step')}, "
                + (f"ended with {ended[0][0]}" if ended else "then stopped (--steps 0 runs it whole)"))


def shown_text(rows: list[list[str]]) -> str:
    """The first of them, as addresses or ranges."""
    return " ".join("-".join(row) for row in rows[:SHOWN]) + (" .." if len(rows) > SHOWN else "")


def of_code(run: SteppedRun) -> Iterator[Finding]:
    """What was executed, or read as data."""
    unlisted, read = run.rows("unlisted"), run.rows("read")
    if unlisted:
        verb = "is" if len(unlisted) == 1 else "are"
        yield Finding(True, f"{count_of(len(unlisted), 'executed instruction')} {verb} not listed as code: "
                            f"{shown_text(unlisted)}")
    if read:
        yield Finding(True, f"listed code is read as data: {shown_text(read)}; a patched program reads other bytes "
                            "there")


def is_loaded(program: Program, low: int, high: int) -> bool:
    """Whether the pages from one on and below another are those of one of the program's segments."""
    spans = sorted((start, start + len(data)) for start, _, data in program.segments)
    spans[-1] = spans[-1][0], program.end
    return any(start // PAGE * PAGE <= low and high <= -(-end // PAGE) * PAGE for start, end in spans)


def of_memory(run: SteppedRun, listing: Listing) -> Iterator[Finding]:
    """Memory that the program maps at a fixed place outside of what is loaded of it."""
    for low, high in run.ranges("maps"):
        if low < HIGHEST and not is_loaded(listing.program, low, high):
            place = f"{low:08x}-{min(high, HIGHEST):08x}"
            yield Finding(True, f"it maps memory at {place} itself, where a patch may lie: patch_program.py --reserve "
                                f"{place} keeps new code out of it")


def of_threads(run: SteppedRun, threads: str) -> Iterator[Finding]:
    """A thread, or a process in the same memory, that the listing doesn't show."""
    shared = run.ranges("shares")
    if shared and not threads:
        yield Finding(True, f"it starts a thread, or a process in its own memory (at {shared[0][0]:x}), which isn't "
                            "seen without a run: --threads is meant for it")


def of_surprises(run: SteppedRun, listing: Listing) -> Iterator[Finding]:
    """Where it isn't right for a thread to stand in a trampoline."""
    traps, known = run.ranges("traps"), listing.ranges(RESTARTED)
    if traps:
        yield Finding(True, f"it steps itself by the trap flag (at {traps[0][0]:x}): a patched program that "
                            "runs without vaknuhol has other steps")
    for low, high in run.ranges("restarts"):
        if not any(span.low <= low and high <= span.high for span in known):
            yield Finding(True, f"the restartable sequence {low:x}-{high:x} (rseq) isn't seen without a run: choose no "
                                "blocks there (--within)")


def findings_of_run(run: SteppedRun, listing: Listing, threads: str) -> list[Finding]:
    return [*of_code(run), *of_memory(run, listing), *of_threads(run, threads), *of_surprises(run, listing)]
