"""A run of patched files: one after the other, as if the program ran once, with one record."""
import contextlib
import os
import shutil
import tempfile
from collections.abc import Callable, Iterator

from vaknuhol.messages import note
from vaknuhol.program.kernel import refuse_too_many
from vaknuhol.recording.kept_patches import Kept, Part
from vaknuhol.recording.record_file import Record
from vaknuhol.recording.record_sum import Sum
from vaknuhol.recording.run_file import kept_table
from vaknuhol.recording.runner import run_recorded

INPUT, OUTPUTS = 0, (1, 2)


@contextlib.contextmanager
def input_again() -> Iterator[Callable[[], object]]:
    """Lets each run read the same input: gives what goes back to its beginning. A terminal's can't be read again."""
    if os.isatty(INPUT):
        yield lambda: None
        return
    with tempfile.TemporaryFile() as copy:
        try:
            begin = os.lseek(INPUT, 0, os.SEEK_CUR)
        except OSError:
            with contextlib.suppress(OSError), open(INPUT, "rb", closefd=False) as given:
                shutil.copyfileobj(given, copy)
            copy.flush()
            os.dup2(copy.fileno(), INPUT)
            begin = 0
        yield lambda: os.lseek(INPUT, begin, os.SEEK_SET)


@contextlib.contextmanager
def silence() -> Iterator[None]:
    """What is printed in between goes nowhere."""
    kept = [os.dup(descriptor) for descriptor in OUTPUTS]
    null = os.open(os.devnull, os.O_WRONLY)
    try:
        for descriptor in OUTPUTS:
            os.dup2(null, descriptor)
        yield
    finally:
        for descriptor, former in zip(OUTPUTS, kept):
            os.dup2(former, descriptor)
            os.close(former)
        os.close(null)


def run_parts(parts: list[Part], command: list[str], record: str) -> tuple[int, Record | None]:
    """Makes the run once with each file, and adds up the records; the status of the first, and the record, if there is
    one."""
    halves = [f"{record}.{number}" for number in range(1, len(parts) + 1)]
    statuses: list[int] = []
    note(f"the blocks are in {len(parts)} patched files, so the program runs {len(parts)} times with the same "
         "arguments and input; what the later runs print is dropped")
    with input_again() as rewind:
        for part, half in zip(parts, halves):
            rewind()
            with silence() if statuses else contextlib.nullcontext():
                status, is_recorded = run_part(part, command, half)
            statuses.append(status)
            if not is_recorded:
                return statuses[0], None
    if len(set(statuses)) > 1:
        text = " ".join(str(status) for status in statuses)
        note(f"warning: the runs ended differently ({text}): the record is the sum of runs that were not the same")
    whole = Sum([Record(half) for half in halves], of_one_run=True)
    whole.write(record)
    for half in halves:
        os.remove(half)
    return statuses[0], whole.as_record(record)


def run_part(part: Part, command: list[str], record: str) -> tuple[int, bool]:
    """Runs one patched file; its status, and whether its record was written."""
    return run_recorded(kept_table(part.files, part.report, part.run), part.files.patched, command, record)


def run(kept: Kept, command: list[str], record: str) -> tuple[int, Record | None]:
    """Runs the patched files of a choice; the status with which the program ended, as shells have it, and the record,
    if there is one."""
    for part in kept.parts:
        if part.entries() > kept.runs_here:
            refuse_too_many(part.files.patched, part.entries(), kept.runs_here)
    if len(kept.parts) > 1:
        return run_parts(kept.parts, command, record)
    (part,) = kept.parts
    status, is_recorded = run_part(part, command, record)
    return status, Record(record) if is_recorded else None
