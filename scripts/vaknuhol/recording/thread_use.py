"""Whether a program may start threads, by its symbols and by what its instructions hand to the kernel; and what is told
of threads where the patch is not one for them."""
import json
import os
import re
from collections.abc import Iterator

from vaknuhol.arguments import Refusal
from vaknuhol.messages import warn
from vaknuhol.outputs import write_whole
from vaknuhol.program.binutils import run
from vaknuhol.program.listing import Listing
from vaknuhol.program.listing_file import CLONE
from vaknuhol.program.program_file import Program, file_hash
from vaknuhol.program.settled import own_file
from vaknuhol.recording.block_choice import read_original
from vaknuhol.recording.record_file import Record

# What goes wrong in a program with threads: the events of all actions but cover save registers in the private range.
SHARING = "threads share what an event or a displaced call saves registers in"
KEPT = "threads.json"
STARTING = r"pthread_create(@.*)?|thrd_create"
MEANT = "--threads is meant for such a program"


def symbols(path: str) -> list[str]:
    try:
        return [line.split()[-1] for line in run("nm", "--defined-only", own_file(path).path) if line]
    except Refusal:
        return []


def threads_of(program: Program, listing: Listing) -> str:
    """What of the program starts threads, in words, or nothing."""
    names = sorted({name for name in symbols(program.path) if re.fullmatch(STARTING, name)})
    if names:
        return f"the function {names[0]}"
    clones = listing.ranges(CLONE)
    return (f"a call of clone for threads, or processes in one memory (its flags stand at {clones[0].low:08x})"
            if clones else "")


def started_by(path: str, folder: str) -> str:
    """What of the program starts threads, in words, or nothing: found once, and kept in the folder while the program is
    the same."""
    kept, program = os.path.join(folder, KEPT), file_hash(path)
    try:
        with open(kept, encoding="utf-8") as file:
            known = json.load(file)
        if known["program"] == program:
            return str(known["starts threads"])
    except (OSError, ValueError, KeyError, TypeError):
        pass
    started = threads_of(*read_original(path, folder))
    write_whole({kept: json.dumps({"program": program, "starts threads": started}, indent=1) + "\n"})
    return started


def warn_of_threads(program: Program, listing: Listing, name: str) -> None:
    """Tells of a program that may start threads, as it is patched."""
    started = threads_of(program, listing)
    if started:
        warn(f"{name} has {started}: {SHARING}, so the patched program may go wrong or crash; {MEANT}")


def thread_notes(record: Record) -> Iterator[str]:
    """A line on what threads may have lost, where they may have; a byte that cover sets stays. In a ring for them an
    event may be unfinished where the process didn't end by itself, and where one crashed the runner has cut it."""
    if record.threads and not record.for_threads and (record.action.is_ring or record.action.adds):
        yield f"several threads wrote this record, and what two do at once may be lost: {MEANT}"
    if record.threads and record.for_threads and any(not history.is_exit() for history in record.histories):
        yield ("several threads wrote this ring: where the runner saw one crash, it ends with the block in which that "
               "stood, as any of them executed it last, or if it isn't patched with its function or what called that; "
               "where one was ended between claiming a slot and filling it, an older event or none stands there")
