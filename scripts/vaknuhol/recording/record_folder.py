"""A folder of records, one for each run of a stand-in: their names begin with the time at which the run began, so the
oldest come first."""
import glob
import os
import re
from collections.abc import Iterator

from vaknuhol.arguments import Refusal
from vaknuhol.messages import counted, note, progress
from vaknuhol.recording.record_file import Record
from vaknuhol.recording.record_head import RecordHead
from vaknuhol.recording.record_sum import Sum

FOLDER, UNRECORDED, HALF = "records", "unrecorded", ".part"
ENDING = ".record"
OF_PROCESS = re.compile(r".*\.([0-9]+)\.part")


def paths_in(folder: str) -> list[str]:
    """The records of a folder, oldest first."""
    return sorted(glob.glob(f"{glob.escape(folder)}/*{ENDING}"))


def halves_in(folder: str) -> list[str]:
    """Records that were begun by runners that are gone."""
    found = []
    for path in glob.glob(f"{glob.escape(folder)}/*{ENDING}.*{HALF}"):
        process = OF_PROCESS.fullmatch(path)
        if process and not os.path.isdir(f"/proc/{process.group(1)}"):
            found.append(path)
    return found


def unrecorded_runs(folder: str) -> int:
    """How many runs were not recorded, as far as that is told."""
    try:
        with open(os.path.join(folder, UNRECORDED), encoding="utf-8", errors="replace") as file:
            return sum(1 for _ in file)
    except OSError:
        return 0


def expanded(paths: list[str]) -> list[str]:
    """Names of records, with those of a folder in its place."""
    found: list[str] = []
    for path in paths:
        inside = paths_in(path) if os.path.isdir(path) else [path]
        if not inside:
            raise Refusal(f"{path} has no record")
        found += inside
    return found


def in_one(paths: list[str], name: str) -> Record:
    """The records as one: counts are added up, and of rings each keeps its histories, which are numbered anew."""
    first = RecordHead(paths[0])
    if len(paths) > 1 and not first.action.is_ring:
        return Sum(heads_of(first, paths[1:])).as_record(name)
    record = Record.of(first)
    for other in map(Record, paths[1:]):
        Sum.compare(record, other)
        record.add_histories(other)
    return record


def heads_of(first: RecordHead, paths: list[str]) -> Iterator[RecordHead]:
    """The records of a sum, one after the other."""
    yield first
    for number, path in enumerate(paths, 2):
        progress(f"adding up {len(paths) + 1} records: {number}")
        yield RecordHead(path)
    progress("")


def sum_of(paths: list[str]) -> Sum:
    return Sum(heads_of(RecordHead(paths[0]), paths[1:]))


def record_at(path: str) -> Record:
    """The record of a name; of a folder, all of its records as one."""
    return in_one(expanded([path]), path)


def note_records(folder: str, records: int) -> None:
    """What stands in a folder that wasn't named."""
    missing = unrecorded_runs(folder)
    note(f"{counted(records, 'record')} of {folder}"
         + (f"; {counted(missing, 'run was', 'runs were')} not recorded ({os.path.join(folder, UNRECORDED)} says why)"
            if missing else ""))
