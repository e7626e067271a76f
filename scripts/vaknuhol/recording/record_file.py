"""The record of a run: which blocks were executed, or how often, or last, and of which report and program that is told.

    vakrecord 1
    action count
    program HASH            of the original's code, or - where patch_program.py didn't write the report
    report HASH             of the report
    for threads             where it was a patch for threads; else there is no such line
    base 7ff38000           where the program is a static PIE: the base at which it was patched
    in part                 where it is a sum of records that don't count the same blocks; else there is no such line
    state ended             or `running`: what was recorded until then
    processes 3 threads 0 execs 1
                            and `unrecorded 1`, where no memory could be had for the record of so many processes, and
                            `lost 1`, where so many replaced memory of the patch, and events of theirs may be missing
    00401136 00401150 0040113a 12
    00401150 00401158 00401150 Shared
    end

A block has its first address, its end, its site, and its count; in its place stands the site's outcome where the block
was left (`-` in records that tell no more). The record of a ring has a line for each event of each process in place of
these, oldest first; where threads share it and one crashes, up to the block where that stood:

    left 2 NoPlan 1 Shared 1
                            how many blocks were left, and with which outcomes of their sites
    process 1 signal 11     or `exit 0`; `exec`, where it started another program in its place; `running`
    00401136 00401150 0040113a
    -                       no site's number stood in the slot: something else wrote there
"""
import array
import re
import signal
from collections.abc import Iterable, Iterator, Mapping
from typing import NamedTuple, Protocol

from vaknuhol.arguments import Refusal
from vaknuhol.outputs import write_whole
from vaknuhol.program.program_file import Program
from vaknuhol.recording.actions import Action, Ring
from vaknuhol.recording.patch_files import Run
from vaknuhol.recording.patch_report import LEFT, Report, outcome_counts
from vaknuhol.recording.record_head import HEAD, IN_PART, NOT_KNOWN, SEEN, RecordHead, head_text

LINE = re.compile(rf"^([0-9a-f]{{8}}) ([0-9a-f]{{8}}) ([0-9a-f]{{8}}) (?:([0-9]+)|{NOT_KNOWN}|({'|'.join(LEFT)}))$",
                  re.M)
ROW = "%08x %08x %08x %s"
LEFT_OF_RING = re.compile(r"left ([0-9]+) ?(.*)")
EVENT = re.compile(r"([0-9a-f]{8}) ([0-9a-f]{8}) ([0-9a-f]{8})")
PROCESS = re.compile(r"process ([0-9]+) (exit [0-9]+|signal [0-9]+|exec|running)")


class Recorded(Protocol):
    """What a record is written of: a patch, or a sum of records."""
    action: Action
    hash: str
    for_threads: bool
    base: int | None


class Row:
    """A block and its count; where the block was left, None and the outcome of its site, if that is told. `how` says by
    what the count of a left block is known."""
    __slots__ = ("first", "end", "site", "count", "outcome", "how")

    def __init__(self, first: int, end: int, site: int, count: int | None, outcome: str | None = None) -> None:
        self.first, self.end, self.site, self.count, self.outcome = first, end, site, count, outcome
        self.how: str | None = None

    def line(self) -> str:
        """Its line in a record."""
        return line_of(self.first, self.end, self.site, (self.outcome or NOT_KNOWN) if self.count is None
                       else self.count)


def signal_name(number: int) -> str:
    """A signal as signal(7) names it; one without a name by its number."""
    return next((known.name for known in signal.Signals if known == number), f"signal {number}")


class History:
    """The last events of a process, oldest first, as rows without counts, and how it ended."""

    def __init__(self, number: int, ended: str) -> None:
        self.number, self.ended = number, ended
        self.rows: list[Row | None] = []  # None where something else wrote there

    def is_crash(self) -> bool:
        return self.ended.startswith("signal")

    def is_exit(self) -> bool:
        return self.ended.startswith("exit")

    def text(self) -> str:
        """How the process ended, in words."""
        kind, _, number = self.ended.partition(" ")
        if self.is_crash():
            return f"which ended by {signal_name(int(number))}"
        if kind == "exit":
            return f"which ended with status {number}"
        return "which started another program" if kind == "exec" else "which was running"


def line_of(first: int, end: int, site: int, value: object) -> str:
    """The line of a block: its count, or why it was left."""
    return ROW % (first, end, site, value)


def counted(report: Report, run: Run, numbers: "array.array[int]") -> Iterator[str]:
    """What the counters of the patched sites, by their numbers, tell of each block."""
    counts, left = {site: numbers[number] for site, number in report.patched.items()}, report.left
    for first, end, site in run.blocks:
        yield line_of(first, end, site, counts[site] if site in counts else left.get(site, NOT_KNOWN))


class Space(NamedTuple):
    """An address space: its number, in the order in which they began, how it ended, and its ring by then."""
    number: int
    ended: str
    after: "array.array[int]"


def remembered(report: Report, run: Run, spaces: Iterable[Space]) -> Iterator[str]:
    """What the rings of address spaces have, in the order in which they ended."""
    blocks = {site: f"{first:08x} {end:08x} {site:08x}" for first, end, site in run.blocks}
    of_number = {number: blocks[site] for site, number in report.patched.items()}
    why = outcome_counts(report.left.get(site) for site in blocks if site not in report.patched)
    yield f"left {len(blocks) - len(of_number)} {why}".rstrip()
    for space in spaces:
        yield f"process {space.number} {space.ended}"
        events = Ring.events(space.after, run.action.slots)
        yield from (of_number.get(number, NOT_KNOWN) for number in events)


def record_rows(report: Report, run: Run, numbers: "array.array[int]", ended: str) -> Iterator[str]:
    """The lines of a record of what a patch recorded in one process."""
    return remembered(report, run,
                      [Space(1, ended, numbers)]) if report.action.is_ring else counted(report, run, numbers)


def write_record(path: str, report: Recorded, program_hash: str | None, rows: Iterable[str], state: str,
                 seen: Mapping[str, int], in_part: bool = False) -> None:
    """Writes a record of these lines."""
    counts = " ".join(f"{name} {number}" for name, number in seen.items() if number or name in SEEN[:3])
    head = head_text(report.action, program_hash, report.hash, report.for_threads, report.base)
    lines = (*[IN_PART] * in_part, f"state {state}", counts, *rows, "end")
    write_whole({path: f"{HEAD}\n{head}" + "".join(f"{line}\n" for line in lines)})


def matched(form: re.Pattern[str], line: str) -> re.Match[str]:
    """A line's match; ValueError where it has another form."""
    found = form.fullmatch(line)
    if not found:
        raise ValueError(line)
    return found


class Record(RecordHead):
    def __init__(self, path: str) -> None:
        super().__init__(path)
        self.take_body()

    @classmethod
    def of(cls, head: RecordHead) -> "Record":
        """The record whose head was read."""
        record = cls.__new__(cls)
        vars(record).update(vars(head))
        record.take_body()
        return record

    def take_body(self) -> None:
        self.left, self.why_left = 0, ""
        self.rows: list[Row] = []
        self.histories: list[History] = []
        if self.action.is_ring:
            self.take_events(self.body)
        else:
            self.take_rows(self.body)
        self.body = ""

    def take_rows(self, body: str) -> None:
        found = LINE.findall(body)
        if len(found) < body.count("\n"):
            raise self.no_record(next(line for line in body.splitlines() if not LINE.fullmatch(line)))
        self.take_over([Row(int(first, 16), int(end, 16), int(site, 16), int(count) if count else None, outcome or None)
                        for first, end, site, count, outcome in found])

    def take_over(self, rows: list[Row]) -> None:
        """Takes rows as its own, and what they tell of left blocks."""
        self.rows = rows
        outcomes = [row.outcome for row in self.rows if row.count is None]
        self.left, self.why_left = len(outcomes), outcome_counts(outcomes)

    def take_events(self, body: str) -> None:
        for line in body.splitlines():
            try:
                self.take_event(line)
            except (IndexError, ValueError):
                raise self.no_record(line) from None

    def take_event(self, line: str) -> None:
        process = PROCESS.fullmatch(line)
        if process:
            self.histories.append(History(int(process.group(1)), process.group(2)))
        elif line.startswith("left "):
            left, self.why_left = matched(LEFT_OF_RING, line).groups()
            self.left = int(left)
        elif line == NOT_KNOWN:
            self.histories[-1].rows.append(None)
        else:
            first, end, site = (int(word, 16) for word in matched(EVENT, line).groups())
            row = Row(first, end, site, None)
            self.histories[-1].rows.append(row)
            self.rows.append(row)

    def add_histories(self, other: "Record") -> None:
        """Takes over the histories of another record of a ring, numbered on."""
        for history in other.histories:
            history.number += self.processes
        self.histories += other.histories
        self.rows += other.rows
        for name in SEEN:
            setattr(self, name, getattr(self, name) + getattr(other, name))

    def left_text(self) -> str:
        """How many blocks were left, in words, and why, as far as that is told."""
        return f"{self.left} {'was' if self.left == 1 else 'were'} left" + (f" ({self.why_left})" if self.why_left
                                                                            else "")

    def is_of(self, program: Program) -> bool:
        """Whether these may be blocks of a program."""
        if self.program_hash == "-":
            return all(program.is_code(row.first) for row in self.rows)
        return program.code_hash == self.program_hash

    def check_program(self, program: Program, name: str) -> None:
        """Refuses every program but the one whose blocks these are."""
        if not self.is_of(program):
            raise Refusal(f"{self.path} is of another program: {name} is not the original that was patched")
