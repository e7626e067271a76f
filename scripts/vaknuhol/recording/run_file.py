"""The run file of a patched file, which vaknuhol-run uses as it lies in memory (struct patch of
native/vaknuhol-run/run.h): the head of its records, its blocks, and its trampolines, so that a thread in one can be put
back to the original's instruction."""
import array
import contextlib
import itertools
import os
import struct
import tempfile
from collections.abc import Iterator

from vaknuhol.outputs import write_whole
from vaknuhol.program.settled import own_file
from vaknuhol.recording.actions import MOST_COMPARISONS, REGISTERS, SIGNS, Action
from vaknuhol.recording.call_frames import rules_of
from vaknuhol.recording.event_undo import undo_of
from vaknuhol.recording.original_headers import settled_front, told_to_original
from vaknuhol.recording.patch_files import Run, RunFiles
from vaknuhol.recording.patch_report import SCRATCH, WRITES, Report, outcome_counts
from vaknuhol.recording.record_file import line_of
from vaknuhol.recording.record_head import NOT_KNOWN, head_text
from vaknuhol.recording.thread_use import MEANT, SHARING

MARK, ENDING, PAGE = b"vakrun 7\n", "run", 4096
FRONT = struct.Struct("<16s512s")
BODY = struct.Struct(f"<128s512s12I6Q{MOST_COMPARISONS * 'IIQ'}80s")
COVERED = struct.Struct("<IB11s")
COVER, COUNT, RING = range(3)
LEFT, PLAIN, NOWHERE = 0xFFFFFFFF, 0xFFFFFFFF, 0xFFFFFFFE
MOST_TRAMPOLINE, ROW_BYTES, TRAMP_BYTES, RULE_BYTES = 128, 8, 12, 24
THREAD = ("warning: the program starts a thread: its record may have too few events, "
          f"and since {SHARING}, it may go wrong or crash")


# where each begins and ends at the latest, the start that it stands for, and its number or PLAIN
Tramps = list[tuple[int, int, int, int]]


def tramps_of(report: Report) -> Tramps:
    """The trampolines of a patch. A short jump of T3 leads to a place inside its victim, which stands for the site,
    too."""
    found = [(place, place + MOST_TRAMPOLINE, start, PLAIN if number is None else number)
             for place, start, number in report.trampolines()]
    return found + [(place, place + 1, site, PLAIN) for place, site in report.short_jumps()]


def rows_of_tramps(tramps: Tramps) -> bytes:
    """The trampolines as they ascend, each up to the next one; what lies between two, and after the last one, is
    nowhere."""
    tramps, rows = sorted(tramps), array.array("I")
    for (place, end, start, number), (following, *_) in zip(tramps, [*tramps[1:], (1 << 32, 0, 0, 0)]):
        rows.extend((place, start, number))
        if end < following:
            rows.extend((end, 0, NOWHERE))
    return rows.tobytes()


def front_of(report: Report, run: Run) -> bytes:
    """How a run file of this patch begins: by its mark, and the head of its records."""
    head = head_text(run.action, run.program_hash, report.hash, report.for_threads, run.base)
    return FRONT.pack(MARK, head.encode())


def rows_of(report: Report, run: Run) -> tuple[bytes, str]:
    """The numbers of the blocks, each with the place of its line, and the lines of a record in which none was executed.
    Of a ring a number's row stands at that number."""
    rows, lines, at = array.array("I"), [], 0
    for first, end, site in run.blocks:
        number = report.patched.get(site, LEFT)
        count = report.left.get(site, NOT_KNOWN) if number == LEFT else 0
        rows.extend((number, at))
        lines.append(f"{line_of(first, end, site, count)}\n")
        at += len(lines[-1])
    if report.action.is_ring:
        places = dict(zip(rows[::2], rows[1::2]))
        rows = array.array("I", itertools.chain.from_iterable(
            (number, places[number]) if number in places else (LEFT, 0) for number in range(report.sites())))
    return rows.tobytes(), "".join(lines)


def left_line(report: Report, run: Run) -> str:
    """How many blocks were left, and why."""
    outcomes = [report.left.get(site) for _, _, site in run.blocks if site not in report.patched]
    return f"{len(outcomes)} {outcome_counts(outcomes)}".rstrip()


def covered_bytes(report: Report) -> bytes:
    """What stood in the original where the patch has other code, in pieces."""
    most, found = COVERED.size - 5, []
    for place, old, _ in WRITES.found(report.path, report.text):
        addr, code = int(place, 16), bytes.fromhex(old)
        found += [COVERED.pack(addr + at, len(piece), piece) for at in range(0, len(code), most)
                  for piece in [code[at:at + most]]]
    return b"".join(found)


def comparisons_of(action: Action) -> list[tuple[int, int, int]]:
    """The comparisons of a condition: register, sign and number."""
    return [(REGISTERS.index(comparison.register), list(SIGNS).index(comparison.name), comparison.number)
            for comparison in action.comparisons]


def table_of(report: Report, run: Run, patched: str) -> bytes:
    """The run file of a patched file."""
    action, length = report.action, report.record_place()[1]
    kind = RING if action.is_ring else COUNT if action.adds else COVER
    tramps = rows_of_tramps(tramps_of(report))
    undo, comparisons, (rows, lines) = undo_of(action, report.for_threads), comparisons_of(action), rows_of(report, run)
    rules = b""
    if action.is_ring and report.for_threads:
        rules = rules_of(own_file(patched, settled_front(report, patched)).path)
    covered = covered_bytes(report)
    warning = "" if report.for_threads else f"{THREAD}; {MEANT}"
    numbers = [kind, report.for_threads, action.slots, run.action.slots, report.sites(), len(undo),
               len(comparisons), len(rows) // ROW_BYTES, len(tramps) // TRAMP_BYTES, len(rules) // RULE_BYTES,
               len(covered) // COVERED.size, len(lines), report.private, -(-(SCRATCH + length) // PAGE) * PAGE, length,
               *told_to_original(report, patched)]
    for comparison in (*comparisons, *[(0, 0, 0)] * (MOST_COMPARISONS - len(comparisons))):
        numbers += comparison
    body = BODY.pack(left_line(report, run).encode(), warning.encode(), *numbers, undo)
    return b"".join((front_of(report, run), body, rows, tramps, rules, covered, lines.encode()))


def kept_table(files: RunFiles, report: Report, run: Run) -> str:
    """The path of the run file beside a kept patched file; it is written where none of this patch is there."""
    path, front = f"{files.stem}.{report.action.file_part}.{ENDING}", front_of(report, run)
    with contextlib.suppress(OSError), open(path, "rb") as file:
        if file.read(len(front)) == front:
            return path
    write_whole({path: table_of(report, run, files.patched)})
    return path


@contextlib.contextmanager
def passing_table(report: Report, run: Run, patched: str) -> Iterator[str]:
    """The path of a run file that is gone afterwards."""
    with tempfile.TemporaryDirectory(prefix="vaknuhol.") as folder:
        path = os.path.join(folder, ENDING)
        write_whole({path: table_of(report, run, patched)})
        yield path
