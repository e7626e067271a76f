"""The summary of a record: a line for each file, what was left, the ten hottest places, or the last events of a
ring."""
import collections
import os
from collections.abc import Callable, Iterator

from vaknuhol.messages import counted, rated
from vaknuhol.program import function_names
from vaknuhol.recording.record_file import Record, Row
from vaknuhol.recording.thread_use import thread_notes
from vaknuhol.views.costs import Costs
from vaknuhol.views.coverage import Coverage, Place, namer
from vaknuhol.views.flow_solving import ASSUMED

TEN = 10


def percent(part: int, whole: int) -> str:
    return f"{100 * part / whole:.1f} %" if whole else "-"


def left_summary(record: Record) -> str:
    """How many blocks were left, and of how many of these the count follows from the others."""
    hows = collections.Counter(row.how for row in record.rows if row.how)
    known, unknown = hows.total(), record.left - hows.total()
    if not known:
        return f"{record.left_text()}: of these nothing is known"
    assumed = f" ({hows[ASSUMED]} if calls return)" if hows[ASSUMED] else ""
    return (f"{record.left_text()}: {counted(known, 'count')} {'follows' if known == 1 else 'follow'} from the "
            f"others{assumed}, "
            f"{unknown or 'none'} {'are' if unknown > 1 else 'is'} unknown")


def of_blocks(record: Record) -> Iterator[str]:
    """How many blocks were executed, and what is not known."""
    known = [row.count for row in record.rows if row.count is not None]
    hit = sum(1 for count in known if count)
    yield (f"{hit} of {counted(len(known), 'block')} {'was' if hit == 1 else 'were'} executed "
           f"({percent(hit, len(known))}), "
           + (left_summary(record) if record.left else "none was left"))


def of_files(coverage: Coverage) -> Iterator[str]:
    """A line for each file: lines with code, those that were executed, unknown ones where there are."""
    if not coverage.files:
        return
    yield f"{'lines':>8} {'executed':>8} {'':>8} file"
    for file, lines in sorted(coverage.files.items()):
        known = [line.count for line in lines.values() if line.is_known()]
        hit, none = sum(1 for count in known if count), sum(1 for line in lines.values() if not line.has_code)
        unknown = len(lines) - len(known) - none
        yield (f"{len(known):>8} {hit:>8} {rated(f'{percent(hit, len(known)):>8}', hit, len(known))} {shorter(file)}"
               + (f", {unknown} more are unknown, since their blocks were left" if unknown else "")
               + (f", {none} more have no code" if none else ""))


def shorter(file: str) -> str:
    """A file as seen from here, where it lies below."""
    seen = os.path.relpath(file)
    return file if seen.startswith("..") else seen


def of_functions(coverage: Coverage) -> Iterator[str]:
    """Where no lines are known: how many functions were entered, of those that have a name or are called."""
    if coverage.files:
        return
    known = [row.count for row in coverage.record.rows if row.first in coverage.firsts and row.count is not None]
    if known:
        hit = sum(1 for count in known if count)
        were = "was" if hit == 1 else "were"
        yield f"{hit} of {counted(len(known), 'function')} {were} entered ({percent(hit, len(known))})"


def of_hottest(coverage: Coverage, places: list[tuple[Row, Place]], names: Callable[[str], str]) -> Iterator[str]:
    """The ten of the executed places that were executed most often; of the program's own files, where these are
    known."""
    greatest: dict[str, int] = {}
    for row, place in places:
        if place.line or not coverage.files:
            text = place.text(names)
            greatest[text] = max(greatest.get(text, 0), row.count or 0)
    if not coverage.record.action.adds or not greatest:
        return
    shown = min(TEN, len(greatest))
    yield f"{'count':>12}  the {f'{shown} ' if shown > 1 else ''}hottest"
    for text, count in sorted(greatest.items(), key=lambda pair: -pair[1])[:TEN]:
        yield f"{count:>12}  {text}"


def of_instructions(coverage: Coverage) -> Iterator[str]:
    """The ten functions in which most instructions were executed; of blocks that are most of their functions."""
    if not coverage.record.action.adds or coverage.record.action.condition:
        return
    costs = Costs(coverage)
    found = costs.greatest()
    if not found or not costs.are_of_functions():
        return
    shown, names = min(TEN, len(found)), function_names.namer(costs.known.name(first) for first, _ in found[:TEN])
    yield (f"{'instructions':>12} {'share':>8}  the {f'{shown} functions' if shown > 1 else 'function'} with the most, "
           f"of {costs.total} instructions in all")
    for first, cost in found[:TEN]:
        yield f"{cost:>12} {percent(cost, costs.total):>8}  {names(costs.known.name(first))}"


def last_of(events: int) -> str:
    """Which of so many events are shown."""
    if events > TEN:
        return f"the last {TEN} of {events} events"
    return f"all {events} events" if events > 1 else "its only event" if events else "no event"


def of_ring(coverage: Coverage, names: Callable[[str], str]) -> Iterator[str]:
    """The last events of each process, the last one last; where a signal ended some, of these alone."""
    histories = coverage.record.histories
    for history in [history for history in histories if history.is_crash()] or histories:
        yield f"process {history.number}, {history.text()}: {last_of(len(history.rows))}"
        for row in history.rows[-TEN:]:
            yield "    " + (coverage.place_of_site(row).text(names) if row else "something else wrote there")
    if coverage.record.left:
        yield f"of the blocks {coverage.record.left_text()}: their executions are not among these"


def of_flow(coverage: Coverage) -> Iterator[str]:
    """Counts that can't all be those of whole executions."""
    blocks = len(coverage.flow.contradicted)
    if not blocks:
        return
    cause = ("the records that were added up don't count the same blocks" if coverage.record.in_part else
             "a signal or another thread's exit ended one in its middle")
    yield (f"the counts of {counted(blocks, 'block')} contradict those around, as where {cause}: nothing is solved "
           "by them")


def of_run(record: Record) -> Iterator[str]:
    """What of the run a reader must know."""
    if record.state == "running":
        yield "this is the record so far: the program has not ended, or its end was not recorded"
    if not record.is_plain():
        yield f"it is {record.run_text()}"
    yield from thread_notes(record)


def summary(coverage: Coverage) -> Iterator[str]:
    """The lines of the summary."""
    record, places = coverage.record, list(coverage.places(of_executed=True))
    names = namer(place for _, place in places)
    yield f"{os.path.basename(coverage.path)}, {record.action.name}"
    if record.action.is_ring:
        yield from of_ring(coverage, names)
    else:
        yield from of_blocks(record)
        yield from of_files(coverage)
        yield from of_functions(coverage)
        yield from of_hottest(coverage, places, names)
        yield from of_instructions(coverage)
    yield from of_flow(coverage)
    yield from of_run(record)
