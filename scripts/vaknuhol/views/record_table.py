"""A record as a table: a line for each block, or for each of the last events of each process; a summary below."""
import os

from vaknuhol.recording.record_file import History, Record
from vaknuhol.recording.thread_use import thread_notes
from vaknuhol.views.coverage import Coverage
from vaknuhol.views.summary import left_summary


def print_table(coverage: Coverage) -> None:
    record = coverage.record
    of_condition = f"; executions where {record.action.condition}" if record.action.condition else ""
    print(f"{'first':>8} {'count':>10} {'site':>8}  function, file and line{of_condition}")
    for row, place in coverage.places():
        count, site = ("?" if row.count is None else row.count), ("left" if row.outcome or row.how or row.count is None
                                                                  else f"{row.site:08x}")
        why = ", ".join(reason for reason in (row.outcome, row.how) if reason)
        print(f"{row.first:08x} {count:>10} {site:>8}  {place.text(str, ' ')}" + (f" ({why})" if why else ""))


def print_history(history: History, coverage: Coverage) -> None:
    print(f"process {history.number}, {history.text()}: its last {len(history.rows)} executions of sites, oldest first")
    print(f"{'':>8} {'first':>8} {'site':>8}  function, file and line")
    for number, row in enumerate(history.rows, 1):
        if row:
            print(f"{number:>8} {row.first:08x} {row.site:08x}  {coverage.place_of_site(row).text(str, ' ')}")
        else:
            print(f"{number:>8} {'?':>8} {'?':>8}  something else wrote there")


def print_histories(coverage: Coverage, is_all: bool) -> None:
    """Those that a signal ended, where there are such; the others are counted."""
    record = coverage.record
    crashed = [history for history in record.histories if history.is_crash()]
    chosen = crashed if crashed and not is_all else record.histories
    for history in chosen:
        print_history(history, coverage)
    if len(chosen) < len(record.histories):
        print(f"processes that no signal ended: {len(record.histories) - len(chosen)} (--all shows them, too)")


def print_lines(coverage: Coverage) -> None:
    """One line for a file: how many lines were hit, missed, are unknown or have no code, and which."""
    for file, lines in coverage.files.items():
        known = [line.count for line in lines.values() if line.is_known()]
        hit = sum(1 for count in known if count)
        unknown = [str(number) for number, line in lines.items() if line.has_code and line.count is None]
        none = [str(number) for number, line in lines.items() if not line.has_code]
        print(f"{file}: {hit} lines hit, {len(known) - hit} missed"
              + (f", {len(unknown)} unknown ({' '.join(unknown)})" if unknown else "")
              + (f", {len(none)} without code ({' '.join(none)})" if none else ""))


def print_summary(record: Record) -> None:
    known = [row.count for row in record.rows if row.count is not None]
    condition = record.action.condition
    print(f"{sum(1 for count in known if count)} of {len(known)} blocks were executed"
          + (f" where {condition}" if condition else "")
          + (f", {left_summary(record)}" if record.left else ""))


def print_state(record: Record) -> None:
    if record.state == "running":
        print("this is the record so far: run_and_record.py was ended before the program")
    if not record.is_plain():
        print(f"it is {record.run_text()}")
    for line in thread_notes(record):
        print(line)


def print_runs(records: list[Record]) -> None:
    """A line for each record: how many of its blocks were executed, and the sum of their counts; of rings, how the
    processes ended."""
    for record in records:
        name = os.path.basename(record.path)
        if record.action.is_ring:
            print(f"{name}  {len(record.rows)} executions kept; processes ended: "
                  f"{', '.join(history.ended for history in record.histories)}")
            continue
        known = [row.count for row in record.rows if row.count is not None]
        executed = f"{sum(1 for count in known if count)} of {len(known)} blocks executed"
        print(f"{name}  {executed}" + (f", {sum(known)} times" if record.action.adds else "")
              + (f"; {record.processes} processes" if record.processes > 1 else "")
              + ("; so far" if record.state == "running" else ""))
