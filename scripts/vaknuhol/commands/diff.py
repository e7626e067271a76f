"""Lists the blocks that were executed in one run only, by function and line, then the ten counts that changed most.
Blocks that only one of the records knows, since they were not chosen or were left in the other, are not compared."""
import argparse
import os
import sys
from collections.abc import Callable

from vaknuhol.arguments import Refusal
from vaknuhol.levels import Level, add_file
from vaknuhol.messages import counted, painted
from vaknuhol.recording.record_file import Row
from vaknuhol.recording.record_folder import record_at
from vaknuhol.views.coverage import Coverage, Place, namer

NAMES = {"diff": "compare two records of one program"}
STATUS = "exit status: 0 if the same blocks were executed, else 1; 2 if something is refused"
TEN = 10


def add_words(level: Level, name: str) -> None:
    add_file(level, "program", metavar="PROGRAM", help="the original")
    add_file(level, "old", metavar="OLD", help="a record, or a folder of records, which are added up")
    add_file(level, "new", metavar="NEW", help="the record, or folder, to compare it with")
    add_file(level, "--source", metavar="FOLDER", help="only lines of source files under this folder")


def print_places(title: str, rows: list[Row], where: dict[int, Place], names: Callable[[str], str]) -> None:
    """A line for each place, once, with how many of its blocks it is."""
    found: dict[str, int] = {}
    for row in rows:
        text = where[row.first].text(names)
        found[text] = found.get(text, 0) + 1
    if found:
        print(title)
    for text, blocks in found.items():
        print(f"  {text}" + (f" ({blocks} blocks)" if blocks > 1 else ""))


def print_changes(pairs: list[tuple[Row, Row]], where: dict[int, Place], names: Callable[[str], str]) -> None:
    """The counts that changed most, by their difference."""
    counts = [(old.count or 0, new.count or 0, old.first) for old, new in pairs]
    changed = sorted((change for change in counts if change[0] != change[1]),
                     key=lambda change: -abs(change[1] - change[0]))
    if changed:
        print(f"{counted(len(changed), 'count')} changed; by most:")
    for old, new, first in changed[:TEN]:
        print(f"{old:>12} -> {new:<12} {where[first].text(names)}")


def do(words: argparse.Namespace) -> int:
    old, new = record_at(words.old), record_at(words.new)
    if old.action.is_ring or new.action.is_ring:
        raise Refusal("a ring's record has no counts, so there is nothing to compare")
    coverage = Coverage(words.program, old, words.source)
    new.check_program(coverage.program, words.program)
    where = {row.first: place for row, place in coverage.places()}
    names = namer(where.values())
    others = {(row.first, row.end): row for row in new.rows if row.count is not None}
    pairs = [(row, others[row.first, row.end]) for row in old.rows if row.count is not None
             and (row.first, row.end) in others]
    lost = [a for a, b in pairs if a.count and not b.count]
    won = [a for a, b in pairs if b.count and not a.count]
    print(f"{counted(len(pairs), 'block is', 'blocks are')} known in both: {counted(len(lost), 'was', 'were')} "
          "executed in "
          f"{os.path.basename(words.old)} only, {len(won)} in {os.path.basename(words.new)} only")
    print_places(painted(f"only in {words.old}:", "red", sys.stdout), lost, where, names)
    print_places(painted(f"only in {words.new}:", "green", sys.stdout), won, where, names)
    if old.action.adds and new.action.adds:
        print_changes([(a, b) for a, b in pairs if a.count and b.count], where, names)
    return 1 if lost or won else 0
