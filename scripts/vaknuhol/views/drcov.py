"""The executed blocks in the form of DynamoRIO's drcov (version 2 of the log, version 2 of its module table, as on
Linux).

A text head, and then for each block eight bytes: where it begins, from the program's first page on (4), its length (2),
and the number of its module (2), which is 0 here: a static program is one module.
"""
import os
import struct
from collections.abc import Iterator

from vaknuhol.recording.record_file import Row
from vaknuhol.views.coverage import Coverage

ENTRY, PAGE, LONGEST = struct.Struct("<IHH"), 0x1000, 0xFFFF
HEAD = """DRCOV VERSION: 2
DRCOV FLAVOR: drcov
Module Table: version 2, count 1
Columns: id, base, end, entry, path
  0, {base:#018x}, {end:#018x}, {entry:#018x}, {path}
BB Table: {count} bbs
"""


def parts_of(row: Row) -> Iterator[tuple[int, int]]:
    """A block's begin and length; one that is longer than the form allows is told in parts."""
    for at in range(row.first, row.end, LONGEST):
        yield at, min(LONGEST, row.end - at)


def log(coverage: Coverage) -> bytes:
    """The whole log."""
    base = coverage.program.base or min(start for start, _, _ in coverage.program.segments) // PAGE * PAGE
    end = -(-coverage.program.end // PAGE) * PAGE
    entries = [ENTRY.pack(at - base, length, 0) for row in coverage.record.rows if row.count for at,
               length in parts_of(row)]
    head = HEAD.format(base=base, end=end, entry=coverage.program.entry, path=os.path.realpath(coverage.path),
                       count=len(entries))
    return head.encode() + b"".join(entries)
