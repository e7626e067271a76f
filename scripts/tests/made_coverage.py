"""A record with what its program adds, made up: one file with two functions, three lines with branches, and names that
are trouble where a format has signs of its own."""
import os
import struct
from typing import Any

from tests.doubles import double
from vaknuhol.program.flow_graph import Graph
from vaknuhol.program.listing_file import FALLS
from vaknuhol.recording.actions import action_of
from vaknuhol.recording.record_file import History, Row
from vaknuhol.views.coverage import Place
from vaknuhol.views.flow_solving import Flow
from vaknuhol.views.instances import Function
from vaknuhol.views.line_counts import Line

FOLDER, NAME = "/made/a&b", 'x<y>&"z.c'
FILE = f"{FOLDER}/{NAME}"
LESS, OTHER = "less<int&>(\"a\")", "other"
BASE = 0x401000


def line(count: int | None, *branches: tuple[int, int], has_code: bool = True) -> Line:
    return Line(count, has_code, 1, list(branches))


# By number: executed; one way of a branch not gone; never come to; of two branches; unknown; without code
LINES = {
    3: line(7),
    4: line(7, (0, 7)),
    6: line(0, (0, 0)),
    7: line(9, (4, 5), (0, 9)),
    8: line(None),
    9: line(None, has_code=False),
}
KNOWN = {number: it for number, it in LINES.items() if it.is_known()}
FUNCTIONS = {LESS: (3, 7), OTHER: (6, 0)}
# first, end, count, outcome of the site: executed, never, left, executed most
BLOCKS = [
    (BASE, BASE + 8, 7, None),
    (BASE + 8, BASE + 0x10, 0, None),
    (BASE + 0x10, BASE + 0x14, None, "NoPlan"),
    (BASE + 0x14, BASE + 0x18, 9, None),
]


def rows_of(blocks: list[tuple[int, int, int | None, str | None]]) -> list[Row]:
    return [Row(first, end, first, count, outcome) for first, end, count, outcome in blocks]


def record_of(action: str = "count", blocks: Any = None, **more: Any) -> Any:
    rows = rows_of(BLOCKS if blocks is None else blocks)
    left = sum(1 for row in rows if row.count is None)
    given = {"processes": 1, "threads": 0, "execs": 0, "state": "ended", "for_threads": False, "histories": [],
             "in_part": False, **more}
    return double(
        action=action_of(action),
        rows=rows,
        left=left,
        left_text=lambda: f"{left} was left (NoPlan {left})",
        is_plain=lambda: (given["processes"], given["threads"], given["execs"]) == (1, 0, 0),
        run_text=lambda: f"of {given['processes']} processes",
        path="a.record",
        **given,
    )


def listing_of(instructions: Any = None, names: Any = None, firsts: Any = ()) -> Any:
    """A listing of instructions, each with address, size, kind and target, and of names by their addresses; functions
    begin at these, and elsewhere."""
    given = instructions or [(BASE + 4 * it, 4, FALLS, 0) for it in range(6)]
    addr, size, kind, target = (list(column) for column in zip(*given))
    functions = [(BASE, LESS), (BASE + 0x10, OTHER)] if names is None else names
    begins = sorted({*firsts, *(address for address, name in functions if not name.startswith("."))})
    return double(
        addr=addr,
        size=size,
        kind=kind,
        target=target,
        functions=functions,
        function_firsts=lambda: begins,
        file=double(held=[0] * len(addr), number=[0] * len(addr)),
        at=lambda address: addr.index(address) if address in addr else None,
    )


def function(name: str, number: int, count: int | None) -> Function:
    made = Function(name, FILE, number)
    made.count, made.called = count, count
    return made


def places_of(record: Any, files: dict[int, int]) -> Any:
    """The place of each row: its line by its first address."""

    def places(of_executed: bool = False):
        for row in record.rows:
            if row.count or not of_executed:
                name = LESS if row.first < BASE + 0x10 else OTHER
                yield row, Place(name, (FILE, files[row.first]) if row.first in files else None)

    return places


def coverage_of(record: Any = None, **more: Any) -> Any:
    """What the views are given."""
    record = record or record_of()
    rows, lines = getattr(record, "rows", []), {BASE: 3, BASE + 8: 4, BASE + 0x10: 6, BASE + 0x14: 7}
    given = {
        "path": "prog",
        "record": record,
        "files": {FILE: LINES},
        "known_lines": lambda: {FILE: KNOWN},
        "file_functions": lambda: {FILE: FUNCTIONS},
        "all_functions": [function(LESS, 3, 7), function(OTHER, 6, 0), function("unknown", 8, None)],
        "flow": double(contradicted=set()),
        "places": places_of(record, lines),
        "names": lambda: str,
        "firsts": {BASE, BASE + 0x10},
        "listing": listing_of(),
        "program": double(entry=BASE, segments=[]),
        "ways": Flow(Graph(len(rows), True), [row.count for row in rows]),
        **more,
    }
    return double(**given)


def write_elf(path: str, entry: int) -> None:
    """The head of an ELF file, which tells where the program is entered."""
    head = struct.pack("<16sHHIQQQIHHHHHH", b"\x7fELF\2\1\1", 2, 62, 1, entry, 64, 0, 0, 64, 56, 0, 0, 0, 0)
    with open(path, "wb") as file:
        file.write(head.ljust(128, b"\0"))
    os.chmod(path, 0o755)


def history(number: int, ended: str, events: int) -> History:
    """A ring of a process that ended so, with so many events."""
    made = History(number, ended)
    made.rows = [Row(BASE + at, BASE + at + 1, BASE + at, None) for at in range(events)]
    return made
