"""What a record shows of its program: functions and source lines with their counts, names as a reader knows them."""
import functools
import os
from collections.abc import Callable, Iterable, Iterator

from vaknuhol.messages import progress, warn
from vaknuhol.program import function_names
from vaknuhol.program.copies import Copies
from vaknuhol.program.debug_info import INLINED, debug_info
from vaknuhol.program.flow_graph import Graph, graph_of
from vaknuhol.program.listing import Listing
from vaknuhol.program.program_file import Program
from vaknuhol.program.source_lines import chosen_files
from vaknuhol.recording.kept_patches import folder_of
from vaknuhol.recording.record_file import Record, Row
from vaknuhol.recording.settling import recorded
from vaknuhol.views.flow_solving import Flow, InternalError, Solved
from vaknuhol.views.instances import Function, Instances
from vaknuhol.views.kept_counts import KeptCounts
from vaknuhol.views.line_counts import Line, LineCounts


class Place:
    """Where a block stands: its function, and the file and the line of its first code that has one; and of an inlined
    function the function that it was inlined in, and the line of the call."""
    __slots__ = ("function", "file", "line", "around", "call_line")

    def __init__(self, function: str, place: tuple[str, int] | None, around: str = "", call_line: int = 0) -> None:
        self.function, self.around, self.call_line = function, around, call_line
        self.file, self.line = place or ("", 0)

    def text(self, names: Callable[[str], str], gap: str = "  ") -> str:
        where = f"{gap}{os.path.basename(self.file)}:{self.line}" if self.line else ""
        line = f", line {self.call_line}" if self.call_line else ""
        call = f" (inlined in {names(self.around)}{line})" if self.around else ""
        return names(self.function) + where + call


class Coverage:
    """The record, with what its program's symbols and debugging information add. Lines are those of the program's own
    files, of files under a folder, or of all. Counts that were left are put in the rows where they follow from the
    others. The listing is kept in the folder, in place of PROGRAM.vak."""

    def __init__(self, program: str, record: Record, source: str | None = None, everything: bool = False,
                 folder: str | None = None) -> None:
        self.path, self.record = program, record
        folder = folder or folder_of(program)
        self.file = recorded(program, record, folder)  # other than the program's own where that is a static PIE
        self.program = Program(self.file)
        record.check_program(self.program, program)
        progress(f"reading {program}")
        self.listing = Listing(self.file, folder)
        self.functions = self.listing.function_names()
        self.firsts = {address for address, name in self.listing.functions if not name.startswith(".")}
        self.firsts |= self.listing.call_targets()
        progress(f"reading source lines of {program}")
        self.info = debug_info(self.file)
        self.wanted = chosen_files(self.info, source, everything)
        rows = [] if record.action.is_ring else record.rows
        progress(f"working out counts of {program}")
        self.flow = self.flow_of(rows)
        progress("")

    @functools.cached_property
    def copies(self) -> Copies:
        """Which blocks lines have. It is worked out where it is asked for, as all that follows from it."""
        progress(f"looking up source lines of {self.path}")
        rows = [] if self.record.action.is_ring else self.record.rows
        copies = Copies(self.info, rows, self.program, self.wanted, self.flow.others)
        progress("")
        return copies

    @functools.cached_property
    def instances(self) -> Instances:
        return Instances(self.copies, self.flow)

    @functools.cached_property
    def files(self) -> dict[str, dict[int, Line]]:
        """The lines of each file, by their numbers."""
        found = LineCounts(self.copies, self.flow, self.instances)
        progress(f"counting source lines of {self.path}")
        lines = found.lines()
        progress("")
        return lines

    def flow_of(self, rows: list[Row]) -> Flow:
        """The counts, and what follows from them; of a condition nothing does, since it holds at one block and not at
        the next. Where no line is wanted and no count is left, none is asked for."""
        counts = [row.count for row in rows]
        if self.record.action.is_ring or self.record.action.condition or not self.wanted and None not in counts:
            return Flow(Graph(len(rows), True), counts)
        solved = None if self.wanted or self.info.parent else self.kept.counts()
        if solved:
            return self.flow_of_kept(rows, solved)
        flow = self.solved()
        for number, how in flow.how.items():
            rows[number].count, rows[number].how = flow.counts[number], how
        return flow

    @staticmethod
    def flow_of_kept(rows: list[Row], solved: Solved) -> Flow:
        """What is kept of the counts; where no function is known by debugging information, nothing is asked of the
        ways between blocks."""
        for number, (count, how) in solved.counts.items():
            rows[number].count, rows[number].how = count, how
        flow = Flow(Graph(len(rows), True), [row.count for row in rows])
        flow.contradicted = solved.contradicted
        return flow

    @functools.cached_property
    def kept(self) -> KeptCounts:
        """What is kept of the counts as they were recorded: it is made before any is put in its row."""
        return KeptCounts(self.listing, self.record.rows, self.record.action.adds)

    def solved(self) -> Flow:
        """The counts, with those of all ways between blocks."""
        kept = self.kept.flow()
        if kept:
            return kept
        counts = list(self.kept.given)
        try:
            flow = Flow(graph_of(self.record.rows, self.program, self.listing), counts, not self.record.action.adds)
        except InternalError as error:
            warn(f"internal error: {error}, so no count is solved: please report it, with the program and the record")
            return Flow(Graph(len(counts), True), counts)
        self.kept.keep(flow)
        return flow

    @functools.cached_property
    def ways(self) -> Flow:
        """The counts of all ways between blocks, also where no line asks for them."""
        return self.flow if len(self.flow.graph.kind) else self.solved()

    def places(self, of_executed: bool = False) -> Iterator[tuple[Row, Place]]:
        """The place of each row, or of each block that was executed; of a ring, of each event."""
        if self.record.action.is_ring:
            yield from ((row, self.place_of_site(row)) for row in self.record.rows)
            return
        for number, row in enumerate(self.record.rows):
            if of_executed and not row.count:
                continue
            copy, key = self.copies.first_line.get(number, (0, None))
            place = (self.info.files[key[0]], key[1]) if key else None
            yield row, self.place(self.functions.get(row.first) or f"the block at {row.first:08x}", copy, place)

    def place(self, function: str, copy: int, place: tuple[str, int] | None) -> Place:
        """A place, of the symbol around it and of the innermost copy."""
        info = self.info
        if not place or not copy or not info.kind[copy - 1] & INLINED:
            return Place(function, place)
        parent = info.parent[copy - 1]
        around = info.name_of(parent) if parent and info.kind[parent - 1] & INLINED else function
        return Place(info.name_of(copy), place, around, info.call_line[copy - 1])

    def place_of_site(self, row: Row) -> Place:
        place = self.info.place_of(row.site)
        if place and place[0] not in {self.info.files[number] for number in self.wanted}:
            place = None
        return self.place(self.functions.get(row.site) or f"the block at {row.first:08x}",
                          self.info.instance_at(row.site), place)

    def names(self) -> Callable[[str], str]:
        """What turns the names of the program's functions into names as the source has them."""
        return function_names.namer({*(name for _, name in self.listing.functions),
                                     *(self.info.text_at(place) for place in set(self.info.name))})

    def known_lines(self) -> dict[str, dict[int, Line]]:
        """The lines of each file whose counts are known, by their numbers."""
        return {file: {number: line for number, line in lines.items() if line.is_known()} for file,
                lines in self.files.items()}

    def unknown_lines(self) -> dict[str, list[int]]:
        """The numbers of the lines of each file that have code, and of which nothing is known."""
        found = {file: [number for number, line in lines.items() if line.has_code and not line.is_known()] for file,
                 lines in self.files.items()}
        return {file: numbers for file, numbers in found.items() if numbers}

    @functools.cached_property
    def all_functions(self) -> list[Function]:
        return self.instances.functions()

    def file_functions(self) -> dict[str, dict[str, tuple[int, int]]]:
        """For each file its functions with line and count: those of which a count is known."""
        found: dict[str, dict[str, tuple[int, int]]] = {file: {} for file in self.files}
        for function in self.all_functions:
            if function.count is not None and function.file in found:
                found[function.file][function.name] = function.line, function.count
        return found


def namer(places: Iterable[Place]) -> Callable[[str], str]:
    """What turns the names of these places into names as the source has them."""
    return function_names.namer(name for place in places for name in (place.function, place.around) if name)
