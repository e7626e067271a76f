"""Pages for a browser of a program without source lines: its functions with their counts, those that were executed
first, and for each of these a page with its disassembly, as objdump prints it, and the count of each block. The others
stand in a list. A page has only blocks that the record knows of, so with all blocks the whole function."""
import bisect
import html
import os
from collections.abc import Iterator

from vaknuhol.arguments import Refusal
from vaknuhol.messages import counted, progress
from vaknuhol.outputs import write_whole
from vaknuhol.program.binutils import disassembly
from vaknuhol.program.function_names import demangled
from vaknuhol.recording.record_file import Row
from vaknuhol.views.coverage import Coverage
from vaknuhol.views.page_style import SORTING, Cell, page, table

NEAR = 1 << 14  # as many bytes are disassembled in the time that another call of objdump takes
INDEX, WIDTH = "index.html", 14


class Function:
    """A function's name, and its blocks that the record knows of, by their addresses."""

    def __init__(self, first: int, name: str, rows: list[Row]) -> None:
        self.first, self.name, self.rows = first, name, rows
        self.known = [row.count for row in rows if row.count is not None]
        self.hit = sum(1 for count in self.known if count)
        self.left = len(rows) - len(self.known)
        self.greatest = max(self.known, default=0)

    def work(self, coverage: Coverage) -> int:
        """How many of its instructions were executed."""
        return sum(row.count * len(coverage.listing.between(row.first, row.end)) for row in self.rows if row.count)

    def file(self) -> str:
        return f"{self.first:08x}.html"


def functions_of(coverage: Coverage) -> list[Function]:
    """The functions in which the record's blocks are; without a name, from one address that is called to the next."""
    rows = sorted(coverage.record.rows, key=lambda row: row.first)
    firsts = sorted({*coverage.firsts, *(row.first for row in rows[:1])})
    found: dict[int, list[Row]] = {}
    for row in rows:
        found.setdefault(firsts[bisect.bisect(firsts, row.first) - 1], []).append(row)
    names = {first: coverage.functions.get(inside[0].first) or "" for first, inside in found.items()}
    plain = demangled(tuple(sorted({name for name in names.values() if name})))
    return [Function(first, plain.get(names[first], names[first]) or f"the function at {first:08x}", inside)
            for first, inside in found.items()]


def spans(functions: list[Function]) -> Iterator[tuple[int, int]]:
    """The code of functions in order: a span for those that stand near each other."""
    low = high = 0
    for function in functions:
        if function.rows[0].first > high + NEAR:
            if high:
                yield low, high
            low = function.rows[0].first
        high = max(high, function.rows[-1].end)
    if high:
        yield low, high


def texts_of(path: str, functions: list[Function]) -> dict[int, str]:
    """The text of each instruction of these functions, for reading."""
    found = {}
    for low, high in spans(functions):
        for line in disassembly(path, low, high, "-dw"):
            addr, colon, text = line.partition(":\t")
            if colon:
                found[int(addr, 16)] = text
    return found


def block(row: Row, addresses: list[int], texts: dict[int, str]) -> str:
    """A block's lines, the first with its count."""
    kind = "unknown" if row.count is None else "hit" if row.count else "missed"
    left = f"left ({row.outcome})" if row.outcome else "left"
    count = left if row.count is None else str(row.count)
    lines = [f"  {addr:8x}  {html.escape(texts.get(addr, ''))}" for addr in addresses]
    between = "\n" + " " * WIDTH
    return f'<span class="{kind}"><span class="count">{count:>{WIDTH}}</span>{between.join(lines)}</span>'


def function_page(function: Function, coverage: Coverage, texts: dict[int, str]) -> str:
    lines, reached = [], function.first
    for row in function.rows:
        if row.first != reached:
            lines.append("")
        lines.append(block(row, coverage.listing.between(row.first, row.end), texts))
        reached = row.end
    return page(function.name, f'<p><a href="{INDEX}">all functions</a>; count, address, instruction</p>\n<pre>'
                + "\n".join(lines) + "</pre>")


def blocks_cell(function: Function) -> Cell:
    share = function.hit / len(function.known) if function.known else 0
    return Cell(f"{function.hit} of {len(function.known)}", share)


def left_cell(function: Function) -> Cell:
    return Cell(str(function.left or ""), function.left)


def of_executed(coverage: Coverage, functions: list[Function]) -> str:
    """The table of the executed functions; counts tell which share of all executed instructions each has."""
    rows, adds = [], coverage.record.action.adds
    work = {function.first: function.work(coverage) for function in functions}
    total = sum(work.values())
    for function in functions:
        share = work[function.first] / total if total else 0
        counts = [Cell(str(function.greatest), function.greatest), Cell(f"{100 * share:.2f} %", share)] if adds else []
        link = Cell(f'<a href="{function.file()}">{html.escape(function.name)}</a>')
        rows.append([*counts, blocks_cell(function), left_cell(function), link, Cell(f"{function.first:08x}")])
    of_counts = {"greatest count": True, "share of instructions": True} if adds else {}
    heads = {**of_counts, "blocks executed": True, "left": True, "function": False, "address": False}
    return table(heads, rows, next(iter(heads)))


def of_others(functions: list[Function]) -> str:
    rows = [[Cell(str(len(function.known)), len(function.known)), left_cell(function), Cell(html.escape(function.name)),
             Cell(f"{function.first:08x}")] for function in functions]
    return table({"blocks": True, "left": True, "function": False, "address": False}, rows, "blocks")


def index_page(coverage: Coverage, functions: list[Function]) -> str:
    executed = [function for function in functions if function.hit]
    others = [function for function in functions if not function.hit]
    hit, known = sum(it.hit for it in functions), sum(len(it.known) for it in functions)
    head = (f"<p>{hit} of {counted(known, 'block')} executed, in {len(executed)} of "
            f"{counted(len(functions), 'function')}; a click on a column's head sorts by it</p>\n")
    parts = [of_executed(coverage, executed)] if executed else []
    if others:
        parts.append(f"<h2>{counted(len(others), 'function')} of which no execution was recorded</h2>\n"
                     + of_others(others))
    return page(f"{os.path.basename(coverage.path)}, {coverage.record.action.name}",
                head + "\n".join(parts) + SORTING)


def write_code_pages(folder: str, coverage: Coverage) -> None:
    functions = functions_of(coverage)
    executed = [function for function in functions if function.hit]
    progress(f"disassembling {counted(len(executed), 'function')} of {coverage.path}")
    texts = texts_of(coverage.file, executed)
    progress(f"writing pages of {coverage.path}")
    pages = {function.file(): function_page(function, coverage, texts) for function in executed}
    try:
        os.makedirs(folder, exist_ok=True)
    except OSError as error:
        raise Refusal(f"{folder} can't be made: {error.strerror}") from None
    write_whole({os.path.join(folder, name): text
                 for name, text in {INDEX: index_page(coverage, functions), **pages}.items()})
    progress("")
