"""Which blocks each source line has, copy by copy. A copy is a function with code, or an inlined call: the innermost
one around the code.

Of a function's first block, the line of its head has the count, and what stands with the opening brace belongs to no
line. The closing brace of a function that returns a value, of which only the way out is left, has no code either. Rows
of no length are traces of lines whose code was merged with that of others: such a line has the block there, or the one
before which it ends (`endings`), in the copy, going outwards, of the function whose head is the nearest above the line,
or else in an inlined call of that function whose code ends there.
"""
import array
import bisect
from collections.abc import Callable, Iterator, Sequence

from vaknuhol.program.blocks import Span
from vaknuhol.program.debug_info import ARTIFICIAL, INLINED, RETURNS_VALUE, DebugInfo
from vaknuhol.program.endings import Endings, Statement
from vaknuhol.program.frame_code import is_way_out
from vaknuhol.program.program_file import Program

Key = tuple[int, int]  # a file's number and a line
Blocks = dict[int, list[int]]  # by copies


class Copies:
    """By lines: `own`, the blocks with code of the line, `traces`, those where it has rows of no length, and `begins`,
    those in which a statement of it begins, or `late`, where one begins just after the code of its call; `first_line`
    and `last_line` have the copy and the line in which each block begins and ends. Files are those that are wanted;
    `others` tells, of a block from which control always goes on to another, what else leads there."""

    def __init__(self, info: DebugInfo, rows: Sequence[Span], program: Program, wanted: set[int],
                 others: Callable[[int, int], list[int] | None]) -> None:
        self.info, self.rows, self.program, self.wanted, self.others = info, rows, program, wanted, others
        self.firsts = array.array("Q", (row.first for row in rows))
        self.own: dict[Key, Blocks] = {}
        self.traces: dict[Key, Blocks] = {}
        self.begins: dict[Key, dict[int, set[int]]] = {}
        self.late: dict[Key, dict[int, set[int]]] = {}
        self.merged: set[Key] = set()  # lines with rows that have no copy to be counted in
        self.first_line: dict[int, tuple[int, Key]] = {}
        self.last_line: dict[int, tuple[int, Key]] = {}
        self.columns: dict[int, tuple[int, int]] = {}  # of the code with which each block begins and ends
        self.furthest: dict[tuple[int, int, int], int] = {}  # the last line that begins, by copy, file and block
        self.entries, self.heads = self.entry_blocks(), self.heads_of_files()
        self.braces = self.opening_braces()
        self.endings = Endings(info, {Statement(*place) for _, *place in self.braces})
        self.take_heads()
        self.take_pieces()
        self.take_points()

    def block_at(self, address: int) -> int | None:
        at = bisect.bisect_right(self.firsts, address) - 1
        return at if at >= 0 and address < self.rows[at].end else None

    def first_behind(self, address: int) -> int:
        """The first block that ends behind an address."""
        at = max(bisect.bisect_right(self.firsts, address) - 1, 0)
        while at < len(self.rows) and self.rows[at].end <= address:
            at += 1
        return at

    def line_within(self, block: int, copy: int) -> Key | None:
        """The line with which a block begins, as a copy has it: of a call that is inlined there, the call's."""
        return self.as_within(copy, *self.first_line.get(block, (0, (0, 0))))

    def last_within(self, block: int, copy: int) -> Key | None:
        """The line with which a block ends, as a copy has it."""
        return self.as_within(copy, *self.last_line.get(block, (0, (0, 0))))

    def as_within(self, copy: int, inner: int, key: Key) -> Key | None:
        info = self.info
        while inner and inner != copy:
            key, inner = (info.call_file[inner - 1], info.call_line[inner - 1]), info.parent[inner - 1]
        return key if inner else None

    def entry_blocks(self) -> dict[int, int]:
        """The first block of each function that begins with a block."""
        info, found = self.info, {}
        for instance in info.instances():
            block = None if info.kind[instance - 1] & INLINED else self.block_at(info.entry[instance - 1])
            if block is not None and self.firsts[block] == info.entry[instance - 1]:
                found[instance] = block
        return found

    def heads_of_files(self) -> dict[int, list[int]]:
        heads: dict[int, set[int]] = {}
        for file, line in zip(self.info.file, self.info.line):
            if line:
                heads.setdefault(file, set()).add(line)
        return {file: sorted(lines) for file, lines in heads.items()}

    def opening_braces(self) -> set[tuple[int, int, int, int]]:
        """Copy, file, line and column of the first row of each function."""
        info, found = self.info, set()
        for copy in self.entries:
            entry = info.entry[copy - 1]
            at = bisect.bisect_left(info.point_at, entry)
            if at < len(info.point_at) and info.point_at[at] == entry:
                found.add((copy, info.point_file[at], info.point_line[at], info.point_column[at]))
                continue
            at = bisect.bisect_right(info.piece_low, entry) - 1
            if at >= 0 and entry < info.piece_high[at]:
                found.add((copy, info.piece_file[at], info.piece_line[at], info.piece_column[at]))
        return found

    def is_artificial(self, copy: int) -> bool:
        """Whether a copy is, or was inlined in, a function that the compiler made."""
        info = self.info
        while copy and info.kind[copy - 1] & INLINED:
            copy = info.parent[copy - 1]
        return bool(copy and info.kind[copy - 1] & ARTIFICIAL)

    def holder(self, around: list[int], file: int, line: int) -> int:
        """The copy, of those around a place from the innermost on, to whose function a line belongs; 0 where none
        does."""
        info, heads = self.info, self.heads.get(file, [])
        at = bisect.bisect_right(heads, line) - 1
        return next((copy for copy in around if at >= 0 and info.file[copy - 1] == file
                     and info.line[copy - 1] == heads[at]), 0)

    def rightful(self, copy: int, address: int, key: Key) -> int:
        """The copy of code at an address: the innermost one around it whose function has the line, or the call that is
        entered there, or else the one whose code ends there, and has it; where none has, or the innermost is of a
        function that the compiler made, which has no line, the innermost."""
        if copy and self.info.kind[copy - 1] & ARTIFICIAL:
            return copy
        return (self.holder(self.info.chain(copy), *key) or self.holder(self.info.calls_at.get(address, []), *key)
                or self.holder(self.info.ended_at.get(address, []), *key) or copy)

    def take(self, table: dict[Key, Blocks], key: Key, copy: int, block: int) -> None:
        blocks = table.setdefault(key, {}).setdefault(copy, [])
        if not blocks or blocks[-1] != block:
            blocks.append(block)

    def begin(self, key: Key, copy: int, block: int) -> None:
        self.begins.setdefault(key, {}).setdefault(copy, set()).add(block)
        place = (copy, key[0], block)
        self.furthest[place] = max(self.furthest.get(place, 0), key[1])

    def end(self, key: Key, copy: int, block: int) -> None:
        self.late.setdefault(key, {}).setdefault(copy, set()).add(block)

    def take_heads(self) -> None:
        """The head of each function has its first block."""
        info = self.info
        for copy, block in sorted(self.entries.items(), key=lambda pair: pair[1]):
            key = (info.file[copy - 1], info.line[copy - 1])
            if key[1] and key[0] in self.wanted and not self.is_artificial(copy):
                self.take(self.own, key, copy, block)
                self.begin(key, copy, block)
                self.first_line[block] = (copy, key)

    def parts(self) -> Iterator[tuple[int, int, int, int]]:
        """Each piece of wanted files, cut where copies change and where blocks do: block, copy, its first address, and
        the piece."""
        info, rows = self.info, self.rows
        cuts, inner = info.innermost
        block = 0
        for piece, (low, high, file) in enumerate(zip(info.piece_low, info.piece_high, info.piece_file)):
            if file not in self.wanted or not info.piece_line[piece]:
                continue
            block = max(bisect.bisect_right(self.firsts, low) - 1, 0)
            while block < len(rows) and rows[block].first < high:
                at, end = max(low, rows[block].first), min(high, rows[block].end)
                cut = bisect.bisect_right(cuts, at)
                while at < end:
                    behind = min(cuts[cut], end) if cut < len(cuts) else end
                    yield block, inner[cut - 1] if cut else 0, at, piece
                    at, cut = behind, cut + 1
                block += 1

    def take_pieces(self) -> None:
        info = self.info
        for block, copy, at, piece in self.parts():
            key = (info.piece_file[piece], info.piece_line[piece])
            inner, copy = copy, self.rightful(copy, at, key)
            if self.is_artificial(copy) or (copy, *key, info.piece_column[piece]) in self.braces:
                continue
            if self.is_closing(block, copy, at, piece):
                continue
            self.take(self.own, key, copy, block)
            self.first_line.setdefault(block, (copy, key))
            self.last_line[block] = copy, key
            column = info.piece_column[piece]
            self.columns[block] = self.columns.get(block, (column, 0))[0], column
            if info.piece_begins[piece] and at == info.piece_low[piece]:
                if info.has_ended(copy, at):
                    self.end(key, copy, block)
                    copy = inner
                self.begin(key, copy, block)
                held = self.holder(info.chain(copy), *key)
                if held and held != copy:
                    self.begin(key, held, block)

    def is_closing(self, block: int, copy: int, at: int, piece: int) -> bool:
        """Whether the code is nothing but the way out of a function that returns a value."""
        info, behind = self.info, piece + 1
        if not copy or info.kind[copy - 1] & (INLINED | RETURNS_VALUE) != RETURNS_VALUE:
            return False
        line = info.piece_file[piece], info.piece_line[piece]
        while (behind < len(info.piece_low) and info.piece_low[behind] == info.piece_high[behind - 1]
               and (info.piece_file[behind], info.piece_line[behind]) == line):
            behind += 1
        end = min(info.piece_high[behind - 1], self.rows[block].end)
        return is_way_out(self.program.read(at, end - at))

    def take_points(self) -> None:
        """Rows of no length that begin a statement."""
        info = self.info
        for point, (at, file, line, column, begins, view) in enumerate(zip(
                info.point_at, info.point_file, info.point_line, info.point_column, info.point_begins,
                info.point_view)):
            if not begins or not line or file not in self.wanted:
                continue
            block = self.block_at(at)
            if block is None:
                continue
            inner, key = info.instance_at(at), (file, line)
            if self.is_artificial(inner) or (inner, file, line, column) in self.braces:
                continue
            held = self.holder(info.around(at, view), file, line)
            ended = 0 if held else self.holder(info.ended_at.get(at, []), file, line)
            if self.firsts[block] == at and self.is_end_of_last(block, held or ended, point):
                block, inner = block - 1, held or ended
            self.begin(key, inner, block)
            if held:
                self.take(self.traces, key, held, block)
                self.begin(key, held, block)
            elif ended:
                self.take(self.traces, key, ended, block)
                self.end(key, ended, block)
            else:
                self.merged.add(key)

    def is_end_of_last(self, block: int, copy: int, point: int) -> bool:
        """Whether a row of no length where a block begins is of a statement at the end of the block before, or of the
        first of a function, of which that has the beginning."""
        before, endings = block - 1, self.endings
        if not copy or before < 0 or self.rows[before].end != self.firsts[block]:
            return False
        others, line = self.others(before, block), self.last_within(before, copy)
        this = endings.of_point(point)
        if others is None or endings.code_at(self.firsts[block])[:2] == this[:2]:
            return False
        lines = [self.last_within(other, copy) for other in others]
        if line and line in lines or endings.is_head(point, lines):
            return False
        last = endings.last_with_code(point)
        is_first = not line and last in endings.first_rows and self.entries.get(copy) == before
        return is_first or line == this[:2] or bool(last and last[:2] == line)
