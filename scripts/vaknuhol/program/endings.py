"""Statements without code at the end of a block, as `break;` or `return;`.

The row of such a statement stands where the next block begins, to which other ways lead that don't come by it. It is
recognized by its place in the source: on the line with which the block before ends, or on the next one, in the same
column as the statement there.
"""
import bisect
from typing import NamedTuple

from vaknuhol.program.debug_info import DebugInfo


class Statement(NamedTuple):
    file: int
    line: int
    column: int

    def is_next(self, other: "Statement") -> bool:
        """Whether another statement stands behind this one."""
        return other == Statement(self.file, self.line + 1, self.column)


class Endings:
    """What stands around rows of no length, by their numbers; `first_rows` are those with which functions begin."""

    def __init__(self, info: DebugInfo, first_rows: set[Statement]) -> None:
        self.info, self.first_rows = info, first_rows

    def of_point(self, point: int) -> Statement:
        info = self.info
        return Statement(info.point_file[point], info.point_line[point], info.point_column[point])

    def of_piece(self, piece: int) -> Statement:
        info = self.info
        return Statement(info.piece_file[piece], info.piece_line[piece], info.piece_column[piece])

    def last_with_code(self, point: int) -> Statement | None:
        """The statement before a row of no length, or before those of its address, where each stands behind the other;
        None where one doesn't."""
        info, at, before = self.info, self.info.point_at[point], point - 1
        while before >= 0 and not (info.point_begins[before] and info.point_line[before]):
            before -= 1
        piece = bisect.bisect_left(info.piece_low, at) - 1
        while piece >= 0 and not info.piece_begins[piece]:
            piece -= 1
        is_point = before >= 0 and (piece < 0 or info.point_at[before] > info.piece_low[piece])
        if not is_point and piece < 0:
            return None
        last = self.of_point(before) if is_point else self.of_piece(piece)
        if not last.is_next(self.of_point(point)) and last not in self.first_rows:
            return None
        return self.last_with_code(before) if is_point and info.point_at[before] == at else last

    def behind(self, point: int) -> Statement:
        """What stands behind a row of no length: the next row at its address that is of another line, or the code."""
        info, at, line = self.info, self.info.point_at[point], self.info.point_line[point]
        while point < len(info.point_at) and info.point_at[point] == at:
            if info.point_line[point] != line:
                return self.of_point(point)
            point += 1
        return self.code_at(at)

    def code_at(self, address: int) -> Statement:
        return self.of_piece(max(bisect.bisect_right(self.info.piece_low, address) - 1, 0))

    def is_head(self, point: int, lines: list[tuple[int, int] | None]) -> bool:
        """Whether a statement is the head of a loop: what stands behind it is deeper, and other ways come from there or
        below."""
        this, behind = self.of_point(point), self.behind(point)
        is_deeper = behind.file == this.file and behind.line > this.line and behind.column > this.column
        return is_deeper and all(not it or it[0] != this.file or it[1] >= behind.line for it in lines)
