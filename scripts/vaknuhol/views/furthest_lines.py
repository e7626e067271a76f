"""Blocks of which a line is the one furthest down in the source, as gcov counts each block on that line alone.

A statement over several lines leaves its first line for the next one and comes back: it isn't entered again there. Only
where no block is a line's by that rule, all blocks in which statements of it begin are. Where code was optimized,
blocks aren't those that gcov has: a function that sets up its frame first is taken for one that wasn't.
"""
import bisect
from collections.abc import Iterator

from vaknuhol.program.copies import Copies, Key
from vaknuhol.program.debug_info import INLINED

ENDBR, FRAME = b"\xf3\x0f\x1e\xfa", b"\x55\x48\x89\xe5"  # push %rbp; mov %rsp,%rbp
DIRECT, NOTRACK, INDIRECT, OF_JUMP, OPERATION = (0xe9, 0xeb), b"\x3e", 0xff, 0x20, 0x38
LONGEST_DIRECT, LONGEST = 5, 8  # bytes of a jump


class FurthestLines:
    def __init__(self, copies: Copies) -> None:
        self.copies, self.info = copies, copies.info
        self.framed: dict[int, bool] = {}  # by functions

    def blocks(self, key: Key, copy: int, begins: list[int], blocks: list[int]) -> list[int]:
        """Of the blocks of a line in a copy those of which it is the line furthest down: in which statements of it
        begin, or that are of it alone. None where all that is left of it there are jumps, as those into a loop."""
        if not self.is_framed(self.function_of(copy)):
            return []
        found = [block for block in blocks if self.copies.furthest.get((copy, key[0], block), 0) <= key[1]
                 and (block in begins or self.is_whole(key, block))]
        return found if any(not self.is_jump(*part) for block in found for part in self.parts(block, key)) else []

    def function_of(self, copy: int) -> int:
        """The function around a copy; 0 where there is none."""
        while copy and self.info.kind[copy - 1] & INLINED:
            copy = self.info.parent[copy - 1]
        return copy

    def is_framed(self, function: int) -> bool:
        """Whether a function sets up its frame first."""
        if function not in self.framed:
            code = self.copies.program.read(self.info.entry[function - 1], 8) if function else b""
            self.framed[function] = code.removeprefix(ENDBR).startswith(FRAME)
        return self.framed[function]

    def pieces(self, block: int) -> Iterator[tuple[int, int, int]]:
        """The pieces of a block's code, with where each begins and ends in it."""
        info, row = self.info, self.copies.rows[block]
        piece = max(bisect.bisect_right(info.piece_low, row.first) - 1, 0)
        while piece < len(info.piece_low) and info.piece_low[piece] < row.end:
            low, high = max(info.piece_low[piece], row.first), min(info.piece_high[piece], row.end)
            if low < high:
                yield piece, low, high
            piece += 1

    def parts(self, block: int, key: Key) -> list[tuple[int, int]]:
        """The code of a line in a block."""
        return [(low, high) for piece, low, high in self.pieces(block) if self.place(piece)[:2] == key]

    def place(self, piece: int) -> tuple[int, int, int]:
        return self.info.piece_file[piece], self.info.piece_line[piece], self.info.piece_column[piece]

    def is_jump(self, low: int, high: int) -> bool:
        """Whether code is nothing but a direct jump."""
        return high - low <= LONGEST_DIRECT and self.copies.program.read(low, 1)[0] in DIRECT

    def is_indirect(self, low: int, high: int) -> bool:
        """Whether code is nothing but an indirect jump."""
        code = self.copies.program.read(low, high - low).removeprefix(NOTRACK) if high - low <= LONGEST else b""
        return len(code) > 1 and code[0] == INDIRECT and code[1] & OPERATION == OF_JUMP

    def is_whole(self, key: Key, block: int) -> bool:
        """Whether a block is of a line alone; the indirect jump that the tables of a function share is of none."""
        row, pieces = self.copies.rows[block], self.pieces(block)
        return not self.is_indirect(row.first, row.end) and all(self.place(piece)[:2] == key for piece, _, _ in pieces)
