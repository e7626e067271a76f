"""Which blocks of a line it is the furthest down of, by code and tables that are made up."""
import pytest

from tests.doubles import double
from vaknuhol.program.debug_info import INLINED
from vaknuhol.views.furthest_lines import ENDBR, FRAME, FurthestLines

FIRST = 0x1000
# A line with a jump to another line at its end, that line alone, an indirect jump of it, it before a line below, and
# both lines where no statement begins.
PARTS = [(0, 5, FRAME), (0, 7, b"\xeb\x00"), (1, 7, b"\x90" * 6), (2, 7, b"\xff\xe0"), (3, 7, b"\x90"),
         (3, 8, b"\x90"), (4, 5, b"\x90"), (4, 7, b"\x90")]
FURTHEST = {(1, 0, 0): 7, (1, 0, 3): 8, (2, 0, 0): 7, (2, 0, 3): 8}  # block 0 begins 5 and 7, and 3 both of its lines


def furthest(parts: list[tuple[int, int, bytes]]) -> FurthestLines:
    """Of blocks with parts of lines; copy 1 is the function, and copy 2 a call inlined in it."""
    low, high, rows, data = list[int](), list[int](), dict[int, tuple[int, int]](), b""
    for block, _, code in parts:
        low.append(FIRST + len(data))
        data += code
        high.append(FIRST + len(data))
        rows[block] = rows.get(block, (low[-1], 0))[0], high[-1]
    info = double(piece_low=low, piece_high=high, piece_file=[0] * len(low), piece_line=[line for _, line, _ in parts],
                  piece_column=[1] * len(low), kind=[0, INLINED], parent=[0, 1], entry=[FIRST, 0])
    program = double(read=lambda at, size: data[at - FIRST:at - FIRST + size])
    blocks = [double(first=at, end=end) for at, end in rows.values()]
    return FurthestLines(double(info=info, program=program, furthest=FURTHEST, rows=blocks))


@pytest.mark.parametrize("copy", [1, 2])
def test_a_line_has_the_blocks_that_no_line_below_it_begins_in(copy: int) -> None:
    """Those of it alone among them, but for an indirect jump."""
    lines = furthest(PARTS)
    assert lines.blocks((0, 7), copy, [0, 3], [0, 1, 2, 3, 4]) == [0, 1]
    assert lines.blocks((0, 5), copy, [0], [0]) == [] and lines.blocks((0, 8), copy, [3], [3]) == [3]


def test_where_only_jumps_are_left_a_line_has_none_of_these_blocks() -> None:
    assert furthest(PARTS).blocks((0, 7), 1, [0, 3], [0, 2, 3]) == []


@pytest.mark.parametrize(
    "code, is_whole",
    [(b"\xff\xe0", False), (b"\x3e\xff\xe0", False), (b"\xff\x24\xc5" + bytes(4), False), (b"\xff\xd0", True),
     (b"\xeb\x00", True), (b"\x90" * 9, True)],
)
def test_the_jump_that_tables_share_is_of_no_line(code: bytes, is_whole: bool) -> None:
    lines = furthest([*PARTS[:3], (2, 7, code)])
    assert lines.blocks((0, 7), 1, [0], [0, 1, 2]) == [0, 1, 2][:2 + is_whole]


@pytest.mark.parametrize(
    "head, is_framed", [(FRAME, True), (ENDBR + FRAME, True), (b"\x48" + FRAME, False), (ENDBR, False)]
)
def test_only_a_function_that_sets_up_its_frame_first_has_such_blocks(head: bytes, is_framed: bool) -> None:
    lines = furthest([(0, 5, head), *PARTS[1:]])
    assert lines.blocks((0, 7), 1, [0, 3], [0, 1, 3]) == [0, 1][:2 * is_framed]


def test_code_outside_of_functions_has_none() -> None:
    assert furthest(PARTS).blocks((0, 7), 0, [0], [0, 1]) == []
