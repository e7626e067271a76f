"""The segments of a program file: what is code, what is loaded, and what it is known by."""
import struct

import pytest

from vaknuhol.arguments import Refusal
from vaknuhol.program.program_file import STAND_IN, Program

LOAD, DYNAMIC, INTERP, NOTE = 1, 2, 3, 4
READ, WRITE, EXECUTE = 4, 2, 1
Segment = tuple[int, int, int, bytes, int]  # kind, flags, address, bytes, how many more bytes of memory
CODE: Segment = (LOAD, READ | EXECUTE, 0x401000, b"code", 0)
DATA: Segment = (LOAD, READ | WRITE, 0x402000, b"data", 100)


def write(*segments: Segment, kind: int = 2, machine: int = 62, ident: bytes = b"\x7fELF\2\1\1", behind: bytes = b"") -> str:
    head = struct.pack("<16sHHIQQQIHHHHHH", ident, kind, machine, 1, 0x401000, 64, 0, 0, 64, 56, len(segments), 64, 0, 0)
    offset, table, body = 64 + 56 * len(segments), b"", b""
    for number, flags, addr, data, more in segments:
        table += struct.pack("<IIQQQQQQ", number, flags, offset + len(body), addr, addr, len(data), len(data) + more, 4096)
        body += data
    with open("prog", "wb") as file:
        file.write(head + table + body + behind)
    return "prog"


def test_code_is_what_may_be_executed_and_loaded_is_all(place):
    program = Program(write(DATA, CODE, (NOTE, READ, 0x1000, b"note", 0)))
    assert [program.is_code(addr) for addr in (0x400FFF, 0x401000, 0x401003, 0x401004, 0x402000)] == [False, True, True, False, False]
    assert [program.is_loaded(addr) for addr in (0x400FFF, 0x401000, 0x401004, 0x402003, 0x402004, 0x1000)] == [False, True, False, True, False, False]
    assert program.end == 0x402000 + 4 + 100 and program.read(0x401001, 2) == b"od" and program.read(0x401002, 9) == b"de"
    assert program.read(0x403000, 1) == b""


def test_bytes_in_segments_beside_each_other_are_read_together(place):
    program = Program(write(CODE, (LOAD, READ, 0x401004, b"more", 0)))
    assert program.read(0x401002, 4) == b"demo" and program.read(0x401000, 100) == b"codemore"


@pytest.mark.parametrize("limit, is_below", [(0x401000, False), (0x401001, True), (0x500000, True)])
def test_a_segment_is_below_a_limit_where_it_begins_there(place, limit, is_below):
    assert Program(write(CODE, DATA)).has_segment_below(limit) is is_below
    assert not Program(write((LOAD, READ, 0x1000, b"", 8), CODE)).has_segment_below(0x401000), "it has no byte of the file"


def test_a_program_is_known_by_its_code_alone(place):
    """By its bytes and its addresses, and by nothing else of the file."""
    known = Program(write(CODE, DATA)).code_hash
    assert known == Program(write(CODE, (LOAD, READ, 0x402000, b"DATA", 0))).code_hash == Program(write(CODE)).code_hash
    assert known != Program(write((LOAD, READ | EXECUTE, 0x401000, b"Code", 0))).code_hash
    assert known != Program(write((LOAD, READ | EXECUTE, 0x401010, b"code", 0))).code_hash
    assert known != Program(write(CODE, (LOAD, EXECUTE, 0x402000, b"data", 0))).code_hash


@pytest.mark.parametrize(
    "more, why",
    [
        ({"ident": b"\x7fELG\2\1\1"}, "is no ELF file"),
        ({"ident": b"\x7fELF\1\1\1"}, "is not for x86-64"),
        ({"ident": b"\x7fELF\2\2\1"}, "is not for x86-64"),
        ({"machine": 3}, "is not for x86-64"),
        ({"kind": 3}, "is position independent: e9tool settle"),
        ({"kind": 1}, "is an object file: link it with"),
        ({"kind": 4}, "is no program"),
        ({"behind": STAND_IN + b"/patched"}, "is a stand-in that vaknuhol wrap wrote"),
    ],
)
def test_what_is_no_such_program_is_refused(place, more, why):
    with pytest.raises(Refusal, match=why):
        Program(write(CODE, **more))


@pytest.mark.parametrize("kind", [DYNAMIC, INTERP])
def test_a_program_that_needs_a_loader_is_refused(place, kind):
    with pytest.raises(Refusal, match="is dynamic"):
        Program(write(CODE, (kind, READ, 0x402000, b"x", 0)))


def test_the_runner_itself_is_no_stand_in(place):
    """It has the mark, and no name behind it."""
    assert Program(write(CODE, behind=STAND_IN + bytes(8))).segments


def test_a_table_that_is_cut_off_is_refused(place):
    write(CODE)
    with open("prog", "r+b") as file:
        file.truncate(64 + 55)
    with pytest.raises(Refusal, match="cut off"):
        Program("prog")
