"""What is read of a program file."""
import struct

from vaknuhol.program.program_file import Program


def test_what_lies_in_two_segments_that_adjoin_is_read_as_one() -> None:
    """The code of an event may begin in one group of pages and end in another."""
    segments = [(0x401000, b"abc", 5), (0x401003, b"defg", 4)]
    table = b"".join(
        struct.pack("<IIQQQQQQ", 1, flags, 176 + number * 3, addr, addr, len(data), len(data), 1)
        for number, (addr, data, flags) in enumerate(segments)
    )
    head = b"\x7fELF\x02\x01\x01".ljust(16, b"\0") + struct.pack(
        "<HHIQQQIHHHHHH", 2, 62, 1, 0x401000, 64, 0, 0, 64, 56, len(segments), 0, 0, 0
    )
    with open("adjoining", "wb") as file:
        file.write(head + table + b"abcdefg")
    program = Program("adjoining")
    assert [program.read(0x401000 + at, 4) for at in range(9)] == [
        b"abcd",
        b"bcde",
        b"cdef",
        b"defg",
        b"efg",
        b"fg",
        b"g",
        b"",
        b"",
    ]
