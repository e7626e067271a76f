#!/usr/bin/env python3
"""Writes a program whose trampolines lie on so many runs of pages: far_runs.py N PROGRAM STARTS SITES.

N times it has two bytes, five and nine: `mov eax, ecx`, which is the site; `add eax`, `push` or `mov eax` with a number
of four bytes; and a NOP. The jump at a site takes the next three bytes as they stand, so that 256 addresses of a page
of its own are all that it can reach. The program comes to each site once, and ends with status 0. N is at most 65,535, the
most runs that `load` takes.
"""
import struct
import sys

LOW, PLACE, MOST = 0x401000, 0x1000, 65535
FRONT = b"\x90" * 11  # no trampoline crosses a page's end: the address behind each jump is a multiple of 16
NOP = b"\x66\x0f\x1f\x84" + bytes(5)
END = b"\xb8\x3c\0\0\0\x31\xff\x0f\x05"  # exit(0)


def unit(number: int) -> bytes:
    opcode = (0x05, 0x68, 0xB8)[number % 3]
    return b"\x89\xc8" + bytes([opcode, number // 3 % 256, 1 + number // 768, 0, 0]) + NOP


def main() -> None:
    if len(sys.argv) != 5 or not sys.argv[1].isdigit() or int(sys.argv[1]) > MOST:
        sys.exit(__doc__)
    count = int(sys.argv[1])
    text = FRONT + b"".join(map(unit, range(count))) + END
    header = b"\x7fELF\2\1\1".ljust(16, b"\0")
    header += struct.pack("<HHIQQQIHHHHHH", 2, 62, 1, LOW, 64, 0, 0, 64, 56, 1, 0, 0, 0)
    entry = struct.pack("<IIQQQQQQ", 1, 5, PLACE, LOW, LOW, len(text), len(text), 0x1000)
    with open(sys.argv[2], "wb") as file:
        file.write((header + entry).ljust(PLACE, b"\0") + text)
    sites = [LOW + len(FRONT) + 16 * number for number in range(count)]
    with open(sys.argv[3], "w", encoding="ascii") as file:
        file.writelines(f"{site + k:x}\n" for site in sites for k in (0, 2, 7))
    with open(sys.argv[4], "w", encoding="ascii") as file:
        file.writelines(f"{site:x}\n" for site in sites)


if __name__ == "__main__":
    main()
