"""What the runner is told of callers, by what readelf prints of .eh_frame."""
from vaknuhol.recording.call_frames import functions_of

PRINTED = """Contents of the .eh_frame section:


00000000 0000000000000014 00000000 CIE "zR" cf=1 df=-8 ra=16
   LOC           CFA      ra
0000000000000000 rsp+8    c-8

00000018 0000000000000010 0000001c FDE cie=00000000 pc=0000000000401640..0000000000401641

0000002c 0000000000000028 00000030 FDE cie=00000000 pc=0000000000401735..0000000000401779
   LOC           CFA      rbx   rbp   ra
0000000000401735 rsp+8    u     u     c-8
0000000000401736 rsp+16   u     c-16  c-8
0000000000401749 rbp+16   c-24  c-16  c-8
0000000000401750 r10+0    c-24  c-16  c-8
0000000000401751 exp      c-24  c-16  c-8

00000058 0000000000000014 00000000 CIE "zRS" cf=1 df=-8 ra=16
   LOC           CFA      rbp   ra
0000000000000000 rsp+160  exp   exp

00000070 0000000000000010 0000001c FDE cie=00000058 pc=000000000040177f..0000000000401789

00000084 ZERO terminator


"""


def test_rules_of_functions():
    functions = list(functions_of(PRINTED.splitlines()))
    assert functions == [
        (0x401640, 0x401641, [(0x401640, (7, 8, 0))]),
        (0x401735, 0x401779, [(0x401735, (7, 8, 0)), (0x401736, (7, 16, -16)), (0x401749, (6, 16, -16)),
                              (0x401750, (0, 0, 0)), (0x401751, (0, 0, 0))]),
        (0x40177F, 0x401789, [(0x40177F, (0, 0, 0))]),
    ]
