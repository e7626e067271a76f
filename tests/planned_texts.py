"""Short texts whose sites' outcomes and bytes were worked out by hand, in the order in which the sites have their turns."""
from typing import NamedTuple

from made_rows import cover_event
from short_files import TEXT, Site, Tramp, jumping

COVER = cover_event(0)  # the event of site 0 that covers


class Planned(NamedTuple):
    """A text, its starts, and what becomes of its sites in turn order."""

    why: str
    text: str
    starts: list[int]
    sites: list[Site]


PLANNED = [
    Planned(
        "mov rax, rbx; add rbx, rax",
        "4889d84801c39090",
        [0x401000, 0x401003],
        [jumping(TEXT, 0, 3, 0x1881005, COVER + bytes.fromhex("4889d8e9eeffb7fe"), b"\x48\x01")],
    ),
    Planned(
        "mov rax, rbx; mov rbx, rax; pop rbx: no other target is positive",
        "4889d84889c35b90",
        [0x401000, 0x401003],
        [
            Site(
                TEXT,
                0,
                "T1",
                [Tramp(0x5C03994F, TEXT, True, COVER + bytes.fromhex("4889d8e9a4763ca4"))],
                [(TEXT, b"\x40\x40\xe9")],
                [(0x401003, bytes.fromhex("4889c35b"))],
            )
        ],
    ),
    Planned("push rbp", "5590909090909090", [0x401000, 0x401001], [Site(TEXT, 0, "NoPlan")]),
    Planned(
        "mov eax, 60; mov edi, 7",
        "b83c000000bf07000000",
        [0x401000, 0x401005],
        [
            jumping(0x401005, 1, 5, 0x21000, cover_event(1) + bytes.fromhex("bf07000000e9f8ff3d00")),
            jumping(TEXT, 0, 5, 0x21012, COVER + bytes.fromhex("b83c000000e9e1ff3d00")),
        ],
    ),
    Planned(
        "je; lock cmpxchg [rbx], edx, which begins without its prefix a byte further",
        "7401f00fb11390",
        [0x401000, 0x401002, 0x401003, 0x401006],
        [
            Site(0x401003, 1, "Shared"),
            Site(
                TEXT,
                0,
                "T1",
                [Tramp(0x13F11FF6, TEXT, True, COVER + bytes.fromhex("0f84ffef4eece9f9ef4eec"))],
                [(TEXT, b"\x40\xe9")],
                [(0x401002, bytes.fromhex("f00fb113"))],
            ),
        ],
    ),
]
