"""Code that only leaves a function: registers are taken back from the frame, the frame is given up, and control
returns.

Read by bytes (Intel SDM volume 2): `pop`, `leave`, `add` to rsp, `mov` from below rbp, and `ret`, with which it ends.
"""

RET, LEAVE, POPS = (0xC3, 0xC2), 0xC9, range(0x58, 0x60)
ADD_8, ADD_32 = b"\x48\x83\xc4", b"\x48\x81\xc4"
FROM_RBP_8, FROM_RBP_32 = 0x45, 0x85


def next_at(code: bytes, at: int) -> int:
    """Where the instruction after that at a place begins, if it is one of a way out but for `ret`; else 0."""
    if code[at] in POPS or code[at] == LEAVE:
        return at + 1
    if code[at:at + 1] == b"\x41" and code[at + 1:at + 2] and code[at + 1] in POPS:
        return at + 2
    if code.startswith(ADD_8, at):
        return at + 4
    if code.startswith(ADD_32, at):
        return at + 7
    if code[at] in (0x48, 0x4C) and code[at + 1:at + 2] == b"\x8b" and len(code) > at + 3:
        form = code[at + 2] & 0xC7
        if form == FROM_RBP_8 and code[at + 3] > 0x7F:
            return at + 4
        if form == FROM_RBP_32 and len(code) > at + 6 and code[at + 6] > 0x7F:
            return at + 7
    return 0


def is_way_out(code: bytes) -> bool:
    """Whether all of the code is a way out, up to its `ret`."""
    at = 0
    while at < len(code):
        if code[at] in RET or code.startswith(b"\xf3\xc3", at):
            return at + (2 if code[at] == 0xF3 else 3 if code[at] == 0xC2 else 1) >= len(code)
        at = next_at(code, at)
        if not at:
            return False
    return False
