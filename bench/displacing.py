"""Lengths of instructions, and of the code that does a displaced one's work, by docs/reference/formats.md alone.

It shares nothing with the crates: the programs here ask it in place of them.
"""
from typing import NamedTuple, Optional

PREFIXES = {0x66, 0x67, 0xF0, 0xF2, 0xF3, 0x26, 0x2E, 0x36, 0x3E, 0x64, 0x65}
LONGEST, LOW_END = 15, 1 << 31


def spread(text: str) -> set[int]:
    """The numbers of `a-b c ..`."""
    ends = [[int(end, 16) for end in part.split("-")] for part in text.split()]
    return {n for part in ends for n in range(part[0], part[-1] + 1)}


# what follows an opcode byte, `m` for a ModRM byte, and the kind of immediate
ONE = {
    ("m", ""): "0-3 8-b 10-13 18-1b 20-23 28-2b 30-33 38-3b 63 84-8e 8f d0-d3 d8-df fe ff",
    ("", "I8"): "4 c 14 1c 24 2c 34 3c 6a a8 b0-b7 cd e4-e7 70-7f e0-e3 eb",
    ("", "Z"): "5 d 15 1d 25 2d 35 3d 68 a9",
    ("", ""): "50-5f 6c-6f 90-99 9b-9f a4-a7 aa-af c3 c9 cb cc cf d7 ec-ef f1 f4 f5 f8-fd",
    ("m", "Z"): "69 81 c7",
    ("m", "I8"): "6b 80 83 c0 c1 c6",
    ("", "Rel32"): "e8 e9",
    ("", "Moffs"): "a0-a3",
    ("", "V"): "b8-bf",
    ("", "I16"): "c2 ca",
    ("", "I16I8"): "c8",
    ("m", "Group8"): "f6",
    ("m", "GroupZ"): "f7",
}
TWO = {
    ("m", ""): "0-3 d 10-1f 28-2f 40-6f 74-76 7c-7f 90-9f a3 a5 ab ad-b8 bb-c1 c3 c7 d0-fe",
    ("m", "I8"): "70-73 a4 ac ba c2 c4-c6",
    ("", "Rel32"): "80-8f",
    ("", ""): "5-9 b 30-35 37 77 a0-a2 a8-aa c8-cf",
}
VEX_ONE = {("", ""): "77", ("m", "I8"): "70-73 c2 c4-c6", ("m", ""): "0-6f 74-76 78-c1 c3 c7-ff"}


Row = tuple[str, str]


def by_opcode(table: dict[Row, str]) -> dict[int, Row]:
    return {opcode: row for row, text in table.items() for opcode in spread(text)}


ALL = range(256)
MAPS: list[dict[int, Row]] = [by_opcode(ONE), by_opcode(TWO)]
MAPS += [dict.fromkeys(ALL, ("m", "")), dict.fromkeys(ALL, ("m", "I8"))]
MAPS += [by_opcode(VEX_ONE), dict.fromkeys(ALL, ("m", "")), dict.fromkeys(ALL, ("m", "I8"))]
NOT_WITH_66 = spread("70-7f c2 c3 e0-e3 e8 e9 eb")
ENDING = spread("6c-6f ca-cd cf e4-e7 ec-ef f1 f4 fa fb")
ENDING_TWO = spread("6-9 b 30 32 34 35 aa")


class Form(NamedTuple):
    """An instruction that was read."""

    length: int
    prefixes: frozenset[int]
    rex: int
    map: int
    opcode: int
    modrm: Optional[int]
    tail: int
    # of a RIP operand, and of a branch that tells where it leads
    disp: Optional[int]
    rel: Optional[int]

    @property
    def reg(self) -> int:
        return (self.modrm or 0) >> 3 & 7


def after_modrm(code: bytes, at: int) -> tuple[int, bool]:
    """Where the ModRM byte, the SIB byte and the displacement end, and whether that is of a RIP operand."""
    modrm = code[at]
    mod, rm, at = modrm >> 6, modrm & 7, at + 1
    if mod == 3:
        return at, False
    if rm == 4:
        base, at = code[at] & 7, at + 1
        return at + (4 if mod == 2 or mod == 0 and base == 5 else mod), False
    return at + (4 if mod == 2 or mod == 0 and rm == 5 else mod), mod == 0 and rm == 5


def immediate_size(kind: str, prefixes: frozenset[int], rex: int, reg: int) -> int:
    short = 2 if 0x66 in prefixes and not rex & 8 else 4
    sizes = {"": 0, "I8": 1, "I16": 2, "I16I8": 3, "Z": short, "V": 8 if rex & 8 else short, "Rel32": 4}
    sizes |= {"Moffs": 4 if 0x67 in prefixes else 8, "Group8": 1 if reg < 2 else 0, "GroupZ": short if reg < 2 else 0}
    return sizes[kind]


def opcode_at(code: bytes, at: int, prefixes: frozenset[int], rex: Optional[int]) -> Optional[tuple[int, int, int]]:
    """The map, the opcode and the place behind it; none where these bytes have no length."""
    byte = code[at]
    if byte in (0xC4, 0xC5):
        vex = 1 if byte == 0xC5 else code[at + 1] & 31
        if vex not in (1, 2, 3) or rex is not None or prefixes & {0x66, 0xF0, 0xF2, 0xF3} or has_rex(code[:at]):
            return None
        at += 2 if byte == 0xC5 else 3
        return vex + 3, code[at], at + 1
    if byte != 0x0F:
        return 0, byte, at + 1
    if code[at + 1] in (0x38, 0x3A):
        return 2 + (code[at + 1] == 0x3A), code[at + 2], at + 3
    return 1, code[at + 1], at + 2


def has_rex(codes: bytes) -> bool:
    return any(0x40 <= byte <= 0x4F for byte in codes)


def signed(code: bytes) -> int:
    return int.from_bytes(code, "little", signed=True)


def read(window: bytes) -> Optional[Form]:
    """The instruction at the front of these bytes; none where its length isn't known, or they end before it does."""
    try:
        form = read_whole(bytes(window[:LONGEST]))
    except IndexError:
        return None
    return form if form and form.length <= len(window[:LONGEST]) else None


def read_whole(code: bytes) -> Optional[Form]:
    at = 0
    while code[at] in PREFIXES or 0x40 <= code[at] <= 0x4F:
        at += 1
    prefixes, rex = frozenset(code[:at]) & PREFIXES, code[at - 1] if at and 0x40 <= code[at - 1] <= 0x4F else None
    found = opcode_at(code, at, prefixes, rex)
    if not found or found[1] not in MAPS[found[0]]:
        return None
    which, opcode, at = found
    takes, kind = MAPS[which][opcode]
    modrm, rip, first = None, False, at
    if takes:
        modrm = code[at]
        at, rip = after_modrm(code, at)
    reg, disp = (modrm or 0) >> 3 & 7, signed(code[at - 4:at]) if rip else None
    if which == 0 and opcode == 0x8F and reg:
        return None
    is_short = which == 0 and (opcode in NOT_WITH_66 or opcode == 0xFF and reg in (2, 4))
    branch = is_short or which == 1 and 0x80 <= opcode <= 0x8F
    if 0x66 in prefixes and branch:
        return None
    size = immediate_size(kind, prefixes, rex or 0, reg)
    leads = branch and (which == 1 or opcode not in (0xC2, 0xC3, 0xFF))
    rel = signed(code[at:at + size]) if leads else None
    return Form(at + size, prefixes, rex or 0, which, opcode, modrm, at - first, disp, rel)


def ends_a_run(form: Form) -> bool:
    """Whether it is of the instructions that end a run, but for branches."""
    few, (op, reg) = form.prefixes, (form.opcode, form.reg)
    if {0x64, 0x65} <= few or {0xF2, 0xF3} <= few or 0x67 in few and form.disp is not None:
        return True
    if form.map == 0:
        is_wrong = op in (0xC6, 0xC7) and reg != 0 or op == 0xFE and reg > 1
        return op in ENDING or is_wrong or op == 0xFF and reg in (3, 5, 7)
    return form.map == 1 and op in ENDING_TWO


def is_ending_branch(form: Form) -> bool:
    """Whether a branch has a prefix that makes it end a run."""
    few, op = form.prefixes, form.opcode
    if form.map == 0 and op == 0xFF:
        return bool(few & {0xF0, 0xF2, 0xF3})
    if form.map == 0 and op == 0xC3:
        return bool(few & {0xF0, 0xF2, 0x64, 0x65})
    return bool(few & {0xF0, 0xF2, 0xF3, 0x64, 0x65}) or form.map == 0 and op in (0xE0, 0xE1, 0xE2) and 0x67 in few


def work_length(form: Optional[Form], addr: int) -> Optional[int]:
    """Bytes of the code that does the work elsewhere, with a jump back if it falls through; none where no code does."""
    if form is None or ends_a_run(form):
        return None
    low = [(addr + form.length + far) % (1 << 64) < LOW_END for far in (form.disp, form.rel) if far is not None]
    if not all(low):
        return None
    op, own = form.opcode, form.length
    jcc = form.map == 0 and 0x70 <= op <= 0x7F or form.map == 1 and 0x80 <= op <= 0x8F
    through = form.map == 0 and op == 0xFF and form.reg in (2, 4)
    if jcc or through or form.map == 0 and op in NOT_WITH_66:
        if is_ending_branch(form) or form.map == 0 and 0xE0 <= op <= 0xE3:
            return None
        if jcc:
            return 6 + 5
        if through and form.reg == 2 and form.modrm is not None:
            return 36 + (3 if form.modrm >> 6 == 3 else 2 + form.tail + len(form.prefixes & {0x64, 0x65, 0x67}))
        return {0xE8: 10, 0xE9: 5, 0xEB: 5}.get(op, own)
    if form.map == 0 and (0xD8 <= op <= 0xDF or op == 0x9B) or form.map == 1 and op in (0x00, 0x01, 0xAE, 0xC7):
        return None
    is_0f05 = form.map == 1 and op == 5
    if is_0f05 and form.prefixes & {0xF2, 0xF3}:
        return None
    is_syscall = is_0f05 and 0xF0 not in form.prefixes
    return own + (5 if is_syscall else 0) + 5
