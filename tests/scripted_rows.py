"""Rows of world scripts: which texts are none (hostile_texts.txt), what the values, regions and answers of a script are seen to be,
and runs with and without deliveries, whose ends were worked out by hand."""
from collections.abc import Iterator
from struct import pack

from limit_files import REGISTERS, TEXT, ZEROS
from made_rows import Row, entry, file_of, read
from stepped_rows import GENERAL, Values, header, loads, told_state

TOP = (1 << 64) - 1
# the values of a script, and its lines: of each kind of region and of each kind of entry
GIVEN: Values = {name: number + 1 for number, name in enumerate(GENERAL)} | {"rsp": TOP // 2 - 7, "r15": TOP, "flags": 0xAD7, "fs": 0x1000, "gs": 0x2000}
VALUES = "".join(f"{name} {GIVEN[name]:016x}\n" for name in REGISTERS)
REGIONS = """zero 0000000000001000 0000000000002000 rw-
bytes 0000000000002000 r-- 0102
bytes 0000000000002002 r-x c3
zero 0000000000003000 0000000001003000 rwx
bytes fffffffffffffffe rw- aabb
"""
SYSTEM = """ask 0f05 -
set rax 0000000000000000
set rcx 00000000004010a0
set r11 0000000000000246
mem 0000000000001000 68
mem ffffffffffffffff 69
"""
NAMED, SECOND = "ask 488b0500000000 0000000000402000\n", "ask 0f05 -\nset flags 0000000000000003\nset gs 0000000000000001\n"
LAST = "ask 000102030405060708090a0b0c0d0e -\nmem 0000000000001ff0 00\n"
SCRIPT = "e9world 1\n" + VALUES + REGIONS + SYSTEM + NAMED + SECOND + LAST + "end\n"
# a script with three deliveries, the second of which writes nothing, and the third of which is due behind any step
FURTHER = "e9world 1\n" + VALUES + "zero 0000000000001000 0000000000002000 rw-\nask 0f05 -\nset rax 0000000000000000\nmem 0000000000001000 68\nend\n"
WRITES = "mem 00000000005ffff8 2a00000000000000\nmem 00000000005ffff8 2b\nmem ffffffffffffffff 69\n"
DUES = [f"due 0000000000000003\n{VALUES}rip 0000000000401009\n{WRITES}", f"due 0000000000000003\n{VALUES}rip 0000000000401000\n"]
SCENARIO = "e9world 2\n" + "".join(DUES) + f"due ffffffffffffffff\n{VALUES}rip ffffffffffffffff\n" + FURTHER
# texts that are cut off, and the line
CUT = [("", 1), ("e9world 1", 1), ("\n", 1), ("rax 0000000000000000\n", 1), ("e9world 1\n", 2), ("e9world 2", 1), ("e9world 2\n", 2)]

# where the code stands that looks at the regions of the script: apart from each of them
LOOKING = 0x2000000
# addresses, what may be done there, and the byte; none where nothing is held
HELD: list[tuple[int, str, int | None]] = [
    (0xFFF, "", None), (0x1000, "rw", 0), (0x1FFF, "rw", 0), (0x2000, "r", 1), (0x2001, "r", 2), (0x2002, "rx", 0xC3), (0x2003, "", None),
    (0x2FFF, "", None), (0x3000, "rwx", 0), (0x1002FFF, "rwx", 0), (0x1003000, "", None), (TOP - 2, "", None), (TOP - 1, "rw", 0xAA), (TOP, "rw", 0xBB),
]  # fmt: skip
# what then ends a run that was led to an address that can be executed: `ret`, `add [rax], al`, and one that is cut off
LED = {0x2002: TOP // 2 - 7, 0x3000: 1, 0x1002FFF: 0x1003000}


def changed(kind: str) -> Iterator[tuple[int, str, str]]:
    """Of the texts of a kind the line that is refused, what is put in the place of what."""
    for line in read("hostile_texts.txt").decode().splitlines():
        told, number, old, new = (word.encode().decode("unicode_escape") for word in line.split("|"))
        if told == kind:
            yield int(number), old, new


def looked_at(text: bytes, script: str, steps: int, stop: str, rip: int, values: Values, left: int) -> tuple[dict[str, bytes], int, bytes]:
    """A run of a text that stands apart from the script's regions: the files, the status and what is told."""
    front = bytearray(file_of(64, 1, text)[:64])
    front[24:32] = pack("<Q", LOOKING)
    file = (bytes(front) + entry(5, 0x1000, LOOKING, len(text))).ljust(0x1000, b"\0") + text
    return {"F": file, "S": b"", "W": script.encode()}, 8 if stop else 0, told_state(steps, stop, rip, values, left)


def refused(name: str, text: str, line: int) -> Row:
    files = {"F": header(TEXT), "S": b"", "W": text.encode()}
    return Row(f"script refused, {name}", b"step F S W 0".split(), files, 3, f"refused WORLD 1 BadScript {line}\n".encode())


def refused_scripts() -> Iterator[Row]:
    for kind, whole in (("script", SCRIPT), ("deliveries", SCENARIO)):
        for line, old, new in changed(kind):
            assert old in whole
            yield refused(f"{kind} {new!r} for {old!r}", whole.replace(old, new, 1), line)
    for text, line in CUT:
        yield refused(f"{text!r}", text, line)
    page = "5a" * 4096
    many = "e9world 1\n" + VALUES + "".join(f"bytes {place:016x} rwx 00\n" for place in range(0, 272, 16)) + "end\n"
    yield refused("seventeen regions", many, 37)
    yield refused("a region of 4,097 bytes", f"e9world 1\n{VALUES}bytes ffffffffffffe000 r-- {page}5a\nend\n", 21)
    yield refused("a write of 4,097 bytes", f"e9world 1\n{VALUES}ask 90 -\nmem ffffffffffffe000 {page}5a\nend\n", 22)


def accepted_scripts() -> Iterator[Row]:
    """Each value as it was given; at the limits; and a script of zeros."""
    page, front = "5a" * 4096, "e9world 1\n" + VALUES
    regions = "".join(f"bytes {place:016x} rwx 00\n" for place in range(0, 256, 16))
    scripts = [
        ("of each line", SCRIPT, 4, GIVEN),
        ("without a delivery", FURTHER, 1, GIVEN),
        ("sixteen regions", front + regions + "end\n", 0, GIVEN),
        ("a region of 4,096 bytes", f"{front}bytes fffffffffffff000 r-- {page}\nend\n", 0, GIVEN),
        ("a write of 4,096 bytes", f"{front}ask 90 -\nmem fffffffffffff000 {page}\nend\n", 1, GIVEN),
        ("of zeros", f"e9world 1\n{ZEROS}end\n", 0, {name: 2 * (name == "flags") for name in REGISTERS}),
    ]
    for name, script, left, values in scripts:
        files, status, told = looked_at(b"", script, 0, "", LOOKING, values, left)
        yield Row(f"script {name}", b"step F S W 0".split(), {**files, "F": header(LOOKING)}, status, told)
    told = told_state(0, "", LOOKING, GIVEN, 1).replace(b"stop", b"deliveries 0\nstop")
    yield Row("script with deliveries", b"step F S W 0".split(), {"F": header(LOOKING), "S": b"", "W": SCENARIO.encode()}, 0, told)


def region_rows() -> Iterator[Row]:
    """Whether each address of a script's regions can be read, written and executed, and what it holds."""
    for addr, perms, byte in HELD:
        named = b"\x04\x25" + pack("<I", addr & 0xFFFFFFFF)
        lacks = f"NoByte {addr:016x}"
        rax = {} if byte is None else {"rax": byte}
        files, status, told = looked_at(b"\x8a" + named, SCRIPT, int(bool(perms)), "" if perms else lacks, LOOKING + 7 * bool(perms), {**GIVEN, **rax}, 4)
        yield Row(f"script region read at {addr:x}", b"step F S W 1".split(), files, status, told)
        text, write = b"\xc6" + named + b"\x5a\x8a" + named, "w" in perms
        rip, rax = (LOOKING + 15, {"rax": 0x5A}) if write else (LOOKING, {})
        files, status, told = looked_at(text, SCRIPT, 2 * write, "" if write else lacks, rip, {**GIVEN, **rax}, 4)
        yield Row(f"script region written at {addr:x}", b"step F S W 2".split(), files, status, told)
        text = b"\xe9" + pack("<I", addr - LOOKING - 5 & 0xFFFFFFFF)
        lacks = f"NoByte {LED.get(addr, addr):016x}"
        files, status, told = looked_at(text, SCRIPT, 1, lacks, addr, GIVEN, 4)
        yield Row(f"script region executed at {addr:x}", b"step F S W 2".split(), files, status, told)


def answer_rows() -> Iterator[Row]:
    """What the first entry of a script and a later one give."""
    code, values, steps = loads([(0x1000, b"\x68")])
    code += b"\x48\x0f\xb6\x0c\x25\xff\xff\xff\xff"
    after = {**GIVEN, "rax": 0, "rcx": LOOKING + 2, "r11": 0x246}
    for made, rip, state in ((1, LOOKING + 2, after), (2 + steps, LOOKING + 2 + len(code), {**after, **values, "rcx": 0x69})):
        files, status, told = looked_at(b"\x0f\x05" + code, SCRIPT, made, "", rip, state, 3)
        yield Row(f"script answer, {made} steps", f"step F S W {made}".encode().split(), files, status, told)
    later = SCRIPT.replace(SYSTEM + NAMED, "")
    files, status, told = looked_at(b"\x0f\x05", later, 1, "", LOOKING + 2, {**GIVEN, "rcx": LOOKING + 2, "flags": 3, "gs": 1}, 1)
    yield Row("script answer of flags and a base", b"step F S W 1".split(), files, status, told)


def told_quiet(steps: int, stop: str, quiet: str, outside: int, rip: int, values: Values, left: int) -> bytes:
    """What `step` prints of a run from a listed start."""
    state = {name: values.get(name, 0) for name in REGISTERS}
    return told_state(steps, stop, rip, state, left).replace(b"quiet no\noutside 0", f"quiet {quiet}\noutside {outside}".encode())


# `mov eax, 1`, `mov rbx, [rsp]`, `nop`, `hlt`, with the starts; memory of eight bytes, and zeros below the text
MOVES, ITS_STARTS = b"\xb8\1\0\0\0\x48\x8b\x1c\x24\x90\xf4", b"401000\n401005\n401009\n40100a\n"
EIGHT, BELOW = "bytes 0000000000500000 rw- 0102030405060708\n", "zero 0000000000400f00 0000000000401000 rw-\n"
# starts, rsp, regions, how many steps are asked for and made, the stop, whether they are quiet, how many states are outside, where it stands, rbx
RUNS: list[tuple[bytes, int, str, int, int, str, str, int, int, int]] = [
    (ITS_STARTS, 0x500000, EIGHT, 0, 0, "", "yes", 1, TEXT, 0),
    (ITS_STARTS, 0x500000, EIGHT, 2, 2, "", "yes", 3, TEXT + 9, 0x0807060504030201),
    (ITS_STARTS, 0x500000, EIGHT, 7, 3, "Ending 000000000040100a", "yes", 4, TEXT + 10, 0x0807060504030201),
    # a read whose last bytes are those of a listed instruction isn't quiet
    (ITS_STARTS, 0x400FFC, BELOW, 1, 1, "", "yes", 2, TEXT + 5, 0),
    (ITS_STARTS, 0x400FFC, BELOW, 2, 2, "", "no", 3, TEXT + 9, 0x000001B800000000),
    # a read up to the first listed one is
    (ITS_STARTS, 0x400FF8, BELOW, 2, 2, "", "yes", 3, TEXT + 9, 0),
    # a start that isn't listed is no outside state, and the run isn't quiet
    (b"401000\n401009\n", 0x500000, EIGHT, 2, 2, "", "no", 2, TEXT + 9, 0x0807060504030201),
]
# regions, and the least one that meets a page of the text, if one does
MEETING: list[tuple[str, str]] = [
    ("zero 0000000000401800 0000000000401900 rw-\n", "0000000000401800"),
    ("zero 0000000000400fff 0000000000401001 rw-\n", "0000000000400fff"),
    (
        "zero 0000000000400000 0000000000400001 rw-\nzero 0000000000401ff0 0000000000401ff8 rw-\nzero 0000000000401fff 0000000000402001 rw-\n",
        "0000000000401ff0",
    ),
    ("zero 0000000000400fff 0000000000401000 rw-\n", ""),
    ("zero 0000000000402000 0000000000402001 rw-\n", ""),
]


def script_with(rsp: int, flags: int, lines: str) -> str:
    """A script of zeros but for two values, with these lines behind them."""
    values = {"rsp": rsp, "flags": flags}
    return "e9world 1\n" + "".join(f"{name} {values.get(name, 0):016x}\n" for name in REGISTERS) + lines + "end\n"


def runs_of_texts() -> Iterator[Row]:
    for starts, rsp, lines, most, steps, stop, quiet, outside, rip, rbx in RUNS:
        inputs = {"F": file_of(64, 1, MOVES), "S": starts, "W": script_with(rsp, 0, lines).encode()}
        told = told_quiet(steps, stop, quiet, outside, rip, {"rax": steps > 0, "rbx": rbx, "rsp": rsp}, 0)
        yield Row(f"run of {most} steps, rsp {rsp:x}, starts {len(starts)}", f"step F S W {most}".encode().split(), inputs, 8 if stop else 0, told)
    for lines, met in MEETING:
        inputs = {"F": file_of(64, 1, MOVES), "S": ITS_STARTS, "W": script_with(0, 0, lines).encode()}
        told = f"refused WORLD 2 RegionMeets {met}\n".encode() if met else told_quiet(0, "", "yes", 1, TEXT, {}, 0)
        yield Row(f"run of {lines.count(chr(10))} regions up to {lines.split()[-2]}", b"step F S W 0".split(), inputs, 3 if met else 0, told)
    answers = "ask 0f05 -\nset rax 0000000000000007\nmem 0000000000500000 2a\nask 0f05 -\n"
    script = script_with(0x500000, 0, "zero 0000000000500000 0000000000500008 rw-\n" + answers)
    code, values, steps = loads([(0x500000, b"\x2a" + bytes(7))])
    for text, starts, made, stop, state in (
        (b"\x0f\x05\x90\xf4", b"401000\n401002\n401003\n", 2, "Ending 0000000000401003", {"rax": 7}),
        (b"\x0f\x05\x90" + code, b"401000\n401002\n401003\n40100b\n", 2 + steps, "", values),
    ):
        state = {"rcx": TEXT + 2, "rsp": 0x500000, **state}
        inputs = {"F": file_of(64, 1, text), "S": starts, "W": script.encode()}
        most = 10 if stop else made
        told = told_quiet(made, stop, "yes", made + 1, TEXT + len(text) - (1 if stop else 0), state, 1)
        yield Row(f"run by an answer, {made} steps", f"step F S W {most}".encode().split(), inputs, 8 if stop else 0, told)


def store_rows() -> Iterator[Row]:
    """`call` of the next instruction, `pop rax`, `mov [rcx], ax`, and code that loads what they stored."""
    code, values, steps = loads([(0x600008, bytes.fromhex("0510400000000000")), (0x6000F0, bytes.fromhex("0510000000000000"))])
    given = {"rcx": 0x6000F0, "rsp": 0x600010, "flags": 0x202}
    lines = "".join(f"{name} {given.get(name, 0):016x}\n" for name in REGISTERS) + "zero 0000000000600000 0000000000600100 rw-\nend\n"
    inputs = {"F": file_of(64, 1, b"\xe8\0\0\0\0\x58\x66\x89\1" + code), "S": b"401000\n", "W": ("e9world 1\n" + lines).encode()}
    for made, state in ((3, {"rax": 0x401005}), (3 + steps, values)):
        told = told_quiet(made, "", "no", 1, TEXT + 9 + (len(code) if made > 3 else 0), {**given, **state}, 0)
        yield Row(f"run of stores, {made} steps", f"step F S W {made}".encode().split(), inputs, 0, told)


def scripted_rows() -> Iterator[Row]:
    for rows in (refused_scripts, accepted_scripts, region_rows, answer_rows, runs_of_texts, store_rows):
        yield from rows()
