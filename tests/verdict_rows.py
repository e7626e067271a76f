"""Rows that tables give: what breaks each rule of a sound image, as `check` reports it, what keeps `step` from a step, and
scripts with deliveries."""
from collections.abc import Iterator
from struct import pack

from limit_files import PAGE, TEXT, TRAMP, due, script, told_run
from made_rows import ONE_MOV, Row, cover_event, entry, file_of, files_in

Files = dict[str, bytes]

# A sound patch of one instruction of five bytes, before two of one byte, and its report. The table of the written file is at
# 0x2000, and its four entries load the table, the private range, the code and the text.
FILES: Files = {**files_in(f"{ONE_MOV}/before"), **files_in(f"{ONE_MOV}/after")}
FILE, OUT, REPORT = FILES["F"], FILES["O"], FILES["R"].decode()
PRIVATE_BYTES, CODE = 3 * PAGE, 4 * PAGE
OF_TABLE, OF_PRIVATE, OF_CODE, OF_TEXT = (2 * PAGE + 56 * k for k in range(4))
# where a table entry has its permissions, its address, and its lengths in the file and in memory
PERMS, ADDRESS, LENGTHS = 4, 16, 32
# lines of the report
SITES, SITE, WRITE = "sites 1\n", "site 00401000 0 B1\n", "write 00401000 b83c000000 e9fbffc1ff\n"
EVENT, PRIVATE, ONE_PAGE = "tramp 00021000 00401000 event\n", "private 00020000 1\n", "page 00021000 0\n"


def out(*changes: tuple[int, bytes]) -> Files:
    """OUT with other bytes at some places."""
    data = bytearray(OUT)
    for at, changed in changes:
        data[at : at + len(changed)] = changed
    return {"O": bytes(data)}


def report(*changes: tuple[str, str]) -> Files:
    """REPORT with other lines."""
    text = REPORT
    for old, new in changes:
        assert text.count(old) == 1
        text = text.replace(old, new)
    return {"R": text.encode()}


def with_page(addr: int, perms: int) -> Files:
    """OUT with a fifth entry, which loads the page of the code at a further address."""
    entries = entry(perms, CODE, addr, PAGE) + entry(5, PAGE, TEXT, 7)
    return out((56, pack("<H", 5)), (OF_TEXT, entries))


def with_tramp(line: str) -> tuple[str, str]:
    """The site's lines with a second trampoline."""
    return SITE + EVENT, SITE.replace("B1", "T2") + EVENT + line


def plain_code(place: int) -> bytes:
    """The code of a trampoline of the site without an event."""
    return FILE[PAGE : PAGE + 5] + b"\xe9" + pack("<i", TEXT - place - 5)


# the code of a trampoline of the second instruction, with the site's event, 32 bytes after the site's trampoline
SECOND = cover_event(0) + b"\x90\xe9" + pack("<i", TEXT + 6 - (TRAMP + 32 + 14))
# both files where the second instruction ends a run
HALTS = {"F": FILE.replace(b"\x90", b"\xf4", 1), **out((PAGE + 5, b"\xf4"))}
LOW = "private 0001f000 2\n"
LOW_ENTRY = out((OF_PRIVATE + ADDRESS, pack("<QQQQ", 0x1F000, 0x1F000, PAGE, 2 * PAGE)))
ASCENDING = report(
    (SITES + SITE, "sites 2\n" + SITE.replace(" 0 ", " 1 ")), (ONE_PAGE, "site 00401005 0 NoPlan\n" + ONE_PAGE)
)

# what breaks a rule, the files then, and what `check` reports: the least address at which a rule fails, and the least rule there
UNSOUND: list[tuple[str, Files, str]] = [
    ("a byte isn't loaded", out((OF_TEXT + LENGTHS, pack("<QQ", 6, 6))), "00401006 1"),
    ("the text has other permissions", out((OF_TEXT + PERMS, b"\4")), "00401000 1"),
    ("another byte", out((0x1005, b"\xcc")), "00401005 1"),
    ("a write where the original loads nothing", report((WRITE, WRITE + "write 00401007 90 90\n")), "00401007 2"),
    ("another old byte", report((" b83c", " b83d")), "00401001 2"),
    ("another new byte", out((PAGE, FILE[PAGE : PAGE + 5])), "00401000 2"),
    ("a byte is written twice", report((WRITE, WRITE + "write 00401004 00 ff\n")), "00401004 2"),
    ("a byte of no site", report((WRITE, WRITE + "write 00401005 90 90\n")), "00401005 2"),
    ("a trampoline of no start", report(with_tramp("tramp 00021020 00400000 plain\n")), "00400000 3"),
    (
        "a trampoline of an instruction that can't be displaced",
        {**HALTS, **report(with_tramp("tramp 00021020 00401005 plain\n"))},
        "00401005 3",
    ),
    (
        "two trampolines of a start",
        {**out((CODE + 32, plain_code(TRAMP + 32))), **report(with_tramp("tramp 00021020 00401000 plain\n"))},
        "00401000 3",
    ),
    ("the jump leads elsewhere", out((PAGE, b"\xe9\xfb\xff\xff\xff")), "00401000 3"),
    ("two codes at one place", report(with_tramp("tramp 00021004 00401005 plain\n")), "00021004 4"),
    ("the code isn't loaded", out((OF_CODE, b"\0")), "00021000 4"),
    ("the code can be written", out((OF_CODE + PERMS, b"\7")), "00021000 4"),
    ("another byte of the code", out((CODE, b"\x90")), "00021000 4"),
    ("the code is on no page of the report", report((ONE_PAGE, "page 00022000 0\n")), "00021000 4"),
    ("the table can be written", out((OF_TABLE + PERMS, b"\6")), "00010000 5"),
    ("the private range can't be written", out((OF_PRIVATE + PERMS, b"\4")), "00020000 5"),
    ("the private range isn't zero", out((PRIVATE_BYTES + 9, b"\1")), "00020009 5"),
    (
        "a page of the report can be written",
        {**with_page(0x22000, 7), **report((ONE_PAGE, ONE_PAGE + "page 00022000 0\n"))},
        "00022000 5",
    ),
    ("a page is loaded that isn't in the report", with_page(0x25000, 5), "00025000 5"),
    ("the private range isn't loaded", report((PRIVATE, LOW)), "0001f000 5"),
    ("a page of the report isn't loaded", report((ONE_PAGE, ONE_PAGE + "page 00022000 1\n")), "00022000 5"),
    ("a page is in the private range too", report((PRIVATE, "private 00020000 2\n")), "00021000 5"),
    ("the private range is too low", {**LOW_ENTRY, **report((PRIVATE, LOW))}, "0001f000 5"),
    ("a page of the text is in the report", report((ONE_PAGE, ONE_PAGE + "page 00401000 0\n")), "00401000 5"),
    ("a row of no start", report((SITES + SITE, "sites 2\nsite 00401001 1 NoPlan\n" + SITE)), "00401001 6"),
    ("rows ascend", {**out((CODE, cover_event(1))), **ASCENDING}, "00401005 6"),
    ("the trampoline of another start", report((SITE, SITE.replace("401000", "401005"))), "00401005 6"),
    (
        "the site's trampoline has no event",
        {**out((CODE, plain_code(TRAMP))), **report((EVENT, EVENT.replace("event", "plain")))},
        "00401000 6",
    ),
    (
        "a second trampoline has an event",
        {**out((CODE + 32, SECOND)), **report(with_tramp("tramp 00021020 00401005 event\n"))},
        "00401000 6",
    ),
    ("another entry point", out((24, b"\5")), "00401005 6"),
    ("an entry point above 2^32", out((28, b"\1")), "0000000100401000 6"),
    ("the private range is too short", report(("action cover", "action ring:65536")), "00020000 6"),
]

# Sound patches for threads: by T2, whose site stands right before its victim, and by T3, whose site's jump leads to a
# second one at 0x40100C, inside the victim at 0x40100A. The victims' code has no event. And one by B1, whose event stands at 0x21000.
BEHIND, NEAR, ALONE = (
    {**files_in(f"rows/threads_{name}/before"), **files_in(f"rows/threads_{name}/after")}
    for name in ("victim_behind_the_site", "near_victim", "report_of_one_mov")
)
# where OUT has the code of the first one's site, and that of the second one's victim
OF_BEHIND, OF_NEAR = 5 * PAGE + 5, 4 * PAGE + 0x90F


def in_threads(files: Files, changes: dict[int, bytes], *lines: tuple[str, str]) -> Files:
    """A patch for threads with other bytes of OUT and other words of REPORT."""
    data, text = bytearray(files["O"]), files["R"].decode()
    for at, changed in changes.items():
        data[at : at + len(changed)] = changed
    for old, new in lines:
        assert text.count(old) == 1
        text = text.replace(old, new)
    return {**files, "O": bytes(data), "R": text.encode()}


# what breaks a rule for threads, the files then, and what `check` reports
UNSOUND_IN_THREADS: list[tuple[str, Files, str]] = [
    ("another byte", in_threads(NEAR, {PAGE + 5: b"\xcc"}), "00401005 1"),
    ("the first jump leads elsewhere", in_threads(NEAR, {PAGE + 1: b"\x0b"}, ("eb0a", "eb0b")), "00401000 3"),
    ("the second jump leads elsewhere", in_threads(NEAR, {PAGE + 13: b"\1"}, ("e90000c2", "e90100c2")), "00401000 3"),
    (
        "the second jump stands in new code",
        in_threads(
            BEHIND,
            {PAGE + 2: b"\1", OF_BEHIND + 0x100: b"\xe9" + pack("<i", -0x105)},
            ("e90000e9", "e90001e9"),
        ),
        "00401000 3",
    ),
    ("the victim's jump leads elsewhere", in_threads(NEAR, {PAGE + 11: b"\1"}, ("e900e9", "e901e9")), "0040100a 3"),
    ("another byte of the victim's code", in_threads(NEAR, {OF_NEAR + 1: b"\x80"}), "0040f910 4"),
    ("the victim has an event", in_threads(NEAR, {}, ("0040100a plain", "0040100a event")), "00401000 6"),
    ("the action is to cover, and the code counts", in_threads(NEAR, {}, ("action count", "action cover")), "00021011 4"),
    ("the action has a condition, and the code none", in_threads(ALONE, {}, ("action count", "action count when rdi == 5")), "0002100c 4"),
    ("the action keeps a ring, and the code counts", in_threads(ALONE, {}, ("action count", "action ring:256")), "0002100c 4"),
    ("the ring has a length that threads can't share", in_threads(NEAR, {}, ("action count", "action ring:1")), "00020000 6"),
]

CPUID, IMUL, ANSWER = b"\x0f\xa2", b"\x0f\xaf\xc0", b"ask 0fa2 -\n"
# what keeps a step from being made, the text, the answers, the stop, its address and how many answers are left
STOPS: list[tuple[str, bytes, bytes, str, int, int]] = [
    ("the run ends", b"\xf4", b"", "Ending", TEXT, 0),
    ("no instruction", b"\x06", b"", "UnknownInsn", TEXT, 0),
    ("an instruction is cut off", b"\xb8\x3c", b"", "NoByte", TEXT + 2, 0),
    ("a byte to read is missing", b"\x8b\x04\x25\0\x20\x40\0", b"", "NoByte", 0x402000, 0),
    ("a byte to write is missing", b"\x89\x04\x25\0\x20\x40\0", b"", "NoByte", 0x402000, 0),
    ("a byte can't be written", b"\x89\x04\x25\0\x10\x40\0", b"", "NoByte", TEXT, 0),
    ("a byte that is read can't be written", b"\x21\x04\x25\0\x10\x40\0", b"", "NoByte", TEXT, 0),
    ("the last byte to read is missing", b"\x8b\x04\x25\x04\x10\x40\0", b"", "NoByte", TEXT + 7, 0),
    ("an answer writes a missing byte", CPUID, ANSWER + b"mem 0000000000402000 a5\n", "NoByte", 0x402000, 1),
    ("no answer", CPUID, b"", "WorldEmpty", TEXT, 0),
    ("no answer for flags", IMUL, b"", "WorldEmpty", TEXT, 0),
    ("another answer", b"\x0f\x05", ANSWER, "WorldDiffers", TEXT, 1),
    ("another answer for flags", IMUL, ANSWER, "WorldDiffers", TEXT, 1),
]

# a text that loads eax from 0x600000, which holds 0 and where deliveries may write, and then ends; its starts
LOAD, DATA, END = b"\x8b\x04\x25\0\0\x60\0\xf4", 0x600000, TEXT + 7
REGION, BOTH, FIRST = b"zero 0000000000600000 0000000000601000 rw-\n", b"401000\n401007\n", b"401000\n"
# deliveries, the starts, how many steps are asked for and are made, how many deliveries are made, and eax at the end
DELIVERIES: list[tuple[str, str, bytes, int, int, int, int]] = [
    ("before the first step", due(0, TEXT, DATA, "2a"), BOTH, 1, 1, 1, 0x2A),
    ("between steps", due(1, TEXT, DATA, "2a"), BOTH, 2, 2, 1, 0x2A),
    ("two at once, in order", due(0, TEXT, DATA, "2a") + due(0, TEXT, DATA, "2b"), BOTH, 1, 1, 2, 0x2B),
    ("none behind the last step", due(1, TEXT), BOTH, 1, 1, 0, 0),
]
# deliveries that don't fit, the starts, how many steps are made, and the address
UNFIT: list[tuple[str, str, bytes, int, int]] = [
    ("it leads to no start", due(0, TEXT + 1), BOTH, 0, TEXT + 1),
    ("it comes at no start", due(1, TEXT), FIRST, 1, END),
    ("it writes a missing byte", due(0, TEXT, DATA - 1, "2a"), BOTH, 0, DATA - 1),
    ("it writes a byte of code", due(0, TEXT, END, "90"), BOTH, 0, END),
]


def unsound_rows() -> Iterator[Row]:
    plain = [(why, {**FILES, **changed}, told) for why, changed, told in UNSOUND]
    for why, files, told in plain + [(f"threads, {why}", files, told) for why, files, told in UNSOUND_IN_THREADS]:
        inputs = {name: files[name] for name in "FOSR"}
        yield Row(f"check no {told}, {why}", b"check F O S R".split(), inputs, 7, f"check no {told}\n".encode())


def stop_rows() -> Iterator[Row]:
    for why, text, answers, stop, addr, left in STOPS:
        inputs = {"F": file_of(64, 1, text), "S": b"401000\n", "W": script(answers)}
        told = told_run(0, 1, TEXT, 0, left).replace(b"stop none", f"stop {stop} {addr:016x}".encode())
        yield Row(f"step stops, {stop}, {why}", b"step F S W 1".split(), inputs, 8, told)


def delivery_inputs(dues: str, starts: bytes) -> Files:
    return {"F": file_of(64, 1, LOAD), "S": starts, "W": f"e9world 2\n{dues}".encode() + script(REGION)}


def delivery_rows() -> Iterator[Row]:
    for why, dues, starts, most, steps, made, eax in DELIVERIES:
        told = told_run(steps, steps + 1, END, eax).replace(b"stop", b"deliveries %d\nstop" % made)
        yield Row(f"step delivers, {why}", f"step F S W {most}".encode().split(), delivery_inputs(dues, starts), 0, told)
    for why, dues, starts, steps, addr in UNFIT:
        told = told_run(steps, 1, END if steps else TEXT, 0).replace(b"stop none", b"deliveries 0\nstop NoFit %016x" % addr)
        if starts == FIRST:  # the run ends at no start
            told = told.replace(b"quiet yes", b"quiet no")
        yield Row(f"step stops, NoFit, {why}", b"step F S W 2".split(), delivery_inputs(dues, starts), 8, told)


def verdict_rows() -> Iterator[Row]:
    yield from unsound_rows()
    yield from stop_rows()
    yield from delivery_rows()
