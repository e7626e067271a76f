"""Rows of words and texts: each action and each form of a condition, patched, told and read again; words that are none; ranges and
numbers; and lists of addresses."""
from collections.abc import Callable, Iterator
from struct import pack

from limit_files import PAGE, REGISTERS, TEXT
from made_rows import ONE_MOV, Row, files_in, read
from written_files import PRIVATE, Entry, File, report, summary, written

MOV = b"\xb8\x3c\0\0\0"
FILE = File([Entry(5, PAGE, TEXT, 7)], {PAGE: MOV + b"\x90\x90"}, PAGE + 7)
BEFORE = {"F": FILE.bytes(), "S": b"401000\n401005\n401006\n", "T": b"401000\n"}
USAGE = read("rows/unknown_action/stdout")
# a comparison's sign, and the short jump that is taken if it fails
SKIPS = {"==": 0x75, "!=": 0x74, "<": 0x73, "<=": 0x77, ">": 0x76, ">=": 0x72}
# bytes of the event of the first site, by its private range
Event = Callable[[int], bytes]


def named(code: str, addr: int) -> bytes:
    """An instruction whose last four bytes are an address."""
    return bytes.fromhex(code) + pack("<I", addr)


def saved(p: int) -> bytes:
    return named("48890425", p) + b"\x9f\x0f\x90\xc0" + named("890425", p + 8)


def restored(p: int) -> bytes:
    return named("8b0425", p + 8) + b"\x04\x7f\x9e" + named("488b0425", p)


def cover(p: int) -> bytes:
    return named("c60425", p + 64) + b"\1"


def count(p: int) -> bytes:
    add = named("488b0425", p + 64) + b"\x48\x8d\x40\x01" + named("48890425", p + 64)
    return named("48890425", p) + add + named("488b0425", p)


def ring(slots: int) -> Event:
    def event(p: int) -> bytes:
        moved = named("c70485", p + 68) + pack("<I", 1) + b"\x8d\x40\x01\x3d" + pack("<I", slots) + b"\x75\x05\xb8" + bytes(4)
        return saved(p) + named("8b0425", p + 64) + moved + named("890425", p + 64) + restored(p)

    return event


def when(base: str, *comparisons: str) -> Event:
    """The event under a condition: each comparison that fails jumps to what restores rax and the flags."""

    def event(p: int) -> bytes:
        code = cover(p) if base == "cover" else named("48ff0425", p + 64)
        for comparison in reversed(comparisons):
            name, sign, value = comparison.split()
            reg = REGISTERS.index(name)
            compare = bytes([0x48 | reg >> 3, 0x81, 0xF8 | reg & 7]) + pack("<I", int(value))
            code = compare + bytes([SKIPS[sign], len(code)]) + code
        return saved(p) + named("488b0425", p) + code + restored(p)

    return event


def conditions() -> Iterator[tuple[str, Event]]:
    """A condition with each register and each sign, and those of two and three comparisons."""
    lists = [(base, [f"{name} {sign} 7"]) for base in ("cover", "count") for name in REGISTERS[:16] for sign in SKIPS]
    lists += [
        ("cover", ["rdi == 5"]),
        ("count", ["rax >= 0", "r15 < 2147483647"]),
        ("cover", ["r9 > 10", "rsp <= 2147483646", "r9 != 12"]),
        ("count", ["rax >= 1", "r15 < 2147483647", "rax != 3"]),
    ]
    for base, comparisons in lists:
        yield f"{base} when {' and '.join(comparisons)}", when(base, *comparisons)


def one_mov(action: str, event: Event, private: int = PRIVATE, place: int = 0) -> dict[str, bytes]:
    """What is written where the first instruction is the site: OUT and REPORT."""
    pages = -(-(68 + 4 * int(action[5:])) // PAGE) if action.startswith("ring:") else 1
    place = place or private + PAGE * pages
    code, jump = event(private) + MOV, b"\xe9" + pack("<i", place - TEXT - 5)
    pieces = {place: code + b"\xe9" + pack("<i", TEXT - place - len(code))}
    site = f"site 00401000 0 B1\ntramp {place:08x} 00401000 event\nwrite 00401000 {MOV.hex()} {jump.hex()}\n"
    out = written(FILE, {TEXT: jump}, pieces, private, pages)
    return {"O": out, "R": report(FILE, action, [site], pieces, private, pages)}


def action_rows() -> Iterator[Row]:
    """Each action is patched, told in the report, and read from it by `check`."""
    actions = [("cover", cover), ("count", count), *((f"ring:{slots}", ring(slots)) for slots in (1, 4, 65536)), *conditions()]
    for action, event in actions:
        after = one_mov(action, event)
        words = [b"patch", b"F", b"S", b"T", action.encode(), b"O", b"R"]
        yield Row(f"action {action}", words, BEFORE, 0, summary(B1=1), after)
        yield Row(f"action {action}, check", b"check F O S R".split(), {"F": BEFORE["F"], "S": BEFORE["S"], **after}, 0, b"check yes\n")


NO_ACTIONS = """
Cover|cover | cover|cove|counts|cover count|cover when|cover when |ring|ring:|ring:0|ring:00|ring:03|ring:65537
ring:100000000000000000000|ring: 4|ring:4 |ring:+4|Ring:4|ring 4|ring:4 when rdi == 5|count when rdi = 5|count when rdi == 05
count when rdi == 2147483648|count when rdi == 4294967301|count when rdi == -1|count when rdi == 0x5|count when rdi ==
count when rdi == |count when rdi  == 5|count when rdi == 5 |count  when rdi == 5|count if rdi == 5
count when rdi == 5 or rsi == 6|count when rdi == 5 and|count when rdi == 5 and |count when edi == 5
count when rdi == 1 and rdi == 2 and rdi == 3 and rdi == 4"""
# ranges that are read, and where the private range and the code then stand
RANGES = [(word, PRIVATE, PRIVATE + PAGE) for word in ("0-1", "1000-2000", "0000000A-0000000b", "7fffffff-80000000", "7FFF0000-7FFFFFFF", "0-20000")]
RANGES += [("20000-20001", 0x21000, 0x22000), ("1fFfF-2000a", 0x21000, 0x22000), ("20fff-21001", 0x22000, 0x23000), ("21000-2bcdE", 0x20000, 0x2C000)]
RANGES += [("20000-7FFEE000", 0x7FFEE000, 0x7FFEF000), ("00021000-7ffef000", 0x20000, 0x7FFEF000), ("20000-2ABCD", 0x2B000, 0x2C000)]
NO_RANGES = "0-80000001 80000000-80000001 1-1 2-1 0x1-0x2 1-0X2 -1 1- - 1 1--2 1-2-3 000000000-1 0-000000001 0-100000001 1-g".split()
NO_RANGES += ["", "1 -2", "1-2\n"]
NO_COUNTS = "00 01 0000000000000000000000000000001 +1 -1 1_000 a 1a 0x1 \u0661 18446744073709551616 18446744073709551621".split()
NO_COUNTS += "99999999999999999999 100000000000000000000 184467440737095516160".split() + ["", "1 ", " 1"]


def word_usage_rows() -> Iterator[Row]:
    """Words that are no action, no range, no number."""
    files = {**BEFORE, "W": read("rows/step_once/before/W")}
    actions = ["", "ring:4\n", *(word for line in NO_ACTIONS.split("\n")[1:] for word in line.split("|"))]
    cases = [[name, "F", "S", "T", word, "O", "R"] for name in ("patch", "load") for word in actions]
    cases += [["threads", "F", "S", "T", "O", f"action:{word}", "report:R"] for word in actions]
    for word in NO_RANGES:
        cases += [["patch", "F", "S", "T", "cover", "O", "R", word], ["load", "F", "S", "T", "cover", "O", "R", word], ["threads", "F", "S", "T", "O", word]]
    for word in NO_COUNTS:
        cases += [["step", "F", "S", "W", word], ["gen", word, "1"], ["gen", "1", word]]
    for words in cases:
        yield Row(f"no word {'|'.join(words)!r}", [word.encode() for word in words], files, 2, USAGE)
    for word in actions:
        if "\n" not in word:
            after = {**files_in(f"{ONE_MOV}/after")}
            told = {**after, "R": after["R"].replace(b"action cover", f"action {word}".encode())}
            yield Row(f"no action in a report {word!r}", b"unpatch O R N".split(), told, 3, b"refused REPORT 1 BadReport 3\n")


def range_rows() -> Iterator[Row]:
    for word, private, place in RANGES:
        words = ["patch", "F", "S", "T", "cover", "O", "R", word]
        yield Row(f"range {word}", [it.encode() for it in words], BEFORE, 0, summary(B1=1), one_mov("cover", cover, private, place))


# a text, its numbers, and its refusal with the line, if it has one
TEXTS: list[tuple[bytes, list[int], str]] = [
    (b"", [], ""),
    (b"401000\n401005\n", [0x401000, 0x401005], ""),
    (b"401000\n401005", [0x401000, 0x401005], ""),
    (b"0", [0], ""),
    # each digit in either case, and eight of them with zeros in front
    (b"01234567\n89abcdef", [0x01234567, 0x89ABCDEF], ""),
    (b"0\n0x00000001\n89ABCDEF\n0xfFfFfFfF\n", [0, 1, 0x89ABCDEF, 0xFFFFFFFF], ""),
    (b"401000\n0x401005\n401005\n", [], "2 NotAscending 3"),
    # an empty line in front, in the middle, at the end, and where only it ends
    (b"\n", [], "1 BadLine 1"),
    (b"\n401000\n", [], "1 BadLine 1"),
    (b"401000\n\n401005\n", [], "1 BadLine 2"),
    (b"401000\n\n", [], "1 BadLine 2"),
    (b"\n\n", [], "1 BadLine 1"),
    # CR LF, tabs, blanks and other bytes
    (b"401000\r\n401005\r\n", [], "1 BadLine 1"),
    (b"401000\t\n", [], "1 BadLine 1"),
    (b"\t401000\n", [], "1 BadLine 1"),
    (b"401000\n 401005\n", [], "1 BadLine 2"),
    (b"401000 401005\n", [], "1 BadLine 1"),
    (b"401000\n401005\0", [], "1 BadLine 2"),
    (b"401000\n\xff\n", [], "1 BadLine 2"),
    (b"40100g\n", [], "1 BadLine 1"),
    (b"+401000\n", [], "1 BadLine 1"),
    (b"-1\n", [], "1 BadLine 1"),
    (b"40_1000\n", [], "1 BadLine 1"),
    # nine digits, and marks of base 16 that are none
    (b"000000001\n", [], "1 BadLine 1"),
    (b"0x000000001\n", [], "1 BadLine 1"),
    (b"0X401000\n", [], "1 BadLine 1"),
    (b"0x\n", [], "1 BadLine 1"),
    (b"1\n0x", [], "1 BadLine 2"),
    (b"0x0x1\n", [], "1 BadLine 1"),
    (b"1" * 1_000_000, [], "1 BadLine 1"),
    # the first refused line decides
    (b"5\n5\nx\n", [], "2 NotAscending 2"),
    (b"5\nx\n5\n", [], "1 BadLine 2"),
]
NO_PLAN = "site 00401005 1 NoPlan\n"


def unread(text: bytes, name: str, told: str) -> Row:
    """The text as STARTS or SITES, which is refused, or whose first number that isn't executed or listed is told."""
    what = {"S": "STARTS", "T": "SITES"}[name]
    shown = text if len(text) < 60 else text[:8] + b".."
    return Row(f"list as {what} {shown!r}, {told}", b"patch F S T cover O R".split(), {**BEFORE, name: text}, 3, f"refused {told}\n".encode())


def list_rows() -> Iterator[Row]:
    """Each number of a text is the first one that is told where the lines before it are left out."""
    for text, numbers, refusal in TEXTS:
        for name, what, rule in (("S", "STARTS", "INSTR 1 NotExecutable"), ("T", "SITES", "PLAN 1 NotListed")):
            if refusal:
                yield unread(text, name, f"{what} {refusal}")
            for first, number in enumerate(numbers):
                if number not in (0x401000, 0x401005):
                    yield unread(text.split(b"\n", first)[first], name, f"{rule} {number:08x}")
    after = one_mov("cover", cover)
    both = {**after, "R": after["R"].replace(b"sites 1\n", b"sites 2\n" + NO_PLAN.encode())}
    for text in (b"401000\n401005\n", b"401000\n401005"):
        yield Row(f"list as SITES {text!r}", b"patch F S T cover O R".split(), {**BEFORE, "T": text}, 1, summary(B1=1, NoPlan=1), both)
        yield Row(f"list as STARTS {text!r}", b"patch F S T cover O R".split(), {**BEFORE, "S": text}, 0, summary(B1=1), after)
    nothing = {"O": written(FILE, {}, {}), "R": report(FILE, "cover", [], {})}
    for name, files in (("S", {**BEFORE, "S": b"", "T": b""}), ("T", {**BEFORE, "T": b""})):
        yield Row(f"list empty, {name}", b"patch F S T cover O R".split(), files, 0, summary(), nothing)
    most = b"".join(b"%x\n" % number for number in range(65536))
    yield unread(most, "T", "PLAN 1 NotListed 00000000")
    for line in (b"10000", b"0", b"not a number", b"\n", b"20000\n20001\n"):
        yield unread(most + line, "T", "SITES 3 TooMany 65536")._replace(name=f"list as SITES, 65,536 and {line!r}")
    yield unread(most + b"10000\n", "S", "INSTR 1 NotExecutable 00000000")


def word_rows() -> Iterator[Row]:
    for rows in (action_rows, word_usage_rows, range_rows, list_rows):
        yield from rows()
