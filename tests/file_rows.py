"""Rows of files: which break which rule (hostile_files.txt), what loading one gives, and the starts in short texts, by what each command
shows of them."""
from collections.abc import Iterator
from struct import pack

from limit_files import PAGE, TEXT, script
from made_rows import ONE_MOV, Row, files_in, read
from report_rows import WORKED
from stepped_rows import GENERAL, script_of, told_state
from word_rows import cover, one_mov
from written_files import Entry, File, report, summary, written

RULES = "TooShort BadMagic NotClass64 NotLittle NotExec NotX86 BadPhentSize TableOutside Dynamic SegmentOutside SizeOrder Misaligned".split()
RULES += "AddressHigh AddressLow LoadOrder".split()
BEFORE, AFTER = files_in(f"{ONE_MOV}/before"), files_in(f"{ONE_MOV}/after")
PATCH = b"patch F S T cover O R".split()


def entries_of(text: str) -> list[Entry]:
    """Entries by p_type, p_flags, p_offset, p_vaddr, p_filesz and p_memsz, parted by commas."""
    fields = [[int(word, 16) for word in entry.split()] for entry in text.split(",") if entry.strip()]
    return [Entry(flags, offset, addr, size, memory, kind) for kind, flags, offset, addr, size, memory in fields]


def built(length: int, phoff: int, count: int, entries: list[Entry]) -> bytearray:
    """A file of zeros with a header that tells so many entries, and with these in its table."""
    whole = bytearray(length)
    front = bytearray(File([], {}, 64).bytes())
    front[32:40], front[56:58] = pack("<Q", phoff), pack("<H", count)
    for place, data in ((0, bytes(front)), (phoff, b"".join(entry.bytes() for entry in entries))):
        whole[place : place + len(data)] = data[: max(length - place, 0)]
    assert len(whole) == length
    return whole


def rule_of(text: str) -> str:
    """The rule that is broken by its number, its name and its entry, if it tells one; nothing where the file is accepted."""
    number, *entry = (int(word, 16) for word in text.split())
    return " ".join([str(number), RULES[number - 1], *map(str, entry)]) if number else ""


def hostile_files() -> Iterator[Row]:
    """Each as FILE of `check`, where an accepted one is followed by an OUT that is empty; and as a written file of `step`."""
    for line in read("hostile_files.txt").decode().splitlines():
        name, header, entries, changes, original, patched = line.split(";")
        length, phoff, count = (int(word, 16) for word in header.split())
        file = built(length, phoff, count, entries_of(entries))
        for change in filter(str.strip, changes.split(",")):
            at, value = (int(word, 16) for word in change.split())
            file[at] = value
        told = f"FILE {rule_of(original)}" if rule_of(original) else "OUT 1 TooShort"
        inputs = {"F": bytes(file), "O": b"", "S": BEFORE["S"], "R": AFTER["R"]}
        yield Row(f"file, {name}", b"check F O S R".split(), inputs, 3, f"refused {told}\n".encode())
        told = f"OUT {rule_of(patched)}" if rule_of(patched) else "UNPATCH 1 NoOrigin"
        yield Row(f"written file, {name}", b"unpatch O R N".split(), {"O": bytes(file), "R": WORKED.encode()}, 3, f"refused {told}\n".encode())


def usual() -> bytes:
    """The shape of a usual static program, with bytes other than zero where its data begin and end."""
    entries = "1 4 0 400000 300 300, 1 5 1000 401000 3ea 3ea, 1 4 2000 402000 100 100, 1 6 2e00 403e00 200 1200, 4 4 270 400270 20 20,"
    entries += "7 4 2e00 403e00 10 40, 6474e551 6 0 0 0 0, 6474e552 4 2e00 403e00 100 100"
    file = built(0x3000, 64, 8, entries_of(entries))
    movs = b"".join(b"\xb8" + pack("<I", number) for number in range(200)) + b"\x0f\x05"
    for at, data in ((0x1000, movs), (0x20FF, b"\x33"), (0x2E00, b"\x11"), (0x2FFF, b"\x22")):
        file[at : at + len(data)] = data
    return bytes(file)


def touching() -> bytes:
    """Two segments of code that touch, the second with a tail of zeros; one that can be written too; one of data."""
    entries = "1 5 1000 401000 1000 1000, 1 fffffff9 2000 402000 10 1000, 1 7 2000 403000 100 100, 1 4 2000 7ffef000 100 1000"
    file = built(0x3000, 64, 4, entries_of(entries))
    file[0x1FF8:0x2011] = bytes([*range(0x10, 0x18), *range(0x20, 0x31)])
    return bytes(file)


# an address; what may be done there, and the byte, if it is loaded; if it is executed, how a step ends that is made there, by hand:
# the address that it lacks, or another stop; and whether it may be a start
LOOKS: list[tuple[int, str, int, str, bool]] = [
    (0, "", 0, "", False),
    (0x3FFFFF, "", 0, "", False),
    (0x400000, "r", 0x7F, "", False),
    (0x4002FF, "r", 0, "", False),
    (0x400300, "", 0, "", False),
    (0x401000, "rx", 0xB8, "0x401005", True),
    # VEX, which is asked; two zeros are `add [rax], al`; `add eax, imm32` is cut off by the segment's end
    (0x4013DA, "rx", 0xC5, "WorldEmpty", True),
    (0x4013DC, "rx", 0, "NoByte 0000000000000000", True),
    (0x4013E9, "rx", 5, "NoByte 00000000004013ea", True),
    (0x4013EA, "", 0, "", False),
    (0x4020FF, "r", 0x33, "", False),
    (0x403E00, "rw", 0x11, "", False),
    (0x403FFF, "rw", 0x22, "", False),
    (0x404000, "rw", 0, "", False),
    (0x404FFF, "rw", 0, "", False),
    (0x405000, "", 0, "", False),
    (0xFFFFFFFF, "", 0, "", False),
    (0x100401000, "", 0, "", False),
    ((1 << 64) - 1, "", 0, "", False),
]
LOOKS_AT_TOUCHING: list[tuple[int, str, int, str, bool]] = [
    (0x401FF1, "rx", 0, "NoByte 0000000000000000", True),
    (0x401FF2, "rx", 0, "NoByte 0000000000000000", True),
    # 17 is no instruction; 20 21 is `and [rcx], ah`, 21 22 `and [rdx], esp`
    (0x401FFF, "rx", 0x17, "UnknownInsn", True),
    (0x402000, "x", 0x20, "NoByte 0000000000000000", True),
    (0x402001, "x", 0x21, "NoByte 0000000000000000", True),
    (0x40200F, "x", 0x2F, "UnknownInsn", True),
    (0x402010, "x", 0, "NoByte 0000000000000000", False),
    (0x402FFF, "x", 0, "NoByte 0000000000000000", False),
    (0x403000, "rwx", 0x20, "NoByte 0000000000000000", False),
    (0x7FFEFFFF, "r", 0, "", False),
    (0x7FFF0000, "", 0, "", False),
]
# where code stands that looks at a file's bytes
CODE = 0x10000000


def seen(name: str, file: bytes, entry: int, code: bytes, rbx: int, ended: tuple[int, str, int], rax: int = 0) -> Row:
    """At most two steps from an address, of which code may stand apart: how many are made, why no further one, and where it stands."""
    steps, stop, rip = ended
    values = {**{register: 0 for register in GENERAL}, "flags": 2, "fs": 0, "gs": 0, "rbx": rbx, "rax": rax}
    text = script_of({**values, "rax": 0}, f"bytes {CODE:016x} r-x {code.hex()}\n" if code else "")
    inputs = {"F": file[:24] + pack("<Q", entry) + file[32:], "S": b"", "W": text}
    words = f"step F S W {steps if not stop else steps + 1}".encode().split()
    return Row(name, words, inputs, 8 if stop else 0, told_state(steps, stop, rip, values, 0))


def look_rows() -> Iterator[Row]:
    """What is held at an address, whether it can be read, written and executed, and whether it may be a start."""
    for kind, file, looks in (("usual", usual(), LOOKS), ("touching", touching(), LOOKS_AT_TOUCHING)):
        for addr, perms, byte, execution, is_start in looks:
            lacks = f"NoByte {addr:016x}"
            ended = (1, "", CODE + 2) if "r" in perms else (0, lacks, CODE)
            yield seen(f"{kind} file read at {addr:x}", file, CODE, b"\x8a\x03", addr, ended, byte if "r" in perms else 0)
            ended = (2, "", CODE + 5) if "w" in perms else (0, lacks, CODE)
            yield seen(f"{kind} file written at {addr:x}", file, CODE, b"\xc6\x03\x5a\x8a\x03", addr, ended, 0x5A if "w" in perms else 0)
            stop = lacks if "x" not in perms else execution if " " in execution or "0x" in execution else f"{execution} {addr:016x}"
            ended = (1, "", int(stop, 16)) if stop.startswith("0x") else (0, stop, addr)
            yield seen(f"{kind} file executed at {addr:x}", file, addr, b"", 0, ended)
            if addr < 1 << 32:
                told = "PLAN 1 NotListed 00000001" if is_start else f"INSTR 1 NotExecutable {addr:08x}"
                inputs = {"F": file, "S": b"%x\n" % addr, "T": b"1\n"}
                yield Row(f"{kind} file, a start at {addr:x}", PATCH, inputs, 3, f"refused {told}\n".encode())


# `mov eax, 60; nop; nop`; `mov rax, rbx`, an EVEX instruction, `nop`; twenty bytes that begin no instruction of known length; `nop` and a
# `mov` that lacks its last byte; `je`, `lock cmpxchg`, `nop`; a `mov rax, imm64` whose constant is six `nop`s and the front of another `mov`
THREE, EVEX, UNKNOWN, CUT = b"\xb8\x3c\0\0\0\x90\x90", b"\x48\x89\xd8\x62\xf1\x7c\x48\x28\xc1\x90", b"\x62" * 20, b"\x90\xb8\1\0\0"
LOCKED, NESTED = b"\x74\1\xf0\x0f\xb1\x13\x90", b"\x48\xb8" + b"\x90" * 6 + b"\xb8\1\x90\x90\x90"
# a text, zeros behind it, its starts, and their lengths; behind the colon those of unknown length
LENGTHS: list[tuple[bytes, int, list[int], list[int], list[int]]] = [
    (THREE, 0, [], [], []),
    (THREE, 0, [0, 5, 6], [5, 1, 1], []),
    (THREE, 0, [5], [1], []),
    (EVEX, 0, [0, 3, 9], [3, 6, 1], [3]),
    # to the last byte of the file, with and without zeros behind it
    (EVEX, 0, [3], [7], [3]),
    (EVEX, 40, [3], [7], [3]),
    (CUT, 40, [0, 1], [1, 4], [1]),
    # at most fifteen bytes
    (UNKNOWN, 0, [0, 5, 19], [5, 14, 1], [0, 5, 19]),
    (UNKNOWN, 0, [0, 1, 17], [1, 15, 3], [0, 1, 17]),
]
# a text, zeros behind it, its starts, and the first that isn't executed
REFUSED: list[tuple[bytes, int, list[int], int]] = [
    (THREE, 0, [0x1000], 0x402000),
    (THREE, 0, [0, 4, 0x1000], 0x402000),
    (THREE, 0, [0, 7], 0x401007),
    (THREE, 40, [0, 7], 0x401007),
    (EVEX, 0, [0, 3, 4, 9, 10], 0x40100A),
]
# a text, its starts, those that share bytes, and the outcomes of those that don't, where they are sites
SHARED: list[tuple[bytes, list[int], list[int], dict[int, str]]] = [
    (THREE, [0, 5, 6], [], {5: "NoPlan", 6: "NoPlan"}),
    # inside the first one; the byte behind it is no byte of it
    (THREE, [0, 1, 5], [0, 1], {5: "NoPlan"}),
    (THREE, [0, 4, 5], [0, 4], {5: "NoPlan"}),
    # past a prefix
    (LOCKED, [0, 2, 3, 6], [2, 3], {6: "NoPlan"}),
    # two short ones inside a long one, and one behind it; one that reaches over the end of another
    (NESTED, [0, 3, 4, 10], [0, 3, 4], {10: "NoPlan"}),
    (NESTED, [0, 8, 10], [0, 8, 10], {}),
    # a start of unknown length ends where the next one begins, and F1 ends a run
    (EVEX, [3, 4, 9], [], {3: "NotRelocatable", 4: "NotRelocatable", 9: "NoPlan"}),
]
# starts that aren't listed beside those of EVEX
UNLISTED = [0, 0x400FFF, 0x401001, 0x401008, 0x40100A, 0xFFFFFFFF]


def of_text(text: bytes, zeros: int) -> File:
    return File([Entry(5, PAGE, TEXT, len(text), len(text) + zeros)], {PAGE: text}, PAGE + len(text))


def lines_of(starts: list[int]) -> bytes:
    return "".join(f"{TEXT + start:x}\n" for start in starts).encode()


def length_rows() -> Iterator[Row]:
    """A step that reads a byte as data is quiet if it is no byte of a listed start."""
    for number, (text, zeros, starts, lengths, _) in enumerate(LENGTHS):
        listed = {start + at for start, length in zip(starts, lengths) for at in range(length)}
        for at in range(min(len(text) + zeros, len(text) + 20)):
            # `mov al, [address]` and `nop`, which are listed too
            front = b"\x8a\x04\x25" + pack("<I", TEXT + 8 + at) + b"\x90"
            inputs = {"F": of_text(front + text, zeros).bytes(), "S": lines_of([0, 7, *(8 + start for start in starts)]), "W": script()}
            values = {**{name: 0 for name in GENERAL}, "flags": 2, "fs": 0, "gs": 0, "rax": (text + bytes(zeros))[at]}
            told = told_state(1, "", TEXT + 7, values, 0).replace(b"quiet no\noutside 0", b"quiet %s\noutside 2" % (b"no" if at in listed else b"yes"))
            yield Row(f"starts {number}, byte {at}", b"step F S W 1".split(), inputs, 0, told)


def left(name: str, text: bytes, zeros: int, starts: list[int], outcomes: dict[int, str]) -> Row:
    """Sites that are left, with their outcomes."""
    file, sites = of_text(text, zeros), sorted(outcomes)
    lines = [f"site {TEXT + site:08x} {number} {outcomes[site]}\n" for number, site in reversed(list(enumerate(sites)))]
    counts = {outcome: list(outcomes.values()).count(outcome) for outcome in outcomes.values()}
    outputs = {"O": written(file, {}, {}), "R": report(file, "cover", lines, {})}
    return Row(name, PATCH, {"F": file.bytes(), "S": lines_of(starts), "T": lines_of(sites)}, 1, summary(**counts), outputs)


def start_rows() -> Iterator[Row]:
    for number, (text, zeros, starts, _, unknown) in enumerate(LENGTHS):
        if unknown:
            yield left(f"starts {number}, of unknown length", text, zeros, starts, {start: "NotRelocatable" for start in unknown})
    for number, (text, zeros, starts, addr) in enumerate(REFUSED):
        inputs = {"F": of_text(text, zeros).bytes(), "S": lines_of(starts), "T": b""}
        yield Row(f"starts refused, {number}", PATCH, inputs, 3, f"refused INSTR 1 NotExecutable {addr:08x}\n".encode())
    for number, (text, starts, shared, others) in enumerate(SHARED):
        if shared:
            yield left(f"starts that share bytes, {number}", text, 0, starts, {start: "Shared" for start in shared})
        if others:
            yield left(f"starts that share none, {number}", text, 0, starts, others)
    inputs = {"F": of_text(THREE, 0).bytes(), "S": lines_of([0, 5, 6]), "T": b"401000\n"}
    yield Row("starts that share none, patched", PATCH, inputs, 0, summary(B1=1), one_mov("cover", cover))
    # `je` past the prefix is no byte of the two that share: its jump has a pad, and the bytes behind it as its displacement
    file, place = of_text(LOCKED, 0), TEXT + 6 + 0x13B10FF0
    code = cover(0x20000) + b"\x0f\x84" + pack("<i", TEXT + 3 - place - 14) + b"\xe9" + pack("<i", TEXT + 2 - place - 19)
    site = f"site 00401000 0 T1\ntramp {place:08x} 00401000 event\nwrite 00401000 7401 40e9\npun 00401002 f00fb113\n"
    outputs = {"O": written(file, {TEXT: b"\x40\xe9"}, {place: code}), "R": report(file, "cover", [site], {place: code})}
    inputs = {"F": file.bytes(), "S": lines_of([0, 2, 3, 6]), "T": b"401000\n"}
    yield Row("starts that share none, padded", PATCH, inputs, 0, summary(T1=1), outputs)
    for addr in UNLISTED:
        inputs = {"F": of_text(EVEX, 0).bytes(), "S": lines_of([0, 3, 9]), "T": b"%x\n" % addr}
        yield Row(f"starts, none at {addr:x}", PATCH, inputs, 3, f"refused PLAN 1 NotListed {addr:08x}\n".encode())


def file_rows() -> Iterator[Row]:
    for rows in (hostile_files, look_rows, length_rows, start_rows):
        yield from rows()
