"""Rows of reports: texts that are none (hostile_texts.txt), versions, and what `unpatch` makes of an origin and of what was written."""
from collections.abc import Iterator
from struct import pack

from limit_files import PAGE, TEXT
from made_rows import Row
from scripted_rows import changed
from word_rows import BEFORE, FILE, MOV, cover, one_mov
from written_files import PRIVATE, Entry, File, written

WORKED = """e9report 1
action cover
private 00020000 1
sites 1
site 00401000 0 B1
tramp 00021000 00401000 event
write 00401000 b83c000000 e9fbffc1ff
page 00021000 0
end
"""
ORIGIN = "origin 4103 64 1 0000000000401000\n"
ORIGINAL = "e9report 2\n" + ORIGIN + WORKED.partition("\n")[2]
# a report with a line of each kind, and one with a site that shares bytes
LINES = """e9report 1
action count
private 00020000 2
sites 4
site 00401020 3 T3
tramp 00030000 00401020 event
tramp 00030100 00401010 plain
write 00401010 4889d8 e9eb1e
write 00401020 89c3 eb10
pun 00401013 90
pun 00401022 c35b
pun 00401030 00112233445566778899aabbccddeeff
site 00401008 2 NotRelocatable
site 00401030 1 B1
tramp 7ffefffe ffffffff plain
write fffffff8 00112233445566778899aabbccddeeff ffeeddccbbaa99887766554433221100
write 00000000 00 01
write 00401030 b83c000000 e9fbffc1ff
site 00401000 0 NoPlan
page 00000000 4294967295
page 00030000 1
page 7ffef000 0
end
"""
SHARED = """e9report 2
origin 18446744073709551615 0 65535 ffffffffffffffff
action cover
private 00020000 1
sites 1
site 00401000 0 Shared
end
"""
EMPTY = "e9report 1\naction cover\nprivate 7ffef000 1\nsites 0\nend\n"
# a first line, and the refusal of the worked report with it
VERSIONS = [
    ("e9report 3\n", "2 BadVersion 1"),
    ("e9report 0\n", "2 BadVersion 1"),
    ("e9report 2\n", "1 BadReport 2"),
    ("e9report 10\n", "2 BadVersion 1"),
    ("e9report 22\n", "2 BadVersion 1"),
    ("e9report 11\n", "2 BadVersion 1"),
    ("e9report 1234567890123456789012345678901234567890\n", "2 BadVersion 1"),
    ("e9report 03\n", "1 BadReport 1"),
    ("e9report 00\n", "1 BadReport 1"),
    ("e9report 3a\n", "1 BadReport 1"),
    ("e9report +3\n", "1 BadReport 1"),
    ("e9report 3\r\n", "1 BadReport 1"),
]
# texts that are cut off, and their refusals
CUT = [(text, "1 BadReport 1") for text in ("", "e9report 3", "e9report 2", "e9report 1", "e9report", "\n")]
CUT += [("e9report 3\n", "2 BadVersion 1"), ("e9report 1\naction count", "1 BadReport 2"), ("e9report 1\nx\n", "1 BadReport 2")]
OUT = one_mov("cover", cover)["O"]


def unpatched(name: str, out: bytes, text: str, told: str, new: bytes | None = None) -> Row:
    """What `unpatch` tells of a report, and the original that it gives back, if it does."""
    status, outputs = (3, {}) if new is None else (0, {"N": new})
    return Row(f"report {name}", b"unpatch O R N".split(), {"O": out, "R": text.encode()}, status, f"{told}\n".encode(), outputs)


def refused_reports() -> Iterator[Row]:
    for kind, whole in (("report", LINES), ("origin", ORIGINAL)):
        for line, old, new in changed(kind):
            assert old in whole
            yield unpatched(f"with {new!r} for {old!r}", OUT, whole.replace(old, new, 1), f"refused REPORT 1 BadReport {line}")
    for first, told in VERSIONS:
        yield unpatched(f"that begins {first!r}", OUT, first + WORKED.partition("\n")[2], f"refused REPORT {told}")
    for text, told in CUT:
        yield unpatched(f"{text!r}", OUT, text, f"refused REPORT {told}")


def accepted_reports() -> Iterator[Row]:
    """Reports that are read: of version 1 the origin is what is missing then, of version 2 it is outside the file."""
    for name, text in (("worked", WORKED), ("of each line", LINES), ("without sites", EMPTY)):
        yield unpatched(f"{name}, of version 1", OUT, text, "refused UNPATCH 1 NoOrigin")
    yield unpatched("of the widest origin", OUT, SHARED, "refused UNPATCH 2 OriginOutside")
    for name, text in (("of version 1", WORKED), ("of version 2", ORIGINAL)):
        inputs = {"F": BEFORE["F"], "O": OUT, "S": BEFORE["S"], "R": text.encode()}
        yield Row(f"report {name}, check", b"check F O S R".split(), inputs, 0, b"check yes\n")


def with_header(file: bytes, phoff: int, phnum: int, entry: int) -> bytes:
    """A file with these fields in its header."""
    return file[:24] + pack("<QQ", entry, phoff) + file[40:56] + pack("<H", phnum) + file[58:]


def origin_rows() -> Iterator[Row]:
    """The length of an origin is cut off and padded; its other fields stand in the header."""
    for length in (63, 20481, (1 << 64) - 1):
        text = ORIGINAL.replace("4103", str(length))
        yield unpatched(f"of length {length}", OUT, text, "refused UNPATCH 2 OriginOutside")
    whole = OUT[:PAGE] + MOV + OUT[PAGE + 5 :]
    for length in (64, 4102, 4104, 20480):
        new = with_header(whole[:length], 64, 1, TEXT)
        yield unpatched(f"of length {length}", OUT, ORIGINAL.replace("4103", str(length)), f"restored {length}", new)
    top = (1 << 64) - 1
    for phoff, phnum, entry in ((top, 65535, top), (0, 0, 0), (0x0102030405060708, 0x0910, 0x1112131415161718)):
        text = ORIGINAL.replace(ORIGIN, f"origin 4103 {phoff} {phnum} {entry:016x}\n")
        yield unpatched(f"of table {phoff}", OUT, text, "restored 4103", with_header(BEFORE["F"], phoff, phnum, entry))


def undone_rows() -> Iterator[Row]:
    """What is undone where the table stands behind the text; the least changed byte; bytes past the last address."""
    file = File([Entry(5, PAGE, TEXT, 7)], {PAGE: MOV + b"\x90\x90"}, 4168, 0x1010)
    jump = b"\xe9" + pack("<i", 0x21000 - TEXT - 5)
    code = cover(PRIVATE) + MOV
    out = written(file, {TEXT: jump}, {0x21000: code + b"\xe9" + pack("<i", TEXT - 0x21000 - len(code))})
    text = ORIGINAL.replace(ORIGIN, "origin 4168 4112 1 0000000000401000\n")
    yield unpatched("of a table behind the text", out, text, "restored 4168", file.bytes())
    two = bytearray(OUT)
    two[PAGE + 1] = two[PAGE + 3] = 0
    yield unpatched("and two changed bytes", bytes(two), ORIGINAL, "refused UNPATCH 3 BytesDiffer 00401001")
    past = ORIGINAL.replace("write 00401000 b83c000000 e9fbffc1ff", f"write fffffff8 {'00' * 16} {'00' * 16}")
    yield unpatched("of bytes past the addresses", OUT, past, "refused UNPATCH 3 BytesDiffer fffffff8")


def report_rows() -> Iterator[Row]:
    for rows in (refused_reports, accepted_reports, origin_rows, undone_rows):
        yield from rows()
