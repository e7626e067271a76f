"""Rows of files whose new code stands at chosen places: the bytes behind a site of one byte leave its jump one place. Which pages share
a page of the file, and what is written over segments that are moved, is computed by written_files.py."""
from collections.abc import Iterator
from struct import pack

from limit_files import PAGE, TEXT
from made_rows import Row, cover_event
from written_files import Entry, File, report, summary, written

PIECE = 14  # bytes: an event that covers, `nop`, and a jump back


def text_of(places: list[int]) -> tuple[bytes, dict[int, int]]:
    """A text with a `nop` for each place, and by its address where its code stands: a jump's displacement is `add eax, imm32` behind it."""
    text, sites = b"", {}
    for place in places:
        text += b"\x90" * ((place - TEXT - len(text) - 10) % 256)
        sites[TEXT + len(text)] = place
        distance = place - TEXT - len(text) - 5
        assert distance & 0xFF == 5
        text += b"\x90\x05" + pack("<i", distance)[1:] + b"\0"
    return text, sites


def placed(name: str, places: list[int]) -> Row:
    """Each site gets code at its place, from the highest down."""
    text, sites = text_of(places)
    file = File([Entry(5, PAGE, TEXT, len(text))], {PAGE: text}, PAGE + len(text))
    writes, pieces, lines = {}, {}, []
    for number, (site, place) in reversed(list(enumerate(sites.items()))):
        bytes_behind = text[site - TEXT + 1 : site - TEXT + 5]
        writes[site] = b"\xe9"
        pieces[place] = cover_event(number) + b"\x90\xe9" + pack("<i", site + 1 - place - PIECE)
        lines.append(f"site {site:08x} {number} B2\ntramp {place:08x} {site:08x} event\nwrite {site:08x} 90 e9\npun {site + 1:08x} {bytes_behind.hex()}\n")
    listed = "".join(f"{site:x}\n" for site in sites).encode()
    inputs = {"F": file.bytes(), "S": listed, "T": listed}
    outputs = {"O": written(file, writes, pieces), "R": report(file, "cover", lines, pieces)}
    return Row(f"pages {name}", b"patch F S T cover O R".split(), inputs, 0, summary(B2=len(sites)), outputs)


def draws(state: int) -> Iterator[int]:
    """Numbers below 65,536 that look random."""
    while True:
        state = (state * 1664525 + 1013904223) % (1 << 32)
        yield state >> 16


def random_places(numbers: Iterator[int]) -> list[int]:
    """Up to thirty places that ascend, for pieces that don't overlap."""
    at, places = 0x30000 + next(numbers) % PAGE, []
    for _ in range(1 + next(numbers) % 30):
        places.append(at + next(numbers) % 2500)
        at = places[-1] + PIECE + next(numbers) % 700
    return places


# places by what they show: one piece across the end of a page; on a page in either order; at offsets that meet and that don't
CHOSEN = [
    ("across the end of one", [0x30FF8]),
    ("of two pieces on one", [0x30010, 0x30000]),
    ("that meet", [0x30008, 0x31005, 0x32016]),
    ("that meet in the last byte of one", [0x30008, 0x31015, 0x32022]),
    ("that touch", [0x30008, 0x31016, 0x32024]),
    ("of three that show one", [0x31000, 0x32800, 0x33100]),
    ("whose groups go down", [0x30000, 0x31000, 0x32800, 0x33000]),
    ("that are not side by side", [0x30000, 0x32000, 0x33000]),
    ("at their ends", [0x30000, 0x30FF2, 0x31000, 0x31FF2]),
    ("across two ends that meet", [0x30FF8, 0x32FF9]),
    ("beside a gap in the groups", [0x30000, 0x31000, 0x32100, 0x33000, 0x34100]),
]


def many_pages() -> list[int]:
    """Three hundred pages, whose offsets meet in every third one."""
    return [0x30000 + PAGE * number + 64 * (number % 3) for number in range(300)]


def group_rows() -> Iterator[Row]:
    for name, places in CHOSEN:
        yield placed(name, places)
    yield placed("three hundred", many_pages())
    numbers = draws(1)
    for turn in range(60):
        yield placed(f"of random pieces, {turn}", random_places(numbers))


def moved_rows() -> Iterator[Row]:
    """Two segments of the same bytes of the file are moved; jumps are written at, across and behind the end of a page of the first."""
    text = b"\x90" * 4 + b"\xb8\7\7\7\7" * (0x1801 // 5)
    file = File([Entry(5, PAGE, TEXT, 0x1805), Entry(6, PAGE, TEXT + 3 * PAGE, 0x1805)], {PAGE: text}, PAGE + 0x1805)
    sites = [TEXT + at for at in (4, 0xFF9, 0xFFE, 0x1003, 0x1800)]
    place, writes, pieces, lines = 0x21000, {}, {}, []
    for number, site in reversed(list(enumerate(sites))):
        old = text[site - TEXT : site - TEXT + 5]
        writes[site] = b"\xe9" + pack("<i", place - site - 5)
        pieces[place] = cover_event(number) + old + b"\xe9" + pack("<i", site + 5 - place - 18)
        lines.append(f"site {site:08x} {number} B1\ntramp {place:08x} {site:08x} event\nwrite {site:08x} {old.hex()} {writes[site].hex()}\n")
        place += 18
    listed = "".join(f"{site:x}\n" for site in sites).encode()
    inputs, outputs = {"F": file.bytes(), "S": listed, "T": listed}, {"O": written(file, writes, pieces), "R": report(file, "cover", lines, pieces)}
    yield Row("moved segments", b"patch F S T cover O R".split(), inputs, 0, summary(B1=len(sites)), outputs)
    told = f"restored {file.length}\n".encode()
    yield Row("moved segments, unpatch", b"unpatch O R N".split(), outputs, 0, told, {"N": inputs["F"]})


def placed_rows() -> Iterator[Row]:
    yield from group_rows()
    yield from moved_rows()
