"""The inputs of the tests of work: programs made so that a search, a comparison or a list has something to do."""
from collections.abc import Iterable
from struct import pack

from limit_files import script

TEXT, PAGE, LOW, END = 0x401000, 0x1000, 0x20000, 0x7FFF0000
# where the text stands whose trampolines leave holes
HOLED = 0x10000700
Inputs = dict[str, bytes]
# flags, address, what the file has of it, its length
Segment = tuple[int, int, bytes, int]


def elf(segments: list[Segment]) -> bytes:
    """An ELF file of these segments, of which the first one is entered."""
    place = 64 + 56 * len(segments) + PAGE - 1 & -PAGE
    header = b"\x7fELF\2\1\1".ljust(16, b"\0")
    header += pack("<HHIQQQIHHHHHH", 2, 62, 1, segments[0][1], 64, 0, 0, 64, 56, len(segments), 64, 0, 0)
    shown = b""
    for flags, low, data, length in segments:
        offset = place + len(shown) + low % PAGE if data else low % PAGE
        header += pack("<IIQQQQQQ", 1, flags, offset, low, low, len(data), length, PAGE)
        if data:
            shown += (bytes(low % PAGE) + data).ljust(len(data) + low % PAGE + PAGE - 1 & -PAGE, b"\0")
    return header.ljust(place, b"\0") + shown


def lines(addresses: Iterable[int]) -> bytes:
    return "".join(f"{at:x}\n" for at in addresses).encode()


def program(parts: list[bytes], every: int, text: int = TEXT, further: Iterable[Segment] = ()) -> Inputs:
    """A text of these instructions, all of them starts, of which each so-manieth is a site (none where it is 0)."""
    starts, at = [], text
    for part in parts:
        starts.append(at)
        at += len(part)
    code = b"".join(parts)
    file = elf([(5, text, code, len(code)), *further])
    return {"F": file, "S": lines(starts), "T": lines(starts[::every]) if every else b""}


def plain(count: int) -> Inputs:
    """Instructions of five bytes, all of them sites: a jump fits over each."""
    return program([b"\xb8" + pack("<I", k) for k in range(count)], 1)


def blocks(block: str, count: int, text: int = TEXT) -> Inputs:
    """So many blocks of instructions, in hexadecimal digits, of each of which the first is a site."""
    parts = [bytes.fromhex(it) for it in block.split()]
    return program(parts * count, len(parts), text)


def free_only(low: int, pages: Iterable[tuple[int, int]]) -> str:
    """The RESERVE words that leave, from an address on, these ranges alone."""
    words = []
    for first, last in pages:
        words.append(f"{low:x}-{first:x}")
        low = last
    return " ".join([*words, f"{low:x}-{END:x}"])


def gap_pages(count: int) -> list[tuple[int, int]]:
    """Pages each alone, of which a jump reaches each by few shared values; the last four lie in the gaps of the others' values."""
    gaps = [(0x40 + value) * 16 + 15 for value in (0x14, 0x7F6, 0x27F6, 0x67F6)]
    others = count - len(gaps)
    pages = sorted(gaps + [(0x42 + 0x4700 // count * k) * 16 + 2 + 2 * (4 * k // others) for k in range(others)])
    return [(page * PAGE, page * PAGE + PAGE) for page in pages]


def below_holes(block: list[bytes], searched: int, count: int) -> Inputs:
    """So many blocks, the first instruction of each a site, below so many others whose trampolines of 15 bytes leave holes of 13 between
    them. Each other site is patched in its turn, at 0x20000505 addresses above its own."""
    other = [b"\x89\xc8", b"\x05\x00\x20\x00\x00", *[b"\x48\xc7\xc1" + bytes(4)] * 3]
    length = sum(map(len, block))
    files, at = program([*block * searched, *other * count], 0, HOLED), HOLED + length * searched
    return {**files, "T": lines([*range(HOLED, at, length), *range(at, at + 28 * count, 28)])}


def pages_of_holes(below: int, count: int) -> tuple[int, int]:
    """The pages in which the holes lie, where the searched sites' blocks have so many bytes in all."""
    low, end = (HOLED + 0x20000505 + below + 28 * k & -PAGE for k in (0, count))
    return low, end + PAGE


def holes(searched: int, count: int) -> Inputs:
    """Sites for which nothing is found: a victim's trampoline of 12 bytes fits into each hole, at two addresses, and the site's doesn't."""
    return below_holes([b"\x89\xd8", b"\x48\xc7\xc1" + bytes(4), *[b"\x90"] * 131], searched, count)


def pages_beside_holes(searched: int, count: int, pages: int) -> list[tuple[int, int]]:
    """What is free for them: the holes' pages, and others each alone, which the searched sites' jumps reach by values between those of two holes."""
    low, end = pages_of_holes(140 * searched, count)
    text, first = HOLED & -0x10000, 140 * searched + 1335
    alone = [text + (first + 28 * k << 16) + 15 * PAGE for k in range(pages)]
    return sorted([(low, end), *((page, page + PAGE) for page in alone)])


def passed_holes(searched: int, count: int) -> Inputs:
    """Sites whose jumps lead anywhere, to trampolines of 18 bytes, which are looked for in each hole."""
    return below_holes([b"\xb8" + bytes(4)], searched, count)


def pages_behind_holes(searched: int, count: int) -> list[tuple[int, int]]:
    """What is free for them: the holes' pages, and behind them what they need."""
    low, end = pages_of_holes(5 * searched, count)
    return [(low, end + (18 * searched + PAGE - 1 & -PAGE))]


def far_runs(count: int) -> Inputs:
    """Sites whose jumps reach 256 addresses of a page of their own each."""
    parts = [b"\x90"] * 11
    for k in range(count):
        opcode = (0x05, 0x68, 0xB8)[k % 3]
        parts += [b"\x89\xc8", bytes((opcode, k // 3 % 256, 1 + k // 768, 0, 0)), b"\x66\x0f\x1f\x84" + bytes(5)]
    files = program(parts, 0)
    return {**files, "T": lines(TEXT + 11 + 16 * k for k in range(count))}


def assorted(count: int) -> Inputs:
    """Instructions of many kinds, and no site."""
    kinds = "55 4889e5 488d4df8 0fb6542403 48895c2410 e802000000 f30f1efa 660f6fc1 c5fd6f06 7505 ff151a000000 4983c108 89c8 0f94c0 c3".split()
    parts = [bytes.fromhex(it) for it in kinds]
    return program(parts * (count // len(parts)), 0)


def with_data(count: int, length: int) -> Inputs:
    """A few sites, and a long segment of data that the patched file loads as it was."""
    parts = [b"\xb8" + pack("<I", k) for k in range(count)]
    data = bytes(range(1, 252)) * (length // 251 + 1)
    return program(parts, 1, TEXT, [(6, 0x10000000, data[:length], length)])


def segments(count: int, sites: int) -> Inputs:
    """Sites below many segments of a page each."""
    parts = [b"\xb8" + pack("<I", k) for k in range(sites)]
    further = [(4, 0x10000000 + 2 * PAGE * k, bytes((k & 0xFF,)) * 16, PAGE) for k in range(count)]
    return program(parts, 1, TEXT, further)


# instructions at even and at odd addresses, and behind the first one at odd addresses alone
MIXED = "90 488b442408 48894c2410 0fb6542403 4c0fbf442404 488d749010 4811f3 4829c7 4919d1 4839d8 0f92c0 490f45c8 49f7da 49f7d3 49ffc4 "
MIXED += "41ffcd 50 5d 4893 4898 39c8 7400 e800000000 58"
ODD = "90 4c0fbf442404 488d0408 440fb7442402 4c8d2498 490f45c8 4883c108 8b442404 89442408 4898 39c8 660f1f440000"


def loop(code: str) -> Inputs:
    """A loop of these instructions, and a script with a stack."""
    parts = [bytes.fromhex(it) for it in code.split()]
    back = -sum(map(len, parts)) - 5
    files = program([*parts, b"\xe9" + pack("<i", back), *[b"\x90"] * 16], 0)
    zero, stack = b"rsp %016x\n" % 0, b"rsp %016x\n" % 0x700800
    return {**files, "W": script(b"zero %016x %016x rw-\n" % (0x700000, 0x701000)).replace(zero, stack)}


def long_answer(writes: int, length: int) -> Inputs:
    """A question that is answered by so many writes of so many bytes each; eight times as many segments are loaded."""
    asks = [b"\x0f\xa2", b"\x90"]
    further = [(6, 0x10000000 + 2 * PAGE * k, bytes((k & 0xFF,)) * 16, PAGE) for k in range(8 * writes)]
    told = "".join(f"mem {0x10000000 + 16 * PAGE * k:016x} {'a5' * length}\n" for k in range(writes))
    return {**program(asks, 0, TEXT, further), "W": script(f"ask 0fa2 -\n{told}".encode())}
