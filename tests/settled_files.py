"""Static PIEs and their settled files, made by the format's page (Settled files), not by `e9tool`."""
from struct import pack, pack_into, unpack_from

PAGE, END, STUB = 0x1000, 0x7FFF0000, 89
LOAD, DYNAMIC, INTERP, NOTE, PHDR, TLS, STACK = 1, 2, 3, 4, 6, 7, 0x6474E551
WALK = bytes.fromhex(
    "488b0c24 488d7ccc10 488b0f 488d7f08 e302 ebf5 488b0f e336 488d49fd e312 488d49fe e316 488d49fc e31a 488d7f10 ebe3"
)
Entry = tuple[int, int, int, int, int, int, int, int]  # p_type, p_flags, p_offset, p_vaddr, p_paddr, p_filesz, p_memsz, p_align


def up(number: int) -> int:
    return -(-number // PAGE) * PAGE


def load(flags: int, offset: int, vaddr: int, filesz: int, memsz: int = 0, align: int = PAGE) -> Entry:
    return LOAD, flags, offset, vaddr, vaddr, filesz, max(memsz, filesz), align


def other(kind: int, offset: int, vaddr: int, size: int) -> Entry:
    return kind, 4, offset, vaddr, vaddr, size, size, 8


def put(file: bytes, at: int, kind: str, value: int) -> bytes:
    changed = bytearray(file)
    pack_into("<" + kind, changed, at, value)
    return bytes(changed)


def header(kind: int, entry: int, count: int) -> bytes:
    return b"\x7fELF\2\1\1".ljust(16, b"\0") + pack("<HHIQQQIHHHHHH", kind, 62, 1, entry, 64, 0, 0, 64, 56, count, 0, 0, 0)


def table(entries: list[Entry]) -> bytes:
    return b"".join(pack("<IIQQQQQQ", *it) for it in entries)


def program(entry: int, entries: list[Entry], text: bytes) -> bytes:
    """A file of type ET_DYN: a header, a table, and what stands behind them."""
    return header(3, entry, len(entries)) + table(entries) + text


def entries_of(file: bytes) -> list[Entry]:
    place, count = unpack_from("<Q", file, 32)[0], unpack_from("<H", file, 56)[0]
    return [unpack_from("<IIQQQQQQ", file, place + 56 * i) for i in range(count)]


def highest(file: bytes) -> int:
    """The base that is taken where none is told."""
    loads = [it for it in entries_of(file) if it[0] == LOAD and it[6]]
    align = max([PAGE] + [it[7] for it in loads])
    return max(END - max(it[3] + it[6] for it in loads), 0) // align * align


def moved(it: Entry, later: int, base: int) -> Entry:
    kind, flags, offset, vaddr, paddr, filesz, memsz, align = it
    return 0 if kind in (DYNAMIC, PHDR) else kind, flags, offset + later, vaddr + base, paddr + base, filesz, memsz, align


def stub(at: int, phdr: int, count: int, entry: int) -> bytes:
    code = WALK
    for before, number in (("", phdr), ("ebf0", count), ("ebe6", entry)):
        code += bytes.fromhex(before + "48c74708") + pack("<I", number)
    return code + bytes.fromhex("ebdc bf00000000 e9") + pack("<i", entry - (at + STUB))


def with_sections(file: bytes, sections: list[bytes], size: int = 64) -> bytes:
    """A file with section headers at its end; `size` is what it tells of the length of one."""
    for at, kind, value in ((40, "Q", len(file)), (58, "H", size), (60, "H", len(sections)), (62, "H", max(len(sections) - 1, 0))):
        file = put(file, at, kind, value)
    return file + b"".join(sections)


def section(kind: int, offset: int, size: int, addr: int = 0) -> bytes:
    return pack("<IIQQQQIIQQ", 1, kind, 2 if addr else 0, addr, offset, size, 0, 0, 1, 0)


def shown_sections(file: bytes, used: int) -> bytes:
    """The section table of a file as the front has it, where it has it."""
    place, size, count = unpack_from("<Q", file, 40)[0], *unpack_from("<HH", file, 58)
    if size != 64 or not count or place + 64 * count > len(file) or used + 7 + 64 * count > up(used):
        return b""
    shown = bytearray(file[place : place + 64 * count])
    for at in range(0, 64 * count, 64):
        if unpack_from("<I", shown, at + 4)[0]:
            pack_into("<Q", shown, at + 24, (unpack_from("<Q", shown, at + 24)[0] + up(used)) % (1 << 64))
    return bytes(shown)


def settled(file: bytes, base: int) -> bytes:
    entries, place = entries_of(file), unpack_from("<Q", file, 32)[0]
    count, size = len(entries), 56 * len(entries)
    used = 64 + 56 * (count + 1) + STUB
    low = base - up(used)
    at = low + used - STUB
    own = next(it for it in entries if it[0] == LOAD and it[2] <= place and place + size <= it[2] + it[5])
    first = (LOAD, 5, 0, low, base, used, used, PAGE)
    front = header(2, at, count + 1) + table([first] + [moved(it, up(used), base) for it in entries])
    front += stub(at, base + own[3] + place - own[2], count, base + unpack_from("<Q", file, 24)[0])
    sections = shown_sections(file, used)
    if sections:
        front = put(front, 40, "Q", used + 7)[:58] + pack("<HH", 64, len(sections) // 64) + file[62:64] + front[64:]
        front = front.ljust(used + 7, b"\0") + sections
    return front.ljust(up(used), b"\0") + file
