"""What is written of a file: computed from docs/reference/formats.md (A whole patched file), by sets of addresses."""
from collections.abc import Mapping
from struct import pack
from typing import NamedTuple

PAGE, PRIVATE, TABLE = 0x1000, 0x20000, 0x10000
Pieces = Mapping[int, bytes]


class Entry(NamedTuple):
    """An entry of a program header table, of a PT_LOAD if its kind is 1."""

    flags: int
    offset: int
    addr: int
    size: int
    memory: int = -1
    kind: int = 1

    def bytes(self) -> bytes:
        """p_type to p_align; memory is as long as the file's bytes if it isn't given."""
        memory = self.size if self.memory < 0 else self.memory
        return pack("<IIQQQQQQ", self.kind, self.flags, self.offset, self.addr, self.addr, self.size, memory, 0x1000)


class File(NamedTuple):
    """A file: where its table stands, its entries, its bytes by place, its length, and where it begins to run."""

    entries: list[Entry]
    parts: Pieces
    length: int
    phoff: int = 64
    entry: int = 0x401000

    def bytes(self) -> bytes:
        """The header, the table where it isn't given among the parts, the parts, and zeros between."""
        header = b"\x7fELF\2\1\1".ljust(16, b"\0")
        header += pack("<HHIQQQIHHHHHH", 2, 62, 1, self.entry, self.phoff, 0, 0, 64, 56, len(self.entries), 0, 0, 0)
        whole = bytearray(self.length)
        for place, data in {0: header, self.phoff: b"".join(entry.bytes() for entry in self.entries), **self.parts}.items():
            data = data[: max(self.length - place, 0)]
            whole[place : place + len(data)] = data
        return bytes(whole)


def padded(data: bytes) -> bytes:
    return data.ljust(len(data) + -len(data) % PAGE, b"\0")


def groups_of(pieces: Pieces) -> dict[int, int]:
    """The group of each page with code: the least one of which no lower page has an occupied offset in common with it."""
    offsets: dict[int, set[int]] = {}
    for place, code in pieces.items():
        for at in range(place, place + len(code)):
            offsets.setdefault(at & -PAGE, set()).add(at % PAGE)
    taken: list[set[int]] = []
    groups = {}
    for page in sorted(offsets):
        groups[page] = next((group for group, held in enumerate(taken) if not held & offsets[page]), len(taken))
        taken += [set()] if groups[page] == len(taken) else []
        taken[groups[page]] |= offsets[page]
    return groups


def runs_of(groups: Mapping[int, int]) -> list[tuple[int, int, int]]:
    """The first page, its group and the number of pages of each run whose pages and groups both go up by one."""
    runs: list[tuple[int, int, int]] = []
    for page, group in sorted(groups.items()):
        first, number, many = runs[-1] if runs else (0, 0, 0)
        if many and (page, group) == (first + PAGE * many, number + many):
            runs[-1] = (first, number, many + 1)
        else:
            runs.append((page, group, 1))
    return runs


def is_moved(entry: Entry, entries: list[Entry]) -> bool:
    """A nonempty PT_LOAD whose bytes in the file overlap the first 64 or those of another one."""
    others = [(0, 64)] + [(it.offset, it.offset + it.size) for it in entries if it is not entry and it.kind == 1]
    return any(max(entry.offset, lo) < min(entry.offset + entry.size, hi) for lo, hi in others)


def over(data: bytes, addr: int, writes: Pieces) -> bytes:
    """A segment's bytes from an address on with what is written over them."""
    changed = bytearray(data)
    for place, new in writes.items():
        for at, byte in enumerate(new, place - addr):
            if 0 <= at < len(changed):
                changed[at] = byte
    return bytes(changed)


def written(file: File, writes: Pieces, pieces: Pieces, private: int = PRIVATE, pages: int = 1) -> bytes:
    """The patched file: the original, moved segments, the table, the private range, and the pages of code by their groups."""
    front = bytearray(file.bytes())
    loads = [entry for entry in file.entries if entry.kind == 1]
    moved = [entry for entry in loads if is_moved(entry, loads)]
    for entry in loads:
        if entry not in moved:
            held = slice(entry.offset, entry.offset + entry.size)
            front[held] = over(bytes(front[held]), entry.addr, writes)
    original, out, places = file.bytes(), padded(bytes(front)), {}
    for entry in moved:
        places[entry] = len(out) + entry.addr % PAGE
        held = slice(entry.offset, entry.offset + entry.size)
        out += padded(bytes(entry.addr % PAGE) + over(original[held], entry.addr, writes))
    groups = groups_of(pieces)
    runs, table = runs_of(groups), len(out)
    count = len(file.entries) + 2 + len(runs)
    shown = table + -(-56 * count // PAGE) * PAGE
    code = shown + PAGE * pages
    entries = [Entry(4, table, TABLE, 56 * count), Entry(6, shown, private, PAGE * pages)]
    entries += [Entry(5, code + PAGE * group, first, PAGE * many) for first, group, many in runs]
    entries += [entry._replace(offset=places.get(entry, entry.offset)) for entry in loads]
    entries = [entry for entry in file.entries if entry.kind != 1] + sorted(entries, key=lambda it: it.addr)
    out += padded(b"".join(entry.bytes() for entry in entries)) + bytes(PAGE * pages)
    held_pages = bytearray(PAGE * (max(groups.values(), default=-1) + 1))
    for place, data in pieces.items():
        for at, byte in enumerate(data, place):
            held_pages[PAGE * groups[at & -PAGE] + at % PAGE] = byte
    whole = bytearray(out + held_pages)
    whole[32:40], whole[56:58] = pack("<Q", table), pack("<H", count)
    return bytes(whole)


def report(file: File, action: str, sites: list[str], pieces: Pieces, private: int = PRIVATE, pages: int = 1) -> bytes:
    """The report of it, with the lines of each site in turn order."""
    front = f"e9report 2\norigin {file.length} {file.phoff} {len(file.entries)} {file.entry:016x}\naction {action}\n"
    front += f"private {private:08x} {pages}\nsites {len(sites)}\n"
    return (front + "".join(sites) + "".join(f"page {page:08x} {group}\n" for page, group in sorted(groups_of(pieces).items())) + "end\n").encode()


def summary(**counts: int) -> bytes:
    """The three lines of a patch, by its outcomes."""
    schemes, left = ("B1", "B2", "T1", "T2", "T3"), ("NotRelocatable", "NoPlan", "Shared")
    told = [" ".join(f"{name} {counts.get(name, 0)}" for name in names) for names in (schemes, left)]
    patched = sum(counts.get(name, 0) for name in schemes)
    total = patched + sum(counts.get(name, 0) for name in left)
    return "\n".join([f"sites {total} patched {patched} left {total - patched}", *told, ""]).encode()
