"""What is written of a short text at 0x401000 whose plans and codes are given: the patched file, its report and what is printed, as page
formats has them (docs/reference/formats.md)."""
from collections.abc import Iterator, Sequence
from struct import pack, pack_into
from typing import NamedTuple

from made_rows import entry, file_of, read

TEXT, PAGE, PRIVATE = 0x401000, 0x1000, 0x20000
SCHEMES, LEFT = ("B1", "B2", "T1", "T2", "T3"), ("NotRelocatable", "NoPlan", "Shared")
# of the stub of the row load_of_one_mov: its code, where it stands, its save page, and how many runs it maps
CODE, AT, SAVE = read("rows/load_of_one_mov/after/O")[5 * PAGE : 6 * PAGE], 0x22000, 0x24000


class Tramp(NamedTuple):
    """The code of a start at a place, and whether it records an event."""

    place: int
    start: int
    event: bool
    code: bytes


class Site(NamedTuple):
    """What becomes of a site; writes have the bytes after them, puns those that a jump uses."""

    addr: int
    number: int
    outcome: str
    tramps: Sequence[Tramp] = ()
    writes: Sequence[tuple[int, bytes]] = ()
    puns: Sequence[tuple[int, bytes]] = ()


class Patch(NamedTuple):
    """A text, its sites in turn order, the pages of the private range, the action's words and whether threads share the memory."""

    text: bytes
    sites: Sequence[Site]
    pages: int
    action: str
    threads: bool = False


def jumping(addr: int, number: int, length: int, place: int, code: bytes, around: bytes = b"") -> Site:
    """A site by one jump: B1, or B2 where its bytes don't hold the jump, and the bytes behind it follow."""
    jump = b"\xe9" + pack("<i", place - addr - 5)
    tramps, writes = [Tramp(place, addr, True, code)], [(addr, jump[:length])]
    if length >= 5:
        return Site(addr, number, "B1", tramps, writes)
    assert jump[length:] == around[: 5 - length]
    return Site(addr, number, "B2", tramps, writes, [(addr + length, jump[length:])])


def tramps_of(patch: Patch) -> list[Tramp]:
    return [tramp for site in patch.sites for tramp in site.tramps]


def occupied(patch: Patch) -> dict[int, int]:
    """The offsets of each page with code that a byte of it has, as bits."""
    found: dict[int, int] = {}
    for tramp in tramps_of(patch):
        for at in range(tramp.place, tramp.place + len(tramp.code)):
            found[at & -PAGE] = found.get(at & -PAGE, 0) | 1 << at % PAGE
    return found


def groups_of(patch: Patch) -> dict[int, int]:
    """Each page's group: the least with no lower page that has code at an offset of its own."""
    taken: list[int] = []
    found = {}
    for page, bits in sorted(occupied(patch).items()):
        group = next((number for number, mask in enumerate(taken) if not mask & bits), len(taken))
        taken += [0] * (group == len(taken))
        taken[group] |= bits
        found[page] = group
    return found


def runs_of(groups: dict[int, int]) -> Iterator[tuple[int, int, int]]:
    """Maximal runs of pages whose groups go up with them: the first page, the first group, and how many."""
    first, count = -1, 0
    for page, group in sorted(groups.items()):
        if count and page == first + PAGE * count and group == groups[first] + count:
            count += 1
            continue
        if count:
            yield first, groups[first], count
        first, count = page, 1
    if count:
        yield first, groups[first], count


def report(patch: Patch) -> bytes:
    """The report of the patch."""
    mode = "mode threads\n" if patch.threads else ""
    lines = [f"{mode}e9report 2\norigin {PAGE + len(patch.text)} 64 1 {TEXT:016x}\naction {patch.action}\n"]
    lines.append(f"private {PRIVATE:08x} {patch.pages}\nsites {len(patch.sites)}\n")
    for site in patch.sites:
        lines.append(f"site {site.addr:08x} {site.number} {site.outcome}\n")
        lines += [f"tramp {it.place:08x} {it.start:08x} {'event' if it.event else 'plain'}\n" for it in site.tramps]
        for addr, now in site.writes:
            was = patch.text[addr - TEXT : addr - TEXT + len(now)]
            lines.append(f"write {addr:08x} {was.hex()} {now.hex()}\n")
        lines += [f"pun {addr:08x} {there.hex()}\n" for addr, there in site.puns]
    lines += [f"page {page:08x} {group}\n" for page, group in sorted(groups_of(patch).items())]
    return "".join([*lines, "end\n"]).encode()


def text_after(patch: Patch) -> bytes:
    changed = bytearray(patch.text)
    for site in patch.sites:
        for addr, now in site.writes:
            changed[addr - TEXT : addr - TEXT + len(now)] = now
    return bytes(changed)


def stub_code(at: int, save: int, runs: int) -> bytes:
    """The code of a stub at another place with another save page, and of so many runs."""
    old = {AT + 0x10C: at + 0x10C, AT + PAGE: at + PAGE, AT + PAGE + 16: at + PAGE + 16, -(AT + PAGE + 32): -(at + PAGE + 16 + 16 * runs)}
    old |= {SAVE + slot: save + slot for slot in range(0, 80, 8)}
    code = bytearray(CODE)
    for before, after in old.items():
        place = CODE.find(pack("<i", before))
        while place >= 0:
            code[place : place + 4] = pack("<i", after)
            place = CODE.find(pack("<i", before), place + 1)
    return bytes(code)


def shown_pages(patch: Patch) -> bytes:
    """The pages of code in the file, by their groups."""
    groups = groups_of(patch)
    shown = bytearray(PAGE * (1 + max(groups.values(), default=-1)))
    for tramp in tramps_of(patch):
        for at, byte in enumerate(tramp.code, tramp.place):
            shown[PAGE * groups[at & -PAGE] + at % PAGE] = byte
    return bytes(shown)


def written(patch: Patch, stub: tuple[int, int] | None = None) -> bytes:
    """The patched file; in the loader form with the addresses of the stub and of the save page."""
    end = PAGE + len(patch.text) + PAGE - 1 & -PAGE
    code_at, code = end + PAGE + PAGE * patch.pages, shown_pages(patch)
    loads = [(6, end + PAGE, PRIVATE, PAGE * patch.pages), (5, PAGE, TEXT, len(patch.text))]
    runs = [(5, code_at + PAGE * group, page, PAGE * count) for page, group, count in runs_of(groups_of(patch))]
    behind = b""
    if stub:
        at, save = stub
        records = b"".join(pack("<IIQ", page, size, place) for _, place, page, size in runs)
        held = stub_code(at, save, len(runs)) + b"/proc/self/exe\0\0" + records
        held = held.ljust(len(held) + PAGE - 1 & -PAGE, b"\0")
        stub_at = code_at + len(code)
        loads += [(5, stub_at, at, len(held)), (6, stub_at + len(held), save, PAGE)]
        behind = held + bytes(PAGE)
    else:
        loads += runs
    entries = sorted([*loads, (4, end, 0x10000, 56 * (len(loads) + 1))], key=lambda it: it[2])
    front = bytearray(file_of(64, 1, patch.text)[:PAGE] + text_after(patch))
    pack_into("<Q", front, 32, end)
    pack_into("<H", front, 56, len(entries))
    if stub:
        pack_into("<Q", front, 24, stub[0])
    table = b"".join(entry(*it) for it in entries)
    table = table.ljust(len(table) + PAGE - 1 & -PAGE, b"\0")
    assert len(table) == PAGE
    return bytes(front).ljust(end, b"\0") + table + bytes(PAGE * patch.pages) + code + behind


def summary(patch: Patch) -> bytes:
    """What is printed of the patch."""
    outcomes = [site.outcome for site in patch.sites]
    done = sum(it in SCHEMES for it in outcomes)
    lines = [f"sites {len(outcomes)} patched {done} left {len(outcomes) - done}"]
    lines += [" ".join(f"{name} {outcomes.count(name)}" for name in names) for names in (SCHEMES, LEFT)]
    return "".join(f"{line}\n" for line in lines).encode()
