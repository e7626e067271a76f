#!/usr/bin/env python3
"""Random turns over starts that share bytes, with the first admissible plan of each scheme.

A line has the seven words of crates/turn_tests/src/schemes/given.rt, a digit for each start that is 1 where it shares bytes,
and, where the site shares none, what the five schemes answer: the program of that crate reads `turn` and the seven, and
prints the others. The lines of `sharing_turns.py 2026 victim=80 punned=60 other=40 site=20` are among those of its stdin.
"""
import argparse
import itertools
import random
from collections.abc import Iterator
from typing import Optional

from first_plans import answers, near_choices, spelled
from plan_turns import HIGH, LOW, PAGE, PUNNED, Choice, Entry, Lock, Plan, Range, Turn

Aim = list[tuple[Entry, Choice]]


def line_of(turn: Turn, plans: list[Optional[Plan]]) -> str:
    """The line of a turn, with the answers, if there are any."""
    starts = "".join(f"{it.addr - turn.addr:02x}" for it in turn.entries)
    ranges = ",".join(f"{low:x}-{high:x}" for low, high in turn.ranges) or "-"
    locks = [f"{addr - turn.addr:02x}" + (f"={lock:02x}" if isinstance(lock, int) else "")
             for addr, lock in sorted(turn.locks.items())]
    words = ["/".join(part.hex() for part in turn.parts), f"{turn.addr:x}", starts, f"{turn.place:x}"]
    words += [f"{turn.event:x}", ranges, ",".join(locks) or "-", "".join(str(int(it.shared)) for it in turn.entries)]
    return " ".join(words + [spelled(turn, plan) for plan in plans])


# instructions; a dot is any digit, and a second instruction begins at ^
PLAIN = """8b03 488b8424........ b8........ 4889d8 4801c3 4883c1.. 83c1.. 0fb6c1 c3 ffd0 ff13 74.. 7f.. 0f84....0000
e8....0000 0f05 f30f1efa 90 90 55 5b 48b8................ 4881c3........ 66666648c78424........ ffe0 48c7c0........
488d05....0000 0f1f40.. 41ffd0 dbe3 0f28c1 31c0 488b44240. ff6f.. 660f6f05....0000 480fafc3 05........ 62f17c4828c1
e2.. 66b8.... c5f858c1 89d8 ff142500304000 06 f4 8b43.. e9....0000 eb.. 10..........00 004801c3 30ff 7a..""".split()
SHARING = """f0^0fb113 f0^480fb13b f0^830301 f0^ff03 f0^ff03 b8^83c00190 48b8^4889d84883c10190 48c7^c04801c390
b8^90^9090c3 05b8010000^00 e8550000^00 0f1f^4055 4881c3^0fb6c190 0f84^83c10100 660f1f8400550000^00 f3^480fb8c1 66^906690
c703^0f050000 69c0^48b83c00 b8ff^13eb02 b8^ff13^eb02 488d05^4889d800 8b8424^e9000000 64^488b042528000000 f2^0f38f1c0
40^b0c3 48b8b8^b801020304050607 48^89d8 83c1^90 8b43^10 c7^45^1089d84801 0fb6^c1 e9^f3ff0000 48c7c0..^..^....
66666648c78424^..^.... b8..^.... 488b8424^........ 4881c3..^....90""".split()
BASES = [0x401000, 0x401000, 0x401FE8, 0x20000, 0x22000, 0x1000000, 0x20000000, 0x30000000, 0x40000000, 0x55555000,
         0x7F000000, 0x7FFEFF00]


def filled(dice: random.Random, hexes: str) -> bytes:
    return bytes.fromhex("".join(dice.choice("0123456789abcdef") if digit == "." else digit for digit in hexes))


def random_text(dice: random.Random) -> tuple[list[bytes], list[int]]:
    """Segments, and the offsets of the starts."""
    parts, size = [b""], 0
    starts: list[int] = []
    for _ in range(dice.randint(4, 10)):
        word = dice.choice(SHARING if dice.random() < 0.4 else PLAIN)
        inner = list(itertools.accumulate(len(it) // 2 for it in word.split("^")))[:-1]
        code = filled(dice, word.replace("^", ""))
        if not inner and dice.random() < 0.1 and len(code) > 1:
            inner = [dice.randrange(1, len(code))]
        starts += [size, *(size + at for at in inner)]
        parts[-1] += code
        size += len(code)
    behind = range(dice.randint(0, 8))
    parts[-1] += bytes(dice.choice((0, 0x10, 0x48, 0x7F, 0x90, 0xE9, dice.randrange(256))) for _ in behind)
    return parts, starts


def parted(dice: random.Random, base: int, parts: list[bytes]) -> list[bytes]:
    """The same, or two segments where a page begins in it."""
    text, cut = parts[0], -base % PAGE
    return [text[:cut], text[cut:]] if 0 < cut < len(text) and dice.random() < 0.7 else parts


def random_lock(dice: random.Random) -> Lock:
    kinds: tuple[Lock, Lock] = (PUNNED, dice.choice((0xE9, 0x40, 0, dice.randrange(256))))
    return dice.choice(kinds)


def random_locks(dice: random.Random, turn: Turn) -> dict[int, Lock]:
    """Changed and punned bytes behind the site."""
    behind = [addr for addr in turn.image if turn.site.end <= addr]
    some = dice.sample(behind, min(len(behind), dice.choice((0, 0, 0, 1, 2, 3))))
    return {addr: random_lock(dice) for addr in some}


def aims(turn: Turn) -> Iterator[Aim]:
    """Jumps that a scheme might take, each with the entry whose trampoline it leads to; victims may share bytes."""
    site = turn.site
    for pads in range(1 if site.length > 4 else site.length):
        yield [(site, Choice(site.addr, site.end, pads, 0x40))]
    for it in turn.entries:
        if it.work is None or it.addr < site.end:
            continue
        if it.addr == site.end and site.length <= 4:
            for pads, more in itertools.product(range(site.length), range(min(5, it.length))):
                yield [(site, Choice(site.addr, site.end, pads, 0x40)), (it, Choice(it.addr, it.end, more, 0x40))]
        for at, _ in near_choices(turn, it):
            yield [(site, Choice(at, it.end, 0, 0x40)), (it, Choice(it.addr, it.end, 0, 0x40))]


def random_places(dice: random.Random, turn: Turn, aim: Aim) -> Optional[list[tuple[int, int]]]:
    """Where the jumps of an aim lead with random bytes where they may write; none where that is no place."""
    fixed = {addr: byte for _, choice in aim for addr, byte in choice.fixed().items()}
    own = {addr: dice.choice((0, 0, 0xFF, dice.randrange(256)))
           for _, choice in aim for addr in choice.displacement() if addr < choice.end}
    found = []
    for entry, choice in aim:
        there = [fixed.get(addr, own.get(addr, turn.now(addr))) for addr in choice.displacement()]
        known = bytes(byte for byte in there if byte is not None)
        if len(known) < len(there):
            return None
        place = choice.next + int.from_bytes(known, "little", signed=True)
        if not LOW + 64 <= place < HIGH - 1024:
            return None
        found.append((place, turn.size(entry, entry is turn.site)))
    return found


def random_ranges(dice: random.Random, turn: Turn) -> list[Range]:
    """Free ranges where trampolines might stand: of their size, of a byte fewer, or with some more bytes."""
    wanted: list[Range] = []
    all_aims = list(aims(turn))
    for _ in range(dice.randint(0, 5)):
        kinds = [[aim for aim in all_aims if len(aim) == n] for n in (1, 2)]
        some = dice.choice([kind for kind in kinds if kind])
        tried = (random_places(dice, turn, dice.choice(some)) for _ in range(20))
        for place, size in next(filter(None, tried), []):
            low = place - dice.choice((0, 0, 1, dice.randrange(64)))
            high = place + size + dice.choice((0, 0, -1, 1, dice.randrange(64)))
            wanted.append((low & -PAGE, (low & -PAGE) + PAGE) if dice.random() < 0.08 else (low, high))
    taken = turn.addr & -PAGE, max(turn.image) + PAGE
    found: list[Range] = []
    for low, high in sorted(wanted):
        if (not found or found[-1][1] < low) and (high <= taken[0] or taken[1] <= low):
            found.append((max(low, LOW), min(high, HIGH)))
    return found


def random_turn(dice: random.Random) -> Optional[Turn]:
    """A turn with starts that share bytes; none where no instruction of it can be a site."""
    base, (parts, starts) = dice.choice(BASES), random_text(dice)
    parts = parted(dice, base, parts)
    starts = [base + at for at in starts]
    turn = Turn(parts, base, starts, 0, dice.choice((0, 8, 36, 80)), [], {})
    near = [n for n, it in enumerate(turn.entries)
            if it.work and any(e.shared and abs(e.addr - it.addr) < 24 for e in turn.entries)]
    own = [n for n in near if not turn.entries[n].shared]
    if not own:
        return None
    place = dice.choice(own if dice.random() < 0.9 else near)
    turn = Turn(parts, base, starts, place, turn.event, [], {})
    turn.locks = random_locks(dice, turn)
    turn.ranges = random_ranges(dice, turn)
    return Turn(parts, base, starts, place, turn.event, turn.ranges, turn.locks)


def with_marks(turn: Turn, marks: list[bool]) -> Turn:
    """The same turn where instructions are taken to share bytes as the marks say."""
    starts = [it.addr for it in turn.entries]
    other = Turn(turn.parts, turn.addr, starts, turn.place, turn.event, turn.ranges, turn.locks)
    other.entries = [it._replace(shared=mark) for it, mark in zip(turn.entries, marks)]
    other.site = other.entries[turn.place]
    return other


def kind_of(turn: Turn, plans: list[Optional[Plan]]) -> Optional[str]:
    """What a turn shows: a site that shares bytes, a victim passed over for that, punned bytes of such, or others."""
    if turn.site.shared:
        return "site"
    if answers(with_marks(turn, [False] * len(turn.entries))) != plans:
        return "victim"
    shared = {addr for it in turn.entries if it.shared for addr in range(it.addr, it.end)}
    if any(plan.punned() & shared for plan in plans if plan):
        return "punned"
    return "other" if any(plan and len(plan.tramps) == 2 for plan in plans) else None


def turns(seed: int, wanted: dict[str, int]) -> Iterator[tuple[str, str]]:
    """Lines of turns of each kind, as many as are wanted."""
    dice, left = random.Random(seed), dict(wanted)
    while any(left.values()):
        turn = random_turn(dice)
        plans = [] if turn is None or turn.site.shared else answers(turn)
        kind = kind_of(turn, plans) if turn else None
        if turn and kind and left.get(kind):
            left[kind] -= 1
            yield kind, line_of(turn, plans)


def main() -> None:
    parser = argparse.ArgumentParser(description=__doc__, formatter_class=argparse.RawDescriptionHelpFormatter)
    parser.add_argument("seed", type=int)
    parser.add_argument("wanted", nargs="+", metavar="KIND=NUMBER",
                        help="victim, punned, other, site: how many lines of each kind")
    words = parser.parse_args()
    wanted = {kind: int(number) for kind, number in (it.split("=") for it in words.wanted)}
    for kind, line in sorted(turns(words.seed, wanted)):
        print(kind, line)


if __name__ == "__main__":
    main()
