#!/usr/bin/env python3
"""thread_projections.py E9TOOL: 200 random schedules of guests of two to four threads of a file that `threads` patched.

A program of its own steps the patched guest and, at each effect step, the original's. After each step it compares what
docs/evidence/promises.md (Guests of several threads) says: each thread's projection with the original's thread, memory
outside listed instructions, new addresses and stale bytes, and each counter with the effect steps of its site and the
threads in between.
"""
import os
import random
import struct
import subprocess
import sys
import tempfile
from collections.abc import Iterable
from typing import Optional

from stepped_guest import KEPT_BY_AH, OF, SAVE, TEXT_AT, Guest, Thread, loaded

DATA_AT = 0x500000
# rbx is read, counted up and written back, which other threads may spoil; then a call of `add rax, rbx`,
# `lea rax, [rax + rbx]` and `ret`, and again from the start
ORIGINAL = [bytes.fromhex(it) for it in (
    "488b1c2500005000", "488d5b01", "48891c2500005000", "e805000000", "e9e2ffffff", "4801d8", "488d0418", "c3")]
# where in an event the next instruction stands once each of its own is done
SAVED, READ, KNOWN, COUNTED, ADDED, GIVEN, WORK = 8, 9, 12, 21, 23, 24, 32
# an address, the bytes there, and flags
Segment = tuple[int, bytes, int]


def elf(segments: list[Segment]) -> bytes:
    """A static file of segments: address, bytes, flags."""
    at = 64 + 56 * len(segments)
    table, body = b"", b""
    for addr, data, flags in segments:
        gap = (addr - at - len(body)) % 4096
        body += bytes(gap)
        table += struct.pack("<IIQQQQQQ", 1, flags, at + len(body), addr, addr, len(data), len(data), 4096)
        body += data
    head = struct.pack("<HHIQQQIHHHHHH", 2, 62, 1, TEXT_AT, 64, 0, 0, 64, 56, len(segments), 0, 0, 0)
    return b"\x7fELF\x02\x01\x01".ljust(16, b"\0") + head + table + body


class Patched:
    """What is known of the patched file: its image, and of each patched site its number, place and instruction."""

    def __init__(self, tool: str, segments: list[Segment]) -> None:
        self.starts, at = [], TEXT_AT
        for insn in ORIGINAL:
            self.starts.append(at)
            at += len(insn)
        self.original, self.image = loaded(elf(segments)), loaded(self.file_of(tool, elf(segments)))
        self.lengths = dict(zip(self.starts, map(len, ORIGINAL)))
        self.listed = {x for it in self.starts for x in range(it, it + self.lengths[it])}
        self.new = set(self.image) - set(self.original)
        self.places: dict[int, int] = {}
        self.counters: dict[int, int] = {}
        for number, site in enumerate(self.starts):
            self.find(number, site)

    def file_of(self, tool: str, file: bytes) -> bytes:
        """What `threads` writes."""
        with tempfile.TemporaryDirectory() as folder:
            for name, data in (("file", file), ("list", "".join(f"{it:08x}\n" for it in self.starts).encode())):
                with open(f"{folder}/{name}", "wb") as written:
                    written.write(data)
            words = [tool, "threads", "file", "list", "list", "out"]
            done = subprocess.run(words, cwd=folder, capture_output=True, text=True, check=False)
            assert done.returncode in (0, 1), done
            print(done.stdout, end="")
            with open(f"{folder}/out", "rb") as out:
                return out.read()

    def find(self, number: int, site: int) -> None:
        """Notes the place and the counter of a site that is patched."""
        code = bytes(self.image[site + i] for i in range(9))
        pads = len(code) - len(code.lstrip(b"\x40"))
        if code[pads] != 0xE9:
            return
        place = site + pads + 5 + struct.unpack_from("<i", code, pads + 1)[0]
        if bytes(self.image.get(place + i, 0) for i in range(8)) == SAVE:
            self.places[site] = place
            self.counters[site] = struct.unpack("<I", bytes(self.image[place + 17 + i] for i in range(4)))[0]
            first = min(self.counters)
            assert self.counters[site] == self.counters[first] + 8 * (number - self.starts.index(first))

    def within(self, rip: int) -> tuple[Optional[int], int]:
        """The site whose trampoline has this address, and how far behind its beginning it is."""
        for site, place in self.places.items():
            if place <= rip < place + 64:
                return site, rip - place
        return None, 0


def projection(patched: Patched, guest: Guest, it: Thread, effect_made: bool) -> tuple[int, ...]:
    """What a thread of the patched guest counts as in the original."""
    site, at = patched.within(it.rip)
    if site is None:
        return it.told()
    rax, flags, rip = it.rax, it.flags, site
    if SAVED <= at < WORK:
        rax = guest.load(it.rsp - 136)
    if COUNTED <= at < GIVEN:
        flags = (it.rax >> 8) & KEPT_BY_AH | 2
        # overflow stands in al until 127 is added to it, and then among the flags
        over = it.rax & 1 if at < ADDED else it.flags & OF
        flags |= OF if over else 0
    if effect_made:
        insn = ORIGINAL[patched.starts.index(site)]
        rip = site + len(insn) + (struct.unpack_from("<i", insn, 1)[0] if insn[0] in (0xE8, 0xE9) else 0)
    return rip, rax, it.rbx, it.rsp, flags


class Both:
    """The patched guest and the original's, stepped together and compared after each step."""

    def __init__(self, patched: Patched, count: int, schedule: list[int]) -> None:
        self.patched, self.schedule = patched, schedule
        self.guest, self.original = Guest(patched.image, count), Guest(patched.original, count)
        self.made, self.effect, self.between = {it: 0 for it in patched.places}, [False] * count, 0
        self.stale: set[int] = set()

    def step(self, number: int) -> set[int]:
        """Makes an instruction of a thread, and where that is one of the original's, that one too; what was written."""
        before = self.guest.threads[number].rip
        site, at = self.patched.within(before)
        wrote = self.guest.step(number)
        if before in self.patched.places:
            self.effect[number] = False
        elif site is None or at == WORK:
            wrote |= self.original.step(number)
            self.stale -= wrote
            self.effect[number] = site is not None
            if site is not None:
                self.made[site] += 1
        elif at == 0:
            self.stale |= wrote
        return wrote

    def compare(self, addresses: Iterable[int]) -> None:
        for x in addresses:
            is_other = x in self.patched.listed or x in self.patched.new or x in self.stale
            assert is_other or self.guest.mem[x] == self.original.mem[x], (self.schedule, hex(x))

    def compare_threads(self, number: int) -> None:
        for k, thread in enumerate(self.guest.threads):
            counts_as = projection(self.patched, self.guest, thread, self.effect[k])
            assert counts_as == self.original.threads[k].told(), (self.schedule, number, k)

    def compare_counters(self) -> None:
        places = [self.patched.within(thread.rip) for thread in self.guest.threads]
        for site, counter in self.patched.counters.items():
            counted = sum(1 for (of, at), is_made in zip(places, self.effect)
                          if of == site and COUNTED <= at and not is_made)
            assert self.guest.load(counter) == self.made[site] + counted, (self.schedule, hex(site))
            self.between += counted


def follow(patched: Patched, count: int, schedule: list[int]) -> tuple[int, int]:
    """Makes a schedule, and compares after each step; how many effect steps there were, and counts in between."""
    both = Both(patched, count, schedule)
    for number in schedule:
        wrote = both.step(number)
        both.compare_threads(number)
        both.compare(wrote)
        both.compare_counters()
    both.compare(both.original.mem)
    return sum(both.made.values()), both.between


def main() -> None:
    segments = [(TEXT_AT, b"".join(ORIGINAL), 5), (DATA_AT, bytes(16), 6)]
    patched = Patched(os.path.realpath(sys.argv[1]), segments)
    draw, steps, events, between = random.Random(200), 0, 0, 0
    for _ in range(200):
        count = draw.randrange(2, 5)
        schedule: list[int] = []
        while len(schedule) < 400:
            # a thread goes on for a while, mostly for one instruction
            schedule += [draw.randrange(count)] * draw.choice((1, 1, 1, 2, 5, 20))
        made, counted = follow(patched, count, schedule)
        steps, events, between = steps + len(schedule), events + made, between + counted
    print(f"200 schedules of {steps} steps: {events} effect steps of patched sites, and {between} times a thread "
          "between its count and its effect step; each projection, all memory and each counter are as they are "
          "promised, after each step")


if __name__ == "__main__":
    main()
