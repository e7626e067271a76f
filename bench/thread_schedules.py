#!/usr/bin/env python3
"""thread_schedules.py stdin|stdout: the lines that the program of crates/thread_tests reads, or those that it has to print.

Each guest has a text that counts at 0x20080 by a load, `lea` and a store, which other threads may spoil, and a jump whose
event counts at 0x20040; 200 schedules of two to four threads are drawn, and an independent program (stepped_guest.py)
steps them. What is left where a schedule stops, or no guest starts, was worked out by hand.
"""
import random
import sys

from stepped_guest import Guest

TEXT = bytes.fromhex("488b1c2580000200488d5b0148891c2580000200e9ecffff01")
# the event of site 0 for threads, and a jump to 0x401000
CODE = bytes.fromhex("4889842478ffffff9f0f90c0f048ff042540000200047f9e488b842478ffffffe9d6fffffd")
# a jump to the code, in place of a jump to itself
JUMP = bytes.fromhex("e900000002")
AT, CODE_AT, WORDS = 0x401000, 0x2401005, (0x20040, 0x20080, 0x401000)
# of each thread rax, rsp and the flags word
VALUES = ((0x1122334455667788, 0x501000, 2), (0x22446688AACCEF10, 0x502000, 0x8D7), (0x336699CD00336698, 0x503000, 0x846),
          (0x4488CD115599DE20, 0x504000, 0x893))
COUNTS, STACKS = "zero 0000000000020000 0000000000021000 rw-", "zero 0000000000500000 0000000000505000 rw-"
BESIDE = f"bytes {CODE_AT:016x} r-x {CODE.hex()}"
SCHEDULES = 200


def word(guest: Guest, addr: int) -> str:
    """The number of eight bytes, or the address of the first that is missing."""
    missing = next((x for x in range(addr, addr + 8) if x not in guest.mem), None)
    return f"{guest.load(addr):x}" if missing is None else f"-{missing:x}"


def started(text: bytes, threads: int) -> Guest:
    """The guest at its start."""
    image = {AT + i: byte for i, byte in enumerate(text)} | {CODE_AT + i: byte for i, byte in enumerate(CODE)}
    image |= {x: 0 for x in range(0x20000, 0x21000)} | {x: 0 for x in range(0x500000, 0x505000)}
    guest = Guest(image, threads)
    for x in [x for x in guest.mem if x not in image]:
        del guest.mem[x]
    for thread, (rax, rsp, flags) in zip(guest.threads, VALUES):
        thread.rip, thread.rax, thread.rbx, thread.rsp, thread.flags = AT, rax, 0, rsp, flags
    return guest


def told(guest: Guest, end: str) -> str:
    threads = [f"{it.rip:x} {it.rax:x} {it.rbx:x} {it.rsp:x} {it.flags:x} {word(guest, it.rsp - 136)}" for it in guest.threads]
    return " | ".join([end, *threads, "none", " ".join(word(guest, addr) for addr in WORDS)])


def stepped(guest: Guest, schedule: str) -> str:
    """What a schedule leaves, up to the first step of no thread."""
    for at, digit in enumerate(schedule.strip("-")):
        if int(digit) >= len(guest.threads):
            return told(guest, f"the schedule's entry at {at} names no thread")
        guest.step(int(digit))
    return told(guest, "run")


def ran(text: bytes, line: str) -> list[str]:
    """What the schedules of a line leave, one after the other."""
    threads, *schedules = line.split(" ")
    guest = started(text, int(threads))
    return [stepped(guest, schedule) for schedule in schedules]


def random_lines() -> list[str]:
    """Schedules, some of which name a thread that isn't there."""
    draw, lines = random.Random(200), []
    for _ in range(SCHEDULES):
        threads = draw.randrange(2, 5)
        schedule = [draw.randrange(threads) for _ in range(draw.randrange(6, 40))]
        if draw.random() < 0.1:
            schedule[draw.randrange(len(schedule))] = threads + draw.randrange(3)
        lines.append(f"{threads} {''.join(map(str, schedule))}")
    return lines


def by_hand() -> list[tuple[str, list[tuple[str, list[str]]]]]:
    """Guests, their lines, and what is told of each."""
    at_start = "401000 1122334455667788 0 501000 2 -500f78"
    ended = "|".join((JUMP.hex(), "401000", "{};end"))
    return [
        # where the counter can't be written, LOCK INC has no step, and the thread stays in front of it
        ("f048ff042540000200|401000|zero 0000000000020000 0000000000020044 rw-;end", [
            ("1 0", [f"at the schedule's entry at 0: a byte is missing at 0x20044 | {at_start} | none | -20044 -20080 200402504ff48f0"])]),
        # `syscall`, `mov rbx, [rsp]`: each thread has a world of its own
        ("0f05488b1c24|401000,401002|zero 0000000000501000 0000000000501008 rw-;ask 0f05 -;set rax 0000000000000007;"
         "mem 0000000000501000 2a;end", [
            ("2 00 1", [f"{end} | 401006 7 2a 501000 2 -500f78 | 401000 22446688aaccef10 0 502000 8d7 -501f78 | none | -20040 -20080 -401006"
                        for end in ("run", "at the schedule's entry at 0: the world has no answer for the instruction at 0x401000")])]),
        # a region that meets the image is refused
        (ended.format("zero 0000000000401800 0000000000401900 rw-"), [("1 0", ["the region from 0x401800 on meets the file's image"])]),
        # no thread: the image alone is the memory
        (ended.format("zero 0000000000020000 0000000000021000 rw-"), [
            ("0 - 0", [f"{end} | none | -20040 -20080 -401005" for end in ("run", "the schedule's entry at 0 names no thread")])]),
    ]


# trampolines at 0x21000 without an event: a call through memory or rsp and a loop have none
CODES = {
    "ff13": "no code", "ffd4": "no code", "e2fe": "no code", "ffd0": "6802104000ffe0" + "90" * 32, "41ffd4": "680310400041ffe4" + "90" * 31,
    "0f05": "0f05b902104000e9f6ff3d00", "b83c000000": "b83c000000e9fbff3d00"}


def main() -> None:
    lines: list[tuple[str, list[str]]] = []
    counted = ["2 - 00000 111111111", "2 02", "3 00000 12", "1 0000000"]
    guests = (TEXT.hex(), f"{BESIDE};", random_lines()), (JUMP.hex(), f"{BESIDE};", counted), (f"{JUMP.hex()}/{CODE.hex()}", "", counted)
    for text, beside, run in guests:
        lines.append((f"{text}|401000,401008,40100c,401014|{COUNTS};{STACKS};{beside}end", []))
        lines += [(line, ran(bytes.fromhex(text.partition("/")[0]), line)) for line in run]
    for guest, told_lines in by_hand():
        lines += [(guest, []), *told_lines]
    lines += [(f"code {insn}", [code]) for insn, code in CODES.items()]
    wanted = [line for line, _ in lines] if sys.argv[1] == "stdin" else [line for _, told_of in lines for line in told_of]
    print("\n".join(wanted))


if __name__ == "__main__":
    main()
