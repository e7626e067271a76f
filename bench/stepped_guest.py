"""A guest of several threads, stepped by instructions: those of the program of thread_projections.py and its events."""
import struct
import sys
from collections.abc import Callable

TEXT_AT, STACKS_AT, STACK = 0x401000, 0x600000, 0x1000
MASK = (1 << 64) - 1
CF, PF, AF, ZF, SF, OF = 1, 4, 0x10, 0x40, 0x80, 0x800
KEPT_BY_AH = SF | ZF | AF | PF | CF
SAVE, FLAGS, OVER, LOCK, ADD, BACK, LOAD = (bytes.fromhex(it) for it in (
    "4889842478ffffff", "9f", "0f90c0", "f048ff0425", "047f", "9e", "488b842478ffffff"))
# what a step leads to: the length of its instruction, with the distance of a jump, and the addresses that it wrote
Made = tuple[int, set[int]]


def parity(value: int) -> int:
    return PF if bin(value & 0xFF).count("1") % 2 == 0 else 0


def plain(value: int) -> int:
    """The flags that a result alone gives."""
    return (SF if value >> 63 else 0) | (ZF if value == 0 else 0) | parity(value)


def near(code: bytes, at: int) -> int:
    number: int = struct.unpack_from("<i", code, at)[0]
    return number


def loaded(file: bytes) -> dict[int, int]:
    """What loading a file gives: bytes by address."""
    mem = {}
    place, count = struct.unpack_from("<Q", file, 32)[0], struct.unpack_from("<H", file, 56)[0]
    for number in range(count):
        kind, _, offset, addr, _, length, size, _ = struct.unpack_from("<IIQQQQQQ", file, place + 56 * number)
        if kind == 1:
            low, high = addr & -4096, -(-(addr + size) // 4096) * 4096
            for x in range(low, high):
                at = offset + x - addr
                mem[x] = file[at] if x < addr + length and 0 <= at < len(file) else 0
    return mem


class Thread:
    def __init__(self, number: int) -> None:
        self.rip, self.rax, self.rbx = TEXT_AT, 0x1122334455667788 * (number + 1) & MASK, number
        self.rsp, self.flags = STACKS_AT + STACK * (number + 1) - 256, (2, 0x8D7, 0x846, 0x893)[number]

    def told(self) -> tuple[int, ...]:
        return self.rip, self.rax, self.rbx, self.rsp, self.flags


class Guest:
    def __init__(self, image: dict[int, int], count: int) -> None:
        self.mem = dict(image)
        for x in range(STACKS_AT, STACKS_AT + 4 * STACK):
            self.mem[x] = 0
        self.threads = [Thread(number) for number in range(count)]

    def bytes_at(self, addr: int, length: int) -> bytes:
        return bytes(self.mem[x] for x in range(addr, addr + length) if x in self.mem)

    def load(self, addr: int) -> int:
        return int.from_bytes(self.bytes_at(addr, 8), "little")

    def store(self, addr: int, value: int) -> set[int]:
        for i, byte in enumerate(value.to_bytes(8, "little")):
            assert addr + i in self.mem
            self.mem[addr + i] = byte
        return set(range(addr, addr + 8))

    def step(self, number: int) -> set[int]:
        """Makes one instruction of a thread; the addresses that it wrote."""
        it = self.threads[number]
        code = self.bytes_at(it.rip, 15)
        pads = len(code) - len(code.lstrip(b"\x40"))
        code, front = code[pads:], it.rip + pads
        does = next((does for form, does in STEPS.items() if code.startswith(form)), None)
        if not does:
            sys.exit(f"no instruction of this program: {code.hex(' ')}")
        length, wrote = does(self, it, code, front)
        it.rip = front + length
        return wrote


# each does what one instruction does to a guest and its thread, by its code and the address of that behind any pads
def load_rbx(guest: Guest, it: Thread, code: bytes, _: int) -> Made:
    it.rbx = guest.load(near(code, 4))
    return 8, set()


def store_rbx(guest: Guest, it: Thread, code: bytes, _: int) -> Made:
    return 8, guest.store(near(code, 4), it.rbx)


def next_of_rbx(_: Guest, it: Thread, _code: bytes, _front: int) -> Made:
    it.rbx = (it.rbx + 1) & MASK
    return 4, set()


def sum_without_flags(_: Guest, it: Thread, _code: bytes, _front: int) -> Made:
    it.rax = (it.rax + it.rbx) & MASK
    return 4, set()


def add_rbx(_: Guest, it: Thread, _code: bytes, _front: int) -> Made:
    x, y = it.rax, it.rbx
    it.rax = (x + y) & MASK
    it.flags = 2 | plain(it.rax) | (CF if x + y > MASK else 0) | (AF if (x & 15) + (y & 15) > 15 else 0)
    it.flags |= OF if (x ^ it.rax) & (y ^ it.rax) & 1 << 63 else 0
    return 3, set()


def call(guest: Guest, it: Thread, code: bytes, front: int) -> Made:
    it.rsp -= 8
    return 5 + near(code, 1), guest.store(it.rsp, front + 5)


def push(guest: Guest, it: Thread, code: bytes, _: int) -> Made:
    it.rsp -= 8
    return 5, guest.store(it.rsp, near(code, 1) & MASK)


def jump(_: Guest, _thread: Thread, code: bytes, _front: int) -> Made:
    return 5 + near(code, 1), set()


def ret(guest: Guest, it: Thread, _: bytes, front: int) -> Made:
    length = guest.load(it.rsp) - front
    it.rsp += 8
    return length, set()


def save(guest: Guest, it: Thread, _: bytes, _front: int) -> Made:
    return 8, guest.store(it.rsp - 136, it.rax)


def load_back(guest: Guest, it: Thread, _: bytes, _front: int) -> Made:
    it.rax = guest.load(it.rsp - 136)
    return 8, set()


def lahf(_: Guest, it: Thread, _code: bytes, _front: int) -> Made:
    it.rax = it.rax & ~0xFF00 | ((it.flags & KEPT_BY_AH | 2) << 8)
    return 1, set()


def sahf(_: Guest, it: Thread, _code: bytes, _front: int) -> Made:
    it.flags = it.flags & ~KEPT_BY_AH | it.rax >> 8 & KEPT_BY_AH
    return 1, set()


def seto(_: Guest, it: Thread, _code: bytes, _front: int) -> Made:
    it.rax = it.rax & ~0xFF | (1 if it.flags & OF else 0)
    return 3, set()


def locked_inc(guest: Guest, it: Thread, code: bytes, _: int) -> Made:
    place = near(code, 5)
    value = (guest.load(place) + 1) & MASK
    wrote = guest.store(place, value)
    it.flags = it.flags & CF | 2 | plain(value) | (AF if value & 15 == 0 else 0) | (OF if value == 1 << 63 else 0)
    return 9, wrote


def add_127(_: Guest, it: Thread, _code: bytes, _front: int) -> Made:
    low = it.rax & 0xFF
    value = low + 127
    it.rax = it.rax & ~0xFF | value & 0xFF
    it.flags = 2 | (SF if value & 0x80 else 0) | (ZF if value & 0xFF == 0 else 0) | parity(value)
    it.flags |= (CF if value > 255 else 0) | (AF if (low & 15) + 15 > 15 else 0) | (OF if low < 128 <= value else 0)
    return 2, set()


STEPS: dict[bytes, Callable[[Guest, Thread, bytes, int], Made]] = {
    bytes.fromhex("488b1c25"): load_rbx,
    bytes.fromhex("48891c25"): store_rbx,
    bytes.fromhex("488d5b01"): next_of_rbx,
    bytes.fromhex("488d0418"): sum_without_flags,
    bytes.fromhex("4801d8"): add_rbx,
    b"\xe8": call,
    b"\x68": push,
    b"\xe9": jump,
    b"\xc3": ret,
    SAVE: save,
    LOAD: load_back,
    FLAGS: lahf,
    BACK: sahf,
    OVER: seto,
    LOCK: locked_inc,
    ADD: add_127,
}
