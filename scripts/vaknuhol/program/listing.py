"""The instructions of a program, as the lister finds them by evidence (native/vaknuhol-list): columns of numbers, and
views of single ones.

Where a program jumps past a lock prefix, both the instruction with the prefix and the one without it are listed. They
share bytes, as e9tool says: it keeps both, and a site there is left as Shared.
"""
import bisect
import functools
import itertools
import os
from collections.abc import Iterator
from typing import Optional

from vaknuhol.program.listing_file import (BEGINS, BRANCH, CALL, CALL_INDIRECT, DOUBTFUL, END, FALLS, IS_CALLED, JUMP,
                                           JUMP_INDIRECT, KERNEL, NOTHING, RETURN, SHARED, TRAP, Range, list_of,
                                           starts_of)
from vaknuhol.program.program_file import Program

NOT_FALLING = frozenset((JUMP, RETURN, JUMP_INDIRECT, END))
OF_CALLED = bytes(number & IS_CALLED for number in range(256))
OF_BEGINNING = bytes(number & BEGINS for number in range(256))


class Instruction:
    """One instruction of a listing: a view, made when it is asked for."""
    __slots__ = ("listing", "number")

    def __init__(self, listing: "Listing", number: int) -> None:
        self.listing, self.number = listing, number

    @property
    def addr(self) -> int:
        return self.listing.addr[self.number]

    @property
    def size(self) -> int:
        return self.listing.size[self.number]

    @property
    def end(self) -> int:
        return self.listing.addr[self.number] + self.listing.size[self.number]

    @property
    def kind(self) -> int:
        return self.listing.kind[self.number]

    @property
    def target(self) -> Optional[int]:
        """Where a direct branch or call leads."""
        return self.listing.target[self.number] or None

    @property
    def code(self) -> bytes:
        return self.listing.program.read(self.addr, self.size)

    @property
    def function(self) -> Optional[str]:
        return self.listing.function_of(self.addr)

    @property
    def shares(self) -> bool:
        """Whether a byte of it is one of another listed instruction, too."""
        return bool(self.listing.marks[self.number] & SHARED)

    @property
    def jump(self) -> Optional[str]:
        """What leads to the target: a call, or a jump."""
        return None if self.target is None else "call" if self.kind == CALL else "jump"

    def is_branch(self) -> bool:
        return self.kind not in (FALLS, KERNEL, TRAP)

    def is_direct_jump(self) -> bool:
        return self.kind in (JUMP, BRANCH) and self.target is not None

    def is_call(self) -> bool:
        return self.kind in (CALL, CALL_INDIRECT)

    def falls(self) -> bool:
        return self.kind not in NOT_FALLING

    def ends_block(self) -> bool:
        return self.kind != FALLS

    def calls_kernel(self) -> bool:
        return self.kind == KERNEL

    def does_nothing(self) -> bool:
        return bool(self.listing.marks[self.number] & NOTHING)


class Instructions:
    """The instructions of a listing in order, or a run of them, as a sequence of views."""

    def __init__(self, listing: "Listing", first: int, count: int) -> None:
        self.listing, self.numbers = listing, range(first, first + count)

    def __len__(self) -> int:
        return len(self.numbers)

    def __iter__(self) -> Iterator[Instruction]:
        return (Instruction(self.listing, number) for number in self.numbers)

    def __getitem__(self, at: "int | slice") -> "Instruction | list[Instruction]":
        if isinstance(at, slice):
            return [Instruction(self.listing, number) for number in self.numbers[at]]
        return Instruction(self.listing, self.numbers[at])


class FunctionNames:
    """The function of an address, asked as a map is."""

    def __init__(self, listing: "Listing") -> None:
        self.listing = listing

    def get(self, addr: int, other: Optional[str] = None) -> Optional[str]:
        return self.listing.function_of(addr) or other


class Listing:
    """The instructions in order by columns (`addr`, `size`, `kind`, `target` and so on: listing_file.ListFile), the
    names of functions with their first addresses, and the ranges that are no supported code."""

    def __init__(self, path: str, folder: Optional[str] = None) -> None:
        self.path = path
        self.folder = folder or f"{os.path.basename(path)}.vak"
        self.file = list_of(path, self.folder)
        self.addr, self.size, self.kind, self.marks = self.file.addr, self.file.size, self.file.kind, self.file.marks
        self.target, self.writes = self.file.target, self.file.writes
        self.functions = list(zip(self.file.name_addr, self.file.names))
        self.instructions = Instructions(self, 0, len(self.addr))

    @functools.cached_property
    def program(self) -> Program:
        return Program(self.path)

    def at(self, addr: int) -> Optional[int]:
        """The number of the instruction that begins at an address."""
        number = bisect.bisect_left(self.addr, addr)
        return number if number < len(self.addr) and self.addr[number] == addr else None

    def is_start(self, addr: int) -> bool:
        return self.at(addr) is not None

    @functools.cached_property
    def starts(self) -> frozenset[int]:
        """The addresses of all instructions."""
        return frozenset(self.addr)

    def starts_text(self) -> bytes:
        """The list STARTS of e9tool."""
        return starts_of(self.path, self.folder)

    def function_of(self, addr: int) -> Optional[str]:
        """The function of an instruction; a section's name is none."""
        at = bisect.bisect_right(self.file.name_addr, addr) - 1
        return self.file.names[at] if at >= 0 and not self.file.names[at].startswith(".") else None

    def function_names(self) -> FunctionNames:
        return FunctionNames(self)

    def call_targets(self) -> set[int]:
        """The instructions to which direct calls lead."""
        return set(self.marked(OF_CALLED))

    def function_firsts(self) -> list[int]:
        """Where functions begin, ascending: what has a name or a frame, or is called from outside of its extent."""
        return self.marked(OF_BEGINNING)

    def marked(self, table: bytes) -> list[int]:
        """The first addresses of the blocks of which a mark tells that."""
        begins = bytes(self.file.begins_function).translate(table)
        return [self.addr[first] for first in itertools.compress(self.file.block_first, begins)]

    def between(self, first: int, end: int) -> list[int]:
        """The addresses of the instructions from one on, each of which begins where the one before it ends."""
        number, found = self.at(first), []
        while number is not None and first < end:
            found.append(first)
            first += self.size[number]
            number = number + 1 if number + 1 < len(self.addr) and self.addr[number + 1] == first else self.at(first)
        return found

    def ranges(self, kind: int) -> list[Range]:
        return [span for span in self.file.ranges if span.kind == kind]

    def inner(self) -> int:
        """How many instructions begin inside of other ones."""
        reached = found = 0
        for number, mark in enumerate(self.marks):
            if mark & SHARED:
                found += self.addr[number] < reached
                reached = max(reached, self.addr[number] + self.size[number])
        return found

    def summary(self) -> str:
        text = f"{len(self.addr)} starts, {self.inner()} of them inside other instructions, where jumps lead"
        doubtful = self.ranges(DOUBTFUL)
        if doubtful:
            text += f"; doubtful: {sum(span.high - span.low for span in doubtful)} bytes, from {doubtful[0].low:x} on"
        return text
