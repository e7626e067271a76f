"""The basic blocks of a program: runs of instructions that are executed equally often, as the lister parts them
(native/vaknuhol-list/blocks.h says where a block begins and ends)."""
import array
import struct
from collections.abc import Iterator
from typing import Protocol

from vaknuhol.program.listing import Instructions, Listing
from vaknuhol.program.listing_file import HAS_NAME, IS_CALLED
from vaknuhol.program.program_file import Program

LOWEST_NUMBER = 0x10000


class Span(Protocol):
    """What has a first address and an end: a block, or a row of a record."""

    @property
    def first(self) -> int: ...

    @property
    def end(self) -> int: ...


class Block:
    """A block: the number of its first instruction in the listing, how many it has, and the address of the one that is
    its site, where one is chosen."""
    __slots__ = ("listing", "number", "count", "site")

    def __init__(self, listing: Listing, number: int, count: int) -> None:
        self.listing, self.number, self.count, self.site = listing, number, count, 0

    @property
    def instructions(self) -> Instructions:
        return Instructions(self.listing, self.number, self.count)

    @property
    def addresses(self) -> list[int]:
        return self.listing.addr[self.number:self.number + self.count].tolist()

    @property
    def first(self) -> int:
        return self.listing.addr[self.number]

    @property
    def last(self) -> int:
        """The number of its last instruction."""
        return self.number + self.count - 1

    @property
    def end(self) -> int:
        listing, last = self.listing, self.number + self.count - 1
        return listing.addr[last] + listing.size[last]


def held_numbers(listing: Listing) -> set[int]:
    """The numbers that instructions hold: immediates, and addresses of operands relative to the next instruction; 0 is
    none."""
    return set(listing.file.held) | {number for number in set(listing.file.number) if number >= LOWEST_NUMBER}


def words_of(data: bytes, addr: int) -> "array.array[int]":
    """The eight-byte words at addresses that are multiples of eight."""
    skipped = -addr % 8
    words = array.array("Q")
    words.frombytes(data[skipped:len(data) - (len(data) - skipped) % 8])
    return words


def distances(program: Program, table: int, listing: Listing) -> Iterator[int]:
    """What the four-byte distances from a table lead to, as long as they lead to instructions."""
    data = program.read(table, 4096)
    for (distance,) in struct.iter_unpack("<i", data[:len(data) // 4 * 4]):
        if not listing.is_start(table + distance):
            return
        yield table + distance


def blocks_of(listing: Listing, only_functions: bool = False) -> list[Block]:
    """The blocks in order, without padding: all, or those that begin a function, which has a name or is called."""
    rows = zip(listing.file.block_first, listing.file.block_size, listing.file.begins_function)
    return [Block(listing, first, count) for first, count, begins in rows
            if begins & (HAS_NAME | IS_CALLED) or not only_functions]
