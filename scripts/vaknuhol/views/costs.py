"""Executed instructions, function by function: how often each block was executed, times its instructions. They are
exact as far as the counts are known; an instruction that repeats (rep movsb) counts once."""
import bisect
import functools
from collections.abc import Callable

from vaknuhol.program.functions import Functions
from vaknuhol.program.listing import Listing
from vaknuhol.recording.record_file import Row
from vaknuhol.views.coverage import Coverage


def numbers_of(row: Row, listing: Listing) -> list[int]:
    """The instructions of a block, by their numbers in the listing."""
    first, end = bisect.bisect_left(listing.addr, row.first), bisect.bisect_left(listing.addr, row.end)
    if sum(listing.size[first:end]) == row.end - row.first:
        return list(range(first, end))
    numbers = (listing.at(address) for address in listing.between(row.first, row.end))  # some share bytes
    return [number for number in numbers if number is not None]


class Costs:
    """What each function cost, by where it begins, and all of them together; `rows` has the numbers of the rows of each
    function, `function` the function of each row, and `instructions` those of each row."""

    def __init__(self, coverage: Coverage) -> None:
        listing, rows = coverage.listing, coverage.record.rows
        self.coverage, self.known = coverage, Functions(listing)
        self.instructions = [numbers_of(row, listing) for row in rows]
        self.function = [self.known.first_of(row.first) for row in rows]
        self.of: dict[int, int] = {}
        self.rows: dict[int, list[int]] = {}
        for number, (row, first) in enumerate(zip(rows, self.function)):
            self.rows.setdefault(first, []).append(number)
            self.of[first] = self.of.get(first, 0) + (row.count or 0) * len(self.instructions[number])
        self.total = sum(self.of.values())
        self.listed = self.listed_in(listing)

    def listed_in(self, listing: Listing) -> int:
        """How many instructions the functions have of which blocks were recorded."""
        spans = (span for span in self.known.ranges() if span[0] in self.of)
        return sum(bisect.bisect_left(listing.addr, high) - bisect.bisect_left(listing.addr, low)
                   for low, high in spans)

    def are_of_functions(self) -> bool:
        """Whether most of these functions was recorded, as against some blocks of them, say the first ones."""
        return 2 * sum(len(numbers) for numbers in self.instructions) >= self.listed

    @functools.cached_property
    def names(self) -> Callable[[str], str]:
        return self.coverage.names()

    def name(self, first: int) -> str:
        return self.names(self.known.name(first))

    def greatest(self) -> list[tuple[int, int]]:
        """The functions that were executed, with their costs, those with the greatest first."""
        return sorted(((first, cost) for first, cost in self.of.items() if cost), key=lambda pair: (-pair[1], pair[0]))
