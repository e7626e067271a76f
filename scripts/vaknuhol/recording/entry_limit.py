"""Patching into a header table of no more entries than a kernel takes: in the loader form, or with new code kept nearer
until it fits.

Each run of pages with new code has an entry, but in the loader form. Instructions of five bytes and more have their
code at the least free place, so these runs grow together below the program; shorter ones need places that their bytes
allow, and are what makes entries.
"""
import itertools

from vaknuhol.arguments import Refusal
from vaknuhol.program.blocks import Block
from vaknuhol.program.kernel import MOST, entries_of
from vaknuhol.program.program_file import Program
from vaknuhol.recording.actions import Action
from vaknuhol.recording.patch_files import RunFiles
from vaknuhol.recording.patching import Patching, ThreadPatching

PAGE, TOP, LOWEST = 0x1000, 0x7FFF0000, 0x20000
ABOVE = (0x800000, 0x400000, 0x200000, 0x100000, 0)
PARTS = (1, 2, 4, 8, 16, 32)
SHORT, TIMES = 4, 4  # bytes of a site's instruction; sites for each entry of the table


def nearer(program: Program) -> list[str]:
    """The RESERVE words that are tried: from the end of the program on, then of the room below it, too."""
    first = min(start for start, _, _ in program.segments) // PAGE * PAGE
    end = -(-max(start + len(data) for start, _, data in program.segments) // PAGE) * PAGE
    found = [f"{end + further:x}-{TOP:x}" for further in ABOVE]
    return found + [f"{LOWEST + (first - LOWEST) // part // PAGE * PAGE:x}-{TOP:x}" for part in PARTS if first > LOWEST]


class Fitting(Patching):
    """Patches so that the file has at most so many entries."""

    def __init__(self, program: Program, action: Action, blocks: list[Block], reserve: list[tuple[int, int]],
                 files: RunFiles, loader: bool, most: int, command: str = "") -> None:
        super().__init__(program.path, action, blocks, reserve, files, loader, command)
        self.most, self.given = most, self.reserve
        self.tries = nearer(program) if most < MOST and not self.loader else []

    def never_fits(self, sites: list[int]) -> bool:
        """Whether so many instructions are short that `patch` would be in vain: the new code of nearly each of them is
        in a run of pages of its own."""
        listing, many = self.blocks[0].listing, TIMES * self.most
        numbers = (number for site in sites if (number := listing.at(site)) is not None)
        short = (number for number in numbers if listing.size[number] < SHORT)
        return sum(1 for _ in itertools.islice(short, many)) == many

    def patch_once(self, starts: str, sites: list[int], files: RunFiles) -> str | None:
        if self.loader and self.command == self.first_command and self.never_fits(sites):
            self.goes_on()
        while True:
            printed = super().patch_once(starts, sites, files)
            entries = entries_of(files.patched) if printed is not None else 0
            if entries <= self.most:
                return printed
            if self.loader and self.goes_on():
                continue
            if not self.tries:
                how = "in the loader form, too" if self.loader else "however near its code is kept"
                raise Refusal(f"the patched file has {entries} program headers, and the table may have at most "
                              f"{self.most}, "
                              f"{how}: choose fewer blocks (--own, --functions, --within)")
            self.reserve = [*self.given, self.tries.pop(0)]

    def added_reserves(self) -> list[str]:
        """The RESERVE words that were added to those that were given."""
        return self.reserved[len(self.given):]


class ThreadFitting(Fitting, ThreadPatching):
    """The same for threads."""
