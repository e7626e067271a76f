"""Obstacles to patching a program, by its listing: each finding in a line, with what can be done about it."""
from collections.abc import Iterator
from typing import NamedTuple

from vaknuhol.program.listing import Listing
from vaknuhol.program.listing_file import (BREAK, DATA, DOUBTFUL, KERNEL, NO_LENGTH, RESTARTED, SHARED, TABLE, UNSURE,
                                           Range)

SHOWN = 4
AVOID_EVEX = "GLIBC_TUNABLES=glibc.cpu.hwcaps=-AVX512F,-AVX512VL"
SIGACTION = bytes.fromhex("b80d000000")  # mov $13, %eax: the number of rt_sigaction
BEFORE_CALL = 6  # instructions before a system call among which its number is looked for


class Finding(NamedTuple):
    """A line; `is_against` where a patched program may go wrong by it, or blocks are left."""
    is_against: bool
    text: str


def count_of(number: int, name: str) -> str:
    return f"{number} {name}{'s' * (number != 1)}"


def range_text(ranges: list[Range]) -> str:
    """How many bytes they have, and the first of them."""
    shown = " ".join(f"{span.low:x}-{span.high:x}" for span in ranges[:SHOWN])
    size = sum(span.high - span.low for span in ranges)
    return f"{count_of(size, 'byte')} ({shown}{' ..' if len(ranges) > SHOWN else ''})"


def marked(listing: Listing, mark: int) -> list[int]:
    """The addresses of the instructions that have a mark."""
    return [addr for addr, marks in zip(listing.addr, listing.marks) if marks & mark]


def of_ranges(listing: Listing) -> Iterator[Finding]:
    doubtful, data, breaks = (listing.ranges(kind) for kind in (DOUBTFUL, DATA, BREAK))
    if doubtful:
        yield Finding(True, f"{range_text(doubtful)} of the text may be no code: they are not listed as code, "
                            "and no site is placed beside them")
    if data:
        yield Finding(True, f"{range_text(data)} of the text are data, as a jump table or what code reads: no "
                            "site is placed beside them")
    if breaks:
        shown = " ".join(f"{place.low:x}" for place in breaks[:SHOWN])
        yield Finding(True, f"code leads to bytes that are no instruction in {count_of(len(breaks), 'place')} "
                            f"({shown}): one may be made as the program runs, or be of a newer processor")
    if listing.file.zeros or listing.file.traps:
        yield Finding(False, f"{count_of(listing.file.zeros, 'byte')} 00 and {listing.file.traps} CC fill the gaps "
                             "between functions")


def of_instructions(listing: Listing) -> Iterator[Finding]:
    shared, unknown = marked(listing, SHARED), marked(listing, NO_LENGTH)
    unsure = [addr for addr, marks, level in zip(listing.addr, listing.marks, listing.file.level)
              if marks & UNSURE and level == TABLE]
    if shared:
        yield Finding(False, f"{count_of(len(shared), 'instruction')} share bytes, as when a jump skips a prefix "
                             f"(from {shared[0]:x} on): "
                             "they are left")
    if unknown:
        yield Finding(False, f"{count_of(len(unknown), 'instruction')} (from {unknown[0]:x} on) have no length that "
                             "e9tool knows, most of them "
                             "of AVX-512: they are left, and what is proved doesn't reach them; with glibc, "
                             f"{AVOID_EVEX} avoids them")
    if unsure:
        yield Finding(True, f"for {count_of(len(unsure), 'instruction')} (from {unsure[0]:x} on) the only evidence is "
                            "a jump table without a known end: no site is placed there")


def sets_handlers(listing: Listing) -> int:
    """The address of a call of the kernel that sets a signal handler, or 0."""
    for number, kind in enumerate(listing.kind):
        if kind == KERNEL:
            for before in range(max(0, number - BEFORE_CALL), number):
                if listing.size[before] == len(SIGACTION) and listing.program.read(listing.addr[before],
                                                                                   len(SIGACTION)) == SIGACTION:
                    return listing.addr[number]
    return 0


def findings(listing: Listing) -> list[Finding]:
    """All that the listing shows."""
    found = [*of_ranges(listing), *of_instructions(listing)]
    sequences = listing.ranges(RESTARTED)
    if sequences:
        found.append(Finding(False, f"{count_of(len(sequences), 'restartable sequence')} (rseq), "
                                    f"{range_text(sequences)}: the blocks of each, and what begins it, are left"))
    handlers = sets_handlers(listing)
    if handlers:
        found.append(Finding(False, f"it can set signal handlers (at {handlers:x}): vaknuhol holds signals back while "
                                    "they would disturb an event; run by itself, only a patch for `cover --threads` "
                                    "without `--when` is safe with them"))
    return found


def warning(listing: Listing, path: str) -> str:
    """One line where there is an obstacle to patching, else nothing."""
    against = sum(1 for finding in of_ranges(listing) if finding.is_against)
    return f"parts of the text of {path} may be no code: vaknuhol fit {path} shows which" if against else ""
