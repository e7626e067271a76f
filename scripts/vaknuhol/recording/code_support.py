"""Whether what a patch displaces and changes is code: a site's bytes, those of a neighbour that is displaced for it,
and those that a jump uses as they stand must be of listed instructions for which there is more than weak evidence.

Candidates stand only where their own jumps and those of the instruction behind them are; how far away another neighbour
lies is seen when e9tool has chosen it, in its report.
"""
import bisect
import re

from vaknuhol.program.listing import Listing
from vaknuhol.program.listing_file import WITHOUT_SUPPORT

WITH_NEIGHBOUR = r"(?m)^site ([0-9a-f]+) [0-9]+ T[23]\n((?:(?:tramp|write|pun) .*\n)+)"
BYTES = r"(?m)^(?:write|pun) ([0-9a-f]+) ([0-9a-f]+)"


class Support:
    """The bytes of a program's text that have no support."""

    def __init__(self, listing: Listing) -> None:
        ranges = sorted((span.low, span.high) for span in listing.ranges(WITHOUT_SUPPORT))
        self.lows, self.highs = [low for low, _ in ranges], [high for _, high in ranges]

    def lacks(self, low: int, high: int) -> bool:
        """Whether a byte from one address on and below another has none."""
        at = bisect.bisect_left(self.lows, high) - 1
        return at >= 0 and self.highs[at] > low

    def sites_without(self, report: str) -> set[int]:
        """The sites of a report whose jumps have bytes without support."""
        if not self.lows:
            return set()
        return {int(site, 16) for site, lines in re.findall(WITH_NEIGHBOUR, report)
                if any(self.lacks(int(addr, 16), int(addr, 16) + len(code) // 2) for addr,
                       code in re.findall(BYTES, lines))}
