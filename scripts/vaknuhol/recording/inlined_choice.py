"""The blocks in which inlined calls begin, of functions that are chosen by name."""
import bisect
import re

from vaknuhol.messages import note
from vaknuhol.program.blocks import Block
from vaknuhol.program.debug_info import INLINED, debug_info


def inlined_blocks(path: str, blocks: list[Block], pattern: re.Pattern[str]) -> set[int]:
    """The first addresses of these blocks. Each counts how often that block is executed, a loop's head once a round."""
    info = debug_info(path)
    inlined = [instance for instance in info.instances() if info.kind[instance - 1] & INLINED
               and info.ranges[instance - 1]]
    names = {instance: info.name_of(instance) for instance in inlined}
    chosen = [instance for instance in inlined if pattern.fullmatch(names[instance])]
    firsts, found = [block.first for block in blocks], set()
    for instance in chosen:
        entry = info.entry[instance - 1] or info.ranges_of(instance)[0][0]
        at = bisect.bisect_right(firsts, entry) - 1
        if at >= 0 and entry < blocks[at].end:
            found.add(blocks[at].first)
    if chosen:
        note(f"--symbols {pattern.pattern}: {len(chosen)} inlined calls are counted, too, each by the block in which "
             "it begins")
    return found
