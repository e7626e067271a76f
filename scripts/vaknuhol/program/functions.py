"""The functions of a program by their addresses, with or without symbols: one begins where a symbol has a name for it,
where a frame or the program's entry point says so, and where a call leads, and reaches up to the next one."""
import bisect

from vaknuhol.program.blocks import words_of
from vaknuhol.program.listing import Listing
from vaknuhol.program.program_file import Program

IRELATIVE = 37  # System V ABI for x86-64: the address that a function returns is to be stored


class Functions:
    def __init__(self, listing: Listing) -> None:
        self.names = {address: name for address, name in listing.functions if not name.startswith(".")}
        self.firsts = sorted({*self.names, *listing.function_firsts()})

    def first_of(self, address: int) -> int:
        """Where the function around an address begins; before all of them, the address."""
        at = bisect.bisect_right(self.firsts, address) - 1
        return self.firsts[at] if at >= 0 else address

    def ranges(self) -> list[tuple[int, int]]:
        """From where on, and up to where, each reaches."""
        return list(zip(self.firsts, [*self.firsts[1:], 1 << 64]))

    def name(self, first: int) -> str:
        """The symbol of a function, or what one without a symbol is called."""
        return self.names.get(first) or f"the function at {first:08x}"


def choosing_functions(program: Program) -> dict[int, int]:
    """The functions that choose others for the processor as the program starts, by the addresses where their choices
    are stored: those of relocations of the type IRELATIVE in its memory, each an address, the type and the function."""
    found: dict[int, int] = {}
    for addr, _, data in program.segments:
        words = words_of(data, addr)
        for at in range(1, len(words) - 1):
            place, function = program.base + words[at - 1], program.base + words[at + 1]
            if words[at] == IRELATIVE and program.is_code(function) and program.is_loaded(place):
                found[place] = function
    return found
