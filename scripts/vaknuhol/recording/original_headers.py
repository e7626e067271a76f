"""What the kernel tells an original of itself: where its program header table is loaded, how many entries that has, and
where the program starts. The patched file has another table, and vaknuhol-run tells it of this one in its place
(native/lib/process.c)."""
import struct

from vaknuhol.arguments import Refusal
from vaknuhol.program.program_file import PT_LOAD, read_bytes
from vaknuhol.program.settled import LONGEST, Front, front_of
from vaknuhol.recording.patch_report import Origin, Report

ENTRY = struct.Struct("<IIQQQQQQ")
ENTRY_FIELD, COUNT_FIELD = 24, 56  # e_entry and e_phoff, which follows it; e_phnum
NOT_KNOWN = (0, 0, 0)


def original_front(path: str, origin: Origin, end: int) -> bytes:
    """How the original begins: as the patched file does, but for three fields of the header."""
    front = bytearray(read_bytes(path)[:end])
    struct.pack_into("<QQ", front, ENTRY_FIELD, origin.entry, origin.phoff)
    struct.pack_into("<H", front, COUNT_FIELD, origin.phnum)
    return bytes(front)


def settled_front(report: Report, path: str) -> Front | None:
    """The front of the settled file that was patched; None of any other original."""
    origin = report.origin()
    return front_of(original_front(path, origin, LONGEST)) if origin else None


def table_address(front: bytes, origin: Origin) -> int:
    """Where the kernel says that the table is loaded: the last segment to be loaded that has its first byte tells, and
    0 is told if there is none (load_elf_binary of fs/binfmt_elf.c; before Linux 5.18 the first segment told, whatever
    it has)."""
    found = 0
    for number in range(origin.phnum):
        kind, _, offset, address, _, length, _, _ = ENTRY.unpack_from(front, origin.phoff + ENTRY.size * number)
        if kind == PT_LOAD and offset <= origin.phoff < offset + length:
            found = address + origin.phoff - offset
    return found


def told_to_original(report: Report, path: str) -> tuple[int, int, int]:
    """The address of its table, the number of entries, and the address of its entry; zeros where the report, an older
    one, doesn't say. The path is of the patched file."""
    origin = report.origin()
    if not origin:
        return NOT_KNOWN
    end = max(origin.phoff + ENTRY.size * origin.phnum, COUNT_FIELD + 2)
    front = original_front(path, origin, end)
    if len(front) < end:
        raise Refusal(f"{path} is not the patched file that {report.path} is of: it is too short")
    return table_address(front, origin), origin.phnum, origin.entry
