"""A settled file, as `e9tool settle` writes it (docs/reference/settled.md): a front of whole pages, and behind it a
static PIE, byte for byte, which is loaded at a base."""
import functools
import os
import struct
import tempfile
from collections.abc import Iterator
from typing import NamedTuple

HEADER, ENTRY, STUB, PAGE = 64, 56, 89, 4096
PT_LOAD, PT_DYNAMIC, ET_DYN, EM_X86_64 = 1, 2, 3, 62
RELATIVE, RELATION, WORD, BITS = 8, struct.Struct("<QQQ"), 8, 63
LONGEST = 1 << 17  # of a front and the header behind it
SYMBOL, SECTION, SYMBOLS, ALLOCATED, LAST_SECTION = 24, 64, 2, 2, 0xFF00
RELA, RELA_SIZE, RELR_SIZE, RELR = 7, 8, 35, 36  # tags of PT_DYNAMIC
SONAME, GNU_HASH, FLAGS_1, IS_PIE = 14, 0x6FFFFEF5, 0x6FFFFFFB, 0x08000000  # more of them, and a flag of the last
HASH_HEAD = struct.Struct("<IIII")


class Front(NamedTuple):
    """How long a front is, and the base of what stands behind it."""
    length: int
    base: int


def front_of(data: bytes) -> Front | None:
    """The front of a file; None of one that isn't settled."""
    if len(data) < HEADER + ENTRY or data[:4] != b"\x7fELF":
        return None
    count = struct.unpack_from("<H", data, 56)[0]
    used = HEADER + ENTRY * count + STUB
    front = -(-used // PAGE) * PAGE
    kind, _, offset, addr, base, length, _, _ = struct.unpack_from("<IIQQQQQQ", data, HEADER)
    own = data[front:front + HEADER]
    place = struct.unpack_from("<Q", data, 32)[0]
    if (place, kind, offset, length, addr + front) != (HEADER, PT_LOAD, 0, used, base):
        return None
    is_own = len(own) == HEADER and own[:4] == b"\x7fELF" and struct.unpack_from("<H", own, 16)[0] == ET_DYN
    return Front(front, base) if is_own and struct.unpack_from("<H", own, 56)[0] + 1 == count else None


def entries_of(own: bytes) -> Iterator[tuple[int, ...]]:
    """The program headers of a static PIE."""
    table, count = struct.unpack_from("<Q", own, 32)[0], struct.unpack_from("<H", own, 56)[0]
    for number in range(count):
        yield struct.unpack_from("<IIQQQQQQ", own, table + ENTRY * number)


def tags_of(own: bytes) -> dict[int, int]:
    """What PT_DYNAMIC says."""
    found: dict[int, int] = {}
    for kind, _, offset, _, _, length, _, _ in entries_of(own):
        held = own[offset:offset + length]
        if kind == PT_DYNAMIC:
            found.update((tag, value) for tag, value in struct.iter_unpack("<QQ", held[:len(held) // 16 * 16]))
    return found


def bytes_at(own: bytes, addr: int, length: int) -> bytes:
    """What stands at an address of a static PIE."""
    for kind, _, offset, start, _, size, _, _ in entries_of(own):
        if kind == PT_LOAD and start <= addr and addr + length <= start + size:
            return own[offset + addr - start:offset + addr - start + length]
    return b""


def is_library(own: bytes) -> bool:
    """Whether it has names for programs that load it, as a dynamic loader has too, and doesn't say that it is a PIE."""
    tags = tags_of(own)
    table = tags.get(GNU_HASH, 0)
    head = bytes_at(own, table, HASH_HEAD.size)
    buckets, _, words, _ = HASH_HEAD.unpack(head) if GNU_HASH in tags and head else (0, 0, 0, 0)
    names = any(bytes_at(own, table + HASH_HEAD.size + WORD * words, buckets * 4))
    return (SONAME in tags or names) and not tags.get(FLAGS_1, 0) & IS_PIE


def packed(words: bytes) -> Iterator[int]:
    """The addresses of DT_RELR: an address, or bits for the 63 words behind the last that was told of."""
    following = 0
    for word, in struct.iter_unpack("<Q", words[:len(words) // WORD * WORD]):
        if word & 1:
            yield from (following + WORD * bit for bit in range(BITS) if word >> (bit + 1) & 1)
            following += WORD * BITS
        else:
            yield word
            following = word + WORD


def relocated(own: bytes, base: int) -> dict[int, int]:
    """The words that a static PIE has at a base once it has applied its relocations of addresses of its own, by their
    addresses there; what functions choose for the processor (IRELATIVE) isn't among them."""
    tags, found = tags_of(own), {}
    table = bytes_at(own, tags.get(RELA, 0), tags.get(RELA_SIZE, 0))
    for addr, kind, addend in RELATION.iter_unpack(table[:len(table) // RELATION.size * RELATION.size]):
        if kind & 0xFFFFFFFF == RELATIVE:
            found[base + addr] = base + addend & (1 << 64) - 1
    for addr in packed(bytes_at(own, tags.get(RELR, 0), tags.get(RELR_SIZE, 0))):
        found[base + addr] = base + int.from_bytes(bytes_at(own, addr, WORD), "little") & (1 << 64) - 1
    return found


def move_symbols(own: bytearray, offset: int, size: int, base: int) -> None:
    for at in range(offset, min(offset + size, len(own)) - SYMBOL + 1, SYMBOL):
        section, value = struct.unpack_from("<HQ", own, at + 6)
        if 0 < section < LAST_SECTION:
            struct.pack_into("<Q", own, at + 8, value + base & (1 << 64) - 1)


def with_moved_sections(data: bytes, base: int) -> bytes:
    """A static PIE whose sections and symbols have the addresses that they have at a base. Its program headers and its
    debugging information are as they were."""
    own = bytearray(data)
    table, (size, count) = struct.unpack_from("<Q", own, 40)[0], struct.unpack_from("<HH", own, 58)
    for at in range(table, table + SECTION * count, SECTION) if size == SECTION and table else ():
        if at + SECTION > len(own):
            break
        kind, flags, addr, offset, length = struct.unpack_from("<IQQQQ", own, at + 4)
        if flags & ALLOCATED:
            struct.pack_into("<Q", own, at + 16, addr + base & (1 << 64) - 1)
        if kind == SYMBOLS:
            move_symbols(own, offset, length, base)
    return bytes(own)


class Own(NamedTuple):
    """A file that has a program's sections, and how much higher than its debugging information says it is loaded."""
    path: str
    base: int


KEPT: list["tempfile.TemporaryDirectory[str]"] = []  # to the end of the process


@functools.cache
def own_file(path: str, front: Front | None = None) -> Own:
    """The file that has the sections of a program: itself, or of a settled file a copy of what stands behind the front,
    with sections and symbols where they are loaded. Of a patched file the front has to be told."""
    with open(path, "rb") as file:
        front = front or front_of(file.read(LONGEST))
        if front is None:
            return Own(path, 0)
        file.seek(front.length)
        own = with_moved_sections(file.read(), front.base)
    KEPT.append(tempfile.TemporaryDirectory(prefix="vaknuhol."))
    with open(os.path.join(KEPT[-1].name, os.path.basename(path)), "wb") as copy:
        copy.write(own)
    return Own(copy.name, front.base)
