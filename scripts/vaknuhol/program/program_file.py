"""A static program read from its file, and what it is known by."""
import functools
import hashlib
import os
import struct

from vaknuhol.arguments import Refusal
from vaknuhol.program.settled import entries_of, front_of, is_library, relocated

PT_LOAD, PT_DYNAMIC, PT_INTERP, PT_GNU_RELRO, ET_REL, ET_EXEC, ET_DYN, EM_X86_64 = 1, 2, 3, 0x6474E552, 1, 2, 3, 62
EXECUTABLE, WRITABLE, HEADER = 1, 2, 64
# stands before the names in an executable that vaknuhol wrap wrote (standin.c)
STAND_IN = b"vakstandin 2".ljust(16, b"\0")


def read_bytes(path: str) -> bytes:
    try:
        with open(path, "rb") as file:
            return file.read()
    except OSError as error:
        raise Refusal(f"{path}: {error.strerror}") from None


def read_text(path: str) -> str:
    """A text of ours; bytes that are none become characters that no text of ours has."""
    return read_bytes(path).decode("utf-8", errors="replace")


@functools.cache
def hash_as_it_stands(path: str, inode: int, size: int, changed: int) -> str:
    return hashlib.sha256(read_bytes(path)).hexdigest()


def file_hash(path: str) -> str:
    """The hash of a file, which is read once as long as it stays the same."""
    try:
        state = os.stat(path)
    except OSError as error:
        raise Refusal(f"{path}: {error.strerror}") from None
    return hash_as_it_stands(os.path.realpath(path), state.st_ino, state.st_size, state.st_mtime_ns)


def is_static_pie(data: bytes) -> bool:
    """Whether an ELF file is loaded anywhere, by no other program, starts in code of its own, and is no library."""
    if len(data) < HEADER or struct.unpack_from("<H", data, 16)[0] != ET_DYN or is_cut_off(data):
        return False
    return all(kind != PT_INTERP for kind, *_ in entries_of(data)) and is_started(data) and not is_library(data)


def is_started(data: bytes) -> bool:
    """Whether the entry of an ELF file is code."""
    entry = struct.unpack_from("<Q", data, 24)[0]
    return any(kind == PT_LOAD and flags & EXECUTABLE and addr <= entry < addr + size
               for kind, flags, _, addr, _, _, size, _ in entries_of(data))


def is_cut_off(data: bytes) -> bool:
    table, count = struct.unpack_from("<Q", data, 32)[0], struct.unpack_from("<H", data, 56)[0]
    return bool(table + 56 * count > len(data))


def why_refused(data: bytes) -> str:
    """What an ELF file for x86-64 is that is loaded at no addresses of its own, or by another program; nothing of a
    static one at fixed addresses."""
    kind, entries = struct.unpack_from("<H", data, 16)[0], list(entries_of(data))
    if any(kind in (PT_DYNAMIC, PT_INTERP) for kind, *_ in entries) and (
            kind == ET_EXEC or any(kind == PT_INTERP for kind, *_ in entries)):
        return "is dynamic, so its libraries are loaded as it runs: link with gcc -static, or take a static build of it"
    if is_static_pie(data):
        return ("is position independent: e9tool settle makes a program at fixed addresses of it (vaknuhol cover, "
                "count, ring, wrap and fit do so by themselves)")
    if kind == ET_DYN and is_started(data):
        return ("is a dynamic loader, or a library that can be run: what it loads isn't patched with it: link that "
                "with gcc -static, or take a static build of it")
    if kind == ET_DYN:
        return "is a shared library: name a program that was linked with gcc -static, with its code in it"
    if kind == ET_REL:
        return "is an object file: link it with gcc -static"
    return "" if kind == ET_EXEC else "is no program"


class Program:
    """The loaded segments of a static x86-64 program, original or patched, and where the memory of the last of them
    ends; another file is refused. Of a settled file `base` is where the program behind its front is loaded, whose
    addresses its words have; of any other it is 0."""

    def __init__(self, path: str) -> None:
        data = read_bytes(path)
        if len(data) < HEADER or data[:4] != b"\x7fELF":
            raise Refusal(f"{path} is no ELF file")
        if data.partition(STAND_IN)[2][:1].strip(b"\0"):
            raise Refusal(f"{path} is a stand-in that vaknuhol wrap wrote: name the original in its place")
        machine = struct.unpack_from("<H", data, 18)[0]
        if data[4:6] != b"\x02\x01" or machine != EM_X86_64:
            raise Refusal(f"{path} is not for x86-64")
        if is_cut_off(data):
            raise Refusal(f"{path} is cut off: its program header table is past its end")
        if why_refused(data):
            raise Refusal(f"{path} {why_refused(data)}")
        self.path, self.end = path, 0
        self.entry = struct.unpack_from("<Q", data, 24)[0]
        self.segments: list[tuple[int, int, bytes]] = []  # the address of each, its flags and its bytes
        self.code: list[tuple[int, memoryview]] = []  # of the executable ones
        self.protected = range(0)  # what can't be written once the program has started
        for kind, flags, offset, addr, _, length, size, _ in entries_of(data):
            if kind == PT_GNU_RELRO:
                self.protected = range(addr, addr + size)
            if kind == PT_LOAD:
                self.segments.append((addr, flags, data[offset:offset + length]))
                self.end = max(self.end, addr + size)
                if flags & EXECUTABLE:
                    self.code.append((addr, memoryview(data)[max(offset, HEADER):offset + length]))
        front = front_of(data)
        self.base = front.base if front else 0
        if front:
            self.entry = self.base + struct.unpack_from("<Q", data, front.length + 24)[0]
            self.relocate(data[front.length:])

    def relocate(self, own: bytes) -> None:
        """Puts addresses of its own where the program will have them as it runs."""
        words = relocated(own, self.base)
        for number, (start, flags, data) in enumerate(self.segments):
            changed = bytearray(data)
            for addr, word in words.items():
                if start <= addr and addr + 8 <= start + len(data):
                    struct.pack_into("<Q", changed, addr - start, word)
            self.segments[number] = start, flags, bytes(changed)

    @functools.cached_property
    def code_hash(self) -> str:
        """What its records know it by: the addresses and the bytes of its executable segments, but for the head of the
        file."""
        found = hashlib.sha256()
        for addr, data in self.code:
            found.update(struct.pack("<Q", addr))
            found.update(data)
        return found.hexdigest()

    def read(self, addr: int, length: int) -> bytes:
        """The bytes of the file at an address, fewer where no segment has the next one. They may lie in several."""
        read = b""
        while len(read) < length and (piece := self.read_in_one(addr + len(read), length - len(read))):
            read += piece
        return read

    def read_in_one(self, addr: int, length: int) -> bytes:
        for start, _, data in self.segments:
            if start <= addr < start + len(data):
                return data[addr - start:addr - start + length]
        return b""

    def fixed_word(self, addr: int) -> int | None:
        """The eight bytes at an address as a number, where they don't change once the program has started."""
        is_fixed = addr in self.protected or any(start <= addr < start + len(data) and not flags & WRITABLE
                                                 for start, flags, data in self.segments)
        word = self.read(addr, 8) if is_fixed else b""
        return int.from_bytes(word, "little") if len(word) == 8 else None

    def has_segment_below(self, limit: int) -> bool:
        return any(0 < len(data) and addr < limit for addr, _, data in self.segments)

    def is_code(self, addr: int) -> bool:
        return any(start <= addr < start + len(data) for start, flags, data in self.segments if flags & EXECUTABLE)

    def is_loaded(self, addr: int) -> bool:
        return any(start <= addr < start + len(data) for start, _, data in self.segments)
