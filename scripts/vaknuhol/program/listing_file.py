"""The file that `vaknuhol-list` writes of a program: its instructions by columns, its blocks, names, and ranges that
are doubtful.

It is mapped, and nothing of it is copied. It is kept in PROGRAM.vak, by a hash of the program and of the lister, and
made again where one of them is another. The form is described in native/vaknuhol-list/list_file.h.
"""
import contextlib
import glob
import hashlib
import mmap
import os
import signal
import struct
import subprocess
import tempfile
from collections.abc import Iterator
from typing import NamedTuple

from vaknuhol.arguments import Refusal
from vaknuhol.native import program as native_program
from vaknuhol.program.program_file import file_hash

MAGIC, VERSION, HEAD = b"VAKLIST\0", 1, struct.Struct("<8s10I")
HEAD_SIZE, ALIGNED = 64, 8
LONGEST = 15  # bytes of an instruction
# Kinds of instructions, marks, levels of evidence and kinds of ranges, as native/vaknuhol-list numbers them
FALLS, BRANCH, JUMP, CALL, RETURN, JUMP_INDIRECT, CALL_INDIRECT, END, KERNEL, TRAP = range(10)
SHARED, FAULTS, READS, WRITES, FIXED, NO_LENGTH, NOTHING, UNSURE, BESIDE = (1 << number for number in range(9))
MARKS = 1 << 9  # sets of marks
ENTRY, DIRECT, AFTER_CALL, EXTENT, WORD, NUMBER, TABLE, SWEEP = range(1, 9)
DOUBTFUL, DATA, BREAK, CLONE, WITHOUT_SUPPORT, RESTARTED = range(1, 7)
HAS_NAME, IS_CALLED, BEGINS = 1, 2, 4
OF_INSTRUCTIONS = {"addr": "I", "target": "I", "held": "I", "number": "I", "reads": "I", "writes": "I",
                   "flags_read": "H", "flags_written": "H",
                   "marks": "H", "size": "B", "kind": "B", "level": "B"}
LISTER, STARTS = "vaknuhol-list", ".starts"


class Range(NamedTuple):
    """Bytes of the text that are no supported code: why, and from where on up to where."""
    kind: int
    low: int
    high: int


class ListFile:
    """The columns of a list: of instructions `addr`, `target`, `held`, `number`, `reads`, `writes`, `flags_read`,
    `flags_written`, `marks`, `size`, `kind` and `level`; of blocks `block_first`, `block_size` and
    `begins_function`."""
    addr: memoryview
    target: memoryview
    held: memoryview
    number: memoryview
    reads: memoryview
    writes: memoryview
    flags_read: memoryview
    flags_written: memoryview
    marks: memoryview
    size: memoryview
    kind: memoryview
    level: memoryview

    def __init__(self, path: str) -> None:
        with open(path, "rb") as file:
            self.data = memoryview(mmap.mmap(file.fileno(), 0, prot=mmap.PROT_READ))
        if len(self.data) < HEAD_SIZE:
            raise Refusal(f"{path} is no list of instructions: delete it")
        magic, version, count, blocks, names, ranges, texts, *totals = HEAD.unpack_from(self.data)
        if magic != MAGIC or version != VERSION:
            raise Refusal(f"{path} is no list of instructions of this version: delete it")
        self.text_bytes, self.listed_bytes, self.zeros, self.traps = totals
        self.place = HEAD_SIZE
        for name, code in OF_INSTRUCTIONS.items():
            setattr(self, name, self.column(count, code))
        self.block_first, self.block_size, self.begins_function = (self.column(blocks, code) for code in "IIB")
        self.name_addr, name_text = self.column(names, "I"), self.column(names, "I")
        lows, highs, kinds = self.column(ranges, "I"), self.column(ranges, "I"), self.column(ranges, "B")
        self.ranges = [Range(*row) for row in zip(kinds, lows, highs)]
        self.names = self.texts(name_text, bytes(self.column(texts, "B")))

    def column(self, count: int, code: str) -> memoryview:
        """The numbers that come next."""
        first = -(-self.place // ALIGNED) * ALIGNED
        self.place = first + count * struct.calcsize(code)
        if self.place > len(self.data):
            raise Refusal("a list of instructions in PROGRAM.vak is cut off: delete it")
        return self.data[first:self.place].cast(code)

    @staticmethod
    def texts(places: memoryview, texts: bytes) -> list[str]:
        return [texts[place:texts.index(0, place)].decode("utf-8", errors="replace") for place in places]


def write_list(program: str, path: str) -> None:
    """Lets the lister write a list, and beside it the addresses of its instructions, as e9tool takes them."""
    done = subprocess.run([native_program(LISTER), program, path, path + STARTS], stderr=subprocess.PIPE, text=True,
                          errors="replace",
                          check=False)
    if done.returncode:
        lines = done.stderr.strip().splitlines()
        limit = ": files may be no longer (ulimit -f)" if done.returncode == -signal.SIGXFSZ else ""
        raise Refusal(lines[-1].removeprefix(f"{LISTER}: ") if lines and not limit
                      else f"{LISTER} ended with {done.returncode} on {program}, as it wrote {path}{limit}")


def forget_lists(folder: str) -> None:
    """Removes the lists that are kept in a folder."""
    for path in glob.glob(f"{glob.escape(folder)}/listing-*"):
        with contextlib.suppress(FileNotFoundError):
            os.remove(path)


def key_of(program: str) -> str:
    """What a kept list is known by."""
    both = file_hash(program) + file_hash(native_program(LISTER))
    return hashlib.sha256(bytes.fromhex(both)).hexdigest()[:16]


@contextlib.contextmanager
def kept_or_made(program: str, folder: str) -> Iterator[str]:
    """The path of a program's list: kept in the folder, where that is there and can be written, and else in one that
    goes."""
    if not os.path.isdir(folder) or not os.access(folder, os.W_OK):
        with tempfile.TemporaryDirectory(prefix="vaknuhol.") as other:
            write_list(program, os.path.join(other, "list"))
            yield os.path.join(other, "list")
        return
    path = os.path.join(folder, f"listing-{key_of(program)}")
    if not os.path.isfile(path) or not os.path.isfile(path + STARTS):
        with tempfile.TemporaryDirectory(prefix="part.", dir=folder) as part:
            write_list(program, os.path.join(part, "list"))
            for old in set(glob.glob(f"{glob.escape(folder)}/listing-*")) - {path, path + STARTS}:
                with contextlib.suppress(FileNotFoundError):  # another process may have been first
                    os.remove(old)
            os.replace(os.path.join(part, "list") + STARTS, path + STARTS)
            os.replace(os.path.join(part, "list"), path)
    yield path


def list_of(program: str, folder: str) -> ListFile:
    with kept_or_made(program, folder) as path:
        return ListFile(path)


def starts_of(program: str, folder: str) -> bytes:
    """The list STARTS of e9tool."""
    with kept_or_made(program, folder) as path, open(path + STARTS, "rb") as file:
        return file.read()
