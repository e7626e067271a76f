"""How many entries of a program header table the running kernel takes: it is asked by a file that only ends.

Kernels up to some version refuse a table that is longer than a page (load_elf_phdrs of fs/binfmt_elf.c: e_phnum * 56 <=
4096, 73 entries of all kinds); later ones take 64 KB. No version is trusted here, since distributions change their
kernels.
"""
import errno
import os
import struct
import subprocess
import tempfile
from typing import NoReturn

from vaknuhol.arguments import Refusal
from vaknuhol.program.program_file import read_bytes

ENTRY, HEADER, PAGE = 56, 64, 4096
FEW, MOST = PAGE // ENTRY, 1024
ADDRESS, LOAD, READ_EXECUTE, EXEC, X86_64 = 0x400000, 1, 5, 2, 62
ENDING = bytes.fromhex("31ffb83c0000000f05")  # xor edi, edi; mov eax, 60; syscall


def header_of(path: str) -> bytes:
    head = read_bytes(path)[:HEADER]
    if len(head) < HEADER or head[:4] != b"\x7fELF":
        raise Refusal(f"{path} is no ELF file")
    return head


def entries_of(path: str) -> int:
    """How many entries the program header table of an ELF file has."""
    return int.from_bytes(header_of(path)[56:58], "little")


def entry_of(path: str) -> int:
    """The address at which an ELF file starts."""
    return int.from_bytes(header_of(path)[24:32], "little")


def asking_file(entries: int) -> bytes:
    """A program that ends with 0, with so many entries, of which all but one say nothing."""
    length = HEADER + ENTRY * entries
    head = struct.pack("<16sHHIQQQIHHHHHH", b"\x7fELF\2\1\1", EXEC, X86_64, 1, ADDRESS + length, HEADER, 0, 0, HEADER,
                       ENTRY,
                       entries, 64, 0, 0)
    whole = length + len(ENDING)
    load = struct.pack("<IIQQQQQQ", LOAD, READ_EXECUTE, 0, ADDRESS, ADDRESS, whole, whole, PAGE)
    return head + load + bytes(ENTRY * (entries - 1)) + ENDING


def takes(entries: int, folder: str) -> bool | None:
    """Whether the kernel starts a file with so many entries, which is written to a folder for it; None where nobody can
    tell."""
    with tempfile.TemporaryDirectory(prefix="asking.", dir=folder) as place:
        path = os.path.join(place, "asking")
        try:
            with open(path, "wb") as file:
                file.write(asking_file(entries))
        except OSError as error:
            raise OSError(error.errno, error.strerror, path) from None
        os.chmod(path, 0o755)
        try:
            return subprocess.run([path], stdin=subprocess.DEVNULL).returncode == 0
        except OSError as error:
            return False if error.errno == errno.ENOEXEC else None


def most_entries(folder: str) -> int:
    """The most entries that a file may have to run here; where the folder's files can't be executed, nothing is
    refused."""
    return FEW if takes(MOST, folder) is False else MOST


def refuse_too_many(path: str, entries: int, most: int) -> NoReturn:
    raise Refusal(f"{path} has {entries} program headers, and this kernel ({os.uname().release}) takes at most {most}: "
                  f"it would answer ENOEXEC, Exec format error. Patch it for this kernel: --entries {most}")
