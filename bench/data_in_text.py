#!/usr/bin/env python3
"""Data in the text: strings behind calls, and tables, of programs without symbols, and whether a patch would change any.

    data_in_text.py [--strings N] [--seed N] [--run] [--keep FOLDER]

Makes a program of N strings (300), each of random bytes of a shell's or of printable ones, behind a call of one of some functions that print it
in ways of their own, and a program of 40 usual tables (CRCs, digits, masks, doubles, jump distances ..), each in the text and read in four ways:
at a distance from its address, by its address in a register, by that as an argument, and by a pointer in the data. Both are linked statically
and stripped. A string or table is *silent* if an instruction that is listed has a byte of it, so that it may be patched. With --run both are
patched at all blocks by `count` and `cover`, and have to print what they print by themselves; $E9TOOL names the program that patches. The exit
status is 1 where something is silent, or a run is another one.
"""
import argparse
import math
import os
import random
import re
import struct
import subprocess
import sys
import tempfile
from collections.abc import Callable

TOP = os.path.dirname(os.path.dirname(os.path.realpath(__file__)))
sys.path.insert(0, os.path.join(TOP, "scripts"))
from vaknuhol import native  # noqa: E402, its place is known only now
from vaknuhol.program.listing_file import DOUBTFUL, ListFile  # noqa: E402

WRITE = "mov $1, %eax\nmov $1, %edi\nsyscall\n"
LENGTH = "1: cmpb $0, (%rdx)\nlea 1(%rdx), %rdx\njne 1b\n"  # rdx: behind the string's end
# Functions that print the string behind their call, and go on behind that.
PRINTERS = {
    "pops": f"pop %rsi\nmov %rsi, %rdx\n{LENGTH}push %rdx\nlea -1(%rdx), %rdx\nsub %rsi, %rdx\n{WRITE}ret\n",
    "jumps": f"pop %rbx\nmov %rbx, %rdx\n{LENGTH}mov %rdx, %rbp\ndec %rdx\nsub %rbx, %rdx\nmov %rbx, %rsi\n{WRITE}jmp *%rbp\n",
    "loads": f"mov (%rsp), %rsi\nmov %rsi, %rdx\n{LENGTH}mov %rdx, (%rsp)\ndec %rdx\nsub %rsi, %rdx\n{WRITE}ret\n",
    "exchanges": f"xchg %rsi, (%rsp)\nmov %rsi, %rdx\n{LENGTH}push %rdx\ndec %rdx\nsub %rsi, %rdx\n{WRITE}pop %rdx\nxchg %rdx, (%rsp)\nret\n",
    "scans": f"pop %rdi\nmov %rdi, %rsi\nxor %eax, %eax\nmov $-1, %rcx\nrepne scasb\nmov %rdi, %rbx\nlea -1(%rdi), %rdx\nsub %rsi, %rdx\n{WRITE}"
             "jmp *%rbx\n",
    "frames": f"push %rbp\nmov %rsp, %rbp\nmov 8(%rbp), %rsi\nmov %rsi, %rdx\n{LENGTH}mov %rdx, 8(%rbp)\ndec %rdx\nsub %rsi, %rdx\n{WRITE}"
              "pop %rbp\nret\n",
    "calls": f"mov (%rsp), %rdi\ncall measure\nadd %rdx, (%rsp)\ndec %rdx\nmov %rdi, %rsi\n{WRITE}ret\n",
    "counts": "pop %rsi\nmovzbl (%rsi), %edx\ninc %rsi\nlea (%rsi,%rdx), %rbx\n" + WRITE + "jmp *%rbx\n",
}
MEASURE = f"measure: mov %rdi, %rdx\n{LENGTH}sub %rdi, %rdx\nret\n"
COUNTED = "counts"
WORDS = b"HISTCMD PUSH POP QRSTUV PATH_X shopt \\w\\$ %s: not found ATEXIT WXYZ PQRS usage: VWT SPUR UPVSW XPUSHQ".split()


def strings(count: int, choice: random.Random) -> list[bytes]:
    """Words as a shell has them, letters that read as pushes and pops, and printable bytes."""
    kinds: list[Callable[[], bytes]] = [
        lambda: b" ".join(choice.choice(WORDS) for _ in range(choice.randrange(1, 4))),
        lambda: bytes(choice.choice(b"PQRSTUVWXYZ[ASA") for _ in range(choice.randrange(1, 40))),
        lambda: bytes(choice.randrange(32, 127) for _ in range(choice.randrange(1, 60))),
    ]
    return [choice.choice(kinds)() + b"\n" for _ in range(count)]


def byte_lines(data: bytes) -> str:
    return ".byte " + ", ".join(map(str, data)) + "\n"


def string_source(texts: list[bytes], choice: random.Random) -> str:
    parts, calls = [], []
    for number, text in enumerate(texts):
        name = choice.choice(list(PRINTERS))
        data = bytes([len(text)]) + text if name == COUNTED else text + b"\0"
        parts.append(f"f{number}: call {name}\ns{number}: {byte_lines(data)}e{number}: xor %eax, %eax\nret\n")
        calls.append(f"call f{number}\n")
    printers = "".join(f"{name}: {code}" for name, code in PRINTERS.items())
    return f".globl _start\n.text\n_start: {''.join(calls)}mov $60, %eax\nxor %edi, %edi\nsyscall\nhlt\n{printers}{MEASURE}{''.join(parts)}"


def crc(bits: int, polynomial: int, form: str) -> bytes:
    table = []
    for value in range(256):
        for _ in range(8):
            value = value >> 1 ^ (polynomial if value & 1 else 0)
        table.append(value & (1 << bits) - 1)
    return struct.pack(f"<256{form}", *table)


def doubles(function: Callable[[int], float], count: int = 32) -> bytes:
    return struct.pack(f"<{count}d", *map(function, range(count)))


def numbers(form: str, *values: int) -> bytes:
    return struct.pack(f"<{len(values)}{form}", *values)


def made_tables(choice: random.Random) -> dict[str, bytes]:
    """Tables as programs have them."""
    fill = [bytes([value]) * 16 for value in (0x01, 0x0F, 0x80, 0x55, 0x90, 0xC3, 0x50, 0xFF, 0x00, 0x33)]
    code = bytes.fromhex("554889e54883ec10897dfc8b45fc01c083c0070fafc085c0740590909090c9c3"
                         "5331db488d5c3b014839fb7ef64889d85bc3909031c083c00183c00283c003c3")
    return {
        "crc32": crc(32, 0xEDB88320, "I"), "crc16": crc(16, 0xA001, "H"), "crc8": crc(8, 0x8C, "B"), "crc64": crc(64, 0xC96C5795D7870F42, "Q"),
        "digits": b"0123456789abcdef", "upper": b"0123456789ABCDEF", "pairs": "".join(f"{n:02}" for n in range(100)).encode(),
        "base64": b"ABCDEFGHIJKLMNOPQRSTUVWXYZabcdefghijklmnopqrstuvwxyz0123456789+/",
        "letters": b"PQRSTUVWXYZ[\\]^_", "months": b"JanFebMarAprMayJunJulAugSepOctNovDec", "days": bytes([31, 28, 31, 30, 31, 30, 31, 31, 30, 31, 30, 31]),
        "sines": doubles(lambda n: math.sin(n / 9)), "powers": doubles(lambda n: 10.0 ** n), "halves": doubles(lambda n: n / 2),
        "floats": struct.pack("<32f", *(math.sqrt(n) for n in range(32))), "tens": numbers("Q", *(10 ** n for n in range(20))),
        "primes": numbers("H", *(n for n in range(2, 300) if all(n % m for m in range(2, n)))), "squares": numbers("I", *(n * n for n in range(64))),
        "sha256": numbers("I", *(int(abs(n ** (1 / 3)) % 1 * 2 ** 32) for n in range(2, 66))),
        "md5": numbers("I", *(int(abs(math.sin(n + 1)) * 2 ** 32) for n in range(64))),
        "sbox": code, "reversed": bytes(int(f"{n:08b}"[::-1], 2) for n in range(256)), "bits": bytes(bin(n).count("1") for n in range(256)),
        "logs": bytes(n.bit_length() for n in range(256)), "shuffle": bytes(range(15, -1, -1)), "spread": bytes(n // 2 for n in range(32)),
        "mask": numbers("Q", 0x00FF00FF00FF00FF, 0x0F0F0F0F0F0F0F0F, 0x5555555555555555, 0x3333333333333333),
        "distances": numbers("i", *(16 * n - 400 for n in range(24))), "random": bytes(choice.randrange(256) for _ in range(256)),
        "text": b"the quick brown fox jumps over the lazy dog\0\0\0\0\0", **{f"of_{it[0]:02x}": it for it in fill},
    }


WAYS = ("at", "held", "given", "pointed")


def table_source(tables: dict[str, bytes]) -> str:
    """C in which each table is read in each way; a sum of what was read is printed."""
    text = ["#include <stdio.h>\ntypedef unsigned char byte;\ntypedef unsigned long word;\n"
            "__attribute__((noinline)) word given(const byte *at, unsigned size) {\n word sum = 1;\n"
            " for (unsigned n = 0; n < size; n++) sum = sum * 31 + at[(n * 7 + sum) % size];\n return sum; }\n"]
    calls = []
    for name, data in tables.items():
        for way in WAYS:
            table, size = f"t_{way}_{name}", len(data)
            text.append(f'asm(".text\\n.balign 16\\n{table}: {byte_lines(data).strip()}\\n{table}_end: .byte 0xcc\\n");\n'
                        f"extern const byte {table}[{size}];\n")
            if way == "pointed":
                text.append(f"const byte *p_{name} = {table};\n")
            body = {
                "at": f"word sum = 1; for (unsigned n = 0; n < 50; n++) sum = sum * 31 + {table}[(n + sum) % {size}];",
                "held": f'const byte *at = {table}; asm volatile("" : "+r"(at)); word sum = 1;'
                        f" for (unsigned n = 0; n < 50; n++) sum = sum * 31 + at[(n + sum) % {size}];",
                "given": f"word sum = given({table}, {size});", "pointed": f"word sum = given(p_{name}, {size});",
            }[way]
            text.append(f"__attribute__((noinline)) word f_{way}_{name}(void) {{ {body} return sum; }}\n")
            calls.append(f' printf("{way} {name} %lx\\n", f_{way}_{name}());\n')
    return f"{''.join(text)}int main(void) {{\n{''.join(calls)} return 0; }}\n"


def build(folder: str, name: str, source: str, *words: str) -> dict[str, int]:
    """A stripped program in the folder, and the addresses of its symbols."""
    path = os.path.join(folder, name)
    file = f"{path}{'.s' if name == 'strings' else '.c'}"
    with open(file, "w", encoding="ascii") as out:
        out.write(source)
    subprocess.run(["gcc", *words, "-static", "-no-pie", "-o", path, file], check=True)
    told = subprocess.run(["nm", path], capture_output=True, text=True, check=True).stdout
    subprocess.run(["strip", path], check=True)
    return {row[2]: int(row[0], 16) for row in map(str.split, told.splitlines()) if len(row) == 3}


def listed(path: str) -> tuple[ListFile, set[int]]:
    """The list of a program, and all bytes of listed instructions."""
    subprocess.run([native.program("vaknuhol-list"), path, f"{path}.list"], check=True)
    found = ListFile(f"{path}.list")
    return found, {addr + at for addr, size in zip(found.addr, found.size) for at in range(size)}


def silent(path: str, ranges: dict[str, tuple[int, int]]) -> list[str]:
    """The ranges of data of which a byte is listed as code; prints a line."""
    found, code = listed(path)
    wrong = [name for name, (low, high) in ranges.items() if not code.isdisjoint(range(low, high))]
    doubtful = sum(span.high - span.low for span in found.ranges if span.kind == DOUBTFUL)
    print(f"{os.path.basename(path)}: {len(ranges)} in the text, {len(wrong)} silent {' '.join(wrong)[:400]}; {doubtful} bytes doubtful, "
          f"{len(found.addr)} instructions, {found.text_bytes - found.listed_bytes} bytes not listed")
    return wrong


def runs_alike(path: str) -> bool:
    """Whether a program prints the same patched at all its blocks; prints a line where it doesn't."""
    expected = subprocess.run([path], capture_output=True, check=False)
    is_alike = True
    for action in ("count", "cover"):
        words = [os.path.join(TOP, "bin", "vaknuhol"), action, "--blocks", "--quiet", path]
        done = subprocess.run(words, capture_output=True, check=False, cwd=os.path.dirname(path))
        is_same = (done.returncode, done.stdout) == (expected.returncode, expected.stdout)
        print(f"{os.path.basename(path)}: {action} --blocks, {'the same' if is_same else 'ANOTHER'} run")
        is_alike &= is_same
    return is_alike


def try_all(folder: str, words: argparse.Namespace) -> int:
    choice = random.Random(words.seed)
    texts = strings(words.strings, choice)
    places = build(folder, "strings", string_source(texts, choice), "-nostdlib")
    found = silent(f"{folder}/strings", {f"{number}:{texts[number]!r}": (places[f"s{number}"], places[f"e{number}"])
                                         for number in range(words.strings)})
    tables = made_tables(choice)
    places = build(folder, "tables", table_source(tables), "-O2", "-w")
    names = [name for name in places if re.fullmatch(f"t_({'|'.join(WAYS)})_({'|'.join(tables)})", name)]
    found += silent(f"{folder}/tables", {name: (places[name], places[f"{name}_end"]) for name in names})
    is_alike = not words.run or all([runs_alike(f"{folder}/strings"), runs_alike(f"{folder}/tables")])
    return int(bool(found) or not is_alike)


def main() -> int:
    parser = argparse.ArgumentParser(description=__doc__, formatter_class=argparse.RawDescriptionHelpFormatter)
    parser.add_argument("--strings", type=int, default=300)
    parser.add_argument("--seed", type=int, default=1)
    parser.add_argument("--run", action="store_true")
    parser.add_argument("--keep", metavar="FOLDER")
    words = parser.parse_args()
    if words.keep:
        os.makedirs(words.keep, exist_ok=True)
        return try_all(os.path.realpath(words.keep), words)
    with tempfile.TemporaryDirectory() as folder:
        return try_all(folder, words)


if __name__ == "__main__":
    sys.exit(main())
