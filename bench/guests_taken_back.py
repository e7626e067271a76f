#!/usr/bin/env python3
"""guests_taken_back.py E9TOOL: 100 guests, made as the definitions of guest_gen say, are patched in both forms of the written file
with four actions, and taken back by `unpatch`."""
import os
import struct
import subprocess
import sys
import tempfile

ACTIONS = ("cover", "count", "ring:7", "count when rax < 100")
# the instructions of each kind of block but those that hold a number or an address
PLAIN = {
    0: ["4889d8"], 1: ["4801c3"], 4: ["4883c101"], 5: ["50", "58"], 6: ["4839d8", "7403", "48ffc2"], 7: ["488b4508"],
    8: ["48894510"], 11: ["4831c8"], 12: ["90"], 13: ["0fa2"], 14: ["488d4c0104"], 15: ["ffd6"],
}


def guest(seed: int, blocks: int) -> tuple[bytes, list[int], list[int]]:
    """The file of a guest, its starts and its sites."""
    x = seed
    text, starts, sites = bytearray(b"\xc3"), [0x401000], []

    def draw() -> int:
        nonlocal x
        x = (x * 6364136223846793005 + 1442695040888963407) % 2**64
        return x >> 32

    def put(insn: bytes) -> None:
        starts.append(0x401000 + len(text))
        text.extend(insn)

    every = max(8, -(-blocks // 250))
    for block in range(blocks):
        kind = draw() % 16
        if block % every == 0:
            sites.append(0x401000 + len(text))
        if kind in PLAIN:
            for insn in PLAIN[kind]:
                put(bytes.fromhex(insn))
        elif kind == 2:
            put(b"\xb8" + struct.pack("<I", draw()))
        elif kind == 3:
            put(bytes.fromhex("4881c3") + struct.pack("<I", draw()))
        elif kind == 9:
            put(b"\xe8" + struct.pack("<i", -(len(text) + 5)))
        else:
            put(bytes.fromhex("488d05") + struct.pack("<i", 0x600000 - (0x401000 + len(text) + 7)))
    put(b"\xe9" + struct.pack("<i", 1 - (len(text) + 5)))
    header = b"\x7fELF\x02\x01\x01".ljust(16, b"\0")
    header += struct.pack("<HHIQQQIHHHHHH", 2, 62, 1, 0x401001, 64, 0, 0, 64, 56, 2, 0, 0, 0)
    header += struct.pack("<IIQQQQQQ", 1, 5, 0x1000, 0x401000, 0x401000, len(text), len(text), 0x1000)
    header += struct.pack("<IIQQQQQQ", 1, 6, 0, 0x600000, 0x600000, 0, 0x1000, 0x1000)
    return header.ljust(0x1000, b"\0") + bytes(text), starts, sites


def call(tool: str, *words: str) -> tuple[int, str]:
    done = subprocess.run([tool, *words], capture_output=True, text=True)
    return done.returncode, done.stdout


def is_taken_back(tool: str, file: bytes, form: str, action: str) -> bool:
    for name in ("out", "report", "new"):
        if os.path.exists(name):
            os.unlink(name)
    status, text = call(tool, form, "file", "starts", "sites", action, "out", "report")
    undone = call(tool, "unpatch", "out", "report", "new")
    good = status in (0, 1) and undone == (0, f"restored {len(file)}\n")
    if not good:
        print(form, action, status, text, undone)
        return False
    with open("new", "rb") as new:
        return new.read() == file


def main() -> bool:
    tool = os.path.realpath(sys.argv[1])
    assert guest(0, 1)[0][0x1000:] == bytes.fromhex("c3488d4c0104e9f6ffffff") and guest(0, 1)[2] == [0x401001]
    tried = back = 0
    with tempfile.TemporaryDirectory() as folder:
        os.chdir(folder)
        for seed in range(100):
            file, starts, sites = guest(seed * 7919 + 1, (1, 7, 40, 200, 900, 3000, 20000)[seed % 7])
            with open("file", "wb") as whole:
                whole.write(file)
            for name, addresses in (("starts", starts), ("sites", sites)):
                with open(name, "w", encoding="ascii") as out:
                    out.writelines(f"{it:x}\n" for it in addresses)
            for form in ("patch", "load"):
                for action in ACTIONS:
                    tried += 1
                    back += is_taken_back(tool, file, form, action)
        os.chdir("/")
    print(f"taken back {back} of {tried}")
    return back != tried


if __name__ == "__main__":
    sys.exit(main())
