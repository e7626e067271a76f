#!/usr/bin/env python3
"""thread_counts.py E9TOOL [PROGRAM..]: counts of programs of several threads against counters that are compiled in.

The C programs of guests/ (all, or those that are named) are patched at all blocks, or at what an option says. Each runs
20 times, with eight threads: it prints what the original prints, and each counter that it wrote to a file is the sum of the counts of
the blocks in which an instruction adds to it. `check` says yes of the patched file, and no after each of the changes that are planted
in file and report; `unpatch` gives the original byte for byte. What e9tool's `check` judges of a file of the loader form is the file with
an entry of its table for each record of the stub, and with the original's entry point: what the stub leaves. `vaknuhol check` says of each
such file that it is written again with the same bytes, and of a changed one that it is not."""
import argparse
import bisect
import collections
import os
import random
import re
import struct
import subprocess
import sys
import tempfile

BENCH = os.path.dirname(os.path.realpath(__file__))
sys.path.insert(0, os.path.join(BENCH, "..", "scripts"))
from vaknuhol.program.kernel import entry_of  # noqa: E402, its place is known only now
from vaknuhol.program.program_file import read_bytes, read_text  # noqa: E402
from vaknuhol.recording.patch_report import WRITES  # noqa: E402
from vaknuhol.recording.record_file import Record, Row  # noqa: E402

VAKNUHOL = os.path.join(BENCH, "..", "bin", "vaknuhol")
FLAGS: dict[str, list[str]] = {"cloned": [], "queue": ["-pthread"], "openmp": ["-fopenmp"], "atomics": ["-pthread"]}
ENTRY, LOADED = struct.Struct("<IIQQQQQQ"), 1  # of the table of program headers
RECORD, RECORDS = struct.Struct("<IIQ"), 0x1010  # of the stub, and where its records begin
ADDS = re.compile(r"(?m)^ +([0-9a-f]+):\tlock (?:add|inc|sub)\w? .*<counters(?:\+0x([0-9a-f]+))?>$")


def call(*words: str) -> str:
    done = subprocess.run(words, capture_output=True, text=True)
    if done.returncode:
        sys.exit(f"{' '.join(words)} ended with {done.returncode}: {done.stdout}{done.stderr}")
    return done.stdout


def vaknuhol(*words: str) -> str:
    return call(sys.executable, VAKNUHOL, *words)


def adding(program: str) -> dict[int, list[int]]:
    """By each counter's number the instructions that add to it."""
    found = collections.defaultdict(list)
    for addr, place in ADDS.findall(call("objdump", "-d", "--no-show-raw-insn", program)):
        found[int(place or "0", 16) // 8].append(int(addr, 16))
    return found


def row_at(rows: list[Row], firsts: list[int], addr: int) -> Row | None:
    row = rows[bisect.bisect_right(firsts, addr) - 1]
    return row if row.first <= addr < row.end else None


def compare(name: str, run: int, places: dict[int, list[int]]) -> tuple[int, int]:
    """How many counters of a run equal counts, and how many have a place that was left; all others end it."""
    rows, counters = Record("record").rows, [int(line) for line in read_text("counters").splitlines()]
    firsts, equal = [row.first for row in rows], 0
    for number, addresses in places.items():
        blocks = [row_at(rows, firsts, addr) for addr in addresses]
        found = [row.count for row in blocks if row and row.count is not None]
        if len(found) == len(addresses):
            if sum(found) != counters[number]:
                sys.exit(f"{name}, run {run}: counter {number} is {counters[number]}, and {found} were counted")
            equal += 1
    return equal, len(places) - equal


def verdict(tool: str, program: str, stem: str) -> str:
    """What e9tool's `check` prints of the files `patched` and `report`."""
    words = [tool, "check", program, "patched", f"{stem}.starts", "report"]
    return subprocess.run(words, capture_output=True, text=True).stdout.strip()


def changed(data: bytes, text: str, number: int) -> tuple[bytes, str]:
    """File and report, one of them changed: a bit of what was written for the patch, or a digit of a line that says what was. A line `pun`
    is no case: no rule of `check` is about it."""
    random.seed(number)
    if number % 2:
        lines = [found.start() for found in re.finditer(r"(?m)^(?:tramp|write) .*$", text)]
        at = text.index(" ", random.choice(lines)) + random.randrange(1, 9)
        return data, text[:at] + f"{int(text[at], 16) ^ 1:x}" + text[at + 1:]
    tramp = int(random.choice(re.findall(r"(?m)^tramp ([0-9a-f]+)", text)), 16) if number % 4 else None
    place = tramp or int(random.choice(WRITES.found("report", text))[0], 16)
    offset = next(offset + place - start for _, _, offset, start, length in entries(data) if start <= place < start + length)
    return data[:offset] + bytes([data[offset] ^ 1 << random.randrange(8)]) + data[offset + 1:], text


def entries(data: bytes) -> list[tuple[int, int, int, int, int]]:
    """Of each part that is loaded its place in the table, its flags, the place in the file, the address and the length."""
    table, count = int.from_bytes(data[32:40], "little"), int.from_bytes(data[56:58], "little")
    rows = [(at, *ENTRY.unpack_from(data, at)) for at in range(table, table + ENTRY.size * count, ENTRY.size)]
    return [(at, flags, offset, start, length) for at, kind, flags, offset, start, _, length, _, _ in rows if kind == LOADED]


def mapped(data: bytes, entry: int) -> bytes:
    """The file of the loader form with what its stub maps in its table, in place of the stub and its page, and the original's entry."""
    stub_at = int.from_bytes(data[24:32], "little")
    parts = entries(data)
    number = next(i for i, (_, _, _, start, length) in enumerate(parts) if start <= stub_at < start + length)
    first = parts[number][2] + stub_at - parts[number][3] + RECORDS
    left_out = {parts[number][0], next(at for at, _, _, start, _ in parts if start == int.from_bytes(data[first - RECORDS + 4:][:4], "little"))}
    table, count = int.from_bytes(data[32:40], "little"), int.from_bytes(data[56:58], "little")
    kept = [data[at:at + ENTRY.size] for at in range(table, table + ENTRY.size * count, ENTRY.size) if at not in left_out]
    for at in range(first, len(data), RECORD.size):
        start, length, offset = RECORD.unpack_from(data, at)
        if not start:
            break
        kept.append(ENTRY.pack(LOADED, 5, offset, start, start, length, length, 0x1000))
    kept.sort(key=lambda row: int(ENTRY.unpack(row)[3]))
    head = bytearray(data[:64])
    head[24:32], head[32:40], head[56:58] = entry.to_bytes(8, "little"), len(data).to_bytes(8, "little"), len(kept).to_bytes(2, "little")
    return bytes(head) + data[64:] + b"".join(kept)


def write(path: str, data: bytes) -> None:
    with open(path, "wb") as file:
        file.write(data)


def judge(tool: str, name: str, stem: str, changes: int) -> str:
    """What `check` says of the file and of changed ones, and whether the original comes back."""
    data, text = read_bytes(f"{stem}.patched"), read_text(f"{stem}.report")
    has_stub = entry_of(f"{stem}.patched") != entry_of(name)
    shown = mapped(data, entry_of(name)) if has_stub else data
    refused = []
    for number in range(-1, changes):
        file, report = changed(shown, text, number) if number >= 0 else (shown, text)
        write("patched", file)
        write("report", report.encode())
        refused.append(verdict(tool, name, stem))
        kept = data[:64] + file[64:len(data)]
        write(f"{stem}.patched", kept)
        write(f"{stem}.report", report.encode())
        told = subprocess.run([sys.executable, VAKNUHOL, "check", name], capture_output=True, text=True)
        if told.returncode != (number >= 0):
            sys.exit(f"{name}, change {number}: {told.stdout}{told.stderr}")
    said = refused.pop(0)
    write(f"{stem}.patched", data)
    write(f"{stem}.report", text.encode())
    vaknuhol("unpatch", f"{stem}.patched", "back")
    is_back = read_bytes("back") == read_bytes(name)
    if said != "check yes" or "check yes" in refused or not is_back:
        sys.exit(f"{name}: {said}; changed: {refused}; {'the' if is_back else 'not the'} original comes back")
    form = "loader form" if has_stub else "plain form"
    return f"{form}: {said}; {len(refused)} changes are refused; the original comes back"


def measure(tool: str, name: str, words: argparse.Namespace) -> None:
    choice, runs = words.choice, words.runs
    call(words.compiler, "-O2", "-g", "-static", "-no-pie", *FLAGS[name], "-o", name, os.path.join(BENCH, "guests", f"{name}.c"))
    places, original = adding(name), call(f"./{name}", "counters")
    (path,) = vaknuhol("count", choice, "--threads", "--patch-only", name).split()
    equal = left = 0
    for run in range(runs):
        printed = vaknuhol("count", choice, "--threads", "--quiet", "--record", "record", name, "--", "counters")
        if printed != original:
            sys.exit(f"{name}, run {run}: it prints {printed!r}, and the original {original!r}")
        some, others = compare(name, run, places)
        equal, left = equal + some, left + others
    rows = Record("record").rows
    unknown = collections.Counter(row.outcome for row in rows if row.count is None)
    print(f"{name}: left {unknown.total()} of {len(rows)} ({100 * unknown.total() / len(rows):.2f} %): {dict(unknown)}; "
          f"{runs} runs: {equal} counters equal, {left} left; {judge(tool, name, path.removesuffix('.patched'), words.changes)}", flush=True)


def main() -> None:
    parser = argparse.ArgumentParser(description=__doc__)
    parser.add_argument("tool")
    for choice in ("blocks", "jumps", "functions", "own"):
        parser.add_argument(f"--{choice}", dest="choice", action="store_const", const=f"--{choice}", default="--blocks")
    parser.add_argument("--compiler", default="gcc")
    parser.add_argument("--runs", type=int, default=20)
    parser.add_argument("--changes", type=int, default=12, help="how many changes are planted")
    parser.add_argument("programs", nargs="*")
    words = parser.parse_intermixed_args()
    os.environ["E9TOOL"] = tool = os.path.realpath(words.tool)
    with tempfile.TemporaryDirectory() as folder:
        os.chdir(folder)
        for name in words.programs or FLAGS:
            measure(tool, name, words)


if __name__ == "__main__":
    main()
