"""Rows that the tables of single steps give: measured on a processor (measured_steps.txt), and by the world's answer, worked out
by hand (answered_steps.txt). docs/evidence/vectors.md has the form of a line.

The file has no segment, and the script holds all memory: what a line names, and the instruction, behind which stands code that
loads what the line names. So a row shows the state behind one step, and a second one the memory behind it."""
from collections.abc import Iterator
from struct import pack
from typing import NamedTuple

from limit_files import REGISTERS
from made_rows import Row, read

GENERAL = REGISTERS[:16]
Values = dict[str, int]
Memory = list[tuple[int, bytes]]


class Line(NamedTuple):
    """A line of a table: the state before the step and after it, the entries of the world, and what is told."""

    text: str
    code: bytes
    rip: tuple[int, int]
    before: Values
    after: Values
    # what is held for reading and writing, by address, before the step and after it
    memory: tuple[Memory, Memory]
    entries: str
    stop: str


def header(entry: int) -> bytes:
    """A file of no segment that begins at any address."""
    front = b"\x7fELF\2\1\1".ljust(16, b"\0")
    return front + pack("<HHIQQQIHHHHHH", 2, 62, 1, entry, 64, 0, 0, 64, 56, 0, 0, 0, 0)


def sides(word: str) -> tuple[str, str]:
    """What stands before a step and after it, from `BEFORE>AFTER`, or one word where it stays."""
    before, _, after = word.partition(">")
    return before, after or before


def question(word: str) -> str:
    """What an entry asks, from bytes and an address behind `@`."""
    code, _, addr = word.partition("@")
    return f"ask {code} {int(addr, 16):016x}\n" if addr else f"ask {code} -\n"


def answer(given: list[tuple[str, str]]) -> str:
    """What an entry gives: values in the order of a script, then bytes in the order of the line."""
    values = {name: int(value, 16) for name, value in given if name in REGISTERS}
    writes = [f"mem {int(name, 16):016x} {value}\n" for name, value in given if name not in REGISTERS]
    return "".join(f"set {name} {values[name]:016x}\n" for name in REGISTERS if name in values) + "".join(writes)


def undefined(flags: int, mask: int) -> list[tuple[str, str]]:
    """The processor's undefined flags, each other bit of the word inverted; each register and base is 0, which counts for nothing."""
    word = (flags ^ ~mask) & (1 << 64) - 1
    return [(name, "0") for name in REGISTERS if name != "flags"] + [("flags", f"{word:x}")]


def entry_of(code: str, flags: int, words: dict[str, str], given: list[tuple[str, str]]) -> str:
    """The entry of the world that a line says, none where there is none."""
    if "undefined" in words:
        mask, _, asked = words["undefined"].partition(",")
        return question(asked or code) + answer(undefined(flags, int(mask, 16)))
    if "told" not in words or words.get("entry") == "none":
        return ""
    return question(words.get("entry", words.get("asks", code))) + answer(given)


def stop_of(told: str, rip: int) -> str:
    """Why no step is made, as `step` prints it, nothing where one is."""
    if told.startswith("lacks@"):
        return f"NoByte {int(told[6:], 16):016x}"
    return {"empty": f"WorldEmpty {rip:016x}", "differs": f"WorldDiffers {rip:016x}"}.get(told, "")


def line_of(text: str, background: Values) -> Line:
    _, code, rip, flags, *further = text.split()
    words = dict(word.split("=") for word in further if not word.startswith("give:"))
    given = [(name, value) for name, _, value in (word[5:].partition("=") for word in further if word.startswith("give:"))]
    values = ({**background, "fs": 0, "gs": 0}, {**background, "fs": 0, "gs": 0})
    memory: tuple[Memory, Memory] = ([], [])
    for number in (0, 1):
        values[number]["flags"] = int(sides(flags)[number], 16)
        for name, word in words.items():
            if name in REGISTERS:
                values[number][name] = int(sides(word)[number], 16)
            elif name not in ("undefined", "asks", "entry", "told"):
                memory[number].append((int(name, 16), bytes.fromhex(sides(word)[number])))
    first, last = (int(side, 16) for side in sides(rip))
    entries = entry_of(code, values[1]["flags"], words, given)
    return Line(text, bytes.fromhex(code), (first, last), *values, memory, entries, stop_of(words.get("told", ""), first))


def lines_of(table: str, background: Values) -> list[Line]:
    return [line_of(text, background) for text in table.splitlines()]


def loads(memory: Memory) -> tuple[bytes, Values, int]:
    """Code that loads memory in pieces of 8, 4, 2 and 1 bytes, each into a register of its own; these registers then; how many steps."""
    code, values, number = b"", {}, 0
    for addr, data in memory:
        while data:
            size = next(size for size in (8, 4, 2, 1) if size <= len(data))
            opcode = {8: b"\x8b", 4: b"\x8b", 2: b"\x0f\xb7", 1: b"\x0f\xb6"}[size]
            rex = bytes([0x40 | (8 if size == 8 else 0) | number >> 3 << 2])
            code += rex + opcode + bytes([4 | (number & 7) << 3, 0x25]) + pack("<I", addr)
            values[GENERAL[number]] = int.from_bytes(data[:size], "little")
            addr, data, number = addr + size, data[size:], number + 1
    return code, values, number


def regions(code: Memory, memory: Memory) -> str:
    """Lines of a script: code that can be executed, and memory that can be written."""
    held = sorted([(addr, "r-x", data) for addr, data in code] + [(addr, "rw-", data) for addr, data in memory])
    return "".join(f"bytes {addr:016x} {perms} {data.hex()}\n" for addr, perms, data in held if data)


def script_of(values: Values, held: str) -> bytes:
    """A script of these values, with lines behind them."""
    return ("e9world 1\n" + "".join(f"{name} {values[name]:016x}\n" for name in REGISTERS) + held + "end\n").encode()


def told_state(steps: int, stop: str, rip: int, values: Values, left: int) -> bytes:
    """What `step` prints of a run whose states stand at no listed start."""
    name, _, addr = stop.partition(" ")
    front = f"steps {steps}\nstop {f'{name} {addr}' if stop else 'none'}\nquiet no\noutside 0\nrip {rip:016x}\n"
    return (front + "".join(f"{name} {values[name]:016x}\n" for name in REGISTERS) + f"world {left}\n").encode()


def rows_of(kind: str, line: Line, is_used: bool) -> Iterator[Row]:
    """The state behind the step; and, where memory is named and the step made, what it is then."""
    left = line.entries.count("ask") - is_used
    steps = 0 if line.stop else 1
    held = regions([(line.rip[0], line.code)], line.memory[0]) + line.entries
    inputs = {"F": header(line.rip[0]), "S": b"", "W": script_of(line.before, held)}
    told = told_state(steps, line.stop, line.rip[1], line.after, left)
    yield Row(f"{kind} step {line.text}", b"step F S W 1".split(), inputs, 8 if line.stop else 0, told)
    code, values, number = loads(line.memory[1])
    if number and not line.stop:
        behind = line.rip[0] + len(line.code) == line.rip[1]
        held = regions([(line.rip[0], line.code + code)] if behind else [(line.rip[0], line.code), (line.rip[1], code)], line.memory[0])
        inputs = {**inputs, "W": script_of(line.before, held + line.entries)}
        told = told_state(1 + number, "", line.rip[1] + len(code), {**line.after, **values}, left)
        yield Row(f"{kind} memory {line.text}", f"step F S W {1 + number}".encode().split(), inputs, 0, told)


def stepped_rows() -> Iterator[Row]:
    first, _, table = read("measured_steps.txt").decode().partition("\n")
    background = dict(zip(GENERAL, (int(word, 16) for word in first.split()[1:])))
    for line in lines_of(table, background):
        yield from rows_of("measured", line, bool(line.entries))
    for line in lines_of(read("answered_steps.txt").decode(), background):
        yield from rows_of("answered", line, "told=used" in line.text or "told=wrote" in line.text)
