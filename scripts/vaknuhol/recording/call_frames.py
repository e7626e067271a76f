"""From where a thread called the code in which it stands, as a table for the runner (native/vaknuhol-run/callers.c):
what .eh_frame tells of a program's functions, by readelf."""
import array
import re
from collections.abc import Iterable, Iterator

from vaknuhol.arguments import Refusal
from vaknuhol.program.binutils import run

COMMON, FUNCTION = r"([0-9a-f]+) \S+ \S+ CIE ", r"\S+ \S+ \S+ FDE cie=(\S+) pc=([0-9a-f]+)\.\.([0-9a-f]+)"
COLUMNS, ROW = ["LOC", "CFA"], r"[0-9a-f]{16} "
NUMBERS, NEXT_ADDRESS = {"rbp": 6, "rsp": 7}, "c-8"  # as DWARF numbers them; where a caller's next address is kept
NOT_TOLD, HIGHEST = 0, 1 << 31

Rule = tuple[int, int, int]  # a register, how far from it the caller's stack begins, and where from there rbp is kept
Rules = list[tuple[int, Rule]]  # each from an address on


def rule_of(told: dict[str, str]) -> Rule:
    """What a row says. The caller isn't found where its stack depends on another register."""
    register, sign, distance = told["CFA"].partition("+")
    kept = told.get("rbp", "u")
    if not sign or register not in NUMBERS or told.get("ra") != NEXT_ADDRESS or kept[0] not in "cus":
        return NOT_TOLD, 0, 0
    return NUMBERS[register], int(distance), int(kept[1:]) if kept[0] == "c" else 0


def functions_of(lines: Iterable[str]) -> Iterator[tuple[int, int, Rules]]:
    """Where each function begins and ends, and its rules, by the lines of `readelf --debug-dump=frames-interp`. One
    without rows has the rules of its CIE. What is yielded may get its rows behind that."""
    common: dict[str, Rules] = {}
    columns: list[str] = []
    rules: Rules = []
    for line in lines:
        words = line.split()
        if found := re.match(COMMON, line):
            rules = common[found[1]] = []
        elif found := re.match(FUNCTION, line):
            begin, end = int(found[2], 16), int(found[3], 16)
            rules = [(begin, rule) for _, rule in common.get(found[1], [])]
            yield begin, end, rules
        elif words[:2] == COLUMNS:
            columns, rules[:] = words, []
        elif re.match(ROW, line) and len(words) == len(columns):
            rules.append((int(words[0], 16), rule_of(dict(zip(columns, words)))))


def rules_of(path: str) -> bytes:
    """The table of a program, by addresses: from where on a rule holds, where its function begins and ends, and the
    rule. Nothing is told of a program without section headers."""
    rows = array.array("i")
    try:
        lines = run("readelf", "--debug-dump=frames-interp", path)
    except Refusal:
        return b""
    functions = [it for it in functions_of(lines) if it[0] < it[1] < HIGHEST]
    for at, begin, end, rule in sorted((at, begin, end, rule) for begin, end, rules in functions for at, rule in rules):
        rows.extend((at, begin, end, *rule))
    return rows.tobytes()
