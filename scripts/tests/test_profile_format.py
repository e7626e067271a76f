"""The profile for KCachegrind, read by a reader of its own and by callgrind_annotate."""
import re
from collections.abc import Iterator

from tests.calls import match, run
from tests.doubles import double
from tests.made_coverage import BASE, coverage_of, listing_of
from tests.needs import need
from vaknuhol.program.listing_file import CALL, FALLS
from vaknuhol.views import callgrind, profile as profiles

CODE = [
    (BASE, 3, ("a.c", 3), None),
    (BASE + 3, 5, ("a.h", 12), BASE + 0x10),
    (BASE + 8, 8, ("a.c", 4), None),
    (BASE + 0x10, 4, None, None),
    (BASE + 0x14, 4, ("b.c", 7), None),
]


def counted_code() -> str:
    instructions = [(addr, size, CALL if target else FALLS, target or 0) for addr, size, _, target in CODE]
    listing = listing_of(instructions, [(BASE, "less"), (BASE + 0x10, "other"), (BASE + 8, ".text")])
    info = double(place_of={addr: where for addr, _, where, _ in CODE}.get)
    return callgrind.text(profiles.Profile(coverage_of(listing=listing, info=info)))


class Profile:
    """A profile in callgrind's format, read by its manual: costs by function, file and line, and calls."""

    def __init__(self, text: str) -> None:
        self.names: dict[str, dict[str, str]] = {"file": {}, "fn": {}}
        self.costs: dict[tuple[str, str, int], int] = {}
        self.calls: list[tuple[str, str, str, int, int, int, int]] = []
        self.callers: list[tuple[str, int, int]] = []  # of each call the file, the address and the line of its instruction
        self.summary = int(match(r"(?m)^summary: ([0-9]+)$", text)[1])
        lines = iter(text[text.index("\nfl=") :].splitlines())
        for line in lines:
            self.take(line, lines)

    def name(self, kind: str, word: str) -> str:
        number, name = match(r"^(\([0-9]+\))(?: (.+))?$", word).groups()
        if name:
            assert number not in self.names[kind], f"{number} is named twice"
            self.names[kind][number] = name
        return self.names[kind][number]

    def take(self, line: str, lines: Iterator[str]) -> None:
        key, _, word = line.partition("=")
        if key in ("fl", "fi", "fe"):
            self.file = self.name("file", word)
        elif key == "fn":
            self.fn = self.name("fn", word)
        elif key in ("cfi", "cfl"):
            self.called_file = self.name("file", word)
        elif key == "cfn":
            self.called = self.name("fn", word)
        elif key == "calls":
            count, target, at = word.split()
            addr, number, cost = next(lines).split()
            self.calls.append((self.fn, self.called_file, self.called, int(count), int(target, 0), int(at), int(cost)))
            self.callers.append((self.file, int(addr, 0), int(number)))
        elif line:
            addr, number, cost = line.split()
            key_of = self.fn, self.file, int(number)
            self.costs[key_of] = self.costs.get(key_of, 0) + int(cost)


def test_a_profile_has_the_count_of_each_instruction_and_call():
    """Where a block wasn't executed, or its count isn't known, nothing."""
    profile = Profile(counted_code())
    assert profile.costs == {("less", "a.c", 3): 7, ("less", "a.h", 12): 7, ("other", "b.c", 7): 9}
    assert profile.calls == [
        ("less", "???", "other", 7, BASE + 0x10, 0, 9),
        ("(callers that are not known)", "a.c", "less", 7, BASE, 3, 7 + 7 + 9),
    ]
    assert profile.callers == [("a.h", BASE + 3, 12), ("???", 0, 0)]
    assert profile.summary == 7 + 7 + 9


def test_callgrind_annotate_reads_the_profile(place):
    need("callgrind_annotate")
    with open("callgrind.out", "w", encoding="utf-8") as file:
        file.write(counted_code())
    told = run("callgrind_annotate", "--auto=no", "--show-percs=no", "--threshold=100", "callgrind.out")
    assert re.search(r"^ *23 +PROGRAM TOTALS", told, re.M), told
    assert costs_of(told) == {"a.c:less": 7, "a.h:less": 7, "b.c:other": 9}, told
    told = run("callgrind_annotate", "--inclusive=yes", "--auto=no", "--show-percs=no", "--threshold=100", "callgrind.out")
    assert costs_of(told)["a.c:less"] == 23 and costs_of(told)["???:other"] == 9, told


def costs_of(told: str) -> dict[str, int]:
    return {name: int(cost.replace(",", "")) for cost, name in re.findall(r"^ *([0-9,]+) +(\S+:\S+)$", told, re.M)}
