"""The report of a patch: its action, its private range, the sites with their outcomes, the written bytes.

All that is known of the grammar of reports (docs/reference/formats.md) stands here, for every script. Version 2 has
the line `origin`, and the outcome `Shared`; a report of `threads` begins with a line of its own.
"""
import collections
import functools
import hashlib
import os
import re
from collections.abc import Iterable, Iterator
from typing import Any, NamedTuple

from vaknuhol.arguments import Refusal
from vaknuhol.program.program_file import Program, file_hash, read_text
from vaknuhol.recording.actions import Action, ActionError, action_of

SCRATCH = 64
FOR_THREADS = "mode threads\n"  # the first line of a report of `threads`
LEFT = ("NotRelocatable", "NoPlan", "Shared")


def text_hash(path: str, text: str) -> str:
    """The hash of a text that was read: of a file that can be read again, as it may be known already."""
    return file_hash(path) if os.path.isfile(path) else hashlib.sha256(text.encode()).hexdigest()


def outcome_counts(outcomes: Iterable[str | None]) -> str:
    """How many of these outcomes of left sites are of which name, as the summary of `patch` has them, but for those
    that don't occur; and how many blocks have no site, where others have an outcome."""
    counts = collections.Counter(outcomes)
    named, without = " ".join(f"{name} {counts[name]}" for name in LEFT if counts[name]), counts[None]
    return f"{named}, {without} without a site" if named and without else named


class Lines:
    """The lines of one kind in a report, as a form has their words."""

    def __init__(self, kind: str, form: str) -> None:
        self.begin, self.words = f"\n{kind} ", form

    @functools.cached_property
    def form(self) -> re.Pattern[str]:
        return re.compile(rf"{self.begin}{self.words}(?=\n)")

    def found(self, path: str, text: str) -> list[Any]:
        """The words of each; a line of this kind that has another form is refused."""
        found = self.form.findall(text)
        if len(found) < text.count(self.begin):
            at = text.find(self.begin)
            while self.form.match(text, at):
                at = text.find(self.begin, at + 1)
            line = text[at + 1:].partition("\n")[0]
            raise Refusal(f"{path} is no report: line {text.count(chr(10), 0, at + 1) + 1}: {line}")
        return found


ADDRESS, CODE = "([0-9a-f]+)", "((?:[0-9a-f]{2})+)"
ACTION, PRIVATE = Lines("action", "(.*)"), Lines("private", f"{ADDRESS} [0-9]+")
ORIGIN = Lines("origin", f"([0-9]+) ([0-9]+) ([0-9]+) {ADDRESS}")
SITES = Lines("site", f"{ADDRESS} ([0-9]+) ([A-Za-z0-9]+)")
TRAMPS, WRITES = Lines("tramp", f"{ADDRESS} {ADDRESS} (event|plain)"), Lines("write", f"{ADDRESS} {CODE} {CODE}")
NEAR = rf"\nsite {ADDRESS} [0-9]+ T3((?:\n(?:tramp|write|pun) .*)*)"
SHORT_JUMP, SHORT_LENGTH = 0xEB, 2


class Origin(NamedTuple):
    """What a report says of the original file: its length, and three fields of its header."""
    length: int
    phoff: int
    phnum: int
    entry: int


class Report:
    """What a report says of a patch: whether it is for threads, the action, the private range, the patched sites with
    their numbers, and the sites that were left, with their outcomes; `hash` is what its records know it by."""
    action: Action
    private: int

    def __init__(self, path: str) -> None:
        text = read_text(path)
        begins = text.removeprefix(FOR_THREADS).startswith(("e9report 1\n", "e9report 2\n"))
        if not begins or not text.endswith("\nend\n"):
            raise Refusal(f"{path} is no report of e9tool")
        self.path, self.text, self.for_threads = path, text, text.startswith(FOR_THREADS)
        self.hash = text_hash(path, text)
        actions, privates = ACTION.found(path, text), PRIVATE.found(path, text)
        for line in actions:
            try:
                self.action = action_of(line)
            except ActionError:
                raise Refusal(f"{path}: these scripts can't read a record of the action {line}") from None
        for line in privates:
            self.private = int(line, 16)
        self.left: dict[int, str] = {}
        self.patched: dict[int, int] = {}
        for site, number, outcome in SITES.found(path, text):
            if outcome in LEFT:
                self.left[int(site, 16)] = outcome
            else:
                self.patched[int(site, 16)] = int(number)
        if not privates or not actions:
            raise Refusal(f"{path} is no report: it has no private range or no action")
        if not self.patched:
            raise Refusal(f"{path} has no patched site, so there is nothing to record: patch other sites")

    def record_place(self) -> tuple[int, int]:
        """Where the record lies in memory, and how many bytes it has."""
        return self.private + SCRATCH, self.action.length(self.sites())

    def origin(self) -> Origin | None:
        """What it says of the original file; nothing, in version 1."""
        for length, phoff, phnum, entry in ORIGIN.found(self.path, self.text):
            return Origin(int(length), int(phoff), int(phnum), int(entry, 16))
        return None

    def sites(self) -> int:
        """How many numbers of sites a record has: up to the highest one that is patched."""
        return max(self.patched.values()) + 1

    def trampolines(self) -> list[tuple[int, int, int | None]]:
        """Place, the start that it stands for, and the number of its site or, of one that records nothing, none."""
        found = TRAMPS.found(self.path, self.text)
        try:
            return [(int(place, 16), at := int(start, 16), self.patched[at] if kind == "event" else None) for place,
                    start, kind in found]
        except KeyError as error:
            raise Refusal(f"{self.path} is no report: a trampoline records {error.args[0]:08x}, which is no patched "
                          "site") from None

    def short_jumps(self) -> Iterator[tuple[int, int]]:
        """Where the short jumps of T3 lead, and the site of each: to a place inside the victim, which stands for the
        site, too."""
        for site, lines in re.findall(NEAR, self.text):
            at = int(site, 16)
            for place, _, new in WRITES.found(self.path, f"{lines}\n"):
                code = bytes.fromhex(new)
                if int(place, 16) == at and code[0] == SHORT_JUMP and len(code) >= SHORT_LENGTH:
                    yield at + SHORT_LENGTH + code[1], at

    def check_patched(self, path: str) -> None:
        """Refuses a program that has other bytes than the report says were written."""
        program = Program(path)
        for place, _, code in WRITES.found(self.path, self.text):
            addr, new = int(place, 16), bytes.fromhex(code)
            if program.read(addr, len(new)) != new:
                raise Refusal(f"{path} is not the patched file that {self.path} is of: at {addr:08x} other bytes stand")
