"""What a check says of each edit that it had: whether the function that the edit names failed, and by which goals.

A refusal is a goal of that function that isn't proved: its clause, what a callee requires, a loop's invariant. None is
that a callee isn't proved, or that a proof cites a name that is gone: then goals fail for want of an answer.
"""
import enum
import re
from dataclasses import dataclass

from edits.edit_files import Edit
from edits.grouping import Placed

FUNCTION = re.compile(r"^fn (\S+): (.*)$", re.M)
IN_PROOF = re.compile(r"^(?:\./)?proofs/(\S+)/(\w+)\.antt:\d+:\d+: error: (?:`([^`]*)`: )?(.*)$", re.M)
OPEN_GOAL = re.compile(r"^note: src/\S+: it is not proved that .* \(`([^`]*)`\)", re.M)
SEARCHED = re.compile(r"`search` did not prove (.*)$")
GONE = re.compile(r"has no `|has no field|is not in scope|was not admitted")
UNREAD = re.compile(r"^(?:\./)?(?:src|specs)/\S+?:\d+:\d+: error: .*$", re.M)
UNCOMPILED = re.compile(r"^.*\berror\[[\w-]+\].*$", re.M)
LIMIT = "only by a limit of the prover, which gave no verdict; choose a change that it refuses sooner"


class Kind(enum.Enum):
    REFUSED = "refused"
    MISSED = "NOT REFUSED"
    BAD = "BAD"
    UNSURE = "NOT TRIED"
    UNCLEAR = "unclear"  # among others; alone no edit is


@dataclass(frozen=True)
class Answer:
    kind: Kind
    words: str


class Said:
    """What a check printed, with its status."""

    def __init__(self, status: int, text: str) -> None:
        self.status, self.text = status, text
        self.functions: dict[str, str] = dict(FUNCTION.findall(text))
        self.before: dict[str, str] = {}  # the lines on the goals of a function stand before its own
        start = 0
        for line in FUNCTION.finditer(text):
            self.before[line[1]], start = text[start:line.start()], line.end()

    def nothing(self) -> Answer | None:
        """Why the check says nothing of any function, if so."""
        uncompiled = UNCOMPILED.search(self.text)
        if self.status == 1 and uncompiled:
            return Answer(Kind.BAD, f"doesn't compile: {uncompiled[0].strip()}")
        if self.status == 3:
            return Answer(Kind.BAD, LIMIT)
        if self.status != 1 or "\nlogic=not-proved\n" not in self.text:
            return Answer(Kind.UNSURE, f"its check ended with status {self.status}; try it again")
        return None

    def function(self, full: str) -> Answer:
        """What the check says of one function."""
        state = self.functions[full]
        if state.startswith("proved"):
            return Answer(Kind.MISSED, f"{full} is proved")
        if state.startswith("could not tell"):
            return Answer(Kind.BAD, f"{full}: {LIMIT}")
        if "its contract or its `statement`" in state:
            unread = UNREAD.search(self.text)
            return Answer(Kind.BAD, f"the prover can't read the contract of {full}: {unread[0] if unread else state}")
        folder = "/".join(full.split("::")[1:])
        told = [found for found in IN_PROOF.finditer(self.text) if found[1] == folder]
        gone = [found for found in told if GONE.search(found[4])]
        failed = [found[3] or "a proof" for found in told if found not in gone]
        if gone and (not failed or any(found[2] == "Invariants" for found in gone)):
            return Answer(Kind.BAD, f"says nothing of {full}; keep the names that proofs cite: {gone[0][0]}")
        searched = SEARCHED.search(state)
        goals = failed + (re.findall("`([^`]+)`", searched[1]) if searched
                          else OPEN_GOAL.findall(self.before[full]))
        if goals:
            return Answer(Kind.REFUSED, f"{full}, {', '.join(dict.fromkeys(goals))}")
        return Answer(Kind.UNCLEAR, f"says nothing of {full}: {state}")


def is_named(full: str, parts: list[str]) -> bool:
    """Whether the prover calls a function by these parts: of a method, it joins the names of type and trait."""
    names = full.split("::")
    return names[-1] == parts[-1] and len(names) >= len(parts) and all(
        name.startswith(part) for name, part in zip(reversed(names[:-1]), reversed(parts[:-1])))


def other_clause(edit: Edit, words: str) -> str:
    """The clauses by which a function failed, if the edit's line names another: `returns-clause-least` is `least`."""
    wanted = re.findall(r"\w+", edit.clause.split("(")[0].partition(",")[2])
    goals = words.split(", ")[1:]
    clauses = [found[1] for goal in goals if (found := re.search(r"-clause-(\w+)$", goal))]
    return ", ".join(clauses) if wanted and len(clauses) == len(goals) and not {*wanted} & {*clauses} else ""


def of_functions(placed: Placed, said: Said, is_alone: bool) -> Answer:
    """What a check says of the function that an edit names, or else of what it changes."""
    changed = [full for full in said.functions if any(function.is_called(full) for function in placed.functions)]
    named = [full for full in said.functions if any(is_named(full, parts) for parts in placed.edit.named)]
    meant = [full for full in named if full in changed] or named or changed or [*said.functions]
    answers = {full: said.function(full) for full in meant}
    for kind in (Kind.REFUSED, Kind.BAD):
        for answer in answers.values():
            if answer.kind is kind:
                if kind is Kind.REFUSED and (other := other_clause(placed.edit, answer.words)):
                    return Answer(Kind.BAD, f"refused by the clause {other}; mend its line `# clause:`")
                return answer
    for full in [*changed, *(said.functions if is_alone else [])]:
        if (answer := said.function(full)).kind is Kind.REFUSED:
            return Answer(Kind.BAD, f"refused in {answer.words}, not in {meant[0]}; mend its line `# clause:`")
    return min(answers.values(), key=lambda answer: answer.kind is Kind.MISSED)


def judge(placed: Placed, said: Said, is_alone: bool) -> Answer:
    """What a check says of an edit that was in it, alone or among others."""
    if said.status == 0:
        return Answer(Kind.MISSED, "still proved; strengthen the contract, or remove it if it means the same as before")
    nothing = said.nothing()
    answer = nothing or of_functions(placed, said, is_alone)
    if is_alone:
        return Answer(Kind.BAD, answer.words) if answer.kind in (Kind.UNCLEAR, Kind.MISSED) else answer
    return Answer(Kind.UNCLEAR, answer.words) if nothing or answer.kind is Kind.MISSED else answer
