"""Which edits are tried in one check: those that change bodies of different functions, and can be applied together.

A function's proof cites the contracts of what it calls, never the bodies, so an edit of one body leaves all other
proofs as they are. What changes another place, as a table or a contract, is tried alone.
"""
from collections.abc import Mapping
from dataclasses import dataclass, field

from edits.edit_files import Edit, Unfit
from edits.places import Function, function_at


@dataclass(frozen=True)
class Placed:
    """An edit with the functions whose bodies it changes: none where it changes another place."""
    edit: Edit
    functions: frozenset[Function]


@dataclass
class Round:
    """The edits of one check, and the crate's texts with all of them."""
    texts: dict[str, str]
    edits: list[Placed] = field(default_factory=list)
    functions: set[Function] = field(default_factory=set)

    def takes(self, placed: Placed) -> bool:
        """Puts an edit into the round, if it can stand beside the others."""
        if self.edits and (not placed.functions or not self.functions or placed.functions & self.functions):
            return False
        try:
            self.texts = placed.edit.applied(self.texts)
        except Unfit:
            return False
        self.edits.append(placed)
        self.functions |= placed.functions
        return True


def place(edit: Edit, texts: Mapping[str, str]) -> Placed:
    """Where an edit changes the crate; Unfit where it can't be applied."""
    edit.applied(texts)
    found, made = set[Function | None](), dict(texts)
    for pair in edit.pairs():
        text = made[pair.file]
        indent = len(pair.old) - len(pair.old.lstrip())
        found.add(function_at(edit.crate, pair.file, text, text.index(pair.old) + indent))
        made[pair.file] = text.replace(pair.old, pair.new)
    return Placed(edit, frozenset(function for function in found if function) if None not in found else frozenset())


def rounds(edits: list[Placed], texts: Mapping[str, str]) -> list[Round]:
    """The checks that these edits take."""
    made: list[Round] = []
    for placed in edits:
        if not any(one.takes(placed) for one in made):
            made.append(Round(dict(texts)))
            assert made[-1].takes(placed)
    return made
