"""Must-fail edits, as their files have them: which lines each changes, and which function and clause it names.

A file has lines `file:`, and `old:` and `new:` for each line that changes; the text after `old:` stands once in the
file as the pairs before it left it. `# clause:` names the function that has to be refused, and its clause.
"""
import os
import re
from collections.abc import Mapping
from dataclasses import dataclass

GATE, MORE = "the gate", "more-edits"
INSIDE = ("src/", "specs/", "proofs/")


class Unfit(Exception):
    """Why an edit can't be applied."""


@dataclass(frozen=True)
class Pair:
    file: str
    old: str
    new: str


@dataclass(frozen=True)
class Edit:
    crate: str
    name: str
    origin: str  # GATE or MORE
    text: str

    @property
    def clause(self) -> str:
        """What the line `# clause:` says, and nothing where an edit has none."""
        found = re.search(r"^# clause: (.*)$", self.text, re.M)
        return found[1] if found else ""

    @property
    def named(self) -> list[list[str]]:
        """The functions that the line names, each as the parts of its path: `clone of Code` is `Code::clone`."""
        words = re.split(r"[,(]", self.clause)[0].strip()
        paths = [" of ".join(reversed(path.split(" of "))) for path in words.split(" to ")]
        return [re.split(r"::| of ", path) for path in paths if path]

    def pairs(self) -> list[Pair]:
        """What changes; Unfit where the file isn't that of an edit."""
        file, old, found = "", "", []
        for line in self.text.split("\n"):
            if line.startswith("file: "):
                file = line.removeprefix("file: ").strip()
                if os.path.normpath(file) != file or not file.startswith(INSIDE):
                    raise Unfit(f"{file} is no file below src/, specs/ or proofs/")
            elif line.startswith("old: "):
                old = line.removeprefix("old: ")
            elif line.startswith("new:"):
                if not file or not old:
                    raise Unfit("a line `new:` stands before `file:` or `old:`")
                found.append(Pair(file, old, line.removeprefix("new:").removeprefix(" ")))
                old = ""
        if not found:
            raise Unfit("it has no `old:` with a `new:`")
        return found

    def applied(self, texts: Mapping[str, str]) -> dict[str, str]:
        """The crate's texts, by their paths, with this edit; Unfit where it doesn't apply."""
        made = dict(texts)
        for pair in self.pairs():
            count = made[pair.file].count(pair.old) if pair.file in made else 0
            if count != 1:
                raise Unfit(f"{pair.file} has an `old:` text {count} times, not once")
            made[pair.file] = made[pair.file].replace(pair.old, pair.new)
        if made == dict(texts):
            raise Unfit("it changes nothing")
        return made


def edits_in(top: str, crate: str, origins: tuple[str, ...]) -> list[Edit]:
    """The edits of a crate, those of the gate first, by their names."""
    folders = {GATE: os.path.join(top, "crates", crate, "must-fail"), MORE: os.path.join(top, "more-edits", crate)}
    found = []
    for origin in origins:
        folder = folders[origin]
        for name in sorted(os.listdir(folder)) if os.path.isdir(folder) else []:
            if name.endswith(".edit"):
                with open(os.path.join(folder, name), encoding="utf-8") as file:
                    found.append(Edit(crate, name.removesuffix(".edit"), origin, file.read()))
    return found


def texts_of(crate: str) -> dict[str, str]:
    """What an edit may change of the crate in this folder: all its texts, by their paths there."""
    found = {}
    for part in INSIDE:
        for folder, _, names in os.walk(os.path.join(crate, part)):
            for name in names:
                path = os.path.join(folder, name)
                with open(path, encoding="utf-8") as file:
                    found[os.path.relpath(path, crate)] = file.read()
    return found
