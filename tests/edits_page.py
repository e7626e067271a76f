#!/usr/bin/env python3
"""The must-fail edits, as their own first lines describe them: edits_page.py [--more] [CRATE..].

Without arguments it tests that each edit has its lines: those of the gate `# clause:` (the function, its clause, what
that says) and `# why:` (what would go wrong for a user); those of more-edits `# what:` (what it changes) and `# also:`
(what else than the proof finds it); and that the gate has no more edits than CONTRIBUTING.md allows, since each costs a
check, and each crate of them a proof. With names of crates, or --all, it prints the edits of the gate; with --more
those of more-edits."""
import os
import sys

TOP = os.path.dirname(os.path.dirname(os.path.realpath(__file__)))
GATE, MORE = ("clause", "why"), ("what", "also")
MOST, MOST_CRATES, MOST_OF_A_CRATE = 110, 30, 4  # edits of the gate, crates with edits, edits of one crate


def edits_of(crate: str, more: bool) -> list[str]:
    """The paths of a crate's edits."""
    folder = os.path.join(TOP, "more-edits", crate) if more else os.path.join(TOP, "crates", crate, "must-fail")
    names = sorted(os.listdir(folder)) if os.path.isdir(folder) else []
    return [os.path.join(folder, name) for name in names if name.endswith(".edit")]


def said(path: str, words: tuple[str, str]) -> list[str]:
    """What the lines of an edit say after each of the words."""
    with open(path, encoding="utf-8") as file:
        lines = file.read().splitlines()
    return [line.partition(": ")[2] for word in words for line in lines if line.startswith(f"# {word}: ")]


def crates_with(more: bool) -> list[str]:
    folder = os.path.join(TOP, "more-edits" if more else "crates")
    return sorted(name for name in os.listdir(folder) if edits_of(name, more))


def faults(more: bool) -> list[str]:
    """The edits whose lines are missing, double or empty."""
    words = MORE if more else GATE
    paths = [path for crate in crates_with(more) for path in edits_of(crate, more)]
    found = [path for path in paths if [bool(line) for line in said(path, words)] != [True, True]]
    wanted = f"has to have one line `# {words[0]}:` and one `# {words[1]}:`"
    return [f"{os.path.relpath(path, TOP)}: {wanted}" for path in found]


def too_many() -> list[str]:
    """Where the gate has more edits than it may have."""
    counts = {crate: len(edits_of(crate, False)) for crate in crates_with(False)}
    found = [f"crates/{crate}/must-fail: {count} edits, of {MOST_OF_A_CRATE} at most"
             for crate, count in counts.items() if count > MOST_OF_A_CRATE]
    if len(counts) > MOST_CRATES or sum(counts.values()) > MOST:
        found.append(f"{sum(counts.values())} edits in {len(counts)} crates, of {MOST} in {MOST_CRATES} at most")
    return found


def show(crates: list[str], more: bool) -> None:
    for crate in crates:
        for path in edits_of(crate, more):
            first, second = said(path, MORE if more else GATE)
            print(f"{crate} {os.path.basename(path).removesuffix('.edit')}\n    {first}\n    {second}")


def main() -> None:
    words = sys.argv[1:]
    more = "--more" in words
    known = crates_with(more)
    crates = known if "--all" in words or words == ["--more"] else [word for word in words if not word.startswith("--")]
    if set(crates) - set(known) or set(words) - set(known) - {"--more", "--all"}:
        sys.exit(__doc__)
    found = faults(False) + faults(True) + too_many()
    if crates:
        show(crates, more)
    elif not found:
        counts = [sum(len(edits_of(crate, more)) for crate in crates_with(more)) for more in (False, True)]
        print(f"{counts[0]} edits of the gate and {counts[1]} of more-edits say what they are")
    sys.exit("\n".join(found) or None)


main()
