#!/usr/bin/env python3
"""Whether crates.txt, the heads of the crates and docs/develop/map.md agree.

    layout.py [--layers | --above CRATE | --chain [CRATE] | --crate CRATE]

With --layers it prints the block of crates by layers that the map shows, made from crates.txt and the seconds that
stand there; with --above what a change of the crate proves again, with these seconds and their sum, how many edits are
tried again, and how long both take; with --chain the crates one above the other that take longest to prove, up to this
one or of all, below which no number of processors brings a gate from nothing; with --crate the crate's head, its layer,
what depends on it, its crate of tests, and the first line of each of its definition files."""
import os
import re
import sys
import textwrap

TOP = os.path.dirname(os.path.dirname(os.path.realpath(__file__)))
MAP = "docs/develop/map.md"
TITLE, WIDTH = 19, 150
# processor seconds of an edit, on average, beside a second proof of each crate with two or more (docs/evidence/speed.md, The gate)
EDIT, PROCESSORS = 23, 4


def read(path: str) -> str:
    with open(os.path.join(TOP, path), encoding="utf-8") as file:
        return file.read()


def listed() -> dict[str, list[str]]:
    """Each crate of crates.txt with the libraries of its line, in the file's order."""
    lines = (line.split("#")[0].strip() for line in read("crates.txt").splitlines())
    pairs = (line.split(":") for line in lines if line)
    return {name.strip(): libraries.split() for name, libraries in pairs}


def sources(crate: str) -> str:
    """All that a check of the crate reads of its own."""
    text = []
    for part in ("src", "specs", "proofs"):
        for folder, _, files in os.walk(os.path.join(TOP, "crates", crate, part)):
            text += [read(os.path.join(folder, file)) for file in sorted(files) if file.endswith((".rt", ".antt"))]
    return "\n".join(text)


def cited(text: str) -> set[str]:
    """The names before `::`, behind `Rattle.` and behind `use`, libraries among them."""
    forms = (r"(?<![\w.])(\w+)::", r"\bRattle\.(\w+)", r"\buse (\w+)")
    return {name for form in forms for name in re.findall(form, text)}


def below(crate: str, crates: dict[str, list[str]]) -> set[str]:
    """The crates of the repository that this one stands on, directly or not."""
    found: set[str] = set()
    waiting = [crate]
    while waiting:
        for name in crates[waiting.pop()]:
            if name in crates and name not in found:
                found.add(name)
                waiting.append(name)
    return found


def layers() -> list[tuple[str, list[str]]]:
    """The layers of crates.txt, each with its title, the words of its comment up to the colon, and its crates."""
    found: list[tuple[str, list[str]]] = []
    for line in read("crates.txt").splitlines()[1:]:
        if line.startswith("# "):
            found.append((line[2:].partition(":")[0], []))
        elif line.strip():
            found[-1][1].append(line.partition(":")[0])
    return found


def above(changed: str, crates: dict[str, list[str]]) -> list[str]:
    """What is proved again where a crate changes: the crate, and those that stand on it."""
    return [name for name in crates if name == changed or changed in below(name, crates)]


def chain(last: str, crates: dict[str, list[str]], seconds: dict[str, int]) -> list[str]:
    """The crates one above the other, up to this one, whose proofs take longest."""
    found: dict[str, list[str]] = {}
    for name, libraries in crates.items():
        lower = [found[library] for library in libraries if library in crates]
        found[name] = max(lower, key=lambda names: sum(seconds[below] for below in names), default=[]) + [name]
    return found[last] if last else max(found.values(), key=lambda names: sum(seconds[name] for name in names))


def seconds_in(page: str) -> dict[str, int]:
    """The seconds after each name in the map's block of crates."""
    block = re.search(r"^```\n.*?^```", page, re.M | re.S)
    return {name: int(number) for name, number in re.findall(r"([a-z]\w+) (\d+)", block.group())} if block else {}


def layer_block(seconds: dict[str, int]) -> str:
    """The crates by layers as the map shows them."""
    rows = []
    for title, names in layers():
        shown = "   ".join(f"{name}_{seconds.get(name, '?')}" for name in names)
        lines = textwrap.wrap(shown, WIDTH - TITLE, break_long_words=False)
        rows += [f"{title if number == 0 else '':<{TITLE}}{line}" for number, line in enumerate(lines)]
    return re.sub(r"(?<=[a-z])_(?=\d|\?)", " ", "\n".join(rows))


def head(crate: str) -> str:
    """The comment at the top of a crate, on one line."""
    folder = os.path.join(TOP, "crates", crate, "src")
    root = next(name for name in ("lib.rt", "main.rt") if os.path.isfile(os.path.join(folder, name)))
    lines = [line[3:].strip() for line in read(f"crates/{crate}/src/{root}").splitlines() if line.startswith("//!")]
    return " ".join(lines)


def faults_of_head(crate: str, crates: dict[str, list[str]]) -> list[str]:
    """What the head says otherwise than crates.txt: what it names stands there, and reaches the rest."""
    said = re.search(r"Stands on (.*?)(?:\. |\.?$)", head(crate))
    if not said:
        return [f"{crate}: its head doesn't say what it stands on"]
    on, _, over = said.group(1).partition(";")
    named = [name for name in re.findall(r"`(\w+)`", on) if name in crates]
    users = [name for name in re.findall(r"`(\w+)`", over) if name in crates]
    own = {name for name in crates[crate] if name in crates}
    reached = set(named).union(*(below(name, crates) for name in named))
    faults = [f"{crate}: its head says that it stands on {name}, crates.txt doesn't"
              for name in named if name not in own]
    faults += [f"{crate}: its head leaves out {name}" for name in sorted(own - reached)]
    direct = {name for name, libraries in crates.items() if crate in libraries and not name.endswith("_tests")}
    faults += [f"{crate}: its head says that {name} stands on it, crates.txt doesn't"
               for name in users if crate not in crates[name]]
    if users:
        covered = set(users) | {name for name in direct if below(name, crates) & set(users)}
        faults += [f"{crate}: its head leaves out that {name} stands on it" for name in sorted(direct - covered)]
    elif "nothing stands on it" in over and direct:
        faults.append(f"{crate}: its head says that nothing stands on it")
    return faults


def faults(crates: dict[str, list[str]]) -> list[str]:
    found, above = [], set()
    folders = {name for name in os.listdir(os.path.join(TOP, "crates"))}
    found += [f"{name}: in crates/ or in crates.txt alone" for name in sorted(folders ^ set(crates))]
    for crate, libraries in crates.items():
        text = sources(crate)
        used = cited(text)
        imported = set(re.findall(r"\bRattle\.(\w+)\.", text)) | set(re.findall(r"^use (\w+)::", text, re.M))
        found += [f"{crate}: {name} stands below it in crates.txt"
                  for name in libraries if name in crates and name not in above]
        found += [f"{crate}: lists {name}, which none of its files cites" for name in libraries if name not in used]
        found += [f"{crate}: cites {name}, which its line doesn't list" for name in crates
                  if name != crate and name not in libraries and name in imported]
        found += faults_of_head(crate, crates)
        above.add(crate)
    page = read(MAP)
    if layer_block(seconds_in(page)) not in page or "?" in layer_block(seconds_in(page)):
        found.append(f"{MAP}: its crates aren't those of crates.txt, or lack seconds (layout.py --layers prints them)")
    return found


def first_comment(path: str) -> str:
    """What a definition file says of itself: its first comment."""
    return next((line[3:] for line in read(path).splitlines() if line.startswith("-- ")), "")


def description(crate: str, crates: dict[str, list[str]], seconds: dict[str, int]) -> list[str]:
    """What there is to know of one crate, from its head, crates.txt and its files."""
    users = [name for name in crates if crate in crates[name]]
    layer = next(title for title, names in layers() if crate in names)
    lines = [head(crate), f"layer: {layer}; seconds: {seconds.get(crate, '?')}", f"lists: {' '.join(crates[crate])}"]
    lines.append(f"listed by: {' '.join(name for name in users if not name.endswith('_tests'))}")
    lines.append(f"tested in: {' '.join(name for name in users if name.endswith('_tests'))}")
    folder = os.path.join(TOP, "crates", crate, "specs")
    files = sorted(name for name in os.listdir(folder) if name.endswith(".antt")) if os.path.isdir(folder) else []
    comments = ((name, first_comment(f"crates/{crate}/specs/{name}")) for name in files)
    return lines + [f"  {name}: {comment}" for name, comment in comments if comment]


def edits(crate: str) -> int:
    """How many must-fail edits a crate has."""
    folder = os.path.join(TOP, "crates", crate, "must-fail")
    return sum(name.endswith(".edit") for name in os.listdir(folder)) if os.path.isdir(folder) else 0


def answer(words: list[str], crates: dict[str, list[str]], seconds: dict[str, int]) -> None:
    """What is asked with words, printed."""
    if words == ["--layers"]:
        print(layer_block(seconds))
    elif len(words) == 2 and words[0] == "--above" and words[1] in crates:
        again = above(words[1], crates)
        total, tried = sum(seconds[name] for name in again), sum(edits(name) for name in again)
        twice = sum(seconds[name] for name in again if edits(name) > 1)
        print(*(f"{name} {seconds[name]}" for name in again), sep="\n")
        print(f"{len(again)} crates, {total} processor seconds; {tried} edits, some {EDIT} each, and {twice} for proofs before them")
        minutes = (total + twice + EDIT * tried) / PROCESSORS / 60
        print(f"rt ci: some {minutes:.0f} minutes on {PROCESSORS} processors, and every test")
    elif words[:1] == ["--chain"] and set(words[1:]) <= set(crates) and len(words) <= 2:
        names = chain("".join(words[1:]), crates, seconds)
        print(*(f"{name} {seconds[name]}" for name in names), f"{sum(seconds[name] for name in names)} seconds", sep="\n")
    elif len(words) == 2 and words[0] == "--crate" and words[1] in crates:
        print(*description(words[1], crates, seconds), sep="\n")
    else:
        sys.exit(__doc__)


def main() -> None:
    crates = listed()
    if sys.argv[1:]:
        answer(sys.argv[1:], crates, seconds_in(read(MAP)))
        return
    found = faults(crates)
    print("\n".join(found) or f"crates.txt, {len(crates)} heads and {MAP} agree")
    sys.exit(bool(found))


main()
