#!/usr/bin/env python3
"""Whether each link and path that the repository names leads somewhere, whether each fact stands in one page alone,
and whether pages keep to their sizes.

Links of pages, with their anchors; paths of pages (docs/..) in every tracked file; in pages also files of other
folders, and sources of crates, with their folder or without. The facts are those of facts.txt. A page has at most 400
lines of at most 160 columns, README 120, all together 2,600."""
import os
import re
import subprocess
import sys

TOP = os.path.dirname(os.path.dirname(os.path.realpath(__file__)))
FACTS = "tests/facts.txt"
LINES, COLUMNS, README_LINES, ALL_LINES = 400, 160, 120, 2600
LINK = re.compile(r"\[[^\]]*\]\(([^)\s]+)\)")
PAGE_PATH = re.compile(r"\bdocs/[\w./-]*\w")
FILE_PATH = re.compile(r"`((?:scripts|tests|bench|native|examples|more-edits|bin|crates)/[\w./-]*\w)(?=[` ])")
SOURCE = re.compile(r"`(\w+)/((?:\w+/)*\w+\.(?:rt|antt))`")


def tracked() -> list[str]:
    done = subprocess.run(["git", "ls-files", "-z"], cwd=TOP, capture_output=True, check=True)
    names = [name for name in done.stdout.decode().split("\0") if name]
    paths = {name: os.path.join(TOP, name) for name in names}
    return [name for name, path in paths.items() if os.path.isfile(path) and not os.path.islink(path)]


def read(name: str) -> str:
    with open(os.path.join(TOP, name), encoding="utf-8", errors="replace") as file:
        return file.read()


def without_code(text: str) -> str:
    """A page without its fenced blocks, with as many lines."""
    return re.sub(r"^```.*?^```", lambda block: "\n" * block.group().count("\n"), text, flags=re.M | re.S)


def anchors(page: str) -> set[str]:
    """The anchors of a page's headings, as GitHub makes them."""
    headings = re.findall(r"^#+ (.*)$", without_code(read(page)), re.M)
    return {re.sub(r"[^\w\- ]", "", heading.lower()).replace(" ", "-") for heading in headings}


def exists(path: str) -> bool:
    return os.path.exists(os.path.join(TOP, path))


def stands(path: str) -> bool:
    """Whether a path of the repository leads somewhere; one with a placeholder, or that a build leaves, does."""
    return exists(path) or re.search("NAME|CRATE|/out/", path) is not None


def fault_of_link(page: str, target: str) -> str:
    """What is wrong with a link of a page, or nothing."""
    if re.match(r"[a-z]+:", target):
        return ""
    path, _, anchor = target.partition("#")
    goal = os.path.normpath(os.path.join(os.path.dirname(page), path)) if path else page
    if not exists(goal):
        return "leads nowhere"
    return "" if not anchor or (goal.endswith(".md") and anchor in anchors(goal)) else "has no such heading"


def is_source(crate: str, rest: str) -> bool:
    """Whether a crate has the source, named with its folder or without."""
    return any(exists(os.path.join("crates", crate, folder, rest)) for folder in ("", "src", "specs", "proofs"))


def faults_of_page(page: str) -> list[str]:
    """What a page names that isn't there."""
    text = without_code(read(page))
    found = [f"{page}: {target} {fault}" for target in LINK.findall(text) if (fault := fault_of_link(page, target))]
    for number, line in enumerate(text.split("\n"), 1):
        place = f"{page}:{number}"
        found += [f"{place}: {path} isn't there" for path in FILE_PATH.findall(line) if not stands(path)]
        found += [f"{place}: no crate has {crate}/{rest}" for crate, rest in SOURCE.findall(line)
                  if exists(f"crates/{crate}") and not is_source(crate, rest)]
    return found


def faults_of_facts(pages: list[str]) -> list[str]:
    """The facts that stand elsewhere than in their page, or not there."""
    texts = {page: " ".join(read(page).split()) for page in pages}
    rows = [line.split(" | ", 2) for line in read(FACTS).splitlines() if not line.startswith("#")]
    places = {fact: [page for page, text in texts.items() if re.search(form, text)] for _, fact, form in rows}
    return [f"{FACTS}: {fact}: stands in {', '.join(places[fact]) or 'no page'}, and not in {page} alone"
            for page, fact, _ in rows if places[fact] != [page]]


def faults_of_sizes(pages: list[str]) -> list[str]:
    """Pages and lines that are too long, and whether all pages together are."""
    found, total = [], 0
    for page in pages:
        lines = read(page).splitlines()
        total += len(lines)
        most = README_LINES if page == "README.md" else LINES
        found += [f"{page}: {len(lines)} lines, {most} at most"] if len(lines) > most else []
        found += [f"{page}:{number}: {len(line)} columns, {COLUMNS} at most"
                  for number, line in enumerate(lines, 1) if len(line) > COLUMNS]
    return found + ([f"the pages have {total} lines, {ALL_LINES} at most"] if total > ALL_LINES else [])


def main() -> None:
    names = tracked()
    pages = [name for name in names if name.endswith(".md")]
    found = [fault for page in pages for fault in faults_of_page(page)]
    for name in names:
        paths = sorted(set(PAGE_PATH.findall(read(name))))
        found += [f"{name}: {path} isn't there" for path in paths if not stands(path)]
    found += faults_of_facts(pages) + faults_of_sizes(pages)
    print("\n".join(found) or f"{len(pages)} pages: each link and path leads somewhere, each fact stands in one page "
          "alone, and none is too long")
    sys.exit(bool(found))


main()
