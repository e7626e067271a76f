#!/usr/bin/env python3
"""The pages of the package: package_pages.py REPOSITORY FOLDER writes them. They are README.md, CHANGELOG.md,
SECURITY.md, and whatever stands in docs/use and docs/reference, with docs/README.md, their index.

A link to what the package hasn't becomes its text; a row of a table goes where no link of its first column is left, and
so does the section of the README on how the package is made. Examples are linked where the package has them."""
import os
import re
import shutil
import sys

LINK = re.compile(r"\[([^\[\]]+)\]\(([^)#]+)(#[^)]*)?\)")
LEFT_OUT = "## Install"
TOPS = ("README.md", "CHANGELOG.md", "SECURITY.md", "docs/README.md")
SHELVES = ("docs/use", "docs/reference", "examples")


def shipped(top: str) -> set[str]:
    """The pages and examples of the package, by their names in the repository, which they keep."""
    found = {
        os.path.relpath(os.path.join(folder, name), top)
        for shelf in SHELVES
        for folder, _, names in os.walk(os.path.join(top, shelf))
        for name in names
        if not name.endswith(".1")
    }
    return {name for name in found | {*TOPS} if os.path.isfile(os.path.join(top, name))}


def for_package(page: str, text: str, pages: set[str]) -> str:
    """A page whose links all lead to what the package has."""

    def is_here(found: re.Match[str]) -> bool:
        target = os.path.normpath(os.path.join(os.path.dirname(page), found.group(2)))
        return "://" in found.group(2) or target in pages or any(name.startswith(f"{target}/") for name in pages)

    lines, is_left_out = [], False
    for line in text.splitlines():
        if line.startswith("## "):
            is_left_out = page == "README.md" and line == LEFT_OUT
        first = list(LINK.finditer(line.split("|")[1])) if line.startswith("|") else []
        if is_left_out or first and not any(map(is_here, first)):
            continue
        if first:
            cell, rest = line.removeprefix("|").split("|", 1)
            kept = ", ".join(found[0] for found in first if is_here(found))
            line = f"|{cell[:1]}{kept} |{rest}"
        lines.append(line)
    text = "\n".join(lines) + "\n"  # a link may go over the end of a line
    return LINK.sub(lambda found: found[0] if is_here(found) else found[1], text)


def main() -> None:
    top, folder = sys.argv[1], sys.argv[2]
    pages = shipped(top)
    for page in sorted(page for page in pages if not page.startswith("examples/")):
        os.makedirs(os.path.dirname(os.path.join(folder, page)), exist_ok=True)
        if not page.endswith(".md"):
            shutil.copyfile(os.path.join(top, page), os.path.join(folder, page))
            continue
        with open(os.path.join(top, page), encoding="utf-8") as file:
            text = file.read()
        with open(os.path.join(folder, page), "w", encoding="utf-8") as file:
            file.write(for_package(page, text, pages))


if __name__ == "__main__":
    main()
