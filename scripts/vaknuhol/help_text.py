"""Texts of --help, as wide as the terminal."""
import re
import textwrap

ITEM = re.compile(r"( +\S.*?\S {2,}| +)\S")  # an item of a list, and what is said of it


def wrapped(text: str, width: int) -> str:
    """Paragraphs are filled; a line that begins with blanks is an item of a list, which goes on below what is said of
    it."""
    return "\n\n".join(paragraph(part, width) for part in text.split("\n\n"))


def paragraph(text: str, width: int) -> str:
    lines: list[str] = []
    for line in text.splitlines():
        if lines and lines[-1][:1] != " " and line[:1] != " " and not lines[-1].endswith(":"):
            lines[-1] += f" {line}"
        else:
            lines.append(line)
    return "\n".join(filled(line, width) for line in lines)


def filled(line: str, width: int) -> str:
    item = ITEM.match(line)
    indent = " " * (len(item.group(1)) if item else 0)
    return textwrap.fill(line, width, subsequent_indent=indent, break_on_hyphens=False, break_long_words=False)
