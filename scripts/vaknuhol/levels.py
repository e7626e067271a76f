"""The words of the command: levels with --help and --version, and which names are taken."""
import argparse
import shutil
import unicodedata
from typing import Any

from vaknuhol import VERSION
from vaknuhol.arguments import STANDARD, OutputName, Words, file_name
from vaknuhol.help_text import wrapped
from vaknuhol.messages import COLORS

BREAKING = ("Cc", "Zl", "Zp")


class Level(Words):
    """The command, or one of its commands: it refuses in one line the first word that it doesn't take."""

    def __init__(self, prog: str = "vaknuhol", description: str = "", epilog: str | None = "") -> None:
        super().__init__(description)
        self.prog, self.below = prog, epilog or ""
        self.outputs: list[str] = []  # the words that name outputs
        self.levels: dict[str, Level] = {}
        self.add_argument("--version", action="version", version=f"vaknuhol {VERSION}")
        self.add_argument("--color", choices=COLORS, default=argparse.SUPPRESS, metavar="WHEN",
                          help="colours: auto (on a terminal), always or never")

    def format_help(self) -> str:
        self.epilog = wrapped(self.below, shutil.get_terminal_size().columns - 2)
        return super().format_help()

    def unknown(self, word: str) -> str:
        if not word.startswith("-"):
            return f"{word}: one argument too many (the program's own arguments go after --)"
        return super().unknown(word)


def plain_name(text: str) -> str:
    """A file's name that is one line: it stands in messages, records and reports, which are read by lines."""
    name = file_name(text)
    if any(unicodedata.category(character) in BREAKING for character in name):
        raise argparse.ArgumentTypeError(f"{text!r}: a name with a newline or another control character is not taken: "
                                         "rename it")
    return name


def plain_output(text: str) -> OutputName:
    return OutputName(text if text == STANDARD else plain_name(text))


def add_output(level: "Level", *names: str, **how: Any) -> None:
    """An argument that names an output: a file, or what leads elsewhere."""
    level.outputs.append(level.add_argument(*names, type=plain_output, **how).dest)


def add_file(level: argparse.ArgumentParser, *names: str, **how: Any) -> None:
    """An argument that names a file."""
    level.add_argument(*names, type=plain_name, **how)


def whole_number(text: str) -> int:
    if not (text.isascii() and text.isdigit()) or int(text) < 1:
        raise argparse.ArgumentTypeError(f"{text}: a whole number from 1 on is needed")
    return int(text)


def parted(given: list[str]) -> tuple[list[str], list[str] | None]:
    """The command's own arguments, and those after the first `--`, which are the program's; None where there is no
    `--`."""
    if "--" not in given:
        return given, None
    at = given.index("--")
    return given[:at], given[at + 1:]
