"""Without COMMAND all commands are listed."""
import argparse

from vaknuhol.arguments import Refusal, nearest
from vaknuhol.levels import Level

NAMES = {"help": "show the help of a command"}


def add_words(level: Level, name: str) -> None:
    level.add_argument("of", metavar="COMMAND", nargs="?", help="the command")


def do(words: argparse.Namespace) -> int:
    levels = words.top.levels
    if words.of and words.of not in levels:
        raise Refusal(f"{words.of} is no command ({nearest(words.of, levels)}vaknuhol help lists them)")
    (levels[words.of] if words.of else words.top).print_help()
    return 0
