"""What every script's command line has in common: words, and refusals in one line.

A refusal is one line `script: what is wrong and what to do` on standard error.
"""
import argparse
import itertools
import os
import re
import shutil
import signal
import sys
from collections.abc import Callable, Iterable, Sequence
from typing import Any, NoReturn

from vaknuhol.help_text import wrapped
from vaknuhol.messages import progress, refuse

HIGHEST = 0x80000000
STANDARD = "-"  # as the name of an output it is standard output
PASSING = ("part.", "asking.", "again.", ".vaknuhol-")  # how names begin that last no longer than the command


class Refusal(Exception):
    """What is wrong and what to do, in one line."""


class OneOf:
    """A group of words of which one at most is given."""

    def __init__(self, words: "Words", group: Any, is_needed: bool) -> None:
        self.words, self.group, self.is_needed = words, group, is_needed

    def add_argument(self, *names: str, **how: Any) -> argparse.Action:
        action = self.words.noted(self.group.add_argument(*names, **how))
        if self.is_needed:
            self.words.one_of.append(action)
        return action


class Words(argparse.ArgumentParser):
    """A parser that refuses in one line, and names the word that it refuses."""

    def __init__(self, text: str) -> None:
        self.about = text
        self.options: list[str] = []
        self.needed: list[argparse.Action] = []  # words that have to be given
        self.one_of: list[argparse.Action] = []  # words of which one has to be given
        super().__init__(formatter_class=argparse.RawDescriptionHelpFormatter, allow_abbrev=False, exit_on_error=False)

    def noted(self, action: argparse.Action) -> argparse.Action:
        """What is asked for after parsing: argparse itself would refuse in words of its own."""
        self.options += action.option_strings
        if action.required and (action.option_strings or action.nargs in (None, "+")):
            self.needed.append(action)
        action.required = False
        return action

    def add_argument(self, *names: str, **how: Any) -> argparse.Action:
        return self.noted(super().add_argument(*names, **how))

    def add_mutually_exclusive_group(self, required: bool = False, **how: Any) -> OneOf:  # type: ignore[override]
        """argparse has a group of its own class, which adds arguments as this one does."""
        return OneOf(self, super().add_mutually_exclusive_group(**how), required)

    def format_help(self) -> str:
        self.description = wrapped(self.about, shutil.get_terminal_size().columns - 2)
        return super().format_help()

    def parse_known_args(self, args: Sequence[str] | None = None,
                         namespace: argparse.Namespace | None = None) -> tuple[argparse.Namespace, list[str]]:
        """The words, and none that isn't taken: that is refused, and so is the lack of one that is needed."""
        try:
            words, rest = super().parse_known_args(args, namespace)
        except argparse.ArgumentError as error:
            raise Refusal(f"{error.argument_name}: {error.message}" if error.argument_name else error.message) from None
        if rest:
            raise Refusal(self.unknown(rest[0]))
        missing = ["/".join(argument.option_strings) or str(argument.metavar or argument.dest)
                   for argument in self.needed if getattr(words, argument.dest) is None]
        if missing:
            raise Refusal(f"the following arguments are required: {', '.join(missing)} (--help lists them)")
        if self.one_of and not any(getattr(words, argument.dest) for argument in self.one_of):
            names = " ".join(argument.option_strings[0] for argument in self.one_of)
            raise Refusal(f"one of the arguments {names} is required (--help lists them)")
        return words, rest

    def unknown(self, word: str) -> str:
        """What is said of a word that isn't taken."""
        if not word.startswith("-"):
            return f"unrecognized arguments: {word}"
        like = nearest(word.partition("=")[0], self.options)
        return f"{word} is no option ({like}--help lists them); a file of such a name is written ./{word}"

    def exit(self, status: int = 0, message: str | None = None) -> NoReturn:
        """Behind --help and --version; a text that can't be written is refused."""
        sys.stdout.flush()
        super().exit(status, message)

    def error(self, message: str) -> NoReturn:
        raise Refusal(message)


def nearest(word: str, known: Iterable[str]) -> str:
    """A question in which a word was meant that is like this one, or nothing."""
    import difflib
    return "".join(f"did you mean {name}? " for name in difflib.get_close_matches(word, list(known), 1))


def file_name(text: str) -> str:
    """A word that names a file: every other program takes it for a file, too."""
    if not text:
        raise argparse.ArgumentTypeError("a file's name is not empty")
    try:
        os.fsencode(text).decode("utf-8")
    except UnicodeDecodeError:
        raise argparse.ArgumentTypeError(f"{os.fsencode(text)!r}: the name is not UTF-8, which e9tool needs") from None
    return f"./{text}" if text.startswith("-") else text


class OutputName(str):
    """The name of an output: of a file, or of what leads elsewhere."""


def output_name(text: str) -> OutputName:
    return OutputName(text if text == STANDARD else file_name(text))


def lasting(path: str) -> str:
    """A path for a message: of a file that goes with the command, the folder that it stood in."""
    parts = path.split(os.sep)
    kept = list(itertools.takewhile(lambda part: not part.startswith(PASSING), parts))
    return path if len(kept) == len(parts) else os.sep.join(kept) or os.curdir


def address_range(text: str) -> tuple[int, int]:
    """Two addresses: LO-HI, hexadecimal without 0x, LO below HI, HI at most 80000000."""
    found = re.fullmatch(r"([0-9a-fA-F]{1,8})-([0-9a-fA-F]{1,8})", text)
    if not found:
        raise argparse.ArgumentTypeError(f"{text}: write two hexadecimal addresses without 0x, as 401000-402000")
    low, high = (int(text, 16) for text in found.groups())
    if not low < high <= HIGHEST:
        raise argparse.ArgumentTypeError(f"{text}: the first address is below the second, which is at most 80000000")
    return low, high


def add_loader(parser: argparse.ArgumentParser) -> None:
    """The word that keeps to `patch`."""
    parser.add_argument("--no-loader", dest="loader", action="store_false",
                        help="if the program header table would be too long, keep new code nearer, in place of writing "
                             "the loader form")


def regular_expression(text: str) -> re.Pattern[str]:
    try:
        return re.compile(text)
    except re.error as error:
        raise argparse.ArgumentTypeError(f"{text} is no regular expression: {error}") from None


def drop_output() -> None:
    """What is left of a text that can't be written goes nowhere: else Python would try it again as it ends."""
    os.dup2(os.open(os.devnull, os.O_WRONLY), sys.stdout.fileno())


def run_command(main: Callable[[], int | None], refused: int = 2) -> NoReturn:
    """Runs a script to its end; a refusal, an interrupt or a closed output ends it without a traceback."""
    signal.signal(signal.SIGTERM, lambda number, frame: sys.exit(128 + number))
    try:
        status = main()
        sys.stdout.flush()
        progress("")
    except Refusal as refusal:
        progress("")
        refuse(refusal)
        status = refused
    except KeyboardInterrupt:
        status = 128 + signal.SIGINT
    except BrokenPipeError:
        drop_output()
        status = 128 + signal.SIGPIPE
    except OSError as error:
        progress("")
        refuse(f"{lasting(os.fsdecode(error.filename or 'a file'))}: {error.strerror}")
        status = refused
        try:
            sys.stdout.flush()
        except OSError:
            drop_output()
    sys.exit(status)
