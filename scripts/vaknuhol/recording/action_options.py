"""The words of a command line that choose an action: --count, --ring N, --when C."""
import argparse
from collections.abc import Callable

from vaknuhol.recording.actions import Action, ActionError, action_of


def action_of_type(form: str) -> Callable[[str], str]:
    """A type of words: what names an action, put in its place in a form; another is refused, and it is told why."""
    def parsed(text: str) -> str:
        try:
            action_of(form.format(text))
        except ActionError as error:
            raise argparse.ArgumentTypeError(str(error)) from None
        return text
    return parsed


def add_action(parser: argparse.ArgumentParser) -> None:
    parser.add_argument("--count", action="store_true", help="count executions; without it, only whether there was one")
    parser.add_argument("--ring", metavar="N", type=action_of_type("ring:{}"),
                        help="in place of either, keep the last N executions of all, in order: 1 to 65536")
    parser.add_argument("--when", metavar="C", type=action_of_type("cover when {}"),
                        help="record only executions in which registers meet C: one to three comparisons, as in "
                             "'rdi == 2 and rsi < 100'")


def action_of_words(parser: argparse.ArgumentParser, words: argparse.Namespace) -> Action:
    """The action that the words choose."""
    for name in ("count", "when"):
        if words.ring and getattr(words, name):
            parser.error(f"--ring: not allowed with argument --{name}")
    if words.ring:
        return action_of(f"ring:{words.ring}")
    base = "count" if words.count else "cover"
    return action_of(f"{base} when {words.when}" if words.when else base)
