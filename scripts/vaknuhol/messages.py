"""What the command says beside its results: notes, warnings and refusals on standard error, and how far long work has
come.

With --quiet notes and progress are left out. On a terminal progress takes one line, which the next text takes the place
of; elsewhere it is a line every ten seconds, so that a log shows that there is work. Colours are for terminals
(--color, NO_COLOR)."""
import os
import sys
import threading
import time
from typing import TextIO

STYLES = {"bold": "1", "red": "31", "green": "32", "yellow": "33"}
COLORS = ("auto", "always", "never")
SELDOM = 10.0


class Manner:
    """How the command speaks: what its words ask for, and where its results are shown."""
    is_quiet, color = False, "auto"
    results: TextIO = sys.stdout


manner = Manner()


def script_name() -> str:
    return os.path.splitext(os.path.basename(sys.argv[0]))[0]


def is_looked_on() -> bool:
    return sys.stderr.isatty()


def is_coloured(stream: TextIO) -> bool:
    """https://no-color.org: NO_COLOR, where it isn't empty, asks for none."""
    if manner.color != "auto":
        return manner.color == "always"
    return stream.isatty() and not os.environ.get("NO_COLOR") and os.environ.get("TERM") != "dumb"


def painted(text: str, style: str, stream: TextIO) -> str:
    return f"\x1b[{STYLES[style]}m{text}\x1b[m" if is_coloured(stream) else text


def rated(text: str, part: int, whole: int) -> str:
    """A share of a whole, among results, in the colours of lcov's pages: from 90 % on green, from 75 % on yellow, below
    red."""
    if not whole:
        return text
    return painted(text, "green" if 10 * part >= 9 * whole else "yellow" if 4 * part >= 3 * whole else "red",
                   manner.results)


def say(text: str, kind: str = "", style: str = "bold") -> None:
    head = painted(f"{script_name()}:", "bold", sys.stderr)
    print(head, *([painted(f"{kind}:", style, sys.stderr)] if kind else []), text, file=sys.stderr, flush=True)


def note(text: object) -> None:
    """A note for the user, beside what the program prints."""
    if not manner.is_quiet:
        say(str(text))


def warn(text: str) -> None:
    """What may be wrong with the results: it is said even where notes are not."""
    say(text, "warning", "yellow")


def refuse(text: object) -> None:
    """Why the command ends."""
    say(painted(str(text), "red", sys.stderr))


class Progress:
    """What takes a while; the next text takes its place, the empty one ends it."""

    def __init__(self) -> None:
        self.text, self.is_shown = "", False
        self.ended: threading.Event | None = None

    def __call__(self, text: str) -> None:
        if manner.is_quiet:
            return
        self.text = text
        if is_looked_on():
            self.show()
        elif text and not self.ended:
            self.ended = threading.Event()
            threading.Thread(target=self.go_on, args=(self.ended,), daemon=True).start()
        elif not text and self.ended:
            self.ended.set()
            self.ended = None

    def show(self) -> None:
        if self.text or self.is_shown:
            print(f"\r\x1b[K{self.text}", end="", file=sys.stderr, flush=True)
            self.is_shown = bool(self.text)

    def go_on(self, ended: threading.Event) -> None:
        begun = time.monotonic()
        while not ended.wait(SELDOM):
            say(f"{self.text.rstrip()}, {time.monotonic() - begun:.0f} s")


progress = Progress()


def counted(number: int, one: str, many: str = "") -> str:
    """A number of things: 1 process, 2 processes."""
    return f"{number} {one if number == 1 else many or one + 's'}"
