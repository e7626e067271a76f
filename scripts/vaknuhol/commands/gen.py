"""Makes a program from a number, patches and checks it, runs both files step by step, and says whether they end
alike."""
import argparse
import subprocess

from vaknuhol.levels import Level, whole_number
from vaknuhol.recording.patching import find_tool

NAMES = {"gen": "let the tool test itself"}


def seed(text: str) -> int:
    if not (text.isascii() and text.isdigit()) or int(text) >= 1 << 64:
        raise argparse.ArgumentTypeError(f"{text}: a whole number below 2^64 is needed")
    return int(text)


def add_words(level: Level, name: str) -> None:
    level.add_argument("seed", metavar="SEED", nargs="?", type=seed, default=7, help="any number below 2^64 (7)")
    level.add_argument("blocks", metavar="BLOCKS", nargs="?", type=whole_number, default=2000,
                       help="how long the program is: 1 to 20000 (2000)")


def do(words: argparse.Namespace) -> int:
    return subprocess.run([find_tool(), "gen", str(words.seed), str(words.blocks)]).returncode
