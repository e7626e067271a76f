"""Programs of binutils, where we ask them."""
import subprocess

from vaknuhol.arguments import Refusal
from vaknuhol.program.settled import own_file


def run(*words: str) -> list[str]:
    """The lines that a program of binutils prints."""
    try:
        done = subprocess.run(words, capture_output=True, text=True, errors="replace", check=False)
    except FileNotFoundError:
        raise Refusal(f"needs {words[0]} (package binutils), which is not here") from None
    if done.returncode != 0:
        raise Refusal(f"{words[0]} refuses the file: {(done.stderr.strip() or 'no reason').splitlines()[-1]}")
    return done.stdout.splitlines()


def disassembly(path: str, low: int, high: int, how: str) -> list[str]:
    """The lines of objdump on the code between two addresses of a program."""
    return run("objdump", how, "--no-show-raw-insn", f"--start-address={low:#x}", f"--stop-address={high:#x}",
               own_file(path).path)
