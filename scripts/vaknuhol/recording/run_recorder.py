"""Records a run of a static program on this processor, by native/vaknuhol-record."""
import argparse
import os
import subprocess
from collections.abc import Iterator

from vaknuhol.messages import progress
from vaknuhol.native import program as native_program
from vaknuhol.program.program_file import read_text
from vaknuhol.recording.actions import REGISTERS
from vaknuhol.recording.run_path import Path, registers_of

NOT_RECORDED, HIGHEST = 2, 0x7FFF0000
PLAIN, DUE = "e9world 1\n", "due "
ENDS = {
    "limit": "the record ends there: --steps",
    "exec": "there the program starts another in its place",
    "thread": "there it starts a thread, of which the theorem does not speak",
    "script": "there the script reaches 256 MiB",
    "unreadable": "there stands no instruction that Zydis knows",
}


def dues(world: str) -> Iterator[int]:
    """After how many steps each delivery of a script is due."""
    with open(world, encoding="ascii") as lines:
        for line in lines:
            if line == PLAIN:
                return
            if line.startswith(DUE):
                yield int(line.removeprefix(DUE), 16)


def write_with_dues(world: str, new: str, steps: dict[int, int]) -> None:
    """Writes a script whose deliveries are due after other numbers of steps."""
    with open(world, encoding="ascii") as lines, open(new, "w", encoding="ascii") as file:
        for line in lines:
            file.write(f"{DUE}{steps[int(line.removeprefix(DUE), 16)]:016x}\n" if line.startswith(DUE) else line)
            if line == PLAIN:
                break
        file.writelines(lines)


class RecordedRun:
    """The states of the processor by the number of steps, after how many of them each delivery came, the way of the
    steps, and how the run ended."""

    def __init__(self, folder: str, registers: list[str]) -> None:
        self.states: dict[int, list[str]] = {}
        self.ends: dict[str, str] = {}
        self.dues, self.path = list(dues(f"{folder}/world")), Path(f"{folder}/path", registers)
        state: list[str] = []
        for name, _, value in (line.partition(" ") for line in read_text(f"{folder}/states").splitlines()):
            if name == "steps":
                state = self.states[int(value)] = []
            elif name in ("asked", "flags_alone", "end"):
                self.ends[name] = value
            else:
                state.append(f"{name} {value}")
        self.steps = max(self.states)

    def told(self) -> str:
        """How long the run is, in words."""
        asked, flags = self.ends["asked"], self.ends["flags_alone"]
        came = f", {len(self.dues)} deliveries" if self.dues else ""
        return f"{self.steps} steps, {asked} asked, {flags} leave flags undefined{came}"

    def how_it_ended(self) -> tuple[str, bool]:
        """How the recorded part of the run ends, and whether the theorem can speak of all that the program does
        there."""
        end = self.ends["end"]
        if end.startswith("signal"):
            return f"there it gets {end}, for which it has no handler", False
        return ENDS.get(end, f"there the program ends ({end})"), end not in ("thread", "unreadable")


def record(path: str, words: argparse.Namespace, folder: str) -> RecordedRun:
    """Runs the program once with its words, and writes the files world, states and path; what became of it."""
    progress("recording: the program runs once, as it is\n")
    names, registers = [f"{folder}/{name}" for name in ("world", "states", "path")], registers_of(words.action)
    flags = [f"--{name}" for name in ("full", "evex") if getattr(words, name)]
    flags += [f"--keep={','.join(str(REGISTERS.index(name)) for name in registers)}"] if registers else []
    kept = {name: value for name, value in os.environ.items() if name != "GLIBC_TUNABLES"}
    command = [native_program("vaknuhol-record"), *names, str(words.every), str(words.steps), *flags, path,
               *words.words]
    if subprocess.run(command, env=kept, check=False).returncode != 0:
        raise SystemExit(NOT_RECORDED)
    return RecordedRun(folder, registers)


def reserves(world: str) -> list[str]:
    """The pages of the script's regions where a patched file could have new code, as RESERVE words."""
    found = []
    with open(world, encoding="ascii") as lines:
        for line in lines:
            words = line.split()
            if words[0] in ("ask", "end"):
                break
            if words[0] == "zero" and int(words[1], 16) < HIGHEST:
                low, high = int(words[1], 16) & ~0xFFF, min(HIGHEST, int(words[2], 16) + 0xFFF & ~0xFFF)
                found.append(f"{low:x}-{high:x}")
    return found
