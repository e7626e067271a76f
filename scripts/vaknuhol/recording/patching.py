"""Calls e9tool's `patch`, or `load` where the program header table would be too long: the sites that it leaves give way
to the next best instructions of their blocks."""
import contextlib
import itertools
import os
import re
import shutil
import subprocess
import tempfile
from collections.abc import Container

from vaknuhol.arguments import Refusal
from vaknuhol.messages import progress
from vaknuhol.native import TOP
from vaknuhol.outputs import runnable, write_whole
from vaknuhol.program.blocks import Block
from vaknuhol.program.listing import Listing
from vaknuhol.program.listing_file import forget_lists
from vaknuhol.recording.actions import Action
from vaknuhol.recording.code_support import Support
from vaknuhol.recording.patch_files import HASHED, WRITTEN, RunFiles
from vaknuhol.recording.patch_report import FOR_THREADS, LEFT, outcome_counts
from vaknuhol.recording.site_choice import candidates

RESERVES: list[list[str]] = [[], *([f"{low:x}-7fff0000"] for low in (0x4000000, 0x2000000, 0x1000000, 0xC00000))]
ROUNDS = 4
NOWHERE = "beside what may be no code"  # why a block is left whose sites could displace such neighbours alone
OUTCOME = rf"\nsite ([0-9a-f]+) [0-9]+ ({'|'.join(LEFT)})(?=\n)"


def find_tool() -> str:
    """The program e9tool: $E9TOOL if that is set, else the repository's, the package's, or the one in PATH, and last
    the unproved one."""
    named = os.environ.get("E9TOOL")
    built, packed = (os.path.join(TOP, place, "e9tool") for place in ("crates/e9tool/out", "bin"))
    if named and not os.path.isfile(named):
        raise Refusal(f"E9TOOL names {named}, which is not there")
    for path in (named, built, packed, shutil.which("e9tool"), f"{built}.unproved"):
        if path and os.path.isfile(path):
            if not os.access(path, os.X_OK):
                raise Refusal(f"{path} may not be executed: chmod +x")
            return path
    raise Refusal("e9tool is not here: scripts/build_unproved.sh builds it in minutes, `rt run -- check` in "
                  "crates/e9tool proves it first, "
                  "and E9TOOL names another")


def list_text(addresses: list[int]) -> str:
    return "%x\n" * len(addresses) % tuple(addresses)


def threads_action(action: Action) -> list[str]:
    """The word that asks `threads` for an action: none where it counts."""
    return [] if action.name == "count" else [f"action:{action.patched(for_threads=True).name}"]


def check_mode(tool: str, report: str, for_threads: bool) -> None:
    """Refuses the report of a patch for one thread where one for threads was asked for, or the other way round: what
    its file records would be read as something else."""
    with open(report, encoding="ascii") as file:
        is_for_threads = file.read(len(FOR_THREADS)) == FOR_THREADS
    if is_for_threads != for_threads:
        asked, written = ("threads" if it else "one thread" for it in (for_threads, is_for_threads))
        raise Refusal(f"{tool} was asked for a patch for {asked}, and wrote the report of one for {written}: E9TOOL "
                      "names another e9tool")


class Patching:
    """One program's way to its patched file: rounds, of which the one with the fewest left sites is kept. The first
    command is the one given: where another file of the same program needed the loader form, that."""
    first_command, loader_command, for_threads = "patch", "load", False

    def __init__(self, program: str, action: Action, blocks: list[Block], reserve: list[tuple[int, int]],
                 files: RunFiles, loader: bool, command: str = "") -> None:
        self.tool, self.program, self.action, self.blocks, self.files = find_tool(), program, action, blocks, files
        self.reserve, self.near = [f"{low:x}-{high:x}" for low, high in reserve], 0
        self.command, self.loader = command or self.first_command, loader
        self.tried = [block.site for block in blocks]  # of a block without candidates its first address
        self.candidates: dict[int, list[int]] = {}  # of blocks, by their numbers here, whose best site will not do
        self.form, self.printed = "", ""
        self.sites: list[int] = []
        self.left: dict[int, str] = {}
        self.nearness: list[str] = []
        self.reserved: list[str] = []
        self.support: Support

    def goes_on(self) -> bool:
        """Whether there is something to try where the table is too long: the loader form or, without it, the next of
        the reserves. It is kept."""
        if self.command == self.loader_command:
            return False
        if self.loader:
            self.command = self.loader_command
            return True
        self.near += 1
        return self.near < len(RESERVES)

    def words(self, starts: str, files: RunFiles) -> list[str]:
        """The command and its arguments, except for any RESERVE."""
        return [self.command, self.program, starts, files.sites, self.action.name, files.patched, files.report]

    def has_stub(self) -> bool:
        """Whether the kept round wrote the loader form."""
        return self.form == self.loader_command

    def outcomes(self, files: RunFiles) -> dict[int, str]:
        """The sites that are left, with their outcomes."""
        with open(files.report, encoding="ascii") as report:
            return {int(addr, 16): outcome for addr, outcome in re.findall(OUTCOME, report.read())}

    def without_support(self, files: RunFiles) -> set[int]:
        """The sites that are patched by what may be no code."""
        with open(files.report, encoding="ascii") as report:
            return self.support.sites_without(report.read())

    def patch_once(self, starts: str, sites: list[int], files: RunFiles) -> str | None:
        """What patch prints, or load. Nothing where it refuses the sites of a later round."""
        write_whole({files.sites: list_text(sorted(sites))})
        while True:
            lists, reserves = self.words(starts, files), [*self.reserve, *RESERVES[self.near]]
            done = subprocess.run([self.tool, *lists, *reserves], capture_output=True, text=True)
            if " TooManySegments " not in done.stdout or not self.goes_on():
                break
        if done.returncode == 2:
            raise Refusal(f"e9tool does not take these arguments: {' '.join(lists[1:] + reserves)}")
        if done.returncode not in (0, 1) and self.sites:
            return None
        if done.returncode not in (0, 1):
            raise Refusal(f"e9tool answers: {(done.stdout or done.stderr).strip() or done.returncode}")
        check_mode(self.tool, files.report, self.for_threads)
        return done.stdout

    def candidates_of(self, number: int) -> list[int]:
        if number not in self.candidates:
            self.candidates[number] = candidates(self.blocks[number], self.action)
        return self.candidates[number]

    def move_on(self, left: Container[int]) -> bool:
        """Gives each block whose site was left its next best instruction, or its best again; whether any has a new
        one."""
        moved = False
        for number in [number for number, site in enumerate(self.tried) if site in left]:
            found = self.candidates_of(number)
            if found:
                following = found.index(self.tried[number]) + 1
                self.tried[number] = found[following % len(found)]
                moved |= following < len(found)
        return moved

    def run(self, listing: Listing) -> None:
        """Writes the files but `blocks`; `sites`, `left` (sites with their outcomes), `printed`, `nearness` (the
        reserve), `reserved` (all RESERVE words) and `form` (the command) then tell of the kept round."""
        self.support = Support(listing)
        folder, is_done = os.path.dirname(self.files.stem), False
        is_new = not os.path.isdir(folder)
        os.makedirs(folder, exist_ok=True)
        try:
            with tempfile.TemporaryDirectory(prefix="part.", dir=folder) as part:
                kept = RunFiles(f"{part}/kept")
                write_whole({kept.starts: listing.starts_text()})
                for number in range(1, ROUNDS + 1):
                    if not self.go_round(number, RunFiles(f"{part}/{number}"), kept):
                        break
                self.take_over(kept)
                is_done = True
        finally:
            if is_new and not is_done:
                forget_lists(folder)
            with contextlib.suppress(OSError):
                os.rmdir(folder)  # where nothing was written

    def go_round(self, number: int, files: RunFiles, kept: RunFiles) -> bool:
        """Patches once, and keeps the files if fewer sites are left; whether there is another round to go."""
        left_words = f", {len(self.left)} left so far" if self.left else ""
        progress(f"patching {len(self.blocks)} blocks, round {number}{left_words}")
        printed = self.patch_supported(kept.starts, files)
        if printed is None:
            return False
        left = {**self.outcomes(files),
                **{self.tried[number]: NOWHERE for number in self.without_candidates()}}
        if not self.sites or len(left) < len(self.left):
            self.sites, self.left, self.printed = list(self.tried), left, printed
            self.nearness, self.form = RESERVES[self.near], self.command
            self.reserved = [*self.reserve, *self.nearness]
            for ending in WRITTEN:
                os.replace(getattr(files, ending), getattr(kept, ending))
        return self.move_on(left)

    def without_candidates(self) -> set[int]:
        """The numbers of the blocks that have none any more."""
        return {number for number, found in self.candidates.items() if not found}

    def patch_supported(self, starts: str, files: RunFiles) -> str | None:
        """Patches, and again as long as e9tool displaces a neighbour that may be no code, without the sites that it
        does so for; what is printed."""
        for turn in itertools.count(1):
            without = self.without_candidates()
            sites = [site for number, site in enumerate(self.tried) if number not in without]
            printed = self.patch_once(starts, sites, files)
            wrong = self.without_support(files) if printed is not None else set()
            if not wrong:
                break
            self.give_up(wrong, turn >= ROUNDS)
        return printed

    def give_up(self, wrong: set[int], whole: bool) -> None:
        """Takes sites from the candidates of their blocks or, to come to an end, all candidates."""
        for number in [number for number, site in enumerate(self.tried) if site in wrong]:
            found = [] if whole else [site for site in self.candidates_of(number) if site != self.tried[number]]
            self.candidates[number] = found
            self.tried[number] = found[0] if found else self.blocks[number].first
        if len(self.without_candidates()) == len(self.blocks):
            raise Refusal(f"no site could be patched: each of them stands {NOWHERE}, so nothing is written: choose "
                          "other blocks (--help)")

    def left_text(self) -> str:
        beside = sum(outcome == NOWHERE for outcome in self.left.values())
        return ", ".join(part for part in (outcome_counts(self.left.values()), f"{beside} {NOWHERE}" if beside else "")
                         if part)

    def take_over(self, kept: RunFiles) -> None:
        if len(self.left) == len(self.blocks):
            outcomes = self.printed.splitlines()[-1]
            raise Refusal(f"no site could be patched ({outcomes}), so nothing is written: choose other blocks, or "
                          "reserve less")
        os.chmod(kept.patched, runnable(os.stat(self.program).st_mode) & 0o777)
        for ending in HASHED:
            os.replace(getattr(kept, ending), getattr(self.files, ending))


class ThreadPatching(Patching):
    """The same by `threads`, whose loader form is asked for by a word after OUT, and covering by the next one."""
    first_command, loader_command, for_threads = "threads", "threads form:loader", True

    def words(self, starts: str, files: RunFiles) -> list[str]:
        command, *form = self.command.split()
        return [command, self.program, starts, files.sites, files.patched, *form, *threads_action(self.action),
                f"report:{files.report}"]
