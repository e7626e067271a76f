"""Patched files that are kept: the same program, choice, action, tool and scripts need no patching again.

They stand in a folder of their own below PROGRAM.vak, one set of files for each part of the blocks; the file
`kept.json` there, written last, says what they were made of.
"""
import argparse
import glob
import hashlib
import json
import os
from typing import TYPE_CHECKING, Any

from vaknuhol.arguments import Refusal
from vaknuhol.messages import counted, note, progress, warn
from vaknuhol.native import program as native_program
from vaknuhol.outputs import write_whole
from vaknuhol.program.blocks import Block
from vaknuhol.program.fitness import warning
from vaknuhol.program.kernel import entries_of, most_entries
from vaknuhol.program.listing import Listing
from vaknuhol.program.listing_file import LISTER
from vaknuhol.program.program_file import Program, file_hash, read_bytes
from vaknuhol.recording.actions import Action
from vaknuhol.recording.default_choice import choice_text, read_chosen
from vaknuhol.recording.entry_limit import Fitting, ThreadFitting
from vaknuhol.recording.patch_files import Run, RunFiles, blocks_text, file_part_of
from vaknuhol.recording.patch_report import Report
from vaknuhol.recording.patching import find_tool
from vaknuhol.recording.thread_use import warn_of_threads

if TYPE_CHECKING:
    from vaknuhol.recording.fast_choice import Fast

ROUNDS = 4  # of fewer sites, each without those that were left before
NAME, PACKAGE = "kept.json", os.path.dirname(os.path.dirname(os.path.realpath(__file__)))


def folder_of(program: str) -> str:
    """The folder of a program's files: PROGRAM.vak, where the command is called."""
    return f"{os.path.basename(program)}.vak"


def scripts_hash() -> str:
    """A hash of these modules: each change of them can change what is patched."""
    paths = sorted(glob.glob(f"{glob.escape(PACKAGE)}/**/*.py", recursive=True))
    return hashlib.sha256(b"".join(read_bytes(path) for path in paths)).hexdigest()


class Part:
    """One patched file with its report and its run files, checked to belong together."""

    def __init__(self, files: RunFiles) -> None:
        self.files, self.report = files, Report(files.report)
        self.run = Run(self.report)
        self.run.check_patched(files.patched, self.report)

    def entries(self) -> int:
        return entries_of(self.files.patched)


def fewer(parts: list[list[int]]) -> str:
    """How one file can do, in words; a part has the first addresses of its blocks."""
    bounds = [*(part[0] for part in parts), parts[-1][-1] + 1]
    ranges = ", ".join(f"--within {low:x}-{high:x}" for low, high in zip(bounds, bounds[1:]))
    return f"choose fewer (--own, --functions), or a part at a time ({ranges})"


class Kept:
    """The patched files of one choice: made, or found as they were made before. `alone` says why there may be one file
    only, where that is so."""

    def __init__(self, words: argparse.Namespace, action: Action, alone: str = "") -> None:
        self.words, self.action = words, action
        self.alone = "a ring is of one file" if action.is_ring else alone
        top = words.into or folder_of(words.program)
        os.makedirs(top, exist_ok=True)
        self.runs_here = most_entries(top)
        self.most = words.entries or self.runs_here
        reserve = [f"{low:x}-{high:x}" for low, high in words.reserve]
        self.what = {"choice": choice_text(words), "reserve": reserve, "entries": self.most, "loader": words.loader,
                     "threads": words.threads}
        if words.settled_at is not None:
            self.what["base"] = f"{words.settled_at:x}"
        mark = hashlib.sha256(json.dumps([self.action.name, self.what]).encode()).hexdigest()[:8]
        self.folder = os.path.join(top, f"{file_part_of(action, words.threads)}-{mark}")
        self.made_of = {**self.what, "action": self.action.name, "program": file_hash(words.program),
                        "tool": file_hash(find_tool()),
                        "scripts": scripts_hash(), "lister": file_hash(native_program(LISTER))}
        self.form = ""  # the command of e9tool that the last file needed
        self.parts = self.found() or self.made()
        self.refuse_several([[first for first, _, _ in part.run.blocks] for part in self.parts])

    def refuse_several(self, parts: list[list[int]]) -> None:
        """Refuses several files where one has to do; a part has the first addresses of its blocks."""
        if self.alone and len(parts) > 1:
            raise Refusal(f"{sum(len(part) for part in parts)} blocks; one file holds 65536, and {self.alone}: "
                          f"{fewer(parts)}")

    def tell_of_several(self, parts: list[list[int]]) -> None:
        """Before several files are made, that the program will run once with each."""
        if len(parts) > 1 and not self.words.patch_only:
            note(f"{sum(len(part) for part in parts)} blocks; one file holds 65536, so there will be {len(parts)}, and "
                 f"the program will run {len(parts)} times: where a second run would do harm, stop this, and "
                 f"{fewer(parts)}")

    def files(self, number: int) -> RunFiles:
        return RunFiles(os.path.join(self.folder, f"{os.path.basename(self.words.program)}.{number}"))

    def in_parts(self, parts: int) -> list[Part]:
        return [Part(self.files(number)) for number in range(1, parts + 1)]

    def found(self) -> list[Part] | None:
        """The parts that stand there, whole and made of the same; or nothing."""
        try:
            with open(os.path.join(self.folder, NAME), encoding="utf-8") as file:
                facts = json.load(file)
            if facts["made of"] != self.made_of:
                return None
            return self.in_parts(facts["parts"])
        except (OSError, ValueError, KeyError, TypeError, Refusal):
            return None

    def made(self) -> list[Part]:
        program, listing, parts = read_chosen(self.words, self.action, os.path.dirname(self.folder))
        firsts = [[block.first for block in part] for part in parts]
        self.refuse_several(firsts)
        self.tell_of_several(firsts)
        if not self.words.threads:
            warn_of_threads(program, listing, self.words.named)
        if text_warning := warning(listing, self.words.named):
            warn(text_warning)
        if os.path.exists(os.path.join(self.folder, NAME)):
            os.remove(os.path.join(self.folder, NAME))
        reserved = {number: self.patch(program, listing, blocks, number, len(parts)) for number,
                    blocks in enumerate(parts, 1)}
        text = {"program": os.path.realpath(self.words.named), "parts": len(parts), "reserved": reserved,
                "made of": self.made_of}
        write_whole({os.path.join(self.folder, NAME): json.dumps(text, indent=1) + "\n"})
        progress("")
        return self.in_parts(len(parts))

    def patch(self, program: Program, listing: Listing, blocks: list[Block], number: int, parts: int) -> list[str]:
        """Makes the files of a part; all RESERVE words of its patched file."""
        files, way = self.files(number), ThreadFitting if self.words.threads else Fitting
        if self.words.fast:
            progress(f"choosing the fewest blocks of {self.words.named} from which the others follow")
        fast = fast_choice(blocks, program, listing) if self.words.fast else None
        for _ in range(ROUNDS):
            sites = fast.measured() if fast else blocks
            patching = way(program, self.action, sites, self.words.reserve, files, self.words.loader, self.most,
                           self.form)
            patching.run(listing)
            self.form = patching.form
            left = (block.first for block, site in zip(sites, patching.sites) if site in patching.left)
            if not fast or not fast.leave(set(left)):
                break
        progress(f"writing which blocks of {self.words.named} are patched")
        of_block = {block.first: site for block, site in zip(sites, patching.sites)}
        write_whole({files.blocks: blocks_text(program, self.action, files, blocks,
                                               [of_block.get(block.first, block.first) for block in blocks])})
        reserve = patching.added_reserves()
        progress("")
        note(f"patched {len(sites) - len(patching.left)} of {counted(len(blocks), 'block')}"
             + (", from which the counts of the others follow" if len(sites) < len(blocks) else "")
             + (f", left: {patching.left_text()}" if patching.left else "")
             + (f" (file {number} of {parts})" if parts > 1 else "")
             + (f", with new code kept out of {' '.join(reserve)}, since the table may have {self.most} entries"
                if reserve else "")
             + (f", in the loader form, since the table may have {self.most} entries" if patching.has_stub()
                else ""))
        return patching.reserved


def fast_choice(blocks: list[Block], program: Program, listing: Listing) -> "Fast":
    """The choice of fewer blocks; other choices have no need of its modules."""
    from vaknuhol.recording.fast_choice import Fast
    return Fast(blocks, program, listing)


def kept_fact(stem: str, *names: str) -> Any:
    """What stands beside a kept patched file of it, under these names, or None."""
    try:
        with open(os.path.join(os.path.dirname(stem), NAME), encoding="utf-8") as file:
            facts = json.load(file)
        for name in names:
            facts = facts[name]
        return facts
    except (OSError, ValueError, KeyError, TypeError):
        return None


def kept_base(stem: str) -> int | None:
    """The base at which a static PIE was patched; None of any other kept patched file."""
    base = kept_fact(stem, "made of", "base")
    return None if base is None else int(base, 16)


def program_of(stem: str) -> str | None:
    """The original of a kept patched file, or None."""
    program = kept_fact(stem, "program")
    return None if program is None else str(program)


def all_of(program: str, top: str) -> list[str]:
    """The stems of all kept patched files of a program."""
    found = glob.glob(f"{glob.escape(top)}/*/{glob.escape(os.path.basename(program))}.*.patched")
    return sorted(os.path.splitext(path)[0] for path in found)
