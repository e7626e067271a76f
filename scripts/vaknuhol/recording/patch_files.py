"""The files of one patch: they stand in one folder, and one of them says by hashes which others belong to it.

Of `prog` with the action `count` they are `prog.vak/prog.count.` with these endings: `starts`, `sites`, `patched`,
`report`, and `blocks`, which has the hashes, the base of a static PIE (0 of any other program), and for each block its
first address, its end, and its site. With a ring
they are `prog.vak/prog.ring.`, whatever its length, and with a condition `prog.vak/prog.cover-when.` or
`prog.vak/prog.count-when.` Of a patch for threads they are `prog.vak/prog.threads.`, or
`threads-cover`, `threads-ring`, `threads-cover-when` and `threads-count-when`.
"""
import itertools
import os
import re
import struct

from vaknuhol.arguments import Refusal, file_name
from vaknuhol.program.blocks import Block
from vaknuhol.program.program_file import Program, file_hash, read_text
from vaknuhol.recording.actions import Action, action_of
from vaknuhol.recording.patch_report import Report

HEAD = "vakblocks 2"
WRITTEN = ("sites", "patched", "report")
HASHED = ("starts", *WRITTEN)
TOLD = ("action", "program", "base", *HASHED)  # the lines before the rows
ROWS = re.compile(r"(?:[0-9a-f]{8} [0-9a-f]{8} [0-9a-f]{8}\n)*")
ROW, NUMBERS = "%08x %08x %08x\n", struct.Struct(">3I")


def file_part_of(action: Action, threads: bool) -> str:
    """The part of files' names that stands for an action, and for threads."""
    if not threads:
        return action.file_part
    return "threads" if action.name == "count" else f"threads-{action.file_part}"


class RunFiles:
    def __init__(self, stem: str) -> None:
        self.stem = stem

    def __getattr__(self, ending: str) -> str:
        if ending in (*HASHED, "blocks"):
            return f"{self.stem}.{ending}"
        raise AttributeError(ending)

    @classmethod
    def of_program(cls, program: str, action: Action, folder: str | None = None, threads: bool = False) -> "RunFiles":
        name = os.path.basename(program)
        part = file_part_of(action, threads)
        return cls(os.path.join(folder or file_name(f"{name}.vak"), f"{name}.{part}"))


def blocks_text(program: Program, action: Action, files: RunFiles, blocks: list[Block], sites: list[int]) -> str:
    """The text of the file `blocks`; `files` has what is hashed."""
    lines = [HEAD, f"action {action.name}", f"program {program.code_hash}", f"base {program.base:08x}"]
    lines += [f"{ending} {file_hash(getattr(files, ending))}" for ending in HASHED]
    rows = itertools.chain.from_iterable((block.first, block.end, site) for block, site in zip(blocks, sites))
    return "\n".join(lines) + "\n" + ROW * len(blocks) % tuple(rows) + "end\n"


class Run:
    """What is known of a patch: its blocks, each with its site, the hash of its program, its base, and what its records
    tell: of a ring for threads maybe fewer events than it holds."""

    def __init__(self, report: Report) -> None:
        self.action, self.hash, self.for_threads = report.action, report.hash, report.for_threads
        self.program_hash: str | None = None
        self.base: int | None = None
        self.patched_hash: str | None = None
        stem, ending = os.path.splitext(report.path)
        self.files = RunFiles(stem)
        self.blocks: list[tuple[int, int, int]] = []
        if ending == ".report" and os.path.isfile(self.files.blocks):
            self.read(report)
        else:
            self.blocks = [(a, a + 1, a) for a in sorted((*report.patched, *report.left))]

    def read(self, report: Report) -> None:
        path = self.files.blocks
        text = read_text(path)
        head, *lines = text.removesuffix("end\n").split("\n", 1 + len(TOLD))
        heads, rows = dict(line.split(" ", 1) for line in lines[:-1] if " " in line), lines[-1] if lines else ""
        is_whole = head == HEAD and text.endswith("\nend\n") and ROWS.fullmatch(rows)
        if not is_whole or not set(TOLD) <= heads.keys():
            raise Refusal(f"{path} is no file of blocks: patch again")
        try:
            self.action, self.base = action_of(heads["action"]), int(heads["base"], 16) or None
        except ValueError:
            raise Refusal(f"{path} is no file of blocks: patch again") from None
        if heads["report"] != report.hash or self.action.patched(report.for_threads).name != report.action.name:
            raise Refusal(f"{report.path} is of another run than {path}: patch again")
        for ending in ("starts", "sites"):
            other = getattr(self.files, ending)
            if os.path.isfile(other) and file_hash(other) != heads[ending]:
                raise Refusal(f"{other} is of another run than {report.path}: patch again")
        self.program_hash, self.patched_hash = heads["program"], heads["patched"]
        self.blocks = [(row[0], row[1], row[2]) for row in NUMBERS.iter_unpack(bytes.fromhex(rows))]

    def check_patched(self, path: str, report: Report) -> None:
        """Refuses every program but the one that was written with the report."""
        if self.patched_hash is None:
            report.check_patched(path)
        elif file_hash(path) != self.patched_hash:
            if Program(path).code_hash == self.program_hash:
                raise Refusal(f"{path} is the original: run the patched file, {self.files.patched}")
            raise Refusal(f"{path} is not the patched file that {report.path} is of: "
                          f"run {self.files.patched}, as it was written")
