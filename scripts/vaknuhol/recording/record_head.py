"""The head of a record: of which program, patch and run it is (recording/record_file.py has the whole form)."""
import re

from vaknuhol.arguments import Refusal
from vaknuhol.messages import counted
from vaknuhol.program.program_file import read_text
from vaknuhol.recording.actions import Action, ActionError, action_of

HEAD = "vakrecord 1"
FOR_THREADS, IN_PART, NOT_KNOWN = "for threads", "in part", "-"
HASH, SEEN = r"([0-9a-f]{64})", ("processes", "threads", "execs", "unrecorded", "lost")
HEADS = re.compile(rf"{HEAD}\naction (.+)\nprogram (-|[0-9a-f]{{64}})\nreport {HASH}\n({FOR_THREADS}\n)?"
                   rf"(?:base ([0-9a-f]{{8}})\n)?({IN_PART}\n)?"
                   r"state (ended|running)\nprocesses ([0-9]+) threads ([0-9]+) execs ([0-9]+)"
                   r"(?: unrecorded ([0-9]+))?(?: lost ([0-9]+))?\n")


def head_text(action: Action, program_hash: str | None, report_hash: str, for_threads: bool, base: int | None) -> str:
    """What a head tells of a patch, before it tells of runs."""
    return (f"action {action.name}\nprogram {program_hash or NOT_KNOWN}\nreport {report_hash}\n"
            + (f"{FOR_THREADS}\n" if for_threads else "") + ("" if base is None else f"base {base:08x}\n"))


class RecordHead:
    """What a record tells before its rows; these are left in `body`, unread."""
    processes: int
    threads: int
    execs: int
    unrecorded: int
    lost: int

    def __init__(self, path: str) -> None:
        text = read_text(path)
        heads = HEADS.match(text)
        if not heads or not text.endswith("\nend\n"):
            raise Refusal(f"{path} is no record of run_and_record")
        self.path, self.body = path, text[heads.end():].removesuffix("end\n")
        action, self.program_hash, self.report_hash, for_threads, base, in_part, self.state = heads.groups()[:7]
        for name, number in zip(SEEN, heads.groups()[7:], strict=True):
            setattr(self, name, int(number or 0))
        self.for_threads, self.base = for_threads is not None, int(base, 16) if base else None
        self.in_part = in_part is not None
        try:
            self.action = action_of(action)
        except ActionError:
            raise self.no_record(f"action {action}") from None

    def no_record(self, line: str) -> Refusal:
        return Refusal(f"{self.path} is no record of run_and_record: {line}")

    def is_plain(self) -> bool:
        """Whether one process ran by itself, and kept its patch."""
        return (self.processes, self.threads, self.execs, self.lost) == (1, 0, 0, 0)

    def run_text(self) -> str:
        """How many processes and threads there were, in words."""
        of = "of" if self.action.is_ring or self.processes == 1 else "the sum of"
        seen = " and ".join(counted(number, name) for number, name in ((self.threads, "thread"), (self.execs, "exec"))
                            if number)
        missing = f", of which {self.unrecorded} could not be recorded" if self.unrecorded else ""
        missing += f", of which {self.lost} replaced memory of the patch (events may be missing)" if self.lost else ""
        return f"{of} {counted(self.processes, 'process', 'processes')}{missing}" + (f", with {seen}" if seen else "")
