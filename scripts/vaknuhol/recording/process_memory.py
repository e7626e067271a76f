"""What a patched program recorded, read from a process that runs on, or from a core file."""
import os
import struct
import sys
from typing import TYPE_CHECKING

from vaknuhol.arguments import Refusal
from vaknuhol.recording.patch_files import Run
from vaknuhol.recording.patch_report import Report

PATCHED = ".patched"
DELETED = " (deleted)"
CURRENT_SIGNAL = struct.Struct("<12xh")  # linux/elfcore.h, struct elf_prstatus: pr_info, and pr_cursig
DEBIAN = "/usr/lib/python3/dist-packages"
RUNNER = "vaknuhol-run"
if TYPE_CHECKING:
    from elftools.common.exceptions import ELFError
    from elftools.elf.elffile import ELFFile


def read_memory(pid: int, addr: int, length: int) -> bytes | None:
    """The bytes of a process from an address on, or None where they can't be read."""
    try:
        with open(f"/proc/{pid}/mem", "rb", buffering=0) as memory:
            memory.seek(addr)
            data = memory.read(length)
    except OSError:
        return None
    return data if len(data) == length else None


def readers() -> "tuple[type[ELFFile], type[ELFError]]":
    """pyelftools, which reads core files; another Python than Debian's finds Debian's, too."""
    if DEBIAN not in sys.path:
        sys.path.append(DEBIAN)
    try:
        from elftools.common.exceptions import ELFError
        from elftools.elf.elffile import ELFFile
    except ImportError:
        raise Refusal("needs pyelftools (package python3-pyelftools), which is not here") from None
    return ELFFile, ELFError


def facts_of(pid: str) -> dict[str, str]:
    """What /proc/PID/status says."""
    try:
        with open(f"/proc/{pid}/status", encoding="utf-8", errors="replace") as file:
            return {name: value.strip() for name, _, value in (line.partition(":") for line in file)}
    except OSError:
        return {}


def traced_by(pid: int) -> list[str]:
    """The processes that a runner follows, or the runner that a `vaknuhol` has started, lowest number first."""
    everyone = {other: facts_of(other) for other in os.listdir("/proc") if other.isdigit()}
    runners = {other for other, facts in everyone.items() if facts.get("Name") == RUNNER
               and str(pid) in (other, facts.get("PPid"))}
    return sorted((other for other, facts in everyone.items() if facts.get("TracerPid") in runners), key=int)


class Process:
    """A process that runs on: its memory is read as it stands, and it isn't stopped."""

    def __init__(self, pid: int) -> None:
        self.pid = pid
        try:
            self.image = os.readlink(f"/proc/{pid}/exe")
        except FileNotFoundError:
            raise Refusal(f"there is no process {pid}") from None
        except OSError as error:
            raise Refusal(f"the process {pid} can't be looked at: {error.strerror}; "
                          "as its user or as root it can") from None

    def signal(self) -> int:
        """None has ended it."""
        return 0

    def stem(self) -> str:
        """Where the files of its patch stand: beside the patched file that it runs."""
        if self.image.endswith(DELETED):
            raise Refusal(f"the process {self.pid} runs {self.image.removesuffix(DELETED)}, "
                          "which was patched again or removed meanwhile")
        traced = [] if self.image.endswith(PATCHED) else traced_by(self.pid)
        if traced:
            raise Refusal(f"the process {self.pid} runs no program, but follows {' '.join(traced)}: dump {traced[0]}")
        if not self.image.endswith(PATCHED):
            raise Refusal(f"the process {self.pid} runs {self.image}, which is no patched file by its name: "
                          "name its report by --report")
        return self.image.removesuffix(PATCHED)

    def check(self, run_files: Run, report: Report) -> None:
        run_files.check_patched(f"/proc/{self.pid}/exe", report)

    def threads(self) -> int:
        """How many threads there are beside the first."""
        return len(os.listdir(f"/proc/{self.pid}/task")) - 1

    def read(self, addr: int, length: int) -> bytes:
        data = read_memory(self.pid, addr, length)
        if data is None:
            raise Refusal(f"the memory of the process {self.pid} can't be read: as its user or as root it can, where "
                          "/proc/sys/kernel/yama/ptrace_scope is 0 or not there")
        return data


class Core:
    """A core file: the kernel writes a process's private memory into it as it crashes."""

    def __init__(self, path: str) -> None:
        self.path, self.mapped, self.signals = path, list[str](), list[int]()
        self.segments: list[tuple[int, int, int]] = []  # where each stands in the file and in memory, and its length
        if not os.path.isfile(path):
            raise Refusal(f"{path}: there is no such process, and no such core file")
        elf_file, elf_error = readers()
        try:
            with open(path, "rb") as file:
                self.take(elf_file(file))
        except elf_error as error:
            raise Refusal(f"{path} can't be read as a core file: {error}") from None

    def take(self, core: "ELFFile") -> None:
        if core["e_type"] != "ET_CORE":
            raise Refusal(f"{self.path} is no core file")
        for segment in core.iter_segments():
            if segment["p_type"] == "PT_LOAD":
                self.segments.append((segment["p_offset"], segment["p_vaddr"], segment["p_filesz"]))
            elif segment["p_type"] == "PT_NOTE":
                notes = list(segment.iter_notes())
                self.mapped += [os.fsdecode(name) for note in notes if note["n_type"] == "NT_FILE"
                                for name in note["n_desc"]["filename"]]
                self.signals += [CURRENT_SIGNAL.unpack_from(note["n_descdata"])[0] for note in notes
                                 if note["n_type"] == "NT_PRSTATUS" and len(note["n_descdata"]) >= CURRENT_SIGNAL.size]

    def stem(self) -> str:
        """Where the files of the patch stand, by the names of the files that were mapped."""
        for name in self.mapped:
            if name.endswith(PATCHED):
                return name.removesuffix(PATCHED)
        raise Refusal(f"{self.path} names no patched file: name its report by --report")

    def check(self, run_files: Run, report: Report) -> None:
        """A core file has no copy of the program's code: only its name, and that it has the record's memory, speak for
        it."""

    def threads(self) -> int:
        """How many threads there were beside the first: each has its state."""
        return max(0, len(self.signals) - 1)

    def signal(self) -> int:
        """The number of the signal that ended the process, by the first thread's state; 0 where the file tells none."""
        return self.signals[0] if self.signals else 0

    def read(self, addr: int, length: int) -> bytes:
        for offset, start, size in self.segments:
            if start <= addr and addr + length <= start + size:
                with open(self.path, "rb") as file:
                    file.seek(offset + addr - start)
                    data = file.read(length)
                if len(data) == length:
                    return data
        raise Refusal(f"{self.path} has no memory at {addr:08x}, where the record stood: it is of another program, or "
                      "cut off "
                      "(ulimit -c), or /proc/PID/coredump_filter kept it out")
