"""The program on real files: what stands before a call, what is answered, and what each name holds afterwards."""
import os
import subprocess
from collections.abc import Callable
from typing import Any, NamedTuple

HERE = os.path.dirname(os.path.realpath(__file__))
DATA = f"{HERE}/../../crates/e9tool/data"
INPUTS = ("F", "S", "T")
HANGS = 3600  # seconds: a command that takes longer has hung, however busy the machine is
SUMMARY = "sites 1 patched 1 left 0\nB1 1 B2 0 T1 0 T2 0 T3 0\nNotRelocatable 0 NoPlan 0 Shared 0\n"

# What a name holds afterwards: bytes, the first bytes of OUT, a text of this name, a folder, or nothing.
OUT, REPORT, FOLDER, NOTHING, EMPTY = "OUT", "REPORT", "folder", None, b""
DONE = {"O": OUT, "R": REPORT}


class Row(NamedTuple):
    """A call: what it is, what stands before it, its outputs, what is answered and printed, and what is left."""

    what: Any
    before: Callable[[], object]
    out: str
    report: str
    status: int
    told: str
    left: dict[str, Any] = DONE


def holds(name, text=b"before", mode=0o666):
    """A row's preparation: the name holds a text, with these bits of the mode."""

    def make():
        with open(name, "wb") as file:
            file.write(text)
        os.chmod(name, mode)

    return make


def links(kind, to, name):
    """A row's preparation: the name is a link of this kind."""
    return lambda: kind(to, name)


def nothing():
    """A row's preparation where there is none."""


def refused(name: str) -> tuple[int, str]:
    return 5, f"fault write {name}\n"


def held(name):
    if os.path.isdir(name):
        return FOLDER
    if not os.path.exists(name):
        return NOTHING
    with open(name, "rb") as file:
        return file.read()


class Cases:
    """The program, the texts of its inputs and outputs, and who runs it: nobody, where root could, to whom nothing is
    barred."""

    def __init__(self, program, folder):
        self.program, self.folder, self.count = program, folder, 0
        self.user = {"user": 65534, "group": 65534, "extra_groups": []} if os.geteuid() == 0 else {}
        self.texts = {name: held(f"{DATA}/{name}") for name in INPUTS}
        self.fresh()
        try:
            done = self.patch()
        except PermissionError:
            self.user = {}
            done = self.patch()
        assert (done.returncode, done.stdout) == (0, SUMMARY), done
        self.texts |= {OUT: held("O"), REPORT: held("R")}

    def fresh(self, prepare=nothing):
        """A new folder, with the inputs and what else is prepared."""
        self.count += 1
        os.mkdir(f"{self.folder}/{self.count}")
        os.chdir(f"{self.folder}/{self.count}")
        for name in INPUTS:
            holds(name, self.texts[name])()
        prepare()
        for name in (".", *os.listdir()):
            if self.user:
                os.chown(name, 65534, 65534, follow_symlinks=False)

    def run(self, *words, **options):
        options = {"stdout": subprocess.PIPE, "text": True, "timeout": HANGS, **self.user, **options}
        return subprocess.run([self.program, *words], **options)

    def patch(self, out="O", report="R", inputs=INPUTS, reserves=(), **options):
        return self.run("patch", *inputs, "cover", out, report, *reserves, **options)

    def try_row(self, row, inputs=INPUTS, **options):
        """Compares what is answered, printed and left with the row; the inputs stay as they were prepared."""
        before = {name: held(name) for name in inputs}
        done = self.patch(row.out, row.report, inputs, **options)
        assert (done.returncode, done.stdout) == (row.status, row.told), f"{row.what}: {done}"
        for name, value in {**before, **row.left}.items():
            value = self.texts.get(value, value) if isinstance(value, str) else value
            value = self.texts[OUT][:value] if isinstance(value, int) else value
            assert held(name) == value, f"{row.what}: {name} holds something else"

    @property
    def bars_nothing(self):
        """Whether the program runs as root, since nobody doesn't come to the folder for temporary files."""
        return os.geteuid() == 0 and not self.user
