"""Every output of every command, written where its name leads: a file, links, hard links, descriptors, pipes, devices,
`-`."""
import os
import re
import stat
import subprocess
import sys
import threading
from collections.abc import Iterator
from typing import Any

import pytest

from tests.command import COMMAND, call
from tests.programs import Programs, inside
from vaknuhol.levels import Level
from vaknuhol.main import command_parser

OLD = b"what stood there before\n"
LAST, RAN = "tiny.vak/last.record", 3
# For each output of a command: the words, with OUT in the output's place, and the status.
OUTPUTS = {
    ("cover", "record"): (("cover", "tiny", "--quiet", "--record", "OUT"), RAN),
    ("count", "record"): (("count", "tiny", "--quiet", "--record", "OUT"), RAN),
    ("ring", "record"): (("ring", "6", "tiny", "--quiet", "--record", "OUT"), RAN),
    ("wrap count", "output"): (("wrap", "count", "tiny", "-o", "OUT"), 0),
    ("wrap cover", "output"): (("wrap", "cover", "tiny", "-o", "OUT"), 0),
    ("wrap ring", "output"): (("wrap", "ring", "6", "tiny", "-o", "OUT"), 0),
    ("report", "lcov"): (("report", "tiny", LAST, "--lcov", "OUT"), 0),
    ("report", "cobertura"): (("report", "tiny", LAST, "--cobertura", "OUT"), 0),
    ("report", "json"): (("report", "tiny", LAST, "--json", "OUT"), 0),
    ("report", "drcov"): (("report", "tiny", LAST, "--drcov", "OUT"), 0),
    ("report", "callgrind"): (("report", "tiny", LAST, "--callgrind", "OUT"), 0),
    ("report", "folded"): (("report", "tiny", LAST, "--folded", "OUT"), 0),
    ("annotate", "html"): (("annotate", "tiny", "--record", LAST, "--html", "OUT"), 0),
    ("merge", "sum"): (("merge", "OUT", LAST, LAST), 0),
    ("unpatch", "original"): (("unpatch", "PATCHED", "OUT"), 0),
    ("dump", "record"): (("dump", "PID", "--quiet", "--record", "OUT"), 0),
}
MOMENT = re.compile(rb'timestamp="[0-9]+"')


def read(path: str) -> bytes:
    with open(path, "rb") as file:
        return MOMENT.sub(b"", file.read())


class Writer:
    """One output of one command, in a folder of its own."""

    def __init__(self, words: tuple[str, ...], status: int, top: str, patched: str, pid: int) -> None:
        placed = {LAST: f"{top}/{LAST}", "tiny": f"{top}/tiny", "PATCHED": f"{top}/{patched}", "PID": str(pid)}
        self.words, self.status = [placed.get(it, it) for it in words], status
        self.into = ["--into", f"{top}/tiny.vak"] if words[0] in ("cover", "count", "ring", "wrap") else []

    def run(self, name: str, status: int | None = None, **how) -> tuple[bytes, bytes]:
        """What is printed on standard output and on standard error."""
        words = [name if it == "OUT" else it for it in (*self.words, *self.into)]
        given: dict[str, Any] = {
            "stdin": subprocess.DEVNULL,
            "stdout": subprocess.PIPE,
            "stderr": subprocess.PIPE,
            **how,
        }
        done = subprocess.run([sys.executable, COMMAND, *words], **given)
        assert done.returncode == (
            self.status if status is None else status
        ), f"{words}: {done.returncode} {done.stderr!r}"
        return MOMENT.sub(b"", done.stdout or b""), done.stderr

    def refused(self, name: str, why: str) -> None:
        """The name is refused in one line that says why."""
        _, told = self.run(name, status=125 if self.status else 2)
        assert told.decode() == f"vaknuhol: {name} can't be written: {why}\n", told

    def old(self, path: str, mode: int) -> os.stat_result:
        with open(path, "wb") as file:
            file.write(OLD)
        os.chmod(path, mode)
        return os.stat(path)


def files(writer: Writer) -> bytes:
    """A free name, a file with its mode and owner, links to a file and to a free name, a hard link; what is written."""
    printed, _ = writer.run("free")
    whole = read("free")
    assert whole and whole not in printed and not os.path.islink("free")
    before = writer.old("target", 0o640)
    if not os.geteuid():
        os.chown("target", 1234, 2345)
    os.symlink("target", "link")
    os.symlink("link", "chain")
    os.symlink("dangled", "dangling")
    os.link("target", "hard")
    writer.run("chain")
    now = os.stat("target")
    assert os.path.islink("chain") and os.path.islink("link") and read("target") == whole
    assert now.st_ino != before.st_ino and stat.S_IMODE(now.st_mode) in (0o640, 0o750)
    assert os.geteuid() or (now.st_uid, now.st_gid) == (1234, 2345)
    assert read("hard") == OLD, "the hard link's other name has lost its text"
    writer.run("dangling")
    assert os.path.islink("dangling") and read("dangled") == whole
    return whole


def standard(writer: Writer, whole: bytes) -> None:
    """Standard output by two names: a pipe, and a file at whose end it goes on."""
    for name in ("-", "/dev/stdout"):
        printed, _ = writer.run(name)
        assert whole in printed, f"{name}: {printed[:200]!r}"
        writer.old("log", 0o644)
        with open("log", "ab") as log:
            writer.run(name, stdout=log)
        assert read("log").startswith(OLD) and whole in read("log"), f"{name} doesn't go on where the file ends"
    assert not os.path.exists("-") and os.path.islink("/dev/stdout")


def through(writer: Writer, ours: int, name: str, theirs: tuple[int, ...]) -> bytes:
    """What comes out of a pipe that is written under a name."""
    found: list[bytes] = []

    def take() -> None:
        with open(ours, "rb") as file:
            found.append(MOMENT.sub(b"", file.read()))

    thread = threading.Thread(target=take)
    thread.start()
    writer.run(name, pass_fds=theirs)
    for it in theirs:
        os.close(it)
    thread.join()
    return found[0]


def pipes(writer: Writer, whole: bytes) -> None:
    """A descriptor, and a pipe with a name."""
    ours, theirs = os.pipe()
    assert through(writer, ours, f"/dev/fd/{theirs}", (theirs,)) == whole
    os.mkfifo("pipe")
    ours, held = os.open("pipe", os.O_RDONLY | os.O_NONBLOCK), os.open("pipe", os.O_WRONLY)
    os.set_blocking(ours, True)
    assert through(writer, ours, "pipe", (held,)) == whole and stat.S_ISFIFO(os.stat("pipe").st_mode)


def refusals(writer: Writer) -> None:
    """What can't be written is named in one line and stays; a device stays one."""
    os.mkdir("folder")
    for name, why in (
        ("folder", "Is a directory"),
        ("gone/out", "No such file or directory"),
        ("/dev/full", "No space left on device"),
    ):
        writer.refused(name, why)
    writer.run("/dev/null")
    assert all(stat.S_ISCHR(os.stat(it).st_mode) for it in ("/dev/full", "/dev/null"))
    if os.geteuid():
        writer.old("kept", 0o444)
        writer.refused("kept", "Permission denied")
        assert read("kept") == OLD


def named_below(level: Level, names: list[str]) -> Iterator[tuple[str, str]]:
    """Each output of a level and of those below it, with their names."""
    yield from ((" ".join(names), output) for output in level.outputs)
    for name, below in level.levels.items():
        yield from named_below(below, [*names, name])


@pytest.fixture(scope="module")
def recorded(programs: Programs, module_place: str) -> tuple[str, str]:
    """A folder with the program `tiny` and its record, and the path of its patched file there."""
    with inside(module_place):
        programs.bring("tiny", "tiny.c", "-nostdlib")
        (patched,) = call("count", "tiny", "--patch-only")[0].split()
        call("count", "tiny", "--quiet", status=RAN)
    return module_place, patched


@pytest.fixture
def waiting(recorded: tuple[str, str]) -> Iterator[int]:
    """The pid of a patched program that waits for input."""
    top, patched = recorded
    with subprocess.Popen([f"{top}/{patched}"], stdin=subprocess.PIPE, stdout=subprocess.DEVNULL) as process:
        yield process.pid


def test_each_output_of_each_command_is_tried():
    named = set(named_below(command_parser([]), []))
    assert named == OUTPUTS.keys(), f"tried are not the outputs that there are: {named ^ OUTPUTS.keys()}"


@pytest.mark.parametrize("words, status", OUTPUTS.values(), ids=map(" ".join, OUTPUTS))
def test_an_output_is_written_where_its_name_leads(recorded, waiting, words, status):
    """Files, links, descriptors, pipes, devices, -; what can't be written is refused, and nothing else is left."""
    top, patched = recorded
    writer = Writer(words, status, top, patched, waiting)
    whole = files(writer)
    standard(writer, whole)
    pipes(writer, whole)
    refusals(writer)
    left = [it for it in os.listdir() if it.startswith(".") or it.endswith(".part")]
    assert not left, f"it leaves {left}"


def test_two_outputs_under_one_name_are_refused(recorded):
    """And the program's own name."""
    with inside(recorded[0]):
        refuse_both()


def refuse_both() -> None:
    told = call("report", "tiny", "--lcov", "-", "--json", "-", status=2)
    assert told == ("", "vaknuhol: -: it is standard output, and two outputs can't both go there\n"), told
    told = call("report", "tiny", "--lcov", "one", "--json", "./one", status=2)
    assert told == ("", "vaknuhol: ./one: it is the same file as one, and two outputs can't both go there\n"), told
    for words, status in ((("report", "tiny", "--json", "tiny"), 2), (("wrap", "count", "tiny", "-o", "./tiny"), 2)):
        told = call(*words, status=status)[1]
        assert (
            f"{words[-1]} is the original, which reports need: name another file, or move it first, as to tiny.original"
            in told
        ), told
    assert not os.path.exists("one")
