"""A static PIE is settled at a base by e9tool before it is patched (docs/reference/settled.md); the settled file is
kept in PROGRAM.vak, in a folder of its own for each base that was asked for."""
import argparse
import contextlib
import functools
import glob
import os
import re
import subprocess
import tempfile
from collections.abc import Iterator

from vaknuhol.arguments import Refusal
from vaknuhol.outputs import runnable, write_whole
from vaknuhol.program.program_file import Program, file_hash, is_static_pie, read_bytes
from vaknuhol.program.settled import front_of
from vaknuhol.recording.patching import find_tool
from vaknuhol.recording.record_file import Record

FOLDER, NAME = "settled", "made-of"  # beside the settled file, in words, what it was made of
KEPT: list["tempfile.TemporaryDirectory[str]"] = []  # to the end of the process


def base_number(text: str) -> int:
    """A base: hexadecimal digits for a number below 2^32, as e9tool takes it."""
    if not re.fullmatch(r"0*[0-9a-fA-F]{1,8}", text):
        raise argparse.ArgumentTypeError(f"{text}: write a hexadecimal address without 0x, as 10000000")
    return int(text, 16)


def add_base(level: argparse.ArgumentParser) -> None:
    """The word that says where a position independent program is loaded."""
    level.add_argument("--base", metavar="HEX", type=base_number,
                       help="where a position independent program (static PIE) is loaded, in place of the highest base "
                            "that fits")


@functools.cache
def is_settled_first(program: str) -> bool:
    """Whether a program is a static PIE."""
    data = read_bytes(program)
    return data[:6] == b"\x7fELF\2\1" and is_static_pie(data)


def read_kind(program: str) -> None:
    """Refuses a file that isn't a static program, settled or not."""
    if not is_settled_first(program):
        Program(program)


def settle(program: str, base: int | None, path: str) -> None:
    """Lets e9tool write the settled file of a static PIE."""
    words = [] if base is None else [f"base:{base:x}"]
    done = subprocess.run([find_tool(), "settle", program, path, *words], capture_output=True, text=True,
                          errors="replace", check=False)
    if done.returncode:
        raise Refusal(f"{program} is position independent, and e9tool can't settle it: "
                      f"{(done.stdout or done.stderr).strip() or done.returncode}")
    os.chmod(path, runnable(os.stat(program).st_mode) & 0o777 | 0o600)


def made_of(program: str) -> str:
    return f"{file_hash(program)}\n{file_hash(find_tool())}\n"


def is_kept(program: str, place: str) -> bool:
    """Whether a folder has a whole settled file that was made of this program."""
    with contextlib.suppress(OSError), open(os.path.join(place, NAME), encoding="ascii", errors="replace") as file:
        return file.read() == made_of(program) and os.path.isfile(os.path.join(place, os.path.basename(program)))
    return False


def settled(program: str, folder: str, base: int | None = None) -> str:
    """The path of the settled file of a static PIE: kept in the folder, where that is there and can be written, and
    else in one that goes. Any other program is its own file."""
    if not is_settled_first(program):
        if base is not None:
            Program(program)
            raise Refusal(f"--base: {program} is not position independent: it is loaded where it was linked for")
        return program
    if not os.path.isdir(folder) or not os.access(folder, os.W_OK):
        KEPT.append(tempfile.TemporaryDirectory(prefix="vaknuhol."))
        folder = KEPT[-1].name
    place = os.path.join(folder, FOLDER if base is None else f"{FOLDER}-{base:x}")
    path = os.path.join(place, os.path.basename(program))
    if not is_kept(program, place):
        os.makedirs(place, exist_ok=True)
        with tempfile.TemporaryDirectory(prefix="part.", dir=place) as part:
            settle(program, base, os.path.join(part, "settled"))
            os.replace(os.path.join(part, "settled"), path)
        write_whole({os.path.join(place, NAME): made_of(program)})
    return path


@functools.cache
def settled_again(program: str, base: int | None) -> str:
    """The settled file of a static PIE, made again at a base, in a folder that goes; any other program is its own."""
    if not is_settled_first(program):
        return program
    KEPT.append(tempfile.TemporaryDirectory(prefix="vaknuhol."))
    path = os.path.join(KEPT[-1].name, os.path.basename(program))
    settle(program, base, path)
    return path


def kept_settled(program: str, folder: str) -> Iterator[str]:
    """The settled files of a program that are kept in a folder."""
    for place in sorted(glob.glob(f"{glob.escape(folder)}/{FOLDER}*")):
        if is_kept(program, place):
            yield os.path.join(place, os.path.basename(program))


def recorded(program: str, record: Record, folder: str) -> str:
    """The file of a program that was patched for a record: of a static PIE that of its settled files which has the
    record's code, or if none is kept that at the record's base."""
    if not is_settled_first(program):
        return program
    for path in kept_settled(program, folder):
        if record.is_of(Program(path)):
            return path
    return settled(program, folder, record.base)


def base_of(path: str) -> int | None:
    """The base of a settled file; None of any other."""
    front = front_of(read_bytes(path))
    return front.base if front else None


def unsettled(data: bytes) -> bytes:
    """What stands behind a front, if e9tool says that the file is settled."""
    if front_of(data) is None:
        return data
    with tempfile.TemporaryDirectory(prefix="vaknuhol.") as folder:
        path, own = os.path.join(folder, "settled"), os.path.join(folder, "own")
        write_whole({path: data})
        done = subprocess.run([find_tool(), "unsettle", path, own], capture_output=True, text=True, errors="replace",
                              check=False)
        return data if done.returncode else read_bytes(own)
