"""Outputs are written where their names lead.

`-` is standard output. A descriptor (/dev/stdout, /dev/fd/N) is written from where it stands; a pipe or a device is
opened and written. A regular file, or a free name, gets a whole new file, or stays as it is if that fails; of a
symbolic link it is the file it leads to. As by `sed -i --follow-symlinks`, the new file has the mode of the one before,
and its owner and group where the system lets us give them; a hard link of the one before keeps what it held. A file
that may not be written is refused, and one in a folder that may not be written is written in its place.
"""
import contextlib
import errno
import os
import re
import secrets
import stat
import sys
import tempfile
from collections.abc import Iterator, Mapping

from vaknuhol.arguments import STANDARD, Refusal, lasting

OPENED = os.O_WRONLY | os.O_NOCTTY | os.O_CLOEXEC
DESCRIPTORS = re.compile(r"/proc/([0-9]+)(?:/task/[0-9]+)?/fd")
MOST_LINKS = 40  # as the kernel follows, path_resolution(7)
STDOUT = 1


def led(name: str) -> str:
    """Where a name leads, through symbolic links; a descriptor in /proc is an end of the way."""
    for _ in range(MOST_LINKS):
        folder = os.path.realpath(os.path.dirname(name) or ".")
        place = os.path.join(folder, os.path.basename(name))
        if DESCRIPTORS.fullmatch(folder) or not os.path.islink(place):
            return place
        name = os.path.join(folder, os.readlink(place))
    raise OSError(errno.ELOOP, os.strerror(errno.ELOOP), name)


def descriptor_of(place: str) -> int | None:
    """The number of a descriptor of this process that a place is."""
    folder, number = os.path.split(place)
    held = DESCRIPTORS.fullmatch(folder)
    return int(number) if held and int(held.group(1)) == os.getpid() and number.isdigit() else None


class Output:
    """An output under its name: the place where it leads, and whether a new file takes that place."""

    def __init__(self, name: str) -> None:
        self.name, self.half = name, ""
        self.place = "" if name == STANDARD else led(name)
        self.descriptor = STDOUT if name == STANDARD else descriptor_of(self.place)
        try:
            self.former = None if self.descriptor is not None else os.stat(self.place)
        except FileNotFoundError:
            self.former = None
        self.is_replaced = self.descriptor is None and self.takes_new_file()

    def takes_new_file(self) -> bool:
        folder = os.path.dirname(self.place)
        if self.former is None:
            return True
        if not stat.S_ISREG(self.former.st_mode) or DESCRIPTORS.fullmatch(folder):
            return False
        if not os.access(self.place, os.W_OK, effective_ids=True):
            raise PermissionError(errno.EACCES, os.strerror(errno.EACCES), self.name)
        return os.access(folder, os.W_OK | os.X_OK, effective_ids=True)

    def check_folder(self) -> None:
        """Refuses a place in a folder that isn't there, or in which nothing can be written."""
        folder = os.path.dirname(self.place)
        number = 0 if os.access(folder, os.W_OK | os.X_OK, effective_ids=True) else errno.EACCES
        if not os.path.isdir(folder):
            number = errno.ENOTDIR if os.path.exists(folder) else errno.ENOENT
        if number:
            raise OSError(number, os.strerror(number), self.name)

    def write_half(self, data: bytes, is_program: bool) -> None:
        """Writes the new file beside its place."""
        self.half = os.path.join(os.path.dirname(self.place), f".vaknuhol-{secrets.token_hex(8)}")
        mode = 0o600 if self.former else 0o777 if is_program else 0o666
        with open(os.open(self.half, OPENED | os.O_CREAT | os.O_EXCL, mode), "wb") as file:
            file.write(data)
            file.flush()
            if self.former:
                keep_owner_and_mode(file.fileno(), self.former)
            if self.former and is_program:
                os.fchmod(file.fileno(), runnable(os.fstat(file.fileno()).st_mode))

    def write(self, data: bytes) -> None:
        """Writes what is no file to be replaced."""
        if self.descriptor is None:
            opened = os.open(self.place, OPENED | os.O_TRUNC)
        else:
            sys.stdout.flush()
            opened = os.dup(self.descriptor)
        with open(opened, "wb") as file:
            file.write(data)

    def settle(self) -> None:
        os.replace(self.half, self.place)
        self.half = ""

    def give_up(self) -> None:
        if self.half:
            with contextlib.suppress(OSError):
                os.remove(self.half)


def runnable(mode: int) -> int:
    """A program's mode: who may read it may run it."""
    return stat.S_IMODE(mode) | (mode & 0o444) >> 2


def keep_owner_and_mode(descriptor: int, former: os.stat_result) -> None:
    """The owner and the group as far as the system lets us; rights of an owner that isn't the same any more are not
    kept."""
    for owner in (former.st_uid, -1):
        with contextlib.suppress(PermissionError):
            os.fchown(descriptor, owner, former.st_gid)
            break
    now = os.fstat(descriptor)
    is_same = (now.st_uid, now.st_gid) == (former.st_uid, former.st_gid)
    os.fchmod(descriptor, stat.S_IMODE(former.st_mode) & (0o7777 if is_same else 0o777))


def refuse_twice(outputs: list[Output]) -> None:
    """Two outputs in one file, or both on standard output, would spoil each other."""
    known: dict[str | int, str] = {}
    for output in outputs:
        if not output.is_replaced and output.name != STANDARD:
            continue
        place = output.place or STDOUT
        if place in known:
            where = "standard output" if output.name == STANDARD else f"the same file as {known[place]}"
            raise Refusal(f"{output.name}: it is {where}, and two outputs can't both go there")
        known[place] = output.name


def write_outputs(texts: list[tuple[str, str | bytes]], is_program: bool = False) -> None:
    """Writes each text under its name; where one can't be written, no file is changed."""
    outputs: list[Output] = []
    name = ""
    try:
        for name, _ in texts:
            outputs.append(Output(name))
        refuse_twice(outputs)
        whole = [(output, text.encode() if isinstance(text, str) else text) for output,
                 (_, text) in zip(outputs, texts)]
        for output, data in sorted(whole, key=lambda pair: not pair[0].is_replaced):
            name = output.name
            if output.is_replaced:
                output.write_half(data, is_program)
            else:
                output.write(data)
        for output in outputs:
            name = output.name
            if output.is_replaced:
                output.settle()
    except BrokenPipeError:
        raise
    except OSError as error:
        raise Refusal(f"{lasting(name)} can't be written: {error.strerror}") from None
    finally:
        for output in outputs:
            output.give_up()


def write_whole(texts: Mapping[str, str | bytes]) -> None:
    """Writes each file of a map from names to texts."""
    write_outputs(list(texts.items()))


@contextlib.contextmanager
def as_file(name: str) -> Iterator[str]:
    """A file's name for an output that is written more than once, or read again: its own, or that of a file which is
    copied to where the name leads, at the end. What can't be written is refused at once."""
    try:
        output = Output(name)
        if output.is_replaced:
            output.check_folder()
    except OSError as error:
        raise Refusal(f"{name} can't be written: {error.strerror}") from None
    if output.is_replaced:
        yield name
        return
    with tempfile.TemporaryDirectory(prefix="vaknuhol.") as folder:
        path = os.path.join(folder, "output")
        yield path
        if os.path.isfile(path):
            with open(path, "rb") as file:
                write_outputs([(name, file.read())])
