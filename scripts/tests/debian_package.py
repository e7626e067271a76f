"""The Debian package, made once for all tests, and installed into what looks like this system and isn't it."""
import contextlib
import os
import subprocess
from collections.abc import Iterator

import pytest
from filelock import FileLock

from tests.calls import SCRIPTS, run
from tests.needs import left_out, need

NEEDED = (
    "dpkg",
    "dpkg-deb",
    "dpkg-buildpackage",
    "dpkg-shlibdeps",
    "dh",
    "dh_python3",
    "help2man",
    "register-python-argcomplete",
)
MAKER = {"DEBFULLNAME": "A. Maker", "DEBEMAIL": "maker@example.org"}
ENVIRONMENT = {"PATH": "/usr/sbin:/usr/bin:/sbin:/bin", "HOME": "/root", "LC_ALL": "C.UTF-8"}


def made(folder: str, e9tool: str) -> str:
    """The path of the package in a folder, where it is made if it isn't yet."""
    need(*NEEDED)
    with FileLock(f"{folder}.lock"):
        if not os.path.isdir(folder):
            run(f"{SCRIPTS}/package.sh", e9tool, f"{folder}.part", env={**os.environ, **MAKER})
            os.rename(f"{folder}.part", folder)
    (name,) = os.listdir(folder)
    return f"{folder}/{name}"


class System:
    """This system with a layer over it that takes all that is written."""

    def __init__(self, top: str) -> None:
        self.top, self.root, self.written = top, f"{top}/root", f"{top}/written"

    def run(self, *words: str, status: tuple[int, ...] = (0,), **environment: str) -> str:
        """What a command prints there, in a folder of root's."""
        return run(
            "chroot",
            self.root,
            "/bin/sh",
            "-c",
            'cd /root/tried && exec "$@"',
            "sh",
            *words,
            status=status,
            env={**ENVIRONMENT, **environment},
        )

    def files(self, below: str = "usr") -> list[str]:
        """The files that were written below a folder."""
        return sorted(
            os.path.relpath(os.path.join(top, name), self.written)
            for top, _, names in os.walk(f"{self.written}/{below}")
            for name in names
        )


@contextlib.contextmanager
def over_this_system(top: str, like: System | None = None) -> Iterator[System]:
    """A layer over this system in memory, in which what another one took is written already; nothing of it stays."""
    if os.geteuid():
        pytest.skip("only root can install a package")
    need("mount")
    system = System(top)
    run("mount", "-t", "tmpfs", "tmpfs", top)
    try:
        for name in ("root", "written", "work"):
            os.mkdir(f"{top}/{name}")
        if like:
            run("cp", "--archive", f"{like.written}/.", system.written)
        options = f"lowerdir=/,upperdir={system.written},workdir={top}/work"
        if subprocess.run(["mount", "-t", "overlay", "-o", options, "overlay", system.root], check=False).returncode:
            left_out("no file system can be mounted over / here")
        for name in ("dev", "proc"):
            run("mount", "--rbind", f"/{name}", f"{system.root}/{name}")
        os.makedirs(f"{system.root}/root/tried", exist_ok=True)
        yield system
    finally:
        run("umount", "--recursive", "--lazy", top)
