"""Checks of a crate with changed texts, in a copy of the repository, over what a check of the crate as it stands left.

Each lane has a copy of its own, since rt lets one command work in a crate and those below it. rt begins a check with
what checks in other copies and in the checkout kept, and takes the libraries that they built.
"""
import os
import resource
import shutil
import subprocess
from collections.abc import Mapping

from edits.edit_files import texts_of

CARRIED = ("crates", "crates.txt", "HANDLES")
KEPT = os.path.join("out", "incremental")
KEPT_FILE = ".oantt"  # what rt replaces and never writes into, so a second name of it will do


class NotProved(Exception):
    """That a crate isn't proved as it stands."""


def link_or_copy(source: str, target: str) -> None:
    try:
        if source.endswith(KEPT_FILE):
            os.link(source, target)
            return
    except OSError:
        pass  # on another file system, say
    shutil.copy2(source, target)


def carry(top: str, copy: str) -> None:
    """Makes a copy of what rt reads of a repository, without what it made and without edits."""
    os.makedirs(copy)
    for name in CARRIED:
        source, target = os.path.join(top, name), os.path.join(copy, name)
        if os.path.isdir(source):
            shutil.copytree(source, target, ignore=shutil.ignore_patterns("out", "must-fail"))
        else:
            shutil.copy2(source, target)


def last_line(text: str) -> str:
    return [line for line in text.splitlines() if line.strip()][-1:][0] if text.strip() else "nothing is said"


def processor_seconds() -> float:
    """What the commands that have ended took."""
    used = resource.getrusage(resource.RUSAGE_CHILDREN)
    return used.ru_utime + used.ru_stime


class Lane:
    """A copy of the repository, in which one crate after the other is tried."""

    def __init__(self, top: str, copy: str) -> None:
        self.copy = copy
        carry(top, copy)

    def folder(self, crate: str) -> str:
        return os.path.join(self.copy, "crates", crate)

    def check(self, crate: str) -> tuple[int, str]:
        """The status of `rt check`, and what it printed."""
        done = subprocess.run(["rt", "check", "--jobs", "1"], cwd=self.folder(crate), stdin=subprocess.DEVNULL,
                              stdout=subprocess.PIPE, stderr=subprocess.STDOUT, encoding="utf-8", errors="replace",
                              check=False)
        return done.returncode, done.stdout

    def begin(self, crate: str) -> dict[str, str]:
        """Proves a crate as it stands, keeps what that left, and gives its texts."""
        status, said = self.check(crate)
        if status:
            raise NotProved(f"{crate} is not proved as it stands (rt check in its folder): {last_line(said)}")
        self.kept = f"{self.copy}.{crate}"
        shutil.copytree(os.path.join(self.folder(crate), KEPT), self.kept, copy_function=link_or_copy)
        return texts_of(self.folder(crate))

    def changed(self, crate: str, texts: Mapping[str, str], own: Mapping[str, str]) -> tuple[int, str]:
        """The status of a check of the crate with these texts in place of its own, and what it printed."""
        kept = os.path.join(self.folder(crate), KEPT)
        shutil.rmtree(kept)
        shutil.copytree(self.kept, kept, copy_function=link_or_copy)
        try:
            self.write(crate, texts, own)
            return self.check(crate)
        finally:
            self.write(crate, own, texts)

    def write(self, crate: str, texts: Mapping[str, str], was: Mapping[str, str]) -> None:
        for path, text in texts.items():
            if text != was[path]:
                with open(os.path.join(self.folder(crate), path), "w", encoding="utf-8") as file:
                    file.write(text)

    def end(self, crate: str) -> None:
        """Leaves the crate proved, as others begin with what stands here."""
        kept = os.path.join(self.folder(crate), KEPT)
        shutil.rmtree(kept)
        os.rename(self.kept, kept)
