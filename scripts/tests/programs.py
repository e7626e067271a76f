"""The small programs of the tests, each built once in a folder that all workers share."""
import contextlib
import hashlib
import os
import shutil
from collections.abc import Iterator

from filelock import FileLock

from tests.calls import SOURCES, STATIC, run
from tests.command import call
from tests.needs import need

HALTING = """.globl _start, stop
.type stop, @function
_start: mov $60, %eax
syscall
stop: hlt
.section .note.GNU-stack
"""


def build(source: str, name: str, *flags: str, compiler: str = "gcc") -> None:
    """The program NAME of a source beside this file or elsewhere, linked statically in the working folder."""
    need(compiler)
    shutil.copy(os.path.join(SOURCES, source), ".")
    run(compiler, *STATIC, *flags, "-o", name, os.path.basename(source))


def compile_text(name: str, source: str, text: str, *flags: str) -> None:
    """The program NAME of a text, which is written to a file beside it."""
    compiler = "g++" if source.endswith(".cc") else "gcc"
    need(compiler)
    with open(source, "w", encoding="utf-8") as file:
        file.write(text)
    run(compiler, *flags, "-static", "-no-pie", "-o", name, source)


@contextlib.contextmanager
def inside(folder: str) -> Iterator[None]:
    """The working folder is another one meanwhile."""
    before = os.getcwd()
    os.chdir(folder)
    try:
        yield
    finally:
        os.chdir(before)


class Programs:
    """Programs that are built where debugging information finds their sources, and copied to the tests that ask for
    them."""

    def __init__(self, folder: str) -> None:
        self.folder = folder

    def home(self, name: str, source: str, *flags: str, compiler: str = "gcc") -> str:
        """The folder in which a program stands with its source."""
        home = f"{self.folder}/{name}"
        with FileLock(f"{home}.lock"):
            if not os.path.isfile(f"{home}/{name}"):
                os.makedirs(home, exist_ok=True)
                with inside(home):
                    build(source, f"{name}.part", *flags, compiler=compiler)
                    os.rename(f"{name}.part", name)
        return home

    def bring(self, name: str, source: str, *flags: str, compiler: str = "gcc") -> str:
        """Copies a program into the working folder; the folder of its source."""
        home = self.home(name, source, *flags, compiler=compiler)
        shutil.copy2(f"{home}/{name}", name)
        return home

    def patch(self, name: str, *words: str) -> None:
        """Copies what `vaknuhol WORDS --patch-only` makes of a program that was brought into the working folder."""
        mark = hashlib.sha256(" ".join(words).encode()).hexdigest()[:8]
        home = f"{self.folder}/{name}/{mark}"
        with FileLock(f"{home}.lock"):
            if not os.path.isfile(f"{home}.made"):  # what is kept names the folder, so that can't be renamed at the end
                os.makedirs(home, exist_ok=True)
                with inside(home):
                    shutil.copy2(f"../{name}", name)
                    call(words[0], *[name if word == "PROGRAM" else word for word in words[1:]], "--patch-only")
                with open(f"{home}.made", "x", encoding="ascii"):
                    pass
        shutil.copytree(f"{home}/{name}.vak", f"{name}.vak", dirs_exist_ok=True)
