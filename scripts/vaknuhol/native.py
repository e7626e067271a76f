"""The C programs that the command calls: the package has them beside this folder's parent in bin/; from a checkout each
is compiled when it is first used, and again where its sources are newer."""
import fcntl
import os
import shlex
import shutil
import subprocess
from typing import NamedTuple

from vaknuhol.arguments import Refusal

TOP = os.path.dirname(os.path.dirname(os.path.dirname(os.path.realpath(__file__))))
GIVEN = ("CPPFLAGS", "CFLAGS", "LDFLAGS")  # more flags, as the package has them of dpkg-buildflags
FLAGS = ("-std=gnu11", "-O2", "-Wall", "-Wextra", "-Werror")


class Needs(NamedTuple):
    """What a program needs besides its own sources: arguments of the linker, the Debian package that has the headers,
    and sources of native/lib."""
    linked: tuple[str, ...]
    package: str
    shared: tuple[str, ...]


TRACING = ("asking", "classes", "file", "front", "process", "refusing", "tracee")
NEEDS = {
    "vaknuhol-list": Needs(("-lZydis",), "libzydis-dev", ("classes", "file", "front", "refusing", "spelling")),
    "vaknuhol-step": Needs(("-lZydis",), "libzydis-dev", ("asking", "classes", "file", "front", "process", "refusing")),
    "vaknuhol-record": Needs(("-lZydis",), "libzydis-dev", TRACING),
    "vaknuhol-judge": Needs(("-lZydis",), "libzydis-dev", (*TRACING, "spelling")),
    "vaknuhol-lines": Needs(("-ldw", "-lelf"), "libdw-dev", ("refusing",)),
    "vaknuhol-run": Needs(("-static",), "libc6-dev", ("process",)),
}


def program(name: str) -> str:
    """The path of a C program of ours, built where it has to be. Its sources are native/NAME/*.c and *.h. Another one
    can be named, as by VAKNUHOL_RUN."""
    named = os.environ.get(name.upper().replace("-", "_"))
    if named:
        return named
    packed = os.path.join(TOP, "bin", name)
    sources = os.path.join(TOP, "native", name)
    if not os.path.isdir(sources):
        if os.access(packed, os.X_OK):
            return packed
        raise Refusal(f"{name} is not here: the package has it, or a whole checkout")
    return built(name, sources)


def cache_folder() -> str:
    """Where programs of a checkout are built: in it, or where it can't be written, in the user's cache."""
    inside = os.path.join(TOP, "native", "out")
    if os.access(os.path.join(TOP, "native"), os.W_OK):
        return inside
    return os.path.join(os.environ.get("XDG_CACHE_HOME") or os.path.expanduser("~/.cache"), "vaknuhol")


def built(name: str, folder: str) -> str:
    """The path of a program, compiled again where one of its sources is newer."""
    cache = cache_folder()
    os.makedirs(cache, exist_ok=True)
    path = os.path.join(cache, name)
    shared = [os.path.join(os.path.dirname(folder), "lib", source + ending) for source in NEEDS[name].shared
              for ending in (".c", ".h")]
    sources = [*(os.path.join(folder, file) for file in sorted(os.listdir(folder))), *shared]
    with open(f"{path}.lock", "w", encoding="utf-8") as lock:
        fcntl.flock(lock, fcntl.LOCK_EX)
        if not is_current(path, sources):
            compile_program(name, sources, path)
    return path


def is_current(path: str, sources: list[str]) -> bool:
    if not os.path.isfile(path):
        return False
    made = os.stat(path).st_mtime_ns
    return all(os.stat(source).st_mtime_ns < made for source in sources)


def compile_program(name: str, sources: list[str], path: str) -> None:
    compiler = os.environ.get("CC") or shutil.which("gcc") or shutil.which("cc")
    if not compiler:
        raise Refusal(f"{name} is compiled when it is first used: install gcc")
    files = [source for source in sources if source.endswith(".c")]
    folders = [f"-I{folder}" for folder in sorted({os.path.dirname(source) for source in sources})]
    given = [word for flags in GIVEN for word in shlex.split(os.environ.get(flags, ""))]
    done = subprocess.run([compiler, *FLAGS, *given, *folders, "-o", f"{path}.part", *files, *NEEDS[name].linked],
                          capture_output=True, text=True, check=False)
    if done.returncode:
        first = next((line for line in done.stderr.splitlines() if "error" in line), "the compiler fails")
        raise Refusal(f"{name} can't be compiled (it needs gcc and the package {NEEDS[name].package}): {first}")
    os.replace(f"{path}.part", path)
