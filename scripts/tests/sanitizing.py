"""The C programs of the command, built with AddressSanitizer and UndefinedBehaviorSanitizer. They leave memory to the
kernel as they end, so leaks aren't looked for."""
import glob
import os
from collections.abc import Iterator

from filelock import FileLock

from tests.calls import TOP, run
from vaknuhol.native import NEEDS

SANITIZED = ("gcc", "-std=gnu11", "-g", "-O1", "-fsanitize=address,undefined", "-fno-omit-frame-pointer")


def sources_of(name: str) -> Iterator[str]:
    yield from sorted(glob.glob(f"{TOP}/native/{name}/*.c"))
    yield from (f"{TOP}/native/lib/{source}.c" for source in NEEDS[name].shared)


def sanitized_program(name: str, folder: str) -> str:
    """The path of such a program, which is built once in the folder. A static one can't have them."""
    path = f"{folder}/{name}"
    with FileLock(f"{path}.lock"):
        if not os.path.isfile(path):
            folders = [f"-I{it}" for it in sorted({os.path.dirname(source) for source in sources_of(name)})]
            linked = [word for word in NEEDS[name].linked if word != "-static"]
            run(*SANITIZED, *folders, "-o", f"{path}.part", *sources_of(name), *linked)
            os.rename(f"{path}.part", path)
    return path
