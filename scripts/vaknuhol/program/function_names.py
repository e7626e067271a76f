"""Names of functions as the source has them."""
import functools
import re
import shutil
import subprocess
from typing import Callable, Iterable

COPY = re.compile(r"(\.(constprop|isra|part|cold|lto_priv|localalias)(\.[0-9]+)*)+$")  # what gcc adds to copies
GENERIC = re.compile(r"::<.*>$")  # the types of a generic function of Rust
IN_MODULE = re.compile(r"__\w+?_MOD_(\w+)")  # how gfortran spells a procedure of a module


@functools.cache
def demangled(names: tuple[str, ...]) -> dict[str, str]:
    """A map from names to what c++filt makes of them, without the hashes that rustc adds; a name stays as it is where
    there is no c++filt."""
    if not names or not shutil.which("c++filt"):
        return {}
    done = subprocess.run(["c++filt", "--no-verbose"], input="\n".join(names), capture_output=True, text=True,
                          check=False)
    return dict(zip(names, done.stdout.splitlines()))


@functools.cache
def spellings(symbol: str, source: str) -> set[str]:
    """The names by which one may ask for a function, by its symbol and its whole name in the source: also without
    arguments, and without what compilers add."""
    plain, bare = COPY.sub("", symbol), source.partition("(")[0]
    module = IN_MODULE.fullmatch(plain)
    return {symbol, plain, source, bare, GENERIC.sub("", bare), module.group(1) if module else symbol}


def namer(names: Iterable[str]) -> Callable[[str], str]:
    """What turns these names of functions into names as the source has them."""
    known = demangled(tuple(sorted(set(names))))
    return lambda name: known.get(name, name)
