"""Which function's body a place of a crate's code lies in, by the layout that `rt fmt` gives.

An item begins with its keyword behind its indent, and ends with `}` behind the same. A body begins with `{` alone in
its line where the function has clauses, and else at the end of its signature.
"""
import re
from dataclasses import dataclass

ITEM = re.compile(r"^( *)(?:pub(?:\([a-z]+\))? +)?(?:const +|unsafe +)?(fn|impl|trait)\b([^\n]*)", re.M)
CLAUSE = re.compile(r"^ +(?:requires|ensures|ghost)\b", re.M)


@dataclass(frozen=True)
class Function:
    """A function by its module, the type whose method it is, and its name."""
    module: str
    owner: str
    name: str

    def is_called(self, full: str) -> bool:
        """Whether the prover calls it so. It joins a type's name and a trait's: `toy::words::WordsClone::clone`."""
        *path, name = full.split("::")
        owner = path.pop() if self.owner and path else ""
        return name == self.name and "::".join(path) == self.module and owner.startswith(self.owner)


def module_of(crate: str, file: str) -> str:
    """The module that a file of src/ holds."""
    path = file.removeprefix("src/").removesuffix(".rt").removesuffix("/mod")
    return "::".join([crate, *(path.split("/") if path not in ("lib", "main") else [])])


def end_of(text: str, item: re.Match[str]) -> int:
    """Where an item ends."""
    found = re.compile(rf"^{item[1]}\}}", re.M).search(text, item.end())
    return found.start() if found else len(text)


def body_of(text: str, item: re.Match[str]) -> int:
    """Where the body of a function begins."""
    alone = re.compile(rf"^{item[1]}\{{$", re.M).search(text, item.start(), end_of(text, item))
    if alone:
        return alone.start()
    signature = re.compile(r"\{$", re.M).search(text, item.start())
    return signature.start() if signature and not CLAUSE.search(text, item.end(), signature.start()) else len(text)


def owner_of(head: str) -> str:
    """The type of an `impl`, by what follows that word, or the trait's name."""
    while "<" in head:  # types that are given to types
        shorter = re.sub(r"<[^<>]*>", "", head.replace("->", ""))
        head = shorter if shorter != head else head.replace("<", "")
    found = re.search(r"(\w+)\s*(?:\{|where\b|:|$)", head.split(" for ")[-1])
    return found[1] if found else ""


def function_at(crate: str, file: str, text: str, at: int) -> Function | None:
    """The function in whose body a place of a file lies, if it lies in one."""
    if not file.startswith("src/"):
        return None
    around = [item for item in ITEM.finditer(text) if item.start() <= at < end_of(text, item)]
    functions = [item for item in around if item[2] == "fn"]
    if not functions or at < body_of(text, functions[0]):
        return None
    owners = [owner_of(item[3]) for item in around if item[2] != "fn"]
    name = re.match(r"\s*(\w+)", functions[0][3])
    return Function(module_of(crate, file), owners[-1] if owners else "", name[1]) if name else None
