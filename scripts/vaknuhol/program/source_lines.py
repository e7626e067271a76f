"""Which blocks, and which addresses, belong to lines of chosen source files."""
import bisect
import os
from collections.abc import Iterable

from vaknuhol.arguments import Refusal
from vaknuhol.program.blocks import Block
from vaknuhol.program.debug_info import INLINED, DebugInfo, debug_info
from vaknuhol.program.own_files import own_files


def files_with_code(info: DebugInfo) -> set[int]:
    """The numbers of the files that have a line with code, or a trace of one."""
    return {*info.piece_file, *info.point_file}


def own_numbers(info: DebugInfo) -> set[int]:
    """The files of the program's own."""
    files = {info.files[number]: number for number in files_with_code(info)}
    return {files[file] for file in own_files(set(files))}


def numbers_under(info: DebugInfo, folder: str) -> set[int]:
    """The files under a folder."""
    if not os.path.isdir(folder):
        raise Refusal(f"--source {folder}: no such folder")
    top = os.path.join(os.path.realpath(folder), "")
    return {number for number in files_with_code(info) if os.path.realpath(info.files[number]).startswith(top)}


def chosen_files(info: DebugInfo, source: str | None = None, everything: bool = False) -> set[int]:
    """The files under a folder, or all, or else the program's own."""
    if source:
        return numbers_under(info, source)
    return files_with_code(info) if everything else own_numbers(info)


def has_own_lines(path: str) -> bool:
    """Whether the program has debugging information of files of its own."""
    return bool(own_numbers(debug_info(path)))


def spans_of(info: DebugInfo, wanted: set[int]) -> Iterable[tuple[int, int]]:
    """Where code of lines of the wanted files stands, where rows of no length of such lines do, and where calls inlined
    on such lines do."""
    for low, high, file, line in zip(info.piece_low, info.piece_high, info.piece_file, info.piece_line):
        if file in wanted and line:
            yield low, high
    for at, file, line in zip(info.point_at, info.point_file, info.point_line):
        if file in wanted and line:
            yield at, at + 1
    for instance in info.instances():
        is_wanted = info.call_file[instance - 1] in wanted and info.call_line[instance - 1]
        if is_wanted and info.kind[instance - 1] & INLINED:
            yield from info.ranges_of(instance)


def with_lines(path: str, blocks: list[Block], source: str | None = None) -> list[Block]:
    """Of blocks in order those with a line of a file under a folder, or of the program's own, and those of calls
    inlined on such a line, whatever file these are of."""
    info = debug_info(path)
    firsts, marked = [block.first for block in blocks], bytearray(len(blocks))
    for low, high in spans_of(info, chosen_files(info, source)):
        at = max(bisect.bisect_right(firsts, low) - 1, 0)
        while at < len(firsts) and firsts[at] < high:
            if blocks[at].end > low:
                marked[at] = True
            at += 1
    return [block for block, is_marked in zip(blocks, marked) if is_marked]
