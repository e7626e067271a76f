"""A tracefile for genhtml (lcov's geninfo format) of the counts of lines, functions and branches."""
from collections.abc import Iterator

from vaknuhol.views.coverage import Coverage
from vaknuhol.views.line_counts import Line


def branch_lines(lines: dict[int, Line]) -> Iterator[str]:
    """Both ways of each branch; a way that wasn't gone has 0, or `-` where the branch itself wasn't executed."""
    ways = [(number, at, way, count if any(branch) else "-") for number, line in lines.items()
            for at, branch in enumerate(line.branches) for way, count in enumerate(branch)]
    for number, at, way, count in ways:
        yield f"BRDA:{number},{at},{way},{count}\n"
    if ways:
        yield f"BRF:{len(ways)}\nBRH:{sum(1 for *_, count in ways if count not in (0, '-'))}\n"


def section(file: str, lines: dict[int, Line], functions: dict[str, tuple[int, int]]) -> Iterator[str]:
    """The section of one file: lines that are unknown, or have no code, have no line in it."""
    yield f"TN:\nSF:{file}\n"
    for name, (number, count) in sorted(functions.items()):
        yield f"FN:{number},{name}\nFNDA:{count},{name}\n"
    yield f"FNF:{len(functions)}\nFNH:{sum(1 for _, count in functions.values() if count)}\n"
    yield from branch_lines(lines)
    for number, line in lines.items():
        yield f"DA:{number},{line.count}\n"
    yield f"LF:{len(lines)}\nLH:{sum(1 for line in lines.values() if line.count)}\nend_of_record\n"


def text(coverage: Coverage) -> str:
    """The whole text: a function's count is the sum over its instances, inlined ones, too."""
    functions = coverage.file_functions()
    return "".join(text for file, lines in coverage.known_lines().items()
                   for text in section(file, lines, functions[file]))
