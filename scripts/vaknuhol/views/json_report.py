"""Blocks, lines and functions as JSON. The part `files` is that of gcovr's own JSON (version 0.3 of that form, gcovr 5
and 6.0), so `gcovr -a` reads the file, and makes of it what it makes of gcov's."""
import json
from typing import Any, Callable, Iterator

from vaknuhol.views.coverage import Coverage
from vaknuhol.views.instances import Function
from vaknuhol.views.line_counts import Line


def blocks_of(coverage: Coverage, names: Callable[[str], str]) -> Iterator[dict[str, Any]]:
    for row, place in coverage.places():
        yield {"first": f"{row.first:08x}", "end": f"{row.end:08x}", "site": f"{row.site:08x}", "count": row.count,
               "left": row.outcome,
               "solved": row.how, "function": names(place.function), "inlined in": names(place.around) or None,
               "file": place.file or None, "line": place.line or None}


def line_of(number: int, line: Line) -> dict[str, Any]:
    """A line whose count is known, or that has no code."""
    branches = [{"count": count, "fallthrough": bool(way), "throw": False} for branch in line.branches for way,
                count in enumerate(branch)]
    return {"line_number": number, "count": line.count if line.has_code else 0, "branches": branches,
            "gcovr/noncode": not line.has_code,
            "gcovr/excluded": False}


def files_of(coverage: Coverage, names: Callable[[str], str]) -> Iterator[dict[str, Any]]:
    functions: dict[str, list[Function]] = {file: [] for file in coverage.files}
    for function in coverage.all_functions:
        if function.count is not None and function.file in functions:
            functions[function.file].append(function)
    for file, lines in coverage.files.items():
        yield {"file": file,
               "lines": [line_of(number, line) for number, line in lines.items() if line.is_known()
                         or not line.has_code],
               "functions": [{"name": names(function.name), "symbol": function.name, "lineno": function.line,
                              "execution_count": function.count, "inlined": function.places,
                              "inlined_count": function.inlined or 0}
                              for function in sorted(functions[file], key=lambda entry: entry.name)]}


def text(coverage: Coverage) -> str:
    record = coverage.record
    names = coverage.names()
    whole = {"vaknuhol": 1, "program": coverage.path, "action": record.action.name, "state": record.state,
             "processes": record.processes, "threads": record.threads, "execs": record.execs,
             "contradicting blocks": [f"{record.rows[number].first:08x}"
                                      for number in sorted(coverage.flow.contradicted)],
             "gcovr/format_version": "0.3", "files": list(files_of(coverage, names)),
             "blocks": list(blocks_of(coverage, names))}
    return json.dumps(whole, indent=1) + "\n"
