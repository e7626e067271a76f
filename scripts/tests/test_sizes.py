"""How long modules and functions of the scripts are: what is longer is two."""
import ast
import glob
import os
from collections.abc import Iterator

from tests.calls import SCRIPTS, TOP

MODULE_LINES, FUNCTION_LINES = 250, 40


def modules() -> Iterator[tuple[str, str]]:
    """The names and texts of all modules of the scripts, and of what follows the gate."""
    for path in (*glob.glob(f"{SCRIPTS}/**/*.py", recursive=True), *glob.glob(f"{TOP}/tests/*.py")):
        with open(path, encoding="utf-8") as file:
            yield os.path.relpath(path, TOP), file.read()


def test_no_module_has_more_than_250_lines() -> None:
    lines = {name: text.count("\n") for name, text in modules()}
    assert len(lines) > 100 and not {name: count for name, count in lines.items() if count > MODULE_LINES}


def test_no_function_has_more_than_40_lines() -> None:
    functions = [
        (name, it.name, (it.end_lineno or it.lineno) - it.lineno + 1)
        for name, text in modules()
        for it in ast.walk(ast.parse(text))
        if isinstance(it, ast.FunctionDef | ast.AsyncFunctionDef)
    ]
    assert len(functions) > 1000 and not [it for it in functions if it[-1] > FUNCTION_LINES]
