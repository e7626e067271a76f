"""Stand-ins of small programs, and their records, for the tests of them."""
import json
import time
from collections.abc import Callable

from tests.command import call
from tests.programs import Programs

RECORDS, SOON = "suite.vak/records", 600  # seconds, so that a test ends where what it waits for never comes


def suite_with_stand_in(programs: Programs) -> None:
    """The program `suite` in the working folder, and a stand-in that counts its blocks."""
    programs.bring("suite", "suite.c", "-O0")
    call("wrap", "count", "suite", "--blocks", "--own", "-o", "stand-in")


def comes(what: Callable[[], bool]) -> bool:
    """Whether something becomes so at last, however busy the machine is."""
    return any(what() or time.sleep(0.1) for _ in range(10 * SOON))


def lines_of(*words: str) -> dict[int, int]:
    """The counts of the lines of suite.c, by a report."""
    call("report", "suite", *words, "--json", "suite.json")
    with open("suite.json", encoding="utf-8") as file:
        return {it["line_number"]: it["count"] for files in json.load(file)["files"] for it in files["lines"]}
