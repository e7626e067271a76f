"""Programs that replace memory of their patch, and come to no trampoline then: their runs end as the original's, and it
is told that events may be missing."""
import pytest

from tests.calls import match
from tests.command import LAST, call
from tests.programs import Programs
from vaknuhol.recording.record_file import Record

pytestmark = pytest.mark.xdist_group("losses")
CHOICE, STATUS = ("--symbols", "early", "--quiet"), 6
WAYS = {
    "count": ("count", "--no-threads"),
    "count of threads": ("count", "--threads"),
    "cover": ("cover", "--no-threads"),
    "ring": ("ring", "8", "--no-threads"),
    "ring of threads": ("ring", "8", "--threads"),
}
NOW = {"memory": "other memory", "code": "other code", "none": "nothing"}
REPLACED = (r"^vaknuhol: warning: process [0-9]+ has replaced the (?P<what>memory|code) of its patch at "
            r"(?P<low>[0-9a-f]{8})-(?P<high>[0-9a-f]{8}) \(now (?P<now>[a-z ]+)\), so events may be missing: .*$")
THREADS = "--threads is meant for such a program"


@pytest.fixture
def replaces(programs: Programs) -> None:
    """The program `replaces` in the working folder."""
    programs.bring("replaces", "replaces.c")


def told(way: str, *words: str) -> tuple[str, Record]:
    """What a run says that ends as the original's does, but for the warning on threads, and its record."""
    printed, said = call(*WAYS[way], "replaces", *CHOICE, "--", *words, status=STATUS)
    assert not printed
    lines = [line for line in said.splitlines() if THREADS not in line]
    return "\n".join(lines), Record(LAST.replace("tour", "replaces"))


@pytest.mark.parametrize("way", WAYS)
def test_a_run_that_replaces_nothing_says_nothing(replaces, way) -> None:
    for who in ("self", "child", "thread"):
        said, record = told(way, who, "nothing", "none")
        assert not said and not record.lost and "missing" not in record.run_text(), said


@pytest.mark.parametrize("way", WAYS)
@pytest.mark.parametrize("what, how", [(what, how) for what in ("memory", "code") for how in NOW])
def test_memory_of_the_patch_that_is_replaced_is_told(replaces, way, what, how) -> None:
    """Once, with what is there by then, and in the record."""
    for who in ("self", "child", "thread"):
        said, record = told(way, who, what, how)
        found = match(REPLACED, said)
        assert (found["what"], found["now"]) == (what, NOW[how]) and found["low"] < found["high"], said
        shown = call("report", "replaces", record.path)[0]
        assert record.lost == 1 and "of which 1 replaced memory of the patch (events may be missing)" in shown, shown


def test_code_that_a_stub_maps_is_looked_for_too(replaces) -> None:
    """In a file of the loader form: of more functions the table has too many entries, and these are never executed."""
    words = ("count", "replaces", "--threads", "--symbols", "early|.*gconv.*|_nl_.*|.*printf_fp.*", "--entries", "14")
    assert "in the loader form" in call(*words, "--patch-only")[1]
    for what, how, count in (("code", "none", 1), ("code", "code", 1), ("memory", "memory", 1), ("nothing", "none", 0)):
        told = call(*words, "--quiet", "--", "self", what, how, status=STATUS)[1]
        assert told.count(f"has replaced the {what} of its patch") == told.count("\n") == count, told
