"""Whether a program starts threads is found out once for each program."""
import pytest

from tests.test_stale_files import write
from vaknuhol.recording import thread_use


@pytest.fixture
def asked(monkeypatch, place) -> list[str]:
    """The programs that were looked at for threads."""
    calls: list[str] = []

    def threads_of(path, listing):
        calls.append(path)
        return f"reason {len(calls)}"

    write("prog", "a program")
    monkeypatch.setattr(thread_use, "read_original", lambda path, folder: (path, None))
    monkeypatch.setattr(thread_use, "threads_of", threads_of)
    return calls


def test_whether_a_program_starts_threads_is_found_out_once(asked):
    assert thread_use.started_by("prog", ".") == thread_use.started_by("prog", ".") == "reason 1"
    write("prog", "another program")
    assert thread_use.started_by("prog", ".") == thread_use.started_by("prog", ".") == "reason 2"


@pytest.mark.parametrize("text", ["", "{", "[]", "{}", '{"program": 1}', "null"])
def test_what_says_nothing_of_threads_is_not_believed(asked, text):
    thread_use.started_by("prog", ".")
    write(thread_use.KEPT, text)
    assert thread_use.started_by("prog", ".") == "reason 2"
