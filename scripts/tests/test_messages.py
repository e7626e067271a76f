"""What a command says of its work while it goes on."""
import re

from vaknuhol import messages


def test_a_line_of_progress_is_whole_where_its_text_ends_a_line(capsys, monkeypatch):
    """As that of a recorded run does, since on a terminal what the program prints follows."""
    monkeypatch.setattr(messages, "SELDOM", 0.001)
    progress, seen = messages.Progress(), ""
    progress("recording\n")
    while not seen:
        seen = capsys.readouterr().err
    progress("")
    assert re.fullmatch(r"[^ ]+: recording, [0-9]+ s", seen.splitlines()[0]), seen
