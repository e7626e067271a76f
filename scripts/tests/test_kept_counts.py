"""What follows from a record's counts is kept, and worked out again where anything of it is another."""
import json
import os

import pytest

from tests.programs import compile_text
from vaknuhol.program.listing import Listing
from vaknuhol.program.program_file import Program
from vaknuhol.recording.record_file import Record
from vaknuhol.views import coverage
from vaknuhol.views.coverage import Coverage

# A loop: what is executed before it, in it and behind it.
TEXT = """.globl _start
_start: mov $7, %ecx
1:      dec %ecx
        jz  2f
        jmp 1b
2:      mov $60, %eax
        xor %edi, %edi
        syscall
"""
FOLDER, KEPT, WAYS = "program.vak", "program.vak/solved.json", "program.vak/ways.json"


@pytest.fixture
def program(place) -> str:
    compile_text("program", "program.s", TEXT, "-nostdlib", "-Wl,--build-id=none")
    os.mkdir(FOLDER)
    return "program"


def record_of(counts: list[int | None], action: str = "count") -> Record:
    """A record of the four blocks; None is of a block that was left."""
    told, first = Program("program"), Listing("program").addr[0]
    lines = [f"{first + low:08x} {first + end:08x} {first + low:08x} {'NoPlan' if count is None else count}\n"
             for (low, end), count in zip([(0, 5), (5, 9), (9, 11), (11, 20)], counts)]  # fmt: skip
    head = f"vakrecord 1\naction {action}\nprogram {told.code_hash}\nreport {'b' * 64}\nstate ended\n"
    with open("record", "w", encoding="ascii") as file:
        file.write(head + "processes 1 threads 0 execs 0\n" + "".join(lines) + "end\n")
    return Record("record")


def counts_of(record: Record) -> list[tuple[int | None, str | None]]:
    rows = Coverage("program", record).record.rows
    return [(row.count, row.how) for row in rows]


SOLVED = [(1, None), (7, None), (6, "solved"), (1, None)]


def test_what_follows_is_worked_out_once(program, monkeypatch):
    assert counts_of(record_of([1, 7, None, 1])) == SOLVED and os.path.isfile(KEPT)
    monkeypatch.setattr(coverage, "graph_of", lambda *_: pytest.fail("it is worked out again"))
    assert counts_of(record_of([1, 7, None, 1])) == SOLVED


def test_lines_are_looked_up_where_they_are_asked_for_and_stages_are_told(program, monkeypatch):
    stages: list[str] = []
    monkeypatch.setattr(coverage, "progress", stages.append)
    made = Coverage("program", record_of([1, 7, None, 1]))
    assert stages == ["reading program", "reading source lines of program", "working out counts of program", ""]
    assert not {"copies", "instances", "files"} & vars(made).keys()
    assert made.files == {} and stages[4:] == ["looking up source lines of program", "", "counting source lines of program", ""]


def test_blocks_that_contradict_each_other_are_kept(program):
    made = Coverage("program", record_of([1, 7, None, 3]))
    again = Coverage("program", record_of([1, 7, None, 3]))
    assert made.flow.contradicted and again.flow.contradicted == made.flow.contradicted
    assert [row.count for row in again.record.rows] == [row.count for row in made.record.rows]


@pytest.mark.parametrize("counts, wanted", [([1, 8, None, 1], 7), ([1, None, 6, 1], 6)])
def test_of_another_record_it_is_worked_out(program, counts, wanted):
    counts_of(record_of([1, 7, None, 1]))
    assert counts_of(record_of(counts))[2][0] == wanted


def test_of_another_action_or_scripts_it_is_worked_out(program, monkeypatch):
    counts_of(record_of([1, 1, None, 1]))
    before = counts_of(record_of([1, 1, None, 1], "cover"))
    os.remove(KEPT)
    assert before == counts_of(record_of([1, 1, None, 1], "cover"))
    with open(KEPT, encoding="utf-8") as file:
        key = json.load(file)["of"]
    monkeypatch.setattr("vaknuhol.views.kept_counts.scripts_hash", lambda: "other")
    counts_of(record_of([1, 1, None, 1], "cover"))
    with open(KEPT, encoding="utf-8") as file:
        assert json.load(file)["of"] != key


DAMAGED = ["", "[]", "3", '{"of": 1}', '{"counts": [[4, 6, "solved"]]}', '{"counts": [[-1, 6, "solved"]]}', '{"counts": [[0, 6, "solved"]]}',
           '{"counts": [[2, -6, "solved"]]}', '{"counts": [[2, 6, "told"]]}', '{"counts": [[2, "6", "solved"]]}', '{"counts": [[2, 6]]}',
           '{"counts": 2}', '{"contradicted": [9]}', '{"contradicted": [[]]}', '{"contradicted": null}']  # fmt: skip


@pytest.mark.parametrize("text", DAMAGED)
def test_a_kept_text_that_fits_no_record_is_as_if_it_were_not_there(program, text):
    counts_of(record_of([1, 7, None, 1]))
    with open(KEPT, encoding="utf-8") as file:
        kept = json.load(file)
    given = json.loads(text) if text else None
    whole = {**kept, **given} if isinstance(given, dict) else given
    with open(KEPT, "w", encoding="utf-8") as file:
        file.write(json.dumps(whole) if text else "")
    assert counts_of(record_of([1, 7, None, 1])) == SOLVED


def ways_of(record: Record) -> tuple[list[int | None], list[list[int]]]:
    """The counts of the ways between the blocks, and the marks of each block."""
    flow = Coverage("program", record).ways
    graph = flow.graph
    return flow.edges, [list(it) for it in (graph.source, graph.target, graph.kind, graph.calls, graph.partial, flow.open_in, flow.open_out)]


@pytest.mark.parametrize("counts", [[1, 7, None, 1], [1, 7, 6, 1], [1, 7, None, 3]])
def test_the_ways_between_blocks_are_worked_out_once(program, monkeypatch, counts):
    made = ways_of(record_of(counts))
    assert 6 in made[0] or counts[3] == 3
    monkeypatch.setattr(coverage, "graph_of", lambda *_: pytest.fail("they are worked out again"))
    assert ways_of(record_of(counts)) == made


def test_of_a_program_with_lines_all_is_worked_out_once(place, monkeypatch):
    compile_text("program", "program.s", TEXT, "-g", "-nostdlib", "-Wl,--build-id=none")
    os.mkdir(FOLDER)
    made = Coverage("program", record_of([1, 7, None, 1]))
    lines = {number: line.count for lines in made.files.values() for number, line in lines.items()}
    assert lines[3] == 7 and lines[5] == 6
    monkeypatch.setattr(coverage, "graph_of", lambda *_: pytest.fail("it is worked out again"))
    again = Coverage("program", record_of([1, 7, None, 1]))
    assert {number: line.count for lines in again.files.values() for number, line in lines.items()} == lines
    assert counts_of(record_of([1, 7, None, 1])) == SOLVED


DAMAGED_WAYS = ["", "[]", "3", '{"of": 1}', '{"edges": [1]}', '{"edges": null}', '{"source": [0]}', '{"kind": "jump"}', '{"calls": [0, 0, 0, 2]}',
                '{"partial": [0]}', '{"open_in": null}']  # fmt: skip
EACH = {"edges": (-1, "6", 1.5, True), "source": (-1, 4, None), "target": (-2, 4, "0"), "kind": (-1, 5), "open_out": (2, None)}


def test_kept_ways_that_fit_no_record_are_as_if_they_were_not_there(program):
    made = ways_of(record_of([1, 7, None, 1]))
    with open(WAYS, encoding="utf-8") as file:
        kept = json.load(file)
    texts = [{**kept, **given} if isinstance(given := json.loads(text or "null"), dict) else given for text in DAMAGED_WAYS]
    texts += [{**kept, name: [value, *kept[name][1:]]} for name, values in EACH.items() for value in values]
    for text in texts:
        with open(WAYS, "w", encoding="utf-8") as file:
            file.write("" if text is None else json.dumps(text))
        assert ways_of(record_of([1, 7, None, 1])) == made, text


def test_nothing_is_kept_where_there_is_no_folder(program):
    os.rmdir(FOLDER)
    assert counts_of(record_of([1, 7, None, 1])) == SOLVED and not os.path.exists(FOLDER)
