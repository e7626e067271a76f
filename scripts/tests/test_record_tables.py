"""What is shown of a record in lines: of each run, of each block, of the events of each process."""
import pytest

from tests.made_coverage import BASE, FILE, LESS, OTHER, coverage_of, history, line, record_of
from vaknuhol.recording.record_file import History, Row
from vaknuhol.views import record_table
from vaknuhol.views.coverage import Place


def runs(capsys, *records) -> list[str]:
    record_table.print_runs(list(records))
    return capsys.readouterr().out.splitlines()


def test_each_run_has_a_line_with_its_blocks_and_the_sum_of_their_counts(capsys):
    first = record_of(blocks=[(1, 2, 7, None), (2, 3, 0, None), (3, 4, None, "NoPlan"), (4, 5, 9, None)])
    second = record_of(blocks=[(1, 2, 0, None)], processes=2, state="running")
    third = record_of("cover", [(1, 2, 1, None), (2, 3, 1, None)])
    first.path, second.path, third.path = "runs/a.record", "b.record", "runs/c.record"
    assert runs(capsys, first, second, third) == [
        "a.record  2 of 3 blocks executed, 16 times",
        "b.record  0 of 1 blocks executed, 0 times; 2 processes; so far",
        "c.record  2 of 2 blocks executed",
    ]


def test_a_run_of_a_ring_has_a_line_with_its_events_and_endings(capsys):
    record = record_of("ring:3", [(1, 2, None, None)], histories=[history(1, "exit 0", 0), history(2, "signal 6", 1)])
    assert runs(capsys, record) == ["a.record  1 executions kept; processes ended: exit 0, signal 6"]


def test_the_table_has_a_row_for_each_block(capsys):
    coverage = coverage_of()
    coverage.record.rows[1].how = "solved"
    record_table.print_table(coverage)
    assert capsys.readouterr().out.splitlines() == [
        "   first      count     site  function, file and line",
        f'00401000          7 00401000  {LESS} x<y>&"z.c:3',
        f'00401008          0     left  {LESS} x<y>&"z.c:4 (solved)',
        f'00401010          ?     left  {OTHER} x<y>&"z.c:6 (NoPlan)',
        f'00401014          9 00401014  {OTHER} x<y>&"z.c:7',
    ]


def test_the_table_of_a_condition_names_it(capsys):
    record_table.print_table(coverage_of(record_of("count when rdi == 2", [])))
    assert capsys.readouterr().out == "   first      count     site  function, file and line; executions where rdi == 2\n"


@pytest.mark.parametrize("is_all, shown", [(False, [2]), (True, [1, 2, 3])])
def test_the_tables_of_processes_that_crashed_are_shown_alone_but_for_all(capsys, is_all, shown):
    histories = [history(1, "exit 0", 1), history(2, "signal 11", 2), history(3, "exit 0", 0)]
    coverage = coverage_of(record_of("ring:3", [], histories=histories), place_of_site=lambda row: Place("f", None))
    record_table.print_histories(coverage, is_all)
    told = capsys.readouterr().out.splitlines()
    assert [int(it.split(",")[0].split()[1]) for it in told if it.startswith("process ")] == shown
    assert ("processes that no signal ended: 2 (--all shows them, too)" in told) is not is_all
    assert "       2 00401001 00401001  f" in told and "process 2, which ended by SIGSEGV: its last 2 executions of sites, oldest first" in told


def test_a_file_has_a_line_with_what_was_hit_missed_unknown_and_without_code(capsys):
    record_table.print_lines(coverage_of())
    record_table.print_lines(coverage_of(files={"b.c": {1: line(0)}}))
    assert capsys.readouterr().out.splitlines() == [
        f"{FILE}: 3 lines hit, 1 missed, 1 unknown (8), 1 without code (9)",
        "b.c: 0 lines hit, 1 missed",
    ]


@pytest.mark.parametrize("state, processes, told", [
    ("ended", 1, []),
    ("running", 1, ["this is the record so far: run_and_record.py was ended before the program"]),
    ("ended", 3, ["it is of 3 processes"]),
])
def test_it_is_told_where_a_record_is_one_so_far_or_of_several_processes(capsys, state, processes, told):
    record_table.print_state(record_of(state=state, processes=processes))
    assert capsys.readouterr().out.splitlines() == told


def test_a_history_has_a_head_and_its_rows_are_numbered(capsys):
    history = History(2, "signal 11")
    history.rows = [Row(BASE, BASE + 8, BASE + 4, None), None]
    record_table.print_history(history, coverage_of(place_of_site=lambda row: Place(LESS, (FILE, 3))))
    head, names, *rows = capsys.readouterr().out.splitlines()
    assert head == "process 2, which ended by SIGSEGV: its last 2 executions of sites, oldest first"
    assert names.split() == ["first", "site", "function,", "file", "and", "line"]
    assert [row[:26] for row in rows] == ["       1 00401000 00401004", "       2        ?        ?"]
    assert rows[1].endswith("  something else wrote there")
