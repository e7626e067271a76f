"""What is shown of a record in words: the summary."""
import pytest

from tests.doubles import double
from tests.made_coverage import BASE, FILE, LESS, coverage_of, history, line, listing_of, record_of, rows_of
from vaknuhol.program.listing_file import FALLS
from vaknuhol.recording.actions import action_of
from vaknuhol.recording.record_file import History
from vaknuhol.views import summary
from vaknuhol.views.coverage import Place


def lines_of(coverage) -> list[str]:
    return list(summary.summary(coverage))


def test_the_summary_counts_blocks_lines_and_the_hottest_places():
    assert lines_of(coverage_of()) == [
        "prog, count",
        "2 of 3 blocks were executed (66.7 %), 1 was left (NoPlan 1): of these nothing is known",
        "   lines executed          file",
        f"       4        3   75.0 % {FILE}, 1 more are unknown, since their blocks were left, 1 more have no code",
        "       count  the 2 hottest",
        '           9  other  x<y>&"z.c:7',
        f'           7  {LESS}  x<y>&"z.c:3',
        "instructions    share  the 2 functions with the most, of 23 instructions in all",
        f"          14   60.9 %  {LESS}",
        "           9   39.1 %  other",
    ]


def hottest(counts: list[int], names=lambda it: f"f{it}", files=None, action: str = "count") -> list[str]:
    """The lines of the hottest places of blocks with these counts, each in a function of a name."""
    rows = rows_of([(BASE + it, BASE + it + 1, count, None) for it, count in enumerate(counts)])
    places = [(row, Place(names(number), None)) for number, row in enumerate(rows)]
    coverage = coverage_of(double(action=action_of(action)), files=files or {})
    return list(summary.of_hottest(coverage, places, str))


def test_the_ten_hottest_come_first_by_their_counts():
    """As whole numbers, and not as texts; each once."""
    counts = [5, 100, 99, 1000, 7, 8, 20, 3, 2, 11, 12, 10]
    told = hottest(counts)
    assert told[0] == f"{'count':>12}  the 10 hottest"
    assert [(int(it.split()[0]), it.split()[1]) for it in told[1:]] == [
        (count, f"f{counts.index(count)}") for count in (1000, 100, 99, 20, 12, 11, 10, 8, 7, 5)
    ]


def test_a_place_of_several_blocks_has_the_greatest_count_of_them():
    """Wherever that stands among them."""
    for counts in ([3, 9, 4], [9, 3, 4], [3, 4, 9]):
        assert hottest(counts, lambda _: "f") == [f"{'count':>12}  the hottest", f"{9:>12}  f"]


def test_of_coverage_nothing_is_the_hottest_nor_where_nothing_was_executed():
    assert hottest([1, 1], action="cover") == hottest([]) == []


def test_where_lines_are_known_places_without_one_are_not_among_the_hottest():
    assert hottest([9], files={FILE: {}}) == []


def instructions(blocks, action: str = "count", listing=None) -> list[str]:
    coverage = coverage_of(record_of(action, blocks), listing=listing or listing_of())
    return list(summary.of_instructions(coverage))


def test_instructions_are_those_of_each_execution_of_a_block():
    """The functions with the most come first, and what was not executed is not among them."""
    blocks = [(BASE, BASE + 4, 7, None), (BASE + 4, BASE + 0x10, 1000, None), (BASE + 0x10, BASE + 0x18, 0, None)]
    assert instructions(blocks) == [
        "instructions    share  the function with the most, of 3007 instructions in all",
        f"        3007  100.0 %  {LESS}",
    ]


def test_twelve_functions_have_ten_lines():
    names = [(BASE + 4 * it, f"f{it}") for it in range(12)]
    listing = listing_of([(addr, 4, FALLS, 0) for addr, _ in names], names)
    told = instructions([(addr, addr + 4, 5 + it, None) for it, (addr, _) in enumerate(names)], listing=listing)
    assert told[0] == "instructions    share  the 10 functions with the most, of 126 instructions in all"
    assert [it.split()[-1] for it in told[1:]] == [f"f{it}" for it in range(11, 1, -1)]


@pytest.mark.parametrize(
    "action, blocks",
    [
        ("cover", [(BASE, BASE + 0x18, 1, None)]),
        ("count when rdi == 2", [(BASE, BASE + 0x18, 1, None)]),
        ("count", [(BASE, BASE + 0x18, 0, None)]),
        ("count", [(BASE, BASE + 4, 1, None), (BASE + 0x10, BASE + 0x14, 1, None)]),
    ],
)
def test_no_instructions_are_told_where_counts_are_not_those_of_functions(action, blocks):
    """Of coverage, of a condition, where nothing ran, and of the first blocks of functions alone."""
    assert instructions(blocks, action) == []


@pytest.mark.parametrize(
    "part, whole, text", [(0, 0, "-"), (0, 7, "0.0 %"), (7, 7, "100.0 %"), (1, 3, "33.3 %"), (2, 3, "66.7 %")]
)
def test_a_share_has_one_digit_behind_its_point(part, whole, text):
    assert summary.percent(part, whole) == text


@pytest.mark.parametrize(
    "hows, unknown, text",
    [
        ([], 2, "2 were left: of these nothing is known"),
        (["solved"], 0, "1 was left: 1 count follows from the others, none is unknown"),
        (["solved"], 1, "2 were left: 1 count follows from the others, 1 is unknown"),
        (["solved", "assumed"], 2, "4 were left: 2 counts follow from the others (1 if calls return), 2 are unknown"),
    ],
)
def test_left_blocks_are_told_by_how_their_counts_are_known(hows, unknown, text):
    left = len(hows) + unknown
    rows = [double(how=how) for how in hows] + [double(how=None)] * 3
    record = double(rows=rows, left=left, left_text=lambda: f"{left} {'was' if left == 1 else 'were'} left")
    assert summary.left_summary(record) == text


@pytest.mark.parametrize(
    "counts, text",
    [
        ([], "0 of 0 blocks were executed (-), none was left"),
        ([0], "0 of 1 block were executed (0.0 %), none was left"),
        ([3], "1 of 1 block was executed (100.0 %), none was left"),
        ([3, 1, 0], "2 of 3 blocks were executed (66.7 %), none was left"),
    ],
)
def test_executed_blocks_are_counted(counts, text):
    rows = [double(count=count) for count in counts]
    assert list(summary.of_blocks(double(rows=rows, left=0))) == [text]


def test_without_lines_functions_are_counted_that_have_a_name_or_are_called():
    assert list(summary.of_functions(coverage_of(files={}))) == ["1 of 1 function was entered (100.0 %)"]
    record = record_of(blocks=[(BASE, BASE + 4, 0, None), (BASE + 0x10, BASE + 0x14, 2, None)])
    assert list(summary.of_functions(coverage_of(record, files={}))) == ["1 of 2 functions was entered (50.0 %)"]
    assert not list(summary.of_functions(coverage_of()))


def of_ring(*histories: History, left: int = 0) -> list[str]:
    record = record_of("ring:20", histories=list(histories))
    record.left = left
    coverage = coverage_of(record, place_of_site=lambda row: Place(f"f{row.first - BASE}", None))
    return list(summary.of_ring(coverage, str))


@pytest.mark.parametrize(
    "events, told, first",
    [(0, "no event", 0), (1, "its only event", 0), (2, "all 2 events", 0), (10, "all 10 events", 0),
     (11, "the last 10 of 11 events", 1)],
)  # fmt: skip
def test_the_last_ten_events_of_a_ring_are_shown_the_last_one_last(events, told, first):
    assert of_ring(history(1, "exit 0", events)) == [
        f"process 1, which ended with status 0: {told}",
        *(f"    f{at}" for at in range(first, events)),
    ]


def test_processes_that_crashed_are_shown_alone_where_there_are_such():
    told = of_ring(history(1, "exit 0", 1), history(2, "signal 11", 1), history(3, "running", 1))
    assert told == ["process 2, which ended by SIGSEGV: its only event", "    f0"]
    both = of_ring(history(1, "exec", 1), history(3, "running", 0), left=1)
    assert both == [
        "process 1, which started another program: its only event",
        "    f0",
        "process 3, which was running: no event",
        "of the blocks 1 was left (NoPlan 1): their executions are not among these",
    ]


def test_what_something_else_wrote_in_a_ring_is_no_event():
    made = history(1, "exit 0", 1)
    made.rows.append(None)
    assert of_ring(made)[-2:] == ["    f0", "    something else wrote there"]


@pytest.mark.parametrize("in_part, cause", [
    (True, "the records that were added up don't count the same blocks"),
    (False, "a signal or another thread's exit ended one in its middle"),
])
def test_it_is_told_where_counts_contradict_each_other_and_why(in_part, cause):
    told = [list(summary.of_flow(coverage_of(record_of(in_part=in_part), flow=double(contradicted=blocks))))
            for blocks in (set(), {2}, {1, 2})]
    assert told == [[], *([f"the counts of {text} contradict those around, as where {cause}: nothing is solved by them"]
                          for text in ("1 block", "2 blocks"))]


def test_a_line_for_each_file_tells_lines_that_are_unknown_or_have_no_code():
    lines = {3: line(7), 4: line(0), 6: line(None), 8: line(None), 9: line(None, has_code=False)}
    files = {FILE: lines, "/made/b.c": {1: line(2)}}
    assert list(summary.of_files(coverage_of(files=files))) == [
        "   lines executed          file",
        f"       2        1   50.0 % {FILE}, 2 more are unknown, since their blocks were left, 1 more have no code",
        "       1        1  100.0 % /made/b.c",
    ]
    assert list(summary.of_files(coverage_of(files={}))) == []
