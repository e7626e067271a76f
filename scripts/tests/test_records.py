"""Records: what is written is read, and records are added up."""
import array
import hashlib
import os

import pytest

from tests.doubles import double
from vaknuhol.arguments import Refusal
from vaknuhol.recording.actions import action_of
from vaknuhol.recording.record_file import Record, Row, counted, remembered, write_record
from vaknuhol.recording.record_folder import expanded, in_one, record_at
from vaknuhol.recording.record_sum import Sum
from vaknuhol.recording.run_file import left_line

SEEN = {"processes": 1, "threads": 0, "execs": 0}
HASH, OTHER = "a" * 64, "b" * 64
BLOCKS = [(0x401000, 0x401008, 0x401004), (0x401008, 0x40100C, 0x401008), (0x40100C, 0x401014, 0x40100C)]


def report_of(action, patched, left):
    return double(action=action_of(action), hash=HASH, for_threads=False, base=None, patched=patched, left=left)


RUN = double(blocks=BLOCKS, action=action_of("ring:3"))
COUNTS = report_of("count", {0x401004: 1, 0x401008: 0}, {0x40100C: "Shared"})


def written(name, rows, action="count", state="ended", seen=SEEN, program=OTHER):
    """The record that is read of what was written."""
    write_record(name, report_of(action, {}, {}), program, rows, state, seen)
    return Record(name)


def record_of(name, counts, **how):
    """A record of blocks with these counts; None is of a block that was left."""
    rows = [
        Row(first, end, site, count, "NoPlan" if count is None else None).line()
        for (first, end, site), count in zip(BLOCKS, counts)
    ]
    return written(name, rows, **how)


def test_each_block_has_the_count_of_its_site():
    """By the site's number, and in its place the outcome where the site was left."""
    record = written("record", list(counted(COUNTS, RUN, array.array("Q", [7, 9]))))
    assert [(row.first, row.end, row.site, row.count, row.outcome) for row in record.rows] == [
        (*BLOCKS[0], 9, None),
        (*BLOCKS[1], 7, None),
        (*BLOCKS[2], None, "Shared"),
    ]
    assert record.left == 1 and record.left_text() == "1 was left (Shared 1)"
    assert record.program_hash == OTHER and record.report_hash == HASH and record.is_plain() and record.state == "ended"


@pytest.mark.parametrize("action", ["count", "ring:3"])
def test_reasons_add_up_to_the_blocks_that_were_left(action):
    """Also where a block has no site, since none of its instructions could be one."""
    report = report_of(action, {0x401004: 0}, {0x40100C: "Shared"})
    rows = remembered(report, RUN, []) if report.action.is_ring else counted(report, RUN, array.array("Q", [7]))
    record = written("record", list(rows), action=action)
    assert record.left_text() == "2 were left (Shared 1, 1 without a site)"
    assert left_line(report, RUN) == "2 Shared 1, 1 without a site"


def test_the_events_of_each_process_are_in_their_order():
    ring = report_of("ring:3", {0x401004: 0, 0x401008: 1}, {0x40100C: "NoPlan"})
    spaces = [
        double(number=2, ended="signal 11", after=[1, 2, 1, 2]),
        double(number=1, ended="exit 3", after=[0, 0, 9, 1]),
    ]
    record = written(
        "record", list(remembered(ring, RUN, spaces)), action="ring:3", seen={"processes": 2, "threads": 0, "execs": 0}
    )
    child, first = record.histories
    assert (child.number, child.ended, child.is_crash(), child.text()) == (
        2,
        "signal 11",
        True,
        "which ended by SIGSEGV",
    )
    assert [row.site for row in child.rows] == [0x401004, 0x401008, 0x401008]
    assert (first.number, first.is_crash(), first.text()) == (1, False, "which ended with status 3")
    assert [row and row.site for row in first.rows] == [
        None,
        0x401004,
    ], "a number of no site is an event of which nothing is known"
    assert (record.left, record.why_left) == (1, "NoPlan 1")


@pytest.mark.parametrize(
    "change",
    [
        ("count", "cont"),
        ("\nend\n", "\n"),
        ("401004", "40x004"),
        ("vakrecord 1", "vakrecord 2"),
        ("state ended", "state over"),
    ],
)
def test_what_is_no_record_is_refused(change):
    record_of("record", [1, 2, 3])
    with open("record", encoding="ascii") as file:
        text = file.read()
    with open("record", "w", encoding="ascii") as file:
        file.write(text.replace(*change))
    assert text.replace(*change) != text
    with pytest.raises(Refusal):
        Record("record")


def counts_of(summed):
    return [row.count for _, row in sorted(summed.rows.items())]


def test_each_record_is_added_once():
    some, more = record_of("some", [1, 0, 2**64 - 1]), record_of("more", [10, 5, 2])
    summed = Sum([some, more]).as_record("sum")
    assert [row.count for row in summed.rows] == [11, 5, 1] and summed.processes == 2 and summed.path == "sum"


@pytest.mark.parametrize("count", [2**31, 2**32 - 1, 2**32, 2**63, 2**64 - 2])
def test_a_sum_has_as_many_bits_as_a_counter(count):
    """Sixty-four, in either order, and over several records."""
    one, other, third = record_of("one", [count, 0, 0]), record_of("other", [1, 0, 0]), record_of("third", [0, 0, 0])
    assert counts_of(Sum([one, other, third]))[0] == count + 1
    assert counts_of(Sum([record_of("other", [1, 0, 0]), third, record_of("one", [count, 0, 0])]))[0] == count + 1


def ring_of(name, *histories, **seen):
    lines = ["left 0", *(line for ended, events in histories for line in (ended, *events))]
    return written(name, lines, action="ring:3", seen={"processes": len(histories), "threads": 0, "execs": 0, **seen})


EVENTS = [f"{first:08x} {end:08x} {site:08x}" for first, end, site in BLOCKS]


def test_histories_of_merged_rings_are_numbered_on():
    """By the processes of the records before, not by their histories; each keeps its own events and its end."""
    first = ring_of("first", ("process 2 signal 11", EVENTS[:1]), ("process 1 exit 0", []), processes=4, threads=1)
    second = ring_of("second", ("process 1 exit 3", EVENTS[1:]), processes=1, execs=2)
    third = ring_of("third", ("process 2 running", ["-"]), ("process 1 exec", EVENTS[:1]), processes=2)
    whole = in_one(["first", "second", "third"], "all")
    assert [(it.number, it.ended) for it in whole.histories] == [
        (2, "signal 11"), (1, "exit 0"), (5, "exit 3"), (7, "running"), (6, "exec")
    ]  # fmt: skip
    assert [[row and row.first for row in it.rows] for it in whole.histories] == [
        [BLOCKS[0][0]], [], [BLOCKS[1][0], BLOCKS[2][0]], [None], [BLOCKS[0][0]]
    ]  # fmt: skip
    assert (whole.processes, whole.threads, whole.execs) == (7, 1, 2) and len(whole.rows) == 4
    assert first.histories and second.processes + third.processes == 3


def test_rings_of_other_programs_or_lengths_are_not_merged():
    ring_of("first", ("process 1 exit 0", []))
    written("longer", ["left 0", "process 1 exit 0"], action="ring:4")
    written("other", ["left 0", "process 1 exit 0"], action="ring:3", program=HASH)
    for name in ("longer", "other"):
        with pytest.raises(Refusal):
            in_one(["first", name], "all")


@pytest.mark.parametrize(
    "records, is_for_threads",
    [
        ([(False, 0), (False, 0)], False),
        ([(True, 3), (True, 0)], True),
        ([(True, 3), (False, 0)], True),
        ([(True, 3), (False, 2)], False),
        ([(False, 2), (False, 0)], False),
    ],
)
def test_a_sum_is_for_threads_where_each_record_of_threads_is(records, is_for_threads):
    """So that what two threads do at once may not be lost in it."""
    made = []
    for number, (for_threads, threads) in enumerate(records):
        made.append(record_of(f"r{number}", [1, 1, 1], seen={**SEEN, "threads": threads}))
        made[-1].for_threads = for_threads
    assert Sum(made).for_threads is is_for_threads and Sum(made).as_record("sum").for_threads is is_for_threads


def test_a_sum_of_records_of_several_reports_has_one_hash_of_all():
    """Of each once, in their order, so that it is the same in each run; of one report it has its own."""
    hashes = [letter * 64 for letter in "fedcba"]
    made = [record_of(f"r{number}", [1, 1, 1]) for number in range(2 * len(hashes))]
    assert Sum(made).hash == HASH
    for number, record in enumerate(made):
        record.report_hash = hashes[number % len(hashes)]
    assert Sum(made).hash == hashlib.sha256("".join(sorted(hashes)).encode()).hexdigest()


def test_blocks_that_end_elsewhere_are_not_added():
    some, more = record_of("some", [1, 1, 1]), record_of("more", [1, 1, 1])
    more.rows[1].end += 1
    with pytest.raises(Refusal, match="another block at 00401008"):
        Sum([some, more])


def test_a_folder_without_records_has_no_sum(place):
    os.mkdir("empty")
    record_of("some", [1, 1, 1])
    with pytest.raises(Refusal, match="empty has no record"):
        expanded(["some", "empty"])
    os.rename("some", "empty/2.record")
    record_of("empty/10.record", [1, 1, 1])
    assert expanded(["x", "empty", "y"]) == ["x", "empty/10.record", "empty/2.record", "y"]
    assert [row.count for row in record_at("empty").rows] == [2, 2, 2] and record_at("empty").path == "empty"


def test_a_block_that_one_record_left_has_the_count_of_the_other():
    for order in (["left", "known"], ["known", "left"]):
        records = {"left": record_of("left", [None, 1, None]), "known": record_of("known", [4, 2, None])}
        assert counts_of(Sum([records[name] for name in order])) == [4, 3, None]


def test_covers_are_not_added():
    assert counts_of(
        Sum([record_of("some", [1, 0, 0], action="cover"), record_of("more", [1, 1, 0], action="cover")])
    ) == [1, 1, 0]


def test_a_sum_with_a_record_so_far_is_so_far():
    assert Sum([record_of("some", [1, 1, 1]), record_of("more", [1, 1, 1], state="running")]).state == "running"


def test_the_parts_of_one_run_have_its_processes_once():
    two = {"processes": 2, "threads": 1, "execs": 3}
    assert (
        Sum([record_of("some", [1, 1, 1], seen=two), record_of("more", [1, 1, 1], seen=two)], of_one_run=True).seen
        == {**two, "unrecorded": 0, "lost": 0}
    )


def test_records_of_other_programs_actions_and_rings_are_not_added():
    some = record_of("some", [1, 1, 1])
    for other in (record_of("program", [1, 1, 1], program=HASH), record_of("cover", [1, 1, 1], action="cover")):
        with pytest.raises(Refusal):
            Sum([some, other])
    ring = written("ring", ["left 0", "process 1 exit 0"], action="ring:3")
    with pytest.raises(Refusal):
        Sum([ring, ring])
