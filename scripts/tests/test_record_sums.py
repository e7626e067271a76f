"""Records whose heads alone are read before they are added up: the sum is that of the records read as a whole."""
import os
import tempfile

import pytest
from hypothesis import given
from hypothesis import strategies as st

from vaknuhol.arguments import Refusal
from vaknuhol.recording.record_file import Record
from vaknuhol.recording.record_folder import in_one, sum_of
from vaknuhol.recording.record_head import RecordHead
from vaknuhol.recording.record_sum import Sum

HEAD = f"vakrecord 1\naction {{}}\nprogram {'a' * 64}\nreport {'b' * 64}\nstate ended\nprocesses 1 threads 0 execs 0\n"
BASE, LEFT = 0x401000, ("NoPlan", "Shared", "-")
COUNT = st.one_of(st.integers(0, 3), st.integers(2**64 - 3, 2**64 - 1)).map(str)
VALUES = st.lists(st.one_of(COUNT, st.sampled_from(LEFT)), max_size=4)


def text_of(values: list[str], step: int = 16, action: str = "count") -> str:
    """A record of blocks of a length, with these counts or outcomes."""
    rows = [f"{at:08x} {at + step:08x} {at:08x} {value}\n"
            for at, value in zip(range(BASE, BASE + 16 * len(values), 16), values)]  # fmt: skip
    return HEAD.format(action) + "".join(rows) + "end\n"


def written(texts: list[str]) -> list[str]:
    names = [f"{number}.record" for number in range(len(texts))]
    for name, text in zip(names, texts):
        with open(name, "w", encoding="utf-8") as file:
            file.write(text)
    return names


def told(records) -> "tuple[list[str], str, bool] | str":
    """The rows of a sum, its hash, and whether not all records count the same blocks, or why there is none."""
    try:
        whole = Sum(records)
    except Refusal as refusal:
        return str(refusal)
    return [row.line() for row in whole.sorted_rows()], whole.hash, whole.in_part


@given(st.lists(st.tuples(VALUES, st.sampled_from([16, 8])), min_size=1, max_size=6), st.booleans())
def test_a_sum_is_the_same_of_heads_and_of_whole_records(made, adds):
    """Also of other blocks, of blocks left in some, and of counts that run over."""
    action = "count" if adds else "cover"
    texts = [text_of([value if adds or value in LEFT else str(int(value) % 2) for value in values], step, action)
             for values, step in made]
    with tempfile.TemporaryDirectory() as folder:
        before = os.getcwd()
        os.chdir(folder)
        try:
            names = written(texts)
            whole = told([Record(name) for name in names])
            assert told(map(RecordHead, names)) == whole
        finally:
            os.chdir(before)


@pytest.mark.parametrize("value", ["", "x", "+5", "5_0", "-1", " 5", "5 ", "5\t", "²", "٣", "1\n\n2", "NoPlan 3", "None"])
def test_a_line_that_is_none_is_refused_in_each_record(place, value):
    """Of records that have the blocks of the one before, too."""
    names = written([text_of(["1", "2"]), text_of(["3", "4"]), text_of(["3", value])])
    with pytest.raises(Refusal) as refused:
        Record(names[-1])
    with pytest.raises(Refusal) as in_sum:
        sum_of(names)
    assert str(in_sum.value) == str(refused.value) and "is no record of run_and_record" in str(refused.value)


def test_rows_of_the_same_blocks_are_read_once(place, monkeypatch):
    names = written([text_of(["1", "NoPlan", str(number)]) for number in range(20)])
    read, of = [], Record.of
    monkeypatch.setattr(Record, "of", lambda head: read.append(head.path) or of(head))
    rows = [row.line() for row in sum_of(names).sorted_rows()]
    assert read == names[:1] and [row.split()[-1] for row in rows] == ["20", "NoPlan", str(sum(range(20)))]


def test_blocks_that_were_left_in_one_record_only_are_counted_by_the_others(place):
    names = written([text_of(["1", "NoPlan"]), text_of(["2", "5"]), text_of(["3", "NoPlan"]), text_of(["4", "6"])])
    whole = in_one(names, "all")
    assert [row.count for row in whole.rows] == [10, 11] and whole.left == 0
    assert (whole.path, whole.processes, whole.body) == ("all", 4, "")


@pytest.mark.parametrize("second, is_in_part", [(["5", "NoPlan"], False), (["5", "-"], False), (["5", "6"], True),
                                                (["NoPlan", "6"], True), (["5"], False), (["5", "7", "6"], True)])
def test_a_sum_tells_whether_the_records_count_the_same_blocks(place, second, is_in_part):
    """Also once it was written, and of sums of sums; of the files of one run each counts its own part."""
    names = written([text_of(["1", "NoPlan"]), text_of(second)])
    assert in_one(names, "all").in_part == is_in_part
    sum_of(names).write("sum.record")
    assert [Record(name).in_part for name in [*names, "sum.record"]] == [False, False, is_in_part]
    assert in_one(["sum.record", "sum.record"], "all").in_part == is_in_part
    assert not Sum(map(RecordHead, names), of_one_run=True).in_part
