"""The annotated text of functions: marks, colours, widths, and which functions and rows are shown."""
import pytest

from tests.doubles import double
from tests.made_coverage import BASE, coverage_of, listing_of, record_of
from vaknuhol.arguments import Refusal
from vaknuhol.views.annotation import Annotation, Block, Instruction, Part
from vaknuhol.views.annotation_text import BOLD, DIM, PLAIN, RED, YELLOW, text_of


def annotated(counts: list[int | None], how: str | None = None, **more) -> list[str]:
    """The lines of a function with blocks of these counts, of one instruction each."""
    part = Part("f", [(BASE, BASE + 8)])
    part.entered, part.greatest = counts[0], max(count or 0 for count in counts)
    items: list = []
    for at, count in enumerate(counts):
        items += [Block(double(count=count, how=how)), Instruction(BASE + at, "nop")]
    annotation = double(names=str, items=lambda _: items)
    return list(text_of(annotation, [part], more.get("width"), more.get("is_coloured", False)))


def test_the_greatest_count_is_marked_in_the_text():
    told = annotated([1, 100, 0, None])
    assert told[0] == "f: entered 1 time" and [it for it in told[1:-2] if it] == [
        "         1  401000   nop",
        "       100> 401001   nop",
        "         0  401002   nop",
        "         ?  401003   nop",
    ]
    assert annotated([2, 5], how="solved")[2] == "         2~ 401000   nop"
    assert annotated([None])[0] == "f: how often it was entered is unknown"
    assert annotated([0])[0] == "f: entered 0 times"


def test_blocks_are_painted_by_their_share_of_the_greatest_count():
    """Half of it is red, and a tenth yellow; what was not executed is dim."""
    told = [it for it in annotated([100, 50, 49, 10, 9, 0, None], is_coloured=True)[1:-2] if it]
    assert [it[: it.index(" ")] if it.startswith("\x1b") else "" for it in told] == [RED, RED, YELLOW, YELLOW, "", DIM, ""]
    assert all(it.endswith(PLAIN) for it in told if it.startswith("\x1b"))
    assert annotated([1], is_coloured=True)[0] == f"{BOLD}f: entered 1 time{PLAIN}"


def test_a_text_is_cut_at_the_width_of_the_terminal():
    whole = [it for it in annotated([1])[:-1] if it]
    for width in (16, 17, 18, 21, 22, 23):
        cut = [it for it in annotated([1], width=width)[:-1] if it]
        assert cut == [it if len(it) <= width else it[: width - 1] + "…" for it in whole]


NAMES = [(BASE, "cold"), (BASE + 0x10, "hot"), (BASE + 0x20, "none"), (BASE + 0x30, "gone"), (BASE, ".text")]


def annotation_of(blocks, names=None, firsts=()) -> Annotation:
    listing = listing_of(names=NAMES if names is None else names, firsts=firsts)
    program = double(is_code=lambda address: BASE <= address < BASE + 0x40)
    info = double(instances=lambda: [])
    return Annotation(coverage_of(record_of(blocks=blocks), listing=listing, program=program, info=info))


BLOCKS = [
    (BASE, BASE + 8, 5, None),
    (BASE + 8, BASE + 0x10, 6, None),
    (BASE + 0x10, BASE + 0x14, 9, None),
    (BASE + 0x14, BASE + 0x20, 8, None),
    (BASE + 0x20, BASE + 0x24, 0, None),
]


def test_functions_come_by_how_many_bytes_of_them_were_executed():
    annotation = annotation_of(BLOCKS)
    parts = annotation.functions()
    assert [(it.name, it.entered, it.greatest, it.work) for it in parts] == [
        ("hot", 9, 9, 4 * 9 + 12 * 8),
        ("cold", 5, 6, 8 * 5 + 8 * 6),
        ("none", 0, 0, 0),
    ]
    assert [it.name for it in annotation.chosen(None)] == ["hot", "cold"], "those that were executed"
    assert [it.name for it in annotation.chosen("none")] == ["none"]


def test_where_nothing_was_executed_all_functions_are_shown():
    parts = annotation_of([(BASE, BASE + 8, 0, None), (BASE + 0x20, BASE + 0x24, None, "NoPlan")]).chosen(None)
    assert [(it.name, it.entered) for it in parts] == [("cold", 0), ("none", None)]


@pytest.mark.parametrize(
    "low, high, firsts",
    [(0, 8, [0]), (0, 9, [0, 8]), (7, 8, [0]), (8, 9, [8]), (4, 0x10, [0, 8]), (0x24, 0x30, []), (0x1F, 0x21, [0x14, 0x20])],
)
def test_rows_with_a_byte_of_a_range_are_those_of_it(low, high, firsts):
    rows = annotation_of(BLOCKS).rows_in(BASE + low, BASE + high)
    assert [row.first - BASE for row in rows] == firsts


def test_without_symbols_functions_are_where_they_begin_by_evidence():
    """Each that was executed, and none that was not."""
    annotation = annotation_of(BLOCKS, [(BASE, ".text")], [BASE, BASE + 0x10, BASE + 0x20])
    parts = annotation.chosen(None)
    assert [(it.name, it.entered, it.greatest) for it in parts] == [
        ("the function at 00401010", 9, 9),
        ("the function at 00401000", 5, 6),
    ]


@pytest.mark.parametrize("word", ["401014", "00401014", "0x401014", "0X401014", "00401010", "40101f"])
def test_a_function_is_found_by_any_address_in_it(word):
    for names, name in ((NAMES, "hot"), ([(BASE, ".text")], "the function at 00401010")):
        annotation = annotation_of(BLOCKS, names, [BASE, BASE + 0x10, BASE + 0x20])
        assert [part.name for part in annotation.chosen(word)] == [name]


def test_a_name_comes_before_an_address():
    annotation = annotation_of(BLOCKS, [(BASE, "40101f"), (BASE + 0x10, "hot")])
    assert [part.ranges[0][0] for part in annotation.chosen("40101f")] == [BASE]


@pytest.mark.parametrize(
    "names, word, why",
    [
        (NAMES, "absent", "absent: the record has no block of such a function: vaknuhol annotate prog shows all"),
        (NAMES, "gone", "gone: the record has no block of such a function"),
        (NAMES, "401030", "401030: the record has no block of such a function"),
        (NAMES, "500000", "500000: the record has no block of such a function"),
        ([(BASE, ".text")], "main", "main: the program has no symbols: give an address: vaknuhol annotate prog shows all"),
    ],
)
def test_a_function_that_is_not_there_is_refused(names, word, why):
    with pytest.raises(Refusal) as refused:
        annotation_of(BLOCKS, names, [BASE + 0x30]).chosen(word)
    assert str(refused.value).startswith(why)
