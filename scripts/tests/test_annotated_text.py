"""The text that `vaknuhol annotate` prints, and the names by which it finds a function."""
import pytest

from tests.doubles import double
from vaknuhol.program.function_names import namer, spellings
from vaknuhol.views.annotation import Block, Instruction, Part, Source
from vaknuhol.views.annotation_text import text_of


def test_columns_are_kept_where_counts_are_long() -> None:
    """And a line of source with tabs stays within the terminal's width."""
    part = Part("busy", [(0x401000, 0x401010)])
    part.entered, part.greatest = 1, 123456789012
    rows = [double(count=count, how=None) for count in (1, 123456789012)]
    items = [
        Block(rows[0]),
        Source("busy.c", 7, "\t\twhile (left)\t/* as long as any is */", ""),
        Instruction(0x401000, "nop"),
        Block(rows[1]),
        Instruction(0x401001, "dec     %rax"),
    ]
    told = list(text_of(double(names=str, items=lambda _: items), [part], 44, False))
    assert told[1:6] == [
        "",
        "              busy.c:7  while (left)    /* …",
        "           1  401000   nop",
        "",
        "123456789012> 401001   dec     %rax",
    ], told


@pytest.mark.parametrize(
    "symbol, source, name",
    [
        ("scaled.constprop.0", "scaled.constprop.0", "scaled"),
        ("scaled.isra.0.part.1.cold", "scaled.isra.0.part.1.cold", "scaled"),
        ("main.main", "main.main", "main.main"),
        ("_ZN4Tree3addEi", "Tree::add(int)", "Tree::add"),
        ("_ZN5words3add17h0123456789abcdefE", "words::add", "words::add"),
        ("_RINvCs5678_5words3addmE", "words::add::<u32>", "words::add"),
        ("__sums_MOD_ack", "__sums_MOD_ack", "ack"),
    ],
)
def test_a_function_is_found_by_the_name_that_its_source_has(symbol: str, source: str, name: str) -> None:
    assert {symbol, source, name} <= spellings(symbol, source)


def test_a_name_is_not_taken_for_a_part_of_another() -> None:
    assert spellings("main.parted", "main.parted") == {"main.parted"}


@pytest.mark.parametrize(
    "symbol, source",
    [
        ("_ZN5words5tally17h0123456789abcdefE", "words::tally"),
        ("_RNvCs5678_5words5tally", "words::tally"),
        ("_ZN4Tree3addEi", "Tree::add(int)"),
        ("main", "main"),
    ],
)
def test_names_are_as_the_source_has_them(symbol: str, source: str) -> None:
    """Those of Rust, of both kinds, without the hashes that rustc adds."""
    assert namer([symbol])(symbol) == source
