"""Kernels that take short tables of program headers: the loader form, nearer code, and what is refused."""
import re

import pytest

from tests.calls import match, run
from tests.command import call, changed, patched_below
from tests.doubles import double
from vaknuhol.program.kernel import FEW, MOST, entries_of, takes
from vaknuhol.recording.entry_limit import Fitting, nearer

WALKED = "sum 4950\n"


@pytest.fixture
def most(tour) -> int:
    """How many entries the table of `tour` has where a kernel takes many."""
    paths = call("cover", "tour", "--functions", "--entries", str(MOST), "--patch-only")[0].split()
    return max(entries_of(path) for path in paths)


def test_how_many_entries_this_kernel_takes_is_asked_of_it():
    assert takes(1, ".") and takes(FEW, ".")
    assert takes(1171, ".") is False, "this kernel takes a table of more than 64 KB"


@pytest.mark.parametrize(
    "first, length, above, below",
    [
        (0x400000, 0x1001, 0x404000, ["400000", "210000", "118000", "9c000", "5e000", "3f000"]),
        (0x400000, 0x1000, 0x403000, ["400000", "210000", "118000", "9c000", "5e000", "3f000"]),
        (0x21234, 0x1000, 0x403000, ["21000", *["20000"] * 5]),
        (0x20000, 0x1000, 0x403000, []),
    ],
)
def test_room_is_reserved_from_ever_nearer_behind_the_program_and_then_from_below_it(
    first, length, above, below
):
    """In whole pages, up to the top."""
    program = double(segments=[(first, 4, b"head"), (0x402000, 5, bytes(length))])
    ends = [f"{above + 0x100000 * part:x}" for part in (8, 4, 0)]
    found = [word.removesuffix("-7fff0000") for word in nearer(program)]
    assert found[0:2] + found[4:5] == ends and found[5:] == below
    assert [int(word, 16) - above for word in found[2:4]] == [0x200000, 0x100000]


@pytest.mark.parametrize("most, short, is_vain", [(2, 8, True), (2, 7, False), (3, 11, False)])
def test_a_patch_is_not_tried_where_most_of_many_sites_are_short(most, short, is_vain):
    """Of less than four bytes; four sites for each entry of the table."""
    sizes = [3] * short + [4] * 20
    listing = double(size=sizes, at=lambda site: site if site < len(sizes) else None)
    fitting = double(blocks=[double(listing=listing)], most=most)
    assert Fitting.never_fits(fitting, [99, *range(len(sizes))]) is is_vain


@pytest.mark.parametrize(
    "words, form, least",
    [((), "in the loader form", 0), (("--no-loader",), "kept out of", 90)],
    ids=["loader", "nearer"],
)
def test_a_table_has_no_more_entries_than_a_kernel_takes(most, words, form, least):
    """By the loader form or by nearer code; what the kernel refuses is told."""
    printed, told = call("cover", "tour", "--functions", "--entries", str(FEW), *words, "--patch-only")
    (path,) = printed.split()
    patched, chosen = (int(it) for it in match(r"patched ([0-9]+) of ([0-9]+) blocks", told).groups())
    assert entries_of(path) <= FEW < most and f"since the table may have {FEW} entries" in told and form in told, told
    assert 100 * patched > least * chosen, told
    assert run(f"./{path}", "walk", "100", status=(4,)) == WALKED
    few = "import vaknuhol.recording.kept_patches\nvaknuhol.recording.kept_patches.most_entries = lambda folder: 5"
    _, told = changed(few, "cover", "tour", "--functions", "--entries", str(FEW), *words, status=125)
    assert (
        f"{path} has {entries_of(path)} program headers" in told and "ENOEXEC" in told and "--entries 5" in told
    ), told
    _, told = call("cover", "tour", "--functions", "--entries", "5", "--into", "none", *words, status=125)
    assert "the table may have at most 5" in told and not patched_below("none"), told
    checked = call("check", "tour")[0].splitlines()
    assert len(checked) == 2 and all(line.endswith(("check yes", "the same bytes")) for line in checked), checked
    is_loader = any(line.endswith("loader form, written again with the same bytes") for line in checked)
    assert is_loader == (not words), checked
