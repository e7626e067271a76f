"""The rounds of a patch, and which of them is kept, by an e9tool that leaves as many sites as it is told."""
from types import SimpleNamespace

import pytest

from vaknuhol.outputs import write_whole
from vaknuhol.program.blocks import Block
from vaknuhol.program.listing_file import FALLS
from vaknuhol.recording import patching
from vaknuhol.recording.actions import action_of
from vaknuhol.recording.patch_files import RunFiles
from vaknuhol.recording.site_choice import with_sites

COUNT = action_of("count")
SIZE, EACH = 5, 6  # bytes of an instruction, and instructions of a block: more than there are rounds


class Told(patching.Patching):
    """A patch of which each round leaves the sites of the first blocks: so many as are told."""

    def __init__(self, blocks, files, numbers):
        super().__init__(__file__, COUNT, blocks, [], files, loader=False)
        self.numbers, self.rounds = numbers, 0

    def patch_once(self, starts, sites, files):
        self.rounds += 1
        write_whole(dict.fromkeys((files.sites, files.patched, files.report), str(self.rounds)))
        return "printed\n"

    def outcomes(self, files):
        return dict.fromkeys(self.tried[: self.numbers[self.rounds - 1]], "NoPlan")

    def without_support(self, files):
        return set()


def listing_of(blocks):
    count = EACH * blocks
    return SimpleNamespace(
        addr=list(range(0x401000, 0x401000 + SIZE * count, SIZE)),
        size=bytes([SIZE]) * count,
        kind=bytes([FALLS]) * count,
        marks=bytes(count),
        ranges=lambda kind: [],
        starts_text=lambda: b"starts",
    )


@pytest.fixture
def patched(tmp_path, monkeypatch):
    """What patches so many blocks by rounds that leave so many sites."""
    monkeypatch.setattr(patching, "find_tool", lambda: "e9tool")

    def patched_by(count, *numbers):
        listing = listing_of(count)
        blocks = with_sites([Block(listing, EACH * number, EACH) for number in range(count)], listing, COUNT)
        told = Told(blocks, RunFiles(str(tmp_path / "program")), numbers)
        told.run(listing)
        return told

    return patched_by


@pytest.mark.parametrize(
    "count, numbers, rounds, kept",
    [
        (8, (5, 4, 3, 2), 4, 4),
        (8, (5, 6, 3, 4), 4, 3),
        (8, (5, 5, 5, 5), 4, 1),
        (8, (5, 0), 2, 2),
        (8, (0,), 1, 1),
    ],
    ids=["the last", "the third", "the first of the same", "the one that leaves none", "the first"],
)
def test_the_round_that_leaves_the_fewest_is_kept(patched, count, numbers, rounds, kept):
    told = patched(count, *numbers)
    assert told.rounds == rounds and len(told.left) == numbers[kept - 1]
    with open(told.files.report, encoding="ascii") as report:
        assert report.read() == str(kept)


def test_a_block_whose_site_is_left_goes_on_to_its_next_candidate(patched):
    told = patched(3, 1, 1, 0)
    first, others = told.blocks[0], told.blocks[1:]
    assert told.sites == [first.first + 2 * SIZE, *(block.site for block in others)] and not told.left


def test_a_block_whose_last_candidate_is_left_begins_again_at_its_best(patched):
    told = patched(2, 1, 1, 1, 1)
    told.candidates[0] = told.candidates[0][:2]
    told.tried[0] = told.candidates[0][-1]
    assert not told.move_on({told.tried[0]}) and told.tried[0] == told.blocks[0].site
