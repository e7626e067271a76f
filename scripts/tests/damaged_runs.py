"""Run files with one thing wrong in them, of which the runner has to see each."""
import struct
from collections.abc import Callable

from vaknuhol.recording.run_file import BODY, COVERED, FRONT, LEFT, ROW_BYTES, RULE_BYTES, TRAMP_BYTES

NUMBERS = {
    name: at
    for at, name in enumerate(
        "kind for_threads slots shown sites event_length comparisons rows tramps rules covered text start length "
        "data".split()
    )
}


class RunFile:
    """A run file, whose numbers can be changed while its lengths stay as they are."""

    def __init__(self, path: str) -> None:
        with open(path, "rb") as file:
            self.data = bytearray(file.read())
        self.numbers = list(BODY.unpack_from(self.data, FRONT.size))
        self.rows = FRONT.size + BODY.size
        self.tramps = self.rows + self.number("rows") * ROW_BYTES
        self.rules = self.tramps + self.number("tramps") * TRAMP_BYTES
        self.covered = self.rules + self.number("rules") * RULE_BYTES
        self.text = self.covered + self.number("covered") * COVERED.size

    def number(self, name: str) -> int:
        return int(self.numbers[2 + NUMBERS[name]])

    def change(self, at: int, value: int) -> None:
        """One of the numbers behind the texts: they are numbered from 0 on."""
        self.numbers[2 + at] = value
        BODY.pack_into(self.data, FRONT.size, *self.numbers)

    def put(self, place: int, value: int) -> None:
        struct.pack_into("<I", self.data, place, value)

    def put_text(self, place: int, text: bytes) -> None:
        self.data[place : place + len(text)] = text

    def lose_tramps(self) -> None:
        """No trampolines, and their bytes gone."""
        del self.data[self.tramps : self.rules]
        self.change(NUMBERS["tramps"], 0)


Change = Callable[[RunFile], None]


def number(name: str, value: int) -> Change:
    return lambda it: it.change(NUMBERS[name], value)


DAMAGED: dict[str, Change] = {
    "rows_lead_past_the_text": lambda it: it.put(it.rows + 4, 0x7FFFFFFF),
    "the_last_row_leads_past_the_text": lambda it: it.put(it.tramps - 4, 0x7FFFFFFF),
    "a_row_leads_to_the_last_bytes": lambda it: it.put(it.rows + 4, len(it.data) - it.text - 20),
    "rows_lead_back": lambda it: it.put(it.rows + ROW_BYTES + 4, 0),
    "a_row_has_no_site": lambda it: it.put(it.rows, it.number("sites")),
    "a_row_has_no_addresses": lambda it: it.put(it.text, 0x20202020),
    "tramps_descend": lambda it: it.put(it.tramps, 0x7FFFFFFF),
    "a_tramp_has_no_site": lambda it: it.put(it.tramps + 8, it.number("sites")),
    "the_last_tramp_has_no_end": lambda it: it.put(it.rules - 4, LEFT),
    "no_such_kind": number("kind", 3),
    "more_sites_than_the_range_has_room_for": number("sites", 1 << 20),
    "more_comparisons_than_there_are": number("comparisons", 4),
    "a_longer_event": number("event_length", 81),
    "a_range_of_no_length": number("length", 0),
    "a_range_without_room_for_scratch": lambda it: it.change(NUMBERS["data"], it.number("length")),
    "a_range_at_no_page": lambda it: it.change(NUMBERS["start"], it.number("start") + 8),
    "more_bytes_of_the_original_than_fit": lambda it: it.put_text(it.covered + 4, b"\x0c"),
    "a_head_without_end": lambda it: it.put_text(16, b"x" * 512),
}
DAMAGED_RING: dict[str, Change] = {
    "no_slots": number("slots", 0),
    "more_slots_than_the_range_has_room_for": number("slots", 1 << 20),
    "nothing_shown": number("shown", 0),
    "more_shown_than_there_are": lambda it: it.change(NUMBERS["shown"], it.number("slots") + 1),
    "a_row_at_another_number": lambda it: it.put(it.rows + ROW_BYTES, 0),
    "rules_descend": lambda it: it.put(it.rules, 0x7FFFFFFF),
}
