"""Records of one program added up: a block's count is the sum over the records that know it.

Most records that are added up have the same blocks, as runs of one patched file have: the rows of the first of these
are read, and of the others the counts that changed."""
import hashlib
import itertools
import operator
from collections.abc import Iterable

from vaknuhol.arguments import Refusal
from vaknuhol.recording.record_file import Record, Row, write_record
from vaknuhol.recording.record_head import SEEN, RecordHead

WORD = 1 << 64
COUNT_AT = len("00401136 00401150 0040113a ")


class SameBlocks:
    """Records with the blocks of one that was read: their counts, added up. The lines of such a record are compared
    with those of the last one, and only those that are others are read: a count is added as often as it was there."""

    def __init__(self, record: Record, body: str) -> None:
        self.lines = body.split("\n")
        self.blocks = [line[:COUNT_AT] for line in self.lines]
        self.firsts = [row.first for row in record.rows]
        self.values = [row.count for row in record.rows]
        self.adds, self.records = record.action.adds, 0
        self.since = [0] * len(self.firsts)  # how many records were taken before a line was as it is
        self.sums = [0] * len(self.firsts)

    def take(self, body: str) -> bool:
        """Adds the counts of a record's rows; false where it has other blocks, or other ones were left."""
        lines = body.split("\n")
        if len(lines) != len(self.lines) or lines[-1]:
            return False
        others = list(itertools.compress(range(len(lines)), map(operator.ne, lines, self.lines)))
        if not all(self.may_be(number, lines[number]) for number in others):
            return False
        for number in others:
            self.add(number)
            self.values[number], self.since[number] = int(lines[number][COUNT_AT:]), self.records
        self.lines, self.records = lines, self.records + 1
        return True

    def may_be(self, number: int, line: str) -> bool:
        """Whether a line can have another count of a block that was counted."""
        digits = line[COUNT_AT:]
        return (line[:COUNT_AT] == self.blocks[number] and digits.isascii() and digits.isdigit()
                and self.values[number] is not None)

    def add(self, number: int) -> None:
        """Adds the count of a block, as often as it was there."""
        value, times = self.values[number] or 0, self.records - self.since[number]
        if self.adds:
            self.sums[number] += value * times
        elif times:
            self.sums[number] |= value

    def counts(self) -> list[int]:
        """The sums, once all records are taken."""
        for number in range(len(self.sums)):
            self.add(number)
            self.since[number] = self.records
        return self.sums


class Sum:
    """The sum, in the place of a report, as records are written of them; of records whose head alone was read, too."""

    def __init__(self, records: Iterable[RecordHead], of_one_run: bool = False) -> None:
        self.rows: dict[int, Row] = {}
        self.counted: set[frozenset[int]] = set()  # which blocks records count: more than one, where not all the same
        self.same: list[SameBlocks] = []
        heads: list[RecordHead] = []
        for head in records:
            if heads:
                self.compare(heads[0], head)
            if not head.action.is_ring:
                self.add(head)
            head.body = ""
            heads.append(head)
        self.first = first = heads[0]
        if first.action.is_ring:
            raise Refusal(f"{first.path} is the record of a ring: the order of two rings is unknown, so they "
                          "can't be added")
        self.action, self.program_hash = first.action, None if first.program_hash == "-" else first.program_hash
        self.base = first.base
        self.add_same()
        self.take_heads(heads, of_one_run)

    def take_heads(self, heads: list[RecordHead], of_one_run: bool) -> None:
        hashes = sorted({record.report_hash for record in heads})
        self.hash = hashes[0] if len(hashes) == 1 else hashlib.sha256("".join(hashes).encode()).hexdigest()
        self.state = "running" if any(record.state == "running" for record in heads) else "ended"
        self.for_threads = (any(record.for_threads for record in heads)
                            and all(record.for_threads or not record.threads for record in heads))
        seen = {name: [getattr(record, name) for record in heads] for name in SEEN}
        self.in_part = len(self.counted) > 1 and not of_one_run or any(record.in_part for record in heads)
        self.seen = {name: max(numbers) if of_one_run else sum(numbers) for name, numbers in seen.items()}

    def add(self, head: RecordHead) -> None:
        """Adds a record: by its counts alone where its blocks are known."""
        if not isinstance(head, Record):
            if any(same.take(head.body) for same in self.same):
                return
            body, head = head.body, Record.of(head)
            self.same.insert(0, SameBlocks(head, body))
        self.counted.add(frozenset(row.first for row in head.rows if row.count is not None))
        for row in head.rows:
            self.take(head, row)

    def add_same(self) -> None:
        """Adds what was added up by itself."""
        for same in self.same:
            for first, count in zip(same.firsts, same.counts()):
                known = self.rows[first]
                if count and known.count is not None:
                    known.count = (known.count + count) % WORD if self.action.adds else known.count | count

    @staticmethod
    def compare(first: RecordHead, record: RecordHead) -> None:
        if record.action.name != first.action.name:
            raise Refusal(f"{first.path} is of the action {first.action.name}, and {record.path} of "
                          f"{record.action.name}")
        is_other = record.program_hash == "-" and record.report_hash != first.report_hash
        if is_other or record.program_hash != first.program_hash:
            raise Refusal(f"{first.path} and {record.path} are of different programs")

    def take(self, record: Record, row: Row) -> None:
        known = self.rows.setdefault(row.first, row)
        if known.end != row.end:
            raise Refusal(f"{record.path} has another block at {row.first:08x} than the records before it: patch by "
                          "one version")
        if known is row or row.count is None:
            return
        if known.count is None:
            self.rows[row.first] = row
        else:
            known.count = (known.count + row.count) % WORD if record.action.adds else known.count | row.count

    def sorted_rows(self) -> list[Row]:
        return [row for _, row in sorted(self.rows.items())]

    def write(self, path: str) -> None:
        write_record(path, self, self.program_hash, (row.line() for row in self.sorted_rows()), self.state, self.seen,
                     self.in_part)

    def as_record(self, name: str) -> Record:
        """The sum as a record that was read, which goes by a name in messages."""
        record = Record.of(self.first)
        record.path, record.report_hash = name, self.hash
        record.state, record.for_threads, record.in_part = self.state, self.for_threads, self.in_part
        for what in SEEN:
            setattr(record, what, self.seen[what])
        record.take_over(self.sorted_rows())
        return record
