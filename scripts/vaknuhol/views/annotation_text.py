"""The annotated disassembly as text: a count where a block begins, blocks set apart, the hottest marked."""
from collections.abc import Iterator

from vaknuhol.recording.record_file import Row
from vaknuhol.views.annotation import Annotation, Block, Part, Source

BOLD, DIM, RED, YELLOW, CYAN, PLAIN = "\x1b[1m", "\x1b[2m", "\x1b[31m", "\x1b[33m", "\x1b[36m", "\x1b[0m"
HOT, WARM = 0.5, 0.1  # of the greatest count of the part
MARGIN = 10  # for counts; of a part with longer ones, as much as the greatest has
TAB = 4


class Text:
    def __init__(self, annotation: Annotation, width: int | None, is_coloured: bool) -> None:
        self.annotation, self.width, self.is_coloured = annotation, width, is_coloured
        self.names = annotation.names

    def painted(self, text: str, colour: str) -> str:
        return f"{colour}{text}{PLAIN}" if self.is_coloured and colour else text

    def cut(self, text: str) -> str:
        return text if self.width is None or len(text) <= self.width else text[:self.width - 1] + "…"

    def head(self, part: Part) -> Iterator[str]:
        where = f", inlined in {part.around}" if part.around else ""
        times = "how often it was entered is unknown" if part.entered is None else f"entered {times_of(part.entered)}"
        yield self.painted(self.cut(f"{self.names(part.name)}{where}: {times}"), BOLD)

    def lines(self, part: Part) -> Iterator[str]:
        yield from self.head(part)
        colour = margin = ""
        wide = max(MARGIN, len(str(part.greatest)))
        for item in self.annotation.items(part):
            if isinstance(item, Block):
                yield ""
                colour, margin = self.colour(item.row.count, part), self.margin(item.row, part, wide)
            elif isinstance(item, Source):
                inlined = f" ({item.inlined}, inlined)" if item.inlined else ""
                text = item.text.strip().expandtabs(TAB)
                yield self.painted(self.cut(f"{'':>{wide}}  {item.file}:{item.line}{inlined}  {text}"), CYAN)
            else:
                yield self.painted(self.cut(f"{margin:<{wide + 2}}{item.address:x}   {item.text}"), colour)
                margin = ""
        yield ""

    @staticmethod
    def margin(row: Row, part: Part, wide: int) -> str:
        """The count of a block, and a mark."""
        mark = ">" if row.count and row.count == part.greatest else "~" if row.how else " "
        return f"{'?' if row.count is None else row.count:>{wide}}{mark} "

    def colour(self, count: int | None, part: Part) -> str:
        if not count:
            return DIM if count == 0 else ""
        return RED if count >= HOT * part.greatest else YELLOW if count >= WARM * part.greatest else ""


def times_of(count: int) -> str:
    return f"{count} time{'s' * (count != 1)}"


def text_of(annotation: Annotation, parts: list[Part], width: int | None, is_coloured: bool) -> Iterator[str]:
    text = Text(annotation, width, is_coloured)
    for part in parts:
        yield from text.lines(part)
    yield text.painted("> the greatest count of the function  ~ solved from the other counts  ? unknown", DIM)
