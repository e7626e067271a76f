"""The annotated disassembly as one page for a browser."""
import html
import os
from typing import Iterator

from vaknuhol.views.annotation import Annotation, Block, Part, Source
from vaknuhol.views.annotation_text import HOT, WARM, times_of
from vaknuhol.views.page_style import STYLE

HEAD = """<!DOCTYPE html>
<html lang="en"><head><meta charset="utf-8"><title>{title}</title>
<meta name="viewport" content="width=device-width">
<style>{style}
nav td, nav th {{ text-align: right }} nav td:last-child, nav th:last-child {{ text-align: left }}
.b {{ margin: .5em 0; border-left: 4px solid var(--line); padding-left: .5em; width: max-content; min-width: 99% }}
.hot {{ border-color: var(--bad); background: var(--hot) }} .warm {{ border-color: #e90; background: var(--warm) }}
.none {{ color: var(--pale) }} .s {{ color: var(--link) }}
.c {{ display: inline-block; width: 8em; text-align: right; padding-right: 1em; font-weight: bold }}
</style></head><body>
<h1>{title}</h1>
<p>A number is how often the block below it was executed; ~ says that it follows from the others,
? that it is unknown.</p>
"""


class Page:
    def __init__(self, annotation: Annotation) -> None:
        self.annotation, self.names = annotation, annotation.names

    def contents(self, parts: list[Part]) -> Iterator[str]:
        yield "<nav><table><tr><th>entered</th><th>greatest count</th><th>function</th></tr>\n"
        for number, part in enumerate(parts):
            entered = "?" if part.entered is None else part.entered
            yield f'<tr><td>{entered}</td><td>{part.greatest}</td><td>'
            yield f'<a href="#f{number}">{self.title(part)}</a></td></tr>\n'
        yield "</table></nav>\n"

    def title(self, part: Part) -> str:
        return html.escape(self.names(part.name) + (f" (inlined in {part.around})" if part.around else ""))

    def part(self, number: int, part: Part) -> Iterator[str]:
        entered = "" if part.entered is None else f", entered {times_of(part.entered)}"
        yield f'<h2 id="f{number}">{self.title(part)}{entered}</h2>\n<div><pre>'
        count = ""
        for item in self.annotation.items(part):
            if isinstance(item, Block):
                yield f'</pre></div>\n<div class="b {self.kind(item.row.count, part)}"><pre>'
                count = "?" if item.row.count is None else f"{'~' if item.row.how else ''}{item.row.count}"
            elif isinstance(item, Source):
                inlined = f" ({item.inlined}, inlined)" if item.inlined else ""
                text = html.escape(f"{item.file}:{item.line}{inlined}  {item.text}")
                yield f'<span class="s"><span class="c"></span>{text}</span>\n'
            else:
                yield f'<span class="c">{count}</span>{item.address:x}  {html.escape(item.text)}\n'
                count = ""
        yield "</pre></div>\n"

    @staticmethod
    def kind(count: int | None, part: Part) -> str:
        if not count:
            return "none" if count == 0 else ""
        return "hot" if count >= HOT * part.greatest else "warm" if count >= WARM * part.greatest else ""


def page_of(annotation: Annotation, parts: list[Part]) -> str:
    page = Page(annotation)
    title = html.escape(f"{os.path.basename(annotation.coverage.path)}, annotated")
    body = "".join(text for number, part in enumerate(parts) for text in page.part(number, part))
    return HEAD.format(title=title, style=STYLE) + "".join(page.contents(parts)) + body + "</body></html>\n"
