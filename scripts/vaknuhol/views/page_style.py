"""What pages for a browser have in common: colours, light or dark as the reader's system asks, and tables that are
sorted by a click on a column's head."""
import html
from collections.abc import Iterable
from typing import NamedTuple

STYLE = """
:root { color-scheme: light dark; --paper: #fff; --ink: #222; --pale: #666; --line: #ddd; --link: #05a;
 --hit: #e3f6e3; --missed: #fbe3e3; --unknown: #eee; --hot: #fbd5d0; --warm: #fdeccb; --bad: #b00 }
@media (prefers-color-scheme: dark) { :root { --paper: #16181c; --ink: #ddd; --pale: #999; --line: #3a3d44;
 --link: #8bf; --hit: #17351f; --missed: #43201f; --unknown: #2b2d33; --hot: #5c2320; --warm: #4a3a16; --bad: #f98 } }
body { font: 14px/1.4 sans-serif; margin: 1em 2em; color: var(--ink); background: var(--paper) }
a { color: var(--link) } table { border-collapse: collapse } pre { font: 13px/1.35 monospace; margin: 0 }
td, th { padding: .15em .8em; text-align: left; vertical-align: top } h2 { margin: 1.5em 0 .5em }
th { position: sticky; top: 0; background: var(--paper); box-shadow: 0 1px var(--line); white-space: nowrap }
th[data-by] { cursor: pointer } th[data-by]:hover { color: var(--link) }
th[aria-sort=descending]::after { content: " \\25be" } th[aria-sort=ascending]::after { content: " \\25b4" }
.number { text-align: right; font-variant-numeric: tabular-nums; white-space: nowrap } .pale { color: var(--pale) }
.hit { background: var(--hit) } .missed { background: var(--missed) } .unknown { background: var(--unknown) }
.low { color: var(--bad) } .count { color: var(--link) }
"""
SORTING = """<script>
for (const head of document.querySelectorAll("th[data-by]")) head.onclick = () => {
  const table = head.closest("table"), at = head.cellIndex, isNumber = head.dataset.by === "number";
  const falls = head.hasAttribute("aria-sort") ? head.getAttribute("aria-sort") === "ascending" : isNumber;
  const value = row => isNumber ? Number(row.cells[at].dataset.of) : row.cells[at].textContent;
  const order = isNumber ? (a, b) => value(a) - value(b) : (a, b) => value(a).localeCompare(value(b));
  for (const other of table.querySelectorAll("th[aria-sort]")) other.removeAttribute("aria-sort");
  head.setAttribute("aria-sort", falls ? "descending" : "ascending");
  table.tBodies[0].append(...[...table.tBodies[0].rows].sort((a, b) => falls ? order(b, a) : order(a, b)));
};
</script>"""
PAGE = """<!DOCTYPE html>
<html lang="en"><head><meta charset="utf-8"><title>{title}</title>
<meta name="viewport" content="width=device-width"><style>{style}</style></head>
<body><h1>{title}</h1>
{body}
</body></html>
"""


class Cell(NamedTuple):
    """A cell of a table: its text, as HTML, and, where it shows a number, that number."""
    text: str
    number: float | None = None

    def element(self) -> str:
        if self.number is None:
            return f"<td>{self.text}</td>"
        return f'<td class="number" data-of="{self.number:.15g}">{self.text}</td>'


def page(title: str, body: str) -> str:
    return PAGE.format(title=html.escape(title), style=STYLE, body=body)


def table(heads: dict[str, bool], rows: Iterable[list[Cell]], by: str) -> str:
    """A table that its heads sort; of each column whether it has numbers. As it is written it is sorted by the numbers
    of one column, the greatest first; of rows with the same one the order stays."""
    names = list(heads)
    columns = "".join(f'<th{" class=number" if of_numbers else ""} data-by={"number" if of_numbers else "text"}'
                      f'{" aria-sort=descending" if name == by else ""}>{name}</th>'
                      for name, of_numbers in heads.items())
    ordered = sorted(rows, key=lambda row: -(row[names.index(by)].number or 0))
    body = "\n".join(f"<tr>{''.join(cell.element() for cell in row)}</tr>" for row in ordered)
    return f"<table><thead><tr>{columns}</tr></thead><tbody>\n{body}</tbody></table>"
