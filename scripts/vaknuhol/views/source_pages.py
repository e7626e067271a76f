"""Pages for a browser, by genhtml of the package lcov. A line of which nothing is known is in no tracefile, and genhtml
shows it as one without code: it is marked afterwards, and their number stands in the title of each page. In genhtml's
lists by name, folders, files and functions that were executed are put before the others; where it sorts functions by
their counts, the greatest count is put first."""
import glob
import os
import re
import shutil
import subprocess
import tempfile

from vaknuhol.arguments import Refusal
from vaknuhol.messages import counted, progress
from vaknuhol.outputs import write_whole
from vaknuhol.program.program_file import read_bytes
from vaknuhol.views import lcov
from vaknuhol.views.coverage import Coverage

PAGE = ".gcov.html"
ROW = re.compile(r' *<tr>\s*<td class="cover(?:File|Fn)">.*?\n *</tr>\n'
                 r'(?= *(?:<tr>\s*<td class="cover(?:File|Fn)">|</table>))', re.S)
EXECUTED = re.compile(r'<td class="cover(?:Num|Fn)(?:Lo|Med|Hi)">([0-9]+)')
BY_NAME, BY_COUNT = ("index.html", ".func.html"), ".func-sort-c.html"
UNKNOWN = '<span class="lineUnknown" style="background-color: #dddddd" title="unknown, since its blocks were left">'


def title_of(coverage: Coverage, unknown: dict[str, list[int]]) -> str:
    number = sum(map(len, unknown.values()))
    return os.path.basename(coverage.path) + (f", {counted(number, 'unknown line')} (?)" if number else "")


def page_of(file: str, pages: list[str], folder: str) -> str | None:
    """The page of a source file: genhtml names it as the file, without folders that all have in front."""
    fitting = [page for page in pages if f"/{file}{PAGE}".endswith(f"/{os.path.relpath(page, folder)}")]
    return max(fitting, key=len) if fitting else None


def with_marks(page: str, numbers: list[int]) -> str:
    """A page with a ? in the place of the count of each of these lines."""
    for number in numbers:
        line = rf'(<span class="lineNum"> *{number} *</span>[^<\n]*:)( +) (:[^\n]*)(</a>)'
        page = re.sub(line, lambda found: f"{found[1]}{UNKNOWN}{'?':>{len(found[2])}} {found[3]}</span>{found[4]}",
                      page)
    return page


def mark_unknown(folder: str, unknown: dict[str, list[int]]) -> None:
    pages = glob.glob(f"{glob.escape(folder)}/**/*{PAGE}", recursive=True)
    for file, numbers in unknown.items():
        page = page_of(file, pages, folder)
        if page:
            text = read_bytes(page).decode(errors="surrogateescape")
            write_whole({page: with_marks(text, numbers).encode(errors="surrogateescape")})


def in_order(name: str, page: str) -> str:
    """A list with what was executed first; by counts, with the greatest count first."""
    rows = list(ROW.finditer(page))
    counts = [int(found[1]) if (found := EXECUTED.search(row[0])) else 0 for row in rows]
    places = sorted(range(len(rows)), key=lambda at: -counts[at] if name.endswith(BY_COUNT) else not counts[at])
    if not rows:
        return page
    return page[:rows[0].start()] + "".join(rows[at][0] for at in places) + page[rows[-1].end():]


def order_lists(folder: str) -> None:
    for path in glob.glob(f"{glob.escape(folder)}/**/*.html", recursive=True):
        if path.endswith((*BY_NAME, BY_COUNT)):
            page = read_bytes(path).decode(errors="surrogateescape")
            write_whole({path: in_order(path, page).encode(errors="surrogateescape")})


def write_html(folder: str, coverage: Coverage) -> None:
    if not shutil.which("genhtml"):
        raise Refusal("needs genhtml (package lcov), which is not here")
    missing = [file for file in sorted(coverage.files) if not os.path.isfile(file)]
    if missing:
        raise Refusal(f"{missing[0]}: the source is not here, which the pages show; --source FOLDER leaves out files "
                      "of others")
    unknown = coverage.unknown_lines()
    with tempfile.TemporaryDirectory() as place:
        path = os.path.join(place, "lines.info")
        write_whole({path: lcov.text(coverage)})
        progress("genhtml makes the pages")
        words = ["--quiet", "--branch-coverage", "--demangle-cpp", "--title", title_of(coverage, unknown),
                 "--output-directory", folder]
        done = subprocess.run(["genhtml", *words, path], capture_output=True, text=True, errors="replace", check=False)
        progress("")
    if done.returncode:
        raise Refusal(f"genhtml makes no pages: {(done.stderr.strip() or 'no reason').splitlines()[-1]}")
    mark_unknown(folder, unknown)
    order_lists(folder)
