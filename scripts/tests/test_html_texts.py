"""Pages of a program whose names and source have signs of HTML: a parser reads them back as they were."""
import os
import re
from html.parser import HTMLParser

import pytest

from tests.calls import run
from tests.command import call
from tests.doubles import double
from tests.made_coverage import BASE, LESS, coverage_of, record_of
from tests.needs import need
from tests.programs import compile_text
from vaknuhol.views import code_pages
from vaknuhol.views.annotation import Block, Instruction, Part, Source
from vaknuhol.views.annotation_page import page_of
from vaknuhol.views.source_pages import order_lists

SOURCE, CALL, CODE = '<a>"&\'.c', 'if (i < n && s["&lt;"])', 'mov    0x8(%rax),<sym> &lt;"'
VOID = ("meta",)


class Page(HTMLParser):
    """The texts of a page, each with the elements around it; elements are closed in their order, and none is there but
    those that the pages are made of."""

    KNOWN = {"html", "head", "meta", "title", "style", "body", "h1", "h2", "p", "nav", "table", "tr", "td", "th", "a"}
    KNOWN |= {"pre", "div", "span", "thead", "tbody", "script"}

    def __init__(self, text: str) -> None:
        super().__init__(convert_charrefs=True)
        self.around: list[tuple[str, dict[str, str | None]]] = []
        self.texts: list[tuple[str, str]] = []
        self.links: list[tuple[str, str]] = []
        self.parts: list[str] = []
        self.ids: list[str] = []
        self.feed(text)
        self.close()
        assert not self.around, f"not closed: {self.around}"

    def handle_starttag(self, tag, attrs):
        assert tag in self.KNOWN, f"<{tag}> came out of a name"
        self.ids += [value for name, value in attrs if name == "id" and value]
        if tag not in VOID:
            self.around.append((tag, dict(attrs)))

    def handle_endtag(self, tag):
        assert self.around.pop()[0] == tag, f"</{tag}> closes nothing"

    def handle_data(self, data):
        tag, attributes = self.around[-1] if self.around else ("", {})
        self.texts.append((tag, data))
        if tag == "a":
            self.links.append((attributes.get("href") or "", data))

    def of(self, tag: str) -> list[str]:
        return [text for of, text in self.texts if of == tag and text.strip()]

    def whole(self) -> str:
        return "".join(text for _, text in self.texts)


def test_each_name_and_line_of_an_annotated_page_is_read_as_it_was():
    """Of functions, places of inlined calls, files, lines of source, instructions, and the program."""
    row = double(count=7, how=None)
    items = [Block(row), Source(SOURCE, 3, CALL, LESS), Instruction(BASE, CODE), Instruction(BASE + 5, "ret")]
    part = Part(LESS, [(BASE, BASE + 8)], "caller<&>")
    part.entered, part.greatest = 7, 7
    annotation = double(names=str, items=lambda _: items, coverage=coverage_of(path="dir/<prog>&"))
    page = Page(page_of(annotation, [part]))
    title = f"{LESS} (inlined in caller<&>)"
    assert page.of("title") == page.of("h1") == ["<prog>&, annotated"]
    assert page.links == [("#f0", title)] and page.ids == ["f0"]
    assert page.of("h2") == [f"{title}, entered 7 times"]
    text = page.whole()
    assert f"{SOURCE}:3 ({LESS}, inlined)  {CALL}\n" in text and f"7{BASE:x}  {CODE}\n{BASE + 5:x}  ret\n" in text


@pytest.mark.parametrize(
    "counts, kinds",
    [
        ([100, 50, 49, 10, 9, 0, None], ["hot", "hot", "warm", "warm", "", "none", ""]),
        ([0, None, 1], ["none", "", "hot"]),
    ],
)
def test_blocks_of_a_page_are_marked_by_their_share_of_the_greatest_count(counts, kinds):
    """Half of it is hot, and a tenth warm."""
    items = [Block(double(count=count, how=None)) for count in counts]
    part = Part("f", [(BASE, BASE + 8)])
    part.greatest = max(count or 0 for count in counts)
    page = page_of(double(names=str, items=lambda _: items, coverage=coverage_of()), [part])
    assert [text.partition('"')[0].strip() for text in page.split('<div class="b')[1:]] == kinds


def test_a_count_that_is_solved_or_unknown_has_a_mark_in_the_page():
    items = []
    for number, row in enumerate((double(count=5, how="solved"), double(count=None, how=None), double(count=6, how=None))):
        items += [Block(row), Instruction(BASE + number, "nop")]
    part = Part("f", [(BASE, BASE + 8)])
    text = Page(page_of(double(names=str, items=lambda _: items, coverage=coverage_of()), [part])).whole()
    assert all(f"{count}{BASE + number:x}  nop" in text for number, count in enumerate(("~5", "?", "6"))), text
    assert "how often the block" in text and "?" in text


TEXTS = {BASE: CODE, BASE + 5: "ret", BASE + 0x10: "nop", BASE + 0x14: "nop", BASE + 0x16: "nop"}


def made_coverage(**more):
    """A program whose code is TEXTS."""
    between = lambda low, high: [at for at in sorted(TEXTS) if low <= at < high]  # noqa: E731
    names = {BASE: LESS, BASE + 0x10: "plain"}
    return coverage_of(**{"path": "dir/<prog>&", "functions": names, "listing": double(between=between), **more})


def made_pages(**more) -> dict[str, str]:
    """The pages of a program without lines, and of their names the texts."""
    coverage = made_coverage(**more)
    functions = code_pages.functions_of(coverage)
    pages = {it.file(): code_pages.function_page(it, coverage, TEXTS) for it in functions if it.hit}
    return {"index.html": code_pages.index_page(coverage, functions), **pages}


def test_each_name_and_instruction_of_code_pages_is_read_as_it_was():
    pages = {name: Page(text) for name, text in made_pages().items()}
    assert pages.keys() == {"index.html", f"{BASE:08x}.html", f"{BASE + 0x10:08x}.html"}
    index, page = pages["index.html"], pages[f"{BASE:08x}.html"]
    assert index.of("title") == index.of("h1") == ["<prog>&, count"]
    assert sorted(index.links) == [(f"{BASE:08x}.html", LESS), (f"{BASE + 0x10:08x}.html", "plain")]
    assert page.of("title") == page.of("h1") == [LESS]
    assert f"{'7':>14}  {BASE:8x}  {CODE}\n" in page.whole(), page.whole()
    assert index.of("p") == ["2 of 3 blocks executed, in 2 of 2 functions; a click on a column's head sorts by it"]


def test_code_pages_are_in_the_order_of_the_greatest_counts():
    rows = [(link, text) for link, text in Page(made_pages()["index.html"]).links]
    assert [text for _, text in rows] == ["plain", LESS], "plain has a block with 9, the other one with 7"


def rows_of_index(**more) -> list[list[str]]:
    """The texts of the cells of the index, row by row; of the head the texts of its columns."""
    return [re.findall(r"<t[dh][^>]*>(.*?)</t[dh]>", row) for row in re.findall("<tr>(.*?)</tr>", made_pages(**more)["index.html"])]


def test_a_function_has_its_share_of_the_executed_instructions():
    """Of plain the two of its block with 9, of the other function the two of its block with 7."""
    head, plain, less = rows_of_index()
    assert head == ["greatest count", "share of instructions", "blocks executed", "left", "function", "address"]
    assert plain[:4] == ["9", "56.25 %", "1 of 1", "1"] and plain[5] == f"{BASE + 0x10:08x}"
    assert less[:4] == ["7", "43.75 %", "1 of 2", ""]


def test_a_record_of_cover_has_no_share_of_instructions():
    assert rows_of_index(record=record_of("cover"))[0] == ["blocks executed", "left", "function", "address"]


def test_a_function_that_was_not_executed_stands_in_a_list_and_has_no_page():
    """Those with the most blocks first; a function whose blocks were left is among them, as one that may have run."""
    blocks = [(BASE, BASE + 8, 0, None), (BASE + 8, BASE + 0x10, 0, None), (BASE + 0x10, BASE + 0x14, None, "NoPlan")]
    names = {BASE: "none", BASE + 0x10: "left", BASE + 0x14: "ran"}
    given = {"functions": names, "firsts": set(names)}
    pages = made_pages(record=record_of(blocks=[*blocks, (BASE + 0x14, BASE + 0x18, 9, None)]), **given)
    assert pages.keys() == {"index.html", f"{BASE + 0x14:08x}.html"}
    index = Page(pages["index.html"])
    assert index.links == [(f"{BASE + 0x14:08x}.html", "ran")]
    assert index.of("h2") == ["2 functions of which no execution was recorded"]
    rows = rows_of_index(record=record_of(blocks=[*blocks, (BASE + 0x14, BASE + 0x18, 9, None)]), **given)
    assert rows[2:] == [
        ["blocks", "left", "function", "address"],
        ["2", "", "none", f"{BASE:08x}"],
        ["0", "1", "left", f"{BASE + 0x10:08x}"],
    ]
    nothing = Page(made_pages(record=record_of(blocks=blocks), **given)["index.html"])
    assert not nothing.links and nothing.of("p")[0].startswith("0 of 2 blocks executed, in 0 of 2 functions;")


def test_code_of_functions_near_each_other_is_disassembled_at_once():
    near = code_pages.NEAR
    ends = [(BASE, BASE + 8), (BASE + 8 + near, BASE + 0x10 + near), (BASE + 0x11 + 2 * near, BASE + 0x20 + 2 * near)]
    functions = [code_pages.Function(low, "f", record_of(blocks=[(low, end, 1, None)]).rows) for low, end in ends]
    assert list(code_pages.spans(functions)) == [(BASE, BASE + 0x10 + near), ends[2]]
    assert not list(code_pages.spans([]))


def test_a_record_of_one_block_alone_has_one_page():
    coverage = coverage_of(record_of(blocks=[(BASE + 8, BASE + 0x10, 1, None)]), functions={}, firsts=set())
    (function,) = code_pages.functions_of(coverage)
    assert (function.first, function.name) == (BASE + 8, f"the function at {BASE + 8:08x}")


def tracefile(counts: dict[str, dict[str, int]]) -> str:
    """Of files functions with their counts, each on a line of its own."""
    lines = []
    for file, functions in counts.items():
        os.makedirs(os.path.dirname(file), exist_ok=True)
        with open(file, "w", encoding="utf-8") as source:
            source.writelines(f"{name}\n" for name in functions)
        lines.append(f"SF:{os.path.abspath(file)}")
        for number, (name, count) in enumerate(functions.items(), 1):
            lines += [f"FN:{number},{name}", f"FNDA:{count},{name}", f"DA:{number},{count}"]
        lines.append("end_of_record")
    return "\n".join(lines) + "\n"


def listed(name: str) -> list[str]:
    with open(name, encoding="utf-8") as file:
        return re.findall(r'<td class="cover(?:File|Fn)"><a [^>]*>(.*?)</a>', file.read())


def test_pages_of_source_lines_list_what_was_executed_first(place):
    """Folders, files and functions, each by name; functions by their counts, the greatest first."""
    need("genhtml")
    counts = {"p/a/a.c": {"x": 0}, "p/b/a.c": {"y": 0}, "p/b/c.c": {"r": 0, "t": 2, "s": 3}, "p/b/b.c": {"z": 0}}
    with open("made.info", "w", encoding="utf-8") as file:
        file.write(tracefile(counts))
    run("genhtml", "--quiet", "--output-directory", "pages", "made.info")
    before = {name: listed(f"pages/{name}") for name in ("index.html", "b/index.html", "b/c.c.func.html")}
    assert before == {"index.html": ["a", "b"], "b/index.html": ["a.c", "b.c", "c.c"], "b/c.c.func.html": ["r", "s", "t"]}
    order_lists("pages")
    assert listed("pages/index.html") == ["b", "a"] and listed("pages/b/index.html") == ["c.c", "a.c", "b.c"]
    assert listed("pages/b/c.c.func.html") == ["s", "t", "r"] == listed("pages/b/c.c.func-sort-c.html")
    assert listed("pages/b/index-sort-l.html")[2:] == ["c.c"], "as genhtml sorts by the share of lines, the least first"


PROGRAM = """template <typename T> int less(const T &a, const T &b) { return a < b && "<&>"[a & 1] != '"'; }
int main(int n, char **) { return less<int>(n, 4) + less<unsigned>(n, 2); }
"""


def test_the_pages_of_a_program_with_such_a_name_and_source_are_read_as_they_were(place):
    """Annotated with lines, and without any."""
    source = "a<b>&.cc"
    compile_text("prog", source, PROGRAM, "-g", "-O0")
    call("count", "prog", "--own", "--quiet", status=2)
    call("annotate", "prog", "--html", "page.html")
    with open("page.html", encoding="utf-8") as file:
        page = Page(file.read())
    assert {"int less<int>(int const&, int const&)", "main"} <= {text for _, text in page.links}, page.links
    assert f"{source}:1  {PROGRAM.splitlines()[0]}\n" in page.whole(), page.whole()
    run("strip", "--strip-debug", "-o", "bare", "prog")
    call("count", "bare", "--symbols", ".*less.*|main", "--quiet", status=2)
    call("report", "bare", "--html", "pages")
    with open("pages/index.html", encoding="utf-8") as file:
        links = Page(file.read()).links
    assert {"int less<int>(int const&, int const&)", "main"} <= {text for _, text in links}, links
    for name, title in links:
        with open(os.path.join("pages", name), encoding="utf-8") as file:
            assert Page(file.read()).of("h1") == [title]
