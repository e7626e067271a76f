"""What report writes, read by programs that nobody here wrote."""
import html
import json
import os
import re
import shutil
import struct
from xml.etree import ElementTree

import pytest

from tests.calls import SOURCES, leave, match, run
from tests.command import LAST, STEP, call, counts
from tests.needs import need
from tests.programs import Programs, build, inside
from vaknuhol.program.listing import Listing
from vaknuhol.program.program_file import Program
from vaknuhol.recording.record_file import Record
from vaknuhol.views.coverage import Coverage

pytestmark = pytest.mark.xdist_group("reports")
TABLE = re.compile(
    rb"DRCOV VERSION: 2\nDRCOV FLAVOR: drcov\nModule Table: version 2, count ([0-9]+)\n"
    rb"Columns: id, base, end, entry, path\n((?: *[0-9]+, 0x[0-9a-f]+, 0x[0-9a-f]+, 0x[0-9a-f]+, [^\n]+\n)+)"
    rb"BB Table: ([0-9]+) bbs\n"
)


def gcov_lines():
    """The lines of tour.cc with gcov's counts of the same run."""
    os.makedirs("counted", exist_ok=True)
    shutil.copyfile("tour.cc", "counted/tour.cc")
    run("g++", "-O1", "-g", "-fno-inline", "--coverage", "-o", "tour", "tour.cc", cwd="counted")
    run("./tour", "walk", "100", status=(4,), cwd="counted")
    (name,) = [it for it in os.listdir("counted") if it.endswith(".gcda")]
    told = json.loads(run("gcov", "--json-format", "--stdout", name, cwd="counted"))["files"]
    (lines,) = [it["lines"] for it in told if it["file"] == "tour.cc"]
    return {it["line_number"]: it["count"] for it in lines}


def lines_of(path):
    """The lines of the one file of a report, with their counts."""
    with open(path, encoding="utf-8") as file:
        (own,) = json.load(file)["files"]
    return {it["line_number"]: it["count"] for it in own["lines"] if not it["gcovr/noncode"]}


def hits_of(top: ElementTree.Element) -> dict[int, int]:
    """The lines of the one class of a Cobertura file, with their hits."""
    (one,) = top.iter("class")
    return {int(it.attrib["number"]): int(it.attrib["hits"]) for it in one.iterfind("lines/line")}


class Reported:
    """A run of `tour` with what `report` writes of it, in a folder that the tests of this module share."""

    def __init__(self, source: str) -> None:
        self.source, self.program = source, os.path.realpath("tour")
        shutil.copyfile(source, "tour.cc")
        call("count", "tour", "--quiet", "--", "walk", "100", status=4)
        call("report", "tour", *"--lcov tour.info --cobertura tour.xml --json tour.json --drcov tour.drcov".split())
        with open("tour.json", encoding="utf-8") as file:
            self.json = json.load(file)
        self.lines = lines_of("tour.json")
        self.executed = {int(it["first"], 16) for it in self.json["blocks"] if it["count"]}


@pytest.fixture(scope="module")
def reported_once(programs: Programs, module_place: str) -> tuple[str, Reported]:
    with inside(module_place):
        home = programs.bring("tour", "tour.cc", compiler="g++")
        programs.patch("tour", "count", "PROGRAM")
        return module_place, Reported(f"{home}/tour.cc")


@pytest.fixture
def reported(reported_once: tuple[str, Reported]) -> Reported:
    """The same in the working folder of a test."""
    folder, made = reported_once
    shutil.copytree(folder, ".", dirs_exist_ok=True)
    return made


def test_the_same_lines_are_hit_as_by_gcov(reported):
    ours, theirs = reported.lines, gcov_lines()
    wrong = {
        number: (ours[number], theirs[number])
        for number in ours.keys() & theirs.keys()
        if (ours[number] > 0) != (theirs[number] > 0)
    }
    assert not wrong and len(ours.keys() & theirs.keys()) > 15, f"lines are hit by one and missed by the other: {wrong}"
    assert ours[11] == theirs[11] == 100


def test_the_json_has_the_blocks_of_the_record(reported):
    recorded = list(counts().values())
    assert [it["count"] if it["solved"] is None else None for it in reported.json["blocks"]] == recorded
    assert reported.json["state"] == "ended"


def test_the_summary_and_the_table_name_functions_and_lines(reported):
    assert f"{STEP}  tour.cc:11" in call("report", "tour", LAST)[0]
    assert "_ZN4tourL5neverEv tour.cc:" in call("report", "tour", "--table")[0]


def test_lcov_and_genhtml_read_the_tracefile(reported):
    need("lcov", "genhtml")
    ours = reported.lines
    call("report", "tour", "--html", "html")
    run("lcov", "--quiet", "-a", "tour.info", "-a", "tour.info", "-o", "twice.info")
    with open("twice.info", encoding="utf-8") as file:
        twice = {int(number): int(count) for number, count in re.findall(r"^DA:([0-9]+),([0-9]+)", file.read(), re.M)}
    assert twice == {number: 2 * count for number, count in ours.items()}, "lcov -a reads other counts"
    told = run("genhtml", "--output-directory", "pages", "tour.info")
    hit = sum(1 for it in ours.values() if it)
    assert f"({hit} of {len(ours)} lines)" in told, told
    with open("html/index.html", encoding="utf-8") as file:
        assert "tour" in file.read()
    (page,) = [os.path.join(top, it) for top, _, names in os.walk("html") for it in names if it == "tour.cc.gcov.html"]
    with open(page, encoding="utf-8") as file:
        assert re.search(
            r"lineCov.*100.*sum \+= by", file.read()
        ), "the page has no count of the line of 100 executions"


def test_the_cobertura_file_has_the_lines_and_methods(reported):
    ours = reported.lines
    top = ElementTree.parse("tour.xml").getroot()
    (one,) = top.iter("class")
    assert hits_of(top) == ours and one.get("filename") == reported.source.lstrip("/"), hits_of(top)
    assert STEP in [it.get("name") for it in top.iter("method")]


def test_the_cobertura_file_is_valid_by_its_dtd(reported):
    need("xmllint")
    shutil.copyfile(
        f"{SOURCES}/coverage-04.dtd", "coverage-04.dtd"
    )  # as a name without blanks, which xmllint takes for an address
    run("xmllint", "--nonet", "--noout", "--dtdvalid", "coverage-04.dtd", "tour.xml")


def test_gcovr_reads_the_json_and_writes_the_same_cobertura(reported):
    need("gcovr")
    ours, top = reported.lines, ElementTree.parse("tour.xml").getroot()
    run("gcovr", "--root", os.path.dirname(reported.source), "-a", "tour.json", "--cobertura", "theirs.xml")
    theirs = ElementTree.parse("theirs.xml").getroot()
    same = ("lines-covered", "lines-valid")
    assert [theirs.get(it) for it in same] == [
        top.get(it) for it in same
    ], "gcovr's own Cobertura of our JSON has other lines"
    assert hits_of(theirs) == ours, "gcovr reads other counts"


@pytest.mark.skipif(not shutil.which("diff-cover"), reason="diff-cover is not here, which Debian 12 has no package of")
def test_diff_cover_finds_the_lines_of_a_commit_that_were_not_executed():
    need("git")
    build("tour.cc", "tour", compiler="g++")
    call("count", "tour", "--quiet", "--", "walk", "100", status=4)
    call("report", "tour", "--json", "tour.json", "--cobertura", "tour.xml")
    ours = lines_of("tour.json")
    git = ("git", "-c", "user.name=a", "-c", "user.email=a@example.org", "-c", "init.defaultBranch=main")
    run(*git, "init", "--quiet")
    run(*git, "commit", "--quiet", "--allow-empty", "--message", "before")
    run(*git, "add", "tour.cc")
    run(*git, "commit", "--quiet", "--message", "with the source")
    run("diff-cover", "tour.xml", "--compare-branch", "HEAD~1", "--json-report", "uncovered.json")
    with open("uncovered.json", encoding="utf-8") as file:
        (told,) = json.load(file)["src_stats"].values()
    assert told["violation_lines"] == sorted(number for number, count in ours.items() if not count), told


def test_the_drcov_file_has_the_layout_that_dynamorio_documents(reported):
    """Field by field: a head of lines, then start (4), size (2) and module (2) each."""
    executed = reported.executed
    with open("tour.drcov", "rb") as file:
        data = file.read()
    head = TABLE.match(data)
    assert head, data[:300]
    modules, (count, blocks) = head.group(2).splitlines(), (int(head.group(it)) for it in (1, 3))
    number, base, end, entry, path = modules[0].decode().split(", ")
    program = Program("tour")
    assert count == len(modules) == 1 and int(number) == 0 and path == reported.program
    loads = re.findall(r"^ +LOAD +0x\w+ 0x(\w+) 0x\w+ 0x\w+ 0x(\w+) ", run("readelf", "-lW", "tour"), re.M)
    ends = [int(addr, 16) + int(size, 16) for addr, size in loads]
    assert int(base, 16) == 0x400000 == min(at for at, _, _ in program.segments) and len(ends) == len(program.segments)
    assert int(end, 16) == max(ends) + 0xFFF & ~0xFFF > max(at + len(data) for at, _, data in program.segments), end
    assert int(entry, 16) == int(match(r"Entry point address: +(0x[0-9a-f]+)", run("readelf", "-h", "tour"))[1], 16)
    table = data[head.end() :]
    assert len(table) == 8 * blocks
    told = [(int(base, 16) + start, size, module) for start, size, module in struct.iter_unpack("<IHH", table)]
    assert told == [(row.first, row.end - row.first, 0) for row in Record(LAST).rows if row.first in executed]


def test_in_the_pages_a_line_of_which_nothing_is_known_has_a_question_mark(reported):
    """In the place of its count, and each title tells how many there are."""
    need("genhtml")
    leave({it.addr for it in Listing("tour").instructions if it.function == "_ZN4tourL5neverEv"}, LAST, "left")
    unknown = Coverage("tour", Record("left")).unknown_lines()[reported.source]
    call("report", "tour", "left", "--html", "left_pages")
    (page,) = [
        os.path.join(top, it) for top, _, names in os.walk("left_pages") for it in names if it == "tour.cc.gcov.html"
    ]
    with open(page, encoding="utf-8") as file:
        text = file.read()
    assert {28, 29, 30} <= set(unknown) and f"tour, {len(unknown)} unknown lines (?)" in text, unknown
    marked = re.findall(r'^<a name="([0-9]+)">.* *: *<span class="lineUnknown" [^>]*> +\? : .*</span></a>$', text, re.M)
    assert [int(it) for it in marked] == unknown, f"{marked} are marked, and unknown are {unknown}"


def test_without_source_lines_the_pages_show_functions_and_their_instructions(tour):
    """A block's count stands before its first instruction."""
    run("strip", "-o", "bare", "tour")
    words = ("--symbols", ".*Walk.*step.*", "--record", "named", "--quiet", "--", "walk", "7")
    call("count", "tour", *words, status=4)
    (step,) = [row for row in Record("named").rows]
    call(
        "count", "bare", "--blocks", "--within", f"{step.first:x}-{step.end:x}", "--quiet", "--", "walk", "7", status=4
    )
    call("report", "bare", "--html", "code")
    with open("code/index.html", encoding="utf-8") as file:
        (link, name) = re.findall(r' data-of="7">7</td>.*<a href="([0-9a-f]{8}\.html)">(.+)</a>', file.read())[0]
    with open(f"code/{link}", encoding="utf-8") as file:
        (block, *_) = re.findall(r'<span class="hit"><span class="count"> *([0-9]*)</span>((?s:.*?))</span>', file.read())
    lines = re.findall(r"^ +([0-9a-f]+)  (.+)$", block[1], re.M)
    assert block[0] == "7" and lines[0][0] == f"{step.first:x}" and len(lines) > 1, block
    told = run("objdump", "-dw", "--no-show-raw-insn", "bare")
    assert all(f"{address}:\t{html.unescape(text)}" in told for address, text in lines), lines
