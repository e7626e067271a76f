"""What the formats say of a record that is made up, by readers that share nothing with the writers."""
import json
import os
import re
import shutil
import struct
from xml.etree import ElementTree

import pytest

from tests.calls import SOURCES, run
from tests.doubles import double
from tests.made_coverage import BASE, FILE, KNOWN, LESS, NAME, OTHER, coverage_of, record_of, write_elf
from tests.needs import need
from vaknuhol.views import cobertura, drcov, json_report, lcov
from vaknuhol.views.coverage import Place
from vaknuhol.views.instances import Function

WAYS = [count for it in KNOWN.values() for branch in it.branches for count in branch]  # 0 7 0 0 4 5 0 9


def xml() -> ElementTree.Element:
    return ElementTree.fromstring(cobertura.text(coverage_of()))


def test_the_head_of_cobertura_counts_lines_and_ways_of_branches():
    top = xml()
    assert {name: top.get(name) for name in ("lines-covered", "lines-valid", "branches-covered", "branches-valid")} == {
        "lines-covered": "3",
        "lines-valid": "4",
        "branches-covered": "4",
        "branches-valid": "8",
    }
    assert (top.get("line-rate"), top.get("branch-rate")) == ("0.7500", "0.5000")


def test_a_line_of_cobertura_tells_how_many_of_its_ways_were_gone():
    lines = {it.get("number"): it.attrib for it in xml().iterfind("packages/package/classes/class/lines/line")}
    assert lines == {
        "3": {"number": "3", "hits": "7", "branch": "false"},
        "4": {"number": "4", "hits": "7", "branch": "true", "condition-coverage": "50% (1/2)"},
        "6": {"number": "6", "hits": "0", "branch": "true", "condition-coverage": "0% (0/2)"},
        "7": {"number": "7", "hits": "9", "branch": "true", "condition-coverage": "75% (3/4)"},
    }


def test_packages_classes_and_methods_of_cobertura_have_names_and_rates():
    (package,), (one,) = xml().iterfind("packages/package"), xml().iter("class")
    assert (package.get("name"), package.get("line-rate"), package.get("branch-rate")) == ("made.a&b", "0.7500", "0.5000")
    assert (one.get("filename"), one.get("name")) == (FILE.lstrip("/"), NAME.replace(".", "_"))
    methods = {it.get("name"): it for it in one.iterfind("methods/method")}
    assert {name: it.get("line-rate") for name, it in methods.items()} == {LESS: "1.0000", OTHER: "0.0000"}
    assert [it.attrib for it in methods[OTHER].iterfind("lines/line")] == [
        {"number": "6", "hits": "0", "branch": "false"}
    ]


def test_cobertura_with_names_that_are_trouble_is_valid_by_its_dtd(place):
    need("xmllint")
    shutil.copyfile(f"{SOURCES}/coverage-04.dtd", "coverage-04.dtd")
    with open("made.xml", "w", encoding="utf-8") as file:
        file.write(cobertura.text(coverage_of()))
    run("xmllint", "--nonet", "--noout", "--dtdvalid", "coverage-04.dtd", "made.xml")


def made_json() -> dict:
    return json.loads(json_report.text(coverage_of(record_of(processes=3, threads=1, execs=2))))


def test_the_json_tells_which_way_of_a_branch_falls_through():
    """As gcov's own: of each branch the way that was not taken."""
    (file,) = made_json()["files"]
    lines = {it["line_number"]: it for it in file["lines"]}
    assert [(it["count"], it["fallthrough"], it["throw"]) for it in lines[7]["branches"]] == [
        (4, False, False),
        (5, True, False),
        (0, False, False),
        (9, True, False),
    ]
    assert [it["count"] for it in lines[4]["branches"]] == [0, 7] and lines[3]["branches"] == []


def test_the_json_has_lines_with_counts_and_lines_without_code_alone():
    (file,) = made_json()["files"]
    assert file["file"] == FILE
    assert [(it["line_number"], it["count"], it["gcovr/noncode"]) for it in file["lines"]] == [
        (3, 7, False),
        (4, 7, False),
        (6, 0, False),
        (7, 9, False),
        (9, 0, True),
    ], "a line of which nothing is known has none"
    assert [(it["name"], it["lineno"], it["execution_count"]) for it in file["functions"]] == [
        (LESS, 3, 7),
        (OTHER, 6, 0),
    ]


def test_the_json_has_the_run_and_each_block():
    whole = made_json()
    assert (whole["vaknuhol"], whole["gcovr/format_version"]) == (1, "0.3")
    assert {name: whole[name] for name in ("processes", "threads", "execs", "state", "action", "program")} == {
        "processes": 3,
        "threads": 1,
        "execs": 2,
        "state": "ended",
        "action": "count",
        "program": "prog",
    }
    assert [(it["first"], it["end"], it["count"], it["left"], it["line"]) for it in whole["blocks"]] == [
        ("00401000", "00401008", 7, None, 3),
        ("00401008", "00401010", 0, None, 4),
        ("00401010", "00401014", None, "NoPlan", 6),
        ("00401014", "00401018", 9, None, 7),
    ]


def test_the_json_tells_where_each_block_stands_and_by_what_its_count_is_known():
    """Of the four: as it is; known by others; inlined, without a file; never known."""
    record = record_of()
    record.rows[1].site, record.rows[1].count, record.rows[1].how = BASE + 12, 5, "assumed"
    record.rows[1].outcome = "Shared"
    places = [Place(LESS, (FILE, 3)), Place(LESS, (FILE, 4)), Place("inner", None, OTHER, 6), Place(OTHER, (FILE, 7))]
    blocks = json.loads(json_report.text(coverage_of(record, places=lambda: zip(record.rows, places))))["blocks"]
    wanted = ("site", "count", "left", "solved", "function", "inlined in", "file", "line")
    assert [tuple(it[name] for name in wanted) for it in blocks] == [
        ("00401000", 7, None, None, LESS, None, FILE, 3),
        ("0040100c", 5, "Shared", "assumed", LESS, None, FILE, 4),
        ("00401010", None, "NoPlan", None, "inner", OTHER, None, None),
        ("00401014", 9, None, None, OTHER, None, FILE, 7),
    ]


def test_the_json_tells_of_a_function_where_it_is_inlined_and_how_often():
    inlined = Function(LESS, FILE, 3)
    inlined.count, inlined.inlined, inlined.places = 7, 4, 2
    (file,) = json.loads(json_report.text(coverage_of(all_functions=[inlined])))["files"]
    (told,) = file["functions"]
    assert (told["execution_count"], told["inlined"], told["inlined_count"]) == (7, 2, 4)


def test_the_json_names_blocks_whose_counts_contradict_each_other():
    whole = json.loads(json_report.text(coverage_of(flow=double(contradicted={3, 1}))))
    assert whole["contradicting blocks"] == ["00401008", "00401014"]


def test_gcovr_counts_lines_and_branches_of_the_json_as_our_cobertura_does(place):
    need("gcovr")
    os.makedirs("root")
    text = json_report.text(coverage_of()).replace(json.dumps(FILE), json.dumps(f"{place}/root/a.c"))
    with open("made.json", "w", encoding="utf-8") as file:
        file.write(text)
    run("gcovr", "--root", "root", "-a", "made.json", "--cobertura", "theirs.xml")
    theirs, ours = ElementTree.parse("theirs.xml").getroot(), xml()
    names = ("lines-covered", "lines-valid", "branches-covered", "branches-valid")
    assert {name: theirs.get(name) for name in names} == {name: ours.get(name) for name in names}
    lines = {it.get("number"): (it.get("hits"), it.get("condition-coverage")) for it in theirs.iterfind(".//lines/line")}
    assert lines["7"] == ("9", "75% (3/4)") and lines["4"] == ("7", "50% (1/2)"), lines


def test_the_tracefile_has_a_dash_where_a_branch_was_not_executed():
    """And 0 for a way that was not gone of one that was; the sums leave out both."""
    text = lcov.text(coverage_of())
    assert re.findall(r"^BRDA:(.*)", text, re.M) == [
        "4,0,0,0", "4,0,1,7", "6,0,0,-", "6,0,1,-", "7,0,0,4", "7,0,1,5", "7,1,0,0", "7,1,1,9"
    ]  # fmt: skip
    sums = dict(re.findall(r"^(BRF|BRH|LF|LH|FNF|FNH):([0-9]+)", text, re.M))
    assert sums == {"BRF": "8", "BRH": "4", "LF": "4", "LH": "3", "FNF": "2", "FNH": "1"}
    assert re.findall(r"^(?:DA|FNDA|FN):(.*)", text, re.M) == [
        f"3,{LESS}", f"7,{LESS}", f"6,{OTHER}", f"0,{OTHER}", "3,7", "4,7", "6,0", "7,9"
    ]  # fmt: skip


def test_lcov_reads_the_sums_of_the_tracefile(place):
    need("lcov")
    with open("made.info", "w", encoding="utf-8") as file:
        file.write(lcov.text(coverage_of()))
    told = run("lcov", "--rc", "lcov_branch_coverage=1", "--summary", "made.info")
    assert "(3 of 4 lines)" in told and "(1 of 2 functions)" in told and "(4 of 8 branches)" in told, told


def drcov_of(data: bytes) -> tuple[dict[str, int], list[tuple[int, int, int]]]:
    """The module of a drcov log by its columns, and its blocks as first address, length and module."""
    head, _, table = data.partition(b" bbs\n")
    lines = head.decode().split("\n")
    names, values = (line.partition(":")[2] if ":" in line else line for line in lines[3:5])
    module = dict(zip((it.strip() for it in names.split(",")), (it.strip() for it in values.split(","))))
    numbers = {name: int(module[name], 0) for name in ("id", "base", "end", "entry")}
    assert len(table) == 8 * int(lines[5].removeprefix("BB Table: "))
    return numbers, [(numbers["base"] + start, size, of) for start, size, of in struct.iter_unpack("<IHH", table)]


@pytest.mark.parametrize("first, base", [(0x401000, 0x401000), (0x401FFF, 0x401000), (0x402001, 0x402000)])
def test_drcov_tells_blocks_from_the_page_on_with_which_the_program_begins(place, first, base):
    """Of the lowest segment, wherever that stands among the others; those that were executed alone, the longest in
    parts."""
    write_elf("prog", 0x402345)
    blocks = [(0x403000, 0x403008, 7, None), (0x403008, 0x403010, 0, None), (0x403010, 0x403018, None, "NoPlan"),
              (0x404000, 0x404000 + 0x10002, 1, None)]  # fmt: skip
    program = double(base=0, entry=0x402345, segments=[(0x500000, 4, b""), (first, 5, b"")], end=0x520001)
    module, found = drcov_of(drcov.log(coverage_of(record_of(blocks=blocks), program=program)))
    assert module == {"id": 0, "base": base, "end": 0x521000, "entry": 0x402345}
    assert found == [(0x403000, 8, 0), (0x404000, 0xFFFF, 0), (0x413FFF, 3, 0)]


# Instructions of `less` (a call of `other` among them) and of `other`: address, length, file and line, target of a call
