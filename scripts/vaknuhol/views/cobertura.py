"""Lines, branches and functions as Cobertura XML (coverage-04.dtd): a package for each folder, a class for each
file."""
import os
import time
from collections.abc import Callable, Iterable
from xml.etree import ElementTree

from vaknuhol import VERSION
from vaknuhol.program.function_names import namer
from vaknuhol.views.coverage import Coverage
from vaknuhol.views.line_counts import Line

HEAD = '<?xml version="1.0" ?>\n<!DOCTYPE coverage SYSTEM "http://cobertura.sourceforge.net/xml/coverage-04.dtd">\n'


def rate(counts: Iterable[int | None], none: str) -> str:
    """How many of the counts aren't 0; a text where there are no counts."""
    counts = list(counts)
    return f"{sum(1 for count in counts if count) / len(counts):.4f}" if counts else none


def ways(lines: Iterable[Line]) -> list[int]:
    """The counts of all ways of branches."""
    return [count for line in lines for branch in line.branches for count in branch]


def rated(parent: ElementTree.Element, kind: str, lines: Iterable[Line], **attributes: str) -> ElementTree.Element:
    lines = list(lines)
    rates = {"line-rate": rate((line.count for line in lines), "1.0"), "branch-rate": rate(ways(lines), "0.0"),
             "complexity": "0.0"}
    return ElementTree.SubElement(parent, kind, {**attributes, **rates})


def add_line(parent: ElementTree.Element, number: int, line: Line) -> None:
    attributes, gone = {"number": str(number), "hits": str(line.count), "branch": "false"}, ways([line])
    if gone:
        hit = sum(1 for count in gone if count)
        attributes |= {"branch": "true", "condition-coverage": f"{100 * hit // len(gone)}% ({hit}/{len(gone)})"}
    ElementTree.SubElement(parent, "line", attributes)


def add_lines(parent: ElementTree.Element, lines: dict[int, Line]) -> None:
    element = ElementTree.SubElement(parent, "lines")
    for number, line in lines.items():
        add_line(element, number, line)


def add_file(classes: ElementTree.Element, file: str, lines: dict[int, Line], functions: dict[str, tuple[int, int]],
             names: Callable[[str], str]) -> None:
    element = rated(classes, "class", lines.values(), name=os.path.basename(file).replace(".", "_"),
                    filename=file.lstrip("/"))
    methods = ElementTree.SubElement(element, "methods")
    for function, (number, count) in sorted(functions.items()):
        head = Line(count, True, 0, [])
        method = rated(methods, "method", [head], name=names(function), signature="")
        add_lines(method, {number: head})
    add_lines(element, lines)


def text(coverage: Coverage) -> str:
    """The whole text; names of files are those below the root folder, as `sources` says."""
    files, functions = coverage.known_lines(), coverage.file_functions()
    names = namer(name for found in functions.values() for name in found)
    lines = [line for found in files.values() for line in found.values()]
    gone = ways(lines)
    top = ElementTree.Element("coverage", {
        "line-rate": rate((line.count for line in lines), "1.0"), "branch-rate": rate(gone, "0.0"),
        "lines-covered": str(sum(1 for line in lines if line.count)), "lines-valid": str(len(lines)),
        "branches-covered": str(sum(1 for count in gone if count)), "branches-valid": str(len(gone)),
        "complexity": "0.0",
        "version": f"vaknuhol {VERSION}", "timestamp": str(int(time.time()))})
    ElementTree.SubElement(ElementTree.SubElement(top, "sources"), "source").text = "/"
    packages = ElementTree.SubElement(top, "packages")
    for folder in sorted({os.path.dirname(file) for file in files}):
        inside = {file: found for file, found in files.items() if os.path.dirname(file) == folder}
        package = rated(packages, "package", [line for found in inside.values() for line in found.values()],
                        name=folder.strip("/").replace("/", ".") or ".")
        classes = ElementTree.SubElement(package, "classes")
        for file, found in inside.items():
            add_file(classes, file, found, functions[file], names)
    ElementTree.indent(top)
    return HEAD + ElementTree.tostring(top, encoding="unicode") + "\n"
