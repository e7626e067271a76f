"""Source lines of compilation units beside each other."""
import os

from tests.calls import run
from vaknuhol.program.debug_info import debug_info

ONE = "int one(void) {\n  return 1;\n}\n"
TWO = "int one(void);\n\nint two(void) {\n  return one();\n}\nvoid _start(void) {\n  for (;;)\n    two();\n}\n"


def test_a_unit_that_begins_where_another_ends_has_all_of_its_lines(place):
    for name, text in (("one.c", ONE), ("two.c", TWO)):
        with open(name, "w", encoding="utf-8") as file:
            file.write(text)
    run("gcc", "-O0", "-g", "-static", "-nostdlib", "-o", "units", "one.c", "two.c")
    symbols = {name: (int(addr, 16), int(size, 16)) for addr, size, _, name in
               (line.split() for line in run("nm", "-S", "--defined-only", "units").splitlines() if line.count(" ") == 3)}
    begin, end = symbols["two"][0], sum(symbols["two"])
    assert sum(symbols["one"]) == begin
    info = debug_info("units")
    assert [info.place_of(at) for at in (symbols["one"][0], begin - 1, begin, end - 1, end)] == [
        (os.path.join(place, file), number)
        for file, number in (("one.c", 1), ("one.c", 3), ("two.c", 3), ("two.c", 5), ("two.c", 6))
    ]
