"""What a start takes: instructions of a patch without sites, by callgrind, with all starts less with the first alone.

A patch that refuses SITES ends when STARTS is read, and so tells what reading a line takes, whatever a compiler puts
into what. Decoding and classification have shares of their own if their functions are called for each start; what is
inlined counts as all else.
"""
import os
import shutil

from measures.profile import Profile
from measures.programs import write_lists
from measures.running import NONE, Bench, point

REFUSED = 3
# by part the functions that do it, of which the first that is called counts with all that it calls
FUNCTIONS = {"decoding": ("decoding::decode", "decoding::shape_in"),
             "classification": ("classification::front_form", "classification::classify")}
# of a hundred starts so many have an instruction at least, which is classified
CLASSIFIED = 99


def instructions(bench: Bench, program: str, sites: str, number: int) -> float:
    """Those of a start in a patch with such SITES; `counts` has those of the whole run."""
    whole, one = (bench.counted([bench.tool, "patch", program, it, sites, "cover", "out", "report"], out, (0, REFUSED))
                  for it, out in (("starts", bench.path("counts")), ("first", os.devnull)))
    return (whole - one) / (number - 1)


def parts_of(profile: Profile, number: int, line: float, each: float) -> dict[str, float]:
    """Instructions of each part that can be told, and of all else."""
    found, inlined = {"reading its line": line}, []
    for part, functions in FUNCTIONS.items():
        called = [it for it in functions if 100 * profile.times(it) >= CLASSIFIED * number]
        if called:
            found[part] = profile.whole(called[0]) / number
        else:
            inlined.append(part)
    found[" and ".join([*inlined, "all else"])] = each - sum(found.values())
    return found


def starts(bench: Bench) -> list[str]:
    """By part, with its share."""
    program = shutil.which("bash-static")
    if not program:
        return point(f"**A start**: bash-static {NONE}.")
    number, _ = write_lists(bench, program)
    with open(bench.path("starts"), encoding="ascii") as file:
        bench.write("first", file.readline())
    bench.write("none", "")
    bench.write("wrong", "-\n")
    line, each = (instructions(bench, program, sites, number) for sites in ("wrong", "none"))
    parts = parts_of(Profile(bench.path("counts")), number, line, each)
    told = ", ".join(f"{name} {cost:.0f} ({100 * cost / each:.0f} %)" for name, cost in parts.items())
    bench.done(["objcopy", "-O", "binary", "-j", ".text", program, "text"])
    return point(f"**A start** takes {each:.0f} instructions: {told} (bash-static, {number:,} starts). A decoding by "
                 f"Zydis takes {bench.decodings('text'):.0f}.")
