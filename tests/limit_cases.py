"""Commands at each stated limit (docs/reference/limits.md, Limits of inputs), with what they print and leave.

Each group is a generator, so that the files of one case alone are held at a time."""
from collections.abc import Callable, Iterator, Mapping
from typing import NamedTuple

from limit_files import MOV, PAGE, TEXT, THREADS, Content, loaded, original, padded, patched, report, script, told_run
from made_rows import Row, cover_event, file_of, most_sites, read, ring_event, run_rows
from settled_rows import SETTLE, TINY, UNSETTLE, highest, settled

# of an input in bytes; lines of STARTS; of SITES, and rows of a report; RESERVE words; steps; pages of a report
MOST, STARTS, SITES, RESERVES, STEPS, PAGES = 1 << 28, 1 << 22, 1 << 16, 256, 10_000_000, 0x7FFF0
SUMMARY = read("rows/cover_of_one_mov/stdout")
SHORT = MOV + b"\x90\x90"
Files = Mapping[str, Content]
LISTS: Files = {"S": b"401000\n401005\n401006\n", "T": b"401000\n"}
PATCH, LOAD, THREAD = "patch F S T cover O R", "load F S T cover O R", "threads F S T O"
CHECK, STEP, UNPATCH = "check F O S R", "step F S W 1", "unpatch O R N"


class Command(NamedTuple):
    words: str
    status: int
    stdout: bytes


class Case(NamedTuple):
    """Commands one after the other, the files before them, and those that they make: of one of None the next command tells."""

    name: str
    inputs: Files
    commands: list[Command]
    outputs: Mapping[str, Content | None] = {}


def refused(words: str, inputs: Files, told: str) -> Case:
    """A command that is refused, and makes no file."""
    return Case(f"{words}, refused {told}", inputs, [Command(words, 3, f"refused {told}\n".encode())])


def one_site(text: bytes, lists: Files, length: int, reserves: str = "") -> Iterator[Case]:
    """What each command that writes makes of a file with one site."""
    inputs: Files = {"F": original(text, length), **lists}
    outputs: Files = {"O": patched(text, length), "R": report(length)}
    yield Case("patch", inputs, [Command(PATCH + reserves, 0, SUMMARY)], outputs)
    yield Case("threads", inputs, [Command(THREAD + reserves, 0, SUMMARY)], {"O": patched(text, length, THREADS)})
    yield Case("load", inputs, [Command(LOAD + reserves, 0, SUMMARY)], {**outputs, "O": loaded(text, length)})


def judged(text: bytes, lists: Files, length: int) -> Iterator[Case]:
    """What the other commands tell of it and of its patch."""
    files: Files = {"F": original(text, length), "S": lists["S"]}
    outputs: Files = {"O": patched(text, length), "R": report(length)}
    yield Case("step", {**files, "W": script()}, [Command(STEP, 0, told_run(1, 2, TEXT + 5, 0x3C))])
    yield Case("check", {**files, **outputs}, [Command(CHECK, 0, b"check yes\n")])
    yield Case("unpatch", outputs, [Command(UNPATCH, 0, b"restored %d\n" % length)], {"N": files["F"]})


def longest_files() -> Iterator[Case]:
    """FILE and, where it is read, OUT have as many bytes as an input may have."""
    yield from one_site(SHORT, LISTS, MOST)
    yield from judged(SHORT, LISTS, MOST - 3 * PAGE)
    inputs: Files = {"F": original(SHORT, MOST), "S": LISTS["S"], "W": script()}
    file, base = padded(TINY, MOST - PAGE), highest(TINY)
    commands = [Command(SETTLE, 0, b"settled %08x\n" % base), Command(UNSETTLE, 0, b"unsettled %d\n" % (MOST - PAGE))]
    yield Case("settle and unsettle", {"F": file}, commands, {"O": padded(settled(TINY, base), MOST), "N": file})
    yield Case("step of the longest", inputs, [Command(STEP, 0, told_run(1, 2, TEXT + 5, 0x3C))])


# each command, and its inputs by the names that it tells them by
INPUTS = [(words, {"F": "FILE", "S": "STARTS", "T": "SITES"}) for words in (PATCH, LOAD, THREAD)] + [
    (CHECK, {"F": "FILE", "O": "OUT", "S": "STARTS", "R": "REPORT"}),
    (STEP, {"F": "FILE", "S": "STARTS", "W": "WORLD"}),
    (UNPATCH, {"O": "OUT", "R": "REPORT"}),
    (SETTLE, {"F": "FILE"}),
    (UNSETTLE, {"O": "FILE"}),
]


def usual() -> Files:
    """Short files for any command."""
    length = PAGE + len(SHORT)
    return {"F": original(SHORT, length), **LISTS, "O": patched(SHORT, length), "R": report(length), "W": script()}


# how the usual texts are refused where zeros stand behind them, by the names that they are told by
WITH_ZEROS = {"STARTS": "1 BadLine 4", "SITES": "1 BadLine 2", "REPORT": "1 BadReport 11", "WORLD": "1 BadScript 22"}


def longest_texts() -> Iterator[Case]:
    """A text as long as an input may be is judged: zeros stand behind its last line. Of an input one byte longer the length is told, and no
    later input is read: there is none."""
    for words, names in INPUTS:
        files = {name: usual()[name] for name in names}
        for name, told in names.items():
            if told in WITH_ZEROS:
                front = files[name]
                assert isinstance(front, bytes)
                yield refused(words, {**files, name: padded(front, MOST)}, f"{told} {WITH_ZEROS[told]}")
            before = words.split().index(name)
            earlier = {it: content for it, content in files.items() if words.split().index(it) < before}
            yield refused(words, {**earlier, name: padded(b"", MOST + 1)}, f"{told} 20 TooLong {MOST}")


def most_starts() -> Iterator[Case]:
    """As many starts as STARTS may have, and one more; one more site than SITES may have."""
    text = MOV + b"\x90" * (STARTS - 1)
    lines = "".join(f"{at:x}\n" for at in (TEXT, *range(TEXT + 5, TEXT + 4 + STARTS))).encode()
    lists: Files = {"S": lines, "T": b"401000\n"}
    yield from one_site(text, lists, PAGE + len(text))
    yield from judged(text, lists, PAGE + len(text))
    more = lines + b"40000000\n"
    for words, names in INPUTS:
        files = {name: usual()[name] for name in names}
        if "S" in names:
            yield refused(words, {**files, "S": more}, f"STARTS 3 TooMany {STARTS}")
        if "T" in names:
            front = b"".join(lines.splitlines(keepends=True)[: SITES + 1])
            yield refused(words, {**files, "T": front}, f"SITES 3 TooMany {SITES}")


def of_most(row: Row) -> Iterator[Case]:
    """What `check` and `unpatch` tell of a patch of 65,536 sites, and what `unpatch` does of the same in the loader form."""
    inputs, outputs = row.inputs, row.outputs
    assert isinstance(row.stdout, bytes)
    yield Case(f"check {row.name}", {**inputs, **outputs}, [Command(CHECK, 0, b"check yes\n")])
    restored = b"restored %d\n" % len(inputs["F"])
    yield Case(f"unpatch {row.name}", outputs, [Command(UNPATCH, 0, restored)], {"N": inputs["F"]})
    words = " ".join(it.decode() for it in row.words).replace("patch", "load", 1)
    commands = [Command(words, 0, row.stdout), Command(UNPATCH, 0, restored)]
    yield Case(f"load and unpatch {row.name}", inputs, commands, {"O": None, "R": outputs["R"], "N": inputs["F"]})


def most_rows() -> Iterator[Case]:
    """65,536 sites, with the shortest events and with the longest report that `patch` was seen to write of so many."""
    for row in (*most_sites("cover", cover_event, 64 + SITES), *most_sites(f"ring:{SITES}", ring_event(SITES), 68 + 4 * SITES)):
        yield from of_most(row)


def most_runs() -> Iterator[Case]:
    """As many runs of pages as a stub maps; one more is refused by a row."""
    row = next(run_rows())
    count = SITES - 1
    inputs = {**row.inputs, "T": b"".join(row.inputs["T"].splitlines(keepends=True)[:count])}
    told = f"sites {count} patched {count} left 0\nB1 0 B2 {count} T1 0 T2 0 T3 0\nNotRelocatable 0 NoPlan 0 Shared 0\n".encode()
    commands = [Command(LOAD, 0, told), Command(UNPATCH, 0, b"restored %d\n" % len(inputs["F"]))]
    yield Case("load and unpatch", inputs, commands, {"O": None, "R": None, "N": inputs["F"]})


def field(at: int, length: int) -> bytes:
    return bytes((at >> 3 & 0xFF, *range(1, length)))


def longest_report() -> Iterator[Case]:
    """No report is longer: each row has what a victim brings, in fields as long as may be, and all pages are told. Its 196,608 runs are undone."""
    count, length = SITES, 48
    text = b"".join(bytes(16) + field(k, 16) + bytes(16) for k in range(count))
    old = b"".join(b"\x11" * 16 + field(k + 1, 16) + b"\x33" * 16 for k in range(count))
    lines = ["e9report 2\n", f"origin {PAGE + len(text)} 64 1 {TEXT:016x}\n", "action cover\n", "private 00020000 17\n", f"sites {count}\n"]
    for k in reversed(range(count)):
        at = TEXT + length * k
        lines.append(f"site {at:08x} {k} T3\ntramp 00021000 {at:08x} event\ntramp 00021000 {at:08x} plain\n")
        for place in range(length * k, length * k + length, 16):
            lines.append(f"write {TEXT + place:08x} {old[place:place + 16].hex()} {text[place:place + 16].hex()}\n")
        lines.append(f"pun {at:08x} {'00' * 16}\n" * 3)
    lines += [f"page {page << 12:08x} 4294967295\n" for page in range(PAGES)] + ["end\n"]
    inputs: Files = {"O": original(text, PAGE + len(text)), "R": "".join(lines).encode()}
    restored = b"restored %d\n" % (PAGE + len(text))
    yield Case("unpatch", inputs, [Command(UNPATCH, 0, restored)], {"N": original(old, PAGE + len(text))})


def longest_written() -> Iterator[Case]:
    """A report of more than 8 MiB, of 57,000 sites each of which has a victim, is written, passes the check, and undoes its patch, that of
    `load` too. No start is listed between a site and its victim, and no jump over those bytes leads where something is free."""
    count, block = 57_000, b"\x89\xd8" + b"\xe0" * 4 + b"\x66\x2e\x0f\x1f\x84" + bytes(5)
    sites = [TEXT + len(block) * k for k in range(count)]
    file = file_of(64, 1, block * count)
    inputs: Files = {
        "F": file,
        "S": "".join(f"{at:x}\n{at + 6:x}\n" for at in sites).encode(),
        "T": "".join(f"{at:x}\n" for at in sites).encode(),
    }
    told = f"sites {count} patched {count} left 0\nB1 0 B2 0 T1 0 T2 0 T3 {count}\nNotRelocatable 0 NoPlan 0 Shared 0\n".encode()
    outputs: Mapping[str, Content | None] = {"O": None, "R": None, "N": file}
    undone = Command(UNPATCH, 0, b"restored %d\n" % len(file))
    yield Case("patch, check and unpatch", inputs, [Command(PATCH, 0, told), Command(CHECK, 0, b"check yes\n"), undone], outputs)
    yield Case("load and unpatch", inputs, [Command(LOAD, 0, told), undone], outputs)


def most_reserves() -> Iterator[Case]:
    """256 RESERVE words, the last of which tells; and one more than are taken."""
    far = [f"{at:08x}-{at + PAGE:08x}" for at in range(0x30000000, 0x30000000 + 2 * PAGE * RESERVES, 2 * PAGE)]
    inputs = {name: usual()[name] for name in "FST"}
    yield from one_site(SHORT, LISTS, PAGE + len(SHORT), " " + " ".join(far))
    for words in (PATCH, LOAD, THREAD):
        last = " ".join([words, *far[1:], "00020000-7fff0000"])
        yield refused(last, inputs, "PLAN 2 NoPrivate 1")._replace(name=f"{words.split()[0]}, the last of them")
        usage = Command(" ".join([words, *far, far[0]]), 2, read("rows/unknown_action/stdout"))
        yield Case(f"{words.split()[0]}, one too many", inputs, [usage])
    last = " ".join([LOAD, *far[1:], "00022000-7fff0000"])
    yield refused(last, inputs, "LOADER 2 NoLoader 2")._replace(name="load, no room for the stub")


def longest_runs() -> Iterator[Case]:
    """As many steps as N may tell, and as many regions as a script may have, of as many bytes, with an answer of 64 MB."""
    looped: Files = {"F": original(b"\xeb\xfe", PAGE + 2), "S": b"401000\n"}
    command = Command(f"step F S W {STEPS}", 0, told_run(STEPS, STEPS + 1, TEXT, 0))
    yield Case("most steps", {**looped, "W": script()}, [command])
    zeros = "".join(f"zero {low:016x} {low + (1 << 24):016x} rw-\n" for low in range(1 << 32, 1 << 32 | 16 << 25, 1 << 25))
    answers = "ask 0fa2 -\n" + "".join(f"mem {low:016x} {'a5' * 4096}\n" for low in range(1 << 33, 1 << 33 | 64 << 20, 8192))
    cpuid: Files = {"F": original(b"\x0f\xa2\x90", PAGE + 3), "S": b"401000\n401002\n"}
    world = script((zeros + answers).encode())
    yield Case("largest script", {**cpuid, "W": world}, [Command("step F S W 0", 0, told_run(0, 1, TEXT, 0, 1))])


GROUPS: Mapping[str, Callable[[], Iterator[Case]]] = {
    "files": longest_files,
    "texts": longest_texts,
    "starts": most_starts,
    "sites": most_rows,
    "stub": most_runs,
    "report": longest_report,
    "written": longest_written,
    "reserves": most_reserves,
    "runs": longest_runs,
}
