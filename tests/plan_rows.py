"""Rows of short texts: what becomes of each site, and each byte of the code, which were worked out by hand; what `check` tells of such
files with a byte changed; and stubs of many runs of pages."""
from collections.abc import Iterator, Sequence
from struct import pack
from typing import NamedTuple

from limit_files import MOV, script, told_run
from made_rows import Row, cover_event, file_of, files_in, read, run_rows, threads_event
from planned_texts import PLANNED
from short_files import PAGE, TEXT, Patch, Site, jumping, report, summary, written

NOPS = b"\x90\x90"
# the event of site 0 that covers, and the one that counts where threads share their memory
COVER, COUNT = cover_event(0), threads_event(0)
# a `jmp` to itself; the bytes behind a short site leave its jump one least place
JUMP, BEHIND, FAR = bytes.fromhex("ebfe"), bytes.fromhex("000002"), 0x2401005


class InThreads(NamedTuple):
    """An instruction that is the only site of a text where threads share their memory, what follows it, the place of its trampoline, and
    what stands there behind the event."""

    why: str
    insn: str
    behind: bytes
    place: int
    work: str


JUMP_BACK, MOV_BACK = "e9d6fffffd", "b83c000000e9dbff3d00"
IN_THREADS = [
    InThreads("a jump to itself, far away", "ebfe", BEHIND, FAR, JUMP_BACK),
    InThreads("a mov, and the jump back", "b83c000000", NOPS, 0x21000, MOV_BACK),
    InThreads("call rax", "ffd0", BEHIND, FAR, "6802104000ffe0" + "90" * 32),
    InThreads("call r12", "41ffd4", BEHIND[1:], FAR, "680310400041ffe4" + "90" * 31),
    InThreads("syscall, and rcx as it leaves it", "0f05", BEHIND, FAR, "0f05b902104000e9d1fffffd"),
]
# a call through memory or rsp would read and push in two steps; a LOOP can't be displaced
LEFT_IN_THREADS = ["ff13", "ffd4", "e2fe"]

# rax and the flags are kept before an event, and come back behind it
KEPT, BACK = "4889842478ffffff9f0f90c0", "047f9e488b842478ffffff"
RAX_IS_5, RING = "4881bc2478ffffff05000000", "4889842470ffffffb801000000f00fc1042540000200"


class Event(NamedTuple):
    """An action, and the code that keeps rax and the flags, records site 3's event, and gives them back; a `mov` follows, with its way back."""

    action: str
    codes: str


# with a number in place of {}, and the number of the site for the counter, the byte or the slot
EVENTS = [
    Event("count when rax == 5 and r9 < 256", KEPT + RAX_IS_5 + "75124981f9000100007309f048ff0425{count}" + BACK),
    Event("cover when rsp > 4096", KEPT + "4881fc001000007608c60425{cover}01" + BACK),
    Event("ring:256", KEPT + RING + "0fb6c0c7048544000200{slot}488b842470ffffff" + BACK),
    Event("ring:65536", KEPT + RING + "0fb7c0c7048544000200{slot}488b842470ffffff" + BACK),
]


def event_of(event: Event, number: int) -> bytes:
    words = {"count": 0x20040 + 8 * number, "cover": 0x20040 + number, "slot": number + 1}
    return bytes.fromhex(event.codes.format(**{name: pack("<I", it).hex() for name, it in words.items()}))


def lines(addresses: Sequence[int]) -> bytes:
    return "".join(f"{it:x}\n" for it in addresses).encode()


def inputs_of(patch: Patch, starts: Sequence[int]) -> dict[str, bytes]:
    return {"F": file_of(64, 1, patch.text), "S": lines(starts), "T": lines(sorted(site.addr for site in patch.sites))}


def row_of(name: str, patch: Patch, starts: Sequence[int], stub: tuple[int, int] | None = None) -> Row:
    """The patch as `patch`, `load` or `threads` writes it."""
    if patch.threads:
        form = ["form:loader"] if stub else []
        action = [] if patch.action == "count" else [f"action:{patch.action}"]
        words = ["threads", *"FSTO", *form, *action, "report:R"]
    else:
        words = ["load" if stub else "patch", *"FST", patch.action, "O", "R"]
    left = any(not site.tramps for site in patch.sites)
    outputs = {"O": written(patch, stub), "R": report(patch)}
    return Row(name, [it.encode() for it in words], inputs_of(patch, starts), int(left), summary(patch), outputs)


def planned_rows() -> Iterator[Row]:
    for why, text, starts, sites in PLANNED:
        yield row_of(f"planned, {why}", Patch(bytes.fromhex(text), sites, 1, "cover"), starts)


def in_threads(insn: str, behind: bytes, place: int, code: bytes, action: str) -> Patch:
    """The patch of a text whose only start is its site."""
    text = bytes.fromhex(insn)
    return Patch(text + behind, [jumping(TEXT, 0, len(text), place, code, behind)], 1, action, True)


def far_jump(action: str, event: bytes, back: str) -> Patch:
    return in_threads("ebfe", BEHIND, FAR, event + bytes.fromhex(back), action)


def thread_rows() -> Iterator[Row]:
    for why, insn, behind, place, work in IN_THREADS:
        yield row_of(f"in threads, {why}", in_threads(insn, behind, place, COUNT + bytes.fromhex(work), "count"), [TEXT])
    for insn in LEFT_IN_THREADS:
        text = bytes.fromhex(insn) + bytes.fromhex("90909090")
        starts = [TEXT, *range(TEXT + 2, TEXT + 6)]
        yield row_of(f"in threads, {insn} is left", Patch(text, [Site(TEXT, 0, "NotRelocatable")], 1, "count", True), starts)
    yield row_of("in threads, a jump to itself is covered", far_jump("cover", COVER, "e9eefffffd"), [TEXT])
    yield row_of("in threads, loader form of a jump to itself", far_jump("count", COUNT, JUMP_BACK), [TEXT], (0x21000, 0x23000))


def event_rows() -> Iterator[Row]:
    """Four sites, of which the highest is the first in turn order and has the number 3."""
    for event in EVENTS:
        pages = 65 if event.action == "ring:65536" else 1
        sites, place = [], 0x20000 + PAGE * pages
        for number in (3, 2, 1, 0):
            addr = TEXT + 5 * number
            code = event_of(event, number) + MOV
            back = b"\xe9" + pack("<i", addr + 5 - place - len(code) - 5)
            sites.append(jumping(addr, number, 5, place, code + back))
            place += len(code) + 5
        patch = Patch(MOV * 4 + NOPS, sites, pages, event.action, True)
        yield row_of(f"in threads, {event.action} at four sites", patch, [TEXT + 5 * k for k in range(5)])


# the jump to itself under each action: the code at FAR, and its changes by place and byte, with the address that is told
CHANGED: list[tuple[Patch, list[tuple[int, int, int]]]] = [
    (far_jump("count", COUNT, JUMP_BACK), [(0, 0x49, 0x2401005)]),
    (far_jump("cover", COVER, "e9eefffffd"), [(3, 0x41, 0x2401008), (7, 2, 0x240100C)]),
    (
        far_jump("count when rax == 5", bytes.fromhex(KEPT + RAX_IS_5 + "7509f048ff042540000200" + BACK), "e9c8fffffd"),
        [(20, 6, 0x2401019), (24, 0x74, 0x240101D)],
    ),
]


def checked(why: str, patch: Patch, out: bytes, told: str, reported: Patch | None = None) -> Row:
    """What `check` tells of a file and a report."""
    files = {"F": file_of(64, 1, patch.text), "O": out, "S": lines([TEXT]), "R": report(reported or patch)}
    return Row(f"check in threads, {why}", b"check F O S R".split(), files, 7 if told.startswith("no") else 0, f"check {told}\n".encode())


def changed_rows() -> Iterator[Row]:
    for patch, changes in CHANGED:
        out = written(patch)
        yield checked(f"{patch.action}", patch, out, "yes")
        at = out.index(patch.sites[0].tramps[0].code)
        for place, byte, addr in changes:
            changed = out[: at + place] + bytes([byte]) + out[at + place + 1 :]
            yield checked(f"{patch.action}, byte {place} is {byte:02x}", patch, changed, f"no {addr:08x} 4")
    counted, compared = CHANGED[0][0], CHANGED[2][0]
    out = written(counted)
    yield checked("the jump is no jump", counted, out[:PAGE] + b"\xeb" + out[PAGE + 1 :], "no 00401000 2")
    yield checked("the report tells no condition", compared, written(compared), "no 02401011 4", counted)
    yield checked("the report tells a condition", counted, out, "no 02401011 4", compared)


OPCODES = b"\x05\x68\xb8"


def far_program(runs: int) -> tuple[Patch, list[int]]:
    """So many sites `mov eax, ecx`, each before an instruction whose bytes leave its jump one place on a page of its own, and NOPs around
    them; the starts. The high bytes of the jumps' distances are all different, so no page is beside another one."""
    text, starts, sites = bytearray(b"\x90" * 11), [], []
    for number in range(runs):
        site, opcode = TEXT + len(text), OPCODES[number % 3]
        behind = bytes([opcode, number // 3 % 256, 1 + number // 768, 0, 0])
        text += b"\x89\xc8" + behind + bytes.fromhex("660f1f840000000000")
        starts += [site, site + 2]
        place = site + 5 + int.from_bytes(b"\0" + behind[:3], "little")
        code = cover_event(number) + b"\x89\xc8\xe9"
        sites.append(jumping(site, number, 2, place, code + pack("<i", site + 2 - place - len(code) - 4), behind))
    return Patch(bytes(text), sites[::-1], -(-(64 + runs) // PAGE), "cover"), starts


# how many runs, and how many pages their stub has; one that maps nothing has a row of its own, and limits.py has most runs
STUBS = [(1, 2), (2, 2), (255, 2), (256, 3), (300, 3)]


def stub_rows() -> Iterator[Row]:
    """Stubs right behind the private range, and the save page behind them."""
    for runs, pages in STUBS:
        patch, starts = far_program(runs)
        stub = 0x20000 + PAGE * patch.pages
        yield row_of(f"stub of {runs} runs", patch, starts, (stub, stub + PAGE * pages))


# what is reserved beside the original's page and behind it, and what is told; the trampoline of the one site stands at 0x21000
BETWEEN, ABOVE = "{}-00401000", "00402000-7fff0000"
NO_LOADER = "refused LOADER 2 NoLoader 2\n"


def place_rows() -> Iterator[Row]:
    """Where the stub's two pages or the save page have no place, and where there is just room."""
    mov = Patch(MOV + NOPS, [jumping(TEXT, 0, 5, 0x21000, COVER + bytes.fromhex("b83c000000e9f3ff3d00"))], 1, "cover")
    whole = row_of("a stub in the only room", mov, [TEXT, TEXT + 5, TEXT + 6], (0x22000, 0x24000))
    for low in ("00022000", "00023000", "00024000"):
        words = [*whole.words, BETWEEN.format(low).encode(), ABOVE.encode()]
        yield Row(f"no place for a stub below {low}", words, whole.inputs, 3, NO_LOADER.encode())
    yield whole._replace(words=[*whole.words, BETWEEN.format("00025000").encode(), ABOVE.encode()])
    most = next(run_rows())
    taken = ["00031000-00401000", "00471000-01400000", "11480000-12400000", "22480000-23400000", "33480000-34400000", "44480000-7fff0000"]
    yield most._replace(name="most_runs, no room", words=[*most.words, *(it.encode() for it in taken)])


def stepped(why: str, out: bytes, steps: int, outside: int, rip: int, rax: int) -> Row:
    """What `step` tells of so many steps of a patched file whose only listed start is its text's first byte."""
    files = {"F": out, "S": lines([TEXT]), "W": script()}
    told = told_run(steps, outside, rip, rax).replace(b"quiet yes", b"quiet no")
    return Row(f"record, {why}", ["step", *"FSW", str(steps)], files, 0, told)


def recorded_rows() -> Iterator[Row]:
    """What an event has recorded, as a later instruction loads it."""
    counted = read("rows/jump_to_itself_counted/after/O")
    # a round has seven instructions: the jump to the trampoline, five that count, of which the second loads the counter, and the jump back
    yield stepped("a thousand rounds", counted, 7000, 1001, TEXT, 0)
    yield stepped("the counter after them", counted, 7003, 1001, FAR + 16, 1000)
    # `mov eax, [0x20040]` as a site: the event comes before the load
    load = bytes.fromhex("8b042540000200")
    code = COVER + load + b"\xe9" + pack("<i", TEXT + 7 - 0x21000 - len(COVER) - 12)
    covered = written(Patch(load + NOPS, [jumping(TEXT, 0, 7, 0x21000, code)], 1, "cover"))
    yield stepped("the byte of a site that loads it", covered, 3, 1, 0x21000 + len(COVER) + 7, 1)


def kept_rows() -> Iterator[Row]:
    """A refusal leaves what NEW holds."""
    files = files_in("rows/unpatch_bytes_differ/before")
    yield Row("unpatch refused, NEW is kept", b"unpatch O R N".split(), {**files, "N": b"kept"}, 3, read("rows/unpatch_bytes_differ/stdout"))


def plan_rows() -> Iterator[Row]:
    for rows in (planned_rows, thread_rows, event_rows, changed_rows, stub_rows, place_rows, recorded_rows, kept_rows):
        yield from rows()
