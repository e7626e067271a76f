"""Rows that a rule gives: words of no command, a file cut off anywhere, other guests, as many sites as are taken, more runs than a stub maps."""
import os
import re
from struct import pack
from typing import NamedTuple

TESTS = os.path.dirname(os.path.realpath(__file__))
ONE_MOV = "rows/cover_of_one_mov"
COVER = b"patch F S T cover O R".split()
GUESTS = [(1, 1), (2, 3), (3, 20), (4, 50), (5, 300), (7, 2001), (11, 150), (42, 20000), (4660, 250)]
GUESTS += [(81985529216486895, 1000), (2**64 - 1, 12000), (2**64 - 1, 20000)]


class Row(NamedTuple):
    """A command, the files by their names before it and those that it makes or changes, and what it answers."""

    name: str
    words: list
    inputs: dict
    status: int
    # bytes; or, where the status is None, a pattern for the status, a newline and what is printed
    stdout: object
    outputs: dict = {}


def read(path):
    """What a file below tests/ holds, or one of an absolute path."""
    with open(os.path.join(TESTS, path), "rb") as file:
        return file.read()


def files_in(folder):
    """The files in such a folder by their names, none where it is missing."""
    at = os.path.join(TESTS, folder)
    return {name: read(f"{at}/{name}") for name in os.listdir(at)} if os.path.isdir(at) else {}


def usage_rows():
    """The words in usage.txt, parted by `|`, none in an empty line: the usage line is printed, and no file is touched."""
    text = read("rows/unknown_action/stdout")
    for line in read("usage.txt").splitlines():
        words = line.split(b"|") if line else []
        yield Row(f"usage {line.decode()}", words, files_in(f"{ONE_MOV}/before"), 2, text)


def cut_rows():
    """A file of 4,103 bytes, whose table ends at 120, cut off after each number of bytes."""
    inputs, outputs, summary = files_in(f"{ONE_MOV}/before"), files_in(f"{ONE_MOV}/after"), read(f"{ONE_MOV}/stdout")
    whole = inputs["F"]
    for length in range(len(whole)):
        rule = "1 TooShort" if length < 64 else "8 TableOutside" if length < 120 else "10 SegmentOutside 0"
        text = f"refused FILE {rule}\n".encode()
        yield Row(f"cut {length}", COVER, {**inputs, "F": whole[:length]}, 3, text)
    yield Row(f"cut {len(whole)}", COVER, inputs, 0, summary, outputs)


def undone_rows():
    """A patched file or its report cut off, or a byte changed: of the jump at 0x401000, or of what is behind it and compared with nothing."""
    files, words, original = files_in(f"{ONE_MOV}/after"), b"unpatch O R N".split(), read(f"{ONE_MOV}/before/F")
    patched, report = files["O"], files["R"]
    for length in [*range(0, len(patched), 509), 63, 64, 8415, 8416, 16383, 16384, len(patched) - 1]:
        rule = "1 TooShort" if length < 64 else "8 TableOutside" if length < 8416 else f"10 SegmentOutside {1 if length < 16384 else 2}"
        yield Row(f"unpatch cut {length}", words, {**files, "O": patched[:length]}, 3, f"refused OUT {rule}\n".encode())
    for length in range(len(report)):
        text = f"refused REPORT 1 BadReport {report[:length].count(10) + 1}\n".encode()
        yield Row(f"unpatch report cut {length}", words, {**files, "R": report[:length]}, 3, text)
    for place in range(7):
        changed = {**files, "O": patched[: 0x1000 + place] + b"\x01" + patched[0x1001 + place :]}
        if place < 5:
            yield Row(f"unpatch changed {place}", words, changed, 3, f"refused UNPATCH 3 BytesDiffer {0x401000 + place:08x}\n".encode())
        else:
            new = original[: 0x1000 + place] + b"\x01" + original[0x1001 + place :]
            yield Row(f"unpatch changed {place}", words, changed, 0, b"restored 4103\n", {"N": new})


def guest_rows():
    """Guests that are patched, pass the check and run quietly. The status is 0 where no site is left, else 1."""
    for seed, blocks in GUESTS:
        front = rf"gen {seed} {blocks}\nstarts \d+\nsites \d+ patched \d+ left "
        back = r"\nB1 \d+ B2 \d+ T1 \d+ T2 \d+ T3 \d+\nNotRelocatable \d+ NoPlan \d+ Shared \d+\nentries \d+\n"
        back += r"check yes\nsteps 100000 \d+ events \d+\nquiet yes\nviews agree\n"
        told = rf"(?:0\n{front}0|1\n{front}[1-9]\d*){back}".encode()
        words = ["gen", str(seed), str(blocks)]
        yield Row(" ".join(["guest", *words[1:]]), [it.encode() for it in words], {}, None, re.compile(told))


def entry(flags, offset, addr, size):
    """A PT_LOAD of bytes of the file."""
    return pack("<IIQQQQQQ", 1, flags, offset, addr, addr, size, size, 0x1000)


def file_of(phoff, loads, text):
    """A header with a table of so many entries at a place, the entry of a text, and the text, at 0x1000."""
    header = b"\x7fELF\2\1\1".ljust(16, b"\0")
    header += pack("<HHIQQQIHHHHHH", 2, 62, 1, 0x401000, phoff, 0, 0, 64, 56, loads, 0, 0, 0)
    return (header + entry(5, 0x1000, 0x401000, len(text))).ljust(0x1000, b"\0") + text


def cover_event(k):
    return b"\xc6\x04\x25" + pack("<I", 0x20040 + k) + b"\1"


def ring_event(slots):
    """The event of a site: rax and the flags are kept, the slot at the position holds k + 1, the position moves on."""
    load, store = b"\x8b\x04\x25", b"\x89\x04\x25"
    keep = b"H" + store + pack("<I", 0x20000) + b"\x9f\x0f\x90\xc0" + store + pack("<I", 0x20008)
    on = b"\x8d\x40\x01\x3d" + pack("<I", slots) + b"\x75\x05\xb8" + bytes(4) + store + pack("<I", 0x20040)
    back = load + pack("<I", 0x20008) + b"\x04\x7f\x9e\x48" + load + pack("<I", 0x20000)
    return lambda k: keep + load + pack("<I", 0x20040) + b"\xc7\x04\x85" + pack("<II", 0x20044, k + 1) + on + back


def threads_event(k):
    """The event of a site for threads: rax stands below the stack pointer and the flags in rax, and one instruction counts, with LOCK."""
    keep, back = b"H\x89\x84$x\xff\xff\xff\x9f\x0f\x90\xc0", b"\x04\x7f\x9eH\x8b\x84$x\xff\xff\xff"
    return keep + b"\xf0H\xff\x04%" + pack("<I", 0x20040 + 8 * k) + back


def threads_ring_event(k):
    """The same with a ring of 65,536 slots: rax with the flags stands below rax, LOCK XADD claims a number, whose low word is the slot."""
    keep, flags = b"H\x89\x84$x\xff\xff\xff\x9f\x0f\x90\xc0", b"H\x89\x84$p\xff\xff\xff"
    claim = b"\xb8\1\0\0\0\xf0\x0f\xc1\x04%" + pack("<I", 0x20040) + b"\x0f\xb7\xc0"
    back = b"H\x8b\x84$p\xff\xff\xff\x04\x7f\x9eH\x8b\x84$x\xff\xff\xff"
    return keep + flags + claim + b"\xc7\x04\x85" + pack("<II", 0x20044, k + 1) + back


def pieces_of(pages):
    """Runs of pages, each of which follows the one before, by their first and how many there are."""
    firsts = [page for page in pages if page - 0x1000 not in pages]
    return [(first, next(n for n in range(1, len(pages) + 1) if first + 0x1000 * n not in pages)) for first in firsts]


def most_sites(action, event, length):
    """65,536 instructions `mov eax, k` side by side, all of them sites. Their trampolines stand from the highest site down,
    from behind the private range at 0x20000 on, and where the text is in the way, from behind it on."""
    count, text, text_end, private = 65536, 0x401000, 0x451000, -(-length // 0x1000)
    movs, ends = [b"\xb8" + pack("<I", k) for k in range(count)], [text + 5 * (k + 1) for k in range(count)]
    places, free, size = {}, 0x20000 + 0x1000 * private, len(event(0)) + 10
    for k in reversed(range(count)):
        free = text_end if free < text < free + size else free
        places[k], free = free, free + size
    jumps = [b"\xe9" + pack("<i", places[k] - ends[k]) for k in range(count)]
    original = f"origin {0x1000 + 5 * count} 64 1 {text:016x}"
    mode, kind = "mode threads\n" if action.startswith("threads") else "", action.split()[-1]
    code, lines = {}, [f"{mode}e9report 2\n{original}\naction {kind}\nprivate 00020000 {private}\nsites {count}\n"]
    for k, place in places.items():
        code[place] = event(k) + movs[k] + b"\xe9" + pack("<i", ends[k] - place - size)
        lines.append(f"site {ends[k] - 5:08x} {k} B1\ntramp {place:08x} {ends[k] - 5:08x} event\n")
        lines.append(f"write {ends[k] - 5:08x} {movs[k].hex()} {jumps[k].hex()}\n")
    pages = sorted({at & -0x1000 for place in code for at in (place, place + size - 1)})
    lines += [f"page {page:08x} {group}\n" for group, page in enumerate(pages)] + ["end\n"]
    # the text ends at 0x51000; behind it stand the table, the private range and the code
    entries, shown = [(6, 0x52000, 0x20000, 0x1000 * private), (5, 0x1000, text, 5 * count)], bytes(0x1000 * private)
    for first, many in pieces_of(pages):
        held = b"".join(piece for place, piece in code.items() if first <= place < first + 0x1000 * many)
        entries.append((5, 0x52000 + len(shown), first, 0x1000 * many))
        shown += held.ljust(0x1000 * many, b"\0")
    entries.append((4, 0x51000, 0x10000, 56 * (len(entries) + 1)))
    table = b"".join(entry(*it) for it in sorted(entries, key=lambda it: it[2]))
    out = file_of(0x51000, len(entries), b"".join(jumps)) + table.ljust(0x1000, b"\0") + shown
    starts = "".join(f"{end - 5:x}\n" for end in ends).encode()
    inputs = {"F": file_of(64, 1, b"".join(movs)), "S": starts, "T": starts}
    summary = f"sites {count} patched {count} left 0\nB1 {count} B2 0 T1 0 T2 0 T3 0\nNotRelocatable 0 NoPlan 0 Shared 0\n"
    words, outputs = [action.encode() if it == b"cover" else it for it in COVER], {"O": out, "R": "".join(lines).encode()}
    if action == "threads":
        words, outputs = b"threads F S T O".split(), {"O": out}
    elif mode:
        words = f"threads F S T O action:{kind} report:R".encode().split()
    yield Row(f"most_sites {action}", words, inputs, 0, summary.encode(), outputs)


def most_rows():
    """Trampolines of 18 bytes in 288 pages; of 42 bytes in 672; of 77 in 1,233 and of 87 in 1,393, on either side of the text."""
    yield from most_sites("cover", cover_event, 64 + 65536)
    yield from most_sites("threads", threads_event, 64 + 8 * 65536)
    yield from most_sites("threads ring:65536", threads_ring_event, 68 + 4 * 65536)
    for slots in (1, 65536):
        yield from most_sites(f"ring:{slots}", ring_event(slots), 68 + 4 * slots)


def run_rows():
    """65,536 sites of two bytes, each before an instruction whose bytes leave its jump one place, on a page of its own with none beside it:
    a run more than a stub maps."""
    text, code, seen = 0x401000, [], [0] * 16
    for site in range(text, text + 7 * 65536, 7):
        # `add eax` or `or eax`, where the trampoline's 15 bytes wouldn't be on one page
        opcode = 5 if (site + 0x505) % 0x1000 < 0xFF0 else 13
        row = (site + 5 + 256 * opcode) // 0x1000 % 16
        code.append(b"\x89\xc0" + pack("<BHH", opcode, 0x100 + 0x1100 * (row % 4) + seen[row], 0))
        seen[row] += 1
    sites = range(text, text + 7 * len(code), 7)
    inputs = {
        "F": file_of(64, 1, b"".join(code)),
        "S": "".join(f"{site:x}\n{site + 2:x}\n" for site in sites).encode(),
        "T": "".join(f"{site:x}\n" for site in sites).encode(),
    }
    yield Row("most_runs", [b"load", *COVER[1:]], inputs, 3, b"refused LOADER 1 TooManyRuns 65536\n")


def made_rows():
    for rows in (usage_rows, cut_rows, undone_rows, guest_rows, most_rows, run_rows):
        yield from rows()
