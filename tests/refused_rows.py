"""Rows that tables give: each refusal of an input by each command that can answer it, each file that can't be read or made, the
longest table judged and undone, and each command where there is no site."""
from collections.abc import Iterator
from struct import pack, pack_into

from made_rows import ONE_MOV, Row, entry, files_in, read

FILES = {**files_in(f"{ONE_MOV}/before"), **files_in(f"{ONE_MOV}/after")}
FILES["W"] = read("rows/step_once/before/W")
PATCH, LOAD, THREADS = "patch F S T cover O R", "load F S T cover O R", "threads F S T O"
CHECK, STEP, UNPATCH = "check F O S R", "step F S W 1", "unpatch O R N"
WRITERS = (PATCH, LOAD, THREADS)
# each command, and the files that it reads
READ = {PATCH: "FST", LOAD: "FST", THREADS: "FST", CHECK: "FOSR", STEP: "FSW", UNPATCH: "OR"}

# where a field of the header or of the first entry stands, how wide it is, what is put there, and the rule that is then broken
FIELDS = [
    (0, "B", 0x7E, "2 BadMagic"),
    (4, "B", 1, "3 NotClass64"),
    (5, "B", 2, "4 NotLittle"),
    (16, "H", 3, "5 NotExec"),
    (18, "H", 3, "6 NotX86"),
    (54, "H", 55, "7 BadPhentSize"),
    (32, "Q", 1 << 63, "8 TableOutside"),
    (64, "I", 2, "9 Dynamic 0"),
    (64, "I", 3, "9 Dynamic 0"),
    (96, "Q", 1 << 63, "10 SegmentOutside 0"),
    (104, "Q", 6, "11 SizeOrder 0"),
    (72, "Q", 0xFFF, "12 Misaligned 0"),
    (80, "Q", 0x7FFF0000, "13 AddressHigh 0"),
    (80, "Q", 0x1000, "14 AddressLow 0"),
]

# a text that is refused in place of an input, or further words, and what is told; of which commands
TEXTS = [
    (WRITERS + (CHECK, STEP), "S", b"401000\n401005\n40100g\n", "STARTS 1 BadLine 3"),
    (WRITERS + (CHECK, STEP), "S", b"401000\n401005\n401005\n", "STARTS 2 NotAscending 3"),
    (WRITERS, "T", b"401000\n\n", "SITES 1 BadLine 2"),
    (WRITERS, "T", b"401005\n401000\n", "SITES 2 NotAscending 2"),
    (WRITERS + (CHECK,), "S", b"401000\n401005\n401006\n402000\n", "INSTR 1 NotExecutable 00402000"),
    (WRITERS, "T", b"401000\n401001\n", "PLAN 1 NotListed 00401001"),
    ((CHECK, UNPATCH), "R", FILES["R"] + b"\n", "REPORT 1 BadReport 11"),
    ((CHECK, UNPATCH), "R", FILES["R"].replace(b"2", b"30", 1), "REPORT 2 BadVersion 1"),
    ((CHECK, UNPATCH), "R", b"mode threads\n" + FILES["R"] + b"\n", "REPORT 1 BadReport 12"),
    ((CHECK, UNPATCH), "R", b"mode threads\n" + FILES["R"].replace(b"2", b"30", 1), "REPORT 2 BadVersion 2"),
    ((STEP,), "W", FILES["W"].replace(b"end", b"fin"), "WORLD 1 BadScript 21"),
    ((STEP,), "W", b"e9world 2\n" + FILES["W"], "WORLD 1 BadScript 2"),
    ((STEP,), "W", FILES["W"].replace(b"end", b"zero 0000000000401006 0000000000401007 rw-\nend"), "WORLD 2 RegionMeets 0000000000401006"),
]


def row(words: str, files: dict[str, bytes], told: str, further: str = "") -> Row:
    """The command, with further words, is refused, and makes no file."""
    inputs = {name: files[name] for name in READ[words]}
    return Row(f"{words.split()[0]} refuses {told}", (words + further).encode().split(), inputs, 3, f"refused {told}\n".encode())


def with_field(file: bytes, at: int, kind: str, value: int) -> bytes:
    changed = bytearray(file)
    pack_into("<" + kind, changed, at, value)
    return bytes(changed)


def bad_files(file: bytes) -> Iterator[tuple[bytes, str]]:
    """Such a file made to break each rule, and the rule."""
    yield file[:63], "1 TooShort"
    for at, kind, value, rule in FIELDS:
        yield with_field(file, at, kind, value), rule
    # two entries that load the same page, in a table of these two
    twice = with_field(with_field(file, 56, "H", 2), 32, "Q", 64)
    yield twice[:120] + entry(5, 0x1000, 0x401000, 7) + twice[176:], "15 LoadOrder 1"


def of_files() -> Iterator[Row]:
    """Each rule of a file. A written one has the table of the original's one entry here, so that the same is broken."""
    for words, name, told in [(it, "F", "FILE") for it in (*WRITERS, STEP, CHECK)] + [(CHECK, "O", "OUT"), (UNPATCH, "O", "OUT")]:
        for file, rule in bad_files(FILES["F"]):
            yield row(words, {**FILES, name: file}, f"{told} {rule}")


def of_texts() -> Iterator[Row]:
    for commands, name, text, told in TEXTS:
        for words in commands:
            yield row(words, {**FILES, name: text}, told)


def of_plans() -> Iterator[Row]:
    for words in WRITERS:
        yield row(words, FILES, "PLAN 2 NoPrivate 1", " 00020000-7fff0000")
        # of two sites that aren't listed the least is told, and neither that there is no room
        yield row(words, {**FILES, "T": b"401001\n401002\n"}, "PLAN 1 NotListed 00401001", " 00020000-7fff0000")
        many = files_in("rows/table_of_1025_entries/before")
        yield row(words, many, f"EMIT 1 TooManySegments {1026 if words == LOAD else 1025}")


# each command that writes with an output that can't be made, the name that it reports, and the outputs that are made before
UNMADE: list[tuple[str, str, dict[str, bytes]]] = [
    (PATCH.replace("O", "no/O"), "no/O", {}),
    (PATCH.replace(" R", " no/R"), "no/R", {"O": FILES["O"]}),
    (LOAD.replace("O", "no/O"), "no/O", {}),
    (LOAD.replace(" R", " no/R"), "no/R", {"O": read("rows/load_of_one_mov/after/O")}),
    (THREADS.replace("O", "no/O"), "no/O", {}),
    (UNPATCH.replace("N", "no/N"), "no/N", {}),
]


def fault_rows() -> Iterator[Row]:
    """Each input of each command that isn't there, and each output that can't be made."""
    for words, names in READ.items():
        for name in names:
            inputs = {it: FILES[it] for it in names if it != name}
            told = f"fault read {name}\n".encode()
            yield Row(f"{words.split()[0]} can't read {name}", words.encode().split(), inputs, 4, told)
    for words, name, made in UNMADE:
        inputs = {it: FILES[it] for it in ("OR" if words.startswith("unpatch") else "FST")}
        told = f"fault write {name}\n".encode()
        yield Row(f"{words.split()[0]} can't write {name}", words.encode().split(), inputs, 5, told, made)


def table_rows() -> Iterator[Row]:
    """What `check` and `unpatch` tell of a file whose table is as long as a table may be."""
    before, after = (files_in(f"rows/table_of_1024_entries/{it}") for it in ("before", "after"))
    yield Row("longest table, check", CHECK.encode().split(), {"F": before["F"], "S": before["S"], **after}, 0, b"check yes\n")
    restored = b"restored %d\n" % len(before["F"])
    yield Row("longest table, unpatch", UNPATCH.encode().split(), after, 0, restored, {"N": before["F"]})


def loaded_without_site(original: bytes) -> bytes:
    """What `load` writes where there is no site: a stub that maps nothing. Its code is that of the row load_of_one_mov at other addresses."""
    code = read("rows/load_of_one_mov/after/O")[0x5000:0x5114]
    for old, new in ((0x2210C, 0x2110C), (0x23000, 0x22000), (0x23010, 0x22010), (-0x23020, -0x22010)):
        code = code.replace(pack("<i", old), pack("<i", new))
    for slot in range(0, 80, 8):
        code = code.replace(pack("<i", 0x24000 + slot), pack("<i", 0x23000 + slot))
    entries = [(4, 0x2000, 0x10000, 280), (6, 0x3000, 0x20000, 0x1000), (5, 0x4000, 0x21000, 0x2000), (6, 0x6000, 0x23000, 0x1000), (5, 0x1000, 0x401000, 7)]
    front = with_field(with_field(with_field(original, 24, "Q", 0x21000), 32, "Q", 0x2000), 56, "H", 5)
    table = b"".join(entry(*it) for it in entries)
    return front.ljust(0x2000, b"\0") + table.ljust(0x2000, b"\0") + code.ljust(0x1000, b"\0") + b"/proc/self/exe".ljust(0x2000, b"\0")


def no_site_rows() -> Iterator[Row]:
    """Each command where there is no site; that `patch` then writes what it writes is a row of its own."""
    before, after, summary = files_in("rows/no_site/before"), files_in("rows/no_site/after"), read("rows/no_site/stdout")
    original, listed, restored = {"F": before["F"]}, {"S": before["S"]}, b"restored %d\n" % len(before["F"])
    yield Row("no site, load", LOAD.encode().split(), before, 0, summary, {**after, "O": loaded_without_site(before["F"])})
    yield Row("no site, threads", THREADS.encode().split(), before, 0, summary, {"O": after["O"]})
    yield Row("no site, check", CHECK.encode().split(), {**original, **listed, **after}, 0, b"check yes\n")
    yield Row("no site, unpatch", UNPATCH.encode().split(), after, 0, restored, {"N": before["F"]})
    loaded = {**after, "O": loaded_without_site(before["F"])}
    yield Row("no site, unpatch of load", UNPATCH.encode().split(), loaded, 0, restored, {"N": before["F"]})


def refused_rows() -> Iterator[Row]:
    for rows in (of_files, of_texts, of_plans, fault_rows, table_rows, no_site_rows):
        yield from rows()
