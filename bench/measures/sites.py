"""What a site takes: by how many there are, and by how soon the schemes find its place."""
from measures.files import LOW, PAGE, free_only, lines, plain_file
from measures.running import Bench, milliseconds, point, table

FIRST, FEW, MANY = 0x401000, 8192, 65536
BLOCKS, BLOCK, TEXT = 4000, 32, 0x10000000
PATCH = "patch file starts sites cover out report".split()
CHECK = "check file out starts report".split()
# where the private range ends: 64 bytes and one for each site, in whole pages
PRIVATE = LOW + (64 + BLOCKS + PAGE - 1 & -PAGE)


class Search:
    """A row: its name, the instructions of a block, what is reserved."""

    def __init__(self, name: str, codes: str, reserves: list[str]) -> None:
        self.name, self.codes, self.reserves = name, [bytes.fromhex(it) for it in codes.split()], reserves


SEARCHES = [
    # a jump over its own five bytes
    Search("B1", "b800000000", []),
    # the bytes after the site lead 256 MB up
    Search("B2", "89d8 b800100000 0010", []),
    # they lead below 0, and one pad leads up
    Search("T1", "89d8 b800e01000 0010", []),
    # two shared bytes: the jump that has them high lands below the text by the last of 65,536 values
    Search("T2, if only the last shared values fit,", "89d8 b800e0e000 c1ff05",
           free_only(PRIVATE, [(TEXT - 0x400000, TEXT)])),
    # as before, and the instruction after the site can't be displaced
    Search("T3 likewise", "89d8 f4 b800e0e000 c1ff05", free_only(PRIVATE, [(TEXT - 0x400000, TEXT)])),
    # no address is free, or one page that nearly no pair of jumps reaches
    Search("without a place, no page free", "89d8 b800e0e000 0010", free_only(PRIVATE, [])),
    Search("one free", "89d8 b800e0e000 0010", free_only(PRIVATE, [(0x20008000, 0x20009000)])),
    Search("one free, T2 impossible", "89d8 f4 b800e0e000 0010", free_only(PRIVATE, [(0x20008000, 0x20009000)])),
]


def write_jumps(bench: Bench, number: int) -> None:
    """So many instructions `mov eax, k` of five bytes, all of them starts and sites."""
    text = b"".join(b"\xb8" + k.to_bytes(4, "little") for k in range(number))
    bench.write("file", plain_file(text, FIRST))
    for name in ("starts", "sites"):
        bench.write(name, lines(range(FIRST, FIRST + 5 * number, 5)))


def jumps(bench: Bench) -> list[str]:
    """By the number of sites, all patched by B1; the bound is ten times FILE, 64 bytes a start and 512 a site."""
    rows, counts = [], {}
    for number in (FEW, MANY):
        write_jumps(bench, number)
        bound = (10 * bench.size("file") + 576 * number) / 2**20
        row = [f"{number:,}"]
        for words in (PATCH, CHECK):
            taken, count = bench.took([bench.tool, *words]), bench.counted([bench.tool, *words])
            counts[words[0], number] = count
            row += [milliseconds(taken.seconds), f"{count / 1e6:.0f}", f"{taken.mib:.0f}"]
        rows.append([*row, f"{bound:.0f}", *(f"{bench.size(it):,}" for it in ("file", "out", "report"))])
    growths = [f"{counts[it, MANY] / counts[it, FEW]:.2f}" for it in ("patch", "check")]
    rows.append([f"growth for {MANY // FEW}", "", growths[0], "", "", growths[1], *[""] * 5])
    return table("Sites, by B1 | `patch`, ms | million instructions | MiB | `check`, ms | million instructions | MiB | "
                 "bound, MiB | FILE | OUT | REPORT", rows)


def write_blocks(bench: Bench, codes: list[bytes]) -> bytes:
    """Blocks of instructions of which the first is a site; `none` is a list of none. The bytes of a block."""
    parts = [*codes, *[b"\x90"] * (BLOCK - sum(map(len, codes)))]
    places = [sum(map(len, parts[:number])) for number in range(len(parts))]
    text = b"".join(parts)
    bench.write("file", plain_file(text * BLOCKS, TEXT))
    bench.write("starts", lines(TEXT + BLOCK * block + place for block in range(BLOCKS) for place in places))
    bench.write("sites", lines(TEXT + BLOCK * block for block in range(BLOCKS)))
    bench.write("none", "")
    return text


def searches(bench: Bench) -> list[str]:
    """By where the schemes find a place: instructions of a run less those of one without sites, and as decodings."""
    found = []
    bench.write("block", write_blocks(bench, SEARCHES[0].codes))
    decoding = bench.decodings("block")
    for it in SEARCHES:
        write_blocks(bench, it.codes)
        words = [bench.tool, *PATCH, *it.reserves]
        whole = bench.counted(words)
        words[words.index("sites")] = "none"
        each = (whole - bench.counted(words)) / BLOCKS
        found.append(f"{it.name} {each:,.0f} ({each / decoding:.0f})")
    return point(f"**A site**, in instructions (in brackets: decodings by Zydis, {decoding:.0f} each): "
                 f"{'; '.join(found)}.")
