"""What a step of `step` takes, and a program of `gen`, beside decodings by Zydis.

The loop has 25 instructions that ask nothing of the world: loads and stores, MOVZX, MOVSX, LEA, ADD, ADC, SUB, SBB,
CMP, NEG, NOT, INC, DEC, SETcc, CMOVcc, PUSH, POP, XCHG, CDQE, CALL, RET, JMP and Jcc. After them the text goes on for
16 bytes, or ends, so that an instruction less than 15 bytes before its end is looked up byte by byte. Zydis decodes the
loop's bytes as often. Each runs a few million times and a few times more, so that what it begins with drops out; the
least of the rounds counts.
"""
from measures.files import lines, plain_file
from measures.running import Bench, milliseconds, point, table

TEXT, STACK = 0x401000, 0x500000
LOOP = [bytes.fromhex(it) for it in (
    "488b442408 4801c8 0fb6542403 4c0fbf442404 488d749010 4811f3 48895c2410 4829c7 4919d1 4839d8 0f92c0 490f45c8 "
    "49f7da 49f7d3 49ffc4 41ffcd 50 5d 4893 4898 e802000000 ebb7 39c8 7400 c3").split()]
REGISTERS = "rax rcx rdx rbx rsp rbp rsi rdi r8 r9 r10 r11 r12 r13 r14 r15 flags fs gs".split()
FEW, MANY, ROUNDS = 1_000_000, 4_000_000, 5
GUESTS = ("0 1", "7 2000", "1 20000")


def write_loop(bench: Bench, behind: int) -> None:
    text = b"".join(LOOP)
    bench.write("loop", text)
    bench.write("file", plain_file(text + b"\x90" * behind, TEXT))
    bench.write("starts", lines(TEXT + len(b"".join(LOOP[:number])) for number in range(len(LOOP))))
    registers = "".join(f"{name} {STACK + 0x800 if name == 'rsp' else 0:016x}\n" for name in REGISTERS)
    bench.write("world", f"e9world 1\n{registers}zero {STACK:016x} {STACK + 0x1000:016x} rw-\nend\n")


def cost_of_one(bench: Bench, words: list[str]) -> list[str]:
    """Instructions and nanoseconds that one step takes, or one decoding."""
    few, many = (bench.took([*words, str(number)], ROUNDS).seconds for number in (FEW, MANY))
    count = bench.counted([*words, "200000"]) - bench.counted([*words, "100000"])
    return [f"{count / 100_000:.0f}", f"{(many - few) / (MANY - FEW) * 1e9:.0f}"]


def steps(bench: Bench) -> list[str]:
    rows = []
    for name, behind in (("a loop with text after it", 16), ("at the text's end", 0)):
        write_loop(bench, behind)
        step = cost_of_one(bench, [bench.tool, "step", "file", "starts", "world"])
        rows.append([name, *step, *cost_of_one(bench, [bench.compiled("measures/decodings.c"), "loop"])])
    return table("A step | instructions | ns | Zydis, a decoding: instructions | ns", rows)


def guests(bench: Bench) -> list[str]:
    """By the words of `gen`; beside its instructions how many decodings by Zydis take as many."""
    found = []
    write_loop(bench, 16)
    decoding = bench.decodings("loop")
    for words in GUESTS:
        whole = [bench.tool, "gen", *words.split()]
        taken, count = bench.took(whole), bench.counted(whole)
        found.append(f"`{words}` {milliseconds(taken.seconds)}, {taken.mib:.0f}, {count / 1e6:.0f} "
                     f"({count / decoding / 1e6:.2f})")
    return point("**`gen`**, ms, MiB, million instructions (million decodings by Zydis): "
                 f"{'; '.join(found)}.")
