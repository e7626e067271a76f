/* Makes random instructions, lets the processor step over each in a random state, and prints a row for each step. */
#include <signal.h>
#include <stdarg.h>
#include <stdint.h>
#include <stdio.h>
#include <stdlib.h>
#include <string.h>
#include <sys/mman.h>
#include <sys/ptrace.h>
#include <sys/user.h>
#include <sys/wait.h>
#include <unistd.h>

enum { CODE = 0x401000, DATA = 0x402000, STACK = 0x403000, PAGE = 0x1000, NONE = 16 };
enum { RAX, RCX, RDX, RBX, RSP, RBP, CF = 1, AF = 16, OF = 0x800, SIX = 0x8d5 };

static const char *NAMES[] = { "rax=", "rcx=", "rdx=", "rbx=", "rsp=", "rbp=", "rsi=", "rdi=",
                               "r8=",  "r9=",  "r10=", "r11=", "r12=", "r13=", "r14=", "r15=" };

/* What is drawn: the instruction and the state before it. Bytes of memory that it may touch are marked. */
static struct {
    uint8_t code[24];
    int size, rip_at;
    uint64_t regs[16], rip, flags, fs, gs;
    int given[16];
    uint8_t memory[2 * PAGE], marks[2 * PAGE];
} drawn;

/* What a text says of an instruction, as main has them. */
static struct {
    char name[16], width, of, opcode[16], mode[5], imm[4], also[8];
    int bits, of_bits;
} form;

static uint64_t state = 1, background[16];
static unsigned turn, widths, redrawn;
static pid_t child;

static uint64_t next(void) {
    state ^= state << 13;
    state ^= state >> 7;
    state ^= state << 17;
    return state * 0x2545f4914f6cdd1d;
}

static uint64_t below(uint64_t count) { return next() % count; }

/* Numbers of all sizes and signs, and often one at an edge of a width. */
static uint64_t value(void) {
    uint64_t sign = (uint64_t)1 << (8 * (1 << below(4)) - 1);
    uint64_t edges[] = { 0, 1, sign, sign - 1, -sign, -(uint64_t)1 };
    uint64_t some = below(4) ? next() >> below(64) : edges[below(6)];
    return below(4) ? some : ~some;
}

static uint64_t shift_count(void) {
    uint64_t all[] = { 0, 1, form.bits - 1, form.bits, form.bits + 1, below(form.bits), below(form.bits), below(256) };
    return all[below(8)];
}

static uint64_t target(void) { return (int64_t)next() >> 17; }

static void give(int reg, uint64_t with) {
    if (!drawn.given[reg])
        drawn.regs[reg] = with;
    drawn.given[reg] = 1;
}

/* In a byte form often one of the codes that name high bytes. */
static int some_register(int bits) { return bits == 8 && below(2) ? 4 + below(4) : below(16); }

/* The register that a byte form's code names: without a REX byte 4 to 7 are the high bytes of 0 to 3. */
static int holder(int reg, int bits, int rex) { return bits == 8 && !rex && reg >= 4 && reg < 8 ? reg - 4 : reg; }

static void byte(uint8_t one) { drawn.code[drawn.size++] = one; }

static void bytes(uint64_t number, int count) {
    for (; count > 0; count--, number >>= 8)
        byte(number);
}

static void mark(uint64_t from, uint64_t to) { memset(drawn.marks + (from - DATA), 1, to - from); }

static void put(uint64_t at, uint64_t number) { memcpy(drawn.memory + (at - DATA), &number, 8); }

/* The operands: registers by their codes, and for memory the form and the place. */
static struct {
    int modrm, digit, memory, reg, rm, base, index, scale, mod, rip, seg, small;
    int64_t disp;
    uint64_t at, named;
} operand;

/* Whether the form has a memory operand that isn't read or written. */
static int is_free(void) { return form.also[0] == 'f'; }

static void draw_shape(void) {
    unsigned kind = turn++ % 9;
    operand.seg = below(4) ? 0 : 0x64 + below(2);
    operand.small = kind != 8 && below(6) == 0;
    operand.base = strchr(form.mode, 's') ? RSP : kind < 6 ? (int)below(16) : NONE;
    operand.scale = below(4);
    operand.rip = kind == 8;
    if (operand.base == RSP && drawn.given[RSP]) /* the place is then near the top of the stack */
        kind = 1, operand.seg = operand.small = operand.rip = 0;
    do
        operand.index = kind >= 3 && kind < 7 ? (int)below(16) : NONE;
    while (operand.index == RSP || (operand.index == operand.base && operand.index != NONE));
    operand.mod = kind < 6 ? (int)kind % 3 : 0;
    if (operand.mod == 0 && operand.base < NONE && operand.base % 8 == 5)
        operand.mod = 1;
    operand.disp = operand.mod == 1 ? (int8_t)next() : operand.mod == 2 || operand.base == NONE ? (int32_t)next() : 0;
}

static uint64_t narrow(uint64_t number) { return operand.small ? next() << 32 | (uint32_t)number : number; }

/* Gives registers so that they, the scale and the displacement make up a number. */
static void make_up(uint64_t sum) {
    if (operand.base == NONE && operand.index == NONE) {
        operand.disp = (int64_t)sum;
    } else if (operand.base == NONE) {
        operand.disp = (operand.disp & -(int64_t)8) | (sum & ((1 << operand.scale) - 1));
        uint64_t scaled = sum - operand.disp;
        give(operand.index, (operand.small ? (uint32_t)scaled : scaled) >> operand.scale);
    } else {
        if (operand.index != NONE)
            give(operand.index, value());
        uint64_t scaled = operand.index != NONE ? drawn.regs[operand.index] << operand.scale : 0;
        give(operand.base, narrow(sum - operand.disp - scaled));
    }
}

/* A memory operand, and registers and a segment base that lead to a place in the data. */
static void draw_place(void) {
    draw_shape();
    int near = operand.rip || operand.small || (operand.base == NONE && operand.index == NONE);
    uint64_t segment = !operand.seg ? 0 : near ? below(0x400000) : next() >> 18;
    if (operand.seg)
        *(operand.seg == 0x64 ? &drawn.fs : &drawn.gs) = segment;
    operand.at = DATA + 16 + below(PAGE - 32);
    operand.named = operand.at - segment;
    if (operand.base == RSP && drawn.given[RSP])
        operand.at = drawn.regs[RSP] + operand.disp + (strcmp(form.name, "pop") ? 0 : 8);
    else if (!is_free() && !operand.rip)
        make_up(operand.named);
    else {
        if (operand.base != NONE)
            give(operand.base, value());
        if (operand.index != NONE)
            give(operand.index, value());
    }
}

static void encode_memory(void) {
    int sib = operand.index != NONE || (!operand.rip && (operand.base == NONE || operand.base % 8 == 4));
    byte(operand.mod << 6 | (operand.reg & 7) << 3 | (operand.rip ? 5 : sib ? 4 : operand.base & 7));
    if (sib)
        byte(operand.scale << 6 | (operand.index == NONE ? 4 : operand.index & 7) << 3 |
             (operand.base == NONE ? 5 : operand.base & 7));
    if (operand.rip)
        drawn.rip_at = drawn.size;
    bytes(operand.disp, operand.mod == 1 ? 1 : operand.mod == 2 || operand.base == NONE ? 4 : 0);
}

static void encode_imm(void) {
    int z = form.bits == 16 ? 2 : 4;
    if (!strcmp(form.imm, "ib"))
        byte(value());
    if (!strcmp(form.imm, "ic"))
        byte(shift_count());
    if (!strcmp(form.imm, "iw"))
        bytes(value(), 2);
    if (!strcmp(form.imm, "iz"))
        bytes(value(), z);
    if (!strcmp(form.imm, "iv"))
        bytes(value(), form.bits == 64 ? 8 : z);
    if (!strcmp(form.imm, "cb"))
        byte(1 + below(255));
    if (!strcmp(form.imm, "cd"))
        bytes(1 + below(0xffffffff), 4);
}

/* Registers that the instruction has without naming them. */
static void draw_implied(void) {
    uint64_t top = STACK + 0x400 + below(0x800);
    for (const char *one = form.also; *one; one++)
        if (*one == 'p') /* pushes */
            give(RSP, top), mark(top - 9, top + 1);
        else if (*one == 's' || *one == 't') { /* pops, a target maybe */
            give(RSP, top), mark(top - 1, top + 9);
            if (*one == 't')
                put(top, target());
        } else if (*one == 'b')
            give(RBP, top), mark(top - 1, top + 9);
}

static void draw_later(void) {
    for (const char *one = form.also; *one; one++)
        if (*one == 'a')
            give(RAX, value());
        else if (*one == 'd')
            give(RDX, value());
        else if (*one == 'n')
            give(RCX, (value() & ~(uint64_t)255) | shift_count());
        else if (*one == 'z')
            give(RCX, 0);
        else if (*one == 'h')
            give(RCX, next() << 32);
        else if (*one == 'l')
            give(RCX, below(2) ? below(3) : below(2) ? value() : next() << 32 | below(2));
}

/* The registers of the form: the one in the reg field, or its digit, and the one of the other operand. */
static void draw_registers(void) {
    char digit = form.mode[form.mode[1] == 'j' ? 2 : 1];
    operand.digit = form.mode[0] == '/' && digit >= '0' && digit <= '7';
    operand.modrm = form.mode[0] == '/';
    operand.memory = operand.modrm && (strpbrk(form.mode, "ms") || (!strchr(form.mode, 'e') && below(2)));
    operand.reg = operand.digit ? digit - '0' : operand.modrm ? some_register(form.bits) : NONE;
    do
        operand.rm = !operand.memory && form.mode[0] != '-' ? some_register(form.of_bits) : NONE;
    while (operand.rm == RAX && !strcmp(form.opcode, "90")); /* this one is nop */
    operand.index = operand.base = NONE;
    operand.seg = operand.small = 0;
    if (operand.memory)
        draw_place();
}

static int is_low(int reg, int bits) { return bits == 8 && reg >= 4 && reg < 8 && below(3) == 0; }

static int rex(void) {
    int wide = form.bits == 64 && form.width != 'q';
    int low = is_low(operand.digit ? NONE : operand.reg, form.bits) || is_low(operand.rm, form.of_bits);
    int b = operand.rm | operand.base;
    int bits = wide << 3 | (operand.reg & 8) >> 1 | (operand.index & 8) >> 2 | (b & 8) >> 3;
    return bits || ((low || below(16) == 0) && strcmp(form.name, "nop")) ? 0x40 | bits : 0;
}

/* Answers the REX byte, or 0. */
static int encode_opcode(void) {
    const char *op = form.opcode;
    if (operand.seg)
        byte(operand.seg);
    if (operand.small)
        byte(0x67);
    if (below(16) == 0) /* a prefix that does nothing */
        byte((uint8_t[]){ 0x26, 0x2e, 0x36, 0x3e }[below(4)]);
    if (form.bits == 16 || (form.bits == 64 && form.width == 'v' && below(16) == 0)) /* REX.W counts more */
        byte(0x66);
    for (; !strncmp(op, "f3", 2) || !strncmp(op, "67", 2); op += 2)
        byte(*op == 'f' ? 0xf3 : 0x67);
    int extension = rex();
    if (extension)
        byte(extension);
    for (unsigned one; sscanf(op, "%2x", &one) == 1; op += 2)
        byte(one);
    return extension;
}

static void encode_operands(void) {
    if (form.mode[0] == '+')
        drawn.code[drawn.size - 1] |= operand.rm & 7;
    else if (operand.modrm && !operand.memory)
        byte(0xc0 | (operand.reg & 7) << 3 | (operand.rm & 7));
    else if (operand.modrm)
        encode_memory();
}

static void draw(void) {
    memset(&drawn, 0, sizeof drawn);
    memcpy(drawn.regs, background, sizeof background);
    for (int at = 0; at < 2 * PAGE; at += 8)
        put(DATA + at, next());
    draw_implied();
    draw_registers();
    int extension = encode_opcode();
    encode_operands();
    if (operand.memory && !is_free()) {
        mark(operand.at - 1, operand.at + form.of_bits / 8 + 1);
        if (form.mode[1] == 'j')
            put(operand.at, target());
    }
    if (operand.modrm && !operand.digit)
        give(holder(operand.reg, form.bits, extension), value());
    if (operand.rm != NONE)
        give(holder(operand.rm, form.of_bits, extension), form.mode[1] == 'j' ? target() : value());
    draw_later();
    encode_imm();
    drawn.rip = CODE + below(PAGE - 16);
    drawn.flags = 0x202 | (below(2) ? 0x400 : 0) | (next() & SIX);
    if (drawn.rip_at) {
        uint32_t disp = operand.named - drawn.rip - drawn.size;
        memcpy(drawn.code + drawn.rip_at, &disp, 4);
    }
}

/* The flags that the manual leaves undefined here, at their places in the flags word. */
static uint64_t undefined(void) {
    int last = drawn.code[drawn.size - 1], bits = form.bits == 64 ? 63 : 31;
    int count = (strchr(form.also, 'n') ? drawn.regs[RCX] : !strcmp(form.imm, "ic") ? (uint64_t)last : 1) & bits;
    if (strstr("and or xor test", form.name))
        return AF;
    if (!strstr("shl shr sar", form.name) || count == 0)
        return 0;
    return AF | (count != 1 ? OF : 0) | (count >= form.bits && strcmp(form.name, "sar") ? CF : 0);
}

static uint64_t *slot(struct user_regs_struct *r, int reg) {
    unsigned long long *all[] = { &r->rax, &r->rcx, &r->rdx, &r->rbx, &r->rsp, &r->rbp, &r->rsi, &r->rdi,
                                  &r->r8,  &r->r9,  &r->r10, &r->r11, &r->r12, &r->r13, &r->r14, &r->r15 };
    return (uint64_t *)all[reg];
}

static int step(struct user_regs_struct *before, struct user_regs_struct *after) {
    int status;
    memcpy((void *)DATA, drawn.memory, sizeof drawn.memory);
    memset((void *)CODE, 0xcc, PAGE);
    memcpy((void *)drawn.rip, drawn.code, drawn.size);
    ptrace(PTRACE_GETREGS, child, 0, before);
    for (int reg = 0; reg < 16; reg++)
        *slot(before, reg) = drawn.regs[reg];
    before->rip = drawn.rip, before->eflags = drawn.flags, before->fs_base = drawn.fs, before->gs_base = drawn.gs;
    before->orig_rax = -1;
    if (ptrace(PTRACE_SETREGS, child, 0, before) || ptrace(PTRACE_GETREGS, child, 0, before) ||
        ptrace(PTRACE_SINGLESTEP, child, 0, 0) || waitpid(child, &status, 0) != child ||
        ptrace(PTRACE_GETREGS, child, 0, after)) {
        perror("ptrace");
        exit(1);
    }
    return WIFSTOPPED(status) && WSTOPSIG(status) == SIGTRAP;
}

static void change(const char *name, uint64_t before, uint64_t after) {
    printf(" %s%lx", name, before);
    if (before != after)
        printf(">%lx", after);
}

static void hex(const uint8_t *from, int count) {
    for (int at = 0; at < count; at++)
        printf("%02x", from[at]);
}

static void print_memory(void) {
    const uint8_t *after = (const uint8_t *)DATA;
    for (int at = 0, end; at < 2 * PAGE; at = end) {
        for (end = at; end < 2 * PAGE && drawn.marks[end]; end++)
            ;
        if (end > at) {
            printf(" %x=", DATA + at);
            hex(drawn.memory + at, end - at);
            if (memcmp(drawn.memory + at, after + at, end - at)) {
                printf(">");
                hex(after + at, end - at);
            }
        } else if (drawn.memory[end] != after[end]) {
            fprintf(stderr, "%s: an unmarked byte has changed\n", form.name);
            exit(1);
        } else
            end++;
    }
}

static void print_row(struct user_regs_struct *before, struct user_regs_struct *after) {
    printf("%s ", form.name);
    hex(drawn.code, drawn.size);
    change("", before->rip, after->rip);
    change("", before->eflags, after->eflags);
    for (int reg = 0; reg < 16; reg++)
        if (drawn.given[reg] || *slot(before, reg) != *slot(after, reg))
            change(NAMES[reg], *slot(before, reg), *slot(after, reg));
    if (before->fs_base)
        change("fs=", before->fs_base, after->fs_base);
    if (before->gs_base)
        change("gs=", before->gs_base, after->gs_base);
    print_memory();
    if (undefined()) {
        printf(" undefined=%lx", undefined());
        if (drawn.rip_at) {
            memset(drawn.code + drawn.rip_at, 0, 4);
            printf(",");
            hex(drawn.code, drawn.size);
            printf("@%lx", operand.named);
        }
    }
    printf("\n");
}

/* What is wanted of a branch: anything, that it goes on, or is taken, or goes on with a count of 0, or with another. */
enum { ANY, GOES_ON, TAKEN, ENDED, UNENDED };

static int is_wanted(int wanted, const struct user_regs_struct *after) {
    int taken = after->rip != drawn.rip + drawn.size;
    return wanted == ANY || (taken == (wanted == TAKEN) && (wanted != ENDED || after->rcx == 0) &&
                             (wanted != UNENDED || after->rcx != 0));
}

static void row(int wanted) {
    for (;; redrawn++) {
        struct user_regs_struct before, after;
        form.bits = form.width == 'b'   ? 8
                    : form.width == 'v' ? 16 << widths++ % 3
                    : form.width == 'd' ? 32 << below(2)
                                        : 64;
        form.of_bits = form.of == 'b' ? 8 : form.of == 'w' ? 16 : form.of == 'd' ? 32 : form.bits;
        draw();
        int done = step(&before, &after);
        if (!done)
            fprintf(stderr, "%s: a fault\n", form.name);
        if (done && is_wanted(wanted, &after)) {
            print_row(&before, &after);
            return;
        }
    }
}

/* Rows of one instruction. The text has its name; the width (b 8, v 16 to 64, d 32 and 64, Q 64 by REX.W, q always 64)
   and that of the ModRM operand (= the same); the opcode; the operands (/r a register and any operand, /m a register
   and memory, /e two registers, +r a register in the opcode; in place of r a digit of the reg field, j before it for a
   branch, and behind it m, e or s for memory, a register or memory at the stack); the immediate (ib, iz, iv and iw as
   in the manual, ic a shift's count, cb and cd a displacement); and what else it has (p pushes, s pops, t pops a
   target, b pops at rbp, a rax, d rdx, n a count in cl, l a loop's count in rcx, z a count of 0, h one with the low
   half 0, f the memory operand is neither read nor written). */
static void rows(int count, int wanted, const char *text, ...) {
    char line[80];
    va_list words;
    va_start(words, text);
    vsnprintf(line, sizeof line, text, words);
    va_end(words);
    if (sscanf(line, "%15s %c%c %15s %4s %3s %7s", form.name, &form.width, &form.of, form.opcode, form.mode, form.imm,
               form.also) != 7)
        exit(1);
    while (count-- > 0)
        row(wanted);
}

static void moves(int k) {
    const char *texts[] = { "mov b= 88 /r - -",     "mov v= 89 /r - -",     "mov b= 8a /r - -",
                            "mov v= 8b /r - -",     "mov b= b0 +r ib -",    "mov v= b8 +r iv -",
                            "mov b= c6 /0 ib -",    "mov v= c7 /0 iz -",    "movzx vb 0fb6 /r - -",
                            "movzx dw 0fb7 /r - -", "movsx vb 0fbe /r - -", "movsx dw 0fbf /r - -",
                            "movsxd Qd 63 /r - -",  "lea v= 8d /m - f",     "lea v= 8d /m - f",
                            "xchg b= 86 /e - -",    "xchg v= 87 /e - -",    "xchg v= 90 +r - -" };
    for (int at = 0; at < 18; at++)
        rows(k + (strstr(texts[at], " v") != 0), ANY, texts[at]);
    rows(1, ANY, "nop q= 90 - - -");
    rows(1, ANY, "nop q= f390 - - -");
    rows(1, ANY, "nop q= f30f1efa - - -");
    rows(k, ANY, "nop v= 0f1f /m - f");
    rows(1, ANY, "nop v= 0f1f /e - f");
}

static void stack(int k) {
    const char *texts[] = { "push q= 50 +r - p",  "push q= 68 - iz p", "push q= 6a - ib p", "push q= ff /6m - p",
                            "push q= ff /6e - p", "pop q= 58 +r - s",  "pop q= 8f /0m - s", "pop q= 8f /0e - s" };
    for (int at = 0; at < 8; at++)
        rows(k, ANY, texts[at]);
    rows(1, ANY, "push q= 54 - - p");
    rows(1, ANY, "push q= ff /6s - p");
    rows(1, ANY, "pop q= 5c - - s");
    rows(1, ANY, "pop q= 8f /0s - s");
    rows(k, ANY, "leave q= c9 - - b");
}

static void computing(int k) {
    const char *sums[] = { "add", "or", "adc", "sbb", "and", "sub", "xor", "cmp" };
    const char *shifts[] = { "shl", "shr", "", "sar" };
    const char *ones[] = { "inc", "dec", "not", "neg" };
    const char *tests[] = { "b= 84 /r - -", "v= 85 /r - -",  "b= a8 - ib a",
                            "v= a9 - iz a", "b= f6 /0 ib -", "v= f7 /0 iz -" };
    for (int op = 0; op < 8; op++) {
        for (int at = 0; at < 4; at++)
            rows(1, ANY, "%s %c= %02x /r - -", sums[op], at % 2 ? 'v' : 'b', op * 8 + at);
        rows(1, ANY, "%s b= %02x - ib a", sums[op], op * 8 + 4);
        rows(1, ANY, "%s v= %02x - iz a", sums[op], op * 8 + 5);
        rows(1, ANY, "%s b= 80 /%d ib -", sums[op], op);
        rows(1, ANY, "%s v= 81 /%d iz -", sums[op], op);
        rows(k, ANY, "%s v= 83 /%d ib -", sums[op], op);
    }
    for (int at = 0; at < 6; at++)
        rows(1, ANY, "test %s", tests[at]);
    for (int op = 0; op < 4; op++) {
        rows(1, ANY, "%s b= %s /%d - -", ones[op], op < 2 ? "fe" : "f6", op);
        rows(k, ANY, "%s v= %s /%d - -", ones[op], op < 2 ? "ff" : "f7", op);
    }
    for (int op = 0; op < 4; op++)
        for (int at = 0; at < 6 && op != 2; at++)
            rows((at / 2 == 1 ? 1 : k) + at % 2, ANY, "%s %c= %02x /%d %s %s", shifts[op], at % 2 ? 'v' : 'b',
                 (int[]){ 0xc0, 0xc1, 0xd0, 0xd1, 0xd2, 0xd3 }[at], op + 4, at < 2 ? "ic" : "-", at < 4 ? "-" : "n");
    rows(3, ANY, "widen v= 98 - - a");
    rows(3, ANY, "widen v= 99 - - ad");
}

static void flags_and_branches(int k) {
    const char *flags[] = { "cmc q= f5 - - -", "clc q= f8 - - -", "stc q= f9 - - -", "sahf q= 9e - - a",
                            "lahf q= 9f - - a" };
    for (int at = 0; at < 5; at++)
        rows(k, ANY, flags[at]);
    for (int cc = 0; cc < 16; cc++) {
        rows(1, ANY, "cmov v= 0f4%x /r - -", cc);
        rows(1, ANY, "set bb 0f9%x /0 - -", cc);
        rows(1, cc % 2 ? TAKEN : GOES_ON, "jcc q= 7%x - cb -", cc);
        rows(1, cc % 2 ? GOES_ON : TAKEN, "jcc q= 0f8%x - cd -", cc);
    }
    const char *loops[] = { "loopne q= e0 - cb l", "loope q= e1 - cb l", "loop q= e2 - cb l", "jrcxz q= e3 - cb l",
                            "jecxz q= 67e3 - cb l" };
    for (int at = 0; at < 5; at++) {
        rows(k, TAKEN, loops[at]);
        rows(1, at < 2 ? ENDED : GOES_ON, loops[at]);
        rows(1, at < 2 ? UNENDED : GOES_ON, loops[at]);
    }
    rows(1, TAKEN, "loop q= e2 - cb z");
    rows(1, GOES_ON, "jrcxz q= e3 - cb h");
    rows(1, TAKEN, "jecxz q= 67e3 - cb h");
    const char *texts[] = { "jmp q= eb - cb -",    "jmp q= e9 - cd -",  "jmp q= ff /j4e - -",
                            "jmp q= ff /j4m - -",  "call q= e8 - cd p", "call q= ff /j2e - p",
                            "call q= ff /j2m - p", "ret q= c3 - - t",   "ret q= c2 - iw t" };
    for (int at = 0; at < 9; at++)
        rows(k, ANY, texts[at]);
    rows(1, ANY, "call q= ff /j2s - p");
    rows(1, ANY, "ret q= f3c3 - - t");
}

int main(int count, char **words) {
    int k = count > 1 ? atoi(words[1]) : 2;
    state = count > 2 ? strtoull(words[2], 0, 10) : 1;
    if (mmap((void *)CODE, 3 * PAGE, PROT_READ | PROT_WRITE | PROT_EXEC,
             MAP_SHARED | MAP_ANONYMOUS | MAP_FIXED_NOREPLACE, -1, 0) != (void *)CODE)
        return 1;
    child = fork();
    if (child == 0) {
        ptrace(PTRACE_TRACEME, 0, 0, 0);
        raise(SIGSTOP);
        _exit(1);
    }
    waitpid(child, 0, 0);
    for (int reg = 0; reg < 16; reg++)
        background[reg] = next();
    printf("background");
    for (int reg = 0; reg < 16; reg++)
        printf(" %lx", background[reg]);
    printf("\n");
    moves(k);
    stack(k);
    computing(k);
    flags_and_branches(k);
    kill(child, SIGKILL);
    fprintf(stderr, "%u drawn again\n", redrawn);
    return 0;
}
