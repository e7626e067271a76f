#include "instructions.h"

#include <string.h>

#include "draws.h"

enum { NONE = 16, PAGE = 4096, SIZE_TEXT = 48 };

/* What is being drawn. Registers that were given a value keep it. */
static const struct form *form;
static const struct run *run;
static struct trial *trial;
static int given[16];
static uint8_t text[SIZE_TEXT];
static int size;

static struct {
    int reg, rm, base, index, scale, mod, is_rip, segment, is_small;
    int64_t disp;
    uint64_t at, named;
} operand;

static void put(uint64_t number, int count) {
    for (; count > 0; count--, number >>= 8)
        text[size++] = (uint8_t)number;
}

static void give(int reg, uint64_t with) {
    if (!given[reg])
        trial->regs[reg] = with;
    given[reg] = 1;
}

static int is_vex(void) {
    return form->opcode[0] == 'c' && (form->opcode[1] == '4' || form->opcode[1] == '5') && form->opcode[4];
}

/* The registers that may be named: those of VEX forms without the bits that name the upper eight. */
static int named_registers(void) { return is_vex() ? 8 : 16; }

static int has(char letter) { return strchr(form->also, letter) != NULL; }

static int is_free(void) { return has('f'); }

static uint64_t segment_base(void) { return !operand.segment ? 0 : operand.segment == 0x64 ? run->fs : run->gs; }

static uint64_t canonical(void) { return (uint64_t)((int64_t)draw() >> 17); }

/* Beside the ends of pages that can be written, read or neither; else anywhere, canonical or not. */
static uint64_t wild_place(int is_near) {
    if (!is_near && below(8) == 0)
        return below(4) ? canonical() : draw();
    return WILD + PAGE * below(WILD_PAGES + 1) - 8 + below(16);
}

/* Where an indirect branch may go. */
static uint64_t target(void) {
    if (run->is_wild && below(4))
        return below(8) ? canonical() : draw();
    return far_landing();
}

/* An address in the data, often beside the end of a page. */
static uint64_t some_place(int is_near) {
    if (run->is_wild)
        return wild_place(is_near);
    uint64_t space = is_near || below(2) ? DATA : HIGH;
    uint64_t at = space + (below(6) ? 8 + below(SPACE - 80) : PAGE - 8 + below(9));
    return form->aligned ? at & -(uint64_t)form->aligned : at;
}

/* Bytes that a string instruction goes through, up or down. */
static uint64_t string_place(void) { return (below(2) ? DATA : HIGH) + 0x100 + below(SPACE - 0x300); }

/* What the instruction has without naming it: a stack, a count. */
static void draw_implied(void) {
    uint64_t top = (below(2) ? DATA : HIGH) + (below(6) ? 0x300 + below(SPACE - 0x600) : PAGE - 4 + below(12));
    if (run->is_wild)
        top = wild_place(0);
    struct place *place = &trial->places[1];
    if (has('p'))
        give(RSP, top), *place = (struct place){ top - 8, value(), 0 };
    if (has('s') || has('t'))
        give(RSP, top), *place = (struct place){ top, has('t') ? target() : value(), 0 };
    if (has('b'))
        give(RBP, top), *place = (struct place){ top, value(), 0 };
    if (has('S'))
        give(RSI, string_place());
    if (has('D'))
        give(RDI, string_place());
    if (has('c'))
        give(RCX, below(5));
    if (has('x'))
        give(RBX, string_place()), give(RAX, below(256));
    if (has('z'))
        give(RDX, 0);
}

static uint64_t shift_count(void) {
    uint64_t all[] = { 0,
                       1,
                       (uint64_t)form->bits - 1,
                       (uint64_t)form->bits,
                       (uint64_t)form->bits + 1,
                       below((uint64_t)form->bits),
                       below((uint64_t)form->bits),
                       below(256) };
    return all[below(8)];
}

static void draw_counts(void) {
    if (has('n'))
        give(RCX, (value() & ~(uint64_t)255) | shift_count());
    if (has('l'))
        give(RCX, below(2) ? below(3) : below(2) ? value() : draw() << 32 | below(2));
}

static void draw_shape(void) {
    int at_stack = strchr(form->mode, 's') != NULL;
    uint64_t kind = below(9);
    operand.segment = below(4) ? 0 : 0x64 + (int)below(2);
    operand.is_small = kind != 8 && below(6) == 0;
    operand.base = at_stack ? RSP : kind < 6 ? (int)below((uint64_t)named_registers()) : NONE;
    operand.scale = (int)below(4);
    operand.is_rip = kind == 8 && !at_stack;
    if (operand.base == RSP && given[RSP]) /* the place is then near the top of the stack */
        kind = 1, operand.segment = operand.is_small = 0;
    do
        operand.index = kind >= 3 && kind < 7 ? (int)below((uint64_t)named_registers()) : NONE;
    while (operand.index == RSP || (operand.index == operand.base && operand.index != NONE));
    operand.mod = kind < 6 ? (int)kind % 3 : 0;
    if (operand.mod == 0 && operand.base < NONE && operand.base % 8 == 5)
        operand.mod = 1;
    operand.disp = operand.mod == 1 ? (int8_t)draw() : operand.mod == 2 || operand.base == NONE ? (int32_t)draw() : 0;
}

static uint64_t narrow(uint64_t number) { return operand.is_small ? draw() << 32 | (uint32_t)number : number; }

/* Gives registers so that they, the scale and the displacement make up a number. */
static void make_up(uint64_t sum) {
    if (operand.base == NONE && operand.index == NONE) {
        operand.disp = (int64_t)sum;
    } else if (operand.base == NONE) {
        operand.disp = (operand.disp & -(int64_t)8) | (int64_t)(sum & ((1u << operand.scale) - 1));
        uint64_t scaled = sum - (uint64_t)operand.disp;
        give(operand.index, (operand.is_small ? (uint32_t)scaled : scaled) >> operand.scale);
    } else {
        if (operand.index != NONE)
            give(operand.index, value());
        uint64_t scaled = operand.index != NONE ? trial->regs[operand.index] << operand.scale : 0;
        give(operand.base, narrow(sum - (uint64_t)operand.disp - scaled));
    }
}

static void draw_place(void) {
    draw_shape();
    int is_near = operand.is_rip || operand.is_small || (operand.base == NONE && operand.index == NONE);
    if (is_near && segment_base() >> 22)
        operand.segment = 0;
    operand.at = some_place(is_near);
    operand.named = operand.at - segment_base();
    if (operand.base == RSP && given[RSP])
        operand.at = trial->regs[RSP] + (uint64_t)operand.disp + (strcmp(form->name, "pop") ? 0 : 8);
    else if (!operand.is_rip)
        make_up(operand.named);
    if (!is_free())
        trial->places[0] = (struct place){ operand.at, form->mode[1] == 'j' ? target() : value(), 0 };
}

static int some_register(int bits) {
    return bits == 8 && below(2) ? 4 + (int)below(4) : (int)below((uint64_t)named_registers());
}

static void draw_registers(void) {
    char digit = form->mode[form->mode[1] == 'j' ? 2 : 1];
    int has_digit = form->mode[0] == '/' && digit >= '0' && digit <= '7';
    operand.reg = has_digit ? digit - '0' : form->mode[0] == '/' ? some_register(form->bits) : 0;
    operand.base = operand.index = operand.rm = NONE;
    operand.is_rip = operand.segment = operand.is_small = 0;
    if (form->in_memory)
        draw_place();
    else if (form->mode[0] != '-')
        do /* 90 is NOP, and what is called through rsp would lie in the stack */
            operand.rm = some_register(form->other_bits);
        while ((operand.rm == RAX && !strcmp(form->opcode, "90")) ||
               (operand.rm == RSP && form->mode[1] == 'j' && given[RSP]));
    if (operand.rm != NONE && form->mode[1] == 'j')
        give(operand.rm, target());
}

/* The REX byte that stands before the opcode, or 0. */
static int rex(void) {
    int digit = form->mode[0] == '/' && form->mode[1] < 'a';
    int b = (operand.rm == NONE ? 0 : operand.rm) | (operand.base == NONE ? 0 : operand.base);
    int index = operand.index == NONE ? 0 : operand.index;
    int bits = (form->bits == 64 && form->width != 'q') << 3 | (digit ? 0 : operand.reg & 8) >> 1 | (index & 8) >> 2 |
               (b & 8) >> 3;
    int one_more = strcmp(form->name, "nop") && below(form->bits == 8 ? 3 : 16) == 0;
    return (bits || one_more) && !is_vex() ? 0x40 | bits : 0;
}

static int takes_66(void) {
    if (form->changes)
        return 0;
    return form->bits == 8 || !strcmp(form->name, "set") ||
           ((form->width == 'v' || form->width == 'Q') && form->bits == 64) ||
           (form->width == 'q' && strchr(form->mode, '-') && !strcmp(form->imm, "-") &&
            strstr("cmc clc stc sahf lahf", form->name));
}

/* Whether an opcode's text begins with a prefix. */
static int begins_with_prefix(const char *op) {
    static const char *const prefixes[] = { "f2", "f3", "66", "67", "f0" };
    for (size_t at = 0; at < sizeof prefixes / sizeof *prefixes; at++)
        if (!strncmp(op, prefixes[at], 2) && op[2])
            return 1;
    return 0;
}

static unsigned digits_of(const char *two) {
    unsigned high = (unsigned)(two[0] <= '9' ? two[0] - '0' : two[0] - 'a' + 10);
    return high << 4 | (unsigned)(two[1] <= '9' ? two[1] - '0' : two[1] - 'a' + 10);
}

/* Prefixes in any order, some of them for nothing. */
static void put_prefixes(void) {
    uint8_t all[16];
    int count = 0, is_loop = !strncmp(form->name, "loop", 4);
    if (operand.segment)
        all[count++] = (uint8_t)operand.segment;
    if (operand.is_small)
        all[count++] = 0x67;
    if (form->width == 'v' && form->bits == 16)
        all[count++] = 0x66;
    for (const char *op = form->opcode; begins_with_prefix(op); op += 2)
        all[count++] = (uint8_t)digits_of(op);
    if (below(8) == 0)
        all[count++] = (uint8_t[]){ 0x26, 0x2e, 0x36, 0x3e }[below(4)];
    if (below(16) == 0 && takes_66())
        all[count++] = 0x66;
    if (count > 0 && !form->changes && below(16) == 0) /* one twice */
        all[count] = all[count - 1], count++;
    if (!form->in_memory && !is_loop && !form->is_branch && below(16) == 0)
        all[count++] = below(2) ? 0x67 : (uint8_t)(0x64 + below(2));
    for (int at = count - 1; at > 0; at--) {
        int with = (int)below((uint64_t)at + 1);
        uint8_t kept = all[at];
        all[at] = all[with], all[with] = kept;
    }
    for (int at = 0; at < count; at++) {
        if (below(48) == 0 && !is_vex())
            put(0x40 + below(16), 1); /* a REX byte that doesn't stand before the opcode */
        put(all[at], 1);
    }
}

static void put_opcode(void) {
    const char *op = form->opcode;
    while (begins_with_prefix(op))
        op += 2;
    int extension = rex();
    if (extension)
        put((uint64_t)extension, 1);
    for (; *op; op += 2)
        put(digits_of(op), 1);
}

static void put_memory(void) {
    int sib = operand.index != NONE || (!operand.is_rip && (operand.base == NONE || operand.base % 8 == 4));
    put((uint64_t)(operand.mod << 6 | (operand.reg & 7) << 3 | (operand.is_rip ? 5 : sib ? 4 : operand.base & 7)), 1);
    if (sib)
        put((uint64_t)(operand.scale << 6 | (operand.index == NONE ? 4 : operand.index & 7) << 3 |
                       (operand.base == NONE ? 5 : operand.base & 7)),
            1);
    if (operand.is_rip)
        trial->rip_at = size;
    put((uint64_t)operand.disp, operand.mod == 1 ? 1 : operand.mod == 2 || operand.base == NONE ? 4 : 0);
}

static void put_operands(void) {
    if (form->mode[0] == '+')
        text[size - 1] |= operand.rm & 7;
    else if (form->mode[0] == '/' && !form->in_memory)
        put((uint64_t)(0xc0 | (operand.reg & 7) << 3 | (operand.rm & 7)), 1);
    else if (form->in_memory)
        put_memory();
}

static void put_imm(void) {
    int four = form->bits == 16 ? 2 : 4;
    if (!strcmp(form->imm, "ib"))
        put(value(), 1);
    else if (!strcmp(form->imm, "ic"))
        put(shift_count(), 1);
    else if (!strcmp(form->imm, "en"))
        put(below(64), 2), put(0, 1);
    else if (!strcmp(form->imm, "iw"))
        put(below(2) ? below(64) : value(), 2);
    else if (!strcmp(form->imm, "iz"))
        put(value(), four);
    else if (!strcmp(form->imm, "iv"))
        put(value(), form->bits == 64 ? 8 : four);
    else if (form->imm[0] == 'c') /* a displacement, filled in later */
        put(0, form->imm[1] == 'b' ? 1 : 4);
}

/* The displacements that depend on where the instruction stands. */
static void place_it(void) {
    trial->size = size;
    trial->rip = next_rip(size);
    uint64_t next = trial->rip + (uint64_t)size, distance;
    if (trial->rip_at) {
        distance = operand.named - next;
        memcpy(text + trial->rip_at, &distance, 4);
        trial->named = operand.named;
    }
    if (!strcmp(form->imm, "cb"))
        text[size - 1] = (uint8_t)(near_landing(next) - next);
    if (!strcmp(form->imm, "cd")) {
        distance = run->is_wild && below(2) ? draw() : (below(4) ? far_landing() : near_landing(next)) - next;
        memcpy(text + size - 4, &distance, 4);
    }
    memcpy(trial->code, text, (size_t)size);
}

static uint64_t undefined(void) {
    int bits = form->bits == 64 ? 63 : 31;
    uint64_t by = has('n') ? trial->regs[RCX] : !strcmp(form->imm, "ic") ? text[size - 1] : 1;
    int count = (int)(by & (uint64_t)bits);
    if (form->leaves == NO_FLAG || (form->leaves != LOGIC && count == 0))
        return 0;
    if (form->leaves == LOGIC)
        return AF;
    return AF | (count != 1 ? OF : 0) | (count >= form->bits && form->leaves == SHIFT ? CF : 0);
}

/* The registers that may hold what a code names: of a byte also one of the first four. */
static unsigned holders(int code) {
    return 1u << code | (form->bits == 8 && code >= 4 && code < 8 ? 1u << (code - 4) : 0);
}

void draw_trial(const struct form *of, const struct run *in, struct trial *to) {
    unsigned number = to->form;
    form = of, run = in, trial = to;
    do {
        memset(trial, 0, sizeof *trial);
        memset(given, 0, sizeof given);
        trial->form = number;
        size = 0;
        for (int reg = 0; reg < 16; reg++)
            trial->regs[reg] = value();
        draw_implied();
        draw_registers();
        put_prefixes();
        put_opcode();
        put_operands();
        put_imm();
        draw_counts();
    } while (size > CODE_MOST);
    if (run->is_wild)
        memset(trial->places, 0, sizeof trial->places);
    trial->flags = draw() & SIX;
    place_it();
    trial->undefined = undefined();
    trial->operand_at = operand.at;
    trial->reg_bits = holders(operand.reg);
    trial->rm_bits = operand.rm == NONE ? 0 : holders(operand.rm);
}
