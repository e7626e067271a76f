#include "classes.h"

#include "front.h"

static bool is_exact_two(const struct front *it) {
    int op = it->opcode;
    return is_within(0x40, 0x4F, op) || is_within(0x90, 0x9F, op) || op == 0xB6 || op == 0xBE || op == 0x1F
           || ((op == 0xB7 || op == 0xBF) && !it->operand_size);
}

static bool is_shift(int op) { return is_within(0xC0, 0xC1, op) || is_within(0xD0, 0xD3, op); }

static bool is_exact_one(const struct front *it, int reg, int registers) {
    int op = it->opcode, wide = it->rex >> 3 & 1;
    if (is_within(0x50, 0x5F, op) || op == 0x68 || op == 0x6A || op == 0x8F || op == 0xC9 || (op == 0xFF && reg == 6))
        return !it->operand_size;
    return (op < 0x40 && op % 8 < 6) || (op == 0x63 && wide) || (op == 0x8D && !registers) || ((op == 0x86 || op == 0x87) && registers) || op == 0x80
           || op == 0x81 || is_within(0x83, 0x85, op) || is_within(0x88, 0x8B, op) || is_within(0x90, 0x99, op) || is_within(0xB0, 0xBF, op) || op == 0xA8
           || op == 0xA9 || ((op == 0xC6 || op == 0xC7) && reg == 0) || ((op == 0xFE || op == 0xFF) && reg < 2)
           || ((op == 0xF6 || op == 0xF7) && (reg == 0 || reg == 2 || reg == 3)) || op == 0x9E || op == 0x9F || op == 0xF5 || op == 0xF8 || op == 0xF9
           || (is_shift(op) && (reg == 4 || reg == 5 || reg == 7));
}

/* Of the exact ones: or, and, xor, test and shifts. */
static bool leaves_flags(int op, int reg) {
    int which = op < 0x40 ? op / 8 : op == 0x80 || op == 0x81 || op == 0x83 ? reg : 0;
    return which == 1 || which == 4 || which == 6 || op == 0x84 || op == 0x85 || op == 0xA8 || op == 0xA9 || ((op == 0xF6 || op == 0xF7) && reg == 0)
           || is_shift(op);
}

/* F3 90 without REX.B, and F3 0F 1E FA: pause and endbr64. */
static bool is_nop_with_prefix(const struct front *it, int modrm) {
    bool is_nop = it->map == 2 ? it->opcode == 0x1E && modrm == 0xFA : it->opcode == 0x90 && !(it->rex & 1);
    return is_nop && it->repe && !it->lock && !it->repne;
}

enum asking class_of(const uint8_t *bytes, int count, bool *shifts) {
    struct front it;
    *shifts = false;
    if (!take_front(&it, bytes, count) || it.map > 2)
        return ASKED;
    int modrm = it.at < count ? bytes[it.at] : 0, reg = modrm >> 3 & 7;
    if (is_near_branch(&it, reg) || ends_run(&it, reg) || (it.fs && it.gs) || (it.repne && it.repe))
        return PLAIN;
    if (it.lock || it.repne || it.repe)
        return is_nop_with_prefix(&it, modrm) ? PLAIN : ASKED;
    if (!(it.map == 2 ? is_exact_two(&it) : is_exact_one(&it, reg, modrm >> 6 == 3)))
        return ASKED;
    *shifts = it.map == 1 && is_shift(it.opcode);
    return it.map == 1 && leaves_flags(it.opcode, reg) ? FLAGS_ALONE : PLAIN;
}
