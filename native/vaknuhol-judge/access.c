#include "access.h"

#include <string.h>

#include "front.h"

enum { SAVED_STATE = 16384 };

static bool is_ending(const struct decoded *insn) {
    struct front it;
    if (!take_front(&it, insn->bytes, insn->insn.length))
        return true;
    int modrm = it.at < insn->insn.length ? insn->bytes[it.at] : 0, reg = modrm >> 3 & 7;
    bool is_relative = insn->insn.attributes & ZYDIS_ATTRIB_HAS_MODRM && (modrm & 0xC7) == 5;
    if (ends_run(&it, reg) || (it.fs && it.gs) || (it.repne && it.repe) || (it.address_size && is_relative))
        return true;
    if (!is_near_branch(&it, reg))
        return false;
    bool is_plain_return = it.map == 1 && it.opcode == 0xC3 && it.repe && !it.lock;
    bool is_indirect = it.map == 1 && it.opcode == 0xFF;
    return ((it.lock || it.repne || it.repe) && !is_plain_return) || ((it.fs || it.gs) && !is_indirect)
           || (it.map == 1 && is_within(0xE0, 0xE2, it.opcode) && it.address_size);
}

/* LOCK INC of eight bytes at an address, and LOCK XADD of four with eax, which threads make in one step. */
static bool is_locked(const struct decoded *insn) {
    return insn->insn.length == 9 && (!memcmp(insn->bytes, "\xf0\x48\xff\x04\x25", 5) || !memcmp(insn->bytes, "\xf0\x0f\xc1\x04\x25", 5));
}

enum work work_of(const struct decoded *insn) {
    if (is_locked(insn))
        return EXACT;
    if (insn->kind == ASKED)
        return ANSWERED;
    return is_ending(insn) ? ENDS : EXACT;
}

/* How far below its operand's address an instruction writes that moves the stack pointer first. */
static uint64_t below_stack(const struct decoded *insn, const ZydisDecodedOperand *operand) {
    ZydisMnemonic name = insn->insn.mnemonic;
    bool is_push = name == ZYDIS_MNEMONIC_PUSH || name == ZYDIS_MNEMONIC_PUSHF || name == ZYDIS_MNEMONIC_PUSHFQ || name == ZYDIS_MNEMONIC_CALL
                   || name == ZYDIS_MNEMONIC_ENTER;
    bool is_hidden = operand->visibility == ZYDIS_OPERAND_VISIBILITY_HIDDEN && operand->mem.base == ZYDIS_REGISTER_RSP;
    return is_push && is_hidden && operand->actions & ZYDIS_OPERAND_ACTION_MASK_WRITE ? operand->size / 8 : 0;
}

static bool has_wide_state(const struct decoded *insn) {
    ZydisInstructionCategory of = insn->insn.meta.category;
    return of == ZYDIS_CATEGORY_XSAVE || of == ZYDIS_CATEGORY_XSAVEOPT;
}

/* The bytes of one operand; a repeated instruction goes on up or down as many times as the count went down. */
static struct access access_of(const struct decoded *insn, const ZydisDecodedOperand *operand, struct user_regs_struct *before,
                               const struct user_regs_struct *after) {
    uint64_t addr = address_of(insn, operand, before) - below_stack(insn, operand), size = operand->size / 8, turns = 1;
    bool may = operand->actions & (ZYDIS_OPERAND_ACTION_CONDWRITE), is_wide = has_wide_state(insn);
    if (repeats_string(insn) && insn->insn.mnemonic != ZYDIS_MNEMONIC_RET)
        turns = insn->insn.address_width == 32 ? (uint32_t)(before->rcx - after->rcx) : before->rcx - after->rcx;
    uint64_t down = turns && before->eflags >> 10 & 1 && turns > 1 ? size * (turns - 1) : 0;
    struct access it = {addr - down, addr - down + (is_wide ? SAVED_STATE : size * turns), false, false, !may && !is_wide};
    it.reads = (operand->actions & ZYDIS_OPERAND_ACTION_MASK_READ) != 0;
    it.writes = (operand->actions & ZYDIS_OPERAND_ACTION_MASK_WRITE) != 0;
    return it;
}

int accesses_of(const struct decoded *insn, struct user_regs_struct *before, const struct user_regs_struct *after, struct access accesses[MOST_ACCESSES]) {
    int count = 0;
    for (int at = 0; at < insn->insn.operand_count && count < MOST_ACCESSES; at++) {
        const ZydisDecodedOperand *operand = &insn->operands[at];
        if (operand->type == ZYDIS_OPERAND_TYPE_MEMORY && operand->mem.type == ZYDIS_MEMOP_TYPE_MEM && operand->actions)
            accesses[count++] = access_of(insn, operand, before, after);
    }
    return count;
}
