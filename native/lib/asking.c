#include "asking.h"

#include <string.h>

#include "process.h"

enum { NEAR = 64, SAVED = 16384, AROUND_STACK = 512 };

bool decode_bytes(struct decoded *insn, uint64_t rip, const uint8_t *bytes, size_t size) {
    static ZydisDecoder decoder;
    static bool is_ready;
    if (!is_ready)
        is_ready = ZYAN_SUCCESS(ZydisDecoderInit(&decoder, ZYDIS_MACHINE_MODE_LONG_64, ZYDIS_STACK_WIDTH_64));
    memcpy(insn->bytes, bytes, size);
    insn->rip = rip;
    if (!size || ZYAN_FAILED(ZydisDecoderDecodeFull(&decoder, insn->bytes, size, &insn->insn, insn->operands))) {
        insn->insn.length = 0;
        return false;
    }
    insn->kind = class_of(insn->bytes, insn->insn.length, &insn->shifts);
    return true;
}

/* Whether the count of a shift is 0, so that no flag changes. */
static bool shifts_by_none(const struct decoded *insn, const struct user_regs_struct *regs) {
    int op = insn->insn.opcode, mask = insn->insn.raw.rex.W ? 63 : 31;
    uint64_t count = op < 0xd0 ? insn->insn.raw.imm[0].value.u : op < 0xd2 ? 1 : regs->rcx;
    return insn->shifts && (count & mask) == 0;
}

enum asking kind_now(const struct decoded *insn, const struct user_regs_struct *regs) {
    return insn->kind == FLAGS_ALONE && shifts_by_none(insn, regs) ? PLAIN : insn->kind;
}

bool is_syscall(const struct decoded *insn) { return insn->insn.mnemonic == ZYDIS_MNEMONIC_SYSCALL; }

bool enters_kernel(const struct decoded *insn) { return is_syscall(insn) || insn->insn.mnemonic == ZYDIS_MNEMONIC_INT; }

bool repeats_string(const struct decoded *insn) {
    return (insn->insn.attributes & (ZYDIS_ATTRIB_HAS_REP | ZYDIS_ATTRIB_HAS_REPE | ZYDIS_ATTRIB_HAS_REPNE)) != 0;
}

static uint64_t value_of(ZydisRegister reg, struct user_regs_struct *regs) {
    if (reg == ZYDIS_REGISTER_NONE || ZydisRegisterGetClass(reg) > ZYDIS_REGCLASS_GPR64)
        return 0;
    return *register_of(regs, ZydisRegisterGetId(ZydisRegisterGetLargestEnclosing(ZYDIS_MACHINE_MODE_LONG_64, reg)));
}

uint64_t address_of(const struct decoded *insn, const ZydisDecodedOperand *operand, struct user_regs_struct *regs) {
    bool is_relative = operand->mem.base == ZYDIS_REGISTER_RIP || operand->mem.base == ZYDIS_REGISTER_EIP;
    uint64_t addr = is_relative ? insn->rip + insn->insn.length : value_of(operand->mem.base, regs);
    addr += value_of(operand->mem.index, regs) * operand->mem.scale + operand->mem.disp.value;
    if (insn->insn.address_width == 32)
        addr = (uint32_t)addr;
    if (operand->mem.segment == ZYDIS_REGISTER_FS)
        addr += regs->fs_base;
    if (operand->mem.segment == ZYDIS_REGISTER_GS)
        addr += regs->gs_base;
    int op = insn->insn.opcode;
    bool has_bit = insn->insn.opcode_map == ZYDIS_OPCODE_MAP_0F && (op == 0xab || op == 0xb3 || op == 0xbb);
    if (has_bit) {
        uint64_t offset = value_of(insn->operands[1].reg.value, regs);
        int width = insn->insn.operand_width;
        addr += (width == 64 ? (int64_t)offset : width == 32 ? (int32_t)offset : (int16_t)offset) >> 3;
    }
    return addr;
}

static bool saves_state(const struct decoded *insn) {
    ZydisMnemonic name = insn->insn.mnemonic;
    return name == ZYDIS_MNEMONIC_XSAVE || name == ZYDIS_MNEMONIC_XSAVEC || name == ZYDIS_MNEMONIC_XSAVEOPT || name == ZYDIS_MNEMONIC_XSAVE64
           || name == ZYDIS_MNEMONIC_XSAVEC64 || name == ZYDIS_MNEMONIC_XSAVEOPT64;
}

int spans_of(const struct decoded *insn, struct user_regs_struct *regs, struct span spans[MOST_SPANS]) {
    int count = 0;
    for (int at = 0; at < insn->insn.operand_count && count < MOST_SPANS; at++) {
        const ZydisDecodedOperand *operand = &insn->operands[at];
        if (operand->type != ZYDIS_OPERAND_TYPE_MEMORY || !(operand->actions & ZYDIS_OPERAND_ACTION_MASK_WRITE))
            continue;
        uint64_t addr = address_of(insn, operand, regs), size = operand->size / 8, turns = 1;
        if (repeats_string(insn))
            turns = insn->insn.address_width == 32 ? (uint32_t)regs->rcx : regs->rcx;
        bool down = regs->eflags >> 10 & 1;
        uint64_t margin = operand->mem.base == ZYDIS_REGISTER_RSP ? AROUND_STACK : NEAR;
        spans[count].lo = addr - margin - (down ? size * (turns - 1) : 0);
        spans[count++].hi = addr + margin + (saves_state(insn) ? SAVED : down ? size : size * turns);
    }
    return count;
}

bool question_of(const struct decoded *decoded, uint8_t bytes[MOST_BYTES], uint64_t *names) {
    const ZydisDecodedInstruction *insn = &decoded->insn;
    memcpy(bytes, decoded->bytes, insn->length);
    if (!(insn->attributes & ZYDIS_ATTRIB_HAS_MODRM) || insn->raw.modrm.mod != 0 || insn->raw.modrm.rm != 5)
        return false;
    memset(bytes + insn->raw.disp.offset, 0, 4);
    *names = decoded->rip + insn->length + insn->raw.disp.value;
    return true;
}

void hide_evex(const struct user_regs_struct *before, struct user_regs_struct *after) {
    if ((uint32_t)before->rax != 7)
        return;
    if ((uint32_t)before->rcx == 0) {
        after->rbx &= ~(uint64_t)0xdc230000;
        after->rcx &= ~(uint64_t)0x5842;
        after->rdx &= ~(uint64_t)0x80010c;
    } else
        after->rax &= ~(uint64_t)0x20, after->rdx &= ~(uint64_t)0x80000;
}
