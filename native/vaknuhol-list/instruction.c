#include "instruction.h"

#include <string.h>

#include "spelling.h"

enum { LONGEST = 15, SMALL = 4096, PAGE = 0x1000, TOP = (int)0x80000000 };

static bool is_ready;
static ZydisDecoder decoder;

bool ends(int kind) { return kind == JUMP || kind == RETURN || kind == JUMP_INDIRECT || kind == END; }

bool may_return(int kind) { return kind == CALL || kind == CALL_INDIRECT || kind == KERNEL || kind == TRAP; }

static uint32_t bit_of(ZydisRegister name) {
    ZydisRegister whole = ZydisRegisterGetLargestEnclosing(ZYDIS_MACHINE_MODE_LONG_64, name);
    switch (ZydisRegisterGetClass(whole)) {
    case ZYDIS_REGCLASS_GPR64: return 1u << ZydisRegisterGetId(whole);
    case ZYDIS_REGCLASS_X87:
    case ZYDIS_REGCLASS_MMX: return X87;
    case ZYDIS_REGCLASS_XMM:
    case ZYDIS_REGCLASS_YMM:
    case ZYDIS_REGCLASS_ZMM: return VECTOR;
    case ZYDIS_REGCLASS_MASK: return MASK;
    case ZYDIS_REGCLASS_SEGMENT: return SEGMENT;
    case ZYDIS_REGCLASS_FLAGS:
    case ZYDIS_REGCLASS_IP:
    case ZYDIS_REGCLASS_INVALID: return 0;
    default: return OTHER;
    }
}

/* What no compiler writes into a program for users. */
static bool is_rare(const ZydisDecodedInstruction *insn) {
    if (insn->attributes & ZYDIS_ATTRIB_IS_PRIVILEGED && insn->mnemonic != ZYDIS_MNEMONIC_HLT)
        return true;
    if (insn->meta.branch_type == ZYDIS_BRANCH_TYPE_FAR)
        return true;
    switch (insn->mnemonic) {
    case ZYDIS_MNEMONIC_IN:
    case ZYDIS_MNEMONIC_OUT:
    case ZYDIS_MNEMONIC_INSB:
    case ZYDIS_MNEMONIC_INSW:
    case ZYDIS_MNEMONIC_INSD:
    case ZYDIS_MNEMONIC_OUTSB:
    case ZYDIS_MNEMONIC_OUTSW:
    case ZYDIS_MNEMONIC_OUTSD:
    case ZYDIS_MNEMONIC_CLI:
    case ZYDIS_MNEMONIC_STI:
    case ZYDIS_MNEMONIC_INT1:
    case ZYDIS_MNEMONIC_XLAT:
    case ZYDIS_MNEMONIC_ENTER:
    case ZYDIS_MNEMONIC_IRET:
    case ZYDIS_MNEMONIC_IRETD:
    case ZYDIS_MNEMONIC_IRETQ:
    case ZYDIS_MNEMONIC_LSS:
    case ZYDIS_MNEMONIC_LFS:
    case ZYDIS_MNEMONIC_LGS:
    case ZYDIS_MNEMONIC_INT: return true;
    default: return false;
    }
}

static int kind_of(const ZydisDecodedInstruction *insn, bool is_direct) {
    switch (insn->mnemonic) {
    case ZYDIS_MNEMONIC_HLT:
    case ZYDIS_MNEMONIC_UD0:
    case ZYDIS_MNEMONIC_UD1:
    case ZYDIS_MNEMONIC_UD2:
    case ZYDIS_MNEMONIC_SYSRET:
    case ZYDIS_MNEMONIC_IRET:
    case ZYDIS_MNEMONIC_IRETD:
    case ZYDIS_MNEMONIC_IRETQ: return END;
    case ZYDIS_MNEMONIC_SYSCALL:
    case ZYDIS_MNEMONIC_SYSENTER: return KERNEL;
    case ZYDIS_MNEMONIC_XABORT:
    case ZYDIS_MNEMONIC_XEND: return TRAP;
    case ZYDIS_MNEMONIC_INT: return insn->raw.imm[0].value.u == 0x80 ? KERNEL : TRAP;
    default: break;
    }
    switch (insn->meta.category) {
    case ZYDIS_CATEGORY_COND_BR: return BRANCH;
    case ZYDIS_CATEGORY_UNCOND_BR: return is_direct ? JUMP : JUMP_INDIRECT;
    case ZYDIS_CATEGORY_CALL: return is_direct ? CALL : CALL_INDIRECT;
    case ZYDIS_CATEGORY_RET: return RETURN;
    case ZYDIS_CATEGORY_INTERRUPT: return TRAP;
    default: return FALLS;
    }
}

static bool is_in_thread_area(const ZydisDecodedOperand *operand) {
    return operand->mem.segment == ZYDIS_REGISTER_FS || operand->mem.segment == ZYDIS_REGISTER_GS;
}

/* The address that an operand names without any register; 0 where there is none. */
static uint64_t named_address(const struct instruction *it, const ZydisDecodedOperand *operand, bool *is_whole) {
    *is_whole = operand->mem.base == ZYDIS_REGISTER_RIP;
    if (*is_whole)
        return it->addr + it->length + (uint64_t)operand->mem.disp.value;
    if (operand->mem.base != ZYDIS_REGISTER_NONE || !operand->mem.disp.has_displacement)
        return 0;
    *is_whole = operand->mem.index == ZYDIS_REGISTER_NONE;
    return (uint64_t)operand->mem.disp.value;
}

/* Whether an operand is read at a distance from an address of text, by a register. */
static bool is_table(const struct program *program, const ZydisDecodedOperand *operand) {
    bool has_register = operand->mem.base != ZYDIS_REGISTER_NONE || operand->mem.index != ZYDIS_REGISTER_NONE;
    return has_register && operand->mem.base != ZYDIS_REGISTER_RIP && operand->mem.type == ZYDIS_MEMOP_TYPE_MEM
           && operand->actions & ZYDIS_OPERAND_ACTION_MASK_READ && operand->mem.disp.has_displacement && operand->mem.disp.value > 0
           && in_text(program, (uint64_t)operand->mem.disp.value);
}

static bool is_aligned_vector(const ZydisDecodedInstruction *insn, const ZydisDecodedOperand *operand) {
    if (operand->size < 128)
        return false;
    switch (insn->mnemonic) {
    case ZYDIS_MNEMONIC_MOVUPS:
    case ZYDIS_MNEMONIC_MOVUPD:
    case ZYDIS_MNEMONIC_MOVDQU:
    case ZYDIS_MNEMONIC_LDDQU: return false;
    default: return true;
    }
}

static void take_memory(const struct program *program, struct instruction *it, const ZydisDecodedInstruction *insn, const ZydisDecodedOperand *operand,
                        bool *is_odd) {
    bool is_whole;
    uint64_t named = named_address(it, operand, &is_whole);
    it->reads |= bit_of(operand->mem.base) | bit_of(operand->mem.index);
    if (named && named < (uint32_t)TOP && !is_in_thread_area(operand))
        it->held = (uint32_t)named;
    if (is_table(program, operand) && !is_in_thread_area(operand))
        it->table = (uint32_t)operand->mem.disp.value;
    if (operand->mem.type == ZYDIS_MEMOP_TYPE_AGEN) {
        it->is_lea = true;
        return;
    }
    if (insn->mnemonic == ZYDIS_MNEMONIC_NOP)
        return;
    if (operand->actions & ZYDIS_OPERAND_ACTION_MASK_READ)
        it->marks |= READS;
    if (operand->actions & ZYDIS_OPERAND_ACTION_MASK_WRITE)
        it->marks |= WRITES;
    it->is_absolute = is_whole;
    it->width = (uint8_t)(operand->size / 8 < 255 ? operand->size / 8 : 255);
    it->stride = operand->mem.scale > it->width ? operand->mem.scale : it->width;
    if (operand->mem.base != ZYDIS_REGISTER_RSP || operand->mem.index != ZYDIS_REGISTER_NONE || is_aligned_vector(insn, operand))
        it->marks |= FAULTS;
    /* gcc keeps reads of the first page and of the last one behind what can't be reached */
    bool is_absolute = operand->mem.base == ZYDIS_REGISTER_NONE && operand->mem.index == ZYDIS_REGISTER_NONE;
    if (is_absolute && !is_in_thread_area(operand) && !segment_of(program, named) && named + PAGE >= 2 * PAGE)
        *is_odd = true;
}

static void take_register(struct instruction *it, const ZydisDecodedOperand *operand) {
    uint32_t bit = bit_of(operand->reg.value);
    if (operand->actions & ZYDIS_OPERAND_ACTION_MASK_READ)
        it->reads |= bit;
    if (!(operand->actions & ZYDIS_OPERAND_ACTION_MASK_WRITE))
        return;
    it->writes |= bit;
    if (operand->size < 32 && bit <= GENERAL) /* what isn't written of the register is kept */
        it->reads |= bit;
}

/* Whether there is a target. */
static bool take_immediate(const struct program *program, struct instruction *it, const ZydisDecodedInstruction *insn, const ZydisDecodedOperand *operand,
                           bool *is_odd) {
    if (operand->imm.is_relative) {
        uint64_t target = it->addr + it->length + operand->imm.value.u;
        it->target = target == program->base ? 0 : (uint32_t)target; /* an undefined weak symbol is 0, at the base */
        if (it->target && !in_text(program, target))
            *is_odd = true;
        return true;
    }
    if (insn->mnemonic == ZYDIS_MNEMONIC_CMP && operand->imm.value.u < SMALL)
        it->cases = (uint16_t)(operand->imm.value.u + 1);
    else if (operand->size >= 32 && operand->imm.value.u < (uint32_t)TOP)
        it->number = (uint32_t)operand->imm.value.u;
    return false;
}

/* Instructions that may fault whatever their operands are: by what they do, or since not all processors have them. */
static bool faults_alone(const ZydisDecodedInstruction *insn, int kind) {
    if (kind == END || kind == KERNEL || kind == TRAP || insn->encoding != ZYDIS_INSTRUCTION_ENCODING_LEGACY)
        return true;
    switch (insn->meta.isa_ext) {
    case ZYDIS_ISA_EXT_BASE:
    case ZYDIS_ISA_EXT_LONGMODE:
    case ZYDIS_ISA_EXT_CET: break;
    case ZYDIS_ISA_EXT_SSE:
    case ZYDIS_ISA_EXT_SSE2: /* numeric exceptions */
        return insn->meta.exception_class == ZYDIS_EXCEPTION_CLASS_SSE2 || insn->meta.exception_class == ZYDIS_EXCEPTION_CLASS_SSE3;
    default: return true;
    }
    return insn->mnemonic == ZYDIS_MNEMONIC_DIV || insn->mnemonic == ZYDIS_MNEMONIC_IDIV || insn->meta.category == ZYDIS_CATEGORY_IO
           || insn->meta.category == ZYDIS_CATEGORY_SYSTEM || insn->meta.category == ZYDIS_CATEGORY_SEGOP || insn->attributes & ZYDIS_ATTRIB_IS_PRIVILEGED;
}

static bool fills_room(const ZydisDecodedInstruction *insn, const ZydisDecodedOperand *operands, const uint8_t *bytes) {
    if (insn->mnemonic == ZYDIS_MNEMONIC_LEA)
        return operands[0].reg.value == operands[1].mem.base && operands[1].mem.index == ZYDIS_REGISTER_NONE && operands[1].mem.disp.value == 0;
    return insn->mnemonic == ZYDIS_MNEMONIC_NOP || insn->mnemonic == ZYDIS_MNEMONIC_INT3 || (bytes[0] == 0x66 && bytes[1] == 0x90);
}

static void mark(struct instruction *it, const ZydisDecodedInstruction *insn, const ZydisDecodedOperand *operands, const uint8_t *bytes) {
    if (faults_alone(insn, it->kind))
        it->marks |= FAULTS;
    if (it->kind == KERNEL || it->kind == TRAP) /* who answers may change any register */
        it->writes |= GENERAL;
    if (!fills_room(insn, operands, bytes))
        return;
    it->marks |= NOTHING;
    if (insn->mnemonic != ZYDIS_MNEMONIC_INT3)
        it->reads = it->writes = 0;
}

static void take_flags(struct instruction *it, const ZydisDecodedInstruction *insn) {
    if (!insn->cpu_flags)
        return;
    it->flags_read = (uint16_t)insn->cpu_flags->tested;
    it->flags_written = (uint16_t)(insn->cpu_flags->modified | insn->cpu_flags->set_0 | insn->cpu_flags->set_1 | insn->cpu_flags->undefined);
}

bool decode_whole(const struct program *program, uint32_t addr, struct instruction *it, bool *is_odd, ZydisDecodedInstruction *insn,
                  ZydisDecodedOperand operands[ZYDIS_MAX_OPERAND_COUNT]) {
    uint32_t room = text_end(program, addr) - addr;
    const uint8_t *bytes = bytes_at(program, addr, 1);
    bool is_direct = false;
    if (!is_ready)
        is_ready = ZYAN_SUCCESS(ZydisDecoderInit(&decoder, ZYDIS_MACHINE_MODE_LONG_64, ZYDIS_STACK_WIDTH_64));
    if (!bytes || !room || !ZYAN_SUCCESS(ZydisDecoderDecodeFull(&decoder, bytes, room < LONGEST ? room : LONGEST, insn, operands)))
        return false;
    memset(it, 0, sizeof *it);
    it->addr = addr;
    it->length = insn->length;
    *is_odd = is_rare(insn) || (insn->length == 2 && bytes[0] == 0 && bytes[1] == 0);
    take_flags(it, insn);
    for (int at = 0; at < insn->operand_count; at++) {
        const ZydisDecodedOperand *operand = operands + at;
        if (operand->type == ZYDIS_OPERAND_TYPE_REGISTER)
            take_register(it, operand);
        else if (operand->type == ZYDIS_OPERAND_TYPE_MEMORY)
            take_memory(program, it, insn, operand, is_odd);
        else if (operand->type == ZYDIS_OPERAND_TYPE_IMMEDIATE)
            is_direct |= take_immediate(program, it, insn, operand, is_odd);
    }
    it->kind = (uint8_t)kind_of(insn, is_direct);
    mark(it, insn, operands, bytes);
    return true;
}

bool decode(const struct program *program, uint32_t addr, struct instruction *it, bool *is_odd) {
    ZydisDecodedInstruction insn;
    ZydisDecodedOperand operands[ZYDIS_MAX_OPERAND_COUNT];
    return decode_whole(program, addr, it, is_odd, &insn, operands);
}
