/* What an instruction reads as data, of the text. */
#include <string.h>
#include <sys/ptrace.h>

#include "asking.h"
#include "refusing.h"
#include "step.h"

enum { SLOTS = 1 << 16, WORD = 8 };

/* By words, as a tracer may read memory that no one else may. */
static size_t read_code(pid_t process, uint64_t addr, uint8_t bytes[2 * WORD]) {
    for (size_t at = 0; at < 2 * WORD; at += WORD) {
        errno = 0;
        long word = ptrace(PTRACE_PEEKTEXT, process, addr + at, NULL);
        if (errno)
            return at;
        memcpy(bytes + at, &word, WORD);
    }
    return MOST_BYTES;
}

/* What stands at an address, as it was when it was executed first, or another address with this slot since. */
static const struct decoded *decoded_at(pid_t process, uint64_t addr) {
    static struct decoded *slots;
    uint8_t bytes[2 * WORD];
    if (!slots)
        slots = zeros(SLOTS, sizeof *slots);
    struct decoded *it = slots + addr % SLOTS;
    if (it->rip != addr)
        decode_bytes(it, addr, bytes, read_code(process, addr, bytes));
    return it;
}

static bool reads(const struct decoded *it, const ZydisDecodedOperand *operand) {
    return operand->type == ZYDIS_OPERAND_TYPE_MEMORY && operand->mem.type == ZYDIS_MEMOP_TYPE_MEM && operand->actions & ZYDIS_OPERAND_ACTION_MASK_READ
           && it->insn.mnemonic != ZYDIS_MNEMONIC_NOP;
}

bool mark_reads(struct text *text, pid_t process, struct user_regs_struct *registers) {
    const struct decoded *it = decoded_at(process, registers->rip);
    if (!it->insn.length)
        return false;
    for (int at = 0; at < it->insn.operand_count; at++) {
        if (!reads(it, it->operands + at))
            continue;
        uint64_t addr = address_of(it, it->operands + at, registers), size = it->operands[at].size / 8;
        for (uint64_t byte = addr; byte - addr < size; byte++)
            if (byte >= text->lo && byte < text->hi && text->listed[byte - text->lo] & LISTED)
                text->seen[byte - text->lo] |= SEEN_READ;
    }
    return is_syscall(it);
}
