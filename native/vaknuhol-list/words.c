#include "words.h"

#include <string.h>

enum { RET = 0xC3, NOP = 0x90, INT3 = 0xCC, HLT = 0xF4, CALL_NEAR = 0xE8, JUMP_NEAR = 0xE9, JUMP_SHORT = 0xEB, LOOKED_AT = 6 };
enum { ALIGNED = 16, FARTHEST = 2048 };

/* Whether the bytes before an address may be the end of what doesn't go on, of a nop or of fill. A call may not return. */
static bool may_end_before(const uint8_t *end) {
    switch (end[-1]) {
    case 0:
    case NOP:
    case INT3:
    case RET:
    case HLT: return true;
    default: break;
    }
    if (end[-2] == JUMP_SHORT || (end[-2] == 0x0F && end[-1] == 0x0B) || (end[-2] == 0xFF && (end[-1] & 0xF8) == 0xE0))
        return true; /* a short jump, ud2, a jump by a register */
    if (end[-3] == 0xC2 || end[-5] == CALL_NEAR || end[-5] == JUMP_NEAR)
        return true;                                    /* a return that takes arguments away */
    return end[-6] == 0xFF && (end[-5] & 0xC7) == 0x05; /* a call or jump by an address in memory */
}

static bool is_behind_end(const struct evidence *it, uint32_t addr) {
    const uint8_t *bytes = bytes_at(it->program, addr - LOOKED_AT, LOOKED_AT);
    return !bytes || !in_text(it->program, addr - 1) || may_end_before(bytes + LOOKED_AT);
}

/* The first place at or after an address that is read to from one before it; 0 where that can't be read. */
static uint32_t read_to(const struct evidence *it, uint32_t from, uint32_t addr) {
    struct instruction one;
    bool is_odd;
    for (; from < addr; from += one.length)
        if (!decode(it->program, from, &one, &is_odd) || is_odd)
            return 0;
    return from;
}

/* Whether the code around an address is read past it, and not to it, from the next aligned place before it where a function may begin. */
static bool is_passed_over(const struct evidence *it, uint32_t addr) {
    uint32_t place = addr / ALIGNED * ALIGNED, first = addr < FARTHEST ? 0 : addr - FARTHEST;
    for (; place > first && in_text(it->program, place); place -= ALIGNED) {
        uint32_t reached = is_behind_end(it, place) ? read_to(it, place, addr) : 0;
        if (reached)
            return reached > addr;
    }
    return false;
}

void propose_words(struct evidence *it, bool behind_ends) {
    const struct program *program = it->program;
    for (int at = 0; at < program->segment_count; at++) {
        const struct segment *segment = program->segments + at;
        for (uint64_t place = -segment->addr & 7; place + 8 <= segment->in_file; place += 8) {
            uint64_t word;
            memcpy(&word, segment->bytes + place, 8);
            if (!in_text(program, word) || in_text(program, segment->addr + place) || is_behind_end(it, (uint32_t)word) != behind_ends)
                continue;
            if (behind_ends || !is_passed_over(it, (uint32_t)word))
                propose(it, word, WORD);
        }
    }
}
