#include "rules.h"

#include <string.h>

const char *const RULE_NAMES[RULES] = {
    "no rule",
    "EVEX: 62",
    "XOP: 8F with a map from 8 on",
    "3DNow: 0F 0F",
    "a near branch with prefix 66",
    "VEX behind a REX that isn't directly before it",
    "a move of a control or debug register: 0F 20 to 0F 23",
    "undefined, and with its prefixes more bytes than 15 are fetched",
};

static int is_branch(const uint8_t *opcode) {
    uint8_t one = opcode[0], reg = opcode[1] >> 3 & 7;
    if (one == 0x0f)
        return (opcode[1] & 0xf0) == 0x80;
    return (one & 0xf0) == 0x70 || one == 0xc2 || one == 0xc3 || (one & 0xfc) == 0xe0 || one == 0xe8 || one == 0xe9 ||
           one == 0xeb || (one == 0xff && (reg == 2 || reg == 4));
}

enum rule rule_of(const struct sequence *it) {
    unsigned which;
    size_t at = prefixes_of(it->bytes, &which);
    uint8_t opcode[2] = { 0, 0 };
    memcpy(opcode, it->bytes + at, at + 2 <= LONGEST ? 2 : LONGEST - at);
    if (opcode[0] == 0x62)
        return EVEX;
    if (opcode[0] == 0x8f && (opcode[1] & 0x1f) >= 8)
        return XOP;
    if (opcode[0] == 0x0f && opcode[1] == 0x0f)
        return THREE_D_NOW;
    if (opcode[0] == 0x0f && (opcode[1] & 0xfc) == 0x20)
        return it->verdict == PROTECTED ? CONTROL_MOVE : NO_RULE;
    if ((opcode[0] & 0xfe) == 0xc4)
        return which & HAS_REX && (it->bytes[at - 1] & 0xf0) != 0x40 ? VEX_BEHIND_REX : NO_RULE;
    return which & HAS_66 && is_branch(opcode) ? BRANCH_66 : NO_RULE;
}
