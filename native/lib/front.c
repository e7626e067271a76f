#include "front.h"

#include <string.h>

static bool take_prefix(struct front *it, uint8_t byte) {
    switch (byte) {
    case 0x66: it->operand_size = true; break;
    case 0x67: it->address_size = true; break;
    case 0xF0: it->lock = true; break;
    case 0xF2: it->repne = true; break;
    case 0xF3: it->repe = true; break;
    case 0x64: it->fs = true; break;
    case 0x65: it->gs = true; break;
    case 0x26:
    case 0x2E:
    case 0x36:
    case 0x3E: break;
    default:
        if (byte < 0x40 || byte > 0x4F)
            return false;
        it->has_rex = true;
        it->rex = byte;
        return true;
    }
    it->rex = 0; /* a REX byte that isn't right before the opcode is ignored */
    return true;
}

/* A VEX prefix of two or three bytes: its map, and the opcode after it. */
static bool take_vex(struct front *it, const uint8_t *bytes, int count) {
    bool long_form = bytes[it->at] == 0xC4;
    int map = 1;
    if (it->at + 2 + long_form >= count)
        return false;
    if (it->operand_size || it->lock || it->repne || it->repe || it->has_rex)
        return false;
    if (long_form)
        map = bytes[it->at + 1] & 31;
    if (map < 1 || map > 3)
        return false;
    it->map = 10 + map;
    it->opcode = bytes[it->at + 2 + long_form];
    it->at += 3 + long_form;
    return true;
}

bool take_front(struct front *it, const uint8_t *bytes, int count) {
    memset(it, 0, sizeof *it);
    while (it->at < count && take_prefix(it, bytes[it->at]))
        it->at++;
    if (it->at >= count)
        return false;
    if (bytes[it->at] == 0xC4 || bytes[it->at] == 0xC5)
        return take_vex(it, bytes, count);
    it->map = 1;
    if (bytes[it->at] == 0x0F && it->at + 1 < count) {
        it->map = 2;
        it->at++;
        if ((bytes[it->at] == 0x38 || bytes[it->at] == 0x3A) && it->at + 1 < count)
            it->map = bytes[it->at++] == 0x38 ? 3 : 4;
    }
    it->opcode = bytes[it->at++];
    return true;
}

bool is_among(int opcode, const char *opcodes, int count) { return memchr(opcodes, opcode, (size_t)count) != NULL; }

bool is_near_branch(const struct front *it, int reg) {
    int op = it->opcode;
    if (it->map == 2)
        return is_within(0x80, 0x8F, op);
    return it->map == 1
           && (is_within(0x70, 0x7F, op) || is_within(0xE0, 0xE3, op) || is_among(op, "\xC2\xC3\xE8\xE9\xEB", 5) || (op == 0xFF && (reg == 2 || reg == 4)));
}

bool ends_run(const struct front *it, int reg) {
    int op = it->opcode;
    if (it->map == 2)
        return is_within(0x06, 0x09, op) || is_among(op, "\x0B\x30\x32\x34\x35\xAA", 6);
    return it->map == 1
           && (is_within(0x6C, 0x6F, op) || is_within(0xCA, 0xCD, op) || is_within(0xE4, 0xE7, op) || is_within(0xEC, 0xEF, op)
               || is_among(op, "\xCF\xF1\xF4\xFA\xFB", 5) || ((op == 0xC6 || op == 0xC7) && reg) || (op == 0xFE && reg > 1)
               || (op == 0xFF && (reg == 3 || reg == 5 || reg == 7)));
}
