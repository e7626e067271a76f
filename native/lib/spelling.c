#include "spelling.h"

#include "front.h"

/* What follows an opcode byte. */
enum { NONE, PLAIN, MODRM, BYTE, Z, V, TWO_BYTES, THREE_BYTES, OFFSET, MODRM_BYTE, MODRM_Z, GROUP, GROUP_Z, NEAR };

struct row {
    uint8_t lo, hi, follows;
};

/* docs/reference/formats.md, one-byte opcodes; the arithmetic below 40 is in `one_byte`. */
static const struct row ONE[] = {
    {0x50, 0x5F, PLAIN},     {0x6C, 0x6F, PLAIN},      {0x90, 0x99, PLAIN},       {0x9B, 0x9F, PLAIN},      {0xA4, 0xA7, PLAIN},      {0xAA, 0xAF, PLAIN},
    {0xC3, 0xC3, PLAIN},     {0xC9, 0xC9, PLAIN},      {0xCB, 0xCC, PLAIN},       {0xCF, 0xCF, PLAIN},      {0xD7, 0xD7, PLAIN},      {0xEC, 0xEF, PLAIN},
    {0xF1, 0xF1, PLAIN},     {0xF4, 0xF5, PLAIN},      {0xF8, 0xFD, PLAIN},       {0x63, 0x63, MODRM},      {0x84, 0x8E, MODRM},      {0x8F, 0x8F, MODRM},
    {0xD0, 0xD3, MODRM},     {0xD8, 0xDF, MODRM},      {0xFE, 0xFF, MODRM},       {0x68, 0x68, Z},          {0xA9, 0xA9, Z},          {0x6A, 0x6A, BYTE},
    {0xA8, 0xA8, BYTE},      {0xB0, 0xB7, BYTE},       {0xCD, 0xCD, BYTE},        {0xE4, 0xE7, BYTE},       {0x69, 0x69, MODRM_Z},    {0x81, 0x81, MODRM_Z},
    {0xC7, 0xC7, MODRM_Z},   {0x6B, 0x6B, MODRM_BYTE}, {0x80, 0x80, MODRM_BYTE},  {0x83, 0x83, MODRM_BYTE}, {0xC0, 0xC1, MODRM_BYTE}, {0xC6, 0xC6, MODRM_BYTE},
    {0x70, 0x7F, BYTE},      {0xE0, 0xE3, BYTE},       {0xEB, 0xEB, BYTE},        {0xE8, 0xE9, NEAR},       {0xA0, 0xA3, OFFSET},     {0xB8, 0xBF, V},
    {0xC2, 0xC2, TWO_BYTES}, {0xCA, 0xCA, TWO_BYTES},  {0xC8, 0xC8, THREE_BYTES}, {0xF6, 0xF6, GROUP},      {0xF7, 0xF7, GROUP_Z},    {0, 0, NONE},
};
static const struct row TWO[] = {
    {0x00, 0x03, MODRM},      {0x0D, 0x0D, MODRM},      {0x10, 0x1F, MODRM},      {0x28, 0x2F, MODRM},
    {0x40, 0x6F, MODRM},      {0x74, 0x76, MODRM},      {0x7C, 0x7F, MODRM},      {0x90, 0x9F, MODRM},
    {0xA3, 0xA3, MODRM},      {0xA5, 0xA5, MODRM},      {0xAB, 0xAB, MODRM},      {0xAD, 0xB8, MODRM},
    {0xBB, 0xC1, MODRM},      {0xC3, 0xC3, MODRM},      {0xC7, 0xC7, MODRM},      {0xD0, 0xFE, MODRM},
    {0x70, 0x73, MODRM_BYTE}, {0xA4, 0xA4, MODRM_BYTE}, {0xAC, 0xAC, MODRM_BYTE}, {0xBA, 0xBA, MODRM_BYTE},
    {0xC2, 0xC2, MODRM_BYTE}, {0xC4, 0xC6, MODRM_BYTE}, {0x80, 0x8F, NEAR},       {0x05, 0x09, PLAIN},
    {0x0B, 0x0B, PLAIN},      {0x30, 0x35, PLAIN},      {0x37, 0x37, PLAIN},      {0x77, 0x77, PLAIN},
    {0xA0, 0xA2, PLAIN},      {0xA8, 0xAA, PLAIN},      {0xC8, 0xCF, PLAIN},      {0, 0, NONE},
};

static int in_rows(const struct row *rows, uint8_t opcode) {
    for (; rows->follows; rows++)
        if (rows->lo <= opcode && opcode <= rows->hi)
            return rows->follows;
    return NONE;
}

static int one_byte(uint8_t opcode) {
    if (opcode >= 0x40)
        return in_rows(ONE, opcode);
    return opcode % 8 < 4 ? MODRM : opcode % 8 == 4 ? BYTE : opcode % 8 == 5 ? Z : NONE;
}

static int follows(const struct front *it) {
    switch (it->map) {
    case 1: return one_byte(it->opcode);
    case 2: return in_rows(TWO, it->opcode);
    case 3:
    case 12: return MODRM;
    case 4:
    case 13: return MODRM_BYTE;
    default:
        if (it->opcode == 0x77)
            return PLAIN;
        return (it->opcode >= 0x70 && it->opcode <= 0x73) || it->opcode == 0xC2 || (it->opcode >= 0xC4 && it->opcode <= 0xC6) ? MODRM_BYTE : MODRM;
    }
}

/* How many bytes ModRM, SIB and displacement have, 0 where they aren't all there. */
static int operand_length(const uint8_t *bytes, int count) {
    if (count < 1)
        return 0;
    int mod = bytes[0] >> 6, rm = bytes[0] & 7, length = 1;
    if (mod != 3 && rm == 4) {
        if (count < 2)
            return 0;
        length = 2;
        rm = (bytes[1] & 7) == 5 && mod == 0 ? 5 : 4;
    }
    return length + (mod == 1 ? 1 : mod == 2 || (mod == 0 && rm == 5) ? 4 : 0);
}

static int immediate_length(const struct front *it, int what, int reg) {
    int wide = it->rex >> 3 & 1, z = it->operand_size && !wide ? 2 : 4;
    switch (what) {
    case BYTE:
    case MODRM_BYTE: return 1;
    case Z:
    case MODRM_Z: return z;
    case V: return wide ? 8 : z;
    case TWO_BYTES: return 2;
    case THREE_BYTES: return 3;
    case OFFSET: return it->address_size ? 4 : 8;
    case GROUP: return reg < 2;
    case GROUP_Z: return reg < 2 ? z : 0;
    case NEAR: return 4;
    default: return 0;
    }
}

static bool has_modrm(int what) { return what == MODRM || what == MODRM_BYTE || what == MODRM_Z || what == GROUP || what == GROUP_Z; }

int spelled_length(const uint8_t *bytes, int count) {
    struct front it;
    if (count > 15)
        count = 15;
    if (!take_front(&it, bytes, count))
        return 0;
    int what = follows(&it), length = it.at, reg = 0;
    if (what == NONE)
        return 0;
    if (has_modrm(what)) {
        int operand = operand_length(bytes + it.at, count - it.at);
        if (!operand)
            return 0;
        reg = bytes[it.at] >> 3 & 7;
        length += operand;
    }
    if ((it.map == 1 && it.opcode == 0x8F && reg) || (it.operand_size && is_near_branch(&it, reg)))
        return 0;
    length += immediate_length(&it, what, reg);
    return length <= count ? length : 0;
}

static bool one_byte_stays(const struct front *it, int reg) {
    bool is_indirect = it->opcode == 0xFF && (reg == 2 || reg == 4);
    return ends_run(it, reg) || is_within(0xD8, 0xE3, it->opcode) || it->opcode == 0x9B || (is_indirect && (it->lock || it->repne || it->repe));
}

static bool is_direct_branch(const struct front *it) { return is_near_branch(it, 0) && !(it->map == 1 && it->opcode >= 0xE0 && it->opcode <= 0xE3); }

bool can_be_displaced(const uint8_t *bytes, int count) {
    struct front it;
    if (!take_front(&it, bytes, count) || (it.fs && it.gs) || (it.repne && it.repe))
        return false;
    bool repeats = it.lock || it.repne || it.repe;
    int reg = it.at < count ? bytes[it.at] >> 3 & 7 : 0;
    bool is_relative = has_modrm(follows(&it)) && it.at < count && (bytes[it.at] & 0xC7) == 5; /* to the next instruction */
    if (it.address_size && is_relative)
        return false;
    if (is_direct_branch(&it))
        return (!repeats && !it.fs && !it.gs) || (it.opcode == 0xC3 && it.map == 1 && it.repe && !it.lock && !it.fs && !it.gs);
    if (it.map == 2) /* F2 and F3 leave 0F 05 a system call, which shows where it stands */
        return !ends_run(&it, reg) && !is_among(it.opcode, "\x00\x01\xAE\xC7", 4) && !(it.opcode == 0x05 && (it.repne || it.repe));
    return it.map != 1 || !one_byte_stays(&it, reg);
}
