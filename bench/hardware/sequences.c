#include "sequences.h"

#include <string.h>

#include "draws.h"

const char *const MAP_NAMES[MAPS] = { "one byte", "0F", "0F 38", "0F 3A", "VEX 0F", "VEX 0F 38", "VEX 0F 3A" };
const char *const VERDICT_NAMES[VERDICTS] = { "not run",   "ran",   "memory", "protected",
                                              "undefined", "other", "hung",   "too long" };

static const uint8_t PREFIXES[] = { 0x66, 0xf2, 0xf3, 0x67, 0x26, 0x2e, 0x36, 0x3e, 0x64, 0x65, 0xf0 };
enum { ALL = sizeof PREFIXES, WITHOUT_LOCK = ALL - 1, NOWHERE = 4, NOWHERES = 4 };

/* A sequence as it grows. */
struct text {
    uint8_t bytes[64];
    size_t size;
};

static void put(struct text *text, unsigned byte) { text->bytes[text->size++] = (uint8_t)byte; }

static uint8_t operand_byte(void) {
    static const uint8_t edges[] = { 0x00, 0x01, 0x02, 0x04, 0x08, 0x10, 0x40, 0x7f,
                                     0x80, 0xff, 0x90, 0x0f, 0xe9, 0xc4, 0x62, 0x66 };
    return (uint8_t)(below(3) ? draw() : edges[below(sizeof edges)]);
}

static void put_prefixes(struct text *text, int is_vex) {
    size_t kinds = is_vex ? WITHOUT_LOCK : ALL;
    uint64_t how = below(16);
    if (how >= 13) { /* many, REX bytes among them, in any order */
        for (uint64_t left = below(how == 15 ? 14 : 6); left > 0; left--)
            put(text, below(4) ? PREFIXES[below(WITHOUT_LOCK)] : 0x40 + below(16));
    } else if (how >= 9) { /* one that is often part of the opcode, and another */
        put(text, PREFIXES[below(3)]);
        if (below(3) == 0)
            put(text, PREFIXES[below(ALL)]);
    } else if (how >= 5) {
        for (uint64_t left = 1 + below(2); left > 0; left--)
            put(text, PREFIXES[below(kinds)]);
    }
}

static int bars_vex(uint8_t byte) {
    return byte == 0x66 || byte == 0xf2 || byte == 0xf3 || byte == 0xf0 || (byte & 0xf0) == 0x40;
}

/* Mostly leaves before a VEX prefix what may stand there. */
static void clear_the_way(struct text *text) {
    size_t kept = 0;
    for (size_t at = 0; at < text->size; at++)
        if (!bars_vex(text->bytes[at]))
            text->bytes[kept++] = text->bytes[at];
    text->size = kept;
}

static void put_vex(struct text *text, unsigned map) {
    unsigned drawn = (unsigned)draw();
    unsigned last = (drawn >> 16 & 0xff) | (drawn & 2 ? 0x78 : 0); /* often with vvvv unused */
    if (map == 4 && (drawn & 1)) {
        put(text, 0xc5);
        put(text, last);
        return;
    }
    put(text, 0xc4);
    put(text, (drawn >> 8 & 0xe0) | (drawn % 61 == 0 ? drawn >> 24 & 31 : map - 3));
    put(text, last);
}

static void put_map(struct text *text, unsigned map) {
    if (map >= 4) {
        put_vex(text, map);
        return;
    }
    if (map >= 1)
        put(text, 0x0f);
    if (map >= 2)
        put(text, map == 2 ? 0x38 : 0x3a);
}

void draw_sequence(uint64_t seed, uint64_t number, struct sequence *to) {
    uint64_t spread = number % ROUND * 40503 % ROUND; /* so that any stretch of numbers has every map */
    struct text text = { .size = 0 };
    memset(to, 0, sizeof *to);
    to->map = (uint8_t)(spread % MAPS);
    to->opcode = (uint8_t)(spread / MAPS);
    seed_draws(seed, number);
    put_prefixes(&text, to->map >= 4);
    if (to->map >= 4 && below(8))
        clear_the_way(&text);
    if (to->map < 4 && below(5) < 2)
        put(&text, 0x40 + below(16));
    put_map(&text, to->map);
    put(&text, to->opcode);
    put(&text, (unsigned)(spread / MAPS >> 8));
    while (text.size < LONGEST)
        put(&text, operand_byte());
    memcpy(to->bytes, text.bytes, LONGEST);
}

void lengthen(const struct sequence *from, struct sequence *to) {
    int more = (int)(14 + below(3)) - from->length;
    uint8_t byte = PREFIXES[NOWHERE + below(NOWHERES)];
    *to = *from;
    for (int at = 0; at < LONGEST && more > 0; at++)
        to->bytes[at] = at < more ? byte : from->bytes[at - more];
}

void shorten(const struct sequence *from, struct sequence *to) {
    unsigned which;
    size_t prefixes = prefixes_of(from->bytes, &which), kept = 0;
    *to = *from;
    memset(to->bytes, 0, LONGEST);
    for (size_t at = 0; at < LONGEST; at++)
        if (at >= prefixes || bars_vex(from->bytes[at]))
            to->bytes[kept++] = from->bytes[at];
}

size_t prefixes_of(const uint8_t *bytes, unsigned *which) {
    size_t at = 0;
    *which = 0;
    for (; at < LONGEST; at++) {
        uint8_t byte = bytes[at];
        if (byte == 0x66)
            *which |= HAS_66;
        else if (byte == 0xf2)
            *which |= HAS_F2;
        else if (byte == 0xf3)
            *which |= HAS_F3;
        else if (byte == 0xf0)
            *which |= HAS_LOCK;
        else if ((byte & 0xf0) == 0x40)
            *which |= HAS_REX;
        else if (byte == 0x67)
            *which |= HAS_67;
        else if (memchr(PREFIXES + NOWHERE, byte, 6))
            *which |= HAS_SEGMENT;
        else
            break;
    }
    return at;
}
