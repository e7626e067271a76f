/* Byte sequences to be tried: every opcode of every map with every ModRM byte, behind prefixes in and out of order. */
#ifndef SEQUENCES_H
#define SEQUENCES_H
#include <stddef.h>
#include <stdint.h>

enum { LONGEST = 15, MAPS = 7, ROUND = MAPS * 256 * 256 };

/* What the processor made of a sequence. */
enum verdict { NOT_RUN, RAN, MEMORY, PROTECTED, UNDEFINED, OTHER, HUNG, TOO_LONG, VERDICTS };

struct sequence {
    uint8_t bytes[LONGEST];
    uint8_t map;    /* 0 to 3 the legacy maps, 4 to 6 those of VEX, as drawn */
    uint8_t opcode; /* as drawn */
    uint8_t verdict;
    uint8_t length; /* by the processor, 0 where it tells none */
};

extern const char *const MAP_NAMES[MAPS];
extern const char *const VERDICT_NAMES[VERDICTS];

/* The sequence of a number: any ROUND of them in a row have each opcode of each map with each ModRM byte. */
void draw_sequence(uint64_t seed, uint64_t number, struct sequence *to);

/* Puts prefixes that count nowhere before a sequence, so that it has a length from 14 to 16. */
void lengthen(const struct sequence *from, struct sequence *to);

/* Takes the prefixes 26, 2E, 36, 3E, 64, 65 and 67 away. */
void shorten(const struct sequence *from, struct sequence *to);

/* How many prefixes stand before the opcode, REX bytes among them; what they are, in the bits below. */
enum { HAS_66 = 1, HAS_F2 = 2, HAS_F3 = 4, HAS_LOCK = 8, HAS_REX = 16, HAS_67 = 32, HAS_SEGMENT = 64 };
size_t prefixes_of(const uint8_t *bytes, unsigned *which);
#endif
