/* Runs each operation on the processor and prints one row of a table: operation, width, the two operands, the flags
   word before, the value and the flags word after. */
#include <stdint.h>
#include <stdio.h>
#include <stdlib.h>

enum { CF = 1, PF = 4, AF = 16, ZF = 64, SF = 128, OF = 2048, SIX = CF | PF | AF | ZF | SF | OF };

#define RUN(instruction, operands, type, inputs)                                                                       \
    {                                                                                                                  \
        type x = (type)a;                                                                                              \
        type y = (type)b;                                                                                              \
        uint64_t word = before;                                                                                        \
        __asm__ volatile("pushq %1\n\tpopfq\n\t" instruction " " operands "\n\tpushfq\n\tpopq %1"                      \
                         : "+q"(x), "+r"(word)                                                                         \
                         : inputs(y)                                                                                   \
                         : "cc", "memory");                                                                            \
        *after = word;                                                                                                 \
        return x;                                                                                                      \
    }

#define WIDTHS(name, mnemonic, operands, inputs)                                                                       \
    static uint64_t name##8(uint64_t a, uint64_t b, uint64_t before, uint64_t *after)                                  \
        RUN(mnemonic "b", operands, uint8_t, inputs)                                                                   \
    static uint64_t name##16(uint64_t a, uint64_t b, uint64_t before, uint64_t *after)                                 \
        RUN(mnemonic "w", operands, uint16_t, inputs)                                                                  \
    static uint64_t name##32(uint64_t a, uint64_t b, uint64_t before, uint64_t *after)                                 \
        RUN(mnemonic "l", operands, uint32_t, inputs)                                                                  \
    static uint64_t name##64(uint64_t a, uint64_t b, uint64_t before, uint64_t *after)                                 \
        RUN(mnemonic "q", operands, uint64_t, inputs)

WIDTHS(add, "add", "%2, %0", "q")
WIDTHS(or, "or", "%2, %0", "q")
WIDTHS(adc, "adc", "%2, %0", "q")
WIDTHS(sbb, "sbb", "%2, %0", "q")
WIDTHS(and, "and", "%2, %0", "q")
WIDTHS(sub, "sub", "%2, %0", "q")
WIDTHS(xor, "xor", "%2, %0", "q")
WIDTHS(inc, "inc", "%0", "q")
WIDTHS(dec, "dec", "%0", "q")
WIDTHS(neg, "neg", "%0", "q")
WIDTHS(shl, "shl", "%%cl, %0", "c")
WIDTHS(shr, "shr", "%%cl, %0", "c")
WIDTHS(sar, "sar", "%%cl, %0", "c")

typedef uint64_t (*operation)(uint64_t, uint64_t, uint64_t, uint64_t *);

#define ROW(name) { #name, { name##8, name##16, name##32, name##64 } }
static const struct {
    const char *title;
    operation runs[4];
} OPERATIONS[] = { ROW(add), ROW(or),  ROW(adc), ROW(sbb), ROW(and), ROW(sub), ROW(xor),
                   ROW(inc), ROW(dec), ROW(neg), ROW(shl), ROW(shr), ROW(sar) };

static uint64_t state = 1;

static uint64_t next(void) {
    state ^= state << 13;
    state ^= state >> 7;
    state ^= state << 17;
    return state * 0x2545f4914f6cdd1d;
}

static uint64_t spread(uint64_t bits) {
    return (bits & 1 ? CF : 0) | (bits & 2 ? PF : 0) | (bits & 4 ? AF : 0) | (bits & 8 ? ZF : 0) | (bits & 16 ? SF : 0) |
           (bits & 32 ? OF : 0);
}

static void row(int op, int width, uint64_t a, uint64_t b, uint64_t others) {
    uint64_t before = others | spread(next());
    uint64_t after = 0;
    uint64_t value = OPERATIONS[op].runs[width](a, b, before, &after);
    printf("%s %d %lx %lx %lx %lx %lx\n", OPERATIONS[op].title, 8 << width, a, b, before, value, after);
}

int main(int count, char **words) {
    int chance = count > 1 ? atoi(words[1]) : 2;
    uint64_t others;
    __asm__ volatile("pushfq\n\tpopq %0" : "=r"(others));
    others &= ~(uint64_t)SIX;
    for (int op = 0; op < 13; op++)
        for (int width = 0; width < 4; width++) {
            int bits = 8 << width;
            uint64_t sign = (uint64_t)1 << (bits - 1);
            if (op < 10) {
                row(op, width, sign - 1, 1, others);
                row(op, width, sign, sign, others);
                row(op, width, 0, sign | (sign - 1), others);
            } else {
                int counts[] = { 0, 1, bits - 1, bits, 31, 33 };
                for (int at = 0; at < 6; at++)
                    row(op, width, next() | (at & 1 ? sign : 1), counts[at], others);
            }
            for (int at = 0; at < chance; at++)
                row(op, width, next() >> (next() & 63), next() >> (next() & 63), others);
        }
    return 0;
}
