#include "states.h"

#include <cpuid.h>
#include <stdint.h>
#include <stdio.h>
#include <string.h>

#include "draws.h"
#include "native.h"

/* Places in the area of XSAVE (Intel SDM, volume 1, section 13.4). */
enum {
    SIZE = 4096,
    FCW = 0,
    FSW = 2,
    FTW = 4,
    FOP = 6,
    AFTER_FDP = 24,
    MXCSR = 24,
    ST = 32,
    ST_SIZE = 16,
    XMM = 160,
    XMM_SIZE = 256,
    HEADER =
        512, /* it also tells which parts are as they begin, by the processor's own account, so it isn't compared */
    HEADER_SIZE = 64,
    YMM = 576,
    YMM_SIZE = 256,
    X87_SSE_AVX = 7
};

static uint8_t from[SIZE] __attribute__((aligned(64))), left[2][SIZE] __attribute__((aligned(64)));
static uint32_t mask;

void find_states(void) {
    uint32_t a, b, c, d;
    if (!__get_cpuid(1, &a, &b, &c, &d) || !(c & bit_OSXSAVE)) {
        printf("no XSAVE here: what is left in x87 and SSE isn't compared\n");
        return;
    }
    __asm__ volatile("xgetbv" : "=a"(a), "=d"(d) : "c"(0));
    mask = a & X87_SSE_AVX;
}

static void put_random(uint8_t *to, int size) {
    for (int at = 0; at < size; at += 8) {
        uint64_t word = value();
        memcpy(to + at, &word, 8);
    }
}

/* Numbers that are often ordinary ones, in single or double precision. */
static void put_numbers(uint8_t *to, int size) {
    for (int at = 0; at < size; at += 8) {
        double number = (double)(int64_t)draw() / (double)(1 + below(1 << 20));
        float halves[2] = { (float)number, 1.5f };
        if (below(2))
            memcpy(to + at, &number, 8);
        else
            memcpy(to + at, halves, 8);
    }
}

void draw_state(void) {
    uint16_t control = (uint16_t)(0x37f & ~(below(4) << 10));
    uint32_t mxcsr = 0x1f80 | (uint32_t)below(4) << 13;
    uint64_t held = mask;
    memset(from, 0, sizeof from);
    memcpy(from + FCW, &control, 2);
    from[FTW] = 0xff; /* all eight registers are used */
    memcpy(from + MXCSR, &mxcsr, 4);
    for (int reg = 0; reg < 8; reg++) {
        put_random(from + ST + ST_SIZE * reg, 8);
        from[ST + ST_SIZE * reg + 7] |= 0x80; /* a normal number */
        from[ST + ST_SIZE * reg + 9] = 0x3f;
    }
    (below(2) ? put_random : put_numbers)(from + XMM, XMM_SIZE);
    if (mask & 4)
        (below(2) ? put_random : put_numbers)(from + YMM, YMM_SIZE);
    memcpy(from + HEADER, &held, 8);
    memset(left, 0, sizeof left);
}

static void use_state(int which) {
    if (mask)
        use_states(from, left[which], mask);
}

void use_first_state(void) { use_state(0); }

void use_second_state(void) { use_state(1); }

int same_states(void) {
    for (int which = 0; which < 2; which++) {
        memset(left[which] + FOP, 0, AFTER_FDP - FOP);
        memset(left[which] + HEADER, 0, HEADER_SIZE);
    }
    return !memcmp(left[0], left[1], SIZE);
}
