/* Digests of a text by calls of small functions: rounds of SipHash, a block each eight bytes. */
#include <stdint.h>
#include <stdio.h>
#include <string.h>

enum { TURNS = 60000, LENGTH = 512 };
static uint8_t text[LENGTH];

static uint64_t turned(uint64_t word, int bits) { return word << bits | word >> (64 - bits); }

static void turn(uint64_t v[4])
{
    v[0] += v[1]; v[1] = turned(v[1], 13) ^ v[0]; v[0] = turned(v[0], 32);
    v[2] += v[3]; v[3] = turned(v[3], 16) ^ v[2];
    v[0] += v[3]; v[3] = turned(v[3], 21) ^ v[0];
    v[2] += v[1]; v[1] = turned(v[1], 17) ^ v[2]; v[2] = turned(v[2], 32);
}

static __attribute__((noinline)) uint64_t digest(const uint8_t *data, size_t length, uint64_t key)
{
    uint64_t v[4] = {key, key ^ 0x646f72616e646f6d, key ^ 0x6c7967656e657261, key ^ 0x7465646279746573}, word;
    for (size_t at = 0; at + 8 <= length; at += 8) {
        memcpy(&word, data + at, 8);
        v[3] ^= word;
        turn(v);
        turn(v);
        v[0] ^= word;
    }
    for (int i = 0; i < 4; i++)
        turn(v);
    return v[0] ^ v[1] ^ v[2] ^ v[3];
}

int main(void)
{
    uint64_t sum = 0;
    for (int i = 0; i < LENGTH; i++)
        text[i] = (uint8_t)(i * 7);
    for (int i = 0; i < TURNS; i++)
        sum += digest(text, LENGTH - i % 64, sum ^ i);
    printf("%016llx\n", (unsigned long long)sum);
    return 0;
}
