/* Bit fields, unions, shifts, and checksums over bytes. */
#include <stdint.h>
#include <stdio.h>

struct packed {
  unsigned kind : 3, level : 5, rest : 24;
};
union word {
  struct packed parts;
  uint32_t whole;
};
static uint32_t table[256];

static void prepare(void) {
  for (uint32_t i = 0; i < 256; i++) {
    uint32_t it = i;
    for (int k = 0; k < 8; k++)
      it = it & 1 ? it >> 1 ^ 0xEDB88320u : it >> 1;
    table[i] = it;
  }
}
static uint32_t crc(const unsigned char *at, unsigned long length) {
  uint32_t it = ~0u;
  while (length--)
    it = table[(it ^ *at++) & 255] ^ it >> 8;
  return ~it;
}
static uint32_t adler(const unsigned char *at, unsigned long length) {
  uint32_t a = 1, b = 0;
  for (unsigned long i = 0; i < length; i++) {
    a += at[i];
    if (a >= 65521)
      a -= 65521;
    b += a;
    if (b >= 65521)
      b -= 65521;
  }
  return b << 16 | a;
}
static int lowest(uint32_t it) {
  if (!it)
    return -1;
  int n = 0;
  for (; !(it & 1); it >>= 1)
    n++;
  return n;
}
int main(void) {
  unsigned char bytes[300];
  for (int i = 0; i < 300; i++)
    bytes[i] = (unsigned char)(i * i + 255);
  prepare();
  union word it = {.whole = 0};
  it.parts.kind = 5;
  it.parts.level = 17;
  it.parts.rest = 0xABC;
  int sum = 0;
  for (uint32_t i = 0; i < 20; i++)
    sum += lowest(i << (i % 5));
  printf("%08x %08x %08x %d\n", crc(bytes, 300), adler(bytes, 300), it.whole, sum);
  return 0;
}
