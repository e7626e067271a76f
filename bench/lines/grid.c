/* Life on a torus, and a flood fill: arrays of two dimensions, conditions of several parts. */
#include <stdbool.h>
#include <stdio.h>
#include <string.h>

enum { SIZE = 16 };
static bool now[SIZE][SIZE], then[SIZE][SIZE];

static int around(int y, int x) {
  int count = 0;
  for (int dy = -1; dy <= 1; dy++)
    for (int dx = -1; dx <= 1; dx++)
      if ((dy || dx) && now[(y + dy + SIZE) % SIZE][(x + dx + SIZE) % SIZE])
        count++;
  return count;
}
static void step(void) {
  for (int y = 0; y < SIZE; y++)
    for (int x = 0; x < SIZE; x++) {
      int count = around(y, x);
      then[y][x] = now[y][x] ? count == 2 || count == 3 : count == 3;
    }
  memcpy(now, then, sizeof now);
}
static int fill(int y, int x) {
  if (y < 0 || x < 0 || y >= SIZE || x >= SIZE || now[y][x])
    return 0;
  now[y][x] = true;
  return 1 + fill(y - 1, x) + fill(y + 1, x) + fill(y, x - 1) + fill(y, x + 1);
}
int main(void) {
  static const char *glider[] = {".#.", "..#", "###"};
  for (int y = 0; y < 3; y++)
    for (int x = 0; glider[y][x]; x++)
      now[y][x] = glider[y][x] == '#';
  for (int turn = 0; turn < 12; turn++)
    step();
  int alive = 0;
  for (int y = 0; y < SIZE; y++) {
    for (int x = 0; x < SIZE; x++)
      alive += now[y][x];
    if (alive > SIZE * SIZE)
      return 1;
  }
  printf("%d alive, %d filled\n", alive, fill(SIZE - 1, SIZE - 1));
  return 0;
}
