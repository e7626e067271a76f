/* Shortest ways, parts that hang together, an order of dependencies: queues, sets, arrays of lists. */
#include <stdio.h>
#include <string.h>

enum { NODES = 12, FAR = 1000000 };
static const struct way { int from, to, length; } ways[] = {
    {0, 1, 4}, {0, 2, 1}, {2, 1, 2}, {1, 3, 5}, {2, 3, 8}, {3, 4, 3}, {5, 6, 1}, {6, 7, 1}, {7, 5, 1}, {8, 9, 2}, {4, 10, 7},
};
enum { WAYS = sizeof ways / sizeof *ways };

static void shortest(int from, int *found) {
  int is_done[NODES] = {0};
  for (int i = 0; i < NODES; i++)
    found[i] = i == from ? 0 : FAR;
  for (;;) {
    int near = -1;
    for (int i = 0; i < NODES; i++)
      if (!is_done[i] && found[i] < FAR && (near < 0 || found[i] < found[near]))
        near = i;
    if (near < 0)
      return;
    is_done[near] = 1;
    for (int i = 0; i < WAYS; i++)
      if (ways[i].from == near && found[near] + ways[i].length < found[ways[i].to])
        found[ways[i].to] = found[near] + ways[i].length;
  }
}
static int root(int *above, int it) {
  while (above[it] != it)
    it = above[it] = above[above[it]];
  return it;
}
static int parts(void) {
  int above[NODES], count = NODES;
  for (int i = 0; i < NODES; i++)
    above[i] = i;
  for (const struct way *it = ways; it < ways + WAYS; it++) {
    int a = root(above, it->from), b = root(above, it->to);
    if (a != b) {
      above[a] = b;
      count--;
    }
  }
  return count;
}
static int ordered(void) {
  int waits[NODES] = {0}, queue[NODES], head = 0, tail = 0;
  for (int i = 0; i < WAYS; i++)
    waits[ways[i].to]++;
  for (int i = 0; i < NODES; i++)
    if (!waits[i])
      queue[tail++] = i;
  while (head < tail) {
    int it = queue[head++];
    for (int i = 0; i < WAYS; i++)
      if (ways[i].from == it && --waits[ways[i].to] == 0)
        queue[tail++] = ways[i].to;
  }
  return tail;
}
int main(void) {
  int found[NODES], sum = 0, near = 0;
  shortest(0, found);
  for (int i = 0; i < NODES; i++)
    if (found[i] < FAR) {
      sum += found[i];
      near++;
    }
  printf("%d near, %d away, %d parts, %d in order\n", near, sum, parts(), ordered());
  return 0;
}
