/* Four sorts of the same numbers: loops in loops, recursion, a callback. */
#include <stdio.h>
#include <stdlib.h>
#include <string.h>

enum { COUNT = 200 };

static void insert(int *v, int n) {
  for (int i = 1; i < n; i++) {
    int it = v[i], j = i;
    while (j > 0 && v[j - 1] > it) {
      v[j] = v[j - 1];
      j--;
    }
    v[j] = it;
  }
}
static void quick(int *v, int low, int high) {
  if (low >= high)
    return;
  int pivot = v[(low + high) / 2], i = low, j = high;
  do {
    while (v[i] < pivot) i++;
    while (v[j] > pivot) j--;
    if (i <= j) {
      int t = v[i];
      v[i++] = v[j];
      v[j--] = t;
    }
  } while (i <= j);
  quick(v, low, j);
  quick(v, i, high);
}
static void sift(int *v, int root, int n) {
  for (int child; (child = 2 * root + 1) < n; root = child) {
    if (child + 1 < n && v[child] < v[child + 1])
      child++;
    if (v[root] >= v[child])
      break;
    int t = v[root];
    v[root] = v[child];
    v[child] = t;
  }
}
static void heap(int *v, int n) {
  for (int i = n / 2; i-- > 0;)
    sift(v, i, n);
  for (int i = n; --i > 0;) {
    int t = v[0];
    v[0] = v[i];
    v[i] = t;
    sift(v, 0, i);
  }
}
static int order(const void *a, const void *b) {
  return *(const int *)a < *(const int *)b ? -1 : *(const int *)a > *(const int *)b;
}
int main(void) {
  int given[COUNT], v[4][COUNT];
  unsigned next = 7;
  for (int i = 0; i < COUNT; i++)
    given[i] = (int)((next = next * 1103515245u + 12345u) >> 16 & 1023);
  for (int i = 0; i < 4; i++)
    memcpy(v[i], given, sizeof given);
  insert(v[0], COUNT);
  quick(v[1], 0, COUNT - 1);
  heap(v[2], COUNT);
  qsort(v[3], COUNT, sizeof(int), order);
  int same = 1;
  for (int i = 1; i < 4; i++)
    same = same && memcmp(v[0], v[i], sizeof given) == 0;
  printf("%s %d %d\n", same ? "same" : "different", v[0][0], v[0][COUNT - 1]);
  return !same;
}
