/* Backtracking: queens on a board, sums of subsets, permutations in order. */
#include <stdio.h>

static int columns[8], solutions;

static int is_free(int row, int column) {
  for (int i = 0; i < row; i++)
    if (columns[i] == column || columns[i] - column == i - row || columns[i] - column == row - i)
      return 0;
  return 1;
}
static void place(int row) {
  if (row == 6) {
    solutions++;
    return;
  }
  for (int column = 0; column < 6; column++) {
    if (!is_free(row, column))
      continue;
    columns[row] = column;
    place(row + 1);
  }
}
static int subsets(const int *from, int count, int sum) {
  if (sum == 0)
    return 1;
  if (sum < 0 || count == 0)
    return 0;
  return subsets(from + 1, count - 1, sum) + subsets(from + 1, count - 1, sum - from[0]);
}
static int next(int *v, int n) {
  int i = n - 2, j = n - 1;
  while (i >= 0 && v[i] > v[i + 1])
    i--;
  if (i < 0)
    return 0;
  while (v[j] < v[i])
    j--;
  int t = v[i]; v[i] = v[j]; v[j] = t;
  for (int low = i + 1, high = n - 1; low < high; low++, high--) {
    t = v[low]; v[low] = v[high]; v[high] = t;
  }
  return 1;
}
int main(void) {
  static const int coins[] = {1, 2, 5, 10, 20, 50};
  int v[] = {0, 1, 2, 3, 4}, count = 0;
  place(0);
  do
    count += v[0] < v[4];
  while (next(v, 5));
  printf("%d solutions, %d subsets, %d permutations\n", solutions, subsets(coins, 6, 37), count);
  return 0;
}
