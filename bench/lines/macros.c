/* Statements in macros, expressions of statements, several statements on a line, nested conditions in one expression. */
#include <stdio.h>

#define SWAP(a, b) do { int t_ = (a); (a) = (b); (b) = t_; } while (0)
#define MAX(a, b) ({ __typeof__(a) a_ = (a), b_ = (b); a_ > b_ ? a_ : b_; })
#define EACH(i, n) for (int i = 0; i < (n); i++)
#define CHECK(it) if (!(it)) { failed++; printf("not " #it "\n"); }

static int failed;

static int gcd(int a, int b) { while (b) { int r = a % b; a = b; b = r; } return a; }
static int sign(int it) { return it < 0 ? -1 : it > 0 ? 1 : 0; }
static const char *kind(int it) {
  return it % 15 == 0 ? "both"
         : it % 5 == 0 ? "five"
         : it % 3 == 0 ? "three"
                       : "none";
}
static int between(int low, int it, int high) { return low <= it && (it < high || it == 100); }

int main(void) {
  int v[6] = {3, 1, 4, 1, 5, 9}, best = 0, letters = 0;
  EACH(i, 6) EACH(j, 5) if (v[j] > v[j + 1]) SWAP(v[j], v[j + 1]);
  EACH(i, 6) best = MAX(best, v[i] * (6 - i));
  EACH(i, 16) for (const char *c = kind(i); *c; c++) letters++;
  int sum = 0; EACH(i, 9) { sum += sign(i - 4); sum += gcd(i + 1, 12) * between(2, i, 5); }
  CHECK(v[0] == 1)
  CHECK(v[5] == 8)
  if (best > 10 && sum > 0 || letters < 0) printf("%d ", best); else printf("none ");
  printf("%d %d %d\n", sum, letters, failed);
  return 0;
}
