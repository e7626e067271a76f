/* Sums of products in three loops, elimination with pivots, powers: floating point and pointers to rows. */
#include <math.h>
#include <stdio.h>

enum { N = 6 };

static void product(double to[N][N], double a[N][N], double b[N][N]) {
  for (int i = 0; i < N; i++)
    for (int j = 0; j < N; j++) {
      double sum = 0;
      for (int k = 0; k < N; k++)
        sum += a[i][k] * b[k][j];
      to[i][j] = sum;
    }
}
static double determinant(double m[N][N]) {
  double det = 1;
  for (int k = 0; k < N; k++) {
    int pivot = k;
    for (int i = k + 1; i < N; i++)
      if (fabs(m[i][k]) > fabs(m[pivot][k]))
        pivot = i;
    if (m[pivot][k] == 0)
      return 0;
    if (pivot != k) {
      det = -det;
      for (int j = 0; j < N; j++) {
        double t = m[k][j];
        m[k][j] = m[pivot][j];
        m[pivot][j] = t;
      }
    }
    det *= m[k][k];
    for (int i = k + 1; i < N; i++) {
      double by = m[i][k] / m[k][k];
      for (int j = k; j < N; j++)
        m[i][j] -= by * m[k][j];
    }
  }
  return det;
}
static double power(double base, unsigned by) {
  double it = 1;
  for (; by; by >>= 1) {
    if (by & 1)
      it *= base;
    base *= base;
  }
  return it;
}
int main(void) {
  double a[N][N], b[N][N], c[N][N];
  for (int i = 0; i < N; i++)
    for (int j = 0; j < N; j++) {
      a[i][j] = (i * 7 + j * 3) % 5 - 1;
      b[i][j] = i == j ? 2 : (i + j) % 3;
    }
  product(c, a, b);
  printf("%.3f %.3f %.3f\n", determinant(a), determinant(c), power(1.5, 13));
  return 0;
}
