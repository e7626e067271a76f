/* The orbits of five bodies: floating point in blocks of many instructions. */
#include <math.h>
#include <stdio.h>

enum { BODIES = 5, STEPS = 400000 };
static double at[BODIES][3], speed[BODIES][3], mass[BODIES];

static void advance(double step)
{
    for (int i = 0; i < BODIES; i++)
        for (int j = i + 1; j < BODIES; j++) {
            double away[3], squared = 1e-3;
            for (int k = 0; k < 3; k++) {
                away[k] = at[i][k] - at[j][k];
                squared += away[k] * away[k];
            }
            double pull = step / (squared * sqrt(squared));
            for (int k = 0; k < 3; k++) {
                speed[i][k] -= away[k] * mass[j] * pull;
                speed[j][k] += away[k] * mass[i] * pull;
            }
        }
    for (int i = 0; i < BODIES; i++)
        for (int k = 0; k < 3; k++)
            at[i][k] += step * speed[i][k];
}

int main(void)
{
    for (int i = 0; i < BODIES; i++) {
        mass[i] = 1.0 / (i + 1);
        for (int k = 0; k < 3; k++)
            at[i][k] = i * (k + 1) % 7 - 3, speed[i][k] = (i - k) * 0.1;
    }
    for (int step = 0; step < STEPS; step++)
        advance(0.001);
    printf("%.6f\n", at[0][0]);
    return 0;
}
