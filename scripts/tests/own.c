/* A call with a loop, of which the caller keeps the greatest value. */
#include <stdio.h>
static int collatz(unsigned long number)
{
    int steps = 0;
    while (number != 1) {
        if (number & 1)
            number = 3 * number + 1;
        else
            number /= 2;
        steps++;
    }
    return steps;
}
int main(void)
{
    int best = 0;
    unsigned long at = 0;
    for (unsigned long i = 1; i < 3000; i++) {
        int steps = collatz(i);
        if (steps > best) {
            best = steps;
            at = i;
        }
    }
    printf("%lu %d\n", at, best);
    return 0;
}
