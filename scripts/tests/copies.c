/* Lines whose code stands more than once, or no more, and lines that gcov counts otherwise. Their counts follow from the calls. */
#include <setjmp.h>
#include <signal.h>
#include <stdio.h>
#include <stdlib.h>
#include <sys/wait.h>
#include <unistd.h>

static int kept[100], many;
static volatile int sum;
static jmp_buf env;

static inline __attribute__((always_inline)) int square(int x)
{
    int r = x * x;
    if (x % 3 == 1)
        kept[many++ % 100] = r;
    return r;
}

static int count_down(int n)
{
again:
    if (n > 0) {
        n--;
        goto again;
    }
    return n;
}

static void early(int n)
{
    if (n == 1)
        return;
    sum += n;
    if (n == 2)
        return;
    sum += 7;
}

static int kind(int n)
{
    switch (n) {
    case 0:
    case 1:
        return 10;
    case 2:
        n += 3;
        break;
    default:
        n ^= 1;
    }
    return n;
}

static void jump(int n)
{
    if (n % 3 == 0)
        longjmp(env, 1);
    sum += n;
}

static int least(const int *v, int n)
{
    int found = v[0];
    for (int i = 1; i < n; i++)
        if (v[i] < found)
            found = v[i];
    return found;
}

static int never(int n)
{
    return n + sum;
}

int main(int argc, char **argv)
{
    int s = 0, v[50];
    for (int i = 0; i < 10; i++)
        s += square(i);
    for (int i = 0; i < 20; i++)
        s ^= square(i + argc);
    s += count_down(5);
    for (int i = 0; i < 4; i++)
        early(i);
    for (int i = 0; i < 6; i++)
        s += kind(i % 4);
    for (volatile int i = 0; i < 7; i++)
        if (setjmp(env) == 0)
            jump(i);
        else
            s++;
    for (int i = 0; i < 50; i++)
        v[i] = i * 37 % 101;
    s += least(v, 50);
    for (int i = 0; i < 3; i++) { sum += i; if (i == 1) sum++; }
    if (fork() == 0) {
        for (int i = 0; i < 9; i++)
            sum += i;
        raise(SIGKILL);
    }
    wait(NULL);
    if (argc > 5)
        s = never(s);
    printf("%d\n", s + sum + (argv != NULL));
    return 0;
}
