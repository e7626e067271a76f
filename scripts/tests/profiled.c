/* Calls of each kind, without a C library, so that it is patched in no time: direct ones, indirect ones, tail calls, recursion,
   two functions that call each other. */
#define ALONE __attribute__((noinline, noclone))
typedef int (*number_of)(int);
static volatile int seen;

ALONE int leaf(int n) {
    int sum = 0;
    for (int at = 0; at < n; at++)
        seen = sum += at;
    return sum;
}

ALONE int both(int n) {
    seen = n;
    return leaf(2 * n) + leaf(n);
}

ALONE int last(int n) {
    seen = n;
    return leaf(n + 1);
}

ALONE int fib(int n) { return n < 2 ? n : fib(n - 1) + fib(n - 2); }

ALONE int odd(int n);

ALONE int even(int n) {
    int told = n ? odd(n - 1) : 1;
    seen = told;
    return told;
}

ALONE int odd(int n) {
    int told = n ? even(n - 1) + leaf(3) : 0;
    seen = told;
    return told;
}

ALONE int visit(int n) {
    seen = n;
    return leaf(n);
}

ALONE int sum_of(number_of given, int n) {
    int sum = 0;
    for (int at = 0; at < n; at++)
        sum += given(at);
    seen = sum;
    return sum;
}

ALONE int never(int n) {
    seen = n;
    return n + 1;
}

static volatile number_of held = visit, unused = never;

ALONE int work(void) {
    int sum = both(50) + last(20) + fib(12) + even(9) + sum_of(held, 30);
    seen = sum;
    return sum;
}

void _start(void) {
    work();
    __asm__ volatile("mov $60, %eax; xor %edi, %edi; syscall");
}
