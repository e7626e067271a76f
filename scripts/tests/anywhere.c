/* A program that needs no C library. Its status is made of what it computes; with a word behind its name it then writes a byte and waits
   for a signal. */
static int (*volatile held[2])(int);

static inline __attribute__((always_inline)) void ask(long number, long first, const char *second, long third) {
    __asm__ volatile("syscall" : "+a"(number) : "D"(first), "S"(second), "d"(third) : "rcx", "r11", "memory");
}

static __attribute__((noinline)) int one(int n) { return n + 1; }

static __attribute__((noinline)) int fall(int n) { return n < 2 ? n : fall(n - 1) + one(n); }

static __attribute__((noinline)) int chosen(int n) {
    switch (n % 6) {
    case 0: return 3;
    case 1: return fall(5);
    case 2: return n * 7;
    case 3: return n ^ 9;
    case 4: return one(n) - 4;
    default: return -n;
    }
}

long run(long count) {
    int sum = 0;
    held[0] = one;
    held[1] = fall;
    for (int at = 0; at < 9; at++)
        sum += chosen(at) + held[at % 2](at);
    if (count > 1) {
        ask(1, 1, ".", 1); /* write */
        ask(34, 0, 0, 0);  /* pause */
    }
    return sum & 63;
}
