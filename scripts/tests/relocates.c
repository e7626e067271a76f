/* How a program without a C library starts: if it is a static PIE, it applies its relocations, which are of its own addresses, of functions
   that choose, and packed. It ends with what `run` returns. */
extern char __ehdr_start[] __attribute__((visibility("hidden")));
long run(long count);

enum { RELA = 7, RELASZ = 8, JMPREL = 23, PLTRELSZ = 2, RELR = 36, RELRSZ = 35, IRELATIVE = 37, BITS = 63 };

static void apply(long base, long table, long size) {
    for (const long *at = (const long *)(base + table), *end = at + size / 8; at < end; at += 3)
        *(volatile long *)(base + at[0]) = (at[1] & 0xffffffff) == IRELATIVE ? ((long (*)(void))(base + at[2]))() : base + at[2];
}

static void apply_packed(long base, long table, long size) {
    long *next = 0;
    for (const unsigned long *at = (const unsigned long *)(base + table), *end = at + size / 8; at < end; at++) {
        if (!(*at & 1)) {
            next = (long *)(base + (long)*at);
            *next++ += base;
            continue;
        }
        for (int bit = 1; bit <= BITS; bit++)
            if (*at >> bit & 1)
                next[bit - 1] += base;
        next += BITS;
    }
}

void begin(const long *vector, const long *dynamic) {
    long tags[RELR + 1] = {0}, base = (long)__ehdr_start;
    for (const long *at = dynamic; at && at[0]; at += 2)
        if (at[0] <= RELR)
            tags[at[0]] = at[1];
    if (dynamic) {
        apply_packed(base, tags[RELR], tags[RELRSZ]);
        apply(base, tags[RELA], tags[RELASZ]);
        apply(base, tags[JMPREL], tags[PLTRELSZ]);
    }
    long status = run(vector[0]);
    __asm__ volatile("syscall" : : "a"(60), "D"(status));
}

__asm__(".weak _DYNAMIC\n .hidden _DYNAMIC\n .globl _start\n_start: mov %rsp, %rdi\n lea _DYNAMIC(%rip), %rsi\n call begin\n hlt\n");
