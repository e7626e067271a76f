/* A program without a C library that scripts/tests/test_replay.py records: thousands of steps with arithmetic, strings, SSE, system
   calls. With a macro it does, at the label `here`, what a quiet run doesn't, or what a record ends at. */
#include <stdint.h>

static uint8_t bytes[4096], copy[4096];

static long call(long number, long a, long b, long c, long d) {
    register long r10 __asm__("r10") = d, r8 __asm__("r8") = -1, r9 __asm__("r9") = 0;
    __asm__ volatile("syscall" : "+a"(number) : "D"(a), "S"(b), "d"(c), "r"(r10), "r"(r8), "r"(r9) : "rcx", "r11", "memory");
    return number;
}

static uint32_t arithmetic(uint32_t x) {
    for (uint32_t i = 1; i < 100; i++) {
        x = (x << 7 | x >> 25) * 2654435761u + i;
        x ^= x / (i + 3) + x % (i * 5 + 1);
        x += (int8_t)x * (int16_t)i + (x > i ? __builtin_bswap32(x) : -x);
    }
    return x;
}

static uint32_t strings(uint32_t x) {
    void *to = copy;
    const void *from = bytes;
    uint64_t count = 300;
    for (int i = 0; i < 400; i++)
        bytes[i] = i * x >> 3;
    __asm__ volatile("rep movsb" : "+D"(to), "+S"(from), "+c"(count) : : "memory");
    __asm__ volatile("lock addl %1, %0; pushfq; popq %%rcx" : "+m"(*(uint32_t *)copy) : "r"(x) : "rcx", "cc");
    return x + copy[299] + *(uint32_t *)copy;
}

static double floats(int n) {
    double sum = 0.5;
    for (int i = 1; i < n; i++)
        sum += i / (sum + 1);
    return sum;
}

/* Memory that the system gives: the break, and pages of a map, with a file's bytes in it. */
static uint32_t memory(void) {
    uint8_t *end = (uint8_t *)call(12, 0, 0, 0, 0);
    call(12, (long)end + 8192, 0, 0, 0);
    end[0] = 7, end[8191] = 9;
    uint32_t *map = (uint32_t *)call(9, 0, 1 << 16, 3, 0x22);
    map[5] = 11, map[16000] = end[0] + end[8191];
    long file = call(2, (long)"/proc/self/exe", 0, 0, 0);
    call(0, file, (long)map + 4090, 12, 0);
    call(3, file, 0, 0, 0);
    return map[5] + map[16000] + ((uint8_t *)map)[4091];
}

static void loud(void) {
#if defined ENTERS
    __asm__ volatile("lea 1f+1(%%rip), %%rax; here: jmp *%%rax; 1: mov $0x90909090, %%eax" : : : "rax");
#elif defined READS
    __asm__ volatile("here: mov _start(%%rip), %%eax" : : : "rax");
#elif defined EVEX
    __asm__ volatile("here: vpxord %%zmm16, %%zmm16, %%zmm16" : : : "memory");
#elif defined DIES
    __asm__ volatile("here: mov 16, %%eax" : : : "rax");
#elif defined FORKS
    long moment[2] = { 0, 20000000 }, pid = call(57, 0, 0, 0, 0);
    if (pid == 0) {
        call(35, (long)moment, 0, 0, 0);
        call(60, 0, 0, 0, 0);
    }
    call(61, pid, 0, 0, 0);
#elif defined STARTS
    call(56, 0x10f00, 0, 0, 0);
#elif defined MAPS
    for (long at = 0x100000000; at < 0x2000000000; at += 0x100000000)
        call(9, at, 4096, 3, 0x22);
#endif
}

static char digits[] = "00000000\n";

__attribute__((force_align_arg_pointer, noreturn)) void _start(void) {
    uint32_t x = strings(arithmetic(5)) + memory();
    x += (uint32_t)floats(50);
    loud();
    for (int i = 7; i >= 0; i--, x >>= 4)
        digits[i] = "0123456789abcdef"[x % 16];
    call(1, 1, (long)digits, 9, 0);
    call(60, 7, 0, 0, 0);
    for (;;)
        ;
}
