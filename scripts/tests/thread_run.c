/* A program without a C library whose threads count under a lock, which scripts/tests/test_thread_runs.py lets the judge step. With a macro
   its last thread does, at the label `here`, what breaks a premise. */
#include <stdint.h>
#ifdef OUTPUTS_ALONE
#define ALONE
#define OUTPUTS
#endif

#if defined FOUR
#define THREADS 4
#elif defined ALONE
#define THREADS 0
#else
#define THREADS 2
#endif

#ifdef HELD
#define IS_HELD 1
#else
#define IS_HELD 0
#endif

static uint64_t stacks[THREADS][1024];
static int running[THREADS], lock;
static long total;
static volatile long handled, first;
static uint64_t *volatile place;

static long call(long number, long a, long b, long c, long d) {
    register long r10 __asm__("r10") = d, r8 __asm__("r8") = -1, r9 __asm__("r9") = 0;
    __asm__ volatile("syscall" : "+a"(number) : "D"(a), "S"(b), "d"(c), "r"(r10), "r"(r8), "r"(r9) : "rcx", "r11", "memory");
    return number;
}

static void add(long by) {
    while (__atomic_exchange_n(&lock, 1, __ATOMIC_ACQUIRE))
        call(24, 0, 0, 0, 0);
    total += by;
    __atomic_store_n(&lock, 0, __ATOMIC_RELEASE);
}

/* A jump of five bytes to the next instruction, so that each is patched. */
#define SITE ".byte 0xe9, 0, 0, 0, 0;"

/* The end of a block without a direct jump, so that none of it is patched. */
#define UNPATCHED "call 1f; jmp 2f; 1: ret; 2:"

#if defined SIGNALS || defined HELD
/* A real-time signal: each that is sent comes, where of one below 32 a second merges with the first while that is pending. */
#define QUEUED 34
#define HANDLING (long[4]){ (long)handle, 0x4000000, (long)come_back, 0 }

static void handle(int number) {
    handled += number == QUEUED;
}

__attribute__((naked)) static void come_back(void) {
    __asm__("mov $15, %eax; syscall; nop");
}
#endif

/* Behind a jump that is patched, and to which another leads, the eight bytes below the red zone are stale, and hold letters; the program writes five of
   them, as of a structure with padding. */
#define STRUCTURE "movabs $0x7575757575757575, %%rax;" SITE SITE "movl $1, -136(%%rsp); movb $1, -132(%%rsp);"

#if defined ASKS || defined ASKS_APART
#ifdef ASKS
#define PAST 1
#else
#define PAST 0
#endif
#define STALE 0x5a0000000000
#define UP_TO(size) (STALE + PAST - (size))
#define TEXT (STALE - 4)

/* Calls that fail or change nothing, with arguments relative to eight stale bytes: each but the last three reads up to the first of them, or
   up to the one before. */
static long none[8], vector[2], message[7], strings[2], calls[][7] = {
    { 1, -1, UP_TO(9), 9 }, { 18, -1, UP_TO(5), 5 }, { 20, -1, (long)vector, 1 }, { 19, -1, UP_TO(16), 1 },
    { 46, -1, (long)message, 0 }, { 46, -1, UP_TO(48), 0 }, { 47, -1, UP_TO(48), 0 }, { 44, -1, 0, 0, 0, UP_TO(16), 16 },
    { 257, -1, TEXT, 0 }, { 157, 15, TEXT }, { 59, (long)none, (long)strings, 0 }, { 59, (long)none, 0, UP_TO(8) },
    { 35, UP_TO(16), 0 }, { 202, UP_TO(4), 0, -1 }, { 202, (long)none, 0, 1, UP_TO(16) }, { 202, (long)none, 5, 0, 0, UP_TO(4) },
    { 43, -1, 0, UP_TO(4) }, { 51, -1, 0, UP_TO(4) }, { 55, -1, 1, 1, (long)none, UP_TO(4) }, { 54, -1, 1, 1, UP_TO(4), 4 },
    { 14, 0, UP_TO(8), 0, 8 }, { 13, 10, UP_TO(32), 0, 8 }, { 7, UP_TO(6), 1, 0 }, { 233, -1, 1, 0, UP_TO(12) },
    { 203, -1, 8, UP_TO(8) }, { 302, -1, 3, UP_TO(16), 0 }, { 131, UP_TO(24), 0 }, { 435, UP_TO(8), 8 },
    { 16, -1, 0x5421, UP_TO(4) }, { 16, -1, 0x5402, UP_TO(36) }, { 72, -1, 6, UP_TO(24) }, { 23, 1, UP_TO(8), 0, 0, (long)none },
    { 25, UP_TO(9), 9, 0, 0 }, { 222, 99, UP_TO(20), (long)none }, { 202, STALE, 1, 0 }, { 0, -1, STALE, 8 }, { 72, -1, 3, STALE },
};

static void ask(void) {
    long stale;
    __asm__ volatile("lea -136(%%rsp), %0" : "=r"(stale));
    vector[0] = stale + PAST - 7, vector[1] = 7, message[2] = (long)vector, message[3] = 1, strings[0] = stale - 4;
    for (unsigned at = 0; at < sizeof calls / sizeof *calls; at++) {
        long *it = calls[at];
        int has_text = it[2] == TEXT || it[2] == (long)strings;
        for (int word = 1; word < 7; word++)
            it[word] += it[word] >> 32 == STALE >> 32 || it[word] >> 32 == (STALE >> 32) - 1 ? stale - STALE : 0;
        for (int byte = 1; byte <= 64; byte++)
            *(volatile char *)(stale - byte) = has_text && (byte == 1 ? PAST : byte <= 4) ? 'a' : 0;
        register long r10 __asm__("r10") = it[4], r8 __asm__("r8") = it[5], r9 __asm__("r9") = it[6];
        long number = it[0];
        __asm__ volatile(SITE "here: syscall" : "+a"(number) : "D"(it[1]), "S"(it[2]), "d"(it[3]), "r"(r10), "r"(r8), "r"(r9) : "rcx", "r11", "memory");
    }
}
#endif

static void breaks(void) {
#if defined ASKS || defined ASKS_APART
    ask();
#elif defined OUTPUTS
    __asm__ volatile(STRUCTURE "lea -136(%%rsp), %%rsi; mov $1, %%eax; mov $1, %%edi; mov $8, %%edx; here: syscall"
                     : : : "rax", "rcx", "rdx", "rsi", "rdi", "r11", "memory");
#elif defined COMPARES
    static const uint64_t known = 0x100000001;
    int alike;
    __asm__ volatile(STRUCTURE "here: movq -136(%%rsp), %%xmm0; movq %1, %%xmm1; pcmpeqb %%xmm1, %%xmm0; pmovmskb %%xmm0, %0"
                     : "=a"(alike) : "m"(known) : "xmm0", "xmm1", "memory");
    total += (alike & 255) != 255;
#elif defined COPIES
    __asm__ volatile(SITE "lea -130(%%rsp), %%rsi; mov %0, %%rdi; mov $1, %%ecx; here: rep movsb" : : "r"(&handled) : "rcx", "rsi", "rdi", "memory");
#elif defined ASKS_LISTED
    __asm__ volatile("here: movq enter(%%rip), %%xmm0" : : : "xmm0");
#elif defined ASKS_NEW
    call(1, -1, 0x20040, 1, 0);
#elif defined UNKNOWN_CALL
    call(157, 16, (long)place, 0, 0);
#elif defined ENTERS
    __asm__ volatile("lea 1f+1(%%rip), %%rax; here: jmp *%%rax; 1: mov $0x90909090, %%eax" : : : "rax");
#elif defined BELOW
    __asm__ volatile(SITE "here: mov -136(%%rsp), %%rax;" UNPATCHED : : : "rax");
#elif defined FURTHER_BELOW
    __asm__ volatile(SITE "here: mov -144(%%rsp), %%rax;" UNPATCHED : : : "rax");
#elif defined WRITTEN_BELOW
    __asm__ volatile(SITE "mov %%rax, -136(%%rsp); here: mov -136(%%rsp), %%rax;" UNPATCHED : : : "rax");
#elif defined DISPLACED
    __asm__ volatile("call 1f; jmp 2f; 1: ret; 2: mov %%rax, -136(%%rsp); here: mov -136(%%rsp), %%rax; jmp 3f; 3:" : : : "rax");
#elif defined SHARES
    while (!place)
        ;
    __asm__ volatile("mov $200, %%ecx; 1: here: movq $5, -136(%0); dec %%ecx; jnz 1b" : : "r"(place) : "rcx", "memory");
#elif defined WRITES
    call(10, (long)breaks & -4096, 8192, 7, 0);
    __asm__ volatile("here: movb $0x90, breaks+1(%%rip)" : : : "memory");
#elif defined ANSWERS
    call(10, (long)breaks & -4096, 8192, 7, 0);
    __asm__ volatile("here: syscall" : : "a"(318), "D"(breaks), "S"(1), "d"(0) : "rcx", "r11", "memory");
#elif defined READS
    __asm__ volatile("here: mov enter(%%rip), %%eax" : : : "rax");
#elif defined PRIVATE
    __asm__ volatile("here: mov 0x20040, %%eax" : : : "rax");
#elif defined NO_STACK
    long low = call(9, 0, 4096, 3, 0x22);
    __asm__ volatile("mov %%rsp, %%rbx; lea 64(%0), %%rsp; here: " SITE "mov %%rbx, %%rsp" : : "r"(low) : "rbx");
#elif defined NEW_STACK
    __asm__ volatile("mov %%rsp, %%rbx; mov $0x20100, %%esp; here: " SITE "mov %%rbx, %%rsp" : : : "rbx");
#elif defined ENDING
    __asm__ volatile("jmp 2f; 1: ret; 2: call 3f; jmp 4f; 3: here: .byte 0xf2; jmp 1b; 4:");
#elif defined VFORKS || defined SPAWNS
#ifdef VFORKS
    long child = 58;
#else
    long child = 56;
#endif
    __asm__ volatile("here: syscall; test %%eax, %%eax; jnz 1f; mov $60, %%eax; syscall; 1:"
                     : "+a"(child) : "D"(0x4111l), "S"(0l), "d"(0l) : "rcx", "r11", "memory");
#elif defined DIES
    __asm__ volatile("here: mov 16, %%eax" : : : "rax");
#elif defined SIGNALS
    call(13, QUEUED, (long)HANDLING, 0, 8);
    for (int turn = 0; turn < 9; turn++)
        call(62, call(39, 0, 0, 0, 0), QUEUED, 0, 0);
#elif defined HELD
    long all = call(39, 0, 0, 0, 0);
    call(13, QUEUED, (long)HANDLING, 0, 8);
    while (!first)
        ;
    for (int number = 2; number <= 18; number += 2) {
        __asm__ volatile("mov %0, %%eax; syscall; mov %0, %%eax; syscall" : : "i"(234), "D"(all), "S"(first), "d"(QUEUED) : "rax", "rcx", "r11", "memory");
        while (handled < number)
            ;
    }
#endif
}

__attribute__((noreturn, used)) static void enter(long number) {
    uint64_t *here;
    for (int turn = 0; turn < 20; turn++)
        add(number);
    __asm__ volatile("mov %%rsp, %0" : "=r"(here));
    if (number == 0)
        place = here, first = call(186, 0, 0, 0, 0);
    if (number == THREADS - 1)
        breaks();
    else
        for (int turn = 0; turn < 100 || (IS_HELD && number == 0 && handled < 18); turn++)
            __asm__ volatile("xor %%eax, %%eax;" SITE : : : "rax", "memory");
    call(60, 0, 0, 0, 0);
    for (;;)
        ;
}

/* The call that begins a thread. With BEGINS_INSIDE a jump in place of the two bytes before it has room in the call alone, which is displaced,
   too: where both calls' bytes lead stands memory of the program. */
#ifdef BEGINS_INSIDE
static volatile char much[1 << 20];
#define BEGIN "jmp here; here: mov %%eax, %%eax; syscall; .byte 0x00, 0xd2; xor %%edx, %%edx;"
#else
#define BEGIN "syscall;"
#endif

/* A thread with a stack of its own; the kernel clears `running` as it ends. */
__attribute__((noinline)) static void begin(long number) {
    uint64_t *top = stacks[number] + 1023;
    register long r10 __asm__("r10") = (long)&running[number], r8 __asm__("r8") = 0;
    long answer = 56;
#ifdef BEGINS_INSIDE
    much[number] = 1;
#endif
    *--top = number, running[number] = 1;
    __asm__ volatile(BEGIN "test %%eax, %%eax; jnz 1f; pop %%rdi; call enter; 1:"
                     : "+a"(answer) : "D"(0x250f00l), "S"(top), "d"(0l), "r"(r10), "r"(r8) : "rcx", "r11", "memory");
}

__attribute__((force_align_arg_pointer, noreturn)) void _start(void) {
#ifdef ALONE
    breaks();
#endif
    for (int number = 0; number < THREADS; number++)
        begin(number);
    for (int number = 0; number < THREADS; number++)
        while (__atomic_load_n(&running[number], __ATOMIC_ACQUIRE))
            call(202, (long)&running[number], 0, 1, 0);
    call(231, total == 20 * THREADS * (THREADS - 1) / 2 ? 7 : 8, 0, 0, 0);
    for (;;)
        ;
}
