/* A program whose threads come to `one`, `two` and `come`, which may be sites of a ring for threads. Its second thread is stopped once, or more
   often, where it comes to an address in the code of `come`: by HLT, or by a jump to itself, up to a signal. The handler puts the code right,
   comes to `one`, and goes back. Printed is what it finds in the registers, which a patch doesn't change, and as errors, of the ring, what changed
   in it since the thread came to `come`.
   usage: planted [filtered | apart] HOW BEGIN OFFSET [RING SLOTS POSITION MEANWHILE]
   filtered: it begins again first, with a filter on system calls. apart: so it does, with segments of shared memory of its own. HOW: halted, spins,
   killed. BEGIN and OFFSET: where the code begins, and how far the thread comes in it. RING, SLOTS: where the ring lies, and how many slots it has.
   POSITION: its first one. MEANWHILE: to what the first thread comes while the second spins, by the letters o, t and c, there by a copy of the event. */
#define _GNU_SOURCE
#include <linux/filter.h>
#include <linux/seccomp.h>
#include <pthread.h>
#include <sched.h>
#include <signal.h>
#include <stdint.h>
#include <stdio.h>
#include <stdlib.h>
#include <string.h>
#include <sys/mman.h>
#include <sys/prctl.h>
#include <time.h>
#include <ucontext.h>
#include <unistd.h>

enum { FLAGS = 0x8d5, EARLIER = 100, EVENT = 67, JUMP = 5, PAGE = 4096, MOST = 65537, LONG = 20000000 };
static const uint8_t HLT[] = {0xf4}, SPIN[] = {0xeb, 0xfe};
static const uint64_t SEEN[] = {0, FLAGS, 0x800, FLAGS - 0x800}; /* CF, PF, AF, ZF, SF, OF */
static uint8_t *begin, *place, kept[2];
static volatile uint32_t *ring;
static uint32_t slots, before[MOST], changes, told[8], drawn = 1;
static volatile uint64_t rip, rax, flags;
static int wrong;

void one(void), two(void), come(void);
__asm__(".macro function name, number; .globl \\name; .type \\name, @function; \\name: mov $\\number, %edx; ret; .size \\name, . - \\name; .endm\n"
        "function one, 1; function two, 2; function come, 3");

static void write_code(uint8_t *at, const void *bytes, size_t length) {
    uint8_t *page = (uint8_t *)((uintptr_t)at & -PAGE), *end = (uint8_t *)(((uintptr_t)at + length + PAGE - 1) & -PAGE);
    if (mprotect(page, (size_t)(end - page), PROT_READ | PROT_WRITE | PROT_EXEC))
        exit(9);
    memcpy(at, bytes, length);
}

/* By a rule that scripts/tests/test_thread_rings.py has, too. */
static void come_by(int events) {
    for (int i = 0; i < events; i++) {
        drawn = drawn * 1103515245 + 12345;
        drawn >> 16 & 1 ? two() : one();
    }
}

static void plant(const uint8_t *bytes, size_t length) {
    memcpy(kept, place, sizeof kept);
    write_code(place, bytes, length);
    for (uint32_t at = 0; ring && at <= slots; at++)
        before[at] = ring[at];
}

static void on_stop(int number, siginfo_t *info, void *context) {
    const greg_t *registers = ((ucontext_t *)context)->uc_mcontext.gregs;
    (void)number, (void)info;
    write_code(place, kept, sizeof kept);
    rip = (uint64_t)registers[REG_RIP], rax = (uint64_t)registers[REG_RAX], flags = (uint64_t)registers[REG_EFL] & FLAGS;
    changes = 0;
    for (uint32_t at = 0; ring && at <= slots; at++)
        if (ring[at] != before[at])
            told[changes++ & 7] = at;
    one();
}

/* It comes there with these flags, and comes back with them. */
static void come_with(uint64_t number, uint64_t seen) {
    uint64_t given = 0x1122334455667788 + (number << 56), left = given, after;
    __asm__ volatile("lea -128(%%rsp), %%rsp; push %[seen]; popfq; call come; pushfq; pop %[after]; lea 128(%%rsp), %%rsp"
                     : "+a"(left), [after] "=&r"(after) : [seen] "r"(seen | 0x202) : "rdx", "cc", "memory");
    wrong += left != given || (after & FLAGS) != seen;
    printf("%lx %lx %lx\n", rip, rax, flags);
    fprintf(stderr, "ring:");
    for (uint32_t n = 0; n < changes; n++)
        fprintf(stderr, " %u", told[n & 7]);
    fprintf(stderr, "\n");
}

static void *halted(void *unused) {
    for (uint64_t number = 0; number < sizeof SEEN / sizeof *SEEN; number++) {
        come_by(EARLIER);
        plant(HLT, sizeof HLT);
        come_with(number, SEEN[number]);
    }
    return unused;
}

static void *spins(void *unused) {
    come_with(1, FLAGS);
    return unused;
}

static uint64_t nanoseconds(pthread_t thread) {
    clockid_t clock;
    struct timespec now;
    if (pthread_getcpuclockid(thread, &clock) || clock_gettime(clock, &now))
        exit(9);
    return (uint64_t)now.tv_sec * 1000000000 + (uint64_t)now.tv_nsec;
}

static void jump(uint8_t *at, const uint8_t *to) {
    uint8_t code[JUMP] = {0xe9};
    int32_t distance = (int32_t)(to - (at + JUMP));
    memcpy(code + 1, &distance, sizeof distance);
    write_code(at, code, sizeof code);
}

/* The event is made by a copy, which leads to what follows it. */
static uint8_t *copied(void) {
    uint8_t *copy = mmap(NULL, PAGE, PROT_READ | PROT_WRITE | PROT_EXEC, MAP_PRIVATE | MAP_ANONYMOUS | MAP_32BIT, -1, 0);
    if (copy == MAP_FAILED)
        exit(9);
    memcpy(copy, begin, EVENT);
    jump(copy + EVENT, begin + EVENT);
    return copy;
}

/* The thread spins when it has computed for longer than it takes to come there. */
static void spin(const char *how, const char *meanwhile) {
    pthread_t thread;
    come_by(3 * EARLIER);
    uint8_t *copy = copied();
    plant(SPIN, sizeof SPIN);
    pthread_create(&thread, NULL, spins, NULL);
    while (nanoseconds(thread) < LONG)
        usleep(100);
    if (strchr(meanwhile, 'c'))
        jump(begin, copy);
    for (; *meanwhile; meanwhile++)
        *meanwhile == 'o' ? one() : *meanwhile == 't' ? two() : come();
    if (!strcmp(how, "killed"))
        kill(getpid(), SIGKILL);
    pthread_kill(thread, SIGUSR1);
    pthread_join(thread, NULL);
}

/* The runner shares no memory with a process that has a filter which the runner may not suspend, nor with one that has a namespace of segments. */
static int begin_again(char **words) {
    struct sock_filter allow = BPF_STMT(BPF_RET | BPF_K, SECCOMP_RET_ALLOW);
    struct sock_fprog filter = {1, &allow};
    int is_apart = !strcmp(words[0], "apart");
    if (is_apart ? !unshare(CLONE_NEWIPC) || !unshare(CLONE_NEWUSER | CLONE_NEWIPC)
                 : !prctl(PR_SET_NO_NEW_PRIVS, 1, 0, 0, 0) && !prctl(PR_SET_SECCOMP, SECCOMP_MODE_FILTER, &filter))
        execv("/proc/self/exe", words);
    return 64;
}

int main(int count, char **words) {
    struct sigaction action = {.sa_sigaction = on_stop, .sa_flags = SA_SIGINFO};
    pthread_t thread;
    if (count < 4)
        return 64;
    if (!strcmp(words[1], "filtered") || !strcmp(words[1], "apart"))
        return begin_again(words + 1);
    begin = (uint8_t *)strtoul(words[2], NULL, 16), place = begin + atoi(words[3]);
    if (count > 6) {
        ring = (uint32_t *)strtoul(words[4], NULL, 16), slots = (uint32_t)atoi(words[5]);
        *ring = (uint32_t)strtoul(words[6], NULL, 10);
    }
    sigaction(SIGSEGV, &action, NULL), sigaction(SIGUSR1, &action, NULL);
    if (strcmp(words[1], "halted"))
        spin(words[1], words[7]);
    else {
        pthread_create(&thread, NULL, halted, NULL);
        pthread_join(thread, NULL);
    }
    return wrong ? 8 : 7;
}
