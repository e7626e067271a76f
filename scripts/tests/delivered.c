/* A program without a C library that scripts/tests/test_replayed_signals.py records: handlers that are entered by signals of its own, by
   those of a timer, by a fault, in handlers, and out of system calls that end by a signal or begin anew. */
#include <signal.h>
#include <stddef.h>
#include <stdint.h>
#include <sys/mman.h>
#include <sys/syscall.h>
#include <sys/time.h>
#include <ucontext.h>

enum { SENT = 40, TICKS = 110, FAULTS = 5, COPIED = 40, WAITED = 3, PAGE = 4096 };
enum { EACH = 100, LATER = 2000 }; /* microseconds */

static volatile uint32_t noise = 1, sent, nested, ticks, faults, is_waited_for, waited;
static uint8_t *pages, bytes[COPIED];
static int ends[2];

static long call(long number, long a, long b, long c, long d) {
    register long r10 __asm__("r10") = d, r8 __asm__("r8") = -1, r9 __asm__("r9") = 0;
    __asm__ volatile("syscall" : "+a"(number) : "D"(a), "S"(b), "d"(c), "r"(r10), "r"(r8), "r"(r9) : "rcx", "r11", "memory");
    return number;
}

void back(void);
__asm__("back: mov $15, %eax; syscall; jmp back"); /* rt_sigreturn */

struct action { /* of the kernel */
    void (*handler)(int, siginfo_t *, void *);
    unsigned long flags;
    void (*restorer)(void);
    unsigned long mask;
};

static void handle(int number, void (*handler)(int, siginfo_t *, void *), unsigned long flags) {
    struct action action = { handler, SA_SIGINFO | 0x4000000 | flags, back, 0 };
    call(SYS_rt_sigaction, number, (long)&action, 0, 8);
}

static void timer(long first, long each) {
    struct itimerval times = { { 0, each }, { 0, first } };
    call(SYS_setitimer, ITIMER_REAL, (long)&times, 0, 0);
}

static void send(int number) {
    call(SYS_kill, call(SYS_getpid, 0, 0, 0, 0), number, 0, 0);
}

static void on_sent(int number, siginfo_t *info, void *context) {
    (void)context;
    noise = noise * 31 + number + info->si_code;
    if (++sent % 10 == 0)
        send(SIGUSR2);
}

static void on_nested(int number, siginfo_t *info, void *context) {
    (void)info, (void)context;
    noise ^= number << ++nested;
}

static void on_tick(int number, siginfo_t *info, void *context) {
    char byte = number;
    (void)info, (void)context;
    noise = noise * 7 + 3;
    if (++ticks == TICKS)
        timer(0, 0);
    if (is_waited_for && ++waited == WAITED)
        call(SYS_write, ends[1], (long)&byte, 1, 0);
}

/* Memory that it lacks is given, and else the instruction, of two bytes, is left out. */
static void on_fault(int number, siginfo_t *info, void *context) {
    (void)number;
    noise += (uint64_t)info->si_addr;
    faults++;
    if (pages && info->si_addr == pages + PAGE)
        call(SYS_mprotect, (long)(pages + PAGE), PAGE, PROT_READ | PROT_WRITE, 0);
    else
        ((ucontext_t *)context)->uc_mcontext.gregs[16] += 2;
}

/* Half of what is copied is copied before the fault, and half when the handler has returned. */
static uint32_t copy(void) {
    pages = (uint8_t *)call(SYS_mmap, 0, 2 * PAGE, PROT_READ | PROT_WRITE, MAP_PRIVATE | MAP_ANONYMOUS);
    call(SYS_mprotect, (long)(pages + PAGE), PAGE, PROT_NONE, 0);
    uint8_t *to = pages + PAGE - COPIED / 2, *from = bytes;
    uint64_t left = COPIED;
    for (int i = 0; i < COPIED; i++)
        bytes[i] = i + 1;
    __asm__ volatile("rep movsb" : "+D"(to), "+S"(from), "+c"(left) : : "memory");
    return to[-COPIED] + to[-1];
}

static uint64_t count_in_loops(void) {
    uint64_t x = 1;
    while (ticks < TICKS)
        x = (x << 7 | x >> 57) * 2654435761u + 1;
    return x;
}

/* A wait that a signal ends, and one that goes on after two. The timer goes on, too: a signal may come before the wait. */
static uint32_t wait(void) {
    char byte = 0;
    struct timespec seconds = { 5, 0 };
    timer(LATER, LATER);
    uint32_t ended = call(SYS_nanosleep, (long)&seconds, 0, 0, 0);
    handle(SIGALRM, on_tick, SA_RESTART);
    is_waited_for = 1;
    call(SYS_read, ends[0], (long)&byte, 1, 0);
    timer(0, 0);
    return ended + byte;
}

static void run(void) {
    call(SYS_pipe, (long)ends, 0, 0, 0);
    handle(SIGUSR1, on_sent, 0), handle(SIGUSR2, on_nested, SA_NODEFER), handle(SIGSEGV, on_fault, 0), handle(SIGALRM, on_tick, 0);
    for (int i = 0; i < SENT; i++)
        send(SIGUSR1);
    for (int i = 0; i < FAULTS; i++)
        __asm__ volatile("movl $16, %%eax; movl (%%rax), %%eax" : : : "rax");
    uint32_t copied = copy();
    timer(EACH, EACH);
    uint64_t result = count_in_loops();
    int is_right = sent == SENT && nested == SENT / 10 && faults == FAULTS + 1 && copied == COPIED + 1 && ticks >= TICKS;
    is_right &= wait() == (uint32_t)-4 + SIGALRM && result != 0;
    call(SYS_exit, is_right ? 7 : 1, 0, 0, 0);
}

__attribute__((force_align_arg_pointer, noreturn)) void _start(void) {
    run();
    for (;;)
        ;
}
