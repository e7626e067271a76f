#define _GNU_SOURCE
#include "native.h"

#include <signal.h>
#include <stddef.h>
#include <stdio.h>
#include <stdlib.h>
#include <string.h>
#include <sys/time.h>
#include <ucontext.h>

#include "bases.h"
#include "harness.h"

enum { STACK_SIZE = 1 << 16, TICK = 100000 };

void enter_guest(int goes_down);
void leave_guest(void);

/* The guest finds our stack pointer and the way back in its variables, at absolute addresses. */
#define ABSOLUTE(number) #number
#define OWN_RSP ABSOLUTE(0x38000010)
#define STATE_IN ABSOLUTE(0x38000018)
#define STATE_OUT ABSOLUTE(0x38000020)
#define STATE_MASK ABSOLUTE(0x38000028)
#define MXCSR ABSOLUTE(0x3800002c)
_Static_assert(AREA + offsetof(struct variables, own_rsp) == 0x38000010, "where the guest's way back stands");
_Static_assert(AREA + offsetof(struct variables, state_in) == 0x38000018, "where the state begins with");
_Static_assert(AREA + offsetof(struct variables, mxcsr) == 0x3800002c, "how SSE is set for us");

__asm__(".text\n"
        ".globl enter_guest\n"
        "enter_guest:\n"
        "\tpush %rbx\n\tpush %rbp\n\tpush %r12\n\tpush %r13\n\tpush %r14\n\tpush %r15\n"
        "\tmov %rsp, " OWN_RSP "\n"
        "\tmov " STATE_IN ", %rcx\n"
        "\ttest %rcx, %rcx\n"
        "\tje 2f\n"
        "\tmov " STATE_MASK ", %eax\n"
        "\txor %edx, %edx\n"
        "\txrstor64 (%rcx)\n"
        "2:\tmov $0x20000000, %eax\n"
        "\ttest %edi, %edi\n"
        "\tje 1f\n"
        "\tstd\n"
        "1:\tjmp *%rax\n"
        ".globl leave_guest\n"
        "leave_guest:\n"
        "\tcld\n"
        "\tmov " STATE_OUT ", %rcx\n"
        "\ttest %rcx, %rcx\n"
        "\tje 3f\n"
        "\tmov " STATE_MASK ", %eax\n"
        "\txor %edx, %edx\n"
        "\txsave64 (%rcx)\n"
        "\tfninit\n"
        "\tldmxcsr " MXCSR "\n"
        "3:\tmov " OWN_RSP ", %rsp\n"
        "\tpop %r15\n\tpop %r14\n\tpop %r13\n\tpop %r12\n\tpop %rbp\n\tpop %rbx\n"
        "\tret\n");

static const int PLACES_OF[16] = { REG_RAX, REG_RCX, REG_RDX, REG_RBX, REG_RSP, REG_RBP, REG_RSI, REG_RDI,
                                   REG_R8,  REG_R9,  REG_R10, REG_R11, REG_R12, REG_R13, REG_R14, REG_R15 };

static volatile int faulted;
static volatile uint64_t runs, seen_run; /* how many were begun, and the one that the timer met last */
static struct fault fault;

/* A run that the timer meets twice doesn't end by itself. */
static int goes_on(const greg_t *gregs) {
    int met = gregs[REG_RIP] >= HARNESS && gregs[REG_RIP] < TABLE && seen_run == runs;
    seen_run = runs;
    return !met;
}

static void on_fault(int sig, siginfo_t *info, void *frame) {
    uint64_t fs, gs;
    take_bases(&fs, &gs);
    set_own_bases();
    greg_t *gregs = ((ucontext_t *)frame)->uc_mcontext.gregs;
    (void)info;
    if (sig == SIGVTALRM && goes_on(gregs)) {
        set_bases(fs, gs);
        return;
    }
    faulted = 1;
    fault = (struct fault){ .trap = sig == SIGVTALRM ? -1 : (int)gregs[REG_TRAPNO],
                            .is_fetch = gregs[REG_TRAPNO] == 14 && (gregs[REG_ERR] & 16),
                            .address = (uint64_t)gregs[REG_CR2],
                            .rip = (uint64_t)gregs[REG_RIP],
                            .flags = (uint64_t)gregs[REG_EFL] & SIX };
    for (int reg = 0; reg < 16; reg++)
        fault.regs[reg] = (uint64_t)gregs[PLACES_OF[reg]];
    gregs[REG_RIP] = (greg_t)leave_guest;
    gregs[REG_EFL] = 0x202;
}

void catch_faults(void) {
    static uint8_t stack[STACK_SIZE];
    static const int signals[] = { SIGSEGV, SIGBUS, SIGILL, SIGFPE, SIGTRAP, SIGVTALRM };
    struct itimerval timer = { { 0, TICK }, { 0, TICK } };
    stack_t alternate = { .ss_sp = stack, .ss_size = sizeof stack };
    struct sigaction action = { .sa_sigaction = on_fault, .sa_flags = SA_SIGINFO | SA_ONSTACK | SA_RESTART };
    sigfillset(&action.sa_mask);
    keep_own_bases();
    int failed = sigaltstack(&alternate, NULL);
    for (size_t at = 0; at < sizeof signals / sizeof *signals; at++)
        failed |= sigaction(signals[at], &action, NULL);
    if (failed || setitimer(ITIMER_VIRTUAL, &timer, NULL)) {
        perror("hardware: signals");
        exit(2);
    }
}

int run_native(const struct run *run) {
    ((struct variables *)AREA)->ret = (uint64_t)leave_guest;
    faulted = 0;
    runs++;
    set_bases(run->fs, run->gs);
    enter_guest(run->goes_down);
    set_own_bases();
    return !faulted;
}

const struct fault *last_fault(void) { return &fault; }

void use_states(const void *from, void *to, uint32_t mask) {
    struct variables *area = (struct variables *)AREA;
    area->state_in = (uint64_t)from, area->state_out = (uint64_t)to;
    area->state_mask = mask;
    area->mxcsr = 0x1f80; /* as a program begins */
}
