#define _GNU_SOURCE
#include "sift.h"

#include <errno.h>
#include <linux/audit.h>
#include <linux/filter.h>
#include <linux/seccomp.h>
#include <signal.h>
#include <stddef.h>
#include <stdio.h>
#include <stdlib.h>
#include <string.h>
#include <sys/mman.h>
#include <sys/prctl.h>
#include <sys/time.h>
#include <sys/wait.h>
#include <time.h>
#include <ucontext.h>
#include <unistd.h>

#include "bases.h"

#define PAGE_AT 0x100000000000ull /* the executable page; the next one isn't there */
enum { PAGE = 4096, STACK_SIZE = 1 << 16, FETCH = VERDICTS, TICK = 100000, PATIENCE = 2 };
#define EDGE (PAGE_AT + PAGE)

void *shared_room(size_t size) {
    void *room = mmap(NULL, size, PROT_READ | PROT_WRITE, MAP_SHARED | MAP_ANONYMOUS, -1, 0);
    if (room == MAP_FAILED) {
        perror("hardware: mmap");
        exit(2);
    }
    return room;
}

/* The child's work, driven by the signals that the sequences end with. */
static struct {
    struct sequence *all;
    size_t count;
    volatile size_t *at; /* shared with the parent: the sequence at work */
    uint8_t *alias;      /* the executable page, where it can be written */
    greg_t back[NGREG];  /* where the child goes on when all is done */
    int size;            /* how many bytes are on the page */
    volatile int ticks;
    enum { IDLE, FIRST, BELOW_HINT, AT_HINT, SEARCH } stage;
    int low, high, hint; /* the length is from low to high */
    int found;           /* what the run with `high` bytes gave */
} sift;

static struct sequence *current(void) { return &sift.all[*sift.at]; }

static void place(greg_t *gregs, int size) {
    memcpy(sift.alias + PAGE - size, current()->bytes, (size_t)size);
    for (int reg = REG_R8; reg <= REG_RSP; reg++)
        gregs[reg] = 0;
    gregs[REG_RIP] = (greg_t)(EDGE - (unsigned)size);
    gregs[REG_EFL] = 0x302; /* IF and TF */
    sift.size = size;
    sift.ticks = 0;
}

static int outcome(int sig, const greg_t *gregs) {
    greg_t start = (greg_t)(EDGE - (unsigned)sift.size), trap = gregs[REG_TRAPNO];
    if (sig == SIGPROF)
        return HUNG;
    if (trap == 14 && (gregs[REG_ERR] & 16) && gregs[REG_RIP] == start && gregs[REG_CR2] == (greg_t)EDGE)
        return FETCH;
    if (gregs[REG_RIP] != start || sig == SIGTRAP)
        return RAN;
    return trap == 14 ? MEMORY : trap == 6 ? UNDEFINED : trap == 12 || trap == 13 ? PROTECTED : OTHER;
}

/* SYSENTER would go on at a place of the kernel's choice. */
static int may_run(const struct sequence *it) {
    unsigned which;
    size_t at = prefixes_of(it->bytes, &which);
    return !(at + 1 < LONGEST && it->bytes[at] == 0x0f && it->bytes[at + 1] == 0x34);
}

/* Answers whether there is one to begin with. */
static int begin(greg_t *gregs) {
    while (*sift.at < sift.count && !may_run(current())) {
        current()->verdict = NOT_RUN;
        ++*sift.at;
    }
    if (*sift.at >= sift.count)
        return 0;
    sift.stage = FIRST;
    place(gregs, LONGEST);
    return 1;
}

static int told(greg_t *gregs, int verdict, int length) {
    current()->verdict = (uint8_t)verdict;
    current()->length = (uint8_t)length;
    ++*sift.at;
    return begin(gregs);
}

/* The next run of the search from low to high, by halves. */
static int halve(greg_t *gregs) {
    if (sift.low >= sift.high) /* a fault of protection at 15 bytes may be for want of a sixteenth */
        return told(gregs, sift.found, sift.found == PROTECTED && sift.high == LONGEST ? 0 : sift.high);
    sift.stage = SEARCH;
    place(gregs, (sift.low + sift.high) / 2);
    return 1;
}

static int after_first(greg_t *gregs, int got) {
    int64_t hint = gregs[REG_RIP] - (greg_t)(EDGE - LONGEST);
    if (got == FETCH)
        return told(gregs, TOO_LONG, 0);
    if (got == UNDEFINED)
        return told(gregs, UNDEFINED, 0);
    sift.low = 1, sift.high = LONGEST, sift.found = got;
    if (got != RAN || hint < 2 || hint > LONGEST)
        return halve(gregs);
    sift.hint = (int)hint;
    sift.stage = BELOW_HINT;
    place(gregs, sift.hint - 1);
    return 1;
}

static int advance(greg_t *gregs, int got) {
    int size = sift.size;
    switch (sift.stage) {
    case FIRST:
        return after_first(gregs, got);
    case BELOW_HINT:
        if (got != FETCH) {
            sift.high = size, sift.found = got;
            return halve(gregs);
        }
        sift.low = size + 1;
        if (sift.low >= sift.high)
            return halve(gregs);
        sift.stage = AT_HINT;
        place(gregs, sift.hint);
        return 1;
    default:
        if (got == FETCH)
            sift.low = size + 1;
        else
            sift.high = size, sift.found = got;
        return halve(gregs);
    }
}

/* Floating point begins anew with each run. */
static void forget_floating(ucontext_t *context) {
    uint8_t *area = (uint8_t *)context->uc_mcontext.fpregs;
    uint32_t magic = 0;
    if (area)
        memcpy(&magic, area + 464, sizeof magic);
    if (magic == 0x46505853) /* FP_XSTATE_MAGIC1: the frame has the header of XSAVE */
        memset(area + 512, 0, 8);
}

static void on_signal(int sig, siginfo_t *info, void *frame) {
    (void)info;
    set_own_bases();
    ucontext_t *context = frame;
    greg_t *gregs = context->uc_mcontext.gregs;
    int goes_on;
    if (sig == SIGPROF && sift.stage == IDLE)
        return;
    if (sig == SIGPROF && sift.ticks++ < 2) {
        clear_bases();
        return;
    }
    if (sig == SIGUSR1) {
        memcpy(sift.back, gregs, sizeof sift.back);
        goes_on = begin(gregs);
    } else {
        if (sift.stage == IDLE)
            _exit(3);
        int got = outcome(sig, gregs);
        forget_floating(context);
        goes_on = advance(gregs, got);
    }
    if (!goes_on) {
        memcpy(gregs, sift.back, sizeof sift.back);
        sift.stage = IDLE;
    } else
        clear_bases();
}

/* A system call from the page answers EPERM and does nothing. */
static void confine(void) {
    struct sock_filter filter[] = {
        BPF_STMT(BPF_LD | BPF_W | BPF_ABS, offsetof(struct seccomp_data, arch)),
        BPF_JUMP(BPF_JMP | BPF_JEQ | BPF_K, AUDIT_ARCH_X86_64, 0, 2),
        BPF_STMT(BPF_LD | BPF_W | BPF_ABS, offsetof(struct seccomp_data, instruction_pointer) + 4),
        BPF_JUMP(BPF_JMP | BPF_JEQ | BPF_K, PAGE_AT >> 32, 0, 1),
        BPF_STMT(BPF_RET | BPF_K, SECCOMP_RET_ERRNO | EPERM),
        BPF_STMT(BPF_RET | BPF_K, SECCOMP_RET_ALLOW),
    };
    struct sock_fprog program = { sizeof filter / sizeof *filter, filter };
    if (prctl(PR_SET_NO_NEW_PRIVS, 1, 0, 0, 0) || prctl(PR_SET_SECCOMP, SECCOMP_MODE_FILTER, &program))
        _exit(4);
}

static void map_page(void) {
    int file = memfd_create("page", MFD_CLOEXEC);
    if (file < 0 || ftruncate(file, PAGE))
        _exit(4);
    sift.alias = mmap(NULL, PAGE, PROT_READ | PROT_WRITE, MAP_SHARED, file, 0);
    void *page = mmap((void *)PAGE_AT, PAGE, PROT_READ | PROT_EXEC, MAP_SHARED | MAP_FIXED_NOREPLACE, file, 0);
    void *behind = mmap((void *)EDGE, PAGE, PROT_NONE, MAP_PRIVATE | MAP_ANONYMOUS | MAP_FIXED_NOREPLACE, -1, 0);
    if (sift.alias == MAP_FAILED || page != (void *)PAGE_AT || behind != (void *)EDGE)
        _exit(4);
    memset(sift.alias, 0xf4, PAGE);
}

static void child(void) {
    static uint8_t stack[STACK_SIZE];
    static const int signals[] = { SIGSEGV, SIGILL, SIGTRAP, SIGBUS, SIGFPE, SIGSYS, SIGPROF, SIGUSR1 };
    stack_t alternate = { .ss_sp = stack, .ss_size = sizeof stack };
    struct sigaction action = { .sa_sigaction = on_signal, .sa_flags = SA_SIGINFO | SA_ONSTACK };
    struct itimerval timer = { { 0, TICK }, { 0, TICK } };
    map_page();
    keep_own_bases();
    sigfillset(&action.sa_mask);
    if (sigaltstack(&alternate, NULL))
        _exit(4);
    for (size_t at = 0; at < sizeof signals / sizeof *signals; at++)
        if (sigaction(signals[at], &action, NULL))
            _exit(4);
    if (setitimer(ITIMER_PROF, &timer, NULL))
        _exit(4);
    confine();
    sift.stage = IDLE;
    raise(SIGUSR1);
    _exit(0);
}

/* The processor time of a child in seconds, which a busy machine doesn't lengthen. */
static time_t time_of(pid_t pid) {
    clockid_t clock;
    struct timespec spent = { 0, 0 };
    if (!clock_getcpuclockid(pid, &clock))
        clock_gettime(clock, &spent);
    return spent.tv_sec;
}

/* Waits for the child, and ends it where it gets no further in PATIENCE seconds of the processor. */
static int wait_for(pid_t pid) {
    struct timespec pause = { 0, 5000000 };
    size_t last = sift.count;
    time_t since = 0;
    int status;
    for (;;) {
        pid_t ended = waitpid(pid, &status, WNOHANG);
        if (ended == pid)
            return status;
        if (ended < 0 && errno != EINTR)
            return -1;
        nanosleep(&pause, NULL);
        time_t now = time_of(pid);
        if (*sift.at != last)
            since = now;
        last = *sift.at;
        if (now - since > PATIENCE)
            kill(pid, SIGKILL);
    }
}

void sift_all(struct sequence *all, size_t count) {
    static size_t *at;
    if (!at)
        at = shared_room(sizeof *at);
    sift.all = all, sift.count = count, sift.at = at, *at = 0;
    while (*at < count) {
        pid_t pid = fork();
        if (pid < 0) {
            perror("hardware: fork");
            exit(2);
        }
        if (pid == 0)
            child();
        int status = wait_for(pid);
        if (WIFEXITED(status) && WEXITSTATUS(status) == 4) {
            fprintf(stderr, "hardware: the page for sequences can't be made here (memfd_create, mmap, seccomp)\n");
            exit(2);
        }
        if (*at < count) { /* it died of this one */
            all[*at].verdict = HUNG;
            ++*at;
        }
    }
}
