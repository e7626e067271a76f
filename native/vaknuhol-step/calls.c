#define _GNU_SOURCE
/* What a program does that a patched one may not bear: as it calls the kernel, and by the trap flag. */
#include <sched.h>
#include <stdio.h>
#include <sys/mman.h>
#include <sys/ptrace.h>
#include <sys/syscall.h>

#include "process.h"
#include "step.h"

/* rseq_cs of struct rseq; start_ip and post_commit_offset of struct rseq_cs. */
enum { SEQUENCE_AT = 8, START_AT = 8, LENGTH_AT = 16, PAGE = 4096, MOST_EVENTS = 64 };

/* Each is told once; `what` is the word that begins its line. */
struct event {
    const char *what;
    uint64_t lo, hi;
};

static struct event events[MOST_EVENTS];
static int event_count;
static int steps_itself;
static uint64_t area, last_sequence; /* the memory of the thread that rseq has, and what it told there last */

static const char MAPS[] = "maps", SHARES[] = "shares", TRAPS[] = "traps", RESTARTS[] = "restarts";

static void add(const char *what, uint64_t lo, uint64_t hi) {
    for (int at = 0; at < event_count; at++)
        if (events[at].what == what && events[at].lo == lo)
            return;
    if (event_count < MOST_EVENTS)
        events[event_count++] = (struct event){what, lo, hi};
}

static uint64_t word_at(pid_t process, uint64_t addr) { return (uint64_t)ptrace(PTRACE_PEEKDATA, process, addr, NULL); }

/* Memory that is mapped at a fixed place. */
static void watch_mapping(const struct user_regs_struct *r) {
    uint64_t lo = r->rdi, length = r->rsi, is_fixed = 0;
    if (r->rax == SYS_mmap)
        is_fixed = r->r10 & (MAP_FIXED | MAP_FIXED_NOREPLACE);
    else if (r->rax == SYS_shmat)
        lo = r->rsi, length = PAGE, is_fixed = lo != 0;
    else if (r->rax == SYS_mremap)
        lo = r->r8, length = r->rdx, is_fixed = r->r10 & MREMAP_FIXED;
    if (is_fixed && length)
        add(MAPS, lo / PAGE * PAGE, (lo + length + PAGE - 1) / PAGE * PAGE);
}

/* A thread, or a process that runs in the same memory at once. */
static void watch_clone(pid_t process, const struct user_regs_struct *r) {
    uint64_t flags = r->rax == SYS_clone ? r->rdi : r->rax == SYS_clone3 ? word_at(process, r->rdi) : 0;
    if (flags & CLONE_VM && !(flags & CLONE_VFORK))
        add(SHARES, r->rip, r->rip);
}

void watch_call(pid_t process, const struct user_regs_struct *registers) {
    watch_mapping(registers);
    watch_clone(process, registers);
    if (registers->rax == SYS_rseq)
        area = registers->rsi ? registers->rdi : 0;
}

void watch_state(pid_t process, const struct user_regs_struct *registers) {
    uint64_t sequence = area ? word_at(process, area + SEQUENCE_AT) : 0;
    if (registers->eflags & TRAP_FLAG && !steps_itself++)
        add(TRAPS, registers->rip, registers->rip);
    if (sequence && sequence != last_sequence && sequence != ~0ull) {
        uint64_t start = word_at(process, sequence + START_AT);
        add(RESTARTS, start, start + word_at(process, sequence + LENGTH_AT));
    }
    last_sequence = sequence;
}

void write_events(FILE *out) {
    for (int at = 0; at < event_count; at++)
        fprintf(out, "%s %lx %lx\n", events[at].what, events[at].lo, events[at].hi);
}
