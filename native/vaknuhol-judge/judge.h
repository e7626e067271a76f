/* What the theorem of guests of several threads asks of a run (crates/thread_runs/specs/Premises.antt, WatchedDeliveries.antt), step by
   step. */
#ifndef JUDGE_H
#define JUDGE_H
#include "facts.h"
#include "threads.h"

enum { MOST_UNKNOWN = 8 };

struct judged {
    uint64_t steps, events, deliveries;
    uint64_t covered;          /* of how many steps, from the first one on, the theorem speaks */
    const char *limit;         /* what comes behind them, if they aren't all */
    uint64_t doubts;           /* steps whose answers may be others in the original's run, since they read what that has otherwise */
    char doubt[256];           /* the first of them, in words */
    int unknown[MOST_UNKNOWN]; /* system calls of which it isn't known what they read or write */
    int unknown_count;
    char broken[256]; /* the premise that was broken first, in words */
};

extern struct judged judged;

/* A thread stands outside: at a listed start, at which it counts as standing. */
bool is_outside(const struct thread *thread);

/* A thread begins, where its registers have it. */
bool judge_begin(struct thread *thread, bool is_behind);

/* The theorem doesn't speak of what comes now, unless it ended before. */
void limit_theorem(const char *limit);

/* A thread begins a system call, which reads memory as it is now. */
void judge_call(struct thread *thread);

/* A thread made its instruction and has these registers now; whether all premises held. */
bool judge_step(struct thread *thread, struct user_regs_struct *after);

/* A thread enters a handler from these registers, or comes back from it. */
bool judge_entry(struct thread *thread, int number, uint64_t stack_pointer, const struct user_regs_struct *after);
bool judge_return(struct thread *thread, const struct user_regs_struct *after);

/* A thread ends, and the kernel clears a word. */
bool judge_end(struct thread *thread);

/* Says what broke a premise; returns false. */
bool breaks(const struct thread *thread, const char *form, ...) __attribute__((format(printf, 2, 3)));

/* Each counter, or byte, is what the steps of its site make of it, and a ring what the claims and fills make of it. */
bool judge_counters(void);

/* The first of the bytes in which an event saves rax, or of a ring the flags and rax; how many they are. */
uint64_t saved_at(const struct user_regs_struct *regs);
uint64_t saved_length(void);

/* ring.c: a step of an event that keeps a ring: it may claim a slot, or fill the one that its thread claimed last. */
void watch_ring(struct thread *thread, const struct site *site);

/* What of the ring in memory isn't as claims and fills left it, in words; whether it is. */
bool judge_ring(char *what, size_t size);
#endif
