/* The threads of the process that is traced: stops, registers, memory. */
#ifndef THREADS_H
#define THREADS_H
#include <signal.h>

#include "access.h"
#include "tracee.h"

enum { MOST_THREADS = 256, MOST_HELD = 16 };

/* GONE: it has ended. READY: it stands before an instruction. BORN: its first stop has not come. CALLS: it is in a system call. */
enum state { GONE, READY, BORN, CALLS };

struct thread {
    pid_t tid;
    int number;
    enum state state;
    struct user_regs_struct regs; /* before the instruction at which it stands, or which it makes */
    struct decoded insn;          /* that instruction */
    struct call call;             /* where it is a system call */
    uint64_t projected;           /* the address of its projection, unless it is behind an effect step in relocated code */
    bool is_behind;
    bool is_doubted;           /* what its instruction reads has been told */
    uint64_t claim;            /* how many claims of a ring's slots came before its last one */
    uint64_t clears;           /* where the kernel writes 0 as it ends */
    siginfo_t held[MOST_HELD]; /* signals that wait until it stands outside */
    int held_count;
};

/* Starts the program, which waits at its first instruction as the only thread. */
void start(char **command);

struct thread *add_thread(pid_t tid);
struct thread *thread_of(pid_t tid);
struct thread *thread_number(int number);
int thread_count(void);
int living_count(void);

/* A thread that lives, by which memory is read: one that is ready, if there is one. */
pid_t living(void);

/* Lets a thread make one instruction, with a signal if it isn't 0. */
void step(const struct thread *thread, int number);
#endif
