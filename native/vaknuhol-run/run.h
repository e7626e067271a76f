/* The parts of vaknuhol-run, a file each, and what each has for the others. */
#ifndef RUN_H
#define RUN_H
#define _GNU_SOURCE
#include <err.h>
#include <errno.h>
#include <fcntl.h>
#include <signal.h>
#include <stdint.h>
#include <stdio.h>
#include <stdlib.h>
#include <string.h>
#include <sys/ptrace.h>
#include <sys/queue.h>
#include <sys/stat.h>
#include <sys/syscall.h>
#include <sys/user.h>
#include <sys/wait.h>
#include <unistd.h>

#include "process.h"

enum { REFUSED = 125, NOT_STARTED = 126 }; /* statuses: something is refused, by errx; a program can't be started */

/* patch.c: what is known of the patched file. */
enum action_kind { COVER, COUNT, RING };
enum { SCRATCH = 64, ROW_ADDRESSES = 27, MOST_COMPARISONS = 3, LONGEST_EVENT = 80 };
/* How an event is undone where a thread stands at one of its instructions: rax is given back; the flags are, from AH and AL as LAHF and SETO left
   them, in rax or in memory, or as ADD AL, 7F changed them; its record is made; of a ring only the slot is written, or, of one for threads, a slot is
   claimed, to which eax leads. */
enum { RAX_IS_KEPT = 1, FLAGS_CHANGED = 2, FLAGS_IN_MEMORY = 4, FLAGS_ADDED = 8, RECORDED = 16, SLOT_WRITTEN = 32, CLAIMED = 64 };
enum { PLAIN = 0xffffffff, NOWHERE = 0xfffffffe }; /* in the place of a number: a trampoline without event; no trampoline */
enum { SAVE_RAX = 0x25048948 };                    /* MOV p, rax, before p: so begins the code of an indirect call that isn't for threads */

struct row { /* a block's number, or one that no site has, and where its line in the rows' text begins */
    uint32_t number, at;
};
struct tramp { /* it ends where the next one begins */
    uint32_t place, start, number;
};
/* From an address on in a function: how far from rbp or rsp (6 or 7; 0: it isn't told) the caller's stack begins, and from there its rbp (0: in rbp). */
struct rule {
    uint32_t at, begin, end, reg;
    int32_t distance, rbp_place;
};
struct covered { /* bytes of the original where the patched file has others */
    uint32_t at;
    uint8_t length, bytes[11];
};
/* A run file, as it lies in memory: scripts/vaknuhol/recording/run_file.py writes it, numbers little-endian, texts filled up by zeros. */
struct patch {
    char mark[16], head[512], left[128], warning[512]; /* of a record: its head, and of a ring its line on blocks left; told at the first thread */
    uint32_t kind, for_threads, slots, shown, sites, event_length, comparison_count, row_count, tramp_count, rule_count, covered_count, text_length;
    uint64_t private_at, private_length, data_length;
    struct told told; /* to the original; a count of 0 where that isn't known */
    struct {
        uint32_t reg, sign;
        uint64_t value;
    } comparisons[MOST_COMPARISONS];
    uint8_t undo[LONGEST_EVENT];
    struct row rows[]; /* of rings by their numbers; and after them the trampolines and the rules, as they ascend, the covered bytes, and the rows' text */
};
extern const struct patch *patch;
extern const struct tramp *tramps;
extern const struct rule *rules; /* of a ring for threads */
extern const struct covered *covered;
extern const char *row_text; /* a record's lines on blocks where none was executed: each has a count of 0, or why the block was left */
/* Reads the run file; where it is none, the runner ends. */
void read_patch(const char *path);
/* The trampoline at an address, or nothing. */
const struct tramp *tramp_at(uint64_t address);
/* How many bytes of a trampoline its event takes. */
uint64_t event_of(const struct tramp *it);
/* Whether processes can share the memory of a record, as threads do: no code saves a register in it. By the code in a process's memory. */
bool is_shareable(pid_t tid);
/* Memory of so many bytes, all zeros; the runner ends where there is none. */
void *zeros(size_t bytes) __attribute__((returns_nonnull, malloc));

/* tracee.c: a stopped thread, and system calls that it is made to make. */
/* Whether a stopped thread comes from a call of the kernel. */
bool is_at_call(const struct user_regs_struct *regs);
/* To the next stop at a system call, as at the end of exec; whether the thread comes to one. */
bool to_call_stop(pid_t tid);
/* The answer to a call that the thread is made to make, as the kernel has it, a negative number of an error too. */
int64_t make_call(pid_t tid, long number, uint64_t a, uint64_t b, uint64_t c, uint64_t d);
/* Single steps of a thread at a signal's stop while they are wanted by its registers, which are those of its last stop then; whether all were made. A
   thread that a fault stops stands before what faults. */
bool make_steps(pid_t tid, struct user_regs_struct *regs, bool (*is_wanted)(const struct user_regs_struct *regs));
/* Delivers a signal; whether the thread stops as the handler begins, with these registers. */
bool begin_handler(pid_t tid, int number, struct user_regs_struct *regs);

/* spaces.c: address spaces with the patched program, and where each one's record lies. */
enum { SIGNALS = 32 }; /* those that dump core have lower numbers */
struct space {
    int number, members, id;
    bool is_shared;
    uint8_t *range; /* the private range, as it stands, or where it isn't shared, as it was read last; nothing once it has ended */
    char ended[24];
    struct crash {
        pid_t group;
        uint32_t *ring;
    } crashes[SIGNALS]; /* of a ring for threads, by signals: what it held as one began to end a process */
    uint32_t *events;   /* of a ring that has ended, its last ones */
    unsigned event_count;
    TAILQ_ENTRY(space) others;
};
TAILQ_HEAD(spaces, space);
extern struct spaces all_spaces, ended_spaces; /* of rings those are kept that have ended, in that order */
/* The space of a process that has become the program. */
struct space *space_of(pid_t tid);
/* That of a forked child at its first stop: its own, or its parent's, or nothing where it goes on as the original. */
struct space *space_of_child(pid_t tid, struct space *parent);
/* Takes the range back into the process's own memory, so that it can be left alone; whether that is done. */
bool make_own(struct space *it, pid_t tid);
/* Reads the range again, where it is the process's own; whether it is as it stands. */
bool read_range(struct space *it, pid_t tid);
/* A space that nobody is in any more: its counts go into the record, and a ring is kept. */
void drop_space(struct space *it);

/* losses.c: memory of the patch that a process has replaced. */
/* Finds out what is mapped of the patched file, of a process that begins the program there. */
void know_file(pid_t tid, uint64_t begin);
/* Whether a process has memory of its patch no more, which is told, the first time. */
bool is_lost(const struct space *space, pid_t tid, pid_t group);

/* follow.c: a traced process, and all that come from it, to their ends. */
enum {
    FOLLOWED =
        PTRACE_O_TRACEFORK | PTRACE_O_TRACEVFORK | PTRACE_O_TRACECLONE | PTRACE_O_TRACEEXEC | PTRACE_O_TRACEEXIT | PTRACE_O_TRACESYSGOOD | PTRACE_O_EXITKILL
};
struct run {
    const char *run_file, *patched, *record, *folder;
    unsigned keep; /* so many records of the folder, the newest ones, or all where it is 0 */
    /* Another program in the place of one of ours is let go, since it may be a stand-in with a runner of its own. */
    bool is_stand_in;
    pid_t first;
    struct stat image;                                       /* of the patched file */
    int processes, threads, execs, unrecorded, lost, status; /* no process before the program has begun */
    bool is_written, is_over;                                /* the whole record; the program itself */
};
struct task {
    pid_t tid, group;
    struct space *space; /* none where it runs another program */
    int stop;            /* at which it is held, and may be left */
    LIST_ENTRY(task) others;
};
LIST_HEAD(tasks, task);
extern struct tasks all_tasks;
/* A thread ends, or is let go of. Its space is summed up as its last member leaves it: `how` is told of a ring. */
void drop_task(struct task *it, const char *how, bool has_memory);
/* The first process, from before it becomes the patched program, and all that come from it, to their ends. */
void follow(struct run *run);

/* outside.c: at the stop before a signal's delivery a thread is put to a start of the original. The signal with which it goes on: none where that has been
   delivered, or AWAY where the thread has come to another stop by then, which is left to be waited for. */
enum { AWAY = -1 };
int before_delivery(const struct task *it, int number);
/* Takes an event back that was made whole, with these registers before it. */
void take_back(const struct space *space, pid_t tid, unsigned number, struct user_regs_struct *before);
/* Whether a signal is of a step that a thread makes of its own (by the trap flag) in a trampoline: the original has one alone, behind the instruction. */
bool is_inner_step(const struct task *it, int number);
/* A child that was made by a call in a trampoline goes on behind it in the original. */
void put_behind_call(pid_t tid);

/* unfinished.c: calls of the kernel that signals interrupt. */
/* Whether a thread stands behind a call that may be made again. */
bool is_unfinished(const struct user_regs_struct *regs);
/* Whether a signal leads a thread on as if it had not come, after a stop perhaps. */
bool is_idle(pid_t tid, int number);
/* Where a signal that does nothing has ended a call with EINTR, the thread is as behind one that is made again unless a handler comes. */
void wait_again(pid_t tid, int number, struct user_regs_struct *regs);
/* Delivers a signal to a thread that was put behind its call from inside a trampoline; the signal to go on with, as of before_delivery. */
int deliver(const struct space *space, pid_t tid, int number, const struct tramp *it, const struct user_regs_struct *outside);

/* crash.c: a ring for threads is kept as it stands when a signal begins to end its process. */
/* Whether a ring is to be kept: a signal ends the thread's process with a core file. */
bool is_crash(pid_t tid, int number);
/* Whether such a signal comes from the thread itself: it is a fault, or its process sent it to this thread, as `abort` does. */
bool is_of_thread(pid_t tid, const siginfo_t *info);
/* Keeps the ring of a thread's space for the end by a signal. Where the signal comes from the thread, up to the last event of the block in which that
   stands, by the instruction at which it stopped and by its registers outside of trampolines. */
void keep_ring(const struct task *it, int number, uint64_t stood, const struct user_regs_struct *outside);
/* The ring of a space that ends: the kept one, where it ends by that signal. */
const uint32_t *last_ring(const struct space *it);
void forget_rings(struct space *it);

/* callers.c: in which functions a thread is, the last that was called first; how many were found. */
enum { MOST_FRAMES = 64 };
struct frame { /* where the thread stands, or the last byte of its call; and from where on and up to where the function goes, if that is told */
    uint64_t at, begin, end;
};
unsigned find_frames(pid_t tid, const struct user_regs_struct *regs, struct frame found[MOST_FRAMES]);

/* record.c: the record of a run, the sum of what its processes recorded, as scripts/vaknuhol/recording/record_file.py has it; it is written whole or not at
 * all. */
/* Makes sure that the record can be written, else the runner ends; where it ends before the program has begun, no trace is left. */
void open_record(const struct run *run);
/* Adds what a space has counted. */
void add_counts(const struct space *it);
/* Keeps the events of a space that ends, as many as are shown. */
void keep_events(struct space *it);
/* Writes the record with what the living spaces have by now. */
void write_record(struct run *run, bool is_ended);

/* letgo.c: a process that the runner lets go of while it runs on. */
#define LET_GO_SIGNAL (SIGRTMIN + 3) /* asks the runner; its value is the process */
/* Until a process has its memory back and its runner has let it go; where that can't be, this program ends. */
void make_runner_let_go(pid_t pid);
/* Holds the threads of a process, gives its memory back, and lets them go. */
void let_go(pid_t group);

/* main.c: a program and its runner. */
enum { ANSWER = 5000 };
/* The program's part: whether it is traced from now on; if not, the line says why, if that was said. The runner says its number, if that is 0. */
bool is_traced(int socket, pid_t runner, char line[ANSWER]);
/* The runner's part, which ends where it can't trace the program. */
void trace(struct run *run, int socket);

/* standin.c: where this executable stands in a program's place, it becomes that; else nothing is done. */
void stand_in(char **words);
#endif
