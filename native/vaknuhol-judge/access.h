/* Which bytes of memory an instruction reads and writes, and which the kernel does in a system call. */
#ifndef ACCESS_H
#define ACCESS_H
#include <stdbool.h>

#include "asking.h"

enum { MOST_ACCESSES = 24, MOST_VECTORS = 16, MOST_READS = 64 };

/* Bytes that are read or written; `surely` if each of them is written whenever the step is made. */
struct access {
    uint64_t lo, hi;
    bool reads, writes, surely;
};

/* What an instruction is to the model: its work is defined, or the world answers it, or it ends a run. */
enum work { EXACT, ANSWERED, ENDS };

enum work work_of(const struct decoded *insn);

/* The accesses of an instruction that is no system call, from these registers to those, by its operands; how many there are. */
int accesses_of(const struct decoded *insn, struct user_regs_struct *before, const struct user_regs_struct *after, struct access accesses[MOST_ACCESSES]);

/* A system call as it begins: its registers, and buffers that it names in memory. */
struct call {
    struct user_regs_struct regs;
    struct access named[MOST_VECTORS]; /* an answer's bytes go there, one after the other, if they are `surely` written; to others by their length */
    int named_count;
    uint64_t args[3];                /* of clone and clone3: flags, and where the thread's number goes */
    struct access reads[MOST_READS]; /* what its answer depends on */
    int read_count;
    bool is_known; /* whether all that it reads and writes is known */
};

struct call begin_call(pid_t tid, const struct user_regs_struct *regs);

uint64_t argument_of(const struct call *call, int number);

/* Of select and pselect6 how long a set of descriptors is. */
uint64_t selected_bytes(const struct call *call);

/* call_reads.c: adds what the kernel reads; whether this is a call that reads memory. */
bool find_reads(struct call *call, pid_t tid);

/* What the kernel wrote, once the call has answered; how many accesses there are, or -1 where that, or what it read, isn't known. */
int answer_accesses(const struct call *call, int64_t answer, struct access accesses[MOST_ACCESSES]);
#endif
