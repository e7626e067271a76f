/* A made program that runs trials one after another: it loads the registers, the flags and the places of each, jumps to
   its instruction, keeps what that leaves, and compares it with what is expected. The processor runs its first half for
   one trial at a time, to learn what to expect; `step` runs the whole of it. All its own instructions are exact ones.
 */
#ifndef GUEST_H
#define GUEST_H
#include <stddef.h>

#include "tool.h"
#include "trial.h"

enum {
    HARNESS = 0x20000000, /* the program's own code, then the landings */
    LANDINGS = 0x20001000,
    SLOTS = 0x20010000, /* the instructions, each in a slot with a landing before it and one behind it */
    TABLE = 0x30000000, /* the trials' states */
    AREA = 0x38000000,  /* its own variables */
    DATA = 0x40000000,  /* what operands are drawn from, here and at HIGH */
    EXPECTED = 0x48000000,
    WILD = 0x50000000, /* pages that can be written, read, neither, written, read */
    WILD_PAGES = 5,
    SPACE = 0x2000,
    SLOT = 64,
    LANDING = 16,
    LANDINGS_COUNT = 3840,
    TRIALS_MOST = 16384,
    LISTED = 12
};
#define HIGH 0x5a5a00000000ull

/* Bases of the segments and the direction flag, the same for all trials of a run. */
struct run {
    uint64_t fs, gs;
    int goes_down;
    int is_wild; /* operands and targets may be anywhere, at WILD above all, and no place is given a value */
};

/* Maps the guest's memory in this process and lays down its code. */
void map_guest(void);

/* Before the first trial of a run: no trial, and data as drawn. */
void begin_run(void);

/* Copies both spaces of data, 2 * SPACE bytes, from where they are or back. */
void take_data(uint8_t *to);
void put_data(const uint8_t *from);

/* Where the instruction of the next trial may begin, for one of so many bytes, and the landings that a branch of it can
   reach by one byte, or by four: their addresses. */
uint64_t next_rip(int size);
uint64_t near_landing(uint64_t next);
uint64_t far_landing(void);

/* Puts the next trial into its slot and the table, runs it on the processor, and fills in what that left. Answers
   whether it ran to an end; one that faulted is taken back. */
int run_trial(struct trial *trial, const struct run *run);

/* Takes the last trial out of the run; its data is put back by whoever does so. */
void take_back_trial(void);

/* Runs a trial once more at another place, with its RIP operand where it was, and fills in what that left. */
int run_elsewhere(struct trial *trial, const struct run *run);

/* What the program found of a run. */
struct findings {
    uint64_t differing;      /* how many trials differ */
    size_t listed[LISTED];   /* the first of them, by their numbers */
    uint64_t differing_byte; /* the address of the first byte of data that differs at the end, or 0 */
    char stop[16];           /* how it stopped, and at which trial; "Ending" where it came to the end */
    size_t stopped_at;
};

/* Lets the program run all trials of the run; `trials` tells the order of the questions. */
void judge_run(const struct tool *tool, const struct run *run, const struct trial *trials, size_t count,
               struct findings *findings);

/* Puts what the world answers: to each trial that leaves flags undefined, them as the processor left them, and all else
   wrong; to one that asks for all, what it changed on the processor. */
void put_questions(FILE *world, const struct run *run, const struct trial *trials, size_t count);

/* Spoils what is expected of one trial in one bit, so that a run that finds nothing is no evidence. */
void spoil(size_t number);
#endif
