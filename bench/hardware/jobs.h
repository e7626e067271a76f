/* Work that is shared among processes. */
#ifndef JOBS_H
#define JOBS_H
#include <stdint.h>

enum { JOBS_MOST = 64 };

/* What all jobs are told. */
struct order {
    const char *program; /* the proved program's path */
    uint64_t seed, count;
    unsigned jobs;
    const char *mutant; /* "" for none */
};

/* Reads E9TOOL SEED COUNT [JOBS [MUTANT]], or tells the usage and ends the program. */
struct order read_order(int count, char **words);

/* The part of the order's count that a job does: from the first up to the second. */
uint64_t first_of(const struct order *order, unsigned job);

/* Whether the job is to end where it stands: SIGTERM asks it, so `timeout` ends a run that then tells what it has done.
 */
int is_stopping(void);

/* Runs the work in as many processes as the order says, and answers how many of them failed. */
unsigned run_jobs(const struct order *order, void (*work)(const struct order *order, unsigned job));
#endif
