/* Thousands of trials in a run: on the processor, and then by the program. */
#ifndef BULK_H
#define BULK_H
#include "forms.h"
#include "guest.h"
#include "jobs.h"

/* What became of a trial on the processor. */
enum ran { WENT_ON, FAULTED, DIFFERED };

/* A kind of trials: the forms that are drawn in turn, and what runs one on the processor. */
struct kind {
    const char *name;
    const struct form *(*forms)(size_t *count);
    enum ran (*run)(const struct form *form, struct trial *trial, const struct run *run);
    int may_fault; /* faults are counted, and are no difference */
};

/* Runs the order's count of trials, prints what differs and a summary, and answers the status: 0, 1 where something
   differs, 2 where a job has failed. */
int compare_in_bulk(const struct order *order, const struct kind *kind);

void print_trial(const struct form *form, const struct trial *it, const char *what);
#endif
