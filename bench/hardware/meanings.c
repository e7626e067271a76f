/* Compares what exact instructions do: on the processor, and by the program.
   Usage: meanings E9TOOL SEED COUNT [JOBS [MUTANT]] */
#include "bulk.h"

static enum ran run_exact(const struct form *form, struct trial *trial, const struct run *run) {
    (void)form;
    return run_trial(trial, run) ? WENT_ON : FAULTED;
}

int main(int count, char **words) {
    struct kind exact = { "exact", all_forms, run_exact, 0 };
    struct order order = read_order(count, words);
    return compare_in_bulk(&order, &exact);
}
