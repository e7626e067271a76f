#include "bulk.h"

#include <stdio.h>
#include <string.h>

#include "draws.h"
#include "instructions.h"
#include "mutants.h"
#include "native.h"
#include "sift.h"

enum { SHOWN = 20 };

struct tally {
    uint64_t by_form[FORMS_MOST], with_undefined, landed, faulted, differing, runs, unspoilt;
};

static struct tally *tallies; /* one for each job */
static const struct kind *kind;

void print_trial(const struct form *form, const struct trial *it, const char *what) {
    printf("difference: %s %d %s:", form->name, form->bits, what);
    for (int at = 0; at < it->size; at++)
        printf(" %02x", it->code[at]);
    printf(" at %llx, flags %llx", (unsigned long long)it->rip, (unsigned long long)it->flags);
    printf(", on the processor %llx\n", (unsigned long long)it->flags_after);
    for (int reg = 0; reg < 16; reg++)
        if (it->regs[reg] != it->regs_after[reg])
            printf("  r%d %llx, on the processor %llx\n", reg, (unsigned long long)it->regs[reg],
                   (unsigned long long)it->regs_after[reg]);
}

static void print_fault(const struct form *form, const struct trial *it) {
    print_trial(form, it, "faults");
    printf("  exception %d at %llx for %llx\n", last_fault()->trap, (unsigned long long)last_fault()->rip,
           (unsigned long long)last_fault()->address);
}

static void draw_run(struct run *run) {
    run->goes_down = (int)below(2);
    run->fs = below(3) ? below(0x400000) : draw() >> 18;
    run->gs = below(3) ? below(0x400000) : draw() >> 18;
}

static size_t make_run(const struct run *run, size_t first, size_t wanted, struct trial *trials, struct tally *tally) {
    size_t forms, count = 0;
    const struct form *all = kind->forms(&forms);
    begin_run();
    for (size_t one = 0; one < wanted; one++) {
        struct trial *it = &trials[count];
        it->form = (unsigned)((first + one) % forms);
        draw_trial(&all[it->form], run, it);
        enum ran ran = kind->run(&all[it->form], it, run);
        tally->faulted += ran == FAULTED;
        tally->differing += ran == DIFFERED;
        if (ran == FAULTED && !kind->may_fault)
            print_fault(&all[it->form], it);
        if (ran != WENT_ON)
            continue;
        mutate(&all[it->form], it, count);
        tally->by_form[it->form]++;
        tally->with_undefined += it->undefined != 0;
        tally->landed += it->landed != 0;
        count++;
    }
    return count;
}

/* One trial of each run is spoilt, and has to be found. */
static void judge(const struct tool *tool, const struct run *run, const struct trial *trials, size_t count,
                  struct tally *tally) {
    struct findings findings;
    size_t spoilt = below(count), forms;
    int is_found = 0;
    const struct form *all = kind->forms(&forms);
    spoil(spoilt);
    judge_run(tool, run, trials, count, &findings);
    tally->runs++;
    if (strcmp(findings.stop, "Ending")) {
        size_t at = findings.stopped_at < count ? findings.stopped_at : 0;
        tally->differing++;
        printf("stop %s at trial %zu\n", findings.stop, findings.stopped_at);
        print_trial(&all[trials[at].form], &trials[at], "stops the program");
        return;
    }
    for (size_t one = 0; one < LISTED && one < findings.differing; one++) {
        size_t number = findings.listed[one];
        is_found |= number == spoilt;
        if (number != spoilt && tally->differing++ < SHOWN)
            print_trial(&all[trials[number].form], &trials[number], "differs");
    }
    if (findings.differing > LISTED)
        tally->differing += findings.differing - LISTED;
    else if (!is_found)
        tally->unspoilt++, printf("trial %zu was spoilt, and isn't found\n", spoilt);
    if (findings.differing_byte)
        tally->differing++, printf("difference: memory at %llx\n", (unsigned long long)findings.differing_byte);
}

static void work(const struct order *order, unsigned job) {
    static struct trial trials[TRIALS_MOST];
    uint64_t end = first_of(order, job + 1);
    struct tool tool;
    make_folder(&tool, order->program);
    set_mutant(order->mutant);
    map_guest();
    seed_draws(order->seed, job);
    for (uint64_t done = first_of(order, job); done < end && !is_stopping();) {
        struct run run = { .is_wild = 0 };
        size_t wanted = end - done < TRIALS_MOST ? (size_t)(end - done) : TRIALS_MOST;
        draw_run(&run);
        size_t count = make_run(&run, (size_t)done, wanted, trials, &tallies[job]);
        if (count > 0)
            judge(&tool, &run, trials, count, &tallies[job]);
        done += wanted;
    }
    remove_folder(&tool);
}

static struct tally sum_of(unsigned jobs) {
    static struct tally sum;
    for (unsigned job = 0; job < jobs; job++) {
        for (size_t form = 0; form < FORMS_MOST; form++)
            sum.by_form[form] += tallies[job].by_form[form];
        sum.with_undefined += tallies[job].with_undefined;
        sum.landed += tallies[job].landed;
        sum.faulted += tallies[job].faulted;
        sum.differing += tallies[job].differing;
        sum.runs += tallies[job].runs;
        sum.unspoilt += tallies[job].unspoilt;
    }
    return sum;
}

static int print_sum(const struct tally *sum) {
    size_t forms;
    uint64_t total = 0, least = (uint64_t)-1;
    kind->forms(&forms);
    for (size_t form = 0; form < forms; form++) {
        total += sum->by_form[form];
        least = sum->by_form[form] < least ? sum->by_form[form] : least;
    }
    printf("%s instructions %llu, of %zu forms, each at least %llu times; %llu with undefined flags, %llu branches "
           "taken\n",
           kind->name, (unsigned long long)total, forms, (unsigned long long)least,
           (unsigned long long)sum->with_undefined, (unsigned long long)sum->landed);
    printf("runs %llu, in each of them one spoilt trial: %llu not found\n", (unsigned long long)sum->runs,
           (unsigned long long)sum->unspoilt);
    printf("differences %llu, faults %llu\n", (unsigned long long)sum->differing, (unsigned long long)sum->faulted);
    return sum->differing + (kind->may_fault ? 0 : sum->faulted) + sum->unspoilt > 0;
}

int compare_in_bulk(const struct order *order, const struct kind *of) {
    kind = of;
    tallies = shared_room(order->jobs * sizeof *tallies);
    unsigned failed = run_jobs(order, work);
    struct tally sum = sum_of(order->jobs);
    int differs = print_sum(&sum);
    return failed ? 2 : differs;
}
