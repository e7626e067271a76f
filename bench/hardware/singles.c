/* Compares single steps of exact instructions whose operands and targets may be anywhere: across pages that can't be
   read or written, at addresses that aren't canonical. What the processor does or faults with, and what the program
   does. Usage: singles E9TOOL SEED COUNT [JOBS] */
#include <elf.h>
#include <stdio.h>
#include <stdlib.h>
#include <string.h>
#include <sys/mman.h>

#include "draws.h"
#include "guest.h"
#include "instructions.h"
#include "jobs.h"
#include "native.h"
#include "sift.h"
#include "worlds.h"

enum { PAGE = 4096, SHOWN = 20 };

/* What became of a trial on the processor: it was made, or it faulted for a page or for protection. */
enum outcome { MADE, FOR_A_PAGE, FOR_PROTECTION, OUTCOMES };

/* Differences that are so by design: two operands may fault, and each side looks for them in its own order; a branch to
   an address that isn't canonical faults on the processor, and is made by the program, which faults at the next step.
 */
enum agreement { AGREES, OTHER_ORDER, FAR_TARGET, DIFFERS, AGREEMENTS };

static const char *const AGREEMENT_NAMES[AGREEMENTS] = { "agree", "name the other of two faults",
                                                         "branch to no canonical address", "differ" };

struct tally {
    uint64_t counts[OUTCOMES][AGREEMENTS], shown;
};

static struct tally *tallies; /* one for each job */

static uint8_t pages[WILD_PAGES * PAGE];

static int flags_of(int page) { return page == 2 ? 0 : page % 3 == 0 ? PF_R | PF_W : PF_R; }

/* Words that are often landings or canonical, so that a branch may go there. */
static void map_wild(void) {
    for (size_t at = 0; at < sizeof pages; at += 8) {
        uint64_t word = below(3) ? (uint64_t)((int64_t)draw() >> 17) : far_landing();
        memcpy(pages + at, &word, 8);
    }
    for (int page = 0; page < WILD_PAGES; page++) {
        void *at = (void *)(WILD + (uint64_t)PAGE * (unsigned)page);
        if (mmap(at, PAGE, PROT_READ | PROT_WRITE, MAP_PRIVATE | MAP_ANONYMOUS | MAP_FIXED_NOREPLACE, -1, 0) != at) {
            perror("hardware: mmap");
            exit(2);
        }
        memcpy(at, pages + PAGE * page, PAGE);
        if (mprotect(at, PAGE, (flags_of(page) & PF_R ? PROT_READ : 0) | (flags_of(page) & PF_W ? PROT_WRITE : 0))) {
            perror("hardware: mprotect");
            exit(2);
        }
    }
}

/* Gives the pages back what they held, and answers whether they had changed. */
static int restore_wild(void) {
    int changed = 0;
    for (int page = 0; page < WILD_PAGES; page++) {
        void *at = (void *)(WILD + (uint64_t)PAGE * (unsigned)page);
        if (!(flags_of(page) & PF_W) || !memcmp(at, pages + PAGE * page, PAGE))
            continue;
        memcpy(at, pages + PAGE * page, PAGE);
        changed = 1;
    }
    return changed;
}

/* Runs the trial on the processor. A branch is made where its target faults. */
static enum outcome run_it(struct trial *it, const struct run *run, uint64_t *rip_after) {
    begin_run();
    if (run_trial(it, run)) {
        *rip_after = it->landed ? it->landed * LANDING : it->rip + (uint64_t)it->size;
        return MADE;
    }
    const struct fault *fault = last_fault();
    *rip_after = fault->rip;
    memcpy(it->regs_after, fault->regs, sizeof it->regs_after);
    it->flags_after = fault->flags;
    if (fault->rip != it->rip && fault->is_fetch)
        return MADE;
    return fault->trap == 14 ? FOR_A_PAGE : FOR_PROTECTION;
}

static void write_single(const struct tool *tool, const struct run *run, const struct trial *it, enum outcome outcome) {
    struct segment all[1 + WILD_PAGES] = { { SLOTS, PF_R | PF_X, (void *)SLOTS, SLOT } };
    struct state state = { .flags = 0x202 | it->flags | (run->goes_down ? 0x400 : 0), .fs = run->fs, .gs = run->gs };
    size_t count = 1;
    for (int page = 0; page < WILD_PAGES; page++)
        if (flags_of(page))
            all[count++] = (struct segment){ WILD + (uint64_t)PAGE * (unsigned)page, (uint64_t)flags_of(page),
                                             pages + PAGE * page, PAGE };
    memcpy(state.regs, it->regs, sizeof state.regs);
    write_program(tool, "FILE", it->rip, all, count);
    close_written(open_in(tool, "STARTS", "w"));
    FILE *world = begin_world(tool, &state);
    if (outcome == MADE)
        put_questions(world, run, it, 1);
    end_world(world);
}

static int same_state(const struct trial *it, const struct ending *end, uint64_t rip_after) {
    return !memcmp(it->regs_after, end->state.regs, sizeof it->regs_after) && end->state.rip == rip_after &&
           (end->state.flags & SIX) == it->flags_after;
}

static int is_canonical(uint64_t address) { return (uint64_t)((int64_t)(address << 16) >> 16) == address; }

/* Whether the instruction has two operands in memory: the named one, and the stack. */
static int has_two(const struct form *form) {
    return form->in_memory && (strchr(form->also, 'p') || strchr(form->also, 's'));
}

/* An operand that is read and written, from a page that can only be read on to one that isn't there: the processor
   faults for the write into the first, the program tells the byte of the second, since it looks for all that is read
   before. */
static int reads_on(uint64_t lacking, uint64_t faulting) {
    uint64_t page = (faulting - WILD) / PAGE;
    return page < WILD_PAGES && flags_of((int)page) == PF_R && lacking % PAGE == 0 && lacking - faulting < 8;
}

static enum agreement compare(const struct form *form, const struct trial *it, enum outcome outcome, uint64_t rip_after,
                              const struct ending *end) {
    int is_made = !strcmp(end->stop, "none") && end->steps == 1, lacks = !strcmp(end->stop, "NoByte");
    if (outcome == MADE)
        return is_made && same_state(it, end, rip_after) ? AGREES : DIFFERS;
    int stays = end->steps == 0 && !memcmp(it->regs, end->state.regs, sizeof it->regs) && end->state.rip == it->rip;
    int kept =
        !memcmp(it->regs, it->regs_after, sizeof it->regs) && it->flags == it->flags_after && rip_after == it->rip;
    if (outcome == FOR_PROTECTION && is_made && form->is_branch && !is_canonical(end->state.rip))
        return kept ? FAR_TARGET : DIFFERS;
    if (!lacks || !stays || !kept)
        return DIFFERS;
    if (outcome == FOR_A_PAGE && end->at / PAGE == last_fault()->address / PAGE)
        return AGREES;
    if (outcome == FOR_PROTECTION && (!is_canonical(end->at) || end->at + 7 < end->at))
        return AGREES;
    return has_two(form) || (outcome == FOR_A_PAGE && reads_on(end->at, last_fault()->address)) ? OTHER_ORDER : DIFFERS;
}

static void show(const struct form *form, const struct trial *it, enum outcome outcome, const struct ending *end) {
    printf("difference: %s %d:", form->name, form->bits);
    for (int at = 0; at < it->size; at++)
        printf(" %02x", it->code[at]);
    printf(" at %llx: the processor ", (unsigned long long)it->rip);
    if (outcome == MADE)
        printf("makes it");
    else
        printf("faults (%d) for %llx", last_fault()->trap, (unsigned long long)last_fault()->address);
    printf("; the program stops %s %llx, rip %llx\n", end->stop, (unsigned long long)end->at,
           (unsigned long long)end->state.rip);
    for (int reg = 0; reg < 16; reg++)
        if (it->regs_after[reg] != end->state.regs[reg])
            printf("  r%d %llx, on the processor %llx, by the program %llx\n", reg, (unsigned long long)it->regs[reg],
                   (unsigned long long)it->regs_after[reg], (unsigned long long)end->state.regs[reg]);
}

static void try_one(const struct tool *tool, const struct form *form, struct tally *tally) {
    static const char *const words[] = { "step", "@FILE", "@STARTS", "@WORLD", "1", NULL };
    struct run run = { below(3) ? below(0x400000) : draw() >> 18, below(3) ? below(0x400000) : draw() >> 18,
                       (int)below(2), 1 };
    struct trial it = { .form = 0 };
    struct ending end;
    char printed[4096];
    uint64_t rip_after;
    begin_run();
    draw_trial(form, &run, &it);
    enum outcome outcome = run_it(&it, &run, &rip_after);
    int wrote = restore_wild();
    write_single(tool, &run, &it, outcome);
    call_tool(tool, words, printed, sizeof printed);
    read_ending(printed, &end);
    enum agreement agreement = compare(form, &it, outcome, rip_after, &end);
    if (wrote && outcome != MADE && agreement != FAR_TARGET) /* a call may have pushed before it looks at its target */
        agreement = DIFFERS;
    tally->counts[outcome][agreement]++;
    if (agreement == DIFFERS && tally->shown++ < SHOWN)
        show(form, &it, outcome, &end);
}

/* The forms that touch memory or branch. */
static size_t bearing_forms(const struct form **bearing) {
    size_t forms, count = 0;
    const struct form *all = all_forms(&forms);
    for (size_t form = 0; form < forms; form++)
        if (all[form].in_memory || all[form].is_branch || strpbrk(all[form].also, "psb"))
            bearing[count++] = &all[form];
    return count;
}

static void work(const struct order *order, unsigned job) {
    static const struct form *bearing[FORMS_MOST];
    struct tool tool;
    size_t forms = bearing_forms(bearing);
    make_folder(&tool, order->program);
    map_guest();
    seed_draws(order->seed, ~(uint64_t)job);
    begin_run();
    map_wild();
    for (uint64_t one = first_of(order, job); one < first_of(order, job + 1) && !is_stopping(); one++)
        try_one(&tool, bearing[below(forms)], &tallies[job]);
    remove_folder(&tool);
}

static int print_sum(unsigned jobs) {
    static const char *const names[OUTCOMES] = { "made", "page fault", "protection fault" };
    int differs = 0;
    printf("%-18s", "single steps");
    for (int agreement = 0; agreement < AGREEMENTS; agreement++)
        printf("%32s", AGREEMENT_NAMES[agreement]);
    printf("\n");
    for (int outcome = 0; outcome < OUTCOMES; outcome++) {
        printf("%-18s", names[outcome]);
        for (int agreement = 0; agreement < AGREEMENTS; agreement++) {
            uint64_t sum = 0;
            for (unsigned job = 0; job < jobs; job++)
                sum += tallies[job].counts[outcome][agreement];
            printf("%32llu", (unsigned long long)sum);
            differs |= agreement == DIFFERS && sum > 0;
        }
        printf("\n");
    }
    return differs;
}

int main(int count, char **words) {
    struct order order = read_order(count, words);
    tallies = shared_room(order.jobs * sizeof *tallies);
    unsigned failed = run_jobs(&order, work);
    int differs = print_sum(order.jobs);
    return failed ? 2 : differs;
}
