/* Compares lengths of instructions: how many bytes the processor takes for a sequence, and how many the program.
   Usage: lengths E9TOOL SEED COUNT [JOBS [MUTANT]] */
#include <stdio.h>
#include <string.h>

#include "draws.h"
#include "jobs.h"
#include "probes.h"
#include "refused.h"
#include "rules.h"
#include "sequences.h"
#include "sift.h"

enum { DRAWN_AT_ONCE = 30000, TOLD_AT_ONCE = PROBED_AT_ONCE / 8, DIFFERENCES = 256 };
enum { REFUSED_LONG = 1000000, REFUSED_FEW = 200, REFUSED_MANY = 4000 }; /* how many of the refused are stepped over */

/* A difference: sequences of one kind, opcode and map, and the shortest of them. */
struct difference {
    struct sequence shortest;
    uint8_t model;
    uint64_t count;
};

/* What a job has counted; in memory that it shares with the parent. */
struct tally {
    uint64_t by_verdict[MAPS][VERDICTS], known[MAPS][VERDICTS], by_length[LONGEST + 1], by_rule[RULES];
    uint64_t agreed, lengthened, differing, differences, refused[REFUSED_KINDS];
    struct difference all[DIFFERENCES];
};

static struct tally *tallies; /* one for each job */

static void note_difference(struct tally *tally, const struct sequence *it, uint8_t model) {
    struct difference *row = tally->all, *end = row + tally->differences;
    tally->differing++;
    while (row < end && !(row->shortest.map == it->map && row->shortest.opcode == it->opcode &&
                          row->shortest.verdict == it->verdict && (row->model == UNKNOWN) == (model == UNKNOWN)))
        row++;
    if (row == end) {
        if (tally->differences == DIFFERENCES)
            return;
        tally->differences++;
        *row = (struct difference){ *it, model, 0 };
    }
    row->count++;
    if (it->length < row->shortest.length)
        row->shortest = *it, row->model = model;
}

/* A processor that is wrong on purpose, to show that it is found: BT (0F A3) is a byte longer. */
static void mutate(struct sequence *all, size_t count) {
    for (size_t one = 0; one < count; one++)
        if (all[one].map == 1 && all[one].opcode == 0xa3 && all[one].length > 0 && all[one].length < LONGEST)
            all[one].length++;
}

static size_t draw_batch(const struct order *order, uint64_t number, size_t wanted, struct sequence *all,
                         struct tally *tally) {
    size_t drawn = wanted < DRAWN_AT_ONCE ? wanted : DRAWN_AT_ONCE, count = drawn;
    for (size_t one = 0; one < drawn; one++)
        draw_sequence(order->seed, number + one, &all[one]);
    sift_all(all, drawn);
    seed_draws(order->seed, ~number);
    for (size_t one = 0; one < drawn && count < PROBED_AT_ONCE; one++)
        if (all[one].length > 0 && below(8) == 0)
            lengthen(&all[one], &all[count++]);
    sift_all(all + drawn, count - drawn);
    tally->lengthened += count - drawn;
    if (!strcmp(order->mutant, "length"))
        mutate(all, count);
    return count;
}

/* An undefined opcode may have the processor fetch more bytes than the program does: without prefixes it is refused. */
static int is_undefined(const struct sequence *it, struct sequence *room) {
    shorten(it, room);
    sift_all(room, 1);
    return room->verdict == UNDEFINED;
}

/* Those that the processor has a length for, and the program another one or none. */
static void judge_differing(const struct tool *tool, const struct sequence *all, size_t count, struct sequence *room,
                            struct tally *tally) {
    static uint8_t lengths[TOLD_AT_ONCE];
    for (size_t from = 0; from < count; from += TOLD_AT_ONCE) {
        size_t some = count - from < TOLD_AT_ONCE ? count - from : TOLD_AT_ONCE;
        tell_lengths(tool, all + from, some, lengths);
        for (size_t one = 0; one < some; one++) {
            const struct sequence *it = &all[from + one];
            enum rule rule = lengths[one] == UNKNOWN ? rule_of(it) : NO_RULE;
            if (it->verdict == TOO_LONG && is_undefined(it, room))
                rule = LONG_AND_UNDEFINED;
            if (rule == NO_RULE)
                note_difference(tally, it, lengths[one]);
            else
                tally->by_rule[rule]++;
        }
    }
}

static void judge_batch(const struct tool *tool, struct sequence *all, size_t count, struct tally *tally) {
    static uint8_t agrees[PROBED_AT_ONCE];
    static struct sequence differing[PROBED_AT_ONCE];
    size_t differs = 0;
    probe_lengths(tool, all, count, agrees);
    for (size_t one = 0; one < count; one++) {
        const struct sequence *it = &all[one];
        tally->by_verdict[it->map][it->verdict]++;
        if (it->length > 0 && agrees[one]) {
            tally->known[it->map][it->verdict]++;
            tally->agreed++;
            tally->by_length[it->length]++;
        } else if (it->length > 0) {
            differing[differs++] = *it;
        } else if (!agrees[one] && it->verdict == UNDEFINED) {
            tally->known[it->map][UNDEFINED]++;
            keep_refused(it);
        } else if (!agrees[one] && it->verdict == TOO_LONG) {
            differing[differs++] = *it;
        }
    }
    judge_differing(tool, differing, differs, all, tally);
}

static void work(const struct order *order, unsigned job) {
    struct sequence *all = shared_room(PROBED_AT_ONCE * sizeof *all);
    struct tally *tally = &tallies[job];
    uint64_t end = first_of(order, job + 1);
    struct tool tool;
    make_folder(&tool, order->program);
    for (uint64_t number = first_of(order, job); number < end && !is_stopping();) {
        size_t left = end - number < DRAWN_AT_ONCE ? (size_t)(end - number) : DRAWN_AT_ONCE;
        size_t count = draw_batch(order, number, left, all, tally);
        judge_batch(&tool, all, count, tally);
        number += left;
    }
    judge_refused(&tool, order->count < REFUSED_LONG ? REFUSED_FEW : REFUSED_MANY, tally->refused);
    remove_folder(&tool);
}

static void add_up(struct tally *sum, const struct tally *one) {
    for (int map = 0; map < MAPS; map++)
        for (int verdict = 0; verdict < VERDICTS; verdict++) {
            sum->by_verdict[map][verdict] += one->by_verdict[map][verdict];
            sum->known[map][verdict] += one->known[map][verdict];
        }
    for (int at = 0; at <= LONGEST; at++)
        sum->by_length[at] += one->by_length[at];
    for (int at = 0; at < RULES; at++)
        sum->by_rule[at] += one->by_rule[at];
    for (int at = 0; at < REFUSED_KINDS; at++)
        sum->refused[at] += one->refused[at];
    sum->agreed += one->agreed;
    sum->lengthened += one->lengthened;
    sum->differing += one->differing;
}

static void print_difference(const struct difference *row) {
    printf("difference: %s %02x, %s, %llu times; the processor %d bytes, the program ", MAP_NAMES[row->shortest.map],
           row->shortest.opcode, VERDICT_NAMES[row->shortest.verdict], (unsigned long long)row->count,
           row->shortest.length);
    printf(row->model == UNKNOWN ? "none:" : "%d:", row->model);
    int size = row->shortest.length > row->model ? row->shortest.length : row->model;
    for (int at = 0; at < (size ? size : LONGEST); at++)
        printf(" %02x", row->shortest.bytes[at]);
    printf("\n");
}

static void print_table(const struct tally *sum) {
    uint64_t total = 0;
    printf("%-10s", "map");
    for (int verdict = 0; verdict < VERDICTS; verdict++)
        printf("%12s", VERDICT_NAMES[verdict]);
    printf("%12s%12s\n", "agree", "refused"); /* of the undefined those that the program knows */
    for (int map = 0; map < MAPS; map++) {
        printf("%-10s", MAP_NAMES[map]);
        uint64_t agreed = 0;
        for (int verdict = 0; verdict < VERDICTS; verdict++) {
            printf("%12llu", (unsigned long long)sum->by_verdict[map][verdict]);
            total += sum->by_verdict[map][verdict];
            agreed += verdict == UNDEFINED ? 0 : sum->known[map][verdict];
        }
        printf("%12llu%12llu\n", (unsigned long long)agreed, (unsigned long long)sum->known[map][UNDEFINED]);
    }
    printf("sequences %llu, of which %llu lengthened by prefixes\n", (unsigned long long)total,
           (unsigned long long)sum->lengthened);
    printf("lengths that agree %llu:", (unsigned long long)sum->agreed);
    for (int at = 1; at <= LONGEST; at++)
        printf(" %d:%llu", at, (unsigned long long)sum->by_length[at]);
    printf("\n");
    for (int rule = 1; rule < RULES; rule++)
        printf("unknown by rule %llu: %s\n", (unsigned long long)sum->by_rule[rule], RULE_NAMES[rule]);
    for (int kind = 0; kind < REFUSED_KINDS; kind++)
        printf("refused by the processor, kinds that the program %s: %llu\n", REFUSED_NAMES[kind],
               (unsigned long long)sum->refused[kind]);
    printf("differences %llu\n", (unsigned long long)sum->differing);
}

int main(int count, char **words) {
    struct order order = read_order(count, words);
    static struct tally sum;
    tallies = shared_room(order.jobs * sizeof *tallies);
    unsigned failed = run_jobs(&order, work);
    for (unsigned job = 0; job < order.jobs; job++) {
        add_up(&sum, &tallies[job]);
        for (uint64_t row = 0; row < tallies[job].differences; row++)
            print_difference(&tallies[job].all[row]);
    }
    print_table(&sum);
    return failed ? 2 : sum.differing > 0 || sum.refused[REFUSED_EXACT] > 0;
}
