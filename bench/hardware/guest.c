#define _GNU_SOURCE
#include "guest.h"

#include <elf.h>
#include <stdlib.h>
#include <string.h>
#include <sys/mman.h>

#include "draws.h"
#include "harness.h"
#include "native.h"
#include "worlds.h"

/* The native side: the guest's memory in this process. */
static struct entry *const table = (struct entry *)TABLE;
static struct variables *const area = (struct variables *)AREA;
static size_t laid;              /* how many trials stand in the table */
static uint8_t first[2 * SPACE]; /* the data before the first trial, of both spaces */

static void map_at(uint64_t address, size_t size, int permissions) {
    void *got = mmap((void *)address, size, permissions, MAP_PRIVATE | MAP_ANONYMOUS | MAP_FIXED_NOREPLACE, -1, 0);
    if (got != (void *)address) {
        fprintf(stderr, "hardware: no memory at %llx\n", (unsigned long long)address);
        exit(2);
    }
}

void map_guest(void) {
    map_at(HARNESS, SLOTS - HARNESS + (size_t)SLOT * (TRIALS_MOST + 1), PROT_READ | PROT_WRITE | PROT_EXEC);
    map_at(TABLE, sizeof(struct entry) * (TRIALS_MOST + 1), PROT_READ | PROT_WRITE);
    map_at(AREA, sizeof(struct variables), PROT_READ | PROT_WRITE);
    map_at(DATA, SPACE, PROT_READ | PROT_WRITE);
    map_at(HIGH, SPACE, PROT_READ | PROT_WRITE);
    lay_harness((uint8_t *)HARNESS, (uint8_t *)LANDINGS);
    catch_faults();
}

void take_data(uint8_t *to) {
    memcpy(to, (void *)DATA, SPACE);
    memcpy(to + SPACE, (void *)HIGH, SPACE);
}

void put_data(const uint8_t *from) {
    memcpy((void *)DATA, from, SPACE);
    memcpy((void *)HIGH, from + SPACE, SPACE);
}

void begin_run(void) {
    for (size_t at = 0; at < sizeof first; at += 8) {
        uint64_t word = value();
        memcpy(first + at, &word, 8);
    }
    put_data(first);
    memset(area, 0, sizeof *area);
    laid = 0;
}

static uint64_t slot_of(size_t number) { return SLOTS + (uint64_t)SLOT * number; }

uint64_t next_rip(int size) {
    return slot_of(laid) + LANDING + below((uint64_t)(SLOT - 2 * LANDING - JUMP - size + 1));
}

static int is_near(uint64_t landing, uint64_t next) {
    int64_t far = (int64_t)(landing - next);
    return far >= -128 && far <= 127;
}

/* The landings of this slot and of those beside it; those behind it aren't laid yet. */
uint64_t near_landing(uint64_t next) {
    uint64_t slot = slot_of(laid), all[] = { slot, slot + SLOT - LANDING, slot - SLOT, slot - LANDING };
    for (;;) {
        uint64_t one = all[below(laid > 0 ? 4 : 2)];
        if (is_near(one, next))
            return one;
    }
}

uint64_t far_landing(void) {
    return below(4) || laid == 0 ? LANDINGS + LANDING * below(LANDINGS_COUNT)
                                 : slot_of(below(laid)) + (below(2) ? SLOT - LANDING : 0);
}

static void lay_slot(size_t number, const struct trial *trial) {
    uint8_t *slot = (uint8_t *)slot_of(number), *code = (uint8_t *)trial->rip;
    memset(slot, 0xf4, SLOT);
    lay_landing(slot);
    lay_landing(slot + SLOT - LANDING);
    memcpy(code, trial->code, (size_t)trial->size);
    lay_jump_to_save(code + trial->size);
}

static void lay_entry(struct entry *entry, const struct trial *trial) {
    memset(entry, 0, sizeof *entry);
    entry->flags = to_kept(trial->flags);
    for (int reg = 0; reg < 16; reg++)
        *before_of(entry, reg) = trial->regs[reg];
    entry->rip = trial->rip;
    for (int one = 0; one < PLACES; one++) {
        entry->places[one] = trial->places[one];
        if (!entry->places[one].address)
            entry->places[one].address = AREA + offsetof(struct variables, scratch);
    }
}

/* Keeps what the places hold, or gives it back. */
static void keep_places(const struct entry *entry, uint64_t *kept, int gives_back) {
    for (int one = 0; one < PLACES; one++) {
        void *place = (void *)entry->places[one].address;
        memcpy(gives_back ? place : &kept[one], gives_back ? &kept[one] : place, 8);
    }
}

static void take_outcome(struct trial *trial) {
    memcpy(trial->regs_after, area->regs, sizeof trial->regs_after);
    trial->flags_after = from_kept(area->flags);
    trial->landed = area->landed;
}

int run_trial(struct trial *trial, const struct run *run) {
    struct entry *entry = &table[laid];
    uint64_t kept[PLACES];
    lay_slot(laid, trial);
    lay_entry(entry, trial);
    keep_places(entry, kept, 0);
    area->current = (uint64_t)entry;
    if (!run_native(run)) {
        keep_places(entry, kept, 1);
        return 0;
    }
    take_outcome(trial);
    memcpy(entry->regs_after, area->regs, sizeof entry->regs_after);
    entry->flags_after = area->flags;
    entry->landed = area->landed;
    for (int one = 0; one < PLACES; one++) {
        memcpy(&entry->places[one].after, (void *)entry->places[one].address, 8);
        trial->places[one].after = entry->places[one].after;
    }
    laid++;
    return 1;
}

void take_back_trial(void) { laid--; }

int run_elsewhere(struct trial *trial, const struct run *run) {
    struct entry *entry = &table[TRIALS_MOST];
    trial->rip = slot_of(TRIALS_MOST) + LANDING + below((uint64_t)(SLOT - 2 * LANDING - JUMP - trial->size + 1));
    if (trial->rip_at) {
        uint64_t distance = trial->named - trial->rip - (uint64_t)trial->size;
        memcpy(trial->code + trial->rip_at, &distance, 4);
    }
    lay_slot(TRIALS_MOST, trial);
    lay_entry(entry, trial);
    area->current = (uint64_t)entry;
    if (!run_native(run))
        return 0;
    take_outcome(trial);
    return 1;
}

void spoil(size_t number) {
    static const uint64_t kept[] = { 0x100, 0x400, 0x1000, 0x4000, 0x8000, 1 };
    uint64_t bit = (uint64_t)1 << below(64);
    struct entry *entry = &table[number];
    switch (below(6)) {
    case 0:
        entry->flags_after ^= kept[below(6)];
        break;
    case 1:
        entry->landed ^= bit;
        break;
    case 2:
        entry->places[below(PLACES)].after ^= bit;
        break;
    default:
        entry->regs_after[below(16)] ^= bit;
    }
}

/* Of the answer to an exact instruction the undefined flags alone may count: all else in it is wrong. */
static void put_undefined(FILE *world, const struct trial *it) {
    put_given(world, "rax", ~it->regs_after[RAX]);
    put_given(world, "flags", (it->flags_after & it->undefined) | (~it->flags_after & SIX & ~it->undefined) | 2);
}

static void put_answer(FILE *world, const struct run *run, const struct trial *it) {
    for (int reg = 0; reg < 16; reg++)
        if (it->regs[reg] != it->regs_after[reg])
            put_given(world, REGISTER_NAMES[reg], it->regs_after[reg]);
    put_given(world, "flags", 0x202 | it->flags_after | (run->goes_down ? 0x400 : 0));
    if (it->written.size > 0)
        put_written(world, it->written.address, it->written.bytes, (size_t)it->written.size);
}

void put_questions(FILE *world, const struct run *run, const struct trial *trials, size_t count) {
    for (size_t one = 0; one < count; one++) {
        const struct trial *it = &trials[one];
        uint8_t asked[CODE_MOST];
        if (!it->undefined && !it->is_asked)
            continue;
        memcpy(asked, it->code, CODE_MOST);
        if (it->rip_at)
            memset(asked + it->rip_at, 0, 4);
        put_question(world, asked, (size_t)it->size, it->rip_at ? &it->named : NULL);
        if (it->is_asked)
            put_answer(world, run, it);
        else
            put_undefined(world, it);
    }
}

static void write_run(const struct tool *tool, const struct run *run, const struct trial *trials, size_t count) {
    static uint8_t expected[2 * SPACE];
    struct variables start = { .current = TABLE, .ret = (uint64_t)check_at(), .end = (uint64_t)&table[count] };
    struct segment all[] = { { HARNESS, PF_R | PF_X, (void *)HARNESS, SLOTS - HARNESS + SLOT * count },
                             { TABLE, PF_R | PF_W, table, sizeof(struct entry) * (count + 1) },
                             { AREA, PF_R | PF_W, &start, sizeof start },
                             { DATA, PF_R | PF_W, first, SPACE },
                             { EXPECTED, PF_R, expected, sizeof expected } };
    struct state state = { .flags = 0x202 | (run->goes_down ? 0x400 : 0), .fs = run->fs, .gs = run->gs };
    take_data(expected);
    write_program(tool, "FILE", HARNESS, all, sizeof all / sizeof *all);
    close_written(open_in(tool, "STARTS", "w"));
    FILE *world = begin_world(tool, &state);
    put_region(world, HIGH, first + SPACE, SPACE, "rw-");
    put_questions(world, run, trials, count);
    end_world(world);
}

void judge_run(const struct tool *tool, const struct run *run, const struct trial *trials, size_t count,
               struct findings *findings) {
    static const char *const words[] = { "step", "@FILE", "@STARTS", "@WORLD", "10000000", NULL };
    char printed[4096];
    struct ending end;
    write_run(tool, run, trials, count);
    call_tool(tool, words, printed, sizeof printed);
    read_ending(printed, &end);
    memset(findings, 0, sizeof *findings);
    memcpy(findings->stop, end.stop, sizeof findings->stop);
    findings->stopped_at = (size_t)((end.state.rip - SLOTS) / SLOT);
    if (strcmp(end.stop, "Ending") || end.state.rip != (uint64_t)finish_at()) {
        snprintf(findings->stop, sizeof findings->stop, "%s", strcmp(end.stop, "Ending") ? end.stop : "elsewhere");
        return;
    }
    findings->differing = end.state.regs[12];
    findings->differing_byte = end.state.regs[15];
    for (size_t one = 0; one < LISTED && one < findings->differing; one++)
        findings->listed[one] = (size_t)((end.state.regs[one] - TABLE) / sizeof(struct entry));
}
