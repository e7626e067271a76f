#include "probes.h"

#include <elf.h>
#include <stdlib.h>
#include <string.h>

/* An instruction shares bytes where one of its bytes is a byte of another listed one, and then its site is left as
   Shared, which is judged before anything else. So where a sequence stands with no other start within it, and the first
   instruction behind it is a site, that one is Shared exactly where the program takes the sequence for more bytes. And
   where the last byte of a sequence is a start and the sequence a site, it is Shared exactly where the program takes it
   for so many bytes or more. The byte behind a sequence is F4, which can't be displaced: no plan is searched for. */
enum { TEXT = 0x401000, SLOT = 32, HLT = 0xf4, LINE = 128, SITES_MOST = 65536, PRINTED = 4096 };

struct listing {
    uint8_t *text;
    size_t slots;
    FILE *starts, *sites;
    size_t sites_count;
};

static uint8_t *add_slot(struct listing *list, const struct sequence *it) {
    uint8_t *slot = list->text + SLOT * list->slots++;
    memset(slot, HLT, SLOT);
    memcpy(slot, it->bytes, LONGEST);
    return slot;
}

static uint64_t address_of(const struct listing *list, const uint8_t *byte) {
    return TEXT + (uint64_t)(byte - list->text);
}

static void add_start(struct listing *list, const uint8_t *byte) {
    fprintf(list->starts, "%llx\n", (unsigned long long)address_of(list, byte));
}

static void add_site(struct listing *list, const uint8_t *byte) {
    fprintf(list->sites, "%llx\n", (unsigned long long)address_of(list, byte));
    list->sites_count++;
}

static void begin_list(struct listing *list, const struct tool *tool, size_t slots) {
    list->text = calloc(slots + 1, SLOT);
    if (!list->text) {
        fprintf(stderr, "hardware: no memory for %zu slots\n", slots);
        exit(2);
    }
    list->slots = list->sites_count = 0;
    list->starts = open_in(tool, "STARTS", "w");
    list->sites = open_in(tool, "SITES", "w");
}

/* Patches what was listed and marks in `shared`, by the slots' numbers and the sites' places in them, what is Shared.
 */
static void patch(struct listing *list, const struct tool *tool, uint8_t *shared) {
    static const char *const words[] = { "patch", "@FILE", "@STARTS", "@SITES", "cover", "@OUT", "@REPORT", NULL };
    char printed[PRINTED], line[LINE];
    struct segment segment = { TEXT, PF_R | PF_X, list->text, (list->slots + 1) * SLOT };
    size_t told = 0;
    close_written(list->starts);
    close_written(list->sites);
    write_program(tool, "FILE", TEXT, &segment, 1);
    call_tool(tool, words, printed, sizeof printed);
    memset(shared, 0, list->slots * SLOT);
    FILE *report = open_in(tool, "REPORT", "r");
    while (fgets(line, sizeof line, report)) {
        unsigned long long address;
        char outcome[32];
        if (sscanf(line, "site %llx %*u %31s", &address, outcome) != 2)
            continue;
        told++;
        shared[address - TEXT] = !strcmp(outcome, "Shared");
    }
    fclose(report);
    if (told != list->sites_count) {
        fprintf(stderr, "hardware: the report tells %zu sites of %zu\n", told, list->sites_count);
        exit(2);
    }
    free(list->text);
}

static uint8_t *marks_of(size_t slots) {
    uint8_t *marks = calloc(slots, SLOT);
    if (!marks) {
        fprintf(stderr, "hardware: no memory for %zu marks\n", slots);
        exit(2);
    }
    return marks;
}

void probe_lengths(const struct tool *tool, const struct sequence *all, size_t count, uint8_t *agrees) {
    struct listing list;
    uint8_t *shared = marks_of(2 * count);
    begin_list(&list, tool, 2 * count);
    for (size_t one = 0; one < count; one++) {
        size_t length = all[one].length;
        uint8_t *alone = add_slot(&list, &all[one]), *cut = add_slot(&list, &all[one]);
        if (length > 0) {
            memset(alone + length, HLT, 1);
            add_start(&list, alone);
            add_start(&list, alone + length);
            add_site(&list, alone + length);
        }
        if (length == 1)
            continue;
        add_start(&list, cut);
        add_start(&list, cut + (length > 0 ? length - 1 : 1));
        add_site(&list, cut);
    }
    patch(&list, tool, shared);
    for (size_t one = 0; one < count; one++) {
        size_t length = all[one].length;
        const uint8_t *alone = shared + 2 * one * SLOT, *cut = alone + SLOT;
        agrees[one] = length == 0 ? !cut[0] : !alone[length] && (length == 1 || cut[0]);
    }
    free(shared);
}

void tell_lengths(const struct tool *tool, const struct sequence *all, size_t count, uint8_t *lengths) {
    struct listing list;
    uint8_t *shared = marks_of(LONGEST * count);
    begin_list(&list, tool, LONGEST * count);
    for (size_t one = 0; one < count; one++)
        for (size_t at = 1; at < LONGEST; at++) {
            uint8_t *slot = add_slot(&list, &all[one]);
            add_start(&list, slot);
            add_start(&list, slot + at);
            add_site(&list, slot);
        }
    patch(&list, tool, shared);
    for (size_t one = 0; one < count; one++) {
        lengths[one] = UNKNOWN;
        for (size_t at = 1; at < LONGEST; at++)
            if (shared[(one * (LONGEST - 1) + at - 1) * SLOT])
                lengths[one] = (uint8_t)(at + 1);
    }
    free(shared);
}
