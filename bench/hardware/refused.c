#include "refused.h"

#include <elf.h>
#include <stdlib.h>
#include <string.h>

#include "probes.h"
#include "worlds.h"

enum { KINDS = 1 << 18, TEXT = 0x401000, PRINTED = 4096, CHUNK = PROBED_AT_ONCE / 8 };

const char *const REFUSED_NAMES[REFUSED_KINDS] = { "asks the world for", "ends a run at", "steps over by itself" };

static struct sequence kept[KINDS];
static uint8_t is_kept[KINDS];

static unsigned kind_of(const struct sequence *it) {
    unsigned which, field = 0;
    size_t at = prefixes_of(it->bytes, &which);
    unsigned prefixes = (which & HAS_66 ? 1 : 0) | (which & HAS_LOCK ? 2 : 0) | (which & (HAS_F2 | HAS_F3) ? 4 : 0);
    if (it->map < 2 && at + it->map + 1 < LONGEST) {
        unsigned modrm = it->bytes[at + it->map + 1];
        field = (modrm >> 3 & 7) | (modrm >> 6 == 3 ? 8 : 0);
    }
    return (unsigned)it->map << 15 | (unsigned)it->opcode << 7 | field << 3 | prefixes;
}

void keep_refused(const struct sequence *it) {
    unsigned kind = kind_of(it);
    if (!is_kept[kind])
        kept[kind] = *it;
    is_kept[kind] = 1;
}

/* What the program does with one: it is asked exactly where the world's r15 is in the state afterwards. */
static int judge_one(const struct tool *tool, const struct sequence *it, uint8_t length) {
    static const char *const words[] = { "step", "@FILE", "@STARTS", "@WORLD", "1", NULL };
    struct segment segment = { TEXT, PF_R | PF_X, it->bytes, LONGEST };
    struct state before = { .flags = 0x202 };
    struct ending end;
    char printed[PRINTED];
    write_program(tool, "FILE", TEXT, &segment, 1);
    close_written(open_in(tool, "STARTS", "w"));
    FILE *world = begin_world(tool, &before);
    put_question(world, it->bytes, length ? length : LONGEST, NULL);
    put_given(world, "r15", 1);
    end_world(world);
    call_tool(tool, words, printed, sizeof printed);
    read_ending(printed, &end);
    if (!strcmp(end.stop, "Ending"))
        return REFUSED_ENDING;
    if (!strcmp(end.stop, "WorldDiffers") || (!strcmp(end.stop, "none") && end.state.regs[15] == 1))
        return REFUSED_ASKED;
    fprintf(stderr, "refused by the processor, and exact (%s):", end.stop);
    for (int at = 0; at < LONGEST; at++)
        fprintf(stderr, " %02x", it->bytes[at]);
    fprintf(stderr, "\n");
    return REFUSED_EXACT;
}

void judge_refused(const struct tool *tool, size_t most, uint64_t *counts) {
    static struct sequence some[CHUNK];
    static uint8_t lengths[CHUNK];
    size_t count = 0, all = 0, every;
    for (size_t kind = 0; kind < KINDS; kind++)
        all += is_kept[kind];
    every = all > most ? (all + most - 1) / most : 1;
    for (size_t kind = 0, at = 0; kind < KINDS && count < CHUNK; kind++)
        if (is_kept[kind] && at++ % every == 0)
            some[count++] = kept[kind];
    tell_lengths(tool, some, count, lengths);
    for (size_t one = 0; one < count; one++)
        counts[judge_one(tool, &some[one], lengths[one])]++;
}
