#include "blocks.h"

#include <string.h>

#include "refusing.h"

enum { MOST_ENTRIES = 1024, LOWEST_NUMBER = 0x10000, HELD_WORDS = 1 << 26 };

/* A byte for each byte of the text: whether a block begins there in any case; and which tables have been gone through. */
struct leaders {
    uint8_t *begins, *gone_through, *called;
};

static void lead(const struct evidence *it, struct leaders *to, uint64_t addr) {
    if (in_text(it->program, addr) && is_start(it, (uint32_t)addr))
        to->begins[addr - it->program->lo] = 1;
}

/* What the distances of a table lead to, as long as they lead to starts. */
static void lead_by_table(const struct evidence *it, struct leaders *to, uint32_t table) {
    uint8_t *gone = to->gone_through + (table >> 5), bit = (uint8_t)(1 << (table >> 2 & 7));
    if (table % 4 || *gone & bit)
        return;
    *gone |= bit;
    for (uint32_t entry = 0; entry < MOST_ENTRIES; entry++) {
        const uint8_t *bytes = bytes_at(it->program, table + 4 * (uint64_t)entry, 4);
        uint32_t distance, target;
        if (!bytes)
            return;
        memcpy(&distance, bytes, 4);
        target = table + distance;
        if (!in_text(it->program, target) || !is_start(it, target))
            return;
        to->begins[target - it->program->lo] = 1;
    }
}

static void lead_by_number(const struct evidence *it, struct leaders *to, uint32_t number) {
    if (!number)
        return;
    lead(it, to, number);
    if (!in_text(it->program, number) || !is_start(it, number))
        lead_by_table(it, to, number);
}

static void find_leaders(const struct evidence *it, struct leaders *to) {
    const struct program *program = it->program;
    for (size_t at = 0; at < it->count; at++) {
        const struct instruction *one = it->found + at;
        lead(it, to, one->target);
        if (one->kind == CALL && in_text(it->program, one->target))
            to->called[one->target - it->program->lo] = 1;
        lead_by_number(it, to, one->held);
        lead_by_number(it, to, one->number >= LOWEST_NUMBER ? one->number : 0);
        if (one->marks & SHARED)
            lead(it, to, one->addr + one->length);
    }
    for (int at = 0; at < program->segment_count; at++) {
        const struct segment *segment = program->segments + at;
        for (uint64_t place = -segment->addr & 7; place + 8 <= segment->in_file; place += 8) {
            uint64_t word;
            memcpy(&word, segment->bytes + place, 8);
            lead(it, to, word);
        }
    }
    for (uint32_t at = 0; at < program->hi - program->lo; at++)
        if (it->names[at] & NAMED)
            to->begins[at] = 1;
}

static bool follows_on(const struct instruction *one, const struct instruction *before) {
    return before->addr + before->length == one->addr && before->kind == FALLS && one->kind != KERNEL;
}

/* The instructions, parted before and after each that begins or ends a block, and where what fills room ends. */
static void part(const struct evidence *it, const struct leaders *by, struct blocks *blocks) {
    bool fills = false;
    for (size_t at = 0; at < it->count; at++) {
        const struct instruction *one = it->found + at, *before = at ? one - 1 : NULL;
        bool is_led = by->begins[one->addr - it->program->lo], is_nothing = one->marks & NOTHING;
        if (before && !is_led && follows_on(one, before) && (!fills || is_nothing)) {
            blocks->all[blocks->count - 1].size++;
            continue;
        }
        blocks->all[blocks->count++] = (struct block){(uint32_t)at, 1};
        fills = (!before || ends(before->kind)) && !is_led && is_nothing;
    }
}

static bool is_int3(const struct instruction *one) { return one->kind == TRAP && one->marks & NOTHING; }

/* Whether a block only fills the room after what doesn't return, or is an int3 behind another one, and nothing leads to it. */
static bool is_padding(const struct evidence *it, const struct leaders *by, const struct block *block) {
    const struct instruction *first = it->found + block->first, *last = first + block->size - 1;
    const struct instruction *before = block->first ? first - 1 : NULL;
    if (by->begins[first->addr - it->program->lo])
        return false;
    for (const struct instruction *one = first; one <= last; one++)
        if (!(one->marks & NOTHING))
            return false;
    bool goes_on = block->first + block->size < it->count && last[1].addr == last->addr + last->length && !(it->names[last[1].addr - it->program->lo] & NAMED);
    if (before && is_int3(before) && is_int3(first))
        return true;
    return !before || ends(before->kind) || before->addr + before->length != first->addr || !goes_on;
}

/* What says that a function begins at an address. */
static uint8_t begins(const struct evidence *it, const struct leaders *by, uint32_t addr) {
    uint32_t at = addr - it->program->lo, extent = it->extent_of[at];
    bool is_within = extent && it->extents[extent - 1].lo < addr;
    bool is_named = it->names[at] & NAMED, is_called = by->called[at];
    bool is_begin = it->names[at] || addr == it->program->entry || (is_called && !is_within);
    return (uint8_t)((is_named ? HAS_NAME : 0) | (is_called ? IS_CALLED : 0) | (is_begin ? BEGINS : 0));
}

void part_blocks(const struct evidence *it, struct blocks *blocks) {
    size_t bytes = it->program->hi - it->program->lo + 16, kept = 0;
    struct leaders leaders = {zeros(bytes, 1), zeros(HELD_WORDS, 1), zeros(bytes, 1)};
    blocks->all = zeros(it->count + 1, sizeof *blocks->all);
    blocks->count = 0;
    find_leaders(it, &leaders);
    part(it, &leaders, blocks);
    for (size_t at = 0; at < blocks->count; at++)
        if (!is_padding(it, &leaders, blocks->all + at))
            blocks->all[kept++] = blocks->all[at];
    blocks->count = kept;
    blocks->begins_function = zeros(kept, 1);
    for (size_t at = 0; at < kept; at++)
        blocks->begins_function[at] = begins(it, &leaders, it->found[blocks->all[at].first].addr);
}
