#include "jump_tables.h"

#include <string.h>

#include "refusing.h"

enum { BEHIND_COMPARISON = 12, AT_LEAST = 3, WORDS = 1 << 26 };
#define HIGHEST 0x7FFFFFFFu

struct table {
    uint32_t addr, from, width, entry; /* entry: the next that is proposed, where their number isn't known */
};

static struct table *tables;
static size_t table_count, table_capacity, judged; /* those before `judged` have been judged */
static uint8_t *named, *begun;                     /* a bit for each four bytes: an instruction holds the address; a table begins there */

static void set_bit(uint8_t **bits, uint32_t addr) {
    if (!*bits)
        *bits = zeros(WORDS, 1);
    (*bits)[addr >> 5] |= (uint8_t)(1 << (addr >> 2 & 7));
}

static bool has_bit(const uint8_t *bits, uint32_t addr) { return bits && bits[addr >> 5] >> (addr >> 2 & 7) & 1; }

void name_word(uint32_t addr) {
    if (addr % 4 == 0 && addr <= HIGHEST)
        set_bit(&named, addr);
}

void add_table(struct evidence *it, uint32_t addr, uint32_t from, uint32_t width) {
    if (!segment_of(it->program, addr))
        return;
    tables = room_for_one(tables, table_count, &table_capacity, sizeof *tables);
    tables[table_count++] = (struct table){addr, from, width, 0};
}

/* A jump where the number is above that of a comparison. */
static bool is_jump_above(const uint8_t *bytes) { return bytes[0] == 0x77 || (bytes[0] == 0x0F && bytes[1] == 0x87); }

/* OCaml compares a number with its tag, and shifts the tag out. */
static bool is_shift_by_one(const struct instruction *one, const uint8_t *bytes) {
    return one->length == 3 && (bytes[0] & 0xFE) == 0x48 && bytes[1] == 0xD1 && (bytes[2] & 0xF8) >= 0xE8 && bytes[2] != 0xF0;
}

/* How many entries the comparison before a table's use allows; 0 where none is found. */
static uint32_t entries_of(const struct evidence *it, uint32_t from) {
    bool is_above = false, is_half = false;
    const struct instruction *one = one_before(it, from);
    for (int turn = 0; one && turn < BEHIND_COMPARISON; turn++, one = one_before(it, one->addr)) {
        const uint8_t *bytes = bytes_at(it->program, one->addr, one->length);
        if (one->kind == BRANCH && is_jump_above(bytes))
            is_above = true;
        else if (one->kind == BRANCH && !is_above)
            return 0;
        else if (one->kind != BRANCH && one->kind != FALLS)
            return 0;
        else if (is_above && one->cases)
            return is_half ? one->cases / 2u : one->cases;
        else if (!is_above && is_shift_by_one(one, bytes))
            is_half = true;
    }
    return 0;
}

/* Where an entry of a table leads; whether it can be one. */
static bool read_entry(const struct evidence *it, const struct table *table, uint32_t number, uint32_t *target) {
    uint64_t at = table->addr + (uint64_t)number * table->width, value;
    const uint8_t *bytes = bytes_at(it->program, at, table->width);
    int32_t distance;
    if (!bytes)
        return false;
    if (table->width == 8) {
        memcpy(&value, bytes, 8);
    } else {
        memcpy(&distance, bytes, 4);
        value = (uint32_t)(table->addr + (uint32_t)distance);
    }
    *target = (uint32_t)value;
    return in_text(it->program, value) && !is_inside(it, (uint32_t)value);
}

/* Whether an entry leaves the function that uses the table; to a start it may. */
static bool leaves_function(const struct evidence *it, const struct table *table, uint32_t target) {
    uint32_t own = it->extent_of[table->from - it->program->lo];
    return own && it->extent_of[target - it->program->lo] != own && !is_start(it, target);
}

static bool fits_whole(const struct evidence *it, const struct table *table, uint32_t entries) {
    uint32_t target;
    for (uint32_t number = 0; number < entries; number++) {
        uint32_t at = table->addr + number * table->width;
        if (!read_entry(it, table, number, &target) || leaves_function(it, table, target))
            return false;
        if (in_text(it->program, at) && it->state[at - it->program->lo])
            return false;
    }
    return true;
}

/* A table of a known number of entries: all fit, or none is taken. A table in text becomes data. */
static bool take_whole(struct evidence *it, const struct table *table, uint32_t entries, int level) {
    uint32_t target;
    if (!fits_whole(it, table, entries))
        return false;
    for (uint32_t number = 0; number < entries; number++)
        if (read_entry(it, table, number, &target))
            propose(it, target, level);
    if (in_text(it->program, table->addr))
        add_data(it, table->addr, (uint64_t)entries * table->width);
    return true;
}

bool judge_known_tables(struct evidence *it, bool all) {
    size_t kept = all ? 0 : judged, taken = 0;
    for (size_t at = kept; at < table_count; at++) {
        struct table table = tables[at];
        uint32_t entries = entries_of(it, table.from);
        if (!entries)
            tables[kept++] = table;
        else
            taken += (size_t)take_whole(it, &table, entries, WORD);
    }
    judged = table_count = kept;
    return taken > 0;
}

/* Whether a table begins with entries: three at least, aligned as compilers do, and no other table was begun there. */
static bool begins(const struct evidence *it, const struct table *table) {
    uint32_t target;
    if (table->addr % 4 || has_bit(begun, table->addr))
        return false;
    set_bit(&begun, table->addr);
    for (uint32_t number = 0; number < AT_LEAST; number++)
        if (!read_entry(it, table, number, &target))
            return false;
    return true;
}

/* Proposes the next entry; whether the table may go on. */
static bool go_on(struct evidence *it, struct table *table) {
    uint32_t target, at = table->addr + table->entry * table->width;
    if (!read_entry(it, table, table->entry, &target) || leaves_function(it, table, target))
        return false;
    if (table->entry ? has_bit(named, at) : !begins(it, table))
        return false;
    table->entry++;
    propose(it, target, TABLE);
    return true;
}

bool go_on_in_tables(struct evidence *it) {
    size_t kept = 0;
    for (size_t at = 0; at < table_count; at++) {
        struct table table = tables[at];
        uint32_t entries = table.entry ? 0 : entries_of(it, table.from);
        if (entries)
            take_whole(it, &table, entries, TABLE);
        else if (!in_text(it->program, table.addr) && go_on(it, &table))
            tables[kept++] = table;
    }
    judged = table_count = kept;
    return kept > 0;
}
