#include "gaps.h"

#include "jump_tables.h"
#include "refusing.h"

enum { PASSES = 6, MOST_READ = 400, FILL = 0xCC };

void drain(struct evidence *it, int weakest) {
    for (int level = ENTRY; level <= weakest;) {
        struct queue *queue = it->queues + level;
        if (level == WORD)
            judge_holders(it);
        if (level == WORD && judge_known_tables(it, false)) {
            level = ENTRY;
        } else if (queue->count) {
            list_run(it, queue->addrs[--queue->count], level);
            level = ENTRY;
        } else if (level == TABLE && go_on_in_tables(it)) {
            level = ENTRY;
        } else {
            level++;
        }
    }
}

static bool is_known(const struct evidence *it, uint32_t addr) { return it->state[addr - it->program->lo] || is_data(it, addr); }

/* Where data of unknown length begins, a gap ends, and one begins. */
static uint32_t gap_end(const struct evidence *it, uint32_t addr, uint32_t end) {
    if (addr < end && begins_data(it, addr))
        addr++;
    while (addr < end && !is_known(it, addr))
        addr++;
    return addr;
}

/* Lists the runs of a gap of an extent that reads as code up to its end; whether it does. */
static bool list_extent(struct evidence *it, uint32_t first, uint32_t end) {
    struct instruction one;
    bool is_odd;
    uint32_t at = first;
    while (at < end && decode(it->program, at, &one, &is_odd) && !is_odd)
        at += one.length;
    if (at != end)
        return false;
    for (at = first; at < end;) {
        if (!it->state[at - it->program->lo] && !list_run(it, at, EXTENT))
            return true;
        drain(it, EXTENT);
        while (at < end && it->state[at - it->program->lo])
            at++;
    }
    return true;
}

void sweep_extents(struct evidence *it) {
    for (bool again = true; again;) {
        size_t before = it->count;
        judge_holders(it);
        for (size_t number = 0; number < it->extent_count; number++) {
            struct range extent = it->extents[number];
            for (uint32_t at = extent.lo; at < extent.hi;) {
                uint32_t end = gap_end(it, at, extent.hi);
                if (at < end && !begins_data(it, at))
                    list_extent(it, at, end);
                at = end > at ? end : at + 1;
            }
        }
        again = it->count > before;
    }
}

/* Whether the code there leads to a start; it isn't read further than to its end. */
static bool leads_to_start(const struct evidence *it, uint32_t addr, uint32_t end) {
    struct instruction one;
    bool is_odd, leads = false;
    int count = 0;
    while (addr < end && count++ < MOST_READ && decode(it->program, addr, &one, &is_odd) && !is_odd) {
        leads |= one.target && is_start(it, one.target);
        addr += one.length;
        if (ends(one.kind))
            break;
    }
    return leads && count > 1;
}

/* Whether all reads as code up to what fills room, or to the gap's end, and leads to a start. */
static bool is_body(const struct evidence *it, uint32_t addr, uint32_t end) {
    struct instruction one;
    bool is_odd, leads = false;
    while (addr < end) {
        if (!decode(it->program, addr, &one, &is_odd) || is_odd || enters_inside(it, one.target))
            return false;
        leads |= one.target && is_start(it, one.target);
        addr += one.length;
        if (ends(one.kind) && is_filled(it, addr))
            return leads;
    }
    return leads && addr == end;
}

/* Whether a gap reads as code from there up to the start at its end, with nothing but fill after what ends. */
static bool is_seamless(const struct evidence *it, uint32_t addr, uint32_t end) {
    struct instruction one;
    bool is_odd;
    int count = 0;
    if (end >= it->program->hi || !in_text(it->program, end) || !is_start(it, end))
        return false;
    while (addr < end) {
        if (!decode(it->program, addr, &one, &is_odd) || is_odd || addr + one.length > end || enters_inside(it, one.target))
            return false;
        addr += one.length;
        count++;
        const uint8_t *next = bytes_at(it->program, addr, 1);
        if (ends(one.kind) || one.kind == CALL)
            for (; next && addr < end && (*next == 0 || *next == FILL); next++)
                addr++;
    }
    return addr == end && count > 0;
}

/* What stands after the bytes that fill the gap from there on; nops are listed. */
static uint32_t skip_fill(struct evidence *it, struct gaps *gaps, uint32_t addr, uint32_t end) {
    struct instruction one;
    bool is_odd;
    while (addr < end) {
        const uint8_t *byte = bytes_at(it->program, addr, 1);
        if (*byte == 0 || *byte == FILL) {
            gaps->zeros += *byte == 0;
            gaps->traps += *byte == FILL;
            addr++;
        } else if (decode(it->program, addr, &one, &is_odd) && one.marks & NOTHING && addr + one.length <= end && !is_among_addresses(it, addr)) {
            list_alone(it, &one, it->extent_of[addr - it->program->lo] ? EXTENT : SWEEP);
            addr += one.length;
        } else {
            break;
        }
    }
    return addr;
}

/* The next place where code may begin: one that is aligned, or what follows fill. */
static uint32_t next_place(const struct evidence *it, uint32_t addr, uint32_t end) {
    uint32_t aligned = (addr | 15) + 1;
    const uint8_t *byte = bytes_at(it->program, addr, 1);
    for (; addr < aligned && addr < end && *byte; byte++)
        addr++;
    for (; addr < end && *byte == 0; byte++)
        addr++;
    for (; addr < end && *byte == FILL; byte++)
        addr++;
    return addr;
}

static void add_doubtful(struct gaps *gaps, uint32_t lo, uint32_t hi) {
    if (lo >= hi)
        return;
    gaps->doubtful = room_for_one(gaps->doubtful, gaps->count, &gaps->capacity, sizeof *gaps->doubtful);
    gaps->doubtful[gaps->count++] = (struct range){lo, hi};
}

/* Lists the first code of a gap that has support, and answers its place, or the gap's end. The bytes before it are doubtful. */
static uint32_t list_in_gap(struct evidence *it, struct gaps *gaps, uint32_t first, uint32_t end) {
    uint32_t at = first;
    for (; at < end; at = next_place(it, at, end)) {
        bool has_support = (at == first && (is_seamless(it, at, end) || is_body(it, at, end))) || leads_to_start(it, at, end);
        if (has_support && list_run(it, at, SWEEP)) {
            drain(it, SWEEP);
            break;
        }
    }
    add_doubtful(gaps, first, at);
    return at;
}

static bool sweep_once(struct evidence *it, struct gaps *gaps) {
    const struct program *program = it->program;
    bool more = false;
    gaps->count = gaps->zeros = gaps->traps = 0;
    judge_holders(it);
    for (int part = 0; part < program->text_count; part++)
        for (uint32_t at = program->text[part].lo; at < program->text[part].hi;) {
            uint32_t end = gap_end(it, at, program->text[part].hi);
            if (at == end) {
                at++;
                continue;
            }
            if (begins_data(it, at)) {
                add_doubtful(gaps, at, end);
                at = end;
                continue;
            }
            at = skip_fill(it, gaps, at, end);
            at = list_in_gap(it, gaps, at, end);
            more |= at < end;
        }
    return more;
}

void sweep_gaps(struct evidence *it, struct gaps *gaps) {
    for (int pass = 0; pass < PASSES && sweep_once(it, gaps); pass++)
        continue;
}
