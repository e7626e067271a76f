#include "evidence.h"

#include <stdlib.h>
#include <string.h>

#include "jump_tables.h"
#include "refusing.h"
#include "restarts.h"
#include "spelling.h"
#include "uses.h"

/* How many bytes from a start on have to read as code, by what there is of evidence. */
enum { OF_WORD = 48, OF_NUMBER = 256, LOWEST_NUMBER = 0x10000 };
/* A jump has five bytes; with pads before it, and that of a victim after the site, so many bytes from the site on. */
enum { JUMP_SIZE = 5, REACH = 15 };
/* Compilers let functions begin at multiples of it. */
enum { ALIGNED = 16, WORD_BYTES = 8 };

void begin_evidence(struct evidence *it, const struct program *program) {
    size_t bytes = program->hi - program->lo + 16;
    memset(it, 0, sizeof *it);
    it->program = program;
    it->state = zeros(bytes, 1);
    it->is_data = zeros(bytes, 1);
    it->names = zeros(bytes, 1);
    it->callees = zeros(bytes, 1);
    it->extent_of = zeros(bytes, sizeof *it->extent_of);
    it->index_of = zeros(bytes, sizeof *it->index_of);
}

struct instruction *at_start(const struct evidence *it, uint32_t addr) {
    return it->found + it->index_of[addr - it->program->lo];
}

const struct instruction *one_before(const struct evidence *it, uint32_t addr) {
    uint32_t at = addr - 1;
    if (addr <= it->program->lo || !in_text(it->program, at))
        return NULL;
    while (at > it->program->lo && addr - at < 15 && !is_start(it, at))
        at--;
    const struct instruction *found = is_start(it, at) ? at_start(it, at) : NULL;
    return found && found->addr + found->length == addr ? found : NULL;
}

void propose(struct evidence *it, uint64_t addr, int level) {
    struct queue *queue = it->queues + level;
    if (!in_text(it->program, addr) || is_start(it, (uint32_t)addr))
        return;
    queue->addrs = room_for_one(queue->addrs, queue->count, &queue->capacity, sizeof *queue->addrs);
    queue->addrs[queue->count++] = (uint32_t)addr;
}

void add_extent(struct evidence *it, uint64_t addr, uint64_t length) {
    if (!length || !in_text(it->program, addr) || length > text_end(it->program, (uint32_t)addr) - addr)
        return;
    it->extents = room_for_one(it->extents, it->extent_count, &it->extent_capacity, sizeof *it->extents);
    it->extents[it->extent_count++] = (struct range){(uint32_t)addr, (uint32_t)(addr + length)};
    for (uint64_t at = addr; at < addr + length; at++)
        it->extent_of[at - it->program->lo] = (uint32_t)it->extent_count;
}

void add_data(struct evidence *it, uint64_t addr, uint64_t length) {
    for (uint64_t at = addr; at - addr < length && in_text(it->program, at); at++)
        it->is_data[at - it->program->lo] = IS_DATA;
}

static void begin_data(struct evidence *it, uint32_t addr) {
    uint32_t at = addr - it->program->lo;
    if (in_text(it->program, addr) && !it->state[at] && !it->is_data[at])
        it->is_data[at] = DATA_BEGINS;
}

static void add_holder(struct evidence *it, uint64_t addr, uint32_t from, uint32_t stride) {
    if (!in_text(it->program, addr))
        return;
    it->holders = room_for_one(it->holders, it->holder_count, &it->holder_capacity, sizeof *it->holders);
    it->holders[it->holder_count++] = (struct holder){(uint32_t)addr, from, stride};
}

/* Where what a holder reads begins: entries that are counted from one on have code in the place of the one before them. */
static uint32_t first_read(const struct evidence *it, const struct holder *holder) {
    return it->state[holder->addr - it->program->lo] ? holder->addr + holder->stride : holder->addr;
}

void judge_holders(struct evidence *it) {
    for (; it->holders_judged < it->holder_count; it->holders_judged++) {
        struct holder holder = it->holders[it->holders_judged];
        if (!holder.from)
            begin_data(it, first_read(it, &holder));
        else if (!it->state[holder.addr - it->program->lo] && !is_data(it, holder.addr) && reads_through(it, at_start(it, holder.from)))
            begin_data(it, holder.addr);
    }
}

bool are_prefixes(const struct evidence *it, uint32_t from, uint32_t to) {
    static const char PREFIXES[] = "\x66\x67\xF0\xF2\xF3\x26\x2E\x36\x3E\x64\x65";
    const uint8_t *bytes = bytes_at(it->program, from, to - from);
    for (uint32_t at = 0; at < to - from; at++)
        if (!bytes || !memchr(PREFIXES, bytes[at], sizeof PREFIXES - 1))
            return false;
    return true;
}

/* The start of the instruction that has a byte after its first one. */
static uint32_t holder_of(const struct evidence *it, uint32_t addr) {
    while (addr > it->program->lo && !is_start(it, --addr))
        continue;
    return addr;
}

bool enters_inside(const struct evidence *it, uint32_t addr) {
    return addr && in_text(it->program, addr) && is_inside(it, addr) && !are_prefixes(it, holder_of(it, addr), addr);
}

static bool covers_start(const struct evidence *it, const struct instruction *one) {
    for (uint32_t at = one->addr + 1; at < one->addr + one->length; at++)
        if (is_start(it, at))
            return true;
    return false;
}

bool is_filled(const struct evidence *it, uint32_t addr) {
    const uint8_t *next = bytes_at(it->program, addr, 2);
    if (!next || next[0] == 0xCC)
        return true;
    return next[0] == 0 && (next[1] == 0 || (addr + 1) % ALIGNED == 0 || (in_text(it->program, addr + 1) && is_start(it, addr + 1)));
}

bool reads_on(const struct evidence *it, uint32_t addr, uint32_t bytes) {
    uint32_t last = addr + bytes;
    struct instruction one;
    bool is_odd;
    while (addr < last && in_text(it->program, addr)) {
        if (is_start(it, addr))
            return true;
        if (is_inside(it, addr) || is_data(it, addr) || !decode(it->program, addr, &one, &is_odd) || is_odd)
            return false;
        if (covers_start(it, &one) || enters_inside(it, one.target))
            return false;
        addr += one.length;
        if (ends(one.kind) && is_filled(it, addr))
            return true;
    }
    return true;
}

/* Whether two words of eight bytes stand there whose upper halves are zeros, and one of which is an address of the program. */
static bool are_addresses(const struct evidence *it, uint32_t addr) {
    const uint8_t *bytes = in_text(it->program, addr) ? bytes_at(it->program, addr, 2 * WORD_BYTES) : NULL;
    uint64_t words[2];
    if (!bytes)
        return false;
    memcpy(words, bytes, sizeof words);
    return words[0] <= UINT32_MAX && words[1] <= UINT32_MAX && (segment_of(it->program, words[0]) || segment_of(it->program, words[1]));
}

bool is_among_addresses(const struct evidence *it, uint32_t addr) { return are_addresses(it, addr) || are_addresses(it, addr - WORD_BYTES); }

/* Whether a run may begin there; `is_shared` tells that its bytes are those of a listed instruction, too. */
static bool may_begin(const struct evidence *it, uint32_t first, int level, bool *is_shared) {
    *is_shared = is_inside(it, first);
    if (*is_shared && level > DIRECT && enters_inside(it, first))
        return false;
    if (is_data(it, first) && level > DIRECT)
        return false;
    if (level >= WORD && is_among_addresses(it, first))
        return false;
    if (level == WORD)
        return reads_on(it, first, OF_WORD);
    return level < NUMBER || it->extent_of[first - it->program->lo] || reads_on(it, first, OF_NUMBER);
}

/* Whether an instruction of a weak run speaks against the run. */
static bool speaks_against(const struct evidence *it, const struct instruction *one, bool is_first, bool is_odd, int level) {
    return is_odd || is_data(it, one->addr) || enters_inside(it, one->target) || (level >= WORD && is_first && one->kind == END);
}

/* Whether it covers starts that are listed; `is_wrong` where they are after more than its prefixes. */
static bool meets_starts(const struct evidence *it, const struct instruction *one, bool *is_wrong) {
    int meets = 0;
    for (uint32_t at = one->addr + 1; at < one->addr + one->length; at++)
        if (is_start(it, at)) {
            meets = 1;
            *is_wrong |= !are_prefixes(it, one->addr, at);
        }
    return meets;
}

/* Reads a run after the listed instructions. Where it breaks off, 0 is answered, and `next` is the place; else `next` is what stands
   after the call that ends it, or 0. */
static bool read_run(struct evidence *it, uint32_t first, int level, bool is_shared, uint32_t *next) {
    for (uint32_t addr = first;;) {
        bool is_odd, is_wrong = false;
        *next = addr;
        if (!in_text(it->program, addr))
            return false;
        if (addr != first && is_start(it, addr))
            break;
        if (addr != first && is_inside(it, addr) && !is_shared)
            return false;
        it->found = room_for_one(it->found, it->count, &it->capacity, sizeof *it->found);
        struct instruction *one = it->found + it->count;
        if (!decode(it->program, addr, one, &is_odd))
            return false;
        one->level = (uint8_t)level;
        if (level > DIRECT && speaks_against(it, one, addr == first, is_odd, level))
            return false;
        if (meets_starts(it, one, &is_wrong) && is_wrong && level > DIRECT)
            return false;
        it->count++;
        addr += one->length;
        *next = addr;
        if (may_return(one->kind))
            return true;
        if (ends(one->kind))
            break;
    }
    *next = 0;
    return true;
}

static void mark_listed(struct evidence *it, size_t number) {
    const struct instruction *one = it->found + number;
    uint8_t *state = it->state + (one->addr - it->program->lo);
    it->index_of[one->addr - it->program->lo] = (uint32_t)number;
    state[0] |= START;
    for (int at = 1; at < one->length; at++)
        state[at] |= INSIDE;
}

static int weaker(int one, int other) { return one > other ? one : other; }

/* What stands behind a call is code if that returns, and else data may begin there. */
static void propose_behind(struct evidence *it, const struct instruction *call, uint32_t next, int level) {
    if (call->kind == CALL && call->target != next && takes_return(it, call->target))
        begin_data(it, next);
    else
        propose(it, next, weaker(level, AFTER_CALL));
}

/* The word of the data that an instruction loads. */
static uint64_t loaded_word(const struct evidence *it, const struct instruction *one) {
    uint64_t word = 0;
    const uint8_t *bytes = one->is_absolute && one->marks & READS && one->width == 8 ? bytes_at(it->program, one->held, 8) : NULL;
    if (bytes && !in_text(it->program, one->held))
        memcpy(&word, bytes, 8);
    return word;
}

/* Says what a listed instruction is evidence for. */
static void follow(struct evidence *it, const struct instruction *one, int level) {
    const struct program *program = it->program;
    if (one->target)
        propose(it, one->target, weaker(level, DIRECT));
    if (one->held) {
        if (one->is_lea && in_text(program, one->held)) {
            propose(it, one->held, weaker(level, NUMBER));
            add_holder(it, one->held, one->addr, 0);
        }
        add_holder(it, loaded_word(it, one), one->addr, 0);
        name_word(one->held);
        if (one->is_lea || one->kind == JUMP_INDIRECT)
            add_table(it, one->held, one->addr, one->is_lea ? 4 : 8);
        if (!one->is_lea && one->is_absolute && one->marks & (READS | WRITES) && level <= AFTER_CALL)
            add_data(it, one->held, one->width);
    }
    add_holder(it, one->table, 0, one->stride);
    if (one->number) {
        propose(it, one->number, weaker(level, NUMBER));
        add_holder(it, one->number, one->addr, 0);
    }
    if (one->number >= LOWEST_NUMBER)
        add_table(it, one->number, one->addr, 4);
}

static void add_break(struct evidence *it, uint32_t addr) {
    it->breaks = room_for_one(it->breaks, it->break_count, &it->break_capacity, sizeof *it->breaks);
    it->breaks[it->break_count++] = (struct range){addr, addr + 1};
}

bool list_run(struct evidence *it, uint32_t first, int level) {
    size_t before = it->count;
    uint32_t next;
    bool is_shared;
    if (is_start(it, first))
        return true;
    if (!may_begin(it, first, level, &is_shared))
        return false;
    if (!read_run(it, first, level, is_shared, &next)) {
        if (level > DIRECT) {
            it->count = before;
            return false;
        }
        add_break(it, next);
        next = 0;
    }
    for (size_t number = before; number < it->count; number++)
        mark_listed(it, number);
    for (size_t number = before; number < it->count; number++) {
        struct instruction one = it->found[number];
        follow(it, &one, level);
    }
    if (next) {
        struct instruction last = it->found[it->count - 1];
        propose_behind(it, &last, next, level);
    }
    return true;
}

void list_alone(struct evidence *it, const struct instruction *one, int level) {
    it->found = room_for_one(it->found, it->count, &it->capacity, sizeof *it->found);
    it->found[it->count] = *one;
    it->found[it->count].level = (uint8_t)level;
    mark_listed(it, it->count++);
}

static int by_address(const void *one, const void *other) {
    uint32_t a = ((const struct instruction *)one)->addr, b = ((const struct instruction *)other)->addr;
    return (a > b) - (a < b);
}

/* Whether all bytes of the text that a jump at an instruction may reach are supported. */
static bool has_support(const struct evidence *it, const struct instruction *one) {
    for (uint32_t at = one->addr; one->length < JUMP_SIZE && at < one->addr + REACH; at++)
        if (in_text(it->program, at) && !is_supported(it, at))
            return false;
    return true;
}

/* What e9tool makes of its bytes. */
static void mark_spelling(const struct evidence *it, struct instruction *one) {
    const uint8_t *bytes = bytes_at(it->program, one->addr, one->length);
    const struct segment *holder = segment_of(it->program, one->addr);
    uint32_t room = holder->addr + holder->in_file - one->addr;
    int length = spelled_length(bytes, room < 15 ? (int)room : 15);
    if (!length)
        one->marks |= NO_LENGTH | FIXED;
    else if (length != one->length)
        refuse("at %08x an instruction has %d bytes for e9tool and %d for Zydis, so the program can't be patched", one->addr, length, one->length);
    else if (!can_be_displaced(bytes, one->length))
        one->marks |= FIXED;
}

static void mark_support(const struct evidence *it, struct instruction *one) {
    if ((one->level == TABLE && !it->extent_of[one->addr - it->program->lo]) || is_restarted(it, one))
        one->marks |= UNSURE;
    for (int at = 0; !(one->marks & UNSURE) && at < one->length; at++)
        it->state[one->addr - it->program->lo + (uint32_t)at] |= SURE;
}

void finish(struct evidence *it) {
    uint32_t reached = 0;
    if (it->count)
        qsort(it->found, it->count, sizeof *it->found, by_address);
    for (size_t number = 0; number < it->count; number++) {
        struct instruction *one = it->found + number;
        uint32_t end = one->addr + one->length;
        if (one->addr < reached || (number + 1 < it->count && one[1].addr < end))
            one->marks |= SHARED;
        reached = end > reached ? end : reached;
        it->index_of[one->addr - it->program->lo] = (uint32_t)number;
        mark_spelling(it, one);
        mark_support(it, one);
    }
    for (size_t number = 0; number < it->count; number++)
        if (!has_support(it, it->found + number))
            it->found[number].marks |= BESIDE;
}
