#include "list_file.h"

#include <errno.h>
#include <stdio.h>
#include <string.h>

#include "clones.h"
#include "refusing.h"

enum { VERSION = 1, HEAD = 64 };

/* A file that is written; `place` is how many bytes it has. */
struct output {
    FILE *file;
    const char *path;
    uint64_t place;
};

struct ranges {
    struct range *all;
    uint8_t *kinds;
    size_t count, capacity, kind_capacity;
};

static struct output create(const char *path) {
    struct output made = {fopen(path, "w"), path, 0};
    if (!made.file)
        refuse("%s: %m", path);
    return made;
}

static void put(struct output *to, const void *bytes, size_t count) {
    if (count && fwrite(bytes, 1, count, to->file) != count)
        refuse("%s: %m", to->path);
    to->place += count;
}

static void close_output(struct output *to) {
    if (fclose(to->file))
        refuse("%s: %m", to->path);
}

static void align(struct output *to) {
    static const uint8_t NOTHING_THERE[8];
    put(to, NOTHING_THERE, -to->place & 7);
}

static void add_range(struct ranges *to, struct range range, int kind) {
    to->all = room_for_one(to->all, to->count, &to->capacity, sizeof *to->all);
    to->kinds = room_for_one(to->kinds, to->count, &to->kind_capacity, 1);
    to->kinds[to->count] = (uint8_t)kind;
    to->all[to->count++] = range;
}

static void find_unsupported(const struct evidence *it, struct range text, struct ranges *to) {
    for (uint32_t at = text.lo, end; at < text.hi; at = end) {
        for (end = at; end < text.hi && !is_supported(it, end); end++)
            continue;
        if (end > at)
            add_range(to, (struct range){at, end}, WITHOUT_SUPPORT);
        else
            end = at + 1;
    }
}

static void find_ranges(const struct told *told, struct ranges *to) {
    const struct evidence *it = told->evidence;
    const struct program *program = it->program;
    struct range *clones;
    for (size_t at = 0; at < told->gaps->count; at++)
        add_range(to, told->gaps->doubtful[at], DOUBTFUL);
    for (uint32_t at = program->lo, end; at < program->hi; at = end) {
        for (end = at; end < program->hi && it->is_data[end - program->lo] == IS_DATA; end++)
            continue;
        if (end > at)
            add_range(to, (struct range){at, end}, DATA);
        else
            end = at + 1;
    }
    for (size_t at = 0; at < it->break_count; at++)
        add_range(to, it->breaks[at], BREAK);
    for (size_t at = 0, count = find_clones(it, &clones); at < count; at++)
        add_range(to, clones[at], CLONE_FLAGS);
    for (size_t at = 0; at < it->restart_count; at++)
        add_range(to, it->restarts[at].range, RESTARTED);
    for (int part = 0; part < program->text_count; part++)
        find_unsupported(it, program->text[part], to);
}

static void put_head(struct output *to, const struct told *told, const struct ranges *ranges, uint32_t texts) {
    const struct evidence *it = told->evidence;
    const struct program *program = it->program;
    uint32_t text = 0, listed = 0, numbers[HEAD / 4] = {0};
    for (int part = 0; part < program->text_count; part++) {
        text += program->text[part].hi - program->text[part].lo;
        for (uint32_t at = program->text[part].lo; at < program->text[part].hi; at++)
            listed += it->state[at - program->lo] != 0;
    }
    uint32_t told_numbers[] = {
        VERSION,           (uint32_t)it->count, (uint32_t)told->blocks->count, (uint32_t)told->names->count, (uint32_t)ranges->count, texts, text, listed,
        told->gaps->zeros, told->gaps->traps};
    memcpy(numbers, "VAKLIST", 8);
    memcpy(numbers + 2, told_numbers, sizeof told_numbers);
    put(to, numbers, sizeof numbers);
}

/* The four-byte number of an instruction in a column. */
static uint32_t number_of(const struct instruction *one, int column) {
    switch (column) {
    case 0: return one->addr;
    case 1: return one->target;
    case 2: return one->held;
    case 3: return one->number;
    case 4: return one->reads;
    case 5: return one->writes;
    case 6: return one->flags_read;
    case 7: return one->flags_written;
    case 8: return one->marks;
    case 9: return one->length;
    case 10: return one->kind;
    default: return one->level;
    }
}

static void put_columns(struct output *to, const struct evidence *it) {
    static const uint8_t WIDTHS[] = {4, 4, 4, 4, 4, 4, 2, 2, 2, 1, 1, 1};
    uint8_t *column = zeros(it->count, 4);
    for (int number = 0; number < (int)sizeof WIDTHS; number++) {
        size_t width = WIDTHS[number];
        for (size_t at = 0; at < it->count; at++) {
            uint32_t value = number_of(it->found + at, number);
            memcpy(column + at * width, &value, width);
        }
        align(to);
        put(to, column, it->count * width);
    }
}

/* The first or the second of two numbers of four bytes that each of so many entries begins with. */
static void put_halves(struct output *to, const void *entries, size_t count, size_t size, int second) {
    align(to);
    for (size_t at = 0; at < count; at++)
        put(to, (const uint8_t *)entries + at * size + (second ? 4 : 0), 4);
}

static void put_names(struct output *to, const struct names *names) {
    uint32_t place = 0;
    align(to);
    for (size_t at = 0; at < names->count; at++)
        put(to, &names->all[at].addr, 4);
    align(to);
    for (size_t at = 0; at < names->count; at++) {
        put(to, &place, 4);
        place += (uint32_t)strlen(names->all[at].text) + 1;
    }
}

void write_list(const char *path, const struct told *told) {
    struct ranges ranges = {NULL, NULL, 0, 0, 0};
    struct output to = create(path);
    uint32_t texts = 0;
    for (size_t at = 0; at < told->names->count; at++)
        texts += (uint32_t)strlen(told->names->all[at].text) + 1;
    find_ranges(told, &ranges);
    put_head(&to, told, &ranges, texts);
    put_columns(&to, told->evidence);
    for (int second = 0; second < 2; second++)
        put_halves(&to, told->blocks->all, told->blocks->count, sizeof *told->blocks->all, second);
    align(&to);
    put(&to, told->blocks->begins_function, told->blocks->count);
    put_names(&to, told->names);
    for (int second = 0; second < 2; second++)
        put_halves(&to, ranges.all, ranges.count, sizeof *ranges.all, second);
    align(&to);
    put(&to, ranges.kinds, ranges.count);
    align(&to);
    for (size_t at = 0; at < told->names->count; at++)
        put(&to, told->names->all[at].text, strlen(told->names->all[at].text) + 1);
    close_output(&to);
}

void write_starts(const char *path, const struct evidence *evidence) {
    static const char DIGITS[] = "0123456789abcdef";
    struct output to = create(path);
    for (size_t at = 0; at < evidence->count; at++) {
        char line[9];
        for (int digit = 0; digit < 8; digit++)
            line[digit] = DIGITS[evidence->found[at].addr >> (28 - 4 * digit) & 15];
        line[8] = '\n';
        put(&to, line, sizeof line);
    }
    close_output(&to);
}
