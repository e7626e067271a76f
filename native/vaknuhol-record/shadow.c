#include "shadow.h"

#include <stdlib.h>
#include <string.h>

#include "child.h"
#include "file.h"
#include "refusing.h"

enum { MOST_RANGES = 4096, LINE = 4096 };

struct ranges {
    struct range at[MOST_RANGES];
    int count;
};

/* What is known of a page of the process: its bytes as the script's reader has them. */
struct page {
    uint64_t at;
    uint8_t *bytes;
};

static struct ranges own, seen;
static struct page first_pages[1 << 12], *shadow = first_pages;
static size_t shadow_size = 1 << 12, shadow_count;

void read_segments(const char *path) {
    struct elf elf;
    if (!map_file(&elf.file, path, sizeof(Elf64_Ehdr)) || !find_tables(&elf))
        die(path);
    for (const Elf64_Phdr *it = elf.headers; it < elf.headers + elf.header_count; it++)
        if (it->p_type == PT_LOAD && it->p_memsz && own.count < MOST_RANGES)
            own.at[own.count++] = (struct range){it->p_vaddr / PAGE * PAGE, (it->p_vaddr + it->p_memsz + PAGE - 1) / PAGE * PAGE, false, false};
}

/* The place of a page in the shadow, empty where the page isn't known. */
static struct page *place_of(uint64_t at) {
    size_t place = (at / PAGE * 0x9e3779b97f4a7c15) >> 20 & (shadow_size - 1);
    while (shadow[place].bytes && shadow[place].at != at)
        place = (place + 1) & (shadow_size - 1);
    return &shadow[place];
}

static void grow_shadow(void) {
    struct page *old = shadow;
    size_t size = shadow_size;
    shadow_size *= 2;
    shadow = zeros(shadow_size, sizeof *shadow);
    for (size_t place = 0; place < size; place++)
        if (old[place].bytes)
            *place_of(old[place].at) = old[place];
    if (old != first_pages)
        free(old);
}

/* The shadow's bytes of a page; a new page has zeros. */
static uint8_t *shadow_of(uint64_t at) {
    struct page *page = place_of(at);
    if (page->bytes)
        return page->bytes;
    if (++shadow_count * 2 > shadow_size) {
        grow_shadow();
        page = place_of(at);
    }
    page->at = at;
    page->bytes = zeros(1, PAGE);
    return page->bytes;
}

bool is_own(uint64_t at) {
    for (int place = 0; place < own.count; place++)
        if (own.at[place].lo <= at && at < own.at[place].hi)
            return true;
    return false;
}

/* Adds a range to the ones that the script has to hold, without the file's own pages. */
static void add_seen(uint64_t lo, uint64_t hi, bool executable) {
    for (int at = 0; at < own.count; at++)
        if (lo < own.at[at].hi && own.at[at].lo < hi) {
            if (lo < own.at[at].lo)
                add_seen(lo, own.at[at].lo, executable);
            lo = own.at[at].hi;
        }
    if (lo >= hi)
        return;
    for (int at = 0; at < seen.count; at++)
        if (lo <= seen.at[at].hi && seen.at[at].lo <= hi) {
            struct range met = seen.at[at];
            seen.at[at] = seen.at[--seen.count];
            add_seen(met.lo < lo ? met.lo : lo, met.hi > hi ? met.hi : hi, executable || met.executable);
            return;
        }
    if (seen.count == MOST_RANGES)
        die("the program maps too many ranges of memory");
    seen.at[seen.count++] = (struct range){lo, hi, executable, false};
}

/* The readable ranges of the process that the run may change or that lie beside its file; they are marked as seen. */
static void read_maps(struct ranges *ranges) {
    char line[LINE], perms[8], name[256];
    uint64_t lo, hi, inode;
    FILE *maps = fopen(proc_path("maps"), "r");
    if (!maps)
        die(proc_path("maps"));
    ranges->count = 0;
    while (fgets(line, sizeof line, maps)) {
        name[0] = 0;
        if (sscanf(line, "%lx-%lx %7s %*s %*s %lu %255s", &lo, &hi, perms, &inode, name) < 4 || perms[0] != 'r' || !strncmp(name, "[v", 2)
            || (perms[1] != 'w' && is_own(lo)))
            continue;
        if (ranges->count == MOST_RANGES)
            die("the program maps too many ranges of memory");
        ranges->at[ranges->count++] = (struct range){lo, hi, perms[2] == 'x', inode == 0};
        add_seen(lo, hi, perms[2] == 'x');
    }
    fclose(maps);
}

void see_maps(void) {
    static struct ranges now;
    read_maps(&now);
}

uint64_t end_of_range(uint64_t at) {
    static struct ranges now;
    read_maps(&now);
    for (int place = 0; place < now.count; place++)
        if (now.at[place].lo <= at && at < now.at[place].hi)
            return now.at[place].hi;
    return at;
}

static int by_lo(const void *a, const void *b) {
    uint64_t one = ((const struct range *)a)->lo, other = ((const struct range *)b)->lo;
    return (one > other) - (one < other);
}

int seen_ranges(const struct range **ranges) {
    qsort(seen.at, seen.count, sizeof seen.at[0], by_lo);
    *ranges = seen.at;
    return seen.count;
}

/* Which pages of a range have to be read: those that are there, and those of mapped files. */
static void read_presence(const struct range *range, uint8_t *is_there, size_t pages) {
    uint64_t entry[512];
    for (size_t at = 0; at < pages; at += 512) {
        size_t count = pages - at < 512 ? pages - at : 512;
        bool is_known = read_pagemap(range->lo / PAGE + at, entry, count);
        for (size_t place = 0; place < count; place++)
            is_there[at + place] = !is_known || entry[place] >> 62 != 0 || (!range->anonymous && !is_own(range->lo));
    }
}

/* The bytes that differ, as entries of an answer. */
static void write_writes(FILE *entries, uint64_t at, uint8_t *before, const uint8_t *after, size_t size) {
    for (size_t lo = 0, hi; lo < size; lo = hi) {
        for (hi = lo; hi < size && before[hi] == after[hi]; hi++)
            ;
        if ((lo = hi) == size)
            break;
        for (; hi < size && before[hi] != after[hi]; hi++)
            ;
        fprintf(entries, "mem %016lx ", at + lo);
        for (size_t place = lo; place < hi; place++)
            fprintf(entries, "%02x", after[place]);
        fputc('\n', entries);
    }
    memcpy(before, after, size);
}

void take_all(FILE *entries) {
    static struct ranges now;
    static uint8_t bytes[PAGE];
    read_maps(&now);
    for (int at = 0; at < now.count; at++) {
        const struct range *range = &now.at[at];
        size_t pages = (range->hi - range->lo) / PAGE;
        uint8_t *is_there = zeros(pages, 1);
        read_presence(range, is_there, pages);
        for (size_t place = 0; place < pages; place++) {
            uint64_t page = range->lo + place * PAGE;
            bool is_read = is_there[place] && read_memory(tracee(), page, bytes, PAGE);
            if (!is_read && (is_own(page) || !place_of(page)->bytes))
                continue;
            if (!is_read)
                memset(bytes, 0, PAGE);
            uint8_t *before = shadow_of(page);
            if (!entries)
                memcpy(before, bytes, PAGE);
            else if (memcmp(before, bytes, PAGE))
                write_writes(entries, page, before, bytes, PAGE);
        }
        free(is_there);
    }
}

void take_spans(const struct span *spans, int count, FILE *entries) {
    static uint8_t bytes[PAGE];
    for (int at = 0; at < count; at++)
        for (uint64_t lo = spans[at].lo, hi; lo < spans[at].hi; lo = hi) {
            hi = (lo / PAGE + 1) * PAGE < spans[at].hi ? (lo / PAGE + 1) * PAGE : spans[at].hi;
            if (!read_memory(tracee(), lo, bytes, hi - lo))
                continue;
            uint8_t *before = shadow_of(lo / PAGE * PAGE) + lo % PAGE;
            if (!entries)
                memcpy(before, bytes, hi - lo);
            else if (memcmp(before, bytes, hi - lo))
                write_writes(entries, lo, before, bytes, hi - lo);
        }
}
