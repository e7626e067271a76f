#include "facts.h"

#include <stdio.h>
#include <stdlib.h>
#include <string.h>

#include "file.h"
#include "refusing.h"
#include "spelling.h"

enum { PAGE = 4096, PAGES = 1 << 18, MOST_SEGMENTS = 64, SCRATCH = 64, SAVED_FROM = 1 };

static struct {
    uint64_t page;
    uint16_t *marks;
} pages[PAGES];
static struct {
    uint64_t lo, hi;
    const uint8_t *bytes;
} code[MOST_SEGMENTS];
static int code_count;
static struct site *sites;
static size_t count, room;
static uint64_t private_at;
static struct told told;
static struct event event;

/* The marks of a page's addresses; without `made` none where there are none yet. */
static uint16_t *page_marks(uint64_t page, bool made) {
    size_t at = (page * 0x9e3779b97f4a7c15) >> 46, tries = 0;
    for (; pages[at].marks; at = (at + 1) % PAGES, tries++)
        if (pages[at].page == page)
            return pages[at].marks;
    if (!made)
        return 0;
    if (tries > PAGES / 2)
        die("no memory");
    pages[at].page = page;
    pages[at].marks = zeros(PAGE, sizeof(uint16_t));
    return pages[at].marks;
}

unsigned marks_of(uint64_t addr) {
    uint16_t *marks = page_marks(addr / PAGE, false);
    return marks ? marks[addr % PAGE] : 0;
}

void set_marks(uint64_t addr, unsigned bits) { page_marks(addr / PAGE, true)[addr % PAGE] |= bits; }

/* The end of the page of an address, or an end before it. */
static uint64_t page_end(uint64_t addr, uint64_t hi) {
    uint64_t end = (addr / PAGE + 1) * PAGE;
    return end && end < hi ? end : hi;
}

void clear_marks(uint64_t lo, uint64_t hi, unsigned bits) {
    for (uint64_t end; lo < hi; lo = end) {
        uint16_t *marks = page_marks(lo / PAGE, false);
        end = page_end(lo, hi);
        for (; marks && lo < end; lo++)
            marks[lo % PAGE] &= ~bits;
    }
}

uint64_t first_marked(uint64_t lo, uint64_t hi, unsigned bits) {
    for (uint64_t end; lo < hi; lo = end) {
        uint16_t *marks = page_marks(lo / PAGE, false);
        end = page_end(lo, hi);
        for (; marks && lo < end; lo++)
            if (marks[lo % PAGE] & bits)
                return lo;
    }
    return hi;
}

struct site *site_at(uint64_t addr) {
    size_t low = 0, high = count;
    while (high - low > 1) {
        size_t middle = (low + high) / 2;
        *(sites[middle].place <= addr ? &low : &high) = middle;
    }
    return count && sites[low].place <= addr && addr <= sites[low].place + sites[low].event ? &sites[low] : 0;
}

const struct told *told_to_original(void) { return &told; }

const struct event *every_event(void) { return &event; }

struct site *site_number(size_t number) {
    return &sites[number];
}

size_t site_count(void) { return count; }

uint64_t record_address(void) { return private_at + SCRATCH; }

uint64_t mark_address(const struct site *site) { return record_address() + site->number * event.size; }

int original_code(uint64_t addr, uint8_t bytes[LONGEST]) {
    for (int at = 0; at < code_count; at++)
        if (code[at].lo <= addr && addr < code[at].hi) {
            uint64_t length = code[at].hi - addr < LONGEST ? code[at].hi - addr : LONGEST;
            memcpy(bytes, code[at].bytes + (addr - code[at].lo), length);
            return (int)length;
        }
    return 0;
}

/* The bytes that the file has of the segments that can be executed and not written. */
static void read_original(const char *path) {
    struct elf elf;
    if (!map_file(&elf.file, path, sizeof(Elf64_Ehdr)) || !find_tables(&elf))
        die("the original can't be read");
    for (const Elf64_Phdr *it = elf.headers; it < elf.headers + elf.header_count && code_count < MOST_SEGMENTS; it++) {
        if (it->p_type != PT_LOAD || !(it->p_flags & PF_X) || it->p_flags & PF_W || !it->p_filesz)
            continue;
        if (!is_in_file(&elf.file, it->p_offset, it->p_filesz))
            die("the original can't be read");
        code[code_count].lo = it->p_vaddr, code[code_count].hi = it->p_vaddr + it->p_filesz;
        code[code_count++].bytes = elf.file.bytes + it->p_offset;
    }
}

static void add_site(struct site site) {
    sites = room_for_one(sites, count, &room, sizeof *sites);
    sites[count++] = site;
    set_marks(site.addr, SITE);
    set_marks(site.place + site.event, WORK);
    for (uint64_t at = 0; at < site.event; at++)
        set_marks(site.place + at, EVENT | (event.recorded == site.event ? 0 : at < SAVED_FROM ? SAVES : HAS_SAVED));
}

/* Marks the bytes of the listed instructions, once all starts are known: one of unknown length reaches to the next start at most. */
static void mark_listed(const uint64_t *starts, size_t starts_count) {
    uint8_t bytes[LONGEST];
    for (size_t at = 0; at < starts_count; at++) {
        int have = original_code(starts[at], bytes), length = spelled_length(bytes, have);
        if (length)
            set_marks(starts[at], KNOWN);
        else
            length = at + 1 < starts_count && starts[at + 1] - starts[at] < (uint64_t)have ? (int)(starts[at + 1] - starts[at]) : have;
        set_marks(starts[at], START);
        for (int byte = 0; byte < length; byte++)
            set_marks(starts[at] + byte, LISTED);
    }
}

static int by_place(const void *a, const void *b) {
    uint64_t one = ((const struct site *)a)->place, other = ((const struct site *)b)->place;
    return (one > other) - (one < other);
}

/* Whether a line is one of what every event does. */
static bool is_event_line(const char *line) {
    int at = event.comparison_count;
    if (sscanf(line, "event %lu %lu", &event.recorded, &event.size) == 2 || sscanf(line, "ring %lu %lu", &event.slots, &event.claimed) == 2)
        return true;
    if (at == MOST_COMPARISONS || sscanf(line, "when %d %d %lu", &event.comparisons[at].reg, &event.comparisons[at].sign, &event.comparisons[at].value) != 3)
        return false;
    event.comparison_count++;
    return true;
}

void read_facts(const char *original, const char *facts) {
    char line[128];
    uint64_t *starts = 0, lo, hi;
    size_t starts_count = 0, starts_room = 0;
    FILE *file = fopen(facts, "r");
    if (!file)
        die("the facts can't be read");
    read_original(original);
    while (fgets(line, sizeof line, file)) {
        struct site site = {0};
        if (sscanf(line, "start %lx", &lo) == 1) {
            starts = room_for_one(starts, starts_count, &starts_room, sizeof *starts);
            starts[starts_count++] = lo;
        } else if (sscanf(line, "new %lx %lx", &lo, &hi) == 2)
            for (; lo < hi; lo++)
                set_marks(lo, NEW);
        else if (sscanf(line, "site %lx %lx %lu %lu", &site.addr, &site.place, &site.number, &site.event) == 4)
            add_site(site);
        else if (!is_event_line(line) && sscanf(line, "private %lx", &private_at) != 1
                 && sscanf(line, "told %lx %lu %lx", &told.headers_at, &told.header_count, &told.entry) != 3)
            die("the facts can't be read");
    }
    fclose(file);
    mark_listed(starts, starts_count);
    free(starts);
    if (count)
        qsort(sites, count, sizeof *sites, by_place);
}
