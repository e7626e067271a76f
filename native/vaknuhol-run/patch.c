#include "run.h"

#include <ctype.h>
#include <sys/mman.h>

const struct patch *patch;
const struct tramp *tramps;
const struct rule *rules;
const struct covered *covered;
const char *row_text;
static const char MARK[sizeof patch->mark] = "vakrun 7\n";

enum { ADDRESS_DIGITS = 8, MOST_NUMBERS = 1 << 24, PAGE = 4096, SIGN_COUNT = 6, REGISTERS = 16, HIGHEST = 0x7fffffff };

static bool is_text(const char *text, size_t size) { return memchr(text, 0, size) != NULL; }

/* What the record takes in the private range. */
static uint64_t record_length(void) {
    return patch->kind == RING    ? sizeof(uint32_t) * (1 + (uint64_t)patch->slots)
           : patch->kind == COUNT ? sizeof(uint64_t) * (uint64_t)patch->sites
                                  : patch->sites;
}

static bool has_right_head(void) {
    bool is_ring = patch->kind == RING;
    return is_text(patch->head, sizeof patch->head) && is_text(patch->left, sizeof patch->left) && is_text(patch->warning, sizeof patch->warning)
           && patch->kind <= RING && patch->for_threads <= 1 && patch->sites <= MOST_NUMBERS && patch->slots <= MOST_NUMBERS
           && (!is_ring || (patch->shown && patch->shown <= patch->slots)) && patch->event_length <= LONGEST_EVENT
           && patch->comparison_count <= MOST_COMPARISONS && patch->told.header_count <= UINT16_MAX;
}

static bool has_right_range(void) {
    return patch->data_length >= record_length() && patch->private_at % PAGE == 0 && patch->private_at && patch->private_at <= HIGHEST
           && patch->private_length % PAGE == 0 && patch->private_length <= HIGHEST && patch->data_length <= patch->private_length
           && patch->private_length - patch->data_length >= SCRATCH;
}

static bool has_right_comparisons(void) {
    for (unsigned n = 0; n < patch->comparison_count; n++)
        if (patch->comparisons[n].reg >= REGISTERS || patch->comparisons[n].sign >= SIGN_COUNT)
            return false;
    return true;
}

/* Whether a line begins there by three addresses, each with a blank after it. */
static bool is_row_text(uint32_t at) {
    if (at > patch->text_length || patch->text_length - at <= ROW_ADDRESSES)
        return false;
    for (unsigned n = 0; n < ROW_ADDRESSES; n++)
        if (n % (ADDRESS_DIGITS + 1) == ADDRESS_DIGITS ? row_text[at + n] != ' ' : !isxdigit((unsigned char)row_text[at + n]))
            return false;
    return true;
}

/* Rows have their lines in order; those of a ring stand at their numbers, and where a number has no site there is no line. */
static bool has_right_rows(void) {
    uint64_t behind = 0;
    for (uint32_t n = 0; n < patch->row_count; n++) {
        const struct row *row = patch->rows + n;
        if (row->number == PLAIN && patch->kind == RING)
            continue;
        if (!is_row_text(row->at) || (row->number != PLAIN && row->number >= patch->sites))
            return false;
        if (patch->kind == RING ? row->number != n : row->at < behind)
            return false;
        behind = (uint64_t)row->at + ROW_ADDRESSES + 1;
    }
    return true;
}

/* Trampolines ascend, and the last row is nowhere; those with an event have a site. */
static bool has_right_tramps(void) {
    for (uint32_t n = 0; n < patch->tramp_count; n++)
        if ((n && tramps[n].place < tramps[n - 1].place) || (tramps[n].number < NOWHERE && tramps[n].number >= patch->sites))
            return false;
    return !patch->tramp_count || tramps[patch->tramp_count - 1].number == NOWHERE;
}

static bool has_right_rules(void) {
    for (uint32_t n = 1; n < patch->rule_count; n++)
        if (rules[n].at < rules[n - 1].at)
            return false;
    return true;
}

static bool has_right_covered(void) {
    for (uint32_t n = 0; n < patch->covered_count; n++)
        if (covered[n].length > sizeof covered[n].bytes)
            return false;
    return true;
}

void read_patch(const char *path) {
    struct stat state;
    int file = open(path, O_RDONLY | O_CLOEXEC);
    if (file < 0 || fstat(file, &state))
        err(REFUSED, "%s", path);
    size_t length = (size_t)state.st_size;
    void *whole = length < sizeof *patch ? MAP_FAILED : mmap(NULL, length, PROT_READ, MAP_PRIVATE, file, 0);
    close(file);
    if (whole == MAP_FAILED && length >= sizeof *patch)
        err(REFUSED, "%s can't be read into memory, on which there may be a limit (ulimit -v)", path);
    patch = whole == MAP_FAILED ? NULL : whole;
    if (!patch || memcmp(patch->mark, MARK, sizeof patch->mark)
        || length
               != sizeof *patch + (size_t)patch->row_count * sizeof *patch->rows + (size_t)patch->tramp_count * sizeof *tramps
                      + (size_t)patch->rule_count * sizeof *rules + (size_t)patch->covered_count * sizeof *covered + patch->text_length)
        errx(REFUSED, "%s: it is no run file of this version: patch again", path);
    tramps = (const struct tramp *)(patch->rows + patch->row_count);
    rules = (const struct rule *)(tramps + patch->tramp_count);
    covered = (const struct covered *)(rules + patch->rule_count);
    row_text = (const char *)(covered + patch->covered_count);
    if (!has_right_head() || !has_right_range() || !has_right_comparisons() || !has_right_rows() || !has_right_tramps() || !has_right_rules()
        || !has_right_covered())
        errx(REFUSED, "%s: this run file is damaged: patch again", path);
}

static int beside(const void *address, const void *row) {
    const struct tramp *it = row;
    uint64_t at = *(const uint64_t *)address;
    return at < it->place ? -1 : at >= it[1].place;
}

/* The last one is nowhere, and ends the one before. */
const struct tramp *tramp_at(uint64_t address) {
    uint32_t count = patch->tramp_count;
    const struct tramp *it = count ? bsearch(&address, tramps, count - 1, sizeof *tramps, beside) : NULL;
    return it && it->number != NOWHERE ? it : NULL;
}

uint64_t event_of(const struct tramp *it) { return it->number == PLAIN ? 0 : patch->event_length; }

/* An event for threads, and one that covers, saves none; a displaced call does where it isn't one for threads. */
bool is_shareable(pid_t tid) {
    uint64_t code;
    if (patch->for_threads)
        return true;
    for (uint32_t n = 0; n < patch->tramp_count; n++)
        if (tramps[n].number != NOWHERE && (!read_word(tid, tramps[n].place + event_of(tramps + n), &code) || code == (patch->private_at << 32 | SAVE_RAX)))
            return false;
    return patch->kind == COVER && !patch->comparison_count;
}

void *zeros(size_t bytes) {
    void *place = calloc(1, bytes ? bytes : 1);
    if (!place)
        errx(REFUSED, "no memory is left for the record, or there is a limit on it (ulimit -v)");
    return place;
}
