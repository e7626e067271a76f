#include "run.h"

#include <glob.h>
#include <inttypes.h>
#include <limits.h>

static char half_path[PATH_MAX + 24]; /* what is written so far has a name that no other process has */
static FILE *half;
static uint64_t *total;
static uint32_t *events; /* of a ring, those that are shown */

static void forget_half(void) { unlink(half_path); }

/* A file of ours alone: what stood there is no link that we follow, and no file of another user that we write to, give away or open to others. */
static FILE *new_half(void) {
    unlink(half_path);
    int file = open(half_path, O_WRONLY | O_CREAT | O_EXCL | O_NOFOLLOW | O_CLOEXEC, 0666);
    return file < 0 ? NULL : fdopen(file, "w");
}

void open_record(const struct run *run) {
    snprintf(half_path, sizeof half_path, "%s.%d.part", run->record, getpid());
    half = new_half();
    if (!half)
        err(REFUSED, "%s can't be written", run->record);
    fclose(half);
    atexit(forget_half);
    total = zeros(patch->sites * sizeof *total);
}

void add_counts(const struct space *it) {
    const uint8_t *data = it->range + SCRATCH;
    for (unsigned n = 0; n < patch->sites; n++)
        total[n] += patch->kind == COUNT ? ((const uint64_t *)data)[n] : data[n];
}

/* The rows' text, with counts in the place of zeros. */
static void put_counts(void) {
    const struct space *it;
    const char *rest = row_text;
    uint64_t *of_ended = total;
    total = memcpy(zeros(patch->sites * sizeof *total), of_ended, patch->sites * sizeof *total);
    TAILQ_FOREACH(it, &all_spaces, others)
    add_counts(it);
    for (const struct row *row = patch->rows, *end = row + patch->row_count; row < end; row++) {
        if (row->number >= patch->sites || !total[row->number])
            continue;
        fwrite(rest, 1, (size_t)(row_text + row->at + ROW_ADDRESSES - rest), half);
        fprintf(half, "%" PRIu64, patch->kind == COVER ? 1 : total[row->number]);
        rest = row_text + row->at + ROW_ADDRESSES + 1;
    }
    fwrite(rest, 1, (size_t)(row_text + patch->text_length - rest), half);
    free(total);
    total = of_ended;
}

/* The number of a site and 1 in a slot of a ring, from the one that is next and round to it, oldest first; an unused slot holds 0. */
static uint32_t slot_at(const uint32_t *ring, uint32_t position, unsigned n) { return ring[1 + (position % patch->slots + n) % patch->slots]; }

/* The last events of a ring, as many as are shown, oldest first; they stand until the next call. */
static const uint32_t *last_events(const uint32_t *ring, unsigned *count) {
    uint32_t position = ring[0];
    unsigned left = patch->shown;
    events = events ? events : zeros(patch->shown * sizeof *events);
    for (unsigned n = patch->slots; n && left; n--) {
        uint32_t event = slot_at(ring, position, n - 1);
        if (event)
            events[--left] = event;
    }
    *count = patch->shown - left;
    return events + left;
}

/* A ring takes more room than what is shown of it. */
void keep_events(struct space *it) {
    const uint32_t *events = last_events(last_ring(it), &it->event_count);
    it->events = memcpy(zeros(it->event_count * sizeof *events), events, it->event_count * sizeof *events);
}

static void put_ring(const struct space *it) {
    unsigned count = it->event_count;
    const uint32_t *events = it->events ? it->events : last_events((const uint32_t *)(it->range + SCRATCH), &count);
    fprintf(half, "process %d %s\n", it->number, it->ended);
    for (unsigned n = 0; n < count; n++)
        if (events[n] <= patch->row_count && patch->rows[events[n] - 1].number == events[n] - 1)
            fprintf(half, "%.*s\n", ROW_ADDRESSES - 1, row_text + patch->rows[events[n] - 1].at);
        else
            fputs("-\n", half);
}

static void put_rings(void) {
    const struct space *it;
    fprintf(half, "left %s\n", patch->left);
    TAILQ_FOREACH(it, &ended_spaces, others)
    put_ring(it);
    TAILQ_FOREACH(it, &all_spaces, others)
    put_ring(it);
}

/* Records are named by the time at which they were begun, so the oldest come first. */
static void remove_oldest(const struct run *run) {
    glob_t found;
    if (!run->keep || chdir(run->folder) || glob("*.record", 0, NULL, &found))
        return;
    for (size_t n = 0; n + run->keep < found.gl_pathc; n++)
        unlink(found.gl_pathv[n]);
    globfree(&found);
}

/* The file takes the place of the one before, with its mode, and its owner where the system lets us give it away. */
static bool settle(const char *record_path) {
    struct stat former;
    int file = fileno(half);
    bool is_whole = !ferror(half);
    if (!stat(record_path, &former))
        is_whole &= !fchmod(file, former.st_mode & (fchown(file, former.st_uid, former.st_gid) ? 0777 : 07777));
    return !fclose(half) && is_whole && !rename(half_path, record_path);
}

void write_record(struct run *run, bool is_ended) {
    static char buffer[1 << 17];
    static int failures;
    run->is_written = is_ended;
    half = new_half();
    if (half) {
        setvbuf(half, buffer, _IOFBF, sizeof buffer);
        fprintf(half, "vakrecord 1\n%sstate %s\nprocesses %d threads %d execs %d", patch->head, is_ended ? "ended" : "running", run->processes, run->threads,
                run->execs);
        if (run->unrecorded)
            fprintf(half, " unrecorded %d", run->unrecorded);
        if (run->lost)
            fprintf(half, " lost %d", run->lost);
        fputs("\n", half);
        patch->kind == RING ? put_rings() : put_counts();
        fputs("end\n", half);
    }
    bool is_there = half && settle(run->record);
    if (!is_there && !failures++)
        warn("%s can't be written", run->record);
    if (is_there && is_ended)
        remove_oldest(run);
    forget_half();
}
