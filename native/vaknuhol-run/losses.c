/* Whether a process still has the memory of its patch as it ends: a program may map other memory there, or take it away, and ends as the original does if it
   comes to no trampoline then. What it did meanwhile may be missing in its record. Memory of its own (spaces.c) that other memory of no file has replaced
   isn't told from it; and a process isn't looked at where it begins another program (exec), since its memory is gone by then, nor where the runner may not see
   its mappings. */
#include "run.h"

#include <inttypes.h>

enum { ANY_FILE = 4096 };
struct mapping {
    uint64_t low, high, offset, inode;
    unsigned major, minor;
    char access[5], name[ANY_FILE];
};
struct piece { /* of the patch, which may have to be looked for in several mappings */
    uint64_t low, high;
    bool is_code;
};

static struct mapping of_file; /* the one in which the program begins; without an inode where it isn't known */

static FILE *mappings_of(pid_t tid) {
    char path[40];
    snprintf(path, sizeof path, "/proc/%d/maps", tid);
    return fopen(path, "re");
}

/* They ascend. Behind the last one is one that begins and ends nowhere. */
static void next_mapping(FILE *maps, struct mapping *it) {
    static char line[ANY_FILE + 128];
    it->name[0] = 0;
    if (!fgets(line, sizeof line, maps)
        || sscanf(line, "%" SCNx64 "-%" SCNx64 " %4s %" SCNx64 " %x:%x %" SCNu64 " %4095[^\n]", &it->low, &it->high, it->access, &it->offset, &it->major,
                  &it->minor, &it->inode, it->name)
               < 7)
        it->low = it->high = UINT64_MAX;
}

void know_file(pid_t tid, uint64_t begin) {
    struct mapping it = {0};
    FILE *maps = of_file.inode ? NULL : mappings_of(tid);
    if (!maps)
        return;
    while (it.high <= begin)
        next_mapping(maps, &it);
    if (it.low <= begin)
        of_file = it;
    fclose(maps);
}

static bool is_of_file(const struct mapping *it) {
    return !of_file.inode || (it->inode == of_file.inode && it->major == of_file.major && it->minor == of_file.minor);
}

/* Whether a mapping is what the patch had there. */
static bool is_right(const struct space *space, const struct mapping *it, bool is_code) {
    if (is_code)
        return it->access[2] == 'x' && is_of_file(it);
    if (it->access[0] != 'r' || it->access[1] != 'w')
        return false;
    if (space->is_shared)
        return it->inode == (uint64_t)space->id && !strncmp(it->name, "/SYSV", 5) && it->low - it->offset == patch->private_at;
    return !it->inode || is_of_file(it);
}

/* Goes on to the mapping in which a piece is lost, or, where it isn't, to its last one; whether it is. */
static bool is_lost_in(const struct space *space, FILE *maps, struct mapping *it, const struct piece *piece) {
    for (uint64_t at = piece->low; at < piece->high; at = it->high) {
        while (it->high <= at)
            next_mapping(maps, it);
        if (it->low > at || !is_right(space, it, piece->is_code))
            return true;
    }
    return false;
}

/* What a trampoline takes at least: its event, and a byte of what comes behind that. Where it ends isn't known. */
static uint64_t least_end(const struct tramp *it) {
    uint64_t end = it->place + event_of(it) + 1;
    return end < it[1].place ? end : it[1].place;
}

/* The first piece that is lost, of the range or of the code; whether there is one. */
static bool find_lost(const struct space *space, FILE *maps, struct mapping *it, bool is_code, struct piece *lost) {
    *lost = (struct piece){patch->private_at, patch->private_at + patch->private_length, false};
    if (!is_code)
        return is_lost_in(space, maps, it, lost);
    for (uint32_t n = 0; n + 1 < patch->tramp_count; n++) {
        *lost = (struct piece){tramps[n].place, least_end(tramps + n), true};
        if (tramps[n].number != NOWHERE && is_lost_in(space, maps, it, lost))
            return true;
    }
    return false;
}

static bool has_recorded(const struct space *space) {
    const uint8_t *data = space->range + SCRATCH;
    return patch->data_length && (data[0] || memcmp(data, data + 1, patch->data_length - 1));
}

static void tell(pid_t group, const struct mapping *it, const struct piece *lost) {
    static bool is_told;
    bool is_there = it->low < lost->high;
    uint64_t low = is_there && it->low > lost->low ? it->low : lost->low, high = is_there && it->high < lost->high ? it->high : lost->high;
    const char *what = !is_there ? "nothing" : it->name[0] ? it->name : it->access[2] == 'x' ? "other code" : "other memory";
    if (is_told)
        return;
    is_told = true;
    warnx("warning: process %d has replaced the %s of its patch at %08" PRIx64 "-%08" PRIx64 " (now %s), so events may be missing: vaknuhol fit PROGRAM -- "
          "ARGUMENTS shows where",
          group, lost->is_code ? "code" : "memory", low, high, what);
}

/* A file of the loader form has no code before that is mapped, which may not come to be: where nothing was recorded, code that is nowhere is none that is
   lost. */
bool is_lost(const struct space *space, pid_t tid, pid_t group) {
    bool is = false;
    for (int is_code = 0; is_code < 2 && !is; is_code++) {
        struct mapping it = {0};
        struct piece lost;
        FILE *maps = mappings_of(tid);
        if (!maps)
            return false;
        next_mapping(maps, &it);
        if (it.high < UINT64_MAX)
            is = find_lost(space, maps, &it, is_code, &lost) && (!is_code || it.low < lost.high || has_recorded(space));
        fclose(maps);
        if (is)
            tell(group, &it, &lost);
    }
    return is;
}
