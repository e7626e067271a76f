/* A ring for threads, as it stands when a signal begins to end its process by a crash. The other threads go on, and record, until the kernel has ended
   them all, so by then the ring has what they did after the crash, and may have lost what led to it. */
#include "run.h"

enum { FIRST, END, SITE, ADDRESS_BYTES = 9, AT_ONCE = 256 };
static const unsigned FAULTS = 1u << SIGSEGV | 1u << SIGBUS | 1u << SIGFPE | 1u << SIGILL | 1u << SIGTRAP | 1u << SIGSYS,
                      OTHERS = 1u << SIGABRT | 1u << SIGQUIT | 1u << SIGXCPU | 1u << SIGXFSZ; /* these end a process with a core file, too */

/* A fault that is blocked or ignored the kernel has made one that isn't. */
bool is_crash(pid_t tid, int number) {
    if (patch->kind != RING || !patch->for_threads || number >= SIGNALS || !((FAULTS | OTHERS) >> number & 1))
        return false;
    return !is_signal_in(tid, "\nSigCgt:", number) && !is_signal_in(tid, "\nSigIgn:", number);
}

/* The number of a thread's process, as that knows it: the last one, of the innermost namespace. */
static pid_t own_pid(pid_t tid) {
    const char *rest = status_of(tid, "\nNStgid:");
    pid_t pid = 0;
    for (char *end; *rest == '\t'; rest = end)
        pid = (pid_t)strtol(rest, &end, 10);
    return pid;
}

bool is_of_thread(pid_t tid, const siginfo_t *info) {
    if (info->si_code == SI_TKILL)
        return info->si_pid == own_pid(tid);
    return info->si_code > 0 && info->si_signo < SIGNALS && FAULTS >> info->si_signo & 1;
}

/* The first address of a row, its end and its site. */
static uint64_t address_of(const struct row *row, unsigned which) { return strtoull(row_text + row->at + ADDRESS_BYTES * which, NULL, 16); }

/* The number of the site of the patched block that has an address, or PLAIN. */
static uint32_t block_of(uint64_t address) {
    for (uint32_t n = 0; n < patch->row_count; n++)
        if (patch->rows[n].number == n && address_of(patch->rows + n, FIRST) <= address && address < address_of(patch->rows + n, END))
            return n;
    return PLAIN;
}

/* Words of the ring, of which others may be written meanwhile; whether they could be read. */
static bool read_ring(const struct space *space, pid_t tid, uint32_t first, uint32_t *to, uint32_t count) {
    const uint32_t *ring = (const uint32_t *)(space->range + SCRATCH);
    for (uint32_t n = 0; space->is_shared && n < count; n++)
        to[n] = __atomic_load_n(&ring[first + n], __ATOMIC_SEQ_CST);
    return space->is_shared || read_memory(tid, patch->private_at + SCRATCH + first * sizeof *ring, to, count * sizeof *to);
}

/* The ring as it stands. The other threads claim slots while it is copied, the oldest ones first, and so many that a runner which has to wait for a processor
   finds all of them claimed: so the newest are copied first. What was claimed before it was copied is left out. */
static uint32_t *copied(const struct space *space, pid_t tid) {
    uint32_t *copy = zeros(patch->data_length), slots = patch->slots, claimed = 0, now;
    if (!read_ring(space, tid, 0, copy, 1))
        return memcpy(copy, space->range + SCRATCH, patch->data_length);
    for (uint32_t back = 0, count; back < slots - claimed; back += count) {
        uint32_t end = (copy[0] - 1 - back) % slots + 1; /* of the slots before those that were copied */
        count = slots - back < AT_ONCE ? slots - back : AT_ONCE;
        count = end < count ? end : count;
        uint32_t *part = copy + 1 + end - count;
        if (!read_ring(space, tid, 1 + end - count, part, count) || !read_ring(space, tid, 0, &now, 1))
            now = copy[0] + slots;
        claimed = now - copy[0] < slots ? now - copy[0] : slots;
        for (uint32_t n = 0; n < count && back + count - n > slots - claimed; n++)
            part[n] = 0;
    }
    return copy;
}

/* Leaves out what came after an event, which is so far back from the position. */
static void end_with(uint32_t *ring, uint32_t back, uint32_t number) {
    uint32_t position = ring[0];
    for (uint32_t n = 1; n < back; n++)
        ring[1 + (position - n) % patch->slots] = 0;
    ring[1 + (position - back) % patch->slots] = number + 1;
    ring[0] = position - back + 1;
}

static bool is_site_within(uint32_t number, uint64_t low, uint64_t high) {
    if (number >= patch->row_count || patch->rows[number].number != number)
        return false;
    uint64_t site = address_of(patch->rows + number, SITE);
    return low <= site && site < high;
}

/* Ends with the last event of the sites in a range, or where others have claimed all slots since with that of one which is known to have been executed;
   whether there are such sites. */
static bool end_within(uint32_t *ring, uint64_t low, uint64_t high, uint32_t known) {
    uint32_t number = 0, back = 1;
    while (number < patch->row_count && !is_site_within(number, low, high))
        number++;
    if (number == patch->row_count)
        return false;
    while (back <= patch->slots && !is_site_within(ring[1 + (ring[0] - back) % patch->slots] - 1, low, high))
        back++;
    if (back <= patch->slots)
        end_with(ring, back, ring[1 + (ring[0] - back) % patch->slots] - 1);
    else if (ring[0] >= patch->slots && known != PLAIN)
        end_with(ring, back, known);
    return true;
}

static bool end_with_site(uint32_t *ring, uint32_t number, bool is_known) {
    uint64_t site = address_of(patch->rows + number, SITE);
    return end_within(ring, site, site + 1, is_known ? number : PLAIN);
}

/* Where a thread stands in its block behind the site, that is what it executed last. Where it isn't there yet, or the block isn't patched, it is the last
   event of its function, of which it has executed the first block. Whether it is one of this function. */
static bool end_with_stand(uint32_t *ring, const struct frame *frame) {
    uint32_t number = block_of(frame->at), first = block_of(frame->begin);
    bool is_before = number != PLAIN && frame->at <= address_of(patch->rows + number, SITE);
    if (number != PLAIN && (!is_before || !frame->end))
        return end_with_site(ring, number, !is_before);
    return !(is_before && number == first) && end_within(ring, frame->begin, frame->end, first);
}

/* Else it is one of the function that called this, which may have no sites either, as mostly those of the C library. */
void keep_ring(const struct task *it, int number, uint64_t stood, const struct user_regs_struct *outside) {
    struct crash *crash = &it->space->crashes[number];
    const struct tramp *tramp = tramp_at(stood);
    struct frame frames[MOST_FRAMES];
    if (crash->ring && crash->group == it->group)
        return;
    free(crash->ring);
    crash->group = it->group;
    crash->ring = copied(it->space, it->tid);
    if (!outside)
        return;
    if (tramp && tramp->number != PLAIN && stood - tramp->place >= patch->event_length)
        end_with_site(crash->ring, tramp->number, true);
    else
        for (unsigned n = 0, count = find_frames(it->tid, outside, frames); n < count && !end_with_stand(crash->ring, frames + n); n++)
            continue;
}

const uint32_t *last_ring(const struct space *it) {
    int number = 0;
    if (sscanf(it->ended, "signal %d", &number) == 1 && number < SIGNALS && it->crashes[number].ring)
        return it->crashes[number].ring;
    return (const uint32_t *)(it->range + SCRATCH);
}

void forget_rings(struct space *it) {
    for (int number = 0; number < SIGNALS; number++)
        free(it->crashes[number].ring);
}
